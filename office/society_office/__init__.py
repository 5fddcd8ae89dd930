"""Statements, orders, checks and pages out of a copy of the office's file, one module a subject."""

__version__ = "1.0"

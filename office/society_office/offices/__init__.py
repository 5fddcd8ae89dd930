"""Offices that run: the program over a copy, requests, what an office answers, and its files."""

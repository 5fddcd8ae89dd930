"""A copy of the office's file: its bytes, its rows, its returns, and what no office writes into it."""

"""What the office decides beside the book, and who decided it."""

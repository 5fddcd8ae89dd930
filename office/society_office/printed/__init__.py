"""Pages, PDF files and pictures."""

"""What bodies and lists are made of: fields, rows, numbers, and how files, returns and pools are named."""

"""What all others stand on: the error, signals, throw-away folders, and lines on a terminal."""

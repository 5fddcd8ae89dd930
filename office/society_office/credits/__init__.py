"""What pools have credited: to whom, to nobody, for which recording, and how it came about."""

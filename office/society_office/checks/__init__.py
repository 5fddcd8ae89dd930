"""What is wrong with a file, before it is sent and since."""

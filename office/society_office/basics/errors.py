"""The one error that ends a command with a line for the user."""


class OfficeError(Exception):
    """What is wrong and what to do, in a sentence; the command prints it and ends with status 1."""

"""What stops a command, in one line."""


class Failure(Exception):
    """Why nothing was done."""

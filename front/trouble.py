"""What keeps a path from being settled before any program has answered."""


class Trouble(Exception):
    """A missing file, a text with errors, or a program that could not be built; the message is for staff."""

    def __init__(self, message, short=None):
        super().__init__(message)
        # What the line at the end of many says.
        self.short = short or message

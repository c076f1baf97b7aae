"""Files that are named where they can't be read."""


class Unread(Exception):
    """The name of a file and why it can't be read."""


class Source:
    """A file that is read from front to back."""

    def __init__(self, name):
        self.name = name
        try:
            self.file = open(name, "rb", buffering=65536)
        except OSError as bad:
            raise Unread(f"{name}: {bad.strerror}") from None

    def read(self, size):
        try:
            return self.file.read(size)
        except OSError as bad:
            raise Unread(f"{self.name}: {bad.strerror}") from None

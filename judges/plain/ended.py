"""How a call of the program ends where it can't do what it is asked (docs/FORMATS.md, "Words, statuses and lines")."""


class Refused(Exception):
    """A call ends with a status that isn't 0, and with a line."""

    def __init__(self, status, line):
        super().__init__(status, line)
        self.status = status
        self.line = line

    @property
    def said(self):
        return f"{self.line}\n".encode()

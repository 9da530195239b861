"""What ends a command before its work is done."""


class Trouble(Exception):
    """A fault that is told to whoever typed the command, in words, and the status that the command ends with."""

    def __init__(self, said: str, status: int = 1) -> None:
        super().__init__(said)
        self.status = status

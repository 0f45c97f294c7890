"""What ends a command: a wrong use of it, or a file that can't be read."""


WRONG_USE = 64


class Failure(Exception):
    """A command ends with this status, and says this on standard error."""

    def __init__(self, status, says):
        super().__init__(says)
        self.status, self.says = status, says


class WrongUse(Failure):
    """A command was called with other words than it takes; its usage is said."""

    def __init__(self):
        super().__init__(WRONG_USE, "")

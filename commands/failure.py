"""How a command ends otherwise than done. The text goes to standard error."""


class Failed(Exception):
    """Something failed or is refused: status 1."""


class Misused(Exception):
    """Options that do not go together: status 2, after the usage."""

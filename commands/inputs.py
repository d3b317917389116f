"""Files that a command is given; - is standard input. Read or opened before anything is proved."""
import sys

from commands.failure import Failed

# One byte more than the largest slot of document 01: nothing longer is an image or a board, and a program sees it.
MOST = 64 * 4096 + 1


def opened(name):
    """For reading bytes. A folder and a missing file are told by their name."""
    if name == "-" and sys.stdin is None:
        raise Failed("standard input is closed")
    if name == "-":
        return sys.stdin.buffer
    try:
        return open(name, "rb")
    except (OSError, ValueError) as error:
        raise Failed(told(name, error)) from error


def contents(name):
    try:
        with opened(name) as file:
            return file.read(MOST)
    except OSError as error:
        raise Failed(told(name, error)) from error


def named(name):
    return "standard input" if name == "-" else name or "a file without a name"


def told(name, error):
    return f"{named(name)}: {getattr(error, 'strerror', None) or error}"

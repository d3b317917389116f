"""Files that a command writes: whole or not at all."""
import os
import tempfile
from contextlib import contextmanager
from pathlib import Path

from commands.failure import Failed
from commands.inputs import told


@contextmanager
def work_folder():
    """A folder for what a program is to read, removed in the end."""
    try:
        with tempfile.TemporaryDirectory(prefix="frondicare-") as name:
            yield Path(name)
    except OSError as error:
        raise Failed(told(error.filename or "a temporary folder", error)) from error


def can_be_written(name, read):
    """Looked at before anything is proved. A device or a pipe is not replaced by a file, nor is what is read."""
    path = Path(os.path.realpath(name))
    if name == "" or path.is_dir() or (path.exists() and not path.is_file()):
        raise Failed(told(name, "no file that can be written"))
    if not path.parent.is_dir():
        raise Failed(told(name, "its folder is not there"))
    if not os.access(path.parent, os.W_OK):
        raise Failed(told(name, "its folder cannot be written"))
    if path in [Path(os.path.realpath(other)) for other in read]:
        raise Failed(told(name, "it would be replaced, and it is read too"))


def write_whole(name, data):
    """By a file beside it, which then takes its name: on any failure what was there stays. A link stays a link."""
    path = Path(os.path.realpath(name))
    try:
        with tempfile.TemporaryDirectory(prefix=".frondicare-", dir=path.parent) as folder:
            part = Path(folder) / "part"
            with open(part, "wb") as file:
                file.write(data)
                file.flush()
                os.fsync(file.fileno())
            os.replace(part, path)
    except OSError as error:
        raise Failed(told(name, error)) from error

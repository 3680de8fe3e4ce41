"""Files and folders of tests."""
import os
from pathlib import Path


def read(path):
    """The contents of a file, or None if it does not exist."""
    try:
        return Path(path).read_bytes()
    except FileNotFoundError:
        return None


def write(path, data, mode=None):
    """Writes a file, with this mode if one is given. Returns its path."""
    Path(path).write_bytes(data if isinstance(data, bytes) else data.encode())
    if mode is not None:
        Path(path).chmod(mode)
    return path


class Place:
    """A folder, and the files in it by their names."""

    def __init__(self, path):
        self.path = path

    def at(self, *names):
        return os.path.join(self.path, *names)

    def write(self, name, data, mode=0o644):
        return write(self.at(name), data, mode)

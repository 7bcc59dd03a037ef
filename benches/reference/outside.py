"""Files of the current folder, files in memory, and what a run says."""
import os
import stat

from faults import Failed


class Folder:
    """Files of the current folder."""

    def read(self, name, most):
        """The bytes of a plain file, or only its size where that is more than the limit; none where there is none."""
        try:
            told = os.stat(name)
            if not stat.S_ISREG(told.st_mode):
                raise Failed
            if told.st_size > most:
                return told.st_size
            with open(name, "rb") as file:
                data = file.read(told.st_size)
        except FileNotFoundError:
            return None
        except (OSError, ValueError):
            raise Failed
        if len(data) < told.st_size:
            raise Failed
        return data

    def write(self, name, data):
        """Writes a whole file."""
        try:
            with open(name, "wb") as file:
                file.write(data)
        except (OSError, ValueError):
            raise Failed


class Memory:
    """Files in memory, by name."""

    def __init__(self, files=None):
        self.files = dict(files or {})

    def read(self, name, most):
        """The bytes of a file, or only its size where that is more than the limit; none where there is none."""
        data = self.files.get(name)
        return len(data) if data is not None and len(data) > most else data

    def write(self, name, data):
        """Writes a whole file."""
        self.files[name] = data

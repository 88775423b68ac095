"""A copy of the repository in which one thing is made wrong at a time, and what a tool says of it."""
import os
import shutil
import subprocess
import sys
import tempfile

TOP = os.path.dirname(os.path.dirname(os.path.dirname(os.path.abspath(__file__))))


class Copy:
    """A copy of the repository, without what checks made."""

    def __init__(self):
        self.room = tempfile.TemporaryDirectory(prefix="undofs-copy-")
        self.top = f"{self.room.name}/undofs"
        shutil.copytree(TOP, self.top, ignore=shutil.ignore_patterns("out", ".git", "__pycache__"))

    def close(self):
        self.room.cleanup()

    def says(self, tool, *words):
        """The status of a tool of the copy, and what it prints."""
        words = [sys.executable, f"{self.top}/tools/{tool}", *words]
        ran = subprocess.run(words, stdin=subprocess.DEVNULL, stdout=subprocess.PIPE, stderr=subprocess.STDOUT, encoding="utf-8", check=False)
        return ran.returncode, ran.stdout

    def says_with(self, path, old, new, tool, *words):
        """The same with a text of a file in the place of another, which stands there once. With no old text the file is new."""
        path = f"{self.top}/{path}"
        was = read(path) if old is not None else None
        if old is not None and was.count(old) != 1:
            raise AssertionError(f"{path} has {was.count(old)} times: {old}")
        os.makedirs(os.path.dirname(path), exist_ok=True)
        write(path, new if was is None else was.replace(old, new))
        try:
            return self.says(tool, *words)
        finally:
            os.remove(path) if was is None else write(path, was)


def read(path):
    with open(path, encoding="utf-8") as file:
        return file.read()


def write(path, text):
    with open(path, "w", encoding="utf-8") as file:
        file.write(text)

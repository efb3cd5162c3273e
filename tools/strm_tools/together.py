"""Writes files: each whole and all of them or, where one can't be written, none."""
from __future__ import annotations

import os
import stat
from typing import Iterable, Mapping

from strm_tools.ends import STANDARD_OUTPUT, end_for, name_of


class Target:
    """A file to write, from pieces of text. They go into a new file beside it, which then takes its name."""

    def __init__(self, path: str, pieces: Iterable[str]) -> None:
        self.path = path
        self.pieces = pieces
        self.file = os.path.realpath(path)
        self.new = f"{self.file}.{os.getpid()}.new"
        self.old = f"{self.file}.{os.getpid()}.old"
        self.was_there = os.path.lexists(self.file)
        self.is_put = False

    def is_device(self) -> bool:
        """Whether it is standard output, a device or a pipe, which no file can replace."""
        if self.path == "-":
            return True
        return os.path.exists(self.path) and not os.path.isdir(self.path) and not stat.S_ISREG(os.stat(self.path).st_mode)

    def place(self) -> int | str:
        """Where the text goes at first."""
        if self.path == "-":
            return os.dup(STANDARD_OUTPUT)
        return self.new if self.path and not self.is_device() else self.path

    def prepare(self, is_kept: bool) -> None:
        """Writes the text, but for a device into the new file. If `is_kept`, a file that is there already also gets a second name."""
        with open(self.place(), "wb") as file:
            for piece in self.pieces:
                file.write(piece.encode("utf-8", "replace"))
        if self.was_there and not self.is_device():
            # A folder can't be opened so, nor a file that is read only.
            os.close(os.open(self.file, os.O_WRONLY))
            os.chmod(self.new, stat.S_IMODE(os.stat(self.file).st_mode))
            if is_kept:
                os.link(self.file, self.old)

    def put(self) -> None:
        """Gives the new file the name of the file."""
        if not self.is_device():
            os.replace(self.new, self.file)
            self.is_put = True

    def take_back(self) -> None:
        """Leaves the file as it was before, if it has a second name or was not there."""
        if self.is_put and os.path.lexists(self.old):
            os.replace(self.old, self.file)
        elif self.is_put and not self.was_there:
            os.remove(self.file)

    def clear(self) -> None:
        """Removes what is beside the file."""
        for path in (self.new, self.old):
            if os.path.lexists(path):
                os.remove(path)


def write_together(texts: Mapping[str, Iterable[str]]) -> None:
    """Writes texts into files, by path, each in pieces. The path `-` is standard output."""
    targets = [Target(path, pieces) for path, pieces in texts.items()]
    # One file alone is there as soon as it has its name, so none has to be taken back. Some file systems have no second names.
    is_kept = len(targets) > 1
    try:
        for target in targets:
            target.prepare(is_kept)
        for target in targets:
            target.put()
    except BaseException as why:
        for other in targets:
            other.take_back()
        if isinstance(why, OSError):
            end_for(name_of(target.path, "standard output"), why)
        raise
    finally:
        for target in targets:
            target.clear()

"""What a session reads and shows: a terminal with a prompt, completion and colour, or plain input and output."""
from __future__ import annotations

import io
import os
import shutil
import sys
import textwrap
from types import ModuleType
from typing import Callable, Iterable, Mapping, Sequence, Tuple

from strm_tools.ends import end
from strm_tools.given import script_of_bytes
from strm_tools.limits import SCRIPT_BYTES
from strm_tools.script import Wrong

COLOURS = {"bold": "1", "red": "1;31", "yellow": "1;33"}
NARROW, LOW = 20, 4


def readline() -> ModuleType | None:
    """Python's readline, or None where there is none."""
    try:
        import readline as found
    except ImportError:
        return None
    return found


def printable(text: str) -> str:
    """A text in which each character that can't be printed is escaped: it must not command the terminal."""
    return "".join(char if char.isprintable() else char.encode("unicode_escape").decode() for char in text)


def named(path: str) -> str:
    """A path as a session shows it: without characters it is two quotes."""
    return path or "''"


# A piece of a line, and its colour.
Piece = Tuple[str, str]


class Unreadable(Wrong):
    """Why a file can't be read."""


class Face:
    """Where a session's lines come from, and where its texts go."""

    def __init__(self) -> None:
        for stream, name, errors in ((sys.stdin, "input", "surrogateescape"), (sys.stdout, "output", "backslashreplace")):
            if not isinstance(stream, io.TextIOWrapper):
                end(2, f"standard {name} is closed")
            stream.reconfigure(errors=errors)
        self.reads_terminal = sys.stdin.isatty()
        self.is_terminal = self.reads_terminal and sys.stdout.isatty()
        is_plain = os.environ.get("NO_COLOR") or os.environ.get("TERM", "dumb") in ("", "dumb")
        self.has_colour = sys.stdout.isatty() and not is_plain

    # ---- Input -------------------------------------------------------------------------------------------------------

    def complete_by(self, complete: Callable[[list[str], str], list[str]]) -> None:
        """Has a terminal complete words by a function of the words before and the beginning of the word."""
        found = readline() if self.is_terminal else None
        if not found:
            return
        editor = found
        words: list[str] = []

        def candidate(begin: str, number: int) -> str | None:
            if number == 0:
                line = editor.get_line_buffer()[: editor.get_begidx()]
                words[:] = complete(line.split(), begin)
            return words[number] if number < len(words) else None

        found.set_completer(candidate)
        found.set_completer_delims(" ")
        found.parse_and_bind("bind ^I rl_complete" if "libedit" in (found.__doc__ or "") else "tab: complete")

    def line(self, prompt: str) -> str | None:
        """The next line, or None at the end."""
        try:
            line = input(prompt) + "\n" if self.is_terminal else sys.stdin.readline()
        except EOFError:
            print()
            return None
        except OSError as why:
            end(2, f"standard input: {why.strerror}")
        return line or None

    def read(self, path: str) -> str:
        """The text of a script. Raises `Unreadable` if its file can't be read, and `Wrong` if it is too long."""
        try:
            with open(os.path.expanduser(path), "rb") as file:
                octets = file.read(SCRIPT_BYTES + 1)
        except (OSError, ValueError) as why:
            raise Unreadable(getattr(why, "strerror", None) or why)
        return script_of_bytes(octets, "surrogateescape")

    def save(self, texts: Mapping[str, str], overwrites: bool) -> None:
        """Writes each text to its file. Raises `Wrong` if it can't, or if a file is there and may not be overwritten."""
        for path in [] if overwrites else texts:
            if os.path.lexists(path):
                raise Wrong(f"{path} is there already; save -f overwrites it")
        for path, text in texts.items():
            try:
                with open(path, "w" if overwrites else "x", encoding="utf-8", errors="surrogateescape", newline="") as file:
                    file.write(text)
            except (OSError, ValueError) as why:
                raise Wrong(f"{named(path)}: {getattr(why, 'strerror', None) or why}")

    # ---- Output ------------------------------------------------------------------------------------------------------

    def width(self) -> int:
        return max(NARROW, shutil.get_terminal_size().columns)

    def height(self) -> int:
        return max(LOW, shutil.get_terminal_size().lines)

    def coloured(self, text: str, colour: str) -> str:
        return f"\033[{COLOURS[colour]}m{text}\033[0m" if colour and self.has_colour else text

    def write(self, text: str) -> None:
        sys.stdout.write(text)

    def say(self, text: str, colour: str = "") -> None:
        """Shows a line."""
        self.write(self.coloured(printable(text), colour) + "\n")

    def paragraph(self, head: str, text: str) -> None:
        """Shows a text after a head, as wide as the window."""
        indent = min(len(head), self.width() // 3)
        wrapped = textwrap.wrap(printable(head + text), self.width(), subsequent_indent=" " * indent, break_on_hyphens=False)
        self.write("".join(f"{line}\n" for line in wrapped))

    def show(self, lines: Iterable[Sequence[Piece]]) -> None:
        """Shows lines that are pieces of text with their colour."""
        for pieces in lines:
            text = "".join(self.coloured(printable(text), colour) for text, colour in pieces)
            self.write(text.rstrip() + "\n")

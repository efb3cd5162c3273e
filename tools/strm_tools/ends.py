"""How a tool reads its files, writes its result, and ends: with one line that begins with the tool's name, and a status.

Status 1 means that an input is wrong, 2 that an argument is wrong, a file can't be read or written, or memory is out. Two ends need no
line: a tool that is interrupted ends by this signal, which shells show as 130; and 141 means that nobody reads its output any more.
Output that a tool prints itself is checked as it ends."""
from __future__ import annotations

import atexit
import functools
import os
import sys
from typing import TYPE_CHECKING, Callable, Iterable, NoReturn

if TYPE_CHECKING:
    import argparse
    from types import TracebackType

    from strm_tools.script import Wrong

NAME = os.path.basename(sys.argv[0])
# Standard streams by number, since Python has no object for one that is closed.
STANDARD_INPUT = 0
STANDARD_OUTPUT = 1
# The most bytes of a text or a trace. No text of strm has more: a reply has at most 150, and a script 1,048,576 commands.
MOST_BYTES = 160_000_000
# Of a long line on standard error, how many characters are shown of its beginning and of its end.
SHOWN = 600, 200


def one_line(text: str) -> str:
    """A text as one line: a character that can't be printed is escaped, and the middle of a long text is left out."""
    begin, end = SHOWN
    if len(text) > begin + end:
        text = f"{text[:begin]} ... {text[-end:]}"
    return "".join(char if char.isprintable() else char.encode("unicode_escape").decode() for char in text)


def say(lines: Iterable[str]) -> None:
    """Prints lines on standard error, as far as it takes them."""
    try:
        for line in lines if sys.stderr is not None else ():
            print(line, file=sys.stderr, flush=True)
    except OSError:
        pass


@functools.lru_cache(maxsize=None)
def complain(why: str) -> None:
    """Prints a line with the tool's name on standard error, and the same line only once."""
    say([f"{NAME}: {one_line(why)}"])


def end(status: int, why: object) -> NoReturn:
    """Ends the program with a line on standard error."""
    complain(str(why))
    sys.exit(status)


def name_of(path: str, stream: str = "standard input") -> str:
    """How messages name a file: as it was given, but `-` as its stream, and a name without characters by quotes."""
    return stream if path == "-" else path or "''"


def end_wrong(why: Wrong, words: argparse.Namespace) -> NoReturn:
    """Ends the program because what these words of the command line name is wrong. If that is a file, its name comes first."""
    end(1, f"{name_of(getattr(words, why.of))}: {why}" if why.of else why)


def end_for(name: str, why: OSError, leave: Callable[[int], NoReturn] = sys.exit) -> NoReturn:
    """Ends the program because a file of this name can't be read or written."""
    if isinstance(why, BrokenPipeError):
        leave(141)
    complain(f"{name}: {why.strerror}")
    leave(2)


def read_bytes(path: str, most: int = -1) -> bytes:
    """The bytes of a file, or of standard input for `-`, or the first `most` of them."""
    try:
        with open(os.dup(STANDARD_INPUT) if path == "-" else path, "rb") as file:
            return file.read(most)
    except OSError as why:
        end_for(name_of(path), why)


def read(path: str) -> str:
    """The text of a file, or of standard input for `-`. A byte that is no UTF-8 is replaced; no line end is changed."""
    octets = read_bytes(path, MOST_BYTES + 1)
    if len(octets) > MOST_BYTES:
        end(1, f"{name_of(path)}: input too long: more than {MOST_BYTES} bytes")
    return octets.decode("utf-8", "replace")


def write_pieces(pieces: Iterable[str]) -> None:
    """Writes texts one after another to standard output."""
    try:
        with open(os.dup(STANDARD_OUTPUT), "wb") as file:
            for piece in pieces:
                file.write(piece.encode("utf-8", "replace"))
    except OSError as why:
        end_for("standard output", why)


def write(text: str) -> None:
    """Writes a text to standard output."""
    write_pieces([text])


@atexit.register
def flush_output() -> None:
    """Ends the program if what it printed can't be written."""
    try:
        if sys.stdout is not None and not sys.stdout.closed:
            sys.stdout.flush()
    except OSError as why:
        end_for("standard output", why, os._exit)


def end_uncaught(kind: type[BaseException], why: BaseException, trace: TracebackType | None) -> None:
    """Says nothing of an interrupt, after which Python ends by this signal, and one line if memory is out."""
    if issubclass(kind, MemoryError):
        complain("out of memory")
        os._exit(2)
    if not issubclass(kind, KeyboardInterrupt):
        sys.__excepthook__(kind, why, trace)


sys.excepthook = end_uncaught

"""What the words of a command give: a script, and a text that strm printed for it, if one is named."""
from __future__ import annotations

import argparse
import os
from functools import partial

from strm_tools.ends import read, read_bytes
from strm_tools.hints import require_right
from strm_tools.limits import SCRIPT_BYTES
from strm_tools.script import TOO_LONG, Wrong


def add_files(parser: argparse.ArgumentParser, needs_text: bool = False) -> None:
    """Has a command take the files SCRIPT and TEXT."""
    parser.add_argument("script", metavar="SCRIPT", help="a script of strm")
    add = partial(parser.add_argument, "text", metavar="TEXT", help="what strm printed for it")
    add() if needs_text else add(nargs="?")


def words_of(parser: argparse.ArgumentParser) -> argparse.Namespace:
    """The words of the command line, of which only one can be standard input."""
    words = parser.parse_args()
    if words.script == words.text == "-":
        parser.error("only one of SCRIPT and TEXT may be standard input")
    return words


def require_different(parser: argparse.ArgumentParser, names: str, *paths: str | None) -> None:
    """Refuses the words of the command line if two of these paths, some of which may be None, lead to one file."""
    files = [os.path.realpath(path) for path in paths if path is not None and path not in ("-", os.devnull)]
    if len(set(files)) < len(files):
        parser.error(f"{names} must be different files")


def script_of_bytes(octets: bytes, errors: str) -> str:
    """A script of which these are the bytes, or the first ones. Raises `Wrong` if strm does not read so many."""
    if len(octets) > SCRIPT_BYTES:
        raise Wrong(f"input too long: {TOO_LONG}", "script")
    return octets.decode("utf-8", errors)


def read_files(words: argparse.Namespace) -> tuple[str, str | None]:
    """The script and the text, or None. Raises `Wrong` if strm refuses the script."""
    octets = read_bytes(words.script, SCRIPT_BYTES + 1)
    text = None if words.text is None else read(words.text)
    script = script_of_bytes(octets, "replace")
    require_right(octets.decode("utf-8", "surrogateescape"), words.script)
    return script, text

"""The parser of a tool's options, which all have --help and --version."""
from __future__ import annotations

import argparse
import os
from typing import NoReturn

TOOLS = os.path.dirname(os.path.dirname(os.path.abspath(__file__)))


def version() -> str:
    """The version, from the file VERSION: beside the installed tools, or in the repository above them; or else as pip knows it."""
    for folder in (TOOLS, os.path.dirname(TOOLS)):
        try:
            with open(os.path.join(folder, "VERSION"), encoding="utf-8") as file:
                return file.read().strip()
        except OSError:
            pass
    # Only here, since this takes long to read.
    from importlib import metadata

    try:
        return metadata.version("strm-tools")
    except metadata.PackageNotFoundError:
        return "unknown"


class Parser(argparse.ArgumentParser):
    """A parser that says how to name standard input if a file is missing, and rather names an unknown option if there is one."""

    def error(self, message: str) -> NoReturn:
        if not message.startswith("the following arguments are required: "):
            super().error(message)
        unknown = self.unknown_words()
        super().error(f"unrecognized arguments: {' '.join(unknown)}" if unknown else f"{message}; write - for standard input")

    def unknown_words(self) -> list[str]:
        """The words of the command line that are neither options nor files."""
        for action in self._actions:
            action.required = False
        return self.parse_known_args()[1]


def parser_of(name: str, text: str) -> Parser:
    """A parser of the options of a tool, whose help has this text."""
    parser = Parser(prog=name, description=text, formatter_class=argparse.RawDescriptionHelpFormatter)
    parser.add_argument("-V", "--version", action="version", version=f"{name} {version()}", help="show the version and exit")
    return parser

#!/usr/bin/env python3
"""Reads the cases of tests/cases, in the form that tests/README.md explains. `tests/making/cases.py NAME SECTION` prints a section of a case."""
import functools
import os
import pathlib
import re
import subprocess
import sys

TOP = os.path.dirname(os.path.dirname(os.path.dirname(os.path.abspath(__file__))))
CASES = os.path.join(TOP, "tests", "cases")
# How long a program of tests/cases may take.
SECONDS = 120
# The head of a case in a file of several, with the empty line before it, and what begins the head of a section.
NAME = re.compile(rb"(?:\A|\n)=== (\w+)\n")
HEAD = b"== "
# The sections that are lists of words.
LISTS = ("modes", "words")
# The escapes, and a backslash that begins none.
ESCAPE = re.compile(rb"\\(?:(\n)|(r)|(\\)|x([0-9a-f]{2})|)")


def print_by(file, *words):
    """What a program among the files prints: the names of its cases, or the case that a word names."""
    variables = {**os.environ, "PYTHONPATH": os.path.dirname(CASES)}
    command = [os.path.join(CASES, file), *words]
    ran = subprocess.run(command, cwd=TOP, env=variables, stdin=subprocess.DEVNULL, capture_output=True, timeout=SECONDS)
    if ran.returncode != 0:
        raise ValueError(f"tests/cases/{file} ends with status {ran.returncode}:\n{ran.stderr.decode('utf-8', 'replace')}")
    return ran.stdout


def in_file(name):
    """The cases of a file by their names, each with its text, or None if the file is a program, which prints it."""
    path = os.path.join(CASES, name)
    if os.access(path, os.X_OK):
        names = print_by(name).decode().split()
        if not names:
            raise ValueError(f"tests/cases/{name} prints no case")
        return dict.fromkeys(names)
    text = pathlib.Path(path).read_bytes()
    first, *parts = NAME.split(text)
    if first or not parts:
        return {name: text}
    names = [part.decode() for part in parts[::2]]
    if len({name, *names}) <= len(names):
        raise ValueError(f"tests/cases/{name} has two cases of one name, or one that is called as the file")
    return dict(zip(names, parts[1::2]))


@functools.lru_cache(maxsize=None)
def sources():
    """The file and the text of each case, by its name."""
    found = {}
    for file in sorted(os.listdir(CASES)):
        for name, text in in_file(file).items():
            if name in found:
                raise ValueError(f"two cases are called {name}, in tests/cases/{found[name][0]} and {file}")
            found[name] = file, text
    return found


def case_names(word=None):
    """The names of all cases, or of those that a word names: one, or those of a file."""
    return [name for name, (file, _) in sources().items() if word in (None, name, file)]


def is_made(name):
    """Whether a program prints this case."""
    return sources()[name][1] is None


def text_of(name):
    """The text of a case."""
    file, text = sources()[name]
    return print_by(file, name) if text is None else text


def unescaped(text):
    """A text without escapes. A backslash before a line end drops that."""

    def meant(found):
        line_end, carriage_return, backslash, octet = found.groups()
        if not found[0][1:]:
            raise ValueError(f"a backslash before {text[found.end() :][:1]!r} is no escape")
        return b"" if line_end else b"\r" if carriage_return else backslash or bytes.fromhex(octet.decode())

    return ESCAPE.sub(meant, text) if b"\\" in text else text


def sections_of(text):
    """The sections of a case by their names: bytes, or a list of words, each of which is bytes."""
    if not text.startswith(HEAD):
        raise ValueError("it does not begin with the head of a section")
    if not text.endswith(b"\n"):
        raise ValueError("its last line has no line end, or no empty line is before the next case")
    found = {}
    at = 0
    while at < len(text):
        below = text.index(b"\n", at) + 1
        behind = text.find(b"\n" + HEAD, below - 1) + 1 or len(text)
        head, colon, line = text[at + len(HEAD) : below].partition(b": ")
        name = head.decode("utf-8", "replace").rstrip("\n")
        if name in found:
            raise ValueError(f"it has two sections {name}")
        if colon and below < behind:
            raise ValueError(f"its section {name} has text in its head, and below")
        whole = line or text[below:behind]
        found[name] = [unescaped(word) for word in whole.split()] if name in LISTS else unescaped(whole)
        at = behind
    return found


class Case:
    """A case, with its sections. One that a program prints may be long."""

    def __init__(self, name):
        self.name = name
        self.sections = sections_of(text_of(name))

    def text(self, section, absent=""):
        """A section as text, or what stands for it where there is none."""
        return self.sections[section].decode("utf-8", "replace") if section in self.sections else absent

    def words(self, section):
        """A section that is a list of words."""
        return [os.fsdecode(word) for word in self.sections.get(section, [])]

    def script_path(self):
        """The path of the file that is the script, if it is none of the sections."""
        return os.path.join(TOP, self.text("script.path").strip()) if "script.path" in self.sections else None

    def script(self):
        """The bytes of the script, or None if there are none."""
        path = self.script_path()
        if path and os.path.isfile(path):
            return pathlib.Path(path).read_bytes()
        return self.sections.get("script")

    def write(self, folder, section):
        """Writes a section to a file in a folder, and returns the path."""
        path = os.path.join(folder, f"{self.name}.{section}")
        pathlib.Path(path).write_bytes(self.sections.get(section, b""))
        return path


def kept_cases(*made):
    """The cases that no program prints, and of the others those of these names."""
    return [Case(name) for name in case_names() if name in made or not is_made(name)]


if __name__ == "__main__":
    if len(sys.argv) != 3 or sys.argv[1] not in sources():
        sys.exit("usage: tests/making/cases.py NAME SECTION")
    case = Case(sys.argv[1])
    text = case.script() if sys.argv[2] == "script" else case.sections.get(sys.argv[2])
    if text is None:
        sys.exit(f"{case.name} has no section {sys.argv[2]}")
    sys.stdout.buffer.write(b"\n".join([*text, b""]) if isinstance(text, list) else text)

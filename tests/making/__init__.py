"""What scripts and cases share."""
import os
import pathlib
import re
import sys

TOP = os.path.dirname(os.path.dirname(os.path.dirname(os.path.abspath(__file__))))
# Python finds modules beside the script that it runs, but strm_tools and the lines that bench/script.py draws are in other folders.
sys.path[:0] = [os.path.join(TOP, "tools"), os.path.join(TOP, "bench")]

# The environment in which a shell finds the tools.
WITH_TOOLS = {**os.environ, "PATH": os.path.join(TOP, "tools") + os.pathsep + os.environ["PATH"]}


def read(*path):
    """A file of the repository, or one at a path from the root."""
    return pathlib.Path(TOP, *path).read_text(encoding="utf-8")


def parts(path):
    """The parts of a source in C or JavaScript, by the name that a line `---- NAME` before each gives."""
    _, *found = re.split(r"^/[/*] ---- (\w+).*\n", read(path), flags=re.MULTILINE)
    return {name: f"{text.strip()}\n" for name, text in zip(found[::2], found[1::2])}


def texts(path, **found):
    """The texts of a file, by the names after `===` before each, with escapes as in Python. A line {NAME} is the text of this name before it."""
    for part in re.split("^=== ", read(path).encode().decode("unicode_escape"), flags=re.MULTILINE)[1:]:
        name, _, text = part.partition("\n")
        found[name] = re.sub(r"^\{(\w+)\}\n", lambda line: found[line[1]], text, flags=re.MULTILINE)
    return found

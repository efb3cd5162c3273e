"""The proved program strm: where it is, and what it replies to the lines of a session."""
from __future__ import annotations

import os
import shutil
import subprocess
import sys

from strm_tools.limits import SCRIPT_BYTES
from strm_tools.script import Wrong

SECONDS = 60
TOP = os.path.dirname(os.path.dirname(os.path.dirname(os.path.dirname(os.path.realpath(__file__)))))


def find() -> str | None:
    """The program in build/ or else release/ of the repository, or else the one beside this tool, or else the one on PATH, or None."""
    folders = (os.path.join(TOP, "build"), os.path.join(TOP, "release"), os.path.dirname(os.path.abspath(sys.argv[0])))
    near = [path for path in (os.path.join(folder, "strm") for folder in folders) if os.path.isfile(path) and os.access(path, os.X_OK)]
    return near[0] if near else shutil.which("strm")


def text_of(program: str, script: str) -> str:
    """What the program prints for a script. Raises `Wrong` if it does not execute it."""
    command = [program, "--serial", "--max", str(SCRIPT_BYTES)]
    given = script.encode("utf-8", "surrogateescape")
    try:
        ran = subprocess.run(command, input=given, stdout=subprocess.PIPE, stderr=subprocess.PIPE, timeout=SECONDS)
    except OSError as why:
        raise Wrong(f"{program}: {why.strerror}")
    except subprocess.TimeoutExpired:
        raise Wrong(f"{program}: no reply in {SECONDS} seconds")
    if ran.returncode != 0:
        said = ran.stderr.decode("utf-8", "replace").strip() or "it says nothing"
        raise Wrong(f"{program}: status {ran.returncode}: {said}")
    return ran.stdout.decode("utf-8", "replace")


def difference(text: str, wanted: str) -> tuple[str, str]:
    """The first line in which a text differs from the wanted one, as both have it."""
    lines = zip([*text.split("\n"), ""], [*wanted.split("\n"), ""])
    return next(((line, other) for line, other in lines if line != other), (text, wanted))


def parts(text: str, replies: list[str]) -> tuple[list[str], list[str]]:
    """The replies and the report of a text. Where it has no reply to a line, that is one of these."""
    lines = text.split("\n")[:-1]
    count = len(replies)
    return [line.partition(" ")[2] for line in lines[:count]] + replies[len(lines) :], lines[count:]

"""The page of a run: one file, with its style, its program and the run."""
from __future__ import annotations

import html
import os
import re
from typing import Protocol

from strm_tools.labels import Labels, labels_of
from strm_tools.model import ORDINARY
from strm_tools.rules import RULES
from strm_tools.script import Wrong
from strm_tools.view.chunks import Chunks, compact
from strm_tools.view.film import KINDS, Film
from strm_tools.words import WORDS

FOLDER = os.path.dirname(os.path.abspath(__file__))
# The page's program, in the order of its parts.
PROGRAM = ["run", "pool", "marks", "changes", "pieces", "panels", "picture", "block", "list", "chart", "find", "controls"]
MOST_BYTES = 250_000_000
CHUNK = '<script class="rows" type="text/plain">{}</script>\n<script class="states" type="text/plain">{}</script>\n'


def source(name: str) -> str:
    with open(os.path.join(FOLDER, name), encoding="utf-8") as file:
        return file.read()


def panels() -> dict[str, str]:
    """The panels of a pool, and the help on them, which all pages have."""
    pool, text = source("pool.html").split("\n<!-- help -->\n")
    return {"pool": pool, "help": text}


def program_of(names: list[str]) -> str:
    """A program of these parts, without the lines that are comments."""
    return re.sub(r"^ *//.*\n", "", "\n".join(source(f"{name}.js") for name in names), flags=re.MULTILINE)


def summary(labels: Labels, film: Film, chunks: Chunks) -> dict[str, object]:
    """What the page's program needs of a whole run: how the pool was made, labels, rules, chunks, and what to keep room for. With
    the words whose lines name a queue."""
    pool = film.model.pool
    names = labels.names_of_callers()
    return {
        "mblks": pool.mblks,
        "classes": pool.classes,
        "queues": pool.queues,
        "workers": len(film.sections),
        "kinds": KINDS,
        "ordinary": len(ORDINARY),
        "lines": list(chunks.lines),
        "rows": list(chunks.rows),
        "labels": labels.queues,
        "modules": list(labels.modules.items()),
        "callers": [[number, names.index(label)] for number, label in labels.callers],
        "callerNames": names,
        "rules": {name: rule.sentence for name, rule in RULES.items() if name in film.rules},
        "queueWords": [word for word, entry in WORDS.items() if entry.form.startswith("Q")],
        "bands": [sorted(queue.bands, reverse=True) for queue in film.queues],
        "registers": ["".join(sorted(film.used_registers[worker])) for worker in range(len(film.sections))],
        "most": {
            "inUse": film.most_in_use,
            "run": film.most_run,
            "wishes": film.most_wishes,
            "bands": [queue.most_bands for queue in film.queues],
            "queues": [queue.most_blocks for queue in film.queues],
            "workers": film.most_held,
        },
    }


class Output(Protocol):
    """A file, or what is written to as one."""

    def write(self, part: str, /) -> object: ...


class Writer:
    """Writes the parts of a page to a file. Raises `Wrong` if the page becomes too large."""

    def __init__(self, file: Output) -> None:
        self.file = file
        self.bytes = 0

    def write(self, part: str) -> None:
        self.file.write(part)
        self.bytes += len(part)
        if self.bytes > MOST_BYTES:
            raise Wrong(f"the page would have more than {MOST_BYTES:,} bytes, which is the most that a page may have")


def write_page(file: Output, title: str, script: str, text: str | None = None) -> Film:
    """Writes the page of a run to a file, and returns the replay. Raises `Wrong` if the text is not one of the script, or the page
    becomes too large; then what the file has is no page."""
    write = Writer(file).write
    head, rest = source("page.html").split("<!-- run -->")
    write(filled(head, title=html.escape(title), style=source("page.css"), **panels()))
    labels = labels_of(script)
    film = Film(script, lambda line: chunks.add(line))
    chunks = Chunks(film.script, labels, film.state, lambda rows, states: write(CHUNK.format(rows, states)))
    film.play(text)
    chunks.finish()
    for name, track in film.tracks.tracks.items():
        write(f'<script class="track" data-name="{name}" type="text/plain">[{",".join(map(str, track))}]</script>\n')
    run = compact(summary(labels, film, chunks)).replace("<", "\\u003c")
    write(f'<script id="run" type="application/json">{run}</script>\n')
    write(filled(rest, program=program_of(PROGRAM)))
    return film


def filled(text: str, **parts: str) -> str:
    """A text with the named parts at their places."""
    return re.sub(r"<!-- (\w+) -->", lambda place: parts[place[1]], text)

"""Labels in a script's comments: names for what strm knows by number alone.

    #: queue Q LABEL        queue Q is LABEL
    #: module LABEL Q..     the queues Q.. are those of the module LABEL
    #: caller LABEL         the lines from here to the next such line, or to the next section, are calls of LABEL

A label has 1 to 40 characters; that of a module has no space. To strm these lines are comments. A line that begins with `#:` and
has none of these forms is a comment here too; `wrong_labels` finds it."""
from __future__ import annotations

import re
from typing import NamedTuple

WRITTEN = {"queue": "#: queue Q LABEL", "module": "#: module LABEL Q..", "caller": "#: caller LABEL"}
LABEL = r"(?P<label>\S(?:.{0,38}\S)?)"
FORMS = {
    "queue": re.compile(rf"#: queue (?P<queue>0|[1-9]\d?) {LABEL}"),
    "module": re.compile(r"#: module (?P<label>\S{1,40})(?P<queues>(?: (?:0|[1-9]\d?))+)"),
    "caller": re.compile(rf"#: caller {LABEL}"),
}


class Labels(NamedTuple):
    """The labels of a script."""

    # The label of each queue that has one.
    queues: dict[int, str]
    # The queues of each module.
    modules: dict[str, list[int]]
    # Where a caller's lines begin, and its label, or "" where a section begins. Line numbers rise.
    callers: list[tuple[int, str]]

    def queue(self, number: int) -> str:
        """The label of a queue, or its number in words."""
        return self.queues.get(number, f"queue {number}")

    def names_of_callers(self) -> list[str]:
        """The labels of all callers, each once."""
        return list(dict.fromkeys(label for _, label in self.callers))


def form_of(line: str) -> tuple[str, re.Match[str]] | None:
    """The form of a line with a label, and its match, or None."""
    if not line.startswith("#:"):
        return None
    return next(((form, found) for form, wanted in FORMS.items() if (found := wanted.fullmatch(line))), None)


def queues_of(found: re.Match[str]) -> list[int]:
    """The queues that a label names, where this is the match of its form."""
    named = found.groupdict()
    return [int(queue) for queue in (named.get("queue") or named.get("queues") or "").split()]


def labels_of(script: str) -> Labels:
    """The labels of a script. A later label of a queue or a module replaces an earlier one."""
    labels = Labels({}, {}, [])
    for number, line in enumerate(script.split("\n"), 1):
        if line == "worker" and labels.callers and labels.callers[-1][1]:
            labels.callers.append((number, ""))
        labelled = form_of(line)
        if labelled is None:
            continue
        form, found = labelled
        if form == "queue":
            labels.queues[int(found["queue"])] = found["label"]
        elif form == "module":
            labels.modules[found["label"]] = queues_of(found)
        elif form == "caller":
            labels.callers.append((number, found["label"]))
    return labels


def wrong_labels(script: str) -> list[int]:
    """The numbers of the lines that begin with `#:` and have no form of a label."""
    return [number for number, line in enumerate(script.split("\n"), 1) if line.startswith("#:") and not form_of(line)]

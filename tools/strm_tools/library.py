"""The proved library in this process, by the package of bindings/python: a pool that executes the lines of a script, as the plain model does."""
from __future__ import annotations

import importlib
import itertools
import os
import sys
from typing import Any, Sequence

from strm_tools.ends import NAME, say
from strm_tools.model import Pool, Values

TOP = os.path.dirname(os.path.dirname(os.path.dirname(os.path.realpath(__file__))))
# The methods that have another name than their word, the words that reply `none`, and the first words of replies that are neither the line's nor
# the name of a struct.
METHODS = {"getq": "get", "rmvq": "remove", "putq": "put", "putbq": "put_back", "insq": "insert", "qsize": "size", "service": "next_service", "ready": "take_ready"}
GIVE = ("unlinkb", "getq", "service", "ready")
# How many bytes a line of strm reads at most.
READ = 64
REPLIES = {"bufcall": "id", "qsize": "size", "msgdsize": "size", "ready": "ready"}


def binding() -> Any:
    """The package of bindings/python in the repository, or else beside this tool or where Python finds it. None if there is none, or no library."""
    beside = os.path.join(TOP, "bindings", "python")
    if os.path.isdir(beside) and beside not in sys.path:
        sys.path.append(beside)
    try:
        found = importlib.import_module("strm")
        return found if hasattr(found, "Pool") else None
    except (ImportError, OSError, AttributeError):
        return None


class Library:
    """A pool of the library, and the registers of workers."""

    def __init__(self, strm: Any, of: Pool) -> None:
        queues = [strm.QueueSpec(high, low, service == "s", *([] if after == "-" else [after])) for high, low, service, after in of.queues]
        self.strm = strm
        self.pool = strm.Pool(of.mblks, of.classes, queues, of.bufcalls, of.first_id)
        self.workers: list[dict[str, Any]] = []

    def begin(self) -> None:
        """Another worker is served, on registers of its own."""
        self.held: dict[str, Any] = {}
        self.workers.append(self.held)

    def turn_to(self, worker: int) -> None:
        """This worker is served on."""
        self.held = self.workers[worker]

    def answer(self, word: str, items: Sequence[str], values: Values) -> str:
        """The reply of strm to a line. Items say what the values are."""
        pairs = list(zip(items, values))
        sources = [value for item, value in pairs if item == "from"]
        given = [self.given(item, value) for item, value in pairs if item not in ("queue", "to")] + [READ] * (word == "read")
        to = next((value for item, value in pairs if item == "to"), None)
        queue = next((self.strm.Queue(self.pool, value) for item, value in pairs if item == "queue"), None)
        is_missing = queue is not None and queue.number >= len(self.pool.queues)
        if not is_missing and to in self.held and len(self.held.keys() & {*sources}) == len(sources):
            return "taken"
        on = queue or (given.pop(0) if sources else self.pool)
        try:
            return self.told(word, getattr(on, METHODS.get(word, word))(*given), to)
        except self.strm.Refusal as why:
            if why.code == self.strm.Code.INVALID:
                return "refused 11 NoSuchQueue" if is_missing else "empty"
            return f"refused {why.code:d} {why.code.name.title().replace('_', '')}"
        finally:
            for register in sources:
                if register in self.held and not self.held[register].has():
                    del self.held[register]

    def given(self, item: str, value: Any) -> Any:
        """A value as a method takes it. A register that holds nothing has a name that is not valid."""
        if item == "from":
            return self.held.get(value) or self.pool.adopt(self.strm.Name(self.pool.id, 0, 0))
        return self.strm.MsgType[value] if item == "kind" else self.strm.Flush[value.upper()] if item == "flag" else value

    def told(self, word: str, result: Any, to: Any) -> str:
        """The reply for what a method returned. A message goes to its register."""
        first = REPLIES.get(word, type(result).__name__.lower() if isinstance(result, tuple) else word)
        if isinstance(result, self.strm.Message):
            self.held[to] = result
            return "ok"
        if result is None:
            return "none" if word in GIVE else "ok"
        if isinstance(result, bool):
            return "yes" if result else "no"
        if isinstance(result, bytes):
            return f"bytes {result.hex() or '-'}"
        if isinstance(result, self.strm.Queue):
            return f"queue {result.number}"
        if isinstance(result, self.strm.BlockInfo):
            kind = self.strm.MsgType(result.type).name
            return f"block {kind} len={result.length} band={result.band} room={result.room} names={result.names}"
        return " ".join([first, *map(str, result if isinstance(result, tuple) else [result])])

    def report(self) -> list[str]:
        lines: list[str] = self.pool.report().splitlines()
        return lines


def difference(proved: Sequence[str], plain: Sequence[str]) -> str:
    """Where lines of the library differ from those of the plain model, if they do."""
    pairs = ((one, other) for one, other in itertools.zip_longest(proved, plain, fillvalue="") if one != other)
    return next((f"libstrm says {one!r}, and the plain model {other!r}: one has a fault; please report it" for one, other in pairs), "")


def opened(of: Pool, workers: int) -> Library | None:
    """A pool of the library for so many workers, if there is one. At a terminal the tool says so."""
    strm = binding()
    if strm is None:
        return None
    if sys.stderr is not None and sys.stderr.isatty():
        say([f"{NAME}: the proved library {strm.version()} replies, in this process"])
    library = Library(strm, of)
    for _ in range(workers):
        library.begin()
    return library

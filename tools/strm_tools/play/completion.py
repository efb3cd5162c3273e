"""What may come next on a line: words of commands, registers, queues, types, and files."""
from __future__ import annotations

import glob
import os
from typing import Callable, Iterable

from strm_tools.model import HIGH_PRIORITY, ORDINARY, WORDS, Queue
from strm_tools.play.session import Play

REGISTERS = "abcdefghijklmnopqrstuvwxyz"
# The words of an item that are always the same.
WORDS_OF = {
    "kind": [*ORDINARY, *HIGH_PRIORITY],
    "flag": ["all", "data"],
    "count": ["-1"],
    "octets": ["-"],
    "at": ["0"],
    "switch": ["on", "off"],
    "off": ["off"],
}


def files(begin: str) -> list[str]:
    """The files and folders whose path begins so."""
    found = glob.glob(glob.escape(os.path.expanduser(begin)) + "*")
    return [path + ("/" if os.path.isdir(path) else " ") for path in sorted(found)]


def blocks(play: Play, before: list[str]) -> Iterable[str]:
    """The places of the blocks of the message that a line names."""
    return map(str, range(len(play.model.workers[play.turn].get(before[0], []))))


def queues(play: Play, before: list[str]) -> list[Queue]:
    """The queue that a line names, if there is one."""
    return play.model.queues[int(before[0]) :][:1] if before[0].isdigit() else []


def bands(play: Play, before: list[str]) -> Iterable[str]:
    """Band 0, and the bands of the queue that a line names that have messages, own marks or a sender that waits. For a message,
    some bands."""
    if before[0] in REGISTERS:
        return ["0", "1", "2"]
    found = {0}
    for queue in queues(play, before):
        found |= {*queue.bytes_of_bands(), *queue.marks, *queue.wanted}
    return map(str, sorted(found))


def places(play: Play, before: list[str]) -> list[str]:
    """The places of the messages on the queue that a line names, and the one after them."""
    return [str(place) for queue in queues(play, before) for place in range(len(queue.messages) + 1)]


# The words that fit an item of a command, after the words before it.
FITTING: dict[str, Callable[[Play, list[str]], Iterable[str]]] = {
    "from": lambda play, _: sorted(play.model.workers[play.turn]),
    "to": lambda play, _: [name for name in REGISTERS if name not in play.model.workers[play.turn]],
    "queue": lambda play, _: map(str, range(len(play.model.queues))),
    "block": blocks,
    "place": places,
    "size": lambda play, _: [str(size) for size, _ in play.model.pool.classes],
    "id": lambda play, _: [str(own) for own, _ in play.model.wishes],
    **dict.fromkeys(["band", "marked"], bands),
}


def completed(play: Play, commands: dict[str, str], before: list[str], begin: str) -> list[str]:
    """The words that begin so and may come after the words before. `commands` has the items of each command of the session."""
    words: Iterable[str]
    if not before:
        words = [*WORDS, "worker", *commands]
    else:
        word, *rest = before
        items = WORDS[word].items if word in WORDS else commands.get(word, "").split()
        item = items[len(rest)] if len(rest) < len(items) else ""
        if item == "file":
            return files(begin)
        if item == "word":
            words = [*WORDS, "pool", "class", "queue", "bufcalls", "worker", *commands]
        elif item == "worker":
            words = map(str, range(len(play.sections)))
        else:
            words = FITTING[item](play, rest) if item in FITTING else WORDS_OF.get(item, [])
    return [f"{word} " for word in words if word.startswith(begin)]

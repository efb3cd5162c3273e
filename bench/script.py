#!/usr/bin/env python3
"""Writes a script of so many drawn command lines, the same for the same seed. Has how each word is drawn and measured."""
import argparse
import random
from typing import Callable, NamedTuple

from strm_tools.limits import COMMAND_LINES, DATA_BLOCK_BYTES, DATA_BLOCKS, MESSAGE_BLOCKS, WISHES
from strm_tools.model import WORDS as COMMANDS

REGISTERS = "abcdefghijklmnopqrstuvwxyz"
QUEUES = "0123"
HEADER = [f"pool 1 {MESSAGE_BLOCKS}", f"class 16 {DATA_BLOCKS - 2095}", "class 64 1500", "class 256 500"]
HEADER += [f"class {DATA_BLOCK_BYTES} 95"]
HEADER += ["queue 16 4 s 1", "queue 16 4 n 2", "queue 16 4 s 3", "queue 16 4 s -", f"bufcalls {WISHES} 1"]

# Items that are counted: the names that may stand there, and of how many blocks, or messages, at least and at most.
COUNTED = {"to": (REGISTERS, 0, 0), "from": (REGISTERS, 1, 40), "chain": (REGISTERS, 2, 40), "queue": (QUEUES, 0, 40), "filled": (QUEUES, 1, 40)}
# Items that are drawn. Every other item stands as it is.
VALUES = {
    "size": ["0", "8", "16", "16", "60", "200"],
    "id": ["1", "2"],
    "octets": ["-", "61", "6162", "61626364", "6162636465666768"],
    "kind": ["M_DATA", "M_DATA", "M_PROTO", "M_CTL", "M_PCPROTO"],
    **dict.fromkeys(["band", "marked"], ["0", "0", "0", "1", "200"]),
    **dict.fromkeys(["block", "place"], ["0"]),
    "high": ["16", "16", "32"],
    "low": ["4", "4", "8"],
    "count": ["0", "0", "1", "-1"],
    "at": ["0", "1", "5"],
    "flag": ["all", "all", "data"],
}
# What stands for items in the round of a command that has no other.
MEASURED = {
    **{"from": "a", "to": "b", "queue": "0", "block": "{last}", "place": "{middle}", "octets": "-", "kind": "M_DATA", "size": "16", "count": "-1"},
    **{"at": "{end}", "band": "0", "marked": "3", "high": "8", "low": "4", "id": "1", "flag": "data"},
}


class Word(NamedTuple):
    """A command: how it is drawn, and how one call of it is measured."""

    # How often it is drawn for one `census`.
    often: int
    # A round of measured lines, those in parentheses not counted.
    lines: str
    # What stands behind the word.
    items: list
    # How many blocks, or messages, the counted items have afterwards, at least.
    after: Callable
    # What the pool is filled with: message or queue.
    filled: str


def row(word, often=1, lines=None, after=None, items=None):
    """The row of a command. As far as nothing else is given, its items in strm_tools.model stand behind it, its round is one call, and a
    register that it fills then has one block."""
    items = items.split() if items else COMMANDS[word].items
    lines = lines or " ".join([word, *(MEASURED[item] for item in items)])
    counted = [item for item in items if item in COUNTED]
    is_on_queue = any("queue" in COMMANDS[line.strip("()").split(" ")[0]].items for line in lines.split("; "))
    after = after or (lambda *counts: [1 if item == "to" else count for item, count in zip(counted, counts)])
    return Word(often, lines, items, after, "queue" if is_on_queue else "message")


# What is not as `row` has it.
OTHERS = {
    "allocb": (14, "allocb b 16; freemsg b"),
    "dupb": (2, "dupb a b; freemsg b"),
    "dupmsg": (2, "dupmsg a b; freemsg b", lambda x, y: (x, x)),
    "copyb": (2, "copyb a b; freemsg b"),
    "copymsg": (2, "copymsg a b; freemsg b", lambda x, y: (x, x)),
    "write": (12, "(allocb b 16); write b 0 6162636465666768; (freemsg b)"),
    "setband": (2, "setband a 1"),
    "linkb": (4, "linkb a c; rmvb a {blocks} c", lambda x, z: (x + z, 0)),
    "unlinkb": (2, "unlinkb a b; linkb a b", lambda x, y: (1, x - 1), "chain to"),
    "rmvb": (2, "linkb a c; rmvb a {blocks} c", lambda x, y: (x - 1, 1), "chain 1 to"),
    "adjmsg": (3, "(dupmsg a b); adjmsg b {bytes}; (freemsg b)"),
    "pullupmsg": (2, "dupmsg a b; pullupmsg b {pulled}; freemsg b", lambda x: (1,), "from -1"),
    "freeb": (3, "allocb b 16; freeb b", lambda x: (x - 1,), "chain"),
    "freemsg": (10, "dupmsg a b; freemsg b", lambda x: (0,)),
    "putq": (8, "putq 0 c; getq 0 c", lambda q, x: (q + 1, 0)),
    "putbq": (2, "putbq 0 c; getq 0 c", lambda q, x: (q + 1, 0)),
    "insq": (1, "insq 0 {middle} c; rmvq 0 {middle} c", lambda q, x: (q + 1, 0)),
    "getq": (6, "putbq 0 c; getq 0 c", lambda q, y: (q - 1, 1), "filled to"),
    "rmvq": (2, "insq 0 {middle} c; rmvq 0 {middle} c", lambda q, y: (q - 1, 1), "filled 0 to"),
    "flushq": (1, "allocb b 16; putq 0 b; flushq 0 data", lambda q: (0,)),
    "flushband": (1, "allocb b 16; putq 0 b; flushband 0 0 data", lambda q: (0,)),
    "qenable": (1, "qenable 0; service"),
    **dict.fromkeys(["settype", "block", "enableok"], (2,)),
    **dict.fromkeys(["read", "bcanput"], (3,)),
    "service": (2, "qenable 0; service"),
    "bufcall": (1, "bufcall 16; ready"),
    "unbufcall": (1, "bufcall 16; unbufcall {round}"),
    "ready": (2, "bufcall 16; ready"),
}
WORDS = {word: row(word, *OTHERS.get(word, ())) for word in COMMANDS}
# More rounds, for calls on one queue of messages of 17 ranks. EMPTIED frees those of a band, before as many are put again.
RANKED = {
    "putq": "{emptied}(settype b 0 {kind}); (setband b {band}); putq 0 b; allocb b 16",
    "putbq": "{emptied}(settype b 0 {kind}); (setband b {band}); putbq 0 b; allocb b 16",
    "getq": "getq 0 c; putbq 0 c",
    "bcanput": "bcanput 0 {band}",
}
BAG = [word for word, row in WORDS.items() for _ in range(row.often)]


class Draw:
    """Draws lines of which most are done. Counts what registers and queues have, at least."""

    def __init__(self, seed):
        self.random = random.Random(seed)
        self.counts = dict.fromkeys(REGISTERS + QUEUES, 0)

    def value(self, item, named):
        """What stands for an item, and is not named already; None where nothing fits."""
        if item not in COUNTED:
            return self.random.choice(VALUES.get(item, [item]))
        names, least, most = COUNTED[item]
        fitting = [name for name in names if least <= self.counts[name] <= most and name not in named]
        return self.random.choice(fitting) if fitting else None

    def line(self):
        """The next line."""
        while True:
            word = self.random.choice(BAG)
            values, named = [], []
            for item in WORDS[word].items:
                values.append(self.value(item, named))
                if item in COUNTED:
                    named.append(values[-1])
            if None not in values:
                self.counts.update(zip(named, WORDS[word].after(*map(self.counts.get, named))))
                return " ".join([word, *values])


def drawn(count, seed=1, workers=1):
    """The lines of a script with so many command lines, in so many sections."""
    yield from HEADER
    draw = Draw(seed)
    for worker in range(workers):
        yield "worker"
        draw.counts.update(dict.fromkeys(REGISTERS, 0))
        for _ in range(count * worker // workers, count * (worker + 1) // workers):
            yield draw.line()


def main():
    """Writes a script to standard output."""
    words = argparse.ArgumentParser(description=__doc__)
    words.add_argument("lines", type=int, help=f"how many command lines, at most {COMMAND_LINES}")
    words.add_argument("--seed", type=int, default=1)
    words.add_argument("--workers", type=int, default=1, help="how many sections")
    given = words.parse_args()
    for line in drawn(given.lines, given.seed, given.workers):
        print(line)


if __name__ == "__main__":
    main()

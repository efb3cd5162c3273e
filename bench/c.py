#!/usr/bin/env python3
"""Measures calls of strm.h and the ways of packets, beside the calls of `Pool` and a pool written by hand in C. bench/README.md says how."""
import os
import re
import statistics
import subprocess
import sys
import tempfile
from typing import NamedTuple

import library
import peers
from c_functions import functions
from programs import options, rewrite

TOP = os.path.dirname(os.path.dirname(os.path.abspath(__file__)))
SOURCES = [os.path.join(TOP, "bench", "c", name) for name in ("rounds.c", "plain.c")]
OPENING = os.path.join(TOP, "bench", "c", "open.c")


class Round(NamedTuple):
    """What a round does, how many calls it makes, and the row of strm_bench with the same calls of `Pool`, if it has one, for this size. Of
    that row another is subtracted if one is named. `messages` are those of a call on several."""

    shown: str
    calls: int
    row: str = ""
    less: str = ""
    size: int = 64
    messages: int = 1


# Single calls. The numbers of messages and bytes are those of rounds.c.
ROUNDS = {
    "allocb": Round("`strm_allocb`, `strm_freemsg`", 2, "allocb"),
    "dupb": Round("`strm_dupb`, `strm_freemsg`", 2, "dupb", "allocb"),
    "write": Round("`strm_allocb`, `strm_write` 64 bytes, `strm_freemsg`", 3, "write"),
    "putq": Round("`strm_putq`, `strm_getq`, the queue's only message", 2, "putq"),
    "allocb_8": Round("`strm_allocb_n`, `strm_freemsg_n`, 8 messages", 2, messages=8),
    "allocb_32": Round("the same, 32", 2, messages=32),
    "allocb_256": Round("the same, 256", 2, messages=256),
    "putq_8": Round("`strm_putq_n`, `strm_getq_n`, 8 messages", 2, messages=8),
    "putq_32": Round("the same, 32", 2, messages=32),
    "putq_256": Round("the same, 256", 2, messages=256),
    "bands_32": Round("the same, 32 messages in 8 bands", 2, messages=32),
    "transfer": Round("`strm_transfer` of 64 bytes to another pool, and back", 2, "transfer"),
    "read": Round("`strm_read` 64 bytes", 1, "read_all"),
    "bytes": Round("`strm_bytes`", 1, "bytes"),
    "iov": Round("`strm_iov` of four blocks", 1),
    "blocks": Round("`strm_blocks` of four", 1, "walk", size=4),
    "place": Round("`strm_place`", 1, "place"),
    "overwrite": Round("`strm_overwrite` of one byte", 1, "overwrite_byte"),
    "reserve": Round("`strm_reserve`", 1, "reserve"),
    "prepend": Round("`strm_adjmsg`, `strm_prepend` of 64 bytes", 2, "prepend"),
    "advance": Round("`strm_adjmsg`, `strm_advance` over 64 bytes", 2, "advance"),
    "name_at": Round("`strm_name_at`", 1),
    "first_queued": Round("`strm_first_queued`", 1, "first_queued"),
    "queued_after": Round("`strm_queued_after`", 1, "queued_after"),
    "queued_at": Round("`strm_queued_at`, the first", 1, "queued_at", size=0),
    "read_queued": Round("`strm_read_queued` 64 bytes of the first", 1, "read_queued"),
    "queue_spec": Round("`strm_queue_spec`", 1, "queue_spec"),
}
# The way of a packet, by its name in peers/strm.c: its bytes, how it comes in, and how it is looked at and goes out.
WAYS = {
    "copies_short": ("64", "`strm_write`", "`strm_read`"),
    "in_place_short": ("64", "`strm_write`", "`strm_bytes`"),
    "copies_long": ("1,500", "`strm_write`", "`strm_read`"),
    "in_place_long": ("1,500", "`strm_write`", "`strm_bytes`"),
    "no_copy_long": ("1,500", "`strm_place`, `strm_advance`", "`strm_place`"),
    "receives_long": ("1,500", "`strm_room`, `strm_advance`", "`strm_iov`"),
}
# The ways to take memory, by their names in open.c, and how often each is tried.
TAKEN = {
    "strm": "`strm_open`, `strm_close` of the largest pool",
    "cleared": "`malloc`, `memset`, `free` of its bytes",
    "zeroed": "`calloc`, `free` of its bytes",
    "touched": "`calloc`, a write to each page, `free` of its bytes",
}
OPENED = 20
# What has the system's allocator take large pages, where Linux has some to give.
LARGE_PAGES = {"GLIBC_TUNABLES": "glibc.malloc.hugetlb=1"}
TIMED = 5_000_000
COUNTED = 100_000
# The status of the program of rounds if the plain pool has no such round.
NO_ROUND = 3


def built(name, sources, archive, room):
    """Compiles a program over the library for C, and returns its path."""
    program = os.path.join(room, name)
    subprocess.run([os.environ.get("CC", "cc"), "-O2", "-I" + os.path.join(TOP, "c"), *sources, archive, "-o", program], check=True)
    return program


def has(program, over, name):
    """Whether there is such a round."""
    return subprocess.run([program, over, name, "0"], capture_output=True).returncode != NO_ROUND


def nanoseconds(program, over, name, rounds):
    """The nanoseconds of a round, as the median of some runs."""
    count = TIMED // ROUNDS[name].messages
    runs = [float(subprocess.run([program, over, name, str(count)], check=True, capture_output=True, text=True).stdout) for _ in range(rounds)]
    return statistics.median(runs) / count


def instructions(program, over, name):
    """The instructions of a round: how many more twice the rounds take, per round."""
    count = COUNTED // ROUNDS[name].messages
    return (counted(program, over, name, 2 * count) - counted(program, over, name, count)) / count


def counted(program, over, name, count):
    words = ["valgrind", "--tool=callgrind", "--callgrind-out-file=/dev/null"]
    said = subprocess.run([*words, program, over, name, str(count)], check=True, capture_output=True, text=True).stderr
    return int(re.search(r"Collected : (\d+)", said)[1])


def beside(program, name, rounds):
    """The nanoseconds and the instructions of a round over the plain pool, if it has that, and over strm.h."""
    pools = [over if has(program, over, name) else None for over in ("plain", "strm")]
    return [over and nanoseconds(program, over, name, rounds) for over in pools], [over and instructions(program, over, name) for over in pools]


def direct(program, rounds):
    """The nanoseconds and the instructions of each round by the calls of `Pool` themselves, of those that strm_bench has."""
    rows = {name: told for name, told in ROUNDS.items() if told.row}
    measures = {(row, told.size): library.Measure("direct", row, library.MIDDLE, size=told.size) for told in rows.values() for row in (told.row, told.less) if row}
    counts = library.all_instructions(program, list(measures.values()))
    times = library.nanoseconds(program, list(measures.values()), counts, rounds)

    def cost(of, told):
        return of[measures[told.row, told.size]] - (of[measures[told.less, told.size]] if told.less else 0)

    return {name: (cost(times, told), cost(counts, told)) for name, told in rows.items()}


def shown(cost, places):
    return "" if cost is None else f"{cost:,.{places}f}"


def table(program, pools, rounds):
    """Single calls, in markdown."""
    yield "| A round | plain, ns | `Pool`, ns | strm.h, ns | ns more a call | plain, instructions | `Pool` | strm.h | more a call |"
    yield "|---|---|---|---|---|---|---|---|---|"
    costs = direct(pools, rounds) if pools else {}
    for name, told in ROUNDS.items():
        cells = [told.shown]
        for (plain, face), pool, places in zip(beside(program, name, rounds), costs.get(name, (None, None)), (1, 0)):
            more = None if pool is None else (face - pool) / told.calls
            cells += [shown(cost, places) for cost in (plain, pool, face, more)]
        yield f"| {' | '.join(cells)} |"


def ways(archive, room, rounds):
    """The way of a packet, in markdown."""
    programs = {name: peers.built(name, archive, room) for name in ("plain", "strm")}
    works = {name: peers.Work(" ".join(told)) for name, told in WAYS.items()}
    times, steps = peers.fastest(programs, works, rounds), peers.counted(programs, works)
    yield "| Bytes | Comes in by | Is looked at, and goes out, by | plain, ns | strm.h, ns | plain, instructions | strm.h |"
    yield "|---|---|---|---|---|---|---|"
    for name, told in WAYS.items():
        costs = [shown(of[name, over], places) for of, places in ((times, 1), (steps, 0)) for over in programs]
        yield f"| {' | '.join([*told, *costs])} |"


def opening(archive, room):
    """What it costs to take the memory of the largest pool, in markdown."""
    program = built("open", [OPENING], archive, room)
    yield "| What is done | ms | page faults | ms with large pages | page faults |"
    yield "|---|---|---|---|---|"
    for name, told in TAKEN.items():
        cells = [told]
        for more in ({}, LARGE_PAGES):
            ran = subprocess.run([program, name, str(OPENED)], check=True, capture_output=True, text=True, env={**os.environ, **more})
            microseconds, faults = ran.stdout.split()
            cells += [f"{float(microseconds) / 1000:,.2f}", f"{int(faults):,}"]
        yield f"| {' | '.join(cells)} |"


def main():
    program = {"nargs": "?", "help": "the path of strm_bench; without it the columns of `Pool` are empty"}
    given = options(__doc__, ["valgrind"], 9, library="the path of the library for C", program=program)
    if given.write and not given.program:
        sys.exit("--write needs PROGRAM")
    with tempfile.TemporaryDirectory() as room:
        program = built("rounds", SOURCES, given.library, room)
        lines = list(table(program, given.program and os.path.abspath(given.program), given.turns))
        lines += ["", "The way of a packet of one block, which waits on a queue between the two looks:", "", *ways(given.library, room, given.turns)]
        inside = ["Where these instructions are, an export with all that is inlined into it:", "", *functions(program, peers.built(peers.OURS, given.library, room))]
        opened = list(opening(given.library, room))
    print("\n".join([*lines, "", *inside, "", *opened]))
    if given.write:
        rewrite("c", lines)
        rewrite("open", opened)


main()

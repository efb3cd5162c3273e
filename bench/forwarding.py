#!/usr/bin/env python3
"""Counts loads that span two stores, in the works of the peers over strm.h, and ends with status 1 if there are any. A processor forwards nothing
to such a load, so it waits. bench/README.md says how."""
import collections
import itertools
import os
import re
import subprocess
import sys
import tempfile
from concurrent.futures import ThreadPoolExecutor
from typing import NamedTuple

from peers import CALLS, COUNTED_IN, MANY, OURS, WAYS, Work, built, words_for
from programs import options, show

# The works, each by one thread. Of deep queues the shallowest count, since the others take the same instructions.
SHALLOW = 1_000
WORKS = {
    **CALLS,
    **WAYS,
    **{name: work for name, work in MANY.items() if work.queued <= SHALLOW},
    **{name: Work(name) for name in ("receives_long", "shared_queue", "shared_several")},
}
# How many rounds count, and for how many instructions a store is recent.
ROUNDS, RECENT = 10, 50
# How lackey marks an instruction, a load, a store, and a load with a store to the same bytes. An address follows, and the number of bytes.
INSTRUCTION, LOAD, STORE, BOTH = "I ", " L", " S", " M"


class Counted(NamedTuple):
    """How many instructions and loads there are, and how many of the loads at each instruction span two stores."""

    instructions: int
    loads: int
    spanning: collections.Counter


def accesses(trace, begin):
    """What a program does from the first instruction at an address on: marks, addresses and sizes."""
    first = f"{INSTRUCTION} {begin:08x},"
    for line in itertools.dropwhile(lambda line: not line.startswith(first), trace):
        if line[:2] in (INSTRUCTION, LOAD, STORE, BOTH):
            address, size = line[3:].split(",")
            yield line[:2], int(address, 16), int(size)


def counted(trace, maker):
    """Counts what happens between the first and the last instruction of the function that makes the rounds, which has these addresses."""
    stored, made, loads, spanning = {}, 0, 0, collections.Counter()
    found = Counted(0, 0, collections.Counter())
    for kind, address, size in accesses(trace, maker.start):
        touched = range(address, address + size)
        if kind == INSTRUCTION:
            at, made = address, made + 1
            if at in maker:
                found = Counted(made, loads, spanning.copy())
            continue
        if kind != STORE:
            loads += 1
            recent = {when if when and made - when <= RECENT else None for when in map(stored.get, touched)}
            if len(recent) > 1:
                spanning[at] += 1
        if kind != LOAD:
            stored.update(dict.fromkeys(touched, made))
    return found


def functions_of(program):
    """The functions of a program, each with its addresses."""
    told = subprocess.run(["nm", "--print-size", program], capture_output=True, text=True, check=True).stdout
    rows = re.findall(r"^(\w+) (\w+) [tT] (\S+)$", told, re.MULTILINE)
    return {name: range(int(at, 16), int(at, 16) + int(size, 16)) for at, size, name in rows}


def counts_of(program, functions, name):
    """The counts of a work's rounds."""
    valgrind = ["valgrind", "--tool=lackey", "--trace-mem=yes", program, *words_for(WORKS[name], name, ROUNDS, 1)]
    with subprocess.Popen(valgrind, stderr=subprocess.PIPE, stdout=subprocess.DEVNULL, text=True) as ran:
        found = counted(ran.stderr, functions[COUNTED_IN])
    if ran.returncode != 0 or found.loads == 0:
        sys.exit(f"{os.path.basename(program)} {name} under valgrind: status {ran.returncode}, {found.loads} loads")
    return found


def faults(found, functions):
    """A line for each instruction with such loads."""
    for name, counts in found.items():
        for at, count in counts.spanning.items():
            function = next((function for function, addresses in functions.items() if at in addresses), "a library")
            yield f"{name}: a load of {function}, at {at:#x}, spans two stores {count / ROUNDS:.1f} times a round"


def table(found):
    """The table for docs/COST.md, in markdown."""
    rows = [(counts.instructions, counts.loads, sum(counts.spanning.values())) for counts in found.values()]
    yield "| Works over strm.h | Rounds of each | Instructions | Loads | Loads that span two stores |"
    yield "|---|---|---|---|---|"
    yield f"| {' | '.join(f'{count:,}' for count in (len(rows), ROUNDS, *map(sum, zip(*rows))))} |"


def main():
    given = options(__doc__, ["valgrind"], library="the path of the library for C")
    with tempfile.TemporaryDirectory() as room:
        program = built(OURS, os.path.abspath(given.library), room, "-no-pie")
        functions = functions_of(program)
        with ThreadPoolExecutor(os.cpu_count()) as pool:
            found = dict(zip(WORKS, pool.map(lambda name: counts_of(program, functions, name), WORKS)))
    show(given, "forwarding", list(table(found)))
    lines = list(faults(found, functions))
    if lines:
        sys.exit("\n".join(lines))


if __name__ == "__main__":
    main()

#!/usr/bin/env python3
"""Counts what `hop` of crates/strm_header takes beside the same in plain Rust, and prints a table. bench/README.md says how."""
import os
import subprocess
import sys

from census import HERE, add_program, proved, tree_of_work
from programs import collected, options, show

# The program's crate, and the libraries that it uses.
CRATE, USES = "bench_hop", ["arrayvec", "strm_header", "strm_mblk", "strm_pool"]
# The rows, and how many hops are counted: one message makes at most 254.
ROWS = {"right": "the header is right and rewritten", "wrong": "its checksum is wrong, the message is freed"}
COUNTED = 100


def compiled(room):
    """Compiles the plain program for the processor that `rt` builds for, and returns its path."""
    program = os.path.join(room, "plain")
    subprocess.run(["rustc", "-O", "--edition", "2021", "-C", "target-cpu=x86-64-v2", "-o", program, os.path.join(HERE, "header", "plain.rs")], check=True)
    return program


def instructions(program, row):
    """The instructions of a hop: how many more twice the hops take, per hop."""

    def counted(hops):
        count, answer = collected(program, [f"{row} {hops}"], "*measured_hop*")
        if answer != [str(hops)]:
            sys.exit(f"{program}, {row}: {answer}, not {hops} hops")
        return count

    return (counted(2 * COUNTED) - counted(COUNTED)) / COUNTED


def table(plain, own):
    """The table, in markdown."""
    yield from ("| A hop | Plain Rust | `hop` | `hop` / plain |", "|---|---|---|---|")
    for row, shown in ROWS.items():
        beside, counted = instructions(plain, row), instructions(own, row)
        yield f"| {shown} | {beside:,.0f} | {counted:,.0f} | {counted / beside:.2f} |"


def main():
    """Builds, counts, prints, and with --write rewrites docs/COST.md."""
    given = options(__doc__, ["valgrind", "rustc"], room="strm_header")
    now = tree_of_work(given.room, USES)
    add_program(now, CRATE, USES, os.path.join(HERE, "header", "hop"))
    show(given, "header", list(table(compiled(given.room), proved(now, CRATE))))


main()

#!/usr/bin/env python3
"""Measures what calls of the libraries cost, by rounds of the program of crates/strm_bench, and prints tables. bench/README.md says how."""
import os
import sys
import textwrap
from concurrent.futures import ThreadPoolExecutor
from typing import NamedTuple

from programs import Running, collected, medians, options, show
from strm_tools.limits import MESSAGE_BLOCKS

POOLS = (255, 4_095, MESSAGE_BLOCKS)
# The pool over which time is taken, and forms are compared.
MIDDLE = 4_095
# How long the rounds of a turn take, in instructions.
TURN = 20_000_000


class Row(NamedTuple):
    """A row: what a round does; the instructions that a plain program takes for it, if measured; how many calls it makes with registers, if
    it has that form; and the only function whose instructions count, if there is one."""

    shown: str
    beside: str
    calls: int = 0
    within: str = ""


# The rows by their names. The plain program is not in this repository.
ROWS = {
    "allocb": Row("`allocb`, `freemsg`", "123", 2),
    "dupb": Row("`allocb`, `dupb`, free both", "234", 4),
    "dupmsg": Row("`allocb`, `dupmsg`, free both", "287", 4),
    "write": Row("`allocb`, `write` 64 bytes, `freemsg`", "198", 3),
    "queued": Row("`allocb`, `write` 64 bytes, `setband`, `putq`, `getq`, `freemsg`", "513"),
    "copymsg_four": Row("`copymsg` of four blocks of 64 bytes, free the copy", "717", 2),
    "dupmsg_four": Row("`dupmsg` of four blocks, free the duplicate", "395", 2),
    "build": Row("build a message of four blocks of 64 bytes, free it", "853"),
    "pullup": Row("`pullupmsg` of four blocks of 64 bytes into one", "509", within="pull_up"),
    "unlinkb": Row("`unlinkb`, `linkb`, of four blocks", "83", 2),
    "settype": Row("`settype`", "", 1),
    "setband": Row("`setband`", "", 1),
    "has": Row("`has`", "18"),
    "size": Row("`size` of four blocks", "52", 1),
    "read": Row("`read` 64 bytes, the last of four blocks", "147", 1),
    "block": Row("`block`, the first of four", "", 1),
    "census": Row("`census`", "12", 1),
    "testb": Row("`testb`", "", 1),
    "open": Row("open a pool, drop it", ""),
    "putq": Row("`getq`, `putq`, the queue's only message", "317", 2),
    "putq_ranked": Row("`getq`, `putq`, the first of 1,000 messages of 17 ranks", ""),
    "putq_full": Row("`getq`, `putq`, one of ten messages; the band is full and wanted", ""),
    "putbq": Row("`getq`, `putbq`, the queue's only message", "", 2),
    "putbq_ranked": Row("`getq`, `putbq`, the first of 1,000 messages of 17 ranks", ""),
    "rmvq": Row("`rmvq` at place 0, `putbq`", "", 2),
    "insq": Row("`rmvq` at place 0, `insq` there", "", 2),
    "bcanput": Row("`bcanput`, the first of eight queues without service procedure", "", 1),
    "flushband": Row("`flushband` frees 100 of 4,000 messages", "", within="flush_hundred"),
    "strqset": Row("`strqset`", "", 1),
    "qsize": Row("`qsize`", "", 1),
    "qenable": Row("`qenable`, `next_service`", "", 2),
    "bufcall": Row("`bufcall`, `take_ready`", "", 2),
}
# The rows of calls on bytes in place and of looks at queues, beside older ways: the name, what a round does, and for which sizes: numbers of
# bytes of a message, of its blocks, or places.
BYTES = (64, 1_500)
BESIDE = [
    ("bytes", "`bytes`", BYTES),
    ("edit", "`edit` of one byte", BYTES),
    ("overwrite_byte", "`overwrite` of one byte", BYTES),
    ("rebuild", "`read`, `allocb`, `write`, `freemsg`, to change one byte", BYTES),
    ("overwrite", "`overwrite` of all", BYTES),
    ("fill", "`adjmsg`, `fill` of all", BYTES),
    ("advance", "`adjmsg`, `advance` over all", BYTES),
    ("prepend", "`adjmsg`, `prepend` of all", BYTES),
    ("read_all", "`read` of all", BYTES),
    ("read_queued", "`read_queued` of all", BYTES),
    ("reserve", "`reserve`", (64,)),
    ("place", "`place`", (64,)),
    ("walk", "`walk` of one block", (1,)),
    ("walk", "`walk` of 64 blocks", (64,)),
    ("each_block", "`block` for each of 64", (64,)),
    ("first_queued", "`first_queued`", (64,)),
    ("queued_after", "`queued_after`", (64,)),
    ("queued_at", "`queued_at`, the first", (0,)),
    ("queued_at", "`queued_at`, the 100th", (99,)),
    ("queue_spec", "`queue_spec`", (64,)),
    ("transfer", "`transfer` to another pool, and back", BYTES),
]
# What a round adds to the sum where that is not 1.
TOLD = {
    "open": lambda measure: measure.blocks,
    "census": lambda measure: measure.blocks,
    "size": lambda _: 256,
    "read": lambda _: 64,
    "block": lambda _: 64,
    "qsize": lambda _: 0,
    **dict.fromkeys(("bytes", "place", "walk", "each_block", "read_queued"), lambda measure: measure.size),
}
# A look at the census without the lock, measured in the form `serve` alone.
LOOK = "look"
# The function that is one served call, and the forms in which it is measured.
SERVED, SERVING = "serve_call", {"without a trace": "serve", "with a trace": "trace"}


class Measure(NamedTuple):
    """A row in a form, over a pool of this number of message blocks, for a size if it has one."""

    form: str
    row: str
    blocks: int
    within: str = ""
    size: int = 64

    def line(self, times):
        """The line that asks for this number of rounds."""
        return f"{self.form} {self.row} {self.blocks} {times} {self.size}"

    def calls(self):
        """How many calls a round makes, or 1 in the form `direct`, which counts rounds."""
        return 1 if self.form == "direct" else ROWS[self.row].calls

    def check(self, times, answer):
        """Exits if a call was not done, so that nothing else is measured."""
        if self.row == LOOK:
            return
        each = TOLD.get(self.row, lambda _: 1)(self) if self.form == "direct" else self.calls()
        if answer != times * each:
            sys.exit(f"{self.line(times)}: {answer}, not {times * each}")


def rounds_counted(measure):
    """How many rounds are counted: few where one has many calls."""
    return 5 if measure.row in ("open", "flushband") else 100


def instructions(program, measure):
    """The instructions of a round: how many more twice the rounds take, per round."""
    times = rounds_counted(measure)
    within = f"*{measure.within}*" if measure.within else None

    def counted(times):
        count, [answer] = collected(program, [measure.line(times)], within)
        measure.check(times, int(answer))
        return count

    return (counted(2 * times) - counted(times)) / times


def all_instructions(program, measures):
    """The instructions of a round of each, counted in parallel, since a count does not depend on what else runs."""
    with ThreadPoolExecutor(os.cpu_count()) as pool:
        return dict(zip(measures, pool.map(lambda measure: instructions(program, measure), measures)))


def nanoseconds(program, measures, counts, turns):
    """The nanoseconds of processor time of a round of each: medians of turns, less turns without rounds."""
    costs = {}
    with Running(program) as running:
        for measure in measures:
            times = max(20, min(100_000, int(TURN / max(counts[measure], 1))))

            def turn(times):
                had, _, answer = running.turn(measure.line(times))
                measure.check(times, answer)
                return (had,)

            [more] = medians([(turn(times)[0] - turn(0)[0],) for _ in range(turns)])
            costs[measure] = more / times
    return costs


def wanted():
    """Everything to measure: rows on the pool, rows with registers, a look, and one served call."""
    direct = [Measure("direct", row, blocks, told.within) for row, told in ROWS.items() for blocks in POOLS]
    registers = [Measure(form, row, MIDDLE) for row, told in ROWS.items() if told.calls for form in ("apply", "serve")]
    looks = [Measure("serve", LOOK, blocks) for blocks in POOLS]
    alone = [Measure(form, "allocb", MIDDLE, within) for form in SERVING.values() for within in ("", SERVED)]
    return list(dict.fromkeys([*direct, *registers, *looks, *alone, *(measure for _, measures in beside_shown() for measure in measures)]))


def rows_shown():
    """Each row by what is shown of it: its measures over each pool, and those with registers, if it has such."""
    for row, told in ROWS.items():
        registers = [Measure(form, row, MIDDLE) for form in ("apply", "serve")] if told.calls else []
        yield told.shown, [Measure("direct", row, blocks, told.within) for blocks in POOLS], registers
    yield "`census_now`", [Measure("serve", LOOK, blocks) for blocks in POOLS], []


def beside_shown():
    """Each row of calls in place and looks at queues by what is shown of it: its measures for each size."""
    for row, shown, sizes in BESIDE:
        yield shown, [Measure("direct", row, MIDDLE, size=size) for size in sizes]


def table_line(cells):
    """A line of a table in markdown, without the empty cells at its end."""
    return f"| {' | '.join(cells).rstrip('| ')} |"


def rows_table(counts, times, before):
    """Each round over the pool of the middle size, in each form that it has, in markdown."""
    head = ["A round", "Plain", "Direct", "ns", "`apply_into`", "`serve_into`, ns", *(["before", "`apply_into`"] if before else [])]
    yield from (f"| {' | '.join(head)} |", "|---" * len(head) + "|")
    for shown, over, registers in rows_shown():
        middle = over[POOLS.index(MIDDLE)]
        cells = [shown, ROWS[middle.row].beside if middle.row in ROWS else "", f"{counts[middle]:,.0f}"]
        cells.append("" if middle.within else f"{times[middle]:,.1f}")
        cells += [f"{counts[registers[0]]:,.0f}", f"{times[registers[1]]:,.1f}"] if registers else ["", ""]
        if before:
            cells += [f"{before[measure]:,.0f}" for measure in (middle, *registers[:1])]
        yield table_line(cells)


def other_pools(counts):
    """Which rounds take another number over the other pools, in lines of a page."""
    same = f"In a pool of {' or '.join(f'{blocks:,}' for blocks in POOLS if blocks != MIDDLE)} message blocks each round takes the same number of instructions"
    apart = []
    for shown, over, _ in rows_shown():
        if len({f"{counts[measure]:,.0f}" for measure in over}) > 1:
            apart.append(f"{shown} ({' and '.join(f'{counts[measure]:,.0f}' for measure in over if measure.blocks != MIDDLE)})")
    return textwrap.wrap(f"{same}, except: {', '.join(apart)}." if apart else f"{same}.", 100)


def beside_table(counts, times):
    """Each call in place or look at a queue, in markdown."""
    head = ["A round", *(word for size in BYTES for word in (f"{size:,} bytes", "ns"))]
    yield from (f"| {' | '.join(head)} |", "|---" * len(head) + "|")
    for shown, measures in beside_shown():
        cells = [cell for measure in measures for cell in (f"{counts[measure]:,.0f}", f"{times[measure]:,.1f}")]
        yield table_line([shown, *cells])


def served_table(counts, times, before):
    """A served call, in markdown."""
    head = ["A served call", *(["before, in `serve_into`"] if before else []), "Instructions in `serve_into`", "With the loop", "ns"]
    yield from (f"| {' | '.join(head)} |", "|---" * len(head) + "|")
    for name, form in SERVING.items():
        whole, alone = Measure(form, "allocb", MIDDLE), Measure(form, "allocb", MIDDLE, SERVED)
        cells = [name, *([f"{before[alone] / 2:,.1f}"] if before else []), f"{counts[alone] / 2:,.1f}", f"{counts[whole] / 2:,.1f}", f"{times[whole] / 2:,.1f}"]
        yield f"| {' | '.join(cells)} |"


def tables(counts, times, before):
    """All tables, in markdown."""
    yield from (f"Instructions of a round in a pool of {MIDDLE:,} message blocks, and nanoseconds of processor time:", "", *rows_table(counts, times, before))
    yield from ("", *other_pools(counts))
    yield from ("", "The same, of a message of one block with this number of bytes, or of queue 0:", "", *beside_table(counts, times))
    yield from ("", "A served call, when `allocb b 64` and `freemsg b` are served in turn:", "", *served_table(counts, times, before))


def main():
    """Measures, prints, and with --write rewrites docs/COST.md."""
    others = {"program": "the path of strm_bench", "--before": {"metavar": "PROGRAM", "help": "also count the instructions of another build"}}
    given = options(__doc__, ["valgrind"], 21, **others)
    measures = wanted()
    counts = all_instructions(os.path.abspath(given.program), measures)
    before = all_instructions(os.path.abspath(given.before), measures) if given.before else {}
    timed = [measure for measure in measures if measure.blocks == MIDDLE and not measure.within]
    times = nanoseconds(os.path.abspath(given.program), timed, counts, given.turns)
    show(given, "library", list(tables(counts, times, before)))


if __name__ == "__main__":
    main()

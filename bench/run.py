#!/usr/bin/env python3
"""Measures what a line and a call of the program `strm` cost, and prints tables. bench/README.md says how."""
import math
import os
import random
import re
import statistics
import subprocess
import sys
import tempfile
from functools import partial
from itertools import count, islice

from programs import DOCS, options, require, rewrite
from script import RANKED, WORDS, drawn

from strm_tools.limits import DATA_BLOCK_BYTES, DATA_BLOCKS, MESSAGE_BLOCKS, SCRIPT_BYTES, WISHES

SIZES = (1_000, 10_000, 100_000, 1_000_000)
POOLS = (16, 255, 4_095, MESSAGE_BLOCKS)
QUEUED = (16, 12_000)
# Runs a program, then prints its peak memory in KiB. Without a shell in between, Python's own peak would be the least.
TELL_PEAK = """"$@" && exec "$0" -c 'import resource, sys
print(resource.getrusage(resource.RUSAGE_CHILDREN).ru_maxrss, file=sys.stderr)'"""


def run(words, script):
    """Runs a program on a script, and gives what it used and what it wrote to standard error."""
    with open(script, "rb") as given:
        child = subprocess.Popen(words, stdin=given, stdout=subprocess.DEVNULL, stderr=subprocess.PIPE, text=True)
    with child.stderr:
        said = child.stderr.read()
    _, status, used = os.wait4(child.pid, 0)
    child.returncode = os.waitstatus_to_exitcode(status)
    if child.returncode != 0:
        sys.exit(f"{' '.join(words)}: status {child.returncode}\n{said}")
    return used, said


class Meter:
    """Measures a program by processor time or by instructions, with several runs for a median."""

    def __init__(self, program, rounds, instructions, folder):
        self.words = [program, "--serial", "--max", str(SCRIPT_BYTES)]
        self.rounds = rounds
        self.instructions = instructions
        self.folder = folder

    def write(self, name, lines):
        """Writes a script, and gives its path."""
        path = os.path.join(self.folder, name)
        with open(path, "w") as text:
            text.writelines(f"{line}\n" for line in lines)
        return path

    def cost(self, script):
        """The nanoseconds of processor time, or the instructions, of one run."""
        if self.instructions:
            counter = ["valgrind", "--tool=cachegrind", "--cache-sim=no", "--cachegrind-out-file=/dev/null"]
            _, said = run(counter + self.words, script)
            return int(re.search(r"I +refs: +([\d,]+)", said)[1].replace(",", ""))
        used, _ = run(self.words, script)
        return (used.ru_utime + used.ru_stime) * 1e9

    def more(self, short, long):
        """How much more one script costs than another: the median of runs in pairs."""
        return statistics.median(self.cost(long) - self.cost(short) for _ in range(self.rounds))

    def peak(self, script):
        """The median of the peak memory, in MiB."""
        words = ["sh", "-c", TELL_PEAK, sys.executable, *self.words]
        return statistics.median(int(run(words, script)[1]) / 1024 for _ in range(self.rounds))

    def check(self, script):
        """Exits if a call in a script was not done, so that nothing else is measured."""
        with open(script, "rb") as given:
            text = subprocess.run(self.words, stdin=given, stdout=subprocess.PIPE, text=True, check=True).stdout
        failed = re.search(r"^0:(\d+) (refused|empty|taken|none).*", text, re.MULTILINE)
        if failed:
            with open(script) as given:
                sys.exit(f"{given.read().splitlines()[int(failed[1]) - 1]}: {failed[0]}")


def line_costs(meter):
    """For each number of lines, the cost of one, and the peak memory."""
    none = meter.write("none", drawn(0))
    rows = {}
    for size in SIZES:
        script = meter.write("lines", drawn(size))
        rows[size] = meter.more(none, script) / size, meter.peak(script)
    return rows


def numbers(blocks):
    """The numbers that measured lines may name, over a pool of this number of message blocks."""
    half = (blocks - 4) // 2
    pulled = min(2 * half, DATA_BLOCK_BYTES)
    return {"blocks": half, "last": half - 1, "bytes": 2 * half, "end": 2 * half - 1, "middle": half, "pulled": pulled}


def ranks():
    """Types and bands of messages, drawn from 17 ranks: bands 0 to 15, and high priority."""
    draw = random.Random(1)
    while True:
        band = draw.randrange(17)
        yield ("M_CTL", band) if band < 16 else ("M_PCPROTO", 0)


def every_round(blocks):
    """The numbers that the lines of each round may name, over a pool of this number of message blocks."""
    for place in count(1):
        yield {"round": place, **numbers(blocks)}


def every_ranked_round(messages):
    """The names of each round over a queue of this length: band by band, one message is put again in each round."""
    while True:
        emptied = None
        for kind, band in sorted(islice(ranks(), messages), key=lambda rank: rank[1]):
            first = "" if band == emptied else f"(flushband 0 {band} all); "
            emptied = band
            yield {"kind": kind, "band": band, "emptied": first}


def lines_to_fill(filled, blocks):
    """The lines up to a pool that is filled with one message, or with a queue of messages. README.md describes it."""
    yield from (f"pool 1 {blocks}", f"class 16 {min(blocks, DATA_BLOCKS - 4)}", f"class {DATA_BLOCK_BYTES} 4")
    yield from ("queue 65536 0 s -", f"bufcalls {WISHES} 1", "worker", "allocb c 16", "setband c 1")
    if filled == "message":
        yield from ("allocb a 16", "write a 0 6162")
        for _ in range(numbers(blocks)["last"]):
            yield from ("allocb b 16", "write b 0 6162", "linkb a b")
    else:
        for place in range(blocks - 4):
            band = int(place < numbers(blocks)["middle"])
            yield from ("allocb b 16", "write b 0 61", "settype b 0 M_CTL", f"setband b {band}", "putq 0 b")


def lines_to_rank(messages):
    """The lines that fill one queue with messages of 17 ranks in drawn order, and register b with one message more."""
    yield from (f"pool 1 {messages + 1}", f"class 16 {messages + 1}", "queue 65536 0 s -", "bufcalls 0 1", "worker")
    for kind, band in islice(ranks(), messages):
        yield from ("allocb b 16", "write b 0 61", f"settype b 0 {kind}", f"setband b {band}", "putq 0 b")
    yield from ("allocb b 16",)


def round_cost(meter, fill, lines, names, rounds):
    """The cost of one round of the lines, without those in parentheses. Most take some 50 milliseconds together."""

    def scripts(rounds):
        every = "; ".join(lines.format(**named) for named in islice(names(), rounds)).split("; ")
        kept = [line for line in every if line.startswith("(")]
        left = sum(len(line) + 1 for line in every if not line.startswith("("))
        for name, comment, some in (("short", left, kept), ("long", 0, every)):
            yield meter.write(name, ["#" * (comment + 1), *fill, *(line.strip("()") for line in some)])

    short, long = scripts(rounds)
    meter.check(long)
    if not meter.instructions:
        one = max(meter.cost(long) - meter.cost(short), 1) / rounds
        rounds = min(max(rounds, int(5e7 / one)), 100_000)
        short, long = scripts(rounds)
    return meter.more(short, long) / rounds


def call_costs(meter):
    """For each round of lines, the words that it measures, and its cost for each size of the pool."""
    rounds = {}
    for word, row in WORDS.items():
        rounds.setdefault((row.filled, row.lines), []).append(word)
    return [
        (words, lines, [round_cost(meter, [*lines_to_fill(filled, size)], lines, partial(every_round, size), 500) for size in POOLS])
        for (filled, lines), words in rounds.items()
    ]


def ranked_costs(meter):
    """For each round of lines on a queue of messages of 17 ranks, its word, and its cost for each length of the queue."""
    return [
        ([word], lines, [round_cost(meter, [*lines_to_rank(size)], lines, partial(every_ranked_round, size), max(16_000, 16 * size)) for size in QUEUED])
        for word, lines in RANKED.items()
    ]


def call_table(sizes, costs):
    """The cost of each round of lines for the least size and the greatest, in markdown."""
    shown = {name: name.upper() for name in ("round", "kind", "band", *numbers(16))}
    shown["emptied"] = "(flushband 0 BAND all); "
    yield from (f"| Lines | {sizes[0]:,} | {sizes[-1]:,} |", "|---|---|---|")
    for _, lines, each in costs:
        code = ", ".join(f"`{line}`" for line in lines.format(**shown).split("; "))
        yield f"| {code} | {each[0]:,.0f} | {each[-1]:,.0f} |"


def grows(costs):
    """Whether a round takes more than four times as much in the largest pool as in the smallest."""
    return costs[-1] > 4 * costs[0]


def tables(meter, by_line, by_call, by_rank):
    """The tables of the page, in markdown: of rounds, only those that grow."""
    unit = "Instructions" if meter.instructions else "Nanoseconds"
    yield from (f"| Lines | {unit} a line | Peak memory, MiB |", "|---|---|---|")
    for size, (cost, peak) in by_line.items():
        yield f"| {size:,} | {cost:,.0f} | {peak:,.1f} |"
    steady = [cost for _, _, each in by_call if not grows(each) for cost in (each[0], each[-1])]
    yield from ("", f"{unit} of a round of lines that grows more than fourfold, by message blocks of the pool:", "")
    yield from call_table(POOLS, [row for row in by_call if grows(row[2])])
    yield from ("", f"The rounds of all other words take {min(steady):,.0f} to {max(steady):,.0f}.")
    yield from ("", f"{unit} of a round of lines, by the messages on one queue, which have 17 ranks:", "")
    yield from call_table(QUEUED, by_rank)


def panel(left, top, width, height, title, xs, curves):
    """One plot with both axes logarithmic. A curve is a label, which may be empty, and a value for each x."""
    values = [max(value, 1e-3) for _, ys in curves for value in ys]
    low = math.floor(math.log10(min(values)))
    high = max(low + 1, math.ceil(math.log10(max(values))))

    def across(x):
        return left + width * math.log(x / xs[0]) / math.log(xs[-1] / xs[0])

    def down(y):
        return top + height * (high - math.log10(max(y, 1e-3))) / (high - low)

    yield f'<text x="{left}" y="{top - 12}" font-weight="bold">{title}</text>'
    for power in range(low, high + 1):
        y = down(10**power)
        yield f'<line x1="{left}" y1="{y:.1f}" x2="{left + width}" y2="{y:.1f}" stroke="#ddd"/>'
        yield f'<text x="{left - 6}" y="{y + 4:.1f}" text-anchor="end">{10**power:,}</text>'
    for x in xs:
        yield f'<text x="{across(x):.1f}" y="{top + height + 16}" text-anchor="middle">{x:,}</text>'
    lowest = math.inf
    for label, ys in sorted(curves, key=lambda curve: curve[1][-1]):
        points = " ".join(f"{across(x):.1f},{down(y):.1f}" for x, y in zip(xs, ys))
        yield f'<polyline points="{points}" fill="none" stroke="{"#1f5fa8" if label else "#bbb"}" stroke-width="1.5"/>'
        if label:
            lowest = min(down(ys[-1]) + 4, lowest - 12)
            yield f'<text x="{left + width + 6}" y="{lowest:.1f}">{label}</text>'


def plot(meter, by_line, by_call):
    """Both tables as a picture. It names only words of rounds that grow."""
    unit = "Instructions" if meter.instructions else "Nanoseconds"
    costs, peaks = zip(*by_line.values())
    growing = [(", ".join(words) if grows(costs) else "", costs) for words, _, costs in by_call]
    yield '<svg xmlns="http://www.w3.org/2000/svg" width="900" height="520" font-family="sans-serif" font-size="11">'
    yield "<style>rect { fill: #ffffff } text { fill: #1b1d21 } @media (prefers-color-scheme: dark) { rect { fill: #14161a } text { fill: #e7e9ed } }</style>"
    yield '<rect width="900" height="520"/>'
    yield from panel(70, 40, 240, 180, f"{unit} a line, by lines", SIZES, [(f"{costs[-1]:,.0f}", costs)])
    yield from panel(70, 290, 240, 180, "Peak memory in MiB, by lines", SIZES, [(f"{peaks[-1]:,.0f}", peaks)])
    yield from panel(430, 40, 310, 430, f"{unit} a round, by message blocks", POOLS, growing)
    yield "</svg>"


def main():
    """Measures, prints, and with --write rewrites docs/COST.md and docs/cost.svg."""
    instructions = {"action": "store_true", "help": "count instructions by valgrind instead of time"}
    given = options(__doc__, [], 5, program="the path of strm", **{"--instructions": instructions})
    require(*["valgrind"] * given.instructions)
    rounds = 1 if given.instructions else given.turns
    with tempfile.TemporaryDirectory() as folder:
        meter = Meter(os.path.abspath(given.program), rounds, given.instructions, folder)
        by_line, by_call, by_rank = line_costs(meter), call_costs(meter), ranked_costs(meter)
    lines = list(tables(meter, by_line, by_call, by_rank))
    print("\n".join([*lines, "", "The other rounds:", "", *call_table(POOLS, [row for row in by_call if not grows(row[2])])]))
    if given.write:
        rewrite("bench", [*lines, "", "![How the cost grows](cost.svg)"])
        with open(os.path.join(DOCS, "cost.svg"), "w") as text:
            text.writelines(f"{line}\n" for line in plot(meter, by_line, by_call))


main()

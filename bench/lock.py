#!/usr/bin/env python3
"""Measures what a line of a script costs by four workers, beside the floor of one lock, and prints a table. bench/README.md says how."""
import os
import subprocess
import sys
import tempfile
import time

from programs import Running, medians, options, show

HERE = os.path.dirname(os.path.abspath(__file__))
# How many turns of the lock, and how many lines, one measurement takes.
TURNS, LINES = 2_000_000, 400_000
WORKERS = 4
HEADER = ["pool 1 4095", "class 16 1000", "class 64 2000", "class 256 1000", *(f"queue 4096 1024 s {next}" for next in ("1", "2", "3", "-")), "bufcalls 8 1"]
REGISTERS = "abcdefghijklmnopqrstuvwxyz"
# Turns of the lock: how threads wait, how many threads there are, and to how many cache lines a turn writes.
FLOORS = {
    "a turn of the lock, one thread": ("looks", 1, 1),
    "a turn of the lock, four threads, which wait as workers do": ("looks", WORKERS, 1),
    "a turn of the lock, four threads, `pthread_mutex_lock`": ("mutex", WORKERS, 1),
    "a turn that goes to the other of two threads each time": ("round", 2, 1),
    "the same, and the turn writes to 16 cache lines more": ("round", 2, 17),
}
# Runs of scripts: the queues of the sections, and the options.
RUNS = {
    "a line, by `--serial`": ([0], ["--serial"]),
    "a line, by one worker": ([0], []),
    "a line, by four workers on four queues": (range(WORKERS), []),
    "a line, by four workers on one queue": ([0] * WORKERS, []),
}


def section(queue, lines):
    """Lines on a queue: messages of 8 bytes are made, put, taken and freed, one for each register."""
    forms = ("allocb {0} 16", "write {0} 0 0123456789abcdef", "putq {1} {0}", "getq {1} {0}", "freemsg {0}")
    made = [form.format(register, queue) for form in forms for register in REGISTERS]
    return ["worker", *(made[number % len(made)] for number in range(lines))]


def script(queues, lines):
    """A script of sections with as many lines together, each on one of these queues."""
    parts = (section(queue, lines // len(queues)) for queue in queues)
    return "".join(f"{line}\n" for line in [*HEADER, *(line for part in parts for line in part)])


def compiled(room):
    """Compiles the program of the floor, and returns its path."""
    program = os.path.join(room, "floor")
    subprocess.run([os.environ.get("CC", "cc"), "-O2", "-pthread", "-o", program, os.path.join(HERE, "lock", "floor.c")], check=True)
    return program


def floors(running):
    """The nanoseconds of a turn of the lock, by row."""
    for row, (how, threads, written) in FLOORS.items():
        _, passed, turns = running.turn(f"{how} {threads} {TURNS} {written}")
        if turns != TURNS:
            sys.exit(f"{row}: {turns} turns, not {TURNS}")
        yield passed / turns


def run(program, path, options, output):
    """Runs a script."""
    with open(path) as text:
        return subprocess.run([program, "--max", "16777216", *options], stdin=text, stdout=output, check=True).stdout


def ran(program, path, options):
    """How long a run of a script takes, and what share of the lines of another run comes behind a line of another worker."""
    begun = time.perf_counter()
    run(program, path, options, subprocess.DEVNULL)
    passed = time.perf_counter() - begun
    said = run(program, path, options, subprocess.PIPE).split(b"\n")
    workers = [line.partition(b":")[0] for line in said[:LINES]]
    return passed, sum(one != other for one, other in zip(workers, workers[1:])) / LINES


def lines_of(program, room):
    """The nanoseconds of a line, and the share of lines behind another worker's, by row. Reading the script and writing the text are in each
    line."""
    for number, (queues, given) in enumerate(RUNS.values()):
        path = os.path.join(room, f"script{number}")
        if not os.path.exists(path):
            with open(path, "w") as text:
                text.write(script(queues, LINES))
        passed, share = ran(program, path, given)
        yield 1e9 * passed / LINES
        yield share


def table(floor, lines):
    """The table, in markdown."""
    serial, of_one, of_four, _ = (nanoseconds for nanoseconds, _ in lines)
    yield from ("| | ns | behind another thread's |", "|---|---|---|")
    for row, measured in zip(FLOORS, floor):
        yield f"| {row} | {measured:.0f} | |"
    for row, (nanoseconds, share) in zip(RUNS, lines):
        yield f"| {row} | {nanoseconds:.0f} | {100 * share:.2f}% |"
    yield f"| what one worker adds to a line | {of_one - serial:.0f} | |"
    yield f"| what three more workers add, on queues of their own | {of_four - of_one:.0f} | |"


def main():
    """Builds, measures, prints, and with --write rewrites docs/COST.md."""
    given = options(__doc__, [os.environ.get("CC", "cc")], 9, program="the program strm")
    with tempfile.TemporaryDirectory() as room, Running(compiled(room)) as running:
        rounds = [(*floors(running), *lines_of(given.program, room)) for _ in range(given.turns)]
    measured = medians(rounds)
    floor, lines = measured[: len(FLOORS)], measured[len(FLOORS) :]
    show(given, "lock", list(table(floor, list(zip(lines[::2], lines[1::2])))))


main()

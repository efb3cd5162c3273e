#!/usr/bin/env python3
"""Measures what a call costs that is served in a batch, beside one that is served alone and one that is applied, and how many calls four threads
serve. It uses the program of crates/strm_bench, and prints tables. bench/README.md says how."""
import os
import statistics
import sys
from concurrent.futures import ThreadPoolExecutor

from programs import Running, collected, options, show

# Each row by what its calls are, with the number of calls in a round and of lines in a batch.
ROWS = {
    "allocb": ("`allocb`, `freemsg`", 2),
    "dupb": ("`allocb`, `dupb`, free both", 4),
    "putq": ("`getq`, `putq`, the queue's only message", 2),
    "unlinkb": ("`unlinkb`, `linkb`, of four blocks", 2),
    "census": ("`census`", 1),
}
BATCH = 32
BLOCKS = 4_095
# How calls are made, on one thread: the form, by what it is called.
FORMS = {"apply": "`apply_into`", "serve": "`serve_into`", "batch": "`serve_all`, 32 lines"}
# The calls of a turn on one thread, and of each thread in a turn on four.
CALLS, EACH = 320_000, 640_000
# The forms on four threads, and what they are called.
FOUR = {"four": "one by one", "four_batches": "in batches of 32"}


def calls_in_round(form, row):
    """How many calls a round of this form has."""
    return BATCH if form in ("batch", "four_batches") else ROWS[row][1]


def line(form, row, rounds):
    """The line that asks for these rounds."""
    return f"{form} {row} {BLOCKS} {rounds}"


def check(asked, answer, wanted):
    """Exits if a call was not done, so that nothing else is measured."""
    if answer != wanted:
        sys.exit(f"{asked}: {answer}, not {wanted}")


def instructions(program, form, row):
    """The instructions of a call: how many more twice the rounds take, by the number of calls."""
    rounds = 32 * BATCH // calls_in_round(form, row)

    def counted(rounds):
        asked = line(form, row, rounds)
        count, [answer] = collected(program, [asked])
        check(asked, int(answer), rounds * calls_in_round(form, row))
        return count

    return (counted(2 * rounds) - counted(rounds)) / (rounds * calls_in_round(form, row))


def nanoseconds(running, form, row):
    """The nanoseconds of processor time of a call, in one turn."""
    rounds = CALLS // calls_in_round(form, row)
    asked = line(form, row, rounds)
    had, _, answer = running.turn(asked)
    check(asked, answer, rounds * calls_in_round(form, row))
    none, _, _ = running.turn(line(form, row, 0))
    return (had - none) / CALLS


def calls_per_second(running, form, row):
    """How many calls four threads serve in a second, in one turn."""
    rounds = EACH // calls_in_round(form, row)
    asked = line(form, row, rounds)
    _, gone, answer = running.turn(asked)
    check(asked, answer, 4 * rounds * calls_in_round(form, row))
    return answer / gone * 1e9


def one_thread(program, turns):
    """The table of calls on one thread, in markdown."""
    wanted = [(form, row) for row in ROWS for form in FORMS]
    with ThreadPoolExecutor(os.cpu_count()) as pool:
        counts = dict(zip(wanted, pool.map(lambda each: instructions(program, *each), wanted)))
    with Running(program) as running:
        times = {each: statistics.median(nanoseconds(running, *each) for _ in range(turns)) for each in wanted}
    head = ["Calls", *(word for shown in FORMS.values() for word in (shown, "ns")), "`serve_all` / `apply_into`", "ns"]
    yield from (f"| {' | '.join(head)} |", "|---" * len(head) + "|")
    for row, (shown, _) in ROWS.items():
        cells = [cell for form in FORMS for cell in (f"{counts[form, row]:,.1f}", f"{times[form, row]:,.1f}")]
        cells += [f"{counts['batch', row] / counts['apply', row]:.2f}", f"{times['batch', row] / times['apply', row]:.2f}"]
        yield f"| {shown} | {' | '.join(cells)} |"


def four_threads(program, turns):
    """The table of calls on four threads, in markdown. The forms take turns, so that both meet the same load of the machine."""
    head = ["Calls of four threads", *(f"millions a second, {shown}" for shown in FOUR.values()), "times as many"]
    yield from (f"| {' | '.join(head)} |", "|---" * len(head) + "|")
    with Running(program) as running:
        for row in ("allocb", "putq"):
            rates = {form: [] for form in FOUR}
            for _ in range(turns):
                for form, each in rates.items():
                    each.append(calls_per_second(running, form, row))
            alone, batches = (statistics.median(each) for each in rates.values())
            yield f"| {ROWS[row][0]} | {alone / 1e6:,.2f} | {batches / 1e6:,.2f} | {batches / alone:.1f} |"


def main():
    """Measures, prints, and with --write rewrites docs/COST.md."""
    given = options(__doc__, ["valgrind"], 11, program="the path of strm_bench")
    program = os.path.abspath(given.program)
    lines = ["Instructions and nanoseconds of a call, with the loop over the calls and their replies:", ""]
    lines += [*one_thread(program, given.turns), "", *four_threads(program, given.turns)]
    show(given, "batches", lines)


main()

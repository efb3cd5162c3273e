#!/usr/bin/env python3
"""Measures what a look at the census without the lock costs beside a C function, and prints a table. bench/README.md says how."""
import os
import shutil
import subprocess
import sys

from programs import Running, collected, medians, options, show
from strm_tools.limits import MESSAGE_BLOCKS

HERE = os.path.dirname(os.path.abspath(__file__))
TOP = os.path.dirname(HERE)

# The program's crate, and the libraries that it uses.
CRATE, USES = "bench_look", ["arrayvec", "strm_pool", "strm_shared"]
# How many looks one line asks for, to count instructions and to take time.
COUNTED, LOOKS = 1_000, 5_000_000
WORKERS = (4, 15)


def libraries(crates, name):
    """A library of the repository and all that it uses."""
    found = {name}
    for below in crates[name]:
        if below in crates:
            found |= libraries(crates, below)
    return found


def all_libraries(crates, uses):
    """The libraries of the repository among these, and all that they use."""
    return set().union(*(libraries(crates, name) for name in uses if name in crates))


def listed(tree):
    """The libraries that each crate uses, by crates.txt of a tree."""
    with open(os.path.join(tree, "crates.txt")) as text:
        lines = (line.split("#")[0].partition(":") for line in text)
        return {name.strip(): uses.split() for name, _, uses in lines if name.strip()}


def fresh_copy(source, to):
    """Copies a folder over an older copy, without the files that only a check of its crate needs."""
    shutil.rmtree(to, ignore_errors=True)
    shutil.copytree(source, to, ignore=shutil.ignore_patterns("incremental", "must-fail"))


def tree_of_work(room, uses):
    """A copy of the crates that these use, as they are now, with the libraries that were built of them."""
    tree = os.path.join(room, "now")
    os.makedirs(os.path.join(tree, "crates"), exist_ok=True)
    for name in all_libraries(listed(TOP), uses):
        fresh_copy(os.path.join(TOP, "crates", name), os.path.join(tree, "crates", name))
    for name in ("crates.txt", "HANDLES"):
        shutil.copy(os.path.join(TOP, name), tree)
    return tree


def add_program(tree, crate, uses, given):
    """Adds the crate of a program, which is in a folder, to a tree. crates.txt then has that crate and those that it needs, no others."""
    crates = listed(tree)
    kept = {**{name: crates[name] for name in all_libraries(crates, uses)}, crate: uses}
    with open(os.path.join(tree, "crates.txt"), "w") as text:
        text.writelines(f"{name}: {' '.join(below)}\n" for name, below in kept.items())
    for part in os.listdir(given):
        to = os.path.join(tree, "crates", crate, part)
        shutil.rmtree(to, ignore_errors=True)
        shutil.copytree(os.path.join(given, part), to, copy_function=lambda file, name: shutil.copy(file, name.removesuffix(".txt")))


def proved(tree, crate):
    """Proves and builds a program of a tree, and returns its path."""
    folder = os.path.join(tree, "crates", crate)
    said = subprocess.run(["rt", "run"], cwd=folder, stdin=subprocess.DEVNULL, stdout=subprocess.PIPE, stderr=subprocess.STDOUT, text=True)
    program = os.path.join(folder, "out", crate)
    if said.returncode != 0 or not os.path.isfile(program):
        sys.exit(f"{crate} was not built:\n" + "\n".join(said.stdout.splitlines()[-20:]))
    return program


def compiled(room):
    """Compiles the C program, and returns its path."""
    program = os.path.join(room, "plain")
    words = [os.environ.get("CC", "cc"), "-O2", f"-DCOUNT_RANGE=UINT64_C({MESSAGE_BLOCKS + 1})", "-o", program]
    subprocess.run([*words, os.path.join(HERE, "census", "plain.c")], check=True)
    return program


def instructions(program, first):
    """The instructions of a look: how many more twice the looks take, per look."""

    def counted(looks):
        return collected(program, [*first, looks])[0]

    return (counted(2 * COUNTED) - counted(COUNTED)) / COUNTED


def begin(running, first):
    """Has a program read its first lines, and look once. Returns the number that its answer begins with."""
    for line in first:
        running.say(line)
    return running.turn(1)[2]


def costs_in_turns(programs, rounds):
    """For each program with its first lines, medians for a look: processor time, elapsed time, and by how much the stamp rose. The
    programs take turns."""
    running = [Running(program) for program, _ in programs]
    stamps = [begin(one, first) for one, (_, first) in zip(running, programs)]
    turns = [[] for _ in running]
    for _ in range(rounds):
        for place, one in enumerate(running):
            had, went, stamp = one.turn(LOOKS)
            turns[place].append((had, went, stamp - stamps[place]))
            stamps[place] = stamp
    for one in running:
        one.__exit__()
    return [[cost / LOOKS for cost in medians(own)] for own in turns]


def look_costs(plain, look, rounds):
    """For each row its name, the costs of a look (instructions, processor time, elapsed time), and how many calls were served meanwhile."""
    alone = costs_in_turns([(plain, []), (look, [0])], rounds)
    yield "the C function", instructions(plain, []), *alone[0]
    yield "`census_now`, no workers", instructions(look, [0]), *alone[1]
    for workers in WORKERS:
        [crowded] = costs_in_turns([(look, [workers])], rounds)
        yield f"`census_now` beside {workers} workers", None, *crowded


def table(looks):
    """The table, in markdown."""
    yield from ("| A look | Instructions | ns, processor | ns, elapsed | Calls served during a look |", "|---|---|---|---|---|")
    for name, counted, had, went, served in looks:
        yield f"| {name} | {'' if counted is None else f'{counted:,.1f}'} | {had:,.2f} | {went:,.2f} | {served:,.4f} |"


def main():
    """Builds, measures, prints, and with --write rewrites docs/COST.md."""
    given = options(__doc__, ["valgrind"], 41, "strm_census")
    now = tree_of_work(given.room, USES)
    add_program(now, CRATE, USES, os.path.join(HERE, "census", "look"))
    show(given, "census", list(table(list(look_costs(compiled(given.room), proved(now, CRATE), given.turns)))))


if __name__ == "__main__":
    main()

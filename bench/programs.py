"""What the benchmarks share: their options, how small programs that are measured are run, and tables in pages of docs."""
import argparse
import os
import pathlib
import re
import shutil
import statistics
import subprocess
import sys
import tempfile
import time

DOCS = os.path.join(os.path.dirname(os.path.abspath(__file__)), "..", "docs")


def options(doc, needs, turns=0, room="", **others):
    """The options of a benchmark, and its arguments, each with its help or with all that argparse is told of it. Ends it if a tool is missing
    that it needs."""
    parser = argparse.ArgumentParser(description=doc)
    if turns:
        parser.add_argument("--turns", "--rounds", type=int, default=turns, help="how many measurements a median is taken of")
    if room:
        parser.add_argument("--room", default=os.path.join(tempfile.gettempdir(), room), help="where to build the programs and keep them")
    parser.add_argument("--write", action="store_true", help="put the tables into docs")
    for name, given in others.items():
        parser.add_argument(name, **({"help": given} if isinstance(given, str) else given))
    given = parser.parse_args()
    require(*needs)
    return given


def require(*tools):
    """Ends the benchmark if a tool is missing."""
    for tool in tools:
        if not shutil.which(tool):
            sys.exit(f"{tool} is not installed")


def show(given, name, lines):
    """Prints tables, and with --write puts them into docs/COST.md."""
    print("\n".join(lines))
    if given.write:
        rewrite(name, lines)


class Running:
    """A program that reads a line with work to do, does it, and answers by a line."""

    def __init__(self, program):
        self.child = subprocess.Popen([program], stdin=subprocess.PIPE, stdout=subprocess.PIPE, text=True, bufsize=1)

    def __enter__(self):
        return self

    def __exit__(self, *_):
        self.child.stdin.close()
        self.child.wait()
        self.child.stdout.close()

    def say(self, line):
        """Sends it a line that it does not answer."""
        self.child.stdin.write(f"{line}\n")

    def processor_time(self):
        """The nanoseconds of processor time that its first thread has used."""
        return int(pathlib.Path(f"/proc/{self.child.pid}/task/{self.child.pid}/schedstat").read_text().split()[0])

    def turn(self, line):
        """Sends a line and waits for the answer. Returns the nanoseconds of the first thread's processor time, the nanoseconds that went
        by, and the number that the answer begins with."""
        had, begun = self.processor_time(), time.perf_counter_ns()
        self.say(line)
        answer = self.child.stdout.readline()
        if not answer:
            sys.exit(f"{self.child.args[0]} ended without an answer")
        return self.processor_time() - had, time.perf_counter_ns() - begun, int(answer.split()[0])


def medians(turns):
    """The median of each column of turns, which are tuples."""
    return [statistics.median(column) for column in zip(*turns)]


def collected(program, lines, within=None):
    """Counts by valgrind the instructions of a program that reads these lines, all or those within one function. Returns the count and
    the answers."""
    words = ["valgrind", "--tool=callgrind", "--callgrind-out-file=/dev/null", *([f"--toggle-collect={within}"] if within else []), program]
    ran = subprocess.run(words, input="".join(f"{line}\n" for line in lines), capture_output=True, text=True, check=True)
    return int(re.search(r"Collected : (\d+)", ran.stderr)[1]), ran.stdout.split()


def rewrite(name, lines, page="COST.md"):
    """Puts tables between their two marks in a page of docs."""
    begin, end = f"<!-- {name}: begin -->\n", f"<!-- {name}: end -->\n"
    path = os.path.join(DOCS, page)
    before, rest = pathlib.Path(path).read_text().split(begin)
    written = "\n".join(lines)
    pathlib.Path(path).write_text(f"{before}{begin}\n{written}\n\n{end}{rest.split(end)[1]}")

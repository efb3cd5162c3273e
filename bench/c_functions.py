"""In which functions the instructions of some rounds of c.py are executed: a table in markdown, by valgrind."""
import os
import re
import subprocess
import tempfile

# The columns: rounds of rounds.c, and ways of packets of peers/strm.c, and how each is shown.
CALLS = {"allocb": "`strm_allocb`, `strm_freemsg`", "putq": "`strm_putq`, `strm_getq`", "putq_32": "bursts of 32 by `strm_putq_n`, `strm_getq_n`"}
WAYS = {"in_place_short": "a packet of 64 bytes", "no_copy_long": "a packet of 1,500 bytes, not copied"}
COLUMNS = {**CALLS, **WAYS}
COUNTED = 20_000
# A line of callgrind_annotate: a number, its share, a source and a function.
LINE = re.compile(r"\s*([\d,]+)\s+\(.*?\)\s+\S+?:(\S+)")


def counted(words):
    """The instructions of a run, by function."""
    with tempfile.NamedTemporaryFile() as file:
        subprocess.run(["valgrind", "--tool=callgrind", f"--callgrind-out-file={file.name}", *words], check=True, capture_output=True)
        told = subprocess.run(["callgrind_annotate", "--threshold=100", file.name], check=True, capture_output=True, text=True).stdout
    found = {}
    for line in filter(None, map(LINE.match, told.splitlines())):
        found[line[2]] = found.get(line[2], 0) + int(line[1].replace(",", ""))
    return found


def of_round(rounds, packets, name):
    """The instructions of one round, by function: how many more twice the rounds take, per round."""
    few, many = (counted([packets, name, str(count), "1"] if name in WAYS else [rounds, "strm", name, str(count)]) for count in (COUNTED, 2 * COUNTED))
    return {function: round((count - few.get(function, 0)) / COUNTED) for function, count in many.items()}


def row_of(function):
    """The row that a function counts with: what is written in C, an export with all that is inlined into it, a call below, or the round."""
    if "::" in function:
        return f"`{'::'.join(function.split('::')[-2:])}`"
    if function.startswith("strm_c_"):
        return f"`{function}`"
    return "the functions of c/strm.c" if function in SHOWN else "the round itself, `memcpy`"


def calls_of(header):
    """The calls that strm.h declares."""
    with open(header, encoding="utf-8") as text:
        return set(re.findall(r"\b(strm_\w+)\(", text.read()))


SHOWN = calls_of(os.path.join(os.path.dirname(os.path.abspath(__file__)), "..", "c", "strm.h"))


def functions(rounds, packets):
    """The table of the programs of calls and of packets, in markdown, its longest rows first."""
    rows = {}
    for name in COLUMNS:
        for function, count in of_round(rounds, packets, name).items():
            cells = rows.setdefault(row_of(function), dict.fromkeys(COLUMNS, 0))
            cells[name] += count
    yield f"| Instructions in | {' | '.join(COLUMNS.values())} |"
    yield f"|---|{'---|' * len(COLUMNS)}"
    for row, cells in sorted(rows.items(), key=lambda row: -sum(row[1].values())):
        if any(cells.values()):
            yield f"| {row} | {' | '.join(f'{cell:,}' if cell else '' for cell in cells.values())} |"

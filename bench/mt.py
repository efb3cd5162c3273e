#!/usr/bin/env python3
"""Measures how fast messages go from producers to consumers: over strm_mt.h, over a mutex and two condition variables with GLib's GQueue, over
DPDK's rte_ring with spinning, over a pipe, and over a channel of Go, where Debian's packages are installed. Then it prints what sending and
receiving costs where nobody waits, and the same by hand; and how long messages in four bands wait at a slow consumer, which build/waiting.svg
shows.

    bench/mt.py [--turns N] LIBRARY
"""
import argparse
import os
import re
import shlex
import shutil
import subprocess
import sys
import tempfile

TOP = os.path.dirname(os.path.dirname(os.path.abspath(__file__)))
SOURCE = os.path.join(TOP, "bench", "mt", "handover.c")
COMPILED = ["-std=gnu11", "-O2", "-Wall", "-Wextra", "-pthread"]
MESSAGES, PACED, PAUSE = 100_000, 2_000, 100_000
# Turns where nobody waits, and rounds of one.
TURNS, ROUNDS = 201, 10_000
# What a peer is called, the -D of handover.c, and the name by which pkg-config finds it.
PEERS = [("strm_mt.h", "STRM_MT", None), ("GQueue", "GLIB", "glib-2.0"), ("rte_ring", "DPDK", "libdpdk"), ("pipe", "PIPE", None)]
# Bytes of a message, messages of a burst, producers (and as many consumers).
WORKS = [(size, burst, threads) for size in (64, 1500) for burst in (1, 32) for threads in (1, 4)]


def out_of(words):
    ran = subprocess.run(words, capture_output=True, text=True, timeout=300, check=False)
    return ran.stdout if ran.returncode == 0 else sys.exit(f"{' '.join(words)}: status {ran.returncode}\n{ran.stderr}")


def built(room, archive):
    """The programs of those peers that are installed, by what they are called."""
    programs = {}
    for shown, define, package in PEERS:
        words = []
        if package:
            found = subprocess.run(["pkg-config", "--cflags", "--libs", package], capture_output=True, text=True, check=False)
            if found.returncode != 0:
                print(f"not run: {shown}: pkg-config finds no {package}")
                continue
            words = shlex.split(found.stdout)
        if define == "STRM_MT":
            words = ["-I" + os.path.join(TOP, "c"), os.path.join(TOP, "c", "strm_mt.c"), archive]
        programs[shown] = [os.path.join(room, define)]
        subprocess.run([os.environ.get("CC", "cc"), *COMPILED, f"-D{define}", SOURCE, *words, "-o", programs[shown][0]], check=True)
    if shutil.which("go"):
        programs["Go"] = [os.path.join(room, "go")]
        where = {**os.environ, "GOCACHE": os.path.join(room, "cache"), "GO111MODULE": "off"}
        subprocess.run(["go", "build", "-o", programs["Go"][0], SOURCE[:-1] + "go"], env=where, check=True)
    else:
        print("not run: Go: there is no go (Debian package golang-go)")
    return programs


def row(program, work, turns):
    """The most messages a second of some turns, and the least 99th percentile of hand-overs to consumers that wait."""
    each = [str(part) for part in work]
    fast = [float(out_of([*program, *each, str(MESSAGES // work[2]), "0"]).split()[0]) for _ in range(turns)]
    late = [int(out_of([*program, *each, str(PACED // work[2]), str(PAUSE)]).split()[2]) for _ in range(turns)]
    return max(fast), min(late)


def instructions(program, way):
    """The instructions of a round where nobody waits, by valgrind."""
    words = ["valgrind", "--tool=callgrind", "--callgrind-out-file=/dev/null", f"--toggle-collect={way}", program, "uncontended", "1"]
    ran = subprocess.run(words, capture_output=True, text=True, check=True)
    return int(re.search(r"Collected : (\d+)", ran.stderr)[1]) / ROUNDS


def alone(program):
    """What each way costs where nobody waits, beside the one by hand."""
    times = {way: float(ns) for way, ns in (line.split() for line in out_of([program, "uncontended", str(TURNS)]).splitlines())}
    yield "| Where nobody waits | ns | / by hand | instructions | / by hand |"
    yield "|---|---|---|---|---|"
    counts = {way: instructions(program, way) for way in times}
    for way, ns in times.items():
        yield f"| {way} | {ns} | {ns / times['by_hand']:.2f} | {counts[way]:.0f} | {counts[way] / counts['by_hand']:.2f} |"


def drawn(lines):
    """A picture: for each band, the waiting times of its messages from the shortest to the longest."""
    rows = [[int(number) for number in line.split()] for line in lines]
    most = max(max(each[1:]) for each in rows)
    out = ['<svg xmlns="http://www.w3.org/2000/svg" width="640" height="400" font-family="sans-serif" font-size="12">']
    out += [f'<text x="60" y="20">waiting times at one slow consumer, to {most / 1e6:.2f} ms; messages by their times</text>']
    for (band, *times), colour in zip(rows, ("#b22", "#c80", "#393", "#36c")):
        points = " ".join(f"{60 + 500 * at / (len(times) - 1):.1f},{380 - 340 * time / most:.1f}" for at, time in enumerate(times))
        out += [f'<polyline fill="none" stroke="{colour}" points="{points}"/>']
        out += [f'<text x="565" y="{380 - 340 * times[-1] / most:.1f}" fill="{colour}">band {band}</text>']
    return "\n".join([*out, "</svg>", ""])


def main():
    parser = argparse.ArgumentParser(prog="bench/mt.py", description=__doc__, formatter_class=argparse.RawTextHelpFormatter)
    parser.add_argument("--turns", type=int, default=5)
    parser.add_argument("archive", metavar="LIBRARY")
    options = parser.parse_args()
    with tempfile.TemporaryDirectory() as room:
        programs = built(room, os.path.abspath(options.archive))
        print("| Bytes | Burst | Producers and consumers | " + " | ".join(f"{shown}, messages/s | 99 % within, us" for shown in programs) + " |")
        print("|---" * (3 + 2 * len(programs)) + "|")
        for work in WORKS:
            rows = [row(program, work, options.turns) for program in programs.values()]
            print(f"| {work[0]} | {work[1]} | {work[2]} | " + " | ".join(f"{fast:,.0f} | {late / 1000:.0f}" for fast, late in rows) + " |")
        ours = programs["strm_mt.h"][0]
        print("", *alone(ours), "", sep="\n")
        lines = out_of([ours, "bands"]).splitlines()
        print("98 % of messages in bands 0 to 3 wait at most, ms: " + ", ".join(f"{int(line.split()[-1]) / 1e6:.0f}" for line in lines))
        os.makedirs(os.path.join(TOP, "build"), exist_ok=True)
        with open(os.path.join(TOP, "build", "waiting.svg"), "w", encoding="utf-8") as file:
            file.write(drawn(lines))


main()

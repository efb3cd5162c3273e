#!/usr/bin/env python3
"""Measures the same works over strm.h, over two pools written by hand in C, one of which checks as strm.h does, and over DPDK, lwIP and GLib where
Debian's packages are installed. bench/README.md says how."""
import os
import re
import shlex
import subprocess
import sys
import tempfile
from concurrent.futures import ThreadPoolExecutor
from typing import NamedTuple

from programs import options, rewrite

TOP = os.path.dirname(os.path.dirname(os.path.abspath(__file__)))
SOURCES = os.path.join(TOP, "bench", "peers")
PLAIN = os.path.join(TOP, "bench", "c", "plain.c")
# The calls of strm.h by hand.
CHECKED = os.path.join(SOURCES, "checked.c")
COMPILED = ["-std=gnu11", "-O2", "-Wall", "-Wextra", "-pthread"]
THREADS = 4
# How many rounds a turn has, of one thread and of each of some threads, and how many turns a run of a program takes.
ROUNDS, ROUNDS_OF_THREADS, TURNS = 100_000, 50_000, 10
COUNTED = 10_000
# The function of main.c whose instructions count.
COUNTED_IN = "make_rounds"
# The status of a program that has no such work.
NO_WORK = 3


class Peer(NamedTuple):
    """How a peer is shown, the Debian package that it needs, and the name by which pkg-config finds it."""

    shown: str
    package: str = ""
    found_by: str = ""


OURS = "strm"
PEERS = {
    OURS: Peer("strm.h"),
    "checked": Peer("checked"),
    "plain": Peer("plain"),
    "dpdk": Peer("DPDK", "libdpdk-dev", "libdpdk"),
    "lwip": Peer("lwIP", "liblwip-dev", "lwip"),
    "glib": Peer("GLib", "libglib2.0-dev", "glib-2.0"),
}


class Work(NamedTuple):
    """What a round does, how many messages it makes, how threads use pools, if there are several, how many messages of how many bytes are on the
    queue, and the work's name in peers/peer.h if that is another."""

    shown: str
    messages: int = 1
    pools: str = ""
    queued: int = 0
    size: int = 0
    made: str = ""


# By the names of peers/peer.h, one thread's works, the ways of packets, and those of threads.
CALLS = {
    "allocb": Work("allocate for 64 bytes, free"),
    "dupb": Work("duplicate, free the duplicate"),
    "queue": Work("allocate, write 64 bytes, put on the queue, take off, free"),
    "copy_short": Work("copy 64 bytes, free the copy"),
    "copy_long": Work("copy 1,500 bytes, free the copy"),
    "chain": Work("build a message of four blocks of 64 bytes, free it"),
    "pullup": Work("the same, pulled up into one block in between"),
}
WAYS = {
    "copies_short": Work("64 bytes: copied in, copied to be looked at, and copied out"),
    "in_place_short": Work("64 bytes: copied in, read in place"),
    "copies_long": Work("1,500 bytes: copied in, copied to be looked at, and copied out"),
    "in_place_long": Work("1,500 bytes: copied in, read in place"),
    "no_copy_long": Work("1,500 bytes: never copied"),
}
# Messages of a burst; and on a deep queue, with their bytes.
BURSTS = (8, 32, 256)
DEEP = [(queued, size) for size in (64, 1500) for queued in (1_000, 8_000, 16_000)]
IN_PLACE = {64: "in_place_short", 1500: "in_place_long"}
MANY = {
    **{f"several_{count}": Work(f"allocate, write 64 bytes, put, take, free, {count} at a time", count) for count in BURSTS},
    **{
        f"deep_{queued}_{size}": Work(f"{size:,} bytes through a queue of {queued:,} messages", queued=queued, size=size, made=IN_PLACE[size])
        for queued, size in DEEP
    },
}
SHARED = {
    "shared_queue": Work("one pool and queue for all", pools="shared"),
    "shared_several": Work("the same, 32 messages at a time", 32, "shared"),
    "queue": Work("a pool and a queue for each", pools="own"),
}


def flags(name):
    """What a peer is compiled and linked with, or None if its package is not installed."""
    peer = PEERS[name]
    if not peer.package:
        return [], []
    found = [subprocess.run(["pkg-config", of, peer.found_by], capture_output=True, text=True) for of in ("--cflags", "--libs")]
    return tuple(shlex.split(told.stdout) for told in found) if all(told.returncode == 0 for told in found) else None


def built(name, archive, room, *more_flags):
    """Compiles the program of a peer, with further flags, and returns its path, or None if its package is not installed."""
    found = flags(name)
    if found is None:
        return None
    program = os.path.join(room, name)
    calls = ["-I" + os.path.join(TOP, "c"), os.path.join(SOURCES, f"{OURS}.c")]
    more = {OURS: [*calls, archive], "checked": [*calls, CHECKED], "plain": [os.path.join(SOURCES, "plain.c"), PLAIN]}
    sources = [os.path.join(SOURCES, "main.c"), *more.get(name, [os.path.join(SOURCES, f"{name}.c")])]
    subprocess.run([os.environ.get("CC", "cc"), *COMPILED, *more_flags, *found[0], *sources, *found[1], "-o", program], check=True)
    return program


def version(name):
    """The version of a peer's package."""
    told = subprocess.run(["dpkg-query", "--show", "--showformat=${Version}", PEERS[name].package], capture_output=True, text=True)
    return re.split(r"[-+~]", told.stdout)[0]


def words_for(work, name, rounds, turns):
    of_threads = [work.pools, str(THREADS)] if work.pools else []
    of_queue = ["queued", str(work.queued), str(work.size)] if work.queued else []
    return [work.made or name, str(rounds), str(turns), *of_threads, *of_queue]


def nanoseconds(program, name, work):
    """The nanoseconds of a message in the fastest turn of a run, or None if the peer has no such work."""
    rounds = (ROUNDS_OF_THREADS if work.pools else ROUNDS) // work.messages
    ran = subprocess.run([program, *words_for(work, name, rounds, TURNS)], capture_output=True, text=True)
    if ran.returncode == NO_WORK:
        return None
    if ran.returncode != 0:
        sys.exit(f"{os.path.basename(program)} {name}: status {ran.returncode}\n{ran.stderr}")
    return float(ran.stdout.split()[-1]) / work.messages


def instructions(program, name, work):
    """The instructions of a message, or None if the peer has no such work."""
    rounds = COUNTED // work.messages
    valgrind = ["valgrind", "--tool=callgrind", "--callgrind-out-file=/dev/null", f"--toggle-collect={COUNTED_IN}"]
    ran = subprocess.run([*valgrind, program, *words_for(work, name, rounds, 1)], capture_output=True, text=True)
    if ran.returncode == NO_WORK:
        return None
    found = re.search(r"Collected : (\d+)", ran.stderr)
    if ran.returncode != 0 or not found:
        sys.exit(f"{os.path.basename(program)} {name} under valgrind: status {ran.returncode}\n{ran.stderr}")
    return int(found[1]) / rounds / work.messages


def fastest(programs, works, turns):
    """For each work and peer the nanoseconds of the fastest run. Peers take turns, so that what else runs slows down all."""
    best = {}
    for name, work in works.items():
        for _ in range(turns):
            for peer, program in programs.items():
                took = nanoseconds(program, name, work)
                best[name, peer] = took if took is None else min(took, best.get((name, peer), took))
    return best


def counted(programs, works):
    """For each work and peer the instructions."""
    pairs = [(name, peer) for name in works for peer in programs]
    with ThreadPoolExecutor(os.cpu_count()) as pool:
        counts = pool.map(lambda pair: instructions(programs[pair[1]], pair[0], works[pair[0]]), pairs)
        return dict(zip(pairs, counts))


def ratio(ours, theirs):
    return "" if theirs is None else f"{ours / theirs:.2f}"


def number(count):
    return "" if count is None else f"{count:,.0f}"


def times_table(peers, works, best, what):
    """How long strm.h takes, and how many times as long as each other peer."""
    others = [peer for peer in peers if peer != OURS]
    yield f"| {what} | strm.h, ns | " + " | ".join(f"strm.h / {PEERS[peer].shown}" for peer in others) + " |"
    yield "|---" * (2 + len(others)) + "|"
    for name, work in works.items():
        ours = best[name, OURS]
        yield f"| {' | '.join([work.shown, f'{ours:,.1f}', *(ratio(ours, best[name, peer]) for peer in others)])} |"


def counts_table(peers, works, counts, what):
    """The instructions of each peer."""
    yield f"| {what} | " + " | ".join(PEERS[peer].shown for peer in peers) + " |"
    yield "|---" * (1 + len(peers)) + "|"
    for name, work in works.items():
        yield f"| {' | '.join([work.shown, *(number(counts[name, peer]) for peer in peers)])} |"


def many_table(peers, best, counts):
    """The nanoseconds and the instructions of each peer."""
    yield "| A message | " + " | ".join(PEERS[peer].shown for peer in peers) + " |"
    yield "|---" * (1 + len(peers)) + "|"
    for name, work in MANY.items():
        cells = [f"{best[name, peer]:,.1f}, {number(counts[name, peer])}" for peer in peers]
        yield f"| {' | '.join([work.shown, *cells])} |"


def measured(programs, turns):
    """The tables for docs/COST.md, the one for docs/C.md, and the one that is only printed, in markdown."""
    peers = list(programs)
    named = [f"{PEERS[peer].shown} {version(peer)}" for peer in peers if PEERS[peer].package]
    single = {**CALLS, **WAYS}
    best = fastest(programs, single, turns)
    shared = fastest(programs, SHARED, turns)
    counts = counted(programs, {**single, **MANY})
    long = [
        "The time of a message" + (f", beside Debian's {', '.join(named)}" if named else "") + ":",
        "",
        *times_table(peers, CALLS, best, "A task"),
        "",
        f"The time that passes for a message while {THREADS} threads each do the third of these tasks:",
        "",
        *times_table(peers, SHARED, shared, "The threads have"),
        "",
        "Bursts, and deep queues whose blocks are in drawn order: nanoseconds and instructions of a message:",
        "",
        *many_table(peers, fastest(programs, MANY, turns), counts),
    ]
    return long, list(times_table(peers, WAYS, best, "A packet of")), ["Instructions of a message:", "", *counts_table(peers, single, counts, "A task")]


def main():
    given = options(__doc__, ["valgrind"], 5, library="the path of the library for C")
    with tempfile.TemporaryDirectory() as room:
        programs = {name: built(name, os.path.abspath(given.library), room) for name in PEERS}
        missing = [PEERS[name] for name, program in programs.items() if program is None]
        for peer in missing:
            print(f"not run: {peer.shown}: Debian package {peer.package} is not installed", flush=True)
        if missing and given.write:
            sys.exit("--write needs all packages")
        long, short, more = measured({name: program for name, program in programs.items() if program}, given.turns)
    print("\n".join([*long, "", *short, "", *more]))
    if given.write:
        rewrite("peers", long)
        rewrite("peers", short, "C.md")


if __name__ == "__main__":
    main()

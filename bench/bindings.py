#!/usr/bin/env python3
"""Measures the ways of packets of bench/peers in C, C++, Rust and Python, over one library. bench/README.md says how."""
import os
import subprocess
import tempfile

import peers
from programs import options, show

TOP = peers.TOP
SOURCES = os.path.join(TOP, "bench", "bindings")
# Ways of packets by their names in peers/peer.h, and the columns: the program, what the names of its works end in, and how it is shown.
WAYS = {
    "copies_short": peers.Work("64 bytes, copied"),
    "in_place_short": peers.Work("64 bytes, read in place"),
    "copies_long": peers.Work("1,500 bytes, copied"),
    "in_place_long": peers.Work("1,500 bytes, read in place"),
}
COLUMNS = [("cpp", "", "C++"), ("cpp", "_codes", "C++ with error codes"), ("rust", "", "Rust")]
# How many packets Python takes in a run.
ROUNDS = 20_000


def cpp(archive, room):
    """What is linked of the source in C++."""
    made = os.path.join(room, "packet.o")
    words = [os.environ.get("CXX", "c++"), "-std=c++17", "-O2", *(f"-I{os.path.join(TOP, path)}" for path in ("c", "bindings/cpp", "bench/peers"))]
    subprocess.run([*words, "-c", os.path.join(SOURCES, "packet.cpp"), "-o", made], check=True)
    return [made, archive, "-lstdc++"]


def rust(archive, room):
    """What is linked of the source in Rust."""
    made = os.path.join(room, "libpacket.a")
    own = {**os.environ, "STRM_LIB_DIR": os.path.dirname(archive), "CARGO_TARGET_DIR": room}
    words = ["cargo", "build", "--release", "--quiet", "--offline", "--manifest-path", os.path.join(TOP, "bindings", "rust", "Cargo.toml")]
    subprocess.run(words, check=True, env=own)
    crate = f"strm={os.path.join(room, 'release', 'libstrm.rlib')}"
    source = os.path.join(SOURCES, "packet.rs")
    subprocess.run(["rustc", "--edition", "2021", "-O", "--extern", crate, "--crate-type", "staticlib", source, "-o", made], check=True)
    return [made, archive, "-ldl", "-lm"]


def built(name, linked, room):
    """Links the program of a language with main.c of the peers, and returns its path."""
    program = os.path.join(room, name)
    subprocess.run([os.environ.get("CC", "cc"), *peers.COMPILED, os.path.join(peers.SOURCES, "main.c"), *linked, "-o", program], check=True)
    return program


def in_python(archive, name, turns):
    """The nanoseconds of a packet in Python in the fastest run."""
    own = {**os.environ, "STRM_LIBRARY": os.path.join(os.path.dirname(archive), "libstrm.so"), "PYTHONPATH": os.path.join(TOP, "bindings", "python")}
    words = ["python3", os.path.join(SOURCES, "packet.py"), name, str(ROUNDS)]
    return min(float(subprocess.run(words, check=True, capture_output=True, text=True, env=own).stdout) for _ in range(turns))


def table(archive, room, turns):
    """The ways in each language, in markdown."""
    programs = {peers.OURS: peers.built(peers.OURS, archive, room), "cpp": built("cpp", cpp(archive, room), room), "rust": built("rust", rust(archive, room), room)}
    times = peers.fastest({peers.OURS: programs[peers.OURS]}, WAYS, turns)
    yield f"| A packet of | C, instructions | {' | '.join(f'{shown} / C' for *_, shown in COLUMNS)} | C, ns | Python, ns |"
    yield f"|---|---|{'---|' * len(COLUMNS)}---|---|"
    for name, work in WAYS.items():
        in_c = peers.instructions(programs[peers.OURS], name, work)
        ratios = [peers.instructions(programs[program], name + end, work) / in_c for program, end, _ in COLUMNS]
        cells = [work.shown, f"{in_c:,.0f}", *(f"{ratio:.2f}" for ratio in ratios)]
        yield f"| {' | '.join([*cells, f'{times[name, peers.OURS]:,.1f}', f'{in_python(archive, name, turns):,.0f}'])} |"


def main():
    given = options(__doc__, ["valgrind", "c++", "cargo", "rustc"], 5, library="the path of libstrm.a, beside which is libstrm.so")
    with tempfile.TemporaryDirectory() as room:
        show(given, "bindings", list(table(os.path.abspath(given.library), room, given.turns)))


main()

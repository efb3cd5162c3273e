"""Runs a program over a shim (shim.c) between it and the C library, which counts its calls and fails one of them."""
import os
import struct
import subprocess
import sys
import tempfile
from typing import NamedTuple

from making.telling import Wrong, hold

SOURCE = os.path.join(os.path.dirname(os.path.abspath(__file__)), "shim.c")
# How long a run may take.
SECONDS = 20
# What the shim maps: of each kind of calls, how many were made and which one fails; how many bytes a write to standard output
# takes at most; and how many blocks of memory the program has not freed.
KINDS_OF_CALLS = GROWTHS, THREADS, READS, OUTPUTS, ERRORS = range(5)
CALLS = struct.Struct("2Q")
MOST = struct.Struct("Q")
KEPT = struct.Struct("q")
NO_LIMIT = 2**64 - 1
# Other functions of the C library that allocate, create a thread, read or write. The shim fails none of them, so no program may import one.
OTHERS = {
    *"aligned_alloc calloc memalign posix_memalign pvalloc reallocarray valloc".split(),
    *"asprintf brk getdelim getline mmap mmap64 mremap sbrk strdup strndup vasprintf".split(),
    *"clone fork posix_spawn thrd_create vfork".split(),
    *"fgetc fgets fread getc getchar pread pread64 preadv readv recv __read".split(),
    *"fprintf fputc fputs fwrite printf putc putchar puts pwrite pwrite64 pwritev send sendfile sendfile64 writev".split(),
}
# Where a program, an ELF file, has the functions that it imports: how a file of 64 bits with the lowest byte first begins, and what is read of it:
# where its section headers begin, the size of one and their number; of a section its kind, offset, size and linked section; of a symbol the
# offset of its name and its section, 0 for an import.
MAGIC = b"\x7fELF\x02\x01"
HEADER = struct.Struct("<40xQ10xHH2x")
SECTION = struct.Struct("<4xI16xQQI20x")
SYMBOL = struct.Struct("<I2xH16x")
DYNAMIC_SYMBOLS = 11


class Unreadable(Exception):
    """Why the imports of a program can't be read."""


def imports_of(path):
    """The names of the functions and variables that a program imports."""
    with open(path, "rb") as file:
        octets = file.read()
    if not octets.startswith(MAGIC):
        raise Unreadable("it is no ELF file of 64 bits")
    try:
        names = list(imports_in(octets))
    except (struct.error, IndexError, ValueError):
        raise Unreadable("its symbols can't be read") from None
    if not names:
        raise Unreadable("it imports nothing")
    return names


def imports_in(octets):
    begin, size, count = HEADER.unpack_from(octets)
    sections = [SECTION.unpack_from(octets, begin + number * size) for number in range(count)]
    for kind, place, length, names in sections:
        if kind == DYNAMIC_SYMBOLS:
            texts = sections[names][1]
            for name, section in SYMBOL.iter_unpack(octets[place : place + length]):
                if section == 0 and name > 0:
                    yield octets[texts + name : octets.index(b"\0", texts + name)].decode("latin-1")


def unfit(program):
    """Why the shim can't fail each call that a program makes, or None."""
    try:
        others = sorted(OTHERS.intersection(imports_of(program)))
    except (OSError, Unreadable) as why:
        return str(why)
    return f"it imports {', '.join(others)}, which the shim does not fail" if others else None


class Answer(NamedTuple):
    """How a run ended, and what it wrote."""

    status: int
    stdout: str
    stderr: str

    def __repr__(self):
        return f"status {self.status}, {self.stdout[-100:]!r}, {self.stderr[-100:]!r}"


class Shim:
    """A program over the shim."""

    def __init__(self, program, room):
        self.program = os.path.abspath(program)
        why = unfit(self.program)
        if why:
            sys.exit(f"{program} is not tried: {why}")
        self.room = room
        self.library = os.path.join(room, "shim.so")
        words = ["cc", "-Wall", "-Wextra", "-Werror", "-shared", "-fPIC", "-o", self.library, SOURCE, "-ldl"]
        try:
            subprocess.run(words, check=True)
        except (OSError, subprocess.CalledProcessError) as why:
            sys.exit(f"the shim is not compiled: {why}")

    def run(self, words, script, kind, failing=0, most=NO_LIMIT):
        """Runs the program on a script, where this call of a kind fails, or none, and a write to standard output takes so many
        bytes at most. Returns its answer, and how many calls of the kind it made. All memory must have been freed."""
        kinds = [CALLS.pack(0, failing if calls == kind else 0) for calls in KINDS_OF_CALLS]
        plan = b"".join(kinds) + MOST.pack(most) + KEPT.pack(0)
        with tempfile.NamedTemporaryFile(dir=self.room) as mapped, open(script, "rb") as stdin:
            mapped.write(plan)
            mapped.flush()
            variables = {**os.environ, "LD_PRELOAD": self.library, "FAULTS": mapped.name}
            try:
                ran = subprocess.run([self.program, *words], stdin=stdin, capture_output=True, env=variables, timeout=SECONDS)
            except subprocess.TimeoutExpired:
                raise Wrong(f"it still ran after {SECONDS} seconds") from None
            mapped.seek(kind * CALLS.size)
            made, _ = CALLS.unpack(mapped.read(CALLS.size))
            mapped.seek(len(plan) - KEPT.size)
            (kept,) = KEPT.unpack(mapped.read(KEPT.size))
        hold(kept == 0, f"{kept} blocks of memory are not freed")
        return Answer(ran.returncode, ran.stdout.decode("latin-1"), ran.stderr.decode("latin-1")), made

"""Commands of gdb that show pools of libstrm, in a process or in a core file. `source` reads this file, and `help strm` lists them.
Tested, not proved.

A pool is in one region of memory (c/heap.c). A child process, which is this file as a program, has a copy of it at the same addresses, and asks
the looks of strm.h there. So nothing here depends on how the library lays a pool out, the program does not run, and a pool that is damaged
ends only the child. The library is that of the program, or, if it was linked with libstrm.a, the one beside this file."""
import ctypes
import mmap
import os
import re
import shutil
import struct
import subprocess
import sys

# Of a handle: its state, which is beside its address. Of a region: where its address is before a piece, and where its size is in it.
OPEN = 0x5354524D
REGION_BEFORE = 8
SIZE_IN_REGION = 24
NO_ROOM = 3
FIXED = 0x100000
SHOWN = 32
TRIES = 8
# gdb names the file only while it reads it.
OWN = os.path.realpath(__file__)
TYPES = (
    "M_DATA M_PROTO M_BREAK M_PASSFP M_SIG M_DELAY M_CTL M_IOCTL M_SETOPTS M_IOCACK M_IOCNAK M_PCPROTO M_PCSIG M_READ M_FLUSH M_STOP"
    " M_START M_HANGUP M_ERROR M_COPYIN M_COPYOUT M_IOCDATA"
).split()


class Name(ctypes.Structure):
    """The name of a message."""

    _fields_ = [("pool", ctypes.c_uint32), ("head", ctypes.c_uint32), ("stamp", ctypes.c_uint64)]


class Handle(ctypes.Structure):
    _fields_ = [("at", ctypes.c_void_p), ("state", ctypes.c_size_t)]


class Pool:
    """The copy of a pool, which the looks of a library answer about."""

    def __init__(self, library, at, region, octets):
        place = ctypes.CDLL(None, use_errno=True).mmap
        place.restype = ctypes.c_void_p
        place.argtypes = [ctypes.c_void_p, ctypes.c_size_t, ctypes.c_int, ctypes.c_int, ctypes.c_int, ctypes.c_long]
        begin = region // mmap.PAGESIZE * mmap.PAGESIZE
        flags = mmap.MAP_PRIVATE | mmap.MAP_ANONYMOUS | FIXED
        if place(begin, region + len(octets) - begin, mmap.PROT_READ | mmap.PROT_WRITE, flags, -1, 0) != begin:
            sys.exit(NO_ROOM)
        ctypes.memmove(region, octets, len(octets))
        self.library = ctypes.CDLL(library)
        self.handle = Handle(at, OPEN)
        self.mblks = sum(self.look("census", 3))

    def call(self, name, *arguments):
        return getattr(self.library, f"strm_{name}")(ctypes.byref(self.handle), *arguments)

    def look(self, name, fields, *arguments):
        """The fields that a look stores, or None if it returns no STRM_OK."""
        stored = (ctypes.c_uint32 * fields)()
        return None if self.call(name, *arguments, ctypes.byref(stored)) else list(stored)

    def each(self, name, fields, *arguments):
        """What a look stores for each place from 0 on."""
        place = 0
        while (stored := self.look(name, fields, *arguments, place)) is not None:
            yield stored
            place += 1

    def bytes_at(self, name, *arguments):
        """The first bytes that a look copies, and whether there are more."""
        into, count = ctypes.create_string_buffer(SHOWN + 1), ctypes.c_size_t()
        self.call(name, *arguments, 0, into, ctypes.c_size_t(SHOWN + 1), ctypes.byref(count))
        text = repr(into.raw[: min(count.value, SHOWN)])[2:-1]
        return f'"{text}"' + (".." if count.value > SHOWN else "")

    def held(self):
        """The name of each held message."""
        for head in range(self.mblks):
            name = Name()
            if self.call("name_at", head, ctypes.byref(name)) == 0:
                yield name

    def queue_lines(self, queue):
        msgs, octets, read, noenable, enabled = self.look("queue_info", 5, queue)
        yield f"queue {queue} msgs={msgs} bytes={octets} read={read} noenable={noenable} enabled={enabled}"
        for band in range(255, -1, -1):
            octets, full, wanted = self.look("band_info", 3, queue, band)
            if octets > 0:
                yield f"band {band} bytes={octets} full={full} wanted={wanted}"


def pool_lines(pool):
    """The report that strm prints of a pool."""
    yield "blocks free={} queued={} held={} total={}".format(*pool.look("census", 3), pool.mblks)
    for size, free, total in pool.each("class_info", 3):
        yield f"data size={size} free={free} total={total}"
    queue = 0
    while pool.look("queue_info", 5, queue) is not None:
        yield from pool.queue_lines(queue)
        queue += 1
    yield f"run {' '.join(str(queue) for queue, in pool.each('run_at', 1)) or '-'}"
    yield f"wishes {' '.join(f'{own}:{size}' for own, size in pool.each('wish_at', 2)) or '-'}"


def queue_lines(pool, number):
    queue = int(number)
    spec = pool.look("queue_spec", 4, queue)
    if spec is None:
        yield f"there is no queue {queue}"
        return
    high, low, service, following = spec
    yield f"hiwat={high} lowat={low} service={service} next={'-' if following == 0xFFFFFFFF else following}"
    yield from pool.queue_lines(queue)
    for place, (head, kind, band, octets, blocks) in enumerate(pool.each("queued_at", 5, queue)):
        yield f"{place}: block {head} {TYPES[kind]} band={band} bytes={octets} blocks={blocks} {pool.bytes_at('read_queued', queue, place)}"


def message_lines(pool, own, head, stamp):
    name = Name(int(own), int(head), int(stamp))
    if name.stamp == 0 and pool.call("name_at", name.head, ctypes.byref(name)):
        yield f"no held message begins at block {head}"
        return
    if pool.look("has", 1, name) != [1]:
        yield f"{head}.{stamp} is not valid"
        return
    yield f"{name.head}.{name.stamp} of pool {name.pool} bytes={pool.look('size', 1, name)[0]} {pool.bytes_at('read', name)}"
    for place, (kind, length, band, room, names) in enumerate(pool.each("block", 5, name)):
        data, at, _, capacity = pool.look("place", 4, name, place)
        yield f"{place}: {TYPES[kind]} len={length} band={band} room={room} names={names} data={data} at={at} capacity={capacity}"


def leak_lines(pool):
    names = list(pool.held())
    yield f"held: messages={len(names)} blocks={pool.look('census', 3)[2]}"
    for name in names:
        yield f"{name.head}.{name.stamp}: {pool.look('size', 1, name)[0]} bytes {pool.bytes_at('read', name)}"


LINES = {"pool": pool_lines, "queue": queue_lines, "message": message_lines, "leaks": leak_lines}


def answer():
    """Answers as the child: the words are the library, the addresses of pool and region, what is asked, and its words."""
    library, at, region, asked, *rest = sys.argv[1:]
    pool = Pool(library, int(at), int(region), sys.stdin.buffer.read())
    print("\n".join(LINES[asked](pool, *rest)))


def add_commands(gdb):
    """Adds the commands to gdb."""
    selected = {}

    def number_at(address):
        return struct.unpack("<Q", bytes(gdb.selected_inferior().read_memory(address, 8)))[0]

    def region_of(at):
        """The address and the size of the region of a pool at an address, or None."""
        try:
            region = number_at(at - REGION_BEFORE)
            size = number_at(region + SIZE_IN_REGION)
        except (gdb.MemoryError, OverflowError):
            return None
        return (region, size) if region < at < region + size < 1 << 47 else None

    def writable():
        """The memory in which handles can be."""
        text = gdb.execute("info proc mappings", to_string=True) if gdb.selected_inferior().pid and not is_core() else ""
        found = re.findall(r"^\s*0x([0-9a-f]+)\s+0x([0-9a-f]+)\s.*\brw", text, re.MULTILINE)
        text = gdb.execute("maintenance info sections", to_string=True)
        found += re.findall(r"0x([0-9a-f]+)->0x([0-9a-f]+) at .*: load\d+\w* ALLOC LOAD(?! READONLY)", text)
        return [(int(begin, 16), int(end, 16)) for begin, end in found]

    def is_core():
        return "core file" in gdb.execute("info target", to_string=True)

    def found_pools():
        """The addresses of the open pools that some handle in memory leads to."""
        pools = []
        for begin, end in writable():
            at = begin
            while at < end:
                try:
                    at = gdb.selected_inferior().search_memory(at, end - at, struct.pack("<Q", OPEN))
                except gdb.error:
                    break
                if at is None:
                    break
                pool = number_at(at - 8) if at - 8 >= begin else 0
                if pool and pool not in pools and region_of(pool):
                    pools.append(pool)
                at += 8
        return sorted(pools)

    def value_of(expression, usage=""):
        try:
            return gdb.parse_and_eval(expression)
        except gdb.error as why:
            raise gdb.GdbError(str(why) if expression else usage) from None

    def pool_of(expression):
        """The address of the pool of a handle, or of the only pool."""
        if not gdb.selected_inferior().threads():
            raise gdb.GdbError("there is no process and no core file")
        if expression:
            handle = value_of(expression)
            handle = handle.dereference() if handle.type.strip_typedefs().code == gdb.TYPE_CODE_PTR else handle
            if int(handle["state"]) != OPEN:
                raise gdb.GdbError(f"{expression} is not open")
            selected["pool"] = int(handle["at"])
        elif "pool" not in selected:
            pools = found_pools()
            if not pools:
                raise gdb.GdbError("no pool is open")
            if len(pools) > 1:
                raise gdb.GdbError(f"{len(pools)} open pools are in memory: strm pool EXPRESSION takes the one of a handle")
            return pools[0]
        return selected["pool"]

    def library():
        names = [objfile.filename for objfile in gdb.objfiles()]
        loaded = [name for name in names if re.match(r"libstrm(_trace)?\.so", os.path.basename(name))]
        return (sorted(loaded, key=lambda name: "_trace" not in name) or [os.path.join(os.path.dirname(OWN), "libstrm.so")])[0]

    def ask(expression, *words):
        at = pool_of(expression)
        region = region_of(at)
        if not region:
            raise gdb.GdbError("there is no open pool at that address")
        octets = bytes(gdb.selected_inferior().read_memory(*region))
        command = [shutil.which("python3") or "python3", OWN, library(), str(at), str(region[0]), *words]
        for _ in range(TRIES):
            ran = subprocess.run(command, input=octets, stdout=subprocess.PIPE, stderr=subprocess.PIPE, check=False)
            if ran.returncode != NO_ROOM:
                break
        if ran.returncode != 0:
            ends = f"ended by signal {-ran.returncode}: the pool may be damaged" if ran.returncode < 0 else ran.stderr.decode().strip()[-300:]
            raise gdb.GdbError(f"{command[2]}: {ends}")
        gdb.write(ran.stdout.decode())

    class Strm(gdb.Command):
        """Shows pools of libstrm: message blocks and queues of STREAMS."""

        def __init__(self):
            super().__init__("strm", gdb.COMMAND_DATA, prefix=True)

    class OfPool(gdb.Command):
        """strm pool [EXPRESSION]: reports the pool of this handle, which the other commands then take too; or the only one in memory."""

        def __init__(self):
            super().__init__("strm pool", gdb.COMMAND_DATA)

        def invoke(self, argument, from_tty):
            ask(argument, "pool")

    class OfQueue(gdb.Command):
        """strm queue N: shows the marks of queue N, and its messages."""

        def __init__(self):
            super().__init__("strm queue", gdb.COMMAND_DATA)

        def invoke(self, argument, from_tty):
            ask("", "queue", str(int(value_of(argument, "strm queue N"))))

    class OfMessage(gdb.Command):
        """strm message NAME: shows a held message. NAME is an expression of type struct strm_msg, or HEAD.STAMP as strm leaks prints it."""

        def __init__(self):
            super().__init__("strm message", gdb.COMMAND_DATA)

        def invoke(self, argument, from_tty):
            parts = re.fullmatch(r"(\d+)(?:\.(\d+))?", argument.strip())
            if parts:
                ask("", "message", "0", parts[1], "0")
                return
            name = value_of(argument, "strm message NAME")
            ask("", "message", *(str(int(name[field])) for field in ("pool", "head", "stamp")))

    class Leaks(gdb.Command):
        """strm leaks: shows all messages that the program holds."""

        def __init__(self):
            super().__init__("strm leaks", gdb.COMMAND_DATA)

        def invoke(self, argument, from_tty):
            ask("", "leaks")

    for command in (Strm, OfPool, OfQueue, OfMessage, Leaks):
        command()


try:
    import gdb as debugger
except ImportError:
    answer()
else:
    add_commands(debugger)

"""Pools of message blocks and queues, as in UNIX System V Release 4 STREAMS, over the proved library of strm.h. Tested, not proved.

    with Pool(mblks=40, classes=[(16, 32)], queues=[QueueSpec(hiwat=64, lowat=16)]) as pool:
        msg = pool.allocb(4)
        msg.write(0, b"lion")
        pool.queues[0].put(msg)

strm.h says what each call does, and when it is refused. A method has the name of its call, or its comment names the call. A refused call raises
`Refusal`, and changes nothing. STRM_NONE is no refusal: then a method returns None.

A message is spent by the call that it is handed to; a later call with it is refused as `INVALID`. One that is no longer referred to stays held, as
in C: `Pool.leaked` finds it. `with msg:` frees it at the end, unless it was spent.

Bytes in place are memoryviews, which the next call that changes the pool releases: to use one after that raises ValueError. What was made of one,
such as a slice, is not released, so copy it. While such an object holds the bytes (as numpy.frombuffer does), such calls raise BufferError. The
views of `room`, `edit` and `window`, which change nothing, may be written, also by recv_into.

The interpreter's lock is held during each call, so threads may share a pool.
"""
from __future__ import annotations

import ctypes
import enum
import itertools
import os
from typing import Any, Dict, Iterable, Iterator, List, NamedTuple, Optional, Sequence, Tuple, Type, TypeVar, Union, cast

__all__ = (
    "BandInfo BlockInfo BlockPlace Census ClassInfo Code Flush Marks Message MsgType Name Pool Queue QueueInfo QueueSpec Queued Refusal Wish version"
).split()

T = TypeVar("T", bound=NamedTuple)
Buffer = Union[bytes, bytearray, memoryview]


class Code(enum.IntEnum):
    """The codes of refusals, as in strm.h without STRM_."""

    TOO_LARGE = 1
    NO_MBLK = 2
    NO_DATA = 3
    REF_MAX = 4
    NO_SUCH_BLOCK = 5
    SHARED = 6
    NO_ROOM = 7
    SHORT = 8
    NO_SUCH_PLACE = 9
    BAD_ORDER = 10
    NO_SUCH_QUEUE = 11
    FULL = 12
    IDS_SPENT = 13
    NOT_PENDING = 14
    BAD_MARKS = 20
    INVALID = -2
    NOT_OPEN = -3
    BAD_ARGUMENT = -4
    IS_OPEN = -5
    NO_MEMORY = -6
    BAD_MBLKS = -11
    BAD_CLASSES = -12
    BAD_CLASS_SIZE = -13
    BAD_CLASS_TOTAL = -14
    BAD_QUEUES = -15
    BAD_QUEUE_MARKS = -16
    BAD_NEXT = -17
    BAD_BUFCALLS = -18
    BAD_FIRST_ID = -19


# The types of data blocks and messages.
MsgType = enum.IntEnum(
    "MsgType",
    "M_DATA M_PROTO M_BREAK M_PASSFP M_SIG M_DELAY M_CTL M_IOCTL M_SETOPTS M_IOCACK M_IOCNAK M_PCPROTO M_PCSIG M_READ M_FLUSH M_STOP M_START "
    "M_HANGUP M_ERROR M_COPYIN M_COPYOUT M_IOCDATA",
    start=0,
)


class Flush(enum.IntEnum):
    """What a flush frees: all messages, or those of type M_DATA, M_PROTO, M_PCPROTO or M_DELAY."""

    ALL = 0
    DATA = 1


class Refusal(Exception):
    """A call was refused."""

    def __init__(self, code: int) -> None:
        self.code = Code(code) if code in Code._value2member_map_ else code
        super().__init__(_TEXT(code).decode())

    @property
    def name(self) -> str:
        """The name of the code, as STRM_TOO_LARGE."""
        return _text_of("strm_name", int(self.code))


# ---- structs of strm.h, each of numbers of 32 bits


class QueueSpec(NamedTuple):
    hiwat: int = 1
    lowat: int = 0
    service: int = 0
    next: int = 0xFFFFFFFF


Census = NamedTuple("Census", [("free", int), ("queued", int), ("held", int)])
ClassInfo = NamedTuple("ClassInfo", [("size", int), ("free", int), ("total", int)])
BlockInfo = NamedTuple("BlockInfo", [("type", int), ("length", int), ("band", int), ("room", int), ("names", int)])
BlockPlace = NamedTuple("BlockPlace", [("data", int), ("at", int), ("length", int), ("capacity", int)])
BlockShape = NamedTuple("BlockShape", [("at", int), ("length", int), ("type", int), ("band", int)])
Queued = NamedTuple("Queued", [("head", int), ("type", int), ("band", int), ("bytes", int), ("blocks", int)])
QueueInfo = NamedTuple("QueueInfo", [("msgs", int), ("bytes", int), ("read", int), ("noenable", int), ("enabled", int)])
BandInfo = NamedTuple("BandInfo", [("bytes", int), ("full", int), ("wanted", int)])
Marks = NamedTuple("Marks", [("hiwat", int), ("lowat", int)])
Wish = NamedTuple("Wish", [("id", int), ("size", int)])
Service = NamedTuple("Service", [("queue", int), ("next", int), ("held", int)])
# The name of a message, which may be kept. `Pool.adopt` makes a message of it.
Name = NamedTuple("Name", [("pool", int), ("head", int), ("stamp", int)])


class _Handle(ctypes.Structure):
    _fields_ = [("at", ctypes.c_void_p), ("state", ctypes.c_size_t)]


class _Msg(ctypes.Structure):
    _fields_ = [("pool", ctypes.c_uint32), ("head", ctypes.c_uint32), ("stamp", ctypes.c_uint64)]


class _Iov(ctypes.Structure):
    _fields_ = [("base", ctypes.c_void_p), ("length", ctypes.c_size_t)]


class _Config(ctypes.Structure):
    _fields_ = [
        ("id", ctypes.c_uint32), ("mblks", ctypes.c_uint32), ("classes", ctypes.c_void_p), ("class_count", ctypes.c_size_t),
        ("queues", ctypes.c_void_p), ("queue_count", ctypes.c_size_t), ("bufcalls", ctypes.c_uint32), ("first_id", ctypes.c_uint32),
    ]


# ---- the library

# The parameters of each call of strm.h, and whether it is a look (a pool's handle that is `p`): P and p a handle, m a message, u a number, i a signed
# number, z a size, b bytes to read; * and more a pointer to what is stored.
CALLS: Dict[str, str] = {
    "open": "P*", "memory": "**", "close": "P", "is_open": "p", "allocb": "Pu*", "testb": "pu*", "dupb": "Pm*", "dupmsg": "Pm*", "copyb": "Pm*",
    "copymsg": "Pm*", "freeb": "Pm*", "freemsg": "Pm", "write": "Pmubz", "read": "pmu*z*", "settype": "Pmuu", "setband": "Pmu", "size": "pm*",
    "msgdsize": "pm*", "message": "pm*", "block": "pmu*", "blocks": "pmu*z*", "block_number": "pmu*", "has": "pm*", "name_at": "pu*",
    "bytes": "pmu**", "iov": "pmu*z*", "place": "pmu*", "region": "pu***", "room": "Pmu**", "edit": "Pmu**", "window": "Pmu**", "shape": "Pmuuu",
    "overwrite": "Pmubz", "reserve": "Pmuu", "prepend": "Pmbz", "advance": "Pmuu", "same_msg": "mm", "is_no_msg": "m", "linkb": "Pmm",
    "unlinkb": "Pm*", "rmvb": "Pmu**", "adjmsg": "Pmi", "pullupmsg": "Pmi", "transfer": "PPm*", "putq": "Pum", "putbq": "Pum", "insq": "Puum",
    "insq_at": "Puum", "getq": "Pu*", "rmvq": "Puu*", "rmvq_msg": "Pu*", "qsize": "pu*", "queued_at": "puu*", "read_queued": "puuu*z*",
    "first_queued": "pu*", "last_queued": "pu*", "queued_after": "pu*", "queued_before": "pu*", "queue_of": "pu*", "queued_bytes": "puu**",
    "queued_iov": "puu*z*", "flushq": "Puu", "flushband": "Puuu", "allocb_n": "Pu*z*", "freemsg_n": "P*z*", "putq_n": "Pu*z*", "getq_n": "Pu*z*",
    "takeq": "Puu*z*", "takeq_band": "Puuu*z*", "bcanput": "Puu*", "strqset": "Puuuu", "strqget": "puu*", "qenable": "Pu", "noenable": "Pu",
    "enableok": "Pu", "next_service": "P*", "run_at": "pu*", "bufcall": "Pu*", "unbufcall": "Pu", "take_ready": "P*", "wish_at": "pu*",
    "queue_spec": "pu*", "census": "p*", "class_info": "pu*", "least_free_blocks": "p*", "least_free": "pu*", "reset_least": "P",
    "queue_info": "pu*", "band_info": "puu*", "shape_all": "Pm*z", "serve": "Pu**", "hold": "Pum",
}
_KINDS: Dict[str, Any] = {
    **dict.fromkeys("Pp*", ctypes.c_void_p), "m": _Msg, "u": ctypes.c_uint32, "i": ctypes.c_int32, "z": ctypes.c_size_t, "b": ctypes.c_char_p,
}
# The least and the greatest value of a number.
_RANGES = {"u": (0, 2**32 - 1), "i": (-(2**31), 2**31 - 1)}
_NO_MSG = _Msg()


def _loaded() -> ctypes.PyDLL:
    """The library that STRM_LIBRARY names, the one beside this file, as in a wheel, that of its repository or prefix, or what the loader finds."""
    here = os.path.dirname(os.path.abspath(__file__))
    near = [os.path.join(here, folder, "libstrm.so") for folder in ("", "../../../build", "../../../lib")]
    return ctypes.PyDLL(os.environ.get("STRM_LIBRARY") or next((path for path in near if os.path.exists(path)), "libstrm.so.0"))


_LIBRARY = _loaded()
_FUNCTIONS: Dict[str, Any] = {}
for _name, _letters in CALLS.items():
    _FUNCTIONS[_name] = getattr(_LIBRARY, f"strm_{_name}")
    _FUNCTIONS[_name].argtypes = [_KINDS[letter] for letter in _letters]
_TEXT = _LIBRARY.strm_error
_TEXT.restype = ctypes.c_char_p


def _text_of(call: str, *args: Any) -> str:
    function = getattr(_LIBRARY, call)
    function.restype = ctypes.c_size_t
    function(*args, room := ctypes.create_string_buffer(function(*args, None, ctypes.c_size_t(0)) + 1), ctypes.c_size_t(len(room)))
    return room.value.decode()


def version() -> str:
    return _text_of("strm_version")


def _call(name: str, *args: Any) -> bool:
    """Makes a call. Returns False if there was nothing to give, and raises a refusal."""
    for letter, value in zip(CALLS[name], args):
        if letter in _RANGES and not _RANGES[letter][0] <= value <= _RANGES[letter][1]:
            raise Refusal(Code.BAD_ARGUMENT)
    code: int = _FUNCTIONS[name](*args)
    if code < -1 or code > 0:
        raise Refusal(code)
    return code == 0


def _array(structs: Iterable[Iterable[int]]) -> Any:
    """Structs one after another, as an array of their numbers."""
    numbers = [*itertools.chain.from_iterable(structs)]
    if not all(0 <= number < 2**32 for number in numbers):
        raise Refusal(Code.BAD_ARGUMENT)
    return (ctypes.c_uint32 * len(numbers))(*numbers)


def _with_config(id: int, mblks: int, classes: Sequence[Tuple[int, int]], queues: Sequence[QueueSpec], bufcalls: int, first_id: int) -> _Config:
    """A configuration for a call, which keeps its arrays."""
    of_classes, of_queues, _ = _array(classes), _array(queues), _array([(id, mblks, bufcalls, first_id)])
    config = _Config(id, mblks, ctypes.addressof(of_classes), len(classes), ctypes.addressof(of_queues), len(queues), bufcalls, first_id)
    config.kept = of_classes, of_queues
    return config


# ---- pools

_ids = itertools.count(1)


class Pool:
    """A pool, which is open until `close`. Its id is another one for each pool of the process, unless it is given."""

    def __init__(self, mblks: int, classes: Sequence[Tuple[int, int]], queues: Sequence[QueueSpec], bufcalls: int = 0, first_id: int = 1,
                 id: Optional[int] = None) -> None:
        self.id, self.mblks, self._handle = next(_ids) if id is None else id, mblks, _Handle()
        self._lent: List[memoryview] = []
        _call("open", ctypes.byref(self._handle), ctypes.byref(_with_config(self.id, mblks, classes, queues, bufcalls, first_id)))
        self.queues = [Queue(self, number) for number in range(len(queues))]

    def __enter__(self) -> Pool:
        return self

    def __exit__(self, *exception: object) -> None:
        self.close()

    def __del__(self) -> None:
        if getattr(self, "_handle", None) and self._handle.state and not self._lent:
            self.close()

    def __repr__(self) -> str:
        return "<Pool {}: free={} queued={} held={}>".format(self.id, *self.census()) if self.is_open() else f"<Pool {self.id}, closed>"

    @staticmethod
    def memory(mblks: int, classes: Sequence[Tuple[int, int]], queues: Sequence[QueueSpec], bufcalls: int = 0, first_id: int = 1, id: int = 1) -> int:
        bytes = ctypes.c_size_t()
        _call("memory", ctypes.byref(_with_config(id, mblks, classes, queues, bufcalls, first_id)), ctypes.byref(bytes))
        return bytes.value

    def close(self) -> None:
        """Closes the pool, and frees its messages."""
        self._change("close")

    def is_open(self) -> bool:
        return bool(_FUNCTIONS["is_open"](ctypes.byref(self._handle)))

    def adopt(self, name: Name) -> Message:
        """A message by its name, which each call with it checks."""
        return Message(self, _Msg(*name))

    def allocb(self, size: int) -> Message:
        return self._made("allocb", size)

    def testb(self, size: int) -> bool:
        return self._number("testb", size) == 1

    def allocb_n(self, size: int, count: int) -> List[Message]:
        """As many messages as there are, up to `count`."""
        return self._several("allocb_n", count, size)

    def freemsg_n(self, msgs: Sequence[Message]) -> int:
        """Frees messages, up to the first that is refused. Returns their number."""
        return self._all("freemsg_n", msgs)

    def name_at(self, head: int) -> Optional[Name]:
        msg = _Msg()
        return Name(msg.pool, msg.head, msg.stamp) if self._look("name_at", head, ctypes.byref(msg)) else None

    def leaked(self) -> Iterator[Name]:
        """The names of all held messages. If the program holds none, these leaked."""
        return (name for name in map(self.name_at, range(self.mblks)) if name)

    def queued_after(self, head: int) -> Optional[int]:
        return self._found("queued_after", head)

    def queued_before(self, head: int) -> Optional[int]:
        return self._found("queued_before", head)

    def queue_of(self, head: int) -> Queue:
        return self.queues[self._number("queue_of", head)]

    def queued_bytes(self, head: int, place: int) -> memoryview:
        return self._in_place("queued_bytes", head, place)

    def queued_iov(self, head: int, start: int = 0, length: int = 32) -> List[memoryview]:
        return self._in_places("queued_iov", length, head, start)

    def rmvq_msg(self, head: int) -> Message:
        return self._made("rmvq_msg", head)

    def next_service(self) -> Optional[Queue]:
        return None if (number := self._found("next_service")) is None else self.queues[number]

    def serve(self, held: int = 0) -> Optional[Tuple[Service, Message]]:
        """Serves queues, but for the last `held` ones of the run list, until one gives a message that may go on to its next queue."""
        room, msg = (ctypes.c_uint32 * 3)(), _Msg()
        return (Service._make(room), Message(self, msg)) if self._change("serve", held, room, ctypes.byref(msg)) else None

    def run_at(self, place: int) -> Optional[int]:
        return self._found("run_at", place)

    def bufcall(self, size: int) -> int:
        return self._number("bufcall", size)

    def unbufcall(self, id: int) -> None:
        self._change("unbufcall", id)

    def take_ready(self) -> Optional[Wish]:
        return self._optional(Wish, "take_ready")

    def wish_at(self, place: int) -> Optional[Wish]:
        return self._optional(Wish, "wish_at", place)

    def census(self) -> Census:
        return self._told(Census, "census")

    def class_info(self, place: int) -> Optional[ClassInfo]:
        return self._optional(ClassInfo, "class_info", place)

    def region(self, place: int) -> Optional[Tuple[int, int, int]]:
        """The address of the data blocks of a size class, the number of their bytes, and how many each has."""
        base, size, stride = ctypes.c_void_p(), ctypes.c_size_t(), ctypes.c_size_t()
        is_there = self._look("region", place, ctypes.byref(base), ctypes.byref(size), ctypes.byref(stride))
        return (base.value or 0, size.value, stride.value) if is_there else None

    def least_free_blocks(self) -> int:
        return self._number("least_free_blocks")

    def least_free(self, place: int) -> Optional[int]:
        return self._found("least_free", place)

    def reset_least(self) -> None:
        self._change("reset_least")

    def report(self) -> str:
        """The report that the program strm prints of a pool."""
        return _text_of("strm_report", ctypes.byref(self._handle))

    # ---- how calls are made

    def _release(self) -> None:
        while self._lent:
            self._lent[-1].release()
            self._lent.pop()

    def _change(self, name: str, *args: Any) -> bool:
        """Makes a call that changes the pool, after which no bytes in place are read."""
        self._release()
        return _call(name, ctypes.byref(self._handle), *args)

    def _look(self, name: str, *args: Any) -> bool:
        return _call(name, ctypes.byref(self._handle), *args)

    def _make(self, name: str, *args: Any) -> bool:
        return self._change(name, *args) if CALLS[name].startswith("P") else self._look(name, *args)

    def _found(self, name: str, *args: Any) -> Optional[int]:
        number = ctypes.c_uint32()
        return number.value if self._make(name, *args, ctypes.byref(number)) else None

    def _number(self, name: str, *args: Any) -> int:
        return self._found(name, *args) or 0

    def _optional(self, shape: Type[T], name: str, *args: Any) -> Optional[T]:
        room = (ctypes.c_uint32 * len(shape._fields))()
        return shape._make(room) if self._make(name, *args, room) else None

    def _told(self, shape: Type[T], name: str, *args: Any) -> T:
        return cast(T, self._optional(shape, name, *args))

    def _given(self, name: str, *args: Any) -> Optional[Message]:
        msg = _Msg()
        return Message(self, msg) if self._change(name, *args, ctypes.byref(msg)) else None

    def _made(self, name: str, *args: Any) -> Message:
        return cast(Message, self._given(name, *args))

    def _counted(self, name: str, room: Any, length: int, *args: Any) -> int:
        count = ctypes.c_size_t()
        self._make(name, *args, room, length, ctypes.byref(count))
        return count.value

    def _copied(self, name: str, length: int, *args: Any) -> bytes:
        room = (ctypes.c_char * length)()
        count = self._counted(name, room, length, *args)
        return room.raw[:count]

    def _in_place(self, name: str, *args: Any) -> memoryview:
        """Bytes in place, which may be written unless the call is a look. It ends no others."""
        first, length = ctypes.c_void_p(), ctypes.c_size_t()
        self._look(name, *args, ctypes.byref(first), ctypes.byref(length))
        return self._lend(first.value, length.value, CALLS[name].startswith("P"))

    def _in_places(self, name: str, length: int, *args: Any) -> List[memoryview]:
        room = (_Iov * length)()
        return [self._lend(each.base, each.length) for each in room[: self._counted(name, room, length, *args)]]

    def _lend(self, address: Optional[int], length: int, is_writable: bool = False) -> memoryview:
        view = memoryview((ctypes.c_ubyte * length).from_address(address or 0)).cast("B") if length else memoryview(bytearray())
        self._lent.append(view if is_writable else view.toreadonly())
        return self._lent[-1]

    def _several(self, name: str, count: int, *args: Any) -> List[Message]:
        names = (_Msg * count)()
        return [Message(self, _Msg.from_buffer_copy(names[k])) for k in range(self._counted(name, names, count, *args))]

    def _all(self, name: str, msgs: Sequence[Message], *args: Any) -> int:
        count = self._counted(name, (_Msg * len(msgs))(*(msg._msg for msg in msgs)), len(msgs), *args)
        for msg in msgs[:count]:
            msg._msg = _NO_MSG
        return count


# ---- messages


class Message:
    """A message that the program holds, or a spent one."""

    def __init__(self, pool: Pool, msg: _Msg) -> None:
        self.pool, self._msg = pool, msg

    def __enter__(self) -> Message:
        return self

    def __exit__(self, *exception: object) -> None:
        if self.pool.is_open() and self.has():
            self.freemsg()

    def __repr__(self) -> str:
        if not self.pool.is_open() or not self.has():
            return "<Message, spent>"
        first = self.block(0)
        return f"<Message {self._msg.head}: {MsgType(first.type).name} band={first.band} bytes {self.read().hex() or '-'}>"

    def __eq__(self, other: object) -> bool:
        """strm_same_msg"""
        return isinstance(other, Message) and bool(_FUNCTIONS["same_msg"](self._msg, other._msg))

    __hash__ = None  # type: ignore[assignment]

    @property
    def name(self) -> Name:
        return Name(self._msg.pool, self._msg.head, self._msg.stamp)

    def has(self) -> bool:
        return self.pool._number("has", self._msg) == 1

    def size(self) -> int:
        return self.pool._number("size", self._msg)

    def msgdsize(self) -> int:
        return self.pool._number("msgdsize", self._msg)

    def info(self) -> Queued:
        """strm_message"""
        return self.pool._told(Queued, "message", self._msg)

    def read(self, at: int = 0, length: Optional[int] = None) -> bytes:
        """A copy of the bytes from `at` on, all or at most `length`."""
        return self.pool._copied("read", self.size() if length is None else length, self._msg, at)

    def block(self, place: int) -> BlockInfo:
        return self.pool._told(BlockInfo, "block", self._msg, place)

    def blocks(self, start: int = 0, length: int = 32) -> List[BlockInfo]:
        room = (ctypes.c_uint32 * len(BlockInfo._fields) * length)()
        count = self.pool._counted("blocks", room, length, self._msg, start)
        return [BlockInfo._make(each) for each in room[:count]]

    def block_number(self, place: int) -> int:
        return self.pool._number("block_number", self._msg, place)

    def bytes(self, place: int) -> memoryview:
        """The bytes of a block in place."""
        return self.pool._in_place("bytes", self._msg, place)

    def iov(self, start: int = 0, length: int = 32) -> List[memoryview]:
        """The bytes of blocks in place, as os.writev takes them."""
        return self.pool._in_places("iov", length, self._msg, start)

    def place(self, place: int) -> BlockPlace:
        return self.pool._told(BlockPlace, "place", self._msg, place)

    def room(self, place: int) -> memoryview:
        """The room of a block in place, to write there before `advance`."""
        return self.pool._in_place("room", self._msg, place)

    def edit(self, place: int) -> memoryview:
        """The bytes of a block in place, to change them there."""
        return self.pool._in_place("edit", self._msg, place)

    def window(self, place: int) -> memoryview:
        """The whole data block of a block in place, to write there before `shape`."""
        return self.pool._in_place("window", self._msg, place)

    def write(self, place: int, data: Buffer) -> None:
        self._put("write", data, place)

    def overwrite(self, at: int, data: Buffer) -> None:
        self._put("overwrite", data, at)

    def prepend(self, data: Buffer) -> None:
        self._put("prepend", data)

    def reserve(self, place: int, count: int) -> None:
        self.pool._change("reserve", self._msg, place, count)

    def advance(self, place: int, count: int) -> None:
        self.pool._change("advance", self._msg, place, count)

    def shape(self, place: int, at: int, length: int) -> None:
        self.pool._change("shape", self._msg, place, at, length)

    def shape_all(self, shapes: Sequence[BlockShape]) -> None:
        self.pool._change("shape_all", self._msg, _array(shapes), len(shapes))

    def settype(self, place: int, type: int) -> None:
        self.pool._change("settype", self._msg, place, type)

    def setband(self, band: int) -> None:
        self.pool._change("setband", self._msg, band)

    def adjmsg(self, count: int) -> None:
        self.pool._change("adjmsg", self._msg, count)

    def pullupmsg(self, count: int = -1) -> None:
        self.pool._change("pullupmsg", self._msg, count)

    def dupb(self) -> Message:
        return self.pool._made("dupb", self._msg)

    def dupmsg(self) -> Message:
        return self.pool._made("dupmsg", self._msg)

    def copyb(self) -> Message:
        return self.pool._made("copyb", self._msg)

    def copymsg(self) -> Message:
        return self.pool._made("copymsg", self._msg)

    def freemsg(self) -> None:
        self._hand_over("freemsg")

    def freeb(self) -> None:
        """The message has the other blocks afterwards, or is spent if there are none."""
        rest = _Msg()
        self.pool._change("freeb", self._msg, ctypes.byref(rest))
        self._msg = rest

    def linkb(self, tail: Message) -> None:
        tail._hand_over("linkb", self._msg, of=self.pool)

    def unlinkb(self) -> Optional[Message]:
        """Returns the other blocks."""
        return self.pool._given("unlinkb", self._msg)

    def rmvb(self, place: int) -> Message:
        """Returns the block. The message has the other blocks afterwards, or is spent if there are none."""
        block, rest = _Msg(), _Msg()
        self.pool._change("rmvb", self._msg, place, ctypes.byref(block), ctypes.byref(rest))
        self._msg = rest
        return Message(self.pool, block)

    def transfer(self, other: Pool) -> Message:
        """Returns the message in the other pool, and is spent."""
        moved = _Msg()
        other._release()
        self.pool._change("transfer", ctypes.byref(other._handle), self._msg, ctypes.byref(moved))
        self._msg = _NO_MSG
        return Message(other, moved)

    def _put(self, name: str, data: Buffer, *args: Any) -> None:
        self.pool._change(name, self._msg, *args, own := bytes(data), len(own))

    def _hand_over(self, name: str, *args: Any, of: Optional[Pool] = None) -> None:
        if of is not None and of is not self.pool:
            raise Refusal(Code.INVALID)
        self.pool._change(name, *args, self._msg)
        self._msg = _NO_MSG


# ---- queues


class Queue:
    """A queue of a pool. Its `size` is strm_qsize, `spec` strm_queue_spec, `info` strm_queue_info, and `band` strm_band_info. `put`, `put_back`,
    `get`, `insert` and `remove` are strm_putq, strm_putbq, strm_getq, strm_insq and strm_rmvq."""

    def __init__(self, pool: Pool, number: int) -> None:
        self.pool, self.number = pool, number

    def __repr__(self) -> str:
        state = ": msgs={} bytes={} read={} noenable={} enabled={}".format(*self.info()) if self.pool.is_open() else " of a closed pool"
        return f"<Queue {self.number}{state}>"

    def __iter__(self) -> Iterator[Queued]:
        """What the messages on it are like."""
        return (self.queued_at(place) for place in range(self.size()))

    def size(self) -> int:
        return self.pool._number("qsize", self.number)

    def queued_at(self, place: int) -> Queued:
        return self.pool._told(Queued, "queued_at", self.number, place)

    def read_queued(self, place: int, at: int = 0, length: Optional[int] = None) -> bytes:
        return self.pool._copied("read_queued", self.queued_at(place).bytes if length is None else length, self.number, place, at)

    def first_queued(self) -> Optional[int]:
        return self.pool._found("first_queued", self.number)

    def last_queued(self) -> Optional[int]:
        return self.pool._found("last_queued", self.number)

    def strqget(self, band: int) -> Marks:
        return self.pool._told(Marks, "strqget", self.number, band)

    def spec(self) -> QueueSpec:
        return self.pool._told(QueueSpec, "queue_spec", self.number)

    def info(self) -> QueueInfo:
        return self.pool._told(QueueInfo, "queue_info", self.number)

    def band(self, band: int) -> BandInfo:
        return self.pool._told(BandInfo, "band_info", self.number, band)

    def put(self, msg: Message) -> None:
        msg._hand_over("putq", self.number, of=self.pool)

    def put_back(self, msg: Message) -> None:
        msg._hand_over("putbq", self.number, of=self.pool)

    def hold(self, msg: Message) -> None:
        msg._hand_over("hold", self.number, of=self.pool)

    def insert(self, place: int, msg: Message) -> None:
        msg._hand_over("insq", self.number, place, of=self.pool)

    def insq_at(self, before: Optional[int], msg: Message) -> None:
        msg._hand_over("insq_at", self.number, 2**32 - 1 if before is None else before, of=self.pool)

    def get(self) -> Optional[Message]:
        return self.pool._given("getq", self.number)

    def remove(self, place: int) -> Message:
        return self.pool._made("rmvq", self.number, place)

    def put_n(self, msgs: Sequence[Message]) -> int:
        """Returns the number of messages that were put."""
        return self.pool._all("putq_n", msgs, self.number)

    def get_n(self, count: int) -> List[Message]:
        """As many messages as there are, up to `count`."""
        return self.pool._several("getq_n", count, self.number)

    def takeq(self, count: int, flush: int = Flush.ALL) -> List[Message]:
        return self.pool._several("takeq", count, self.number, flush)

    def takeq_band(self, band: int, count: int, flush: int = Flush.ALL) -> List[Message]:
        return self.pool._several("takeq_band", count, self.number, band, flush)

    def flushq(self, flush: int = Flush.ALL) -> None:
        self.pool._change("flushq", self.number, flush)

    def flushband(self, band: int, flush: int = Flush.ALL) -> None:
        self.pool._change("flushband", self.number, band, flush)

    def bcanput(self, band: int = 0) -> bool:
        return self.pool._number("bcanput", self.number, band) == 1

    def strqset(self, band: int, hiwat: int, lowat: int) -> None:
        self.pool._change("strqset", self.number, band, hiwat, lowat)

    def qenable(self) -> None:
        self.pool._change("qenable", self.number)

    def noenable(self) -> None:
        self.pool._change("noenable", self.number)

    def enableok(self) -> None:
        self.pool._change("enableok", self.number)

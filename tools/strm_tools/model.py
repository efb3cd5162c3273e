"""A plain model of a pool, with the reply to each call and the report."""
from __future__ import annotations

from collections import Counter
from typing import Any, Callable, Counter as Counts, Iterable, List, Literal, NamedTuple, Sequence, TypeVar, Union

ORDINARY = "M_DATA M_PROTO M_BREAK M_PASSFP M_SIG M_DELAY M_CTL M_IOCTL M_SETOPTS".split()
HIGH_PRIORITY = (
    "M_IOCACK M_IOCNAK M_PCPROTO M_PCSIG M_READ M_FLUSH M_STOP M_START M_HANGUP M_ERROR M_COPYIN M_COPYOUT M_IOCDATA"
).split()
CARRY_DATA = "M_DATA M_PROTO M_PCPROTO M_DELAY".split()
# The most references of a data block, and the last id of a wish.
REFERENCES = 255
LAST_ID = 4_294_967_295
# The values of a line's words after the first: an int, a str or bytes, as the word's item says.
Values = List[Any]
# The queue after another one, or none.
Next = Union[int, Literal["-"]]
Method = TypeVar("Method", bound=Callable[..., Any])
# What each reply is, by its form.
REPLIES = {
    "ok": "Done.",
    "yes": "What was asked is true.",
    "no": "What was asked is false.",
    "none": "There is no such message, queue or wish.",
    "size N": "The number of bytes or messages.",
    "bytes HEX": "The bytes, or `-` for none.",
    "block TYPE len= band= room= names=": "A block's type, bytes, band and room, and how many message blocks refer to its data block.",
    "queue Q": "The queue to serve.",
    "marks HIWAT LOWAT": "A band's water marks.",
    "id ID": "The id of the wish.",
    "ready ID SIZE": "The wish's id and size.",
    "census FREE QUEUED HELD": "Message blocks: free, on queues, and held.",
    "empty": "A register from which a message is to be taken has none, or `linkb` has the same register twice.",
    "taken": "A register to fill already holds a message.",
    "refused NUMBER NAME": "The command is refused.",
}


class Word(NamedTuple):
    """A command."""

    # Its group in strm(1).
    group: str
    # What each word after the first is.
    items: list[str]
    # How often mixed.py draws it for one `census`.
    often: int
    # Whether STREAMS has no routine of this name.
    own: bool
    # Whether it settles its queue.
    settles: bool
    # What it does, with its replies other than ok, and its own refusals.
    does: str


# Each command. The methods of `Model` fill this in.
WORDS: dict[str, Word] = {}


def word(group: str, items: str, often: int = 1, own: bool = False, settles: bool = False) -> Callable[[Method], Method]:
    """Adds the method below to `WORDS`, with its comment as what the command does, in which words in capitals are those of the form."""

    def added(method: Method) -> Method:
        WORDS[method.__name__] = Word(group, items.split(), often, own, settles, " ".join((method.__doc__ or "").split()))
        return method

    return added


class Refused(Exception):
    """A call's own refusal, by number and name, and the numbers in its sentence in strm_tools.rules. Nothing has changed."""

    def __init__(self, reply: str, **numbers: int | str) -> None:
        super().__init__(reply)
        self.numbers = numbers


class Pool(NamedTuple):
    """What a pool is made with."""

    mblks: int
    # Size and number of each class.
    classes: list[tuple[int, int]]
    # High and low water mark of each queue, whether there is a service procedure, and the next queue.
    queues: list[tuple[int, int, str, Next]]
    # How many wishes may be recorded, and the id of the first.
    bufcalls: int
    first_id: int

    def header(self) -> list[str]:
        lines = [f"pool 1 {self.mblks}"]
        lines += [f"class {size} {count}" for size, count in self.classes]
        lines += [f"queue {high} {low} {service} {following}" for high, low, service, following in self.queues]
        return lines + [f"bufcalls {self.bufcalls} {self.first_id}"]

    def greatest(self) -> int:
        return self.classes[-1][0]


class Data:
    """A data block in use: its class, by place, its type, how many blocks name it, and its bytes."""

    # What strm_tools.view.film adds: its number, and that of its bytes.
    number: int
    bytes: int

    def __init__(self, place: int, size: int) -> None:
        self.place = place
        self.kind = "M_DATA"
        self.names = 1
        self.octets = bytearray(size)


class Block:
    """A message block: the data block that it names, its read place and write place in it, and its band."""

    # What strm_tools.view.film adds.
    number: int

    def __init__(self, data: Data, read: int = 0, write: int = 0, band: int = 0) -> None:
        self.data = data
        self.read = read
        self.write = write
        self.band = band

    def length(self) -> int:
        return self.write - self.read

    def room(self) -> int:
        return len(self.data.octets) - self.write

    def octets(self) -> bytearray:
        return self.data.octets[self.read : self.write]

    def duplicate(self) -> Block:
        self.data.names += 1
        return Block(self.data, self.read, self.write, self.band)

    def copy(self, data: Data) -> Block:
        data.kind = self.data.kind
        data.octets[self.read : self.write] = self.octets()
        return Block(data, self.read, self.write, self.band)


Message = List[Block]


def total(blocks: Iterable[Block]) -> int:
    return sum(block.length() for block in blocks)


def octets_of(blocks: Iterable[Block]) -> bytes:
    return b"".join(block.octets() for block in blocks)


def run_of(blocks: Message) -> Message:
    """The first blocks, as far as they have the type of the very first."""
    others = [k for k, block in enumerate(blocks) if block.data.kind != blocks[0].data.kind]
    return blocks[: others[0]] if others else blocks


def rank(message: Message) -> int:
    return 256 if message[0].data.kind in HIGH_PRIORITY else message[0].band


def ranks_of(band: int) -> list[int]:
    return [0, 256] if band == 0 else [band]


class Queue:
    """A queue: what it was made with, the water marks of bands that have their own, its messages, its two marks, and its
    wanted bands."""

    def __init__(self, high: int, low: int, service: str, following: Next) -> None:
        self.high = high
        self.low = low
        self.has_service = service == "s"
        self.next = following
        self.marks: dict[int, tuple[int, int]] = {}
        self.messages: list[Message] = []
        self.wants_to_read = True
        self.enabling_is_off = False
        self.wanted: set[int] = set()

    def bytes_in(self, band: int) -> int:
        return sum(total(message) for message in self.messages if rank(message) in ranks_of(band))

    def bytes_of_bands(self) -> Counts[int]:
        """The bytes of each band that has a message."""
        counts: Counts[int] = Counter()
        for message in self.messages:
            counts[rank(message) % 256] += total(message)
        return counts

    def marks_of(self, band: int) -> tuple[int, int]:
        return self.marks.get(band, (self.high, self.low))

    def is_full(self, band: int) -> bool:
        return self.bytes_in(band) >= self.marks_of(band)[0]

    def has_room(self, band: int) -> bool:
        return self.bytes_in(band) <= self.marks_of(band)[1]


class Model:
    """A pool and the registers of workers, of which one is served at a time. A message is a list of blocks.

    Each word has a method, which `answer` calls if its queue exists, its sources hold messages and its
    destination holds none. The method returns the reply, or None for `ok`."""

    def __init__(self, pool: Pool) -> None:
        self.pool = pool
        self.data = [count for _, count in pool.classes]
        self.queues = [Queue(*spec) for spec in pool.queues]
        self.run: list[int] = []
        self.wishes: list[tuple[int, int]] = []
        self.next_id = pool.first_id
        self.workers: list[dict[str, Message]] = []

    def begin(self) -> None:
        """Another worker is served, on registers of its own."""
        self.held: dict[str, Message] = {}
        self.workers.append(self.held)

    def turn_to(self, worker: int) -> None:
        """This worker is served on."""
        self.held = self.workers[worker]

    def answer(self, command: str, items: Sequence[str], values: Values) -> str:
        """The reply to a line: what refuses it first, or what its word returns. Items say what the values are."""
        sources = [value for item, value in zip(items, values) if item == "from"]
        if "queue" in items and values[items.index("queue")] >= len(self.queues):
            return "refused 11 NoSuchQueue"
        if not all(map(self.held.__contains__, sources)) or len(set(sources)) < len(sources):
            return "empty"
        if "to" in items and values[items.index("to")] in self.held:
            return "taken"
        try:
            reply: str | None = getattr(self, command)(*values)
            return reply or "ok"
        except Refused as refusal:
            return f"refused {refusal}"

    def counts(self) -> tuple[int, int, int]:
        queued = sum(sum(map(len, queue.messages)) for queue in self.queues)
        held = sum(sum(map(len, registers.values())) for registers in self.workers if registers)
        return self.pool.mblks - queued - held, queued, held

    def take(self, free: list[int], size: int) -> Data:
        """The data block that is found; `free`, how many each class has, then has one less."""
        if size > self.pool.greatest():
            raise Refused("1 TooLarge", S=size, M=self.pool.greatest())
        for place, (most, _) in enumerate(self.pool.classes):
            if size <= most and free[place] > 0:
                free[place] -= 1
                return Data(place, most)
        raise Refused("3 NoData", S=size)

    def need(self, count: int) -> None:
        if self.counts()[0] < count:
            raise Refused("2 NoMblk", N=count, F=self.counts()[0])

    def block_at(self, register: str, k: int) -> Block:
        if k >= len(self.held[register]):
            raise Refused("5 NoSuchBlock", N=len(self.held[register]), K=k)
        return self.held[register][k]

    def own_block_at(self, register: str, k: int) -> Block:
        block = self.block_at(register, k)
        if block.data.names > 1:
            raise Refused("6 Shared", K=k, N=block.data.names)
        return block

    def release(self, data: Data) -> None:
        data.names -= 1
        if data.names == 0:
            self.data[data.place] += 1

    def leave(self, register: str, rest: Message) -> None:
        if rest:
            self.held[register] = rest
        else:
            del self.held[register]

    @word("Messages", "to size", 10)
    def allocb(self, to: str, size: int) -> None:
        """Allocates a message of one block into R, of type M_DATA and band 0, without bytes. Its data block is of the
        smallest class that fits SIZE bytes and has a free data block. Refusals: TooLarge, NoMblk, NoData."""
        if size > self.pool.greatest():
            raise Refused("1 TooLarge", S=size, M=self.pool.greatest())
        self.need(1)
        self.held[to] = [Block(self.take(self.data, size))]

    def fits(self, size: int) -> bool:
        classes = zip(self.pool.classes, self.data)
        return self.counts()[0] > 0 and any(size <= most and free > 0 for (most, _), free in classes)

    @word("Messages", "size")
    def testb(self, size: int) -> str:
        """Says whether `allocb` of this size would succeed. Reply: yes, no."""
        return "yes" if self.fits(size) else "no"

    def duplicates(self, blocks: Message) -> Message:
        self.need(len(blocks))
        most = max(block.data.names + sum(other.data is block.data for other in blocks) for block in blocks)
        if most > REFERENCES:
            raise Refused("4 RefMax", N=most, M=REFERENCES)
        return [block.duplicate() for block in blocks]

    @word("Messages", "from to", 2)
    def dupb(self, source: str, to: str) -> None:
        """Duplicates the first block in R into S, over the same data block, with the same places and band. Refusals:
        NoMblk, RefMax."""
        self.held[to] = self.duplicates(self.held[source][:1])

    @word("Messages", "from to", 2)
    def dupmsg(self, source: str, to: str) -> None:
        """Duplicates all blocks in R into S. Refusals: NoMblk, RefMax."""
        self.held[to] = self.duplicates(self.held[source])

    def copies(self, blocks: Message) -> Message:
        self.need(len(blocks))
        free = list(self.data)
        taken = [self.take(free, len(block.data.octets)) for block in blocks]
        self.data = free
        return [block.copy(data) for block, data in zip(blocks, taken)]

    @word("Messages", "from to")
    def copyb(self, source: str, to: str) -> None:
        """Copies the first block in R into S, with a new data block of the same size or more, and the same bytes,
        places, type and band. Refusals: NoMblk, NoData."""
        self.held[to] = self.copies(self.held[source][:1])

    @word("Messages", "from to", 2)
    def copymsg(self, source: str, to: str) -> None:
        """Copies all blocks in R into S. Refusals: NoMblk, NoData."""
        self.held[to] = self.copies(self.held[source])

    @word("Messages", "from block octets", 16, own=True)
    def write(self, source: str, k: int, octets: bytes) -> None:
        """Appends bytes at the write place of block K in R. Refusals: NoSuchBlock, Shared, NoRoom."""
        block = self.own_block_at(source, k)
        if len(octets) > block.room():
            raise Refused("7 NoRoom", K=k, F=block.room(), N=len(octets))
        block.data.octets[block.write : block.write + len(octets)] = octets
        block.write += len(octets)

    @word("Messages", "from block kind", 4, own=True)
    def settype(self, source: str, k: int, kind: str) -> None:
        """Sets the type of the data block of block K in R. Refusals: NoSuchBlock, Shared."""
        self.own_block_at(source, k).data.kind = kind

    @word("Messages", "from band", 3, own=True)
    def setband(self, source: str, band: int) -> None:
        """Sets the band of the first block in R."""
        self.held[source][0].band = band

    @word("Messages", "from from", 5)
    def linkb(self, source: str, tail: str) -> None:
        """Appends the message in S to that in R, and empties S."""
        self.held[source] += self.held.pop(tail)

    @word("Messages", "from to", 2)
    def unlinkb(self, source: str, to: str) -> str | None:
        """Moves all blocks in R but the first into S. Reply: ok, none."""
        first, *rest = self.held[source]
        if not rest:
            return "none"
        self.held[source] = [first]
        self.held[to] = rest
        return None

    @word("Messages", "from block to", 2)
    def rmvb(self, source: str, k: int, to: str) -> None:
        """Moves block K in R, alone, into S. Refusal: NoSuchBlock."""
        block = self.block_at(source, k)
        self.leave(source, self.held[source][:k] + self.held[source][k + 1 :])
        self.held[to] = [block]

    @word("Messages", "from count", 4)
    def adjmsg(self, source: str, count: int) -> None:
        """Trims N bytes at the beginning of the message in R, from the leading blocks of the first block's type. A
        negative N trims at the end, from the trailing blocks of the last block's type. Emptied blocks stay. Refusal:
        Short."""
        run = run_of(self.held[source] if count > 0 else self.held[source][::-1])
        left = abs(count)
        if left > total(run):
            raise Refused("8 Short", END="first" if count > 0 else "last", F=total(run), N=left)
        for block in run:
            cut = min(left, block.length())
            left -= cut
            if count > 0:
                block.read += cut
            else:
                block.write -= cut

    @word("Messages", "from count", 5)
    def pullupmsg(self, source: str, count: int) -> None:
        """Gathers the first N bytes of the message in R in its first block, from the leading blocks of its type; -1
        means all their bytes. If the first block lacks some of them, it gets a new data block, as by `allocb`, and
        blocks that this empties are freed. Refusals: Short, TooLarge, NoData."""
        message = self.held[source]
        run = run_of(message)
        if count < -1:
            raise Refused("8 Short", N=count)
        if count > total(run):
            raise Refused("8 Short", END="first", F=total(run), N=count)
        if count == -1:
            count = total(run)
        first = message[0]
        left = count - first.length()
        if left <= 0:
            return
        data = self.take(self.data, count)
        data.kind = first.data.kind
        data.octets[:count] = octets_of(run)[:count]
        self.release(first.data)
        first.data, first.read, first.write = data, 0, count
        while left > 0:
            cut = min(left, message[1].length())
            left -= cut
            message[1].read += cut
            if message[1].length() == 0:
                self.release(message.pop(1).data)

    @word("Messages", "from")
    def msgdsize(self, source: str) -> str:
        """Counts the bytes in R in blocks of type M_DATA. Reply: size."""
        return f"size {total(block for block in self.held[source] if block.data.kind == 'M_DATA')}"

    @word("Messages", "from", own=True)
    def size(self, source: str) -> str:
        """Counts all bytes in R. Reply: size."""
        return f"size {total(self.held[source])}"

    @word("Messages", "from at", 3, own=True)
    def read(self, source: str, at: int) -> str:
        """Shows at most 64 bytes in R, from byte AT on, counted from 0 over all blocks. Reply:
        bytes."""
        return f"bytes {octets_of(self.held[source])[at : at + 64].hex() or '-'}"

    @word("Messages", "from block", 4, own=True)
    def block(self, source: str, k: int) -> str:
        """Shows the fields of block K in R. Reply: block. Refusal: NoSuchBlock."""
        block = self.block_at(source, k)
        return f"block {block.data.kind} len={block.length()} band={block.band} room={block.room()} names={block.data.names}"

    @word("Messages", "from", 2)
    def freeb(self, source: str) -> None:
        """Frees the first block in R, alone."""
        first, *rest = self.held[source]
        self.release(first.data)
        self.leave(source, rest)

    @word("Messages", "from", 3)
    def freemsg(self, source: str) -> None:
        """Frees the message in R."""
        for block in self.held.pop(source):
            self.release(block.data)

    def place(self, number: int, k: int, source: str) -> None:
        message = self.held.pop(source)
        if message[0].data.kind in HIGH_PRIORITY:
            message[0].band = 0
        self.queues[number].messages.insert(k, message)

    def enable(self, number: int) -> None:
        if self.queues[number].has_service and number not in self.run:
            self.run.append(number)

    def enable_behind(self, number: int) -> None:
        """Enables the nearest queue behind that has a service procedure."""
        for k, queue in enumerate(self.queues):
            if queue.next == number:
                if queue.has_service:
                    self.enable(k)
                else:
                    self.enable_behind(k)

    def settle(self, number: int) -> None:
        queue = self.queues[number]
        settled = {band for band in queue.wanted if queue.has_room(band)}
        queue.wanted -= settled
        if settled:
            self.enable_behind(number)

    @word("Queues", "queue from", 6)
    def putq(self, number: int, source: str) -> None:
        """Puts the message in R on queue Q, after those of its rank or a greater one."""
        queue = self.queues[number]
        own = rank(self.held[source])
        self.place(number, sum(rank(message) >= own for message in queue.messages), source)
        if own == 256 or not queue.enabling_is_off and (queue.wants_to_read or own > 0):
            self.enable(number)

    @word("Queues", "queue from", 2)
    def putbq(self, number: int, source: str) -> None:
        """Puts the message in R back on queue Q, before those of its rank or a smaller one."""
        queue = self.queues[number]
        own = rank(self.held[source])
        self.place(number, sum(rank(message) > own for message in queue.messages), source)
        if own == 256 or not queue.enabling_is_off and queue.wants_to_read:
            self.enable(number)

    @word("Queues", "queue place from", 3)
    def insq(self, number: int, k: int, source: str) -> None:
        """Puts the message in R on queue Q at place K. Refusals: NoSuchPlace, BadOrder."""
        queue = self.queues[number]
        messages = queue.messages
        if k > len(messages):
            raise Refused("9 NoSuchPlace", Q=number, N=len(messages), K=k)
        own = rank(self.held[source])
        ranks = [rank(message) for message in messages]
        below = [other for other in ranks[:k] if other < own]
        if below or max(ranks[k:], default=own) > own:
            first, then = (below[0], own) if below else (own, max(ranks[k:]))
            raise Refused("10 BadOrder", K=k, A=first, B=then)
        self.place(number, k, source)
        if not queue.enabling_is_off and queue.wants_to_read:
            self.enable(number)

    @word("Queues", "queue to", 6, settles=True)
    def getq(self, number: int, to: str) -> str | None:
        """Takes the first message off queue Q into R. Reply: ok, none."""
        queue = self.queues[number]
        queue.wants_to_read = not queue.messages
        if not queue.messages:
            return "none"
        self.held[to] = queue.messages.pop(0)
        self.settle(number)
        return None

    @word("Queues", "queue place to", 3, settles=True)
    def rmvq(self, number: int, k: int, to: str) -> None:
        """Takes the message at place K off queue Q into R. Refusal: NoSuchPlace."""
        messages = self.queues[number].messages
        if k >= len(messages):
            raise Refused("9 NoSuchPlace", Q=number, N=len(messages), K=k)
        self.held[to] = messages.pop(k)
        self.settle(number)

    def flush(self, number: int, ranks: Iterable[int], flag: str) -> None:
        queue = self.queues[number]
        kept = []
        for message in queue.messages:
            if rank(message) in ranks and (flag == "all" or message[0].data.kind in CARRY_DATA):
                for block in message:
                    self.release(block.data)
            else:
                kept.append(message)
        queue.messages = kept
        self.settle(number)

    @word("Queues", "queue flag", 2, settles=True)
    def flushq(self, number: int, flag: str) -> None:
        """Frees the messages of queue Q, all or those with data."""
        self.flush(number, range(257), flag)

    @word("Queues", "queue band flag", 2, settles=True)
    def flushband(self, number: int, band: int, flag: str) -> None:
        """Frees the messages of band B of queue Q, all or those with data."""
        self.flush(number, ranks_of(band), flag)

    @word("Flow control", "queue band", 10)
    def bcanput(self, number: int, band: int) -> str:
        """Asks whether a message of band B may be sent to queue Q. From Q on, along next queues, the first one with a
        service procedure decides, or if none has one, the last queue: the *target*. If the band of the target is
        full, the reply is no and the band is marked *wanted*. Reply: yes, no."""
        queue = self.queues[number]
        while not queue.has_service and queue.next != "-":
            queue = self.queues[queue.next]
        if not queue.is_full(band):
            return "yes"
        queue.wanted.add(band)
        return "no"

    @word("Flow control", "queue marked high low", 8, settles=True)
    def strqset(self, number: int, band: int, high: int, low: int) -> None:
        """Sets both water marks of band B of queue Q. Refusal: BadMarks."""
        if low >= high:
            raise Refused("20 BadMarks", L=low, H=high)
        self.queues[number].marks[band] = high, low
        self.settle(number)

    @word("Flow control", "queue marked", 2)
    def strqget(self, number: int, band: int) -> str:
        """Shows both water marks of band B of queue Q. Reply: marks."""
        return "marks {} {}".format(*self.queues[number].marks_of(band))

    @word("Queues", "queue")
    def qsize(self, number: int) -> str:
        """Counts the messages of queue Q. Reply: size."""
        return f"size {len(self.queues[number].messages)}"

    @word("Service", "queue")
    def qenable(self, number: int) -> None:
        """Appends queue Q to the run list, if it has a service procedure and is not on the list."""
        self.enable(number)

    @word("Service", "queue")
    def noenable(self, number: int) -> None:
        """Switches off enabling of queue Q by messages, except by those of high priority."""
        self.queues[number].enabling_is_off = True

    @word("Service", "queue", 2)
    def enableok(self, number: int) -> None:
        """Switches enabling of queue Q by messages on again."""
        self.queues[number].enabling_is_off = False

    @word("Service", "", 2, own=True)
    def service(self) -> str:
        """Takes the first queue off the run list. Reply: queue, none."""
        return f"queue {self.run.pop(0)}" if self.run else "none"

    @word("Wishes and census", "size", 4)
    def bufcall(self, size: int) -> str:
        """Records a wish: a request to hear when `allocb` of this size would succeed. Reply: id. Refusals: TooLarge,
        Full, IdsSpent."""
        if size > self.pool.greatest():
            raise Refused("1 TooLarge", S=size, M=self.pool.greatest())
        if len(self.wishes) == self.pool.bufcalls:
            raise Refused("12 Full", N=len(self.wishes))
        if self.next_id > LAST_ID:
            raise Refused("13 IdsSpent", M=LAST_ID)
        self.wishes.append((self.next_id, size))
        self.next_id += 1
        return f"id {self.wishes[-1][0]}"

    @word("Wishes and census", "id", 2)
    def unbufcall(self, own: int) -> None:
        """Withdraws the wish with this id. Refusal: NotPending."""
        kept = [wish for wish in self.wishes if wish[0] != own]
        if kept == self.wishes:
            raise Refused("14 NotPending", I=own)
        self.wishes = kept

    @word("Wishes and census", "", 3, own=True)
    def ready(self) -> str:
        """Removes and shows the oldest wish that can be met now. No block is reserved. Reply: ready, none."""
        for wish in self.wishes:
            if self.fits(wish[1]):
                self.wishes.remove(wish)
                return "ready {} {}".format(*wish)
        return "none"

    @word("Wishes and census", "", own=True)
    def census(self) -> str:
        """Counts the message blocks: free, on queues, and held. Reply: census."""
        return "census {} {} {}".format(*self.counts())

    def report(self) -> list[str]:
        lines = ["blocks free={} queued={} held={} total={}".format(*self.counts(), self.pool.mblks)]
        lines += [f"data size={size} free={free} total={count}" for (size, count), free in zip(self.pool.classes, self.data)]
        for number, queue in enumerate(self.queues):
            lines.append(
                f"queue {number} msgs={len(queue.messages)} bytes={sum(map(total, queue.messages))} read={int(queue.wants_to_read)}"
                f" noenable={int(queue.enabling_is_off)} enabled={int(number in self.run)}"
            )
            for band, count in sorted(queue.bytes_of_bands().items(), reverse=True):
                if count > 0:
                    lines.append(f"band {band} bytes={count} full={int(queue.is_full(band))} wanted={int(band in queue.wanted)}")
        lines.append(f"run {' '.join(map(str, self.run)) or '-'}")
        lines.append(f"wishes {' '.join(f'{own}:{size}' for own, size in self.wishes) or '-'}")
        return lines

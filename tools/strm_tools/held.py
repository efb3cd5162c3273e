"""The messages that a trace has as held, in memory and in the registers of the script, and lines that change the script's as memory was
changed through pointers."""
from __future__ import annotations

from collections import defaultdict
from typing import Callable, Iterable, Mapping, Sequence

from strm_tools.trace import Bad, Beyond, Block, Told

REGISTERS = "abcdefghijklmnopqrstuvwxyz"
# The most bytes of a `write`.
PIECE = 64


def alike(old: bytes, new: bytes) -> int:
    """How many bytes at the beginning are the same, of as many."""
    if old == new:
        return len(old)
    return next(at for at, (one, other) in enumerate(zip(old, new)) if one != other)


def pieces(octets: bytes) -> list[bytes]:
    return [octets[at : at + PIECE] for at in range(0, len(octets), PIECE)]


class Memory:
    """The held message blocks as the trace has them: each by its number, with the one that it leads to, and the bytes of data blocks."""

    def __init__(self) -> None:
        self.sizes: dict[int, int] = {}
        self.bytes: dict[int, bytearray] = {}
        self.blocks: dict[int, Block] = {}
        self.next: dict[int, int | None] = {}
        # The held blocks that refer to each data block.
        self.holders: dict[int, dict[int, bool]] = defaultdict(dict)

    def size_of(self, data: int) -> int:
        if data not in self.sizes:
            raise Bad(f"data block {data} has no line 'c {data} SIZE'")
        return self.sizes[data]

    def bytes_of(self, data: int) -> bytearray:
        return self.bytes.setdefault(data, bytearray(self.sizes[data]))

    def require_held(self, number: int) -> None:
        if number not in self.blocks:
            raise Bad(f"block {number} is not held")

    def take(self, told: Told) -> None:
        """Takes what a line says of a block."""
        block = told.block
        size = self.size_of(block.data)
        if not block.read <= block.write <= size:
            raise Bad(f"expected READ <= WRITE <= {size}, the size of data block {block.data}, here {block.read} and {block.write}")
        if told.number in self.blocks:
            self.end(told.number)
        self.blocks[told.number] = block
        self.next[told.number] = told.next
        self.holders[block.data][told.number] = True

    def end(self, number: int) -> None:
        """Has a block held no longer."""
        del self.holders[self.blocks[number].data][number]
        del self.blocks[number], self.next[number]

    def end_at(self, numbers: Iterable[int]) -> None:
        """Has messages end at these blocks where they lead to a block that is not held."""
        for number in numbers:
            if self.next[number] not in self.blocks:
                self.next[number] = None

    def chain(self, head: int | None) -> list[int]:
        """The blocks of the message that begins with this one."""
        blocks: dict[int, bool] = {}
        while head in self.blocks:
            if head in blocks:
                raise Bad(f"block {head} leads back to itself")
            blocks[head] = True
            head = self.next[head]
        return list(blocks)

    def chains(self, numbers: list[int]) -> list[list[int]]:
        """The messages that these blocks are now."""
        before: dict[int, int] = {}
        for number in numbers:
            following = self.next[number]
            if following in before:
                raise Bad(f"blocks {before[following]} and {number} both lead to block {following}, which no line of strm can do")
            if following in self.blocks:
                before[following] = number
        chains = [self.chain(number) for number in numbers if number not in before]
        if sum(map(len, chains)) < len(numbers):
            raise Bad(f"block {min(set(numbers).difference(*chains))} leads back to itself")
        return chains

    def others(self, number: int) -> list[int]:
        """The other held blocks that refer to the data block of this one."""
        return [other for other in self.holders[self.blocks[number].data] if other != number]


class Held:
    """The messages in the script's registers: the numbers of each one's blocks, and these blocks as the script has them. `do` takes each
    line that is made, and `shares` says whether strm has more blocks that refer to the data block of a register's message, also on queues."""

    def __init__(self, do: Callable[[str], None], shares: Callable[[str], bool]) -> None:
        self.do = do
        self.shares = shares
        self.memory = Memory()
        self.blocks: dict[int, Block] = {}
        self.bytes: dict[int, bytearray] = {}
        self.messages: dict[str, list[int]] = {}
        self.register_of: dict[int, str] = {}

    def bytes_of(self, data: int) -> bytearray:
        return self.bytes.setdefault(data, bytearray(self.memory.sizes[data]))

    def take(self, number: int) -> None:
        """Takes a block as memory has it."""
        block = self.blocks[number] = self.memory.blocks[number]
        self.bytes_of(block.data)[:] = self.memory.bytes_of(block.data)

    def set(self, register: str, numbers: list[int]) -> None:
        """Has a register hold the message of these blocks, or none."""
        for number in self.messages.pop(register, []):
            if self.register_of.get(number) == register:
                del self.register_of[number]
        if numbers:
            self.messages[register] = numbers
            self.register_of.update(dict.fromkeys(numbers, register))

    def free_register(self) -> str:
        for register in REGISTERS:
            if register not in self.messages:
                return register
        raise Beyond(f"all {len(REGISTERS)} registers of strm hold messages, and a further message needs one")

    # Messages as a whole

    def unlink(self, register: str) -> str:
        """Parts the first block of a message from the rest, and returns the register of the rest."""
        first, *rest = self.messages[register]
        other = self.free_register()
        self.do(f"unlinkb {register} {other}")
        self.set(register, [first])
        self.set(other, rest)
        return other

    def link(self, register: str, tail: str) -> None:
        """Appends a message to another one."""
        self.do(f"linkb {register} {tail}")
        numbers = self.messages[register] + self.messages[tail]
        self.set(tail, [])
        self.set(register, numbers)

    def begin_at(self, number: int) -> tuple[str, int | None]:
        """Has a message begin at a block. Returns its register, and the block that was before it, if any."""
        register = self.register_of[number]
        place = self.messages[register].index(number)
        if place == 0:
            return register, None
        before = self.messages[register][place - 1]
        rest = self.unlink(register)
        while self.messages[rest][0] != number:
            after = self.unlink(rest)
            self.link(register, rest)
            rest = after
        return rest, before

    def join(self, numbers: Sequence[int]) -> None:
        """Makes one message of these blocks, whose pieces are messages."""
        for one, other in zip(numbers, numbers[1:]):
            if self.register_of[one] != self.register_of[other]:
                self.link(self.register_of[one], self.register_of[other])

    # Changes through pointers

    def agree(self, changed: Mapping[int, int]) -> None:
        """Has the script change these blocks as memory has changed. Each has the number of the line that says so."""
        registers = dict.fromkeys(self.register_of[number] for number in changed)
        self.memory.end_at(changed)
        led_to = [self.memory.next[number] for number in changed]
        touched = dict.fromkeys([*registers, *(self.register_of[number] for number in led_to if number in self.register_of)])
        chains = self.memory.chains([number for register in touched for number in self.messages[register]])
        for register in registers:
            self.mend_message(register, changed)
        for numbers in chains:
            self.join(numbers)

    def stays_linked(self, register: str) -> bool:
        """Whether memory has the blocks of a message behind each other too."""
        numbers = self.messages[register]
        return all(self.memory.next[one] == other for one, other in zip(numbers, numbers[1:]))

    def mend_message(self, register: str, changed: Mapping[int, int]) -> None:
        """Changes the blocks of a message. Where one can't be changed inside the message, or memory has parted it, each block is parted
        from those behind it, changed, and appended to those before it, so that this needs three registers only."""
        before = None
        while not self.can_stay(register):
            rest = self.unlink(register)
            self.mend_all(register, changed)
            before = self.follow(before, register)
            register = rest
        self.mend_all(register, changed)
        self.follow(before, register)

    def follow(self, before: str | None, register: str) -> str:
        """Appends a message to the one before it, if memory has them so, and returns the register of what then is the last."""
        if before is None or self.memory.next[self.messages[before][-1]] != self.messages[register][0]:
            return register
        self.link(before, register)
        return before

    def can_stay(self, register: str) -> bool:
        """Whether each block of a message can be changed where it is in the message."""
        numbers = self.messages[register]
        return len(numbers) == 1 or (self.stays_linked(register) and all(map(self.can_stay_behind, numbers)))

    def can_stay_behind(self, number: int) -> bool:
        """Whether a block of a message of several can be changed where it is in the message."""
        now, then = self.blocks[number], self.memory.blocks[number]
        numbers = self.messages[self.register_of[number]]
        if then.read < now.read or (number != numbers[0] and (then.read, then.band) != (now.read, now.band)):
            return False
        return number == numbers[-1] or self.kept(number) == now.write

    def kept(self, number: int) -> int:
        """Up to which place the bytes of a block stay as they are."""
        now, then = self.blocks[number], self.memory.blocks[number]
        end = min(now.write, then.write)
        begin = min(then.read, end)
        return begin + alike(self.bytes_of(now.data)[begin:end], self.memory.bytes_of(now.data)[begin:end])

    def mend_all(self, register: str, changed: Mapping[int, int]) -> None:
        for number in self.messages[register]:
            if number in changed:
                try:
                    self.mend(number, register)
                except Bad as why:
                    why.line = changed[number]
                    raise

    def mend(self, number: int, register: str) -> None:
        """Gives a block the places, bytes, type and band that memory has."""
        then = self.memory.blocks[number]
        self.require_expressible(number)
        if then.read < self.blocks[number].read:
            self.renew(number, register)
        now = self.blocks[number]
        place = self.messages[register].index(number)
        kept = self.kept(number)
        if kept < now.write:
            self.do(f"adjmsg {register} {kept - now.write}")
        for octets in pieces(self.memory.bytes_of(now.data)[kept : then.write]):
            self.do(f"write {register} {place} {octets.hex()}")
        if then.read > now.read:
            self.do(f"adjmsg {register} {then.read - now.read}")
        if then.kind != now.kind:
            self.do(f"settype {register} {place} {then.kind}")
        if then.band != now.band:
            self.do(f"setband {register} {then.band}")
        self.take(number)

    def require_expressible(self, number: int) -> None:
        """Raises `Bad` where no line makes the change of a block."""
        now, then = self.blocks[number], self.memory.blocks[number]
        if then.data != now.data:
            raise Bad(f"block {number} refers to data block {then.data} instead of {now.data}, which no line of strm can do")
        others = self.memory.others(number)
        is_written = any(self.kept(one) < self.memory.blocks[one].write for one in [number, *others])
        is_wider = then.read < now.read or then.write > now.write
        if others and (is_written or is_wider or then.kind != now.kind):
            what = f"block {number} gets more of data block {now.data}" if is_wider else f"data block {now.data} changes"
            raise Beyond(f"{what} while block {others[0]} refers to it too, which no line of strm can do")

    def renew(self, number: int, register: str) -> None:
        """Has a block take its data block anew, with its places at the beginning."""
        data = self.blocks[number].data
        if self.shares(register):
            raise Beyond(f"block {number} gets more of data block {data} while a queued block refers to it too, which no line of strm can do")
        self.do(f"freemsg {register}")
        self.do(f"allocb {register} {self.memory.sizes[data]}")
        self.blocks[number] = Block(data, 0, 0, "M_DATA", 0)

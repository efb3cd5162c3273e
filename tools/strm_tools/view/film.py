"""What a page shows of a run: the pool as it opens, and what each line changes.

The state of the pool is a table of parts, each a list. So every change has one form: the part, a place in it, how many items go
there, and which come. N is the number of queues.

    0                      how many data blocks of each class are free
    1                      the run list: queues by number
    2                      id and size of each wish
    3 + 2 Q                of queue Q: the want-to-read mark, whether enabling is off, the wanted bands, and band, high and low
                           water mark for each band that `strqset` set
    4 + 2 Q                the messages of queue Q, front to back
    3 + 2 N + 26 W + R     the blocks of the message in register R of worker W

A message is a list of blocks. A block is a list: its number, then the number, class and type of its data block, its read place, write
place and band, and the number of its bytes. Message blocks and data blocks are numbered from 1 as the run takes them.

Bytes are numbered by the frame whose line made them; 0 means none. If they were made of others, the frame has a change of part -1:
after a `write`, the number of the bytes before, and the place from which on the line's own follow; after a `pullupmsg`, pieces, each
of a number, its beginning and its end."""
from __future__ import annotations

import operator
from array import array
from collections import Counter, defaultdict
from itertools import count
from typing import Any, Callable, Counter as Counts, Iterable, Iterator, List, NamedTuple, Sequence, TypeVar

from strm_tools.judge import Replay
from strm_tools.model import HIGH_PRIORITY, ORDINARY, Block, Values
from strm_tools.rules import SETTLES, Found, why_not, why_settled
from strm_tools.script import lazily
from strm_tools.view.queues import OF_BYTES, OF_DATA, READ, WANTED, WRITE, Shown, ShownQueue, flags_of, message_of

Item = TypeVar("Item")
# A change: the part, a place in it, how many items go there, and those that come.
Change = List[Any]
KINDS = ORDINARY + HIGH_PRIORITY
PLACE_OF_KIND = {kind: place for place, kind in enumerate(KINDS)}
REGISTERS = "abcdefghijklmnopqrstuvwxyz"
DATA, RUN, WISHES, FIRST_QUEUE = range(4)
BYTES = -1
CHANGES_NOTHING = ("refused", "empty", "taken")


def alike(one: Sequence[Item], other: Sequence[Item], same: Callable[[Item, Item], bool]) -> int:
    """How many items at the beginning of two lists are the same."""
    pairs = enumerate(zip(one, other))
    return next((at for at, (left, right) in pairs if not same(left, right)), min(len(one), len(other)))


def splice(before: Sequence[Item], after: Sequence[Item], same: Callable[[Item, Item], bool] = operator.eq) -> tuple[int, int, int]:
    """Where one list differs from another: the place, how many items go there, and how many come."""
    begin = alike(before, after, same)
    end = alike(before[begin:][::-1], after[begin:][::-1], same)
    return begin, len(before) - begin - end, len(after) - begin - end


class Line(NamedTuple):
    """An executed line: who executed it and where it is in the script, its reply, what it made happen, and what it changed. Lines that were
    refused, found a band full or cleared a wanted mark also have the rule that decided this (rules.py)."""

    worker: int
    number: int
    reply: str
    events: list[str]
    changes: list[Change]
    why: Found | None = None


def pieces_of(blocks: Iterable[Shown], left: int) -> Iterator[list[int]]:
    """The pieces that a `pullupmsg` of so many bytes brings together: of each block its bytes, their beginning and their end."""
    for block in blocks:
        begin, end = block[READ], min(block[WRITE], block[READ] + left)
        if begin < end:
            yield [block[OF_BYTES], begin, end]
        left -= end - begin


class Tracks:
    """Tracks by name: of frames in which something happens, and of numbers that change from frame to frame. A track of frames is the gaps
    between them. A track of a number is its value at frame 0, and then a gap and a difference for each change."""

    def __init__(self) -> None:
        self.tracks: dict[str, array[int]] = {}
        self.last: dict[str, int] = {}
        self.values: dict[str, int] = {}

    def mark(self, name: str, frame: int) -> None:
        """Marks a frame, once."""
        last = self.last.get(name, 0)
        if last < frame:
            self.tracks.setdefault(name, array("q")).append(frame - last)
            self.last[name] = frame

    def step(self, name: str, frame: int, value: int, opening: int = 0) -> None:
        """The number of this name has a value from this frame on. Before the first step it has the value `opening`."""
        before = self.values.setdefault(name, opening)
        if name not in self.tracks:
            self.tracks[name], self.last[name] = array("q", [opening]), 0
        if value != before:
            self.tracks[name].extend((frame - self.last[name], value - before))
            self.last[name], self.values[name] = frame, value


class Film(Replay):
    """A replay that hands on each line with what it changes, by `keep`."""

    def __init__(self, script: str, keep: Callable[[Line], None]) -> None:
        pool, sections = lazily(script)
        super().__init__(script, lambda _: (pool, sections))
        self.keep = keep
        # The lines of the script.
        self.script = sections[0].lines
        self.frame = 0
        self.numbers = count(1)
        self.data_numbers = count(1)
        self.queues = [ShownQueue(queue) for queue in self.model.queues]
        self.lists: dict[int, list[Any]] = {DATA: list(self.model.data), RUN: [], WISHES: []}
        self.registers: dict[int, list[Shown]] = defaultdict(list)
        self.used_registers: dict[int, set[str]] = defaultdict(set)
        # How many blocks are in each worker's registers, and the most there were. How many blocks were in use at most.
        self.held = [0] * len(self.sections)
        self.most_held = [0] * len(self.sections)
        self.most_in_use = 0
        self.most_run = 0
        self.most_wishes = 0
        # How many references each data block has on each queue.
        self.holders: dict[int, Counts[int]] = defaultdict(Counter)
        self.tracks = Tracks()
        # The names of the rules that lines have.
        self.rules: set[str] = set()
        self.count_all()

    # ---- What is shown of a message --------------------------------------------------------------------------------------------

    def shown(self, block: Block) -> Shown:
        """A block as a list of numbers. The model's own objects keep their numbers."""
        data = block.data
        if not hasattr(data, "number"):
            data.number, data.bytes = next(self.data_numbers), 0
        if not hasattr(block, "number"):
            block.number = next(self.numbers)
        kind = PLACE_OF_KIND[data.kind]
        return [block.number, data.number, data.place, kind, block.read, block.write, block.band, data.bytes]

    def make_bytes(self, word: str, values: Values, before: list[Shown]) -> list[Change]:
        """Numbers the bytes that a line made. Returns the change that has of what they are made, if they are made of others."""
        held = self.model.held
        if word == "write" and values[2]:
            block = before[values[1]]
            held[values[0]][values[1]].data.bytes = self.frame
            return [[BYTES, block[OF_BYTES], block[WRITE]]] if block[OF_BYTES] else []
        if word in ("copyb", "copymsg"):
            for source, copy in zip(held[values[0]], held[values[1]]):
                self.shown(copy)
                copy.data.bytes = source.data.bytes
        if word == "pullupmsg" and held[values[0]] and not hasattr(held[values[0]][0].data, "number"):
            first = held[values[0]][0]
            self.shown(first)
            first.data.bytes = self.frame
            return [[BYTES, *pieces_of(before, first.write)]]
        return []

    # ---- What a line changes -----------------------------------------------------------------------------------------------------

    def part_of_register(self, worker: int, letter: str) -> int:
        return FIRST_QUEUE + 2 * len(self.queues) + 26 * worker + REGISTERS.index(letter)

    def changed_registers(self, worker: int, letters: list[str]) -> Iterator[Change]:
        """The changes of the registers that a line names."""
        for letter in letters:
            part = self.part_of_register(worker, letter)
            before = self.registers[part]
            after = [self.shown(block) for block in self.model.held.get(letter, [])]
            place, gone, come = splice(before, after)
            if gone or come:
                self.registers[part] = after
                self.used_registers[worker].add(letter)
                self.held[worker] += len(after) - len(before)
                self.refer(before[place : place + gone], -1)
                self.refer(after[place : place + come], 1)
                yield [part, place, gone, *after[place : place + come]]

    def changed_messages(self, number: int) -> Iterator[Change]:
        """The change of the messages of a queue, if any."""
        queue = self.queues[number]
        own = self.model.queues[number].messages
        place, gone, come = splice([message.own for message in queue.messages], own, operator.is_)
        if gone or come:
            went = queue.messages[place : place + gone]
            came = [message_of(message, [self.shown(block) for block in message]) for message in own[place : place + come]]
            queue.messages[place : place + gone] = came
            for messages, sign in ((went, -1), (came, 1)):
                queue.count(messages, sign)
                for message in messages:
                    self.refer(message.blocks, sign, number)
            yield [FIRST_QUEUE + 2 * number + 1, place, gone, *(message.blocks for message in came)]

    def changed_flags(self, number: int) -> Iterator[Change]:
        """The change of a queue's flags, if any."""
        before, after = self.queues[number].flags, flags_of(self.model.queues[number])
        if before != after:
            self.queues[number].flags = after
            for band in sorted(set(before[WANTED]) ^ set(after[WANTED])):
                self.tracks.step(f"wanted {number} {band}", self.frame, int(band in after[WANTED]))
            yield self.change(FIRST_QUEUE + 2 * number, before, after)

    def changed_lists(self) -> Iterator[Change]:
        """The changes of the other parts."""
        now: list[tuple[int, list[Any]]] = [(DATA, self.model.data), (RUN, self.model.run), (WISHES, self.model.wishes)]
        for part, after in now:
            before = self.lists[part]
            if before != after:
                self.lists[part] = list(after)
                yield self.change(part, before, after)

    @staticmethod
    def change(part: int, before: Sequence[Any], after: Sequence[Any]) -> Change:
        place, gone, come = splice(before, after)
        return [part, place, gone, *after[place : place + come]]

    def refer(self, blocks: Iterable[Shown], sign: int, number: int | None = None) -> None:
        """Counts references that come or go, and those on a queue by its number."""
        for block in blocks:
            self.references[block[OF_DATA]] += sign
            if number is not None:
                holders = self.holders[block[OF_DATA]]
                holders[number] += sign
                if holders[number] == 0:
                    del holders[number]
                if not holders:
                    del self.holders[block[OF_DATA]]

    # ---- A line --------------------------------------------------------------------------------------------------------------------

    def serve(self, worker: int) -> str:
        number, word, items, values = self.sections[worker][self.served[worker]]
        letters = [value for item, value in zip(items, values) if item in ("from", "to")]
        told = super().serve(worker)
        self.frame += 1
        self.references: Counts[int] = Counter()
        reply = told.partition(" ")[2]
        changes: list[Change] = []
        events: list[str] = []
        why = self.why(word, items, values, reply)
        for letter in letters:
            self.tracks.mark(f"used {worker} {letter}", self.frame)
        if reply.startswith(CHANGES_NOTHING):
            self.tracks.mark("refused", self.frame)
        else:
            run = self.lists[RUN]
            before = self.registers[self.part_of_register(worker, letters[0])] if letters else []
            changes += self.make_bytes(word, values, before)
            changes += self.changed_registers(worker, letters)
            events += self.changed_queues(word, values[0] if "queue" in items else None, changes)
            changes += self.changed_lists()
            events += self.enabled(word, set(run), set(self.lists[RUN]))
            self.note_references()
            self.count_all()
        self.keep(Line(worker, number, reply, events, changes, why))
        return told

    def why(self, word: str, items: list[str], values: Values, reply: str) -> Found | None:
        """The rule that a line has, or None. What the frames show is still as before the line."""
        rule = None
        if reply.startswith(CHANGES_NOTHING) or (word, reply) == ("bcanput", "no"):
            rule = why_not(self.model, word, items, values, reply)
        elif word in SETTLES:
            wanted = self.queues[values[0]].flags[WANTED]
            if set(wanted) != self.model.queues[values[0]].wanted:
                rule = why_settled(self.model, values[0], wanted, self.lists[RUN])
        if rule:
            self.rules.add(rule.name)
        if rule and reply == "no":
            self.tracks.mark(f"no {rule.numbers['Q']}", self.frame)
        return rule

    def changed_queues(self, word: str, named: int | None, changes: list[Change]) -> list[str]:
        """Adds the changes of queues. Returns which bands became full."""
        if named is None:
            return []
        events = []
        for number in range(len(self.queues)) if word == "bcanput" else [named]:
            found = [*(self.changed_messages(number) if number == named else []), *self.changed_flags(number)]
            if found:
                changes += found
                self.tracks.mark(f"changed {number}", self.frame)
                events += [f"F{number}.{band}" for band in self.settle(number)]
        return events

    def settle(self, number: int) -> list[int]:
        """Notes the bytes and the water marks of a queue's bands. Returns the bands that became full."""
        shown, queue = self.queues[number], self.model.queues[number]
        came = shown.settle(queue)
        for band in shown.bands:
            high, low = queue.marks_of(band)
            self.tracks.step(f"bytes {number} {band}", self.frame, shown.bytes[band])
            self.tracks.step(f"high {number} {band}", self.frame, high, queue.high)
            self.tracks.step(f"low {number} {band}", self.frame, low, queue.low)
        if came:
            self.tracks.mark(f"full {number}", self.frame)
        return came

    def enabled(self, word: str, before: set[int], after: set[int]) -> Iterator[str]:
        """Which queues a line enabled, and how."""
        for number in before ^ after:
            self.tracks.mark(f"changed {number}", self.frame)
        for number in sorted(after - before):
            is_back = word in SETTLES
            self.tracks.mark(f"enabled {number}", self.frame)
            if is_back:
                self.tracks.mark(f"back {number}", self.frame)
            yield f"{'B' if is_back else 'E'}{number}"

    def note_references(self) -> None:
        """Marks the queues on which the reference count of a block changed."""
        for data, difference in self.references.items():
            if difference:
                for number in self.holders.get(data, ()):
                    self.tracks.mark(f"changed {number}", self.frame)

    def count_all(self) -> None:
        """Notes what the chart shows, and the most there is of what the picture keeps room for."""
        queued, held = sum(queue.blocks for queue in self.queues), sum(self.held)
        self.tracks.step("queued", self.frame, queued)
        self.tracks.step("held", self.frame, held)
        for place, (free, (_, total)) in enumerate(zip(self.model.data, self.model.pool.classes)):
            self.tracks.step(f"data {place}", self.frame, free, total)
        self.most_held = [most if most > held else held for most, held in zip(self.most_held, self.held)]
        self.most_in_use = max(self.most_in_use, queued + held)
        self.most_run = max(self.most_run, len(self.model.run))
        self.most_wishes = max(self.most_wishes, len(self.model.wishes))

    # ---- The whole pool ----------------------------------------------------------------------------------------------------------

    def state(self) -> dict[int, list[Any]]:
        """All parts that are not empty, or that always are there."""
        parts = {part: list(items) for part, items in self.lists.items()}
        for number, queue in enumerate(self.queues):
            parts[FIRST_QUEUE + 2 * number] = queue.flags
            parts[FIRST_QUEUE + 2 * number + 1] = [message.blocks for message in queue.messages]
        parts.update((part, blocks) for part, blocks in self.registers.items() if blocks)
        return parts

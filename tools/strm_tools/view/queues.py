"""A queue as the frames of a page show it (film.py)."""
from __future__ import annotations

from collections import Counter
from typing import Any, Counter as Counts, List, NamedTuple, Sequence

from strm_tools import model
from strm_tools.model import HIGH_PRIORITY

# Places in a block, and in the flags of a queue.
OF_DATA, READ, WRITE, OF_BYTES = 1, 4, 5, 7
WANTED = 2


# A block as the frames show it, and the flags of a queue.
Shown = List[int]
Flags = List[Any]


class Message(NamedTuple):
    """A message on a queue: the model's own list, by which it is recognized, and what is shown of it."""

    own: model.Message
    blocks: list[Shown]
    band: int
    length: int


def message_of(own: model.Message, blocks: list[Shown]) -> Message:
    band = 0 if own[0].data.kind in HIGH_PRIORITY else own[0].band
    return Message(own, blocks, band, sum(block[WRITE] - block[READ] for block in blocks))


def flags_of(queue: model.Queue) -> Flags:
    own = [[band, *marks] for band, marks in sorted(queue.marks.items())]
    return [int(queue.wants_to_read), int(queue.enabling_is_off), sorted(queue.wanted), own]


class ShownQueue:
    """A queue as the frames show it."""

    def __init__(self, queue: model.Queue) -> None:
        self.messages: list[Message] = []
        self.flags = flags_of(queue)
        # The bytes of each band that has messages or had some, and the bands that are full.
        self.bytes: Counts[int] = Counter()
        self.full: set[int] = set()
        # All bands that ever have bytes, are wanted or have water marks of their own; the most at a time with bytes or wanted; the most blocks.
        self.bands: set[int] = set()
        self.most_bands = 0
        self.blocks = 0
        self.most_blocks = 0

    def count(self, messages: Sequence[Message], sign: int) -> None:
        """Counts messages that come, or by the sign -1 that go."""
        for message in messages:
            self.bytes[message.band] += sign * message.length
            self.blocks += sign * len(message.blocks)
        self.most_blocks = max(self.most_blocks, self.blocks)

    def settle(self, queue: model.Queue) -> list[int]:
        """Notes which bands are shown now. Returns those that became full."""
        full = {band for band, number in self.bytes.items() if number and number >= queue.marks_of(band)[0]}
        came, self.full = full - self.full, full
        busy = {band for band, number in self.bytes.items() if number} | queue.wanted
        self.bands |= busy | set(queue.marks)
        self.most_bands = max(self.most_bands, len(busy))
        return sorted(came)

"""The plain model of strm beside a trace: it is given each line of the script as it is made, and has the same replies and messages."""
from __future__ import annotations

from typing import Mapping
from weakref import WeakKeyDictionary

from strm_tools.faults import FORMS
from strm_tools.held import Held, Memory
from strm_tools.model import Block, Data, Model, Pool
from strm_tools.script import value_of
from strm_tools.trace import Bad, shortened
from strm_tools.words import counted


class Plain:
    """The model, its data block of each held block by number, and the number of each of its data blocks."""

    def __init__(self, pool: Pool) -> None:
        self.model = Model(pool)
        self.model.begin()
        self.data_of: dict[int, Data] = {}
        self.number_of: WeakKeyDictionary[Data, int] = WeakKeyDictionary()

    def reply(self, line: str) -> str:
        word, *rest = line.split(" ")
        items = FORMS[word]
        return self.model.answer(word, items, [value_of(*pair) for pair in zip(items, rest)])

    def require_messages(self, messages: Mapping[str, list[int]], held: Held) -> None:
        """Raises `Bad` unless each register holds the message of these blocks, as they are held."""
        pairs: list[tuple[int, Block]] = []
        for register, numbers in messages.items():
            message = self.model.held.get(register, [])
            if len(message) != len(numbers):
                raise Bad(f"after this call message {numbers[0]} has {counted(len(numbers), 'block')}, and in strm {len(message)}")
            pairs += zip(numbers, message)
        self.data_of.update((number, block.data) for number, block in pairs)
        for number, block in pairs:
            self.require_data(number, block.data, held.memory)
            require_block(number, block, held)

    def require_data(self, number: int, data: Data, memory: Memory) -> None:
        """Raises `Bad` unless the blocks that refer to a data block here are those that do in strm."""
        own = memory.blocks[number].data
        if len(data.octets) != memory.sizes[own]:
            raise Bad(f"after this call block {number} has a data block of {memory.sizes[own]} bytes, and in strm of {len(data.octets)}")
        if self.number_of.setdefault(data, own) != own:
            raise Bad(f"after this call block {number} refers to data block {own}, and in strm to {self.number_of[data]}")
        for other in memory.others(number):
            if self.data_of[other] is not data:
                raise Bad(f"after this call blocks {other} and {number} refer to one data block, and in strm to two")


def require_block(number: int, block: Block, held: Held) -> None:
    """Raises `Bad` unless a block has the places, type, band and bytes that it has in strm."""
    own = held.blocks[number]
    octets = bytes(held.bytes_of(own.data)[own.read : own.write])
    here = {"READ": own.read, "WRITE": own.write, "TYPE": own.kind, "BAND": own.band, "bytes": octets.hex() or "-"}
    there = [block.read, block.write, block.data.kind, block.band, block.octets().hex() or "-"]
    for (name, one), other in zip(here.items(), there):
        if one != other:
            raise Bad(f"after this call block {number} has {name} {shortened(str(one))}, and in strm {shortened(str(other))}")

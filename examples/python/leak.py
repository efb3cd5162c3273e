"""Hunts a leak, as ../c/leak.c does. A message that is no longer referred to stays held. The number of its first block leads to a table of who made it,
so each that is held in the end is printed with its maker. `leaked` finds also a message that the table does not know."""
from typing import Dict, Tuple

import strm

notes: Dict[int, Tuple[strm.Name, str]] = {}


def post(pool: strm.Pool, maker: str, data: bytes) -> None:
    msg = pool.allocb(len(data))
    notes[msg.name.head] = msg.name, maker
    msg.write(0, data)
    pool.queues[0].put(msg)


def take_all(pool: strm.Pool) -> None:
    for msg in iter(pool.queues[0].get, None):
        assert msg
        _, maker = notes[msg.name.head]
        notes[msg.name.head] = msg.name, maker  # a new name, the same first block
        if maker != "timer":
            msg.freemsg()  # the timer leaks


with strm.Pool(mblks=16, classes=[(16, 16)], queues=[strm.QueueSpec(hiwat=64, lowat=16)]) as pool:
    post(pool, "line", b"abcd")
    post(pool, "timer", b"tick")
    post(pool, "line", b"ef")
    take_all(pool)
    pool.allocb(4)
    print(pool.census().held, "blocks are held")
    for name in list(pool.leaked()):
        noted, maker = notes.get(name.head, (None, ""))
        with pool.adopt(name) as msg:  # it is freed after all
            print(f"block {name.head}: {msg.size()} bytes, maker: {maker if noted == name else 'unknown'}")

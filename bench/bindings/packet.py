"""The ways of packets of ../peers/peer.h through the package of bindings/python: prints the nanoseconds of one.

    packet.py WAY ROUNDS
"""
import sys
import time

import strm

WAY, ROUNDS = sys.argv[1], int(sys.argv[2])
BYTES = bytes(1500 if WAY.endswith("long") else 64)


def copies(pool: strm.Pool, queue: strm.Queue) -> None:
    msg = pool.allocb(len(BYTES))
    msg.write(0, BYTES)
    seen = msg.read(0, len(BYTES))[0]
    queue.put(msg)
    taken = queue.get()
    assert taken and len(taken.read(0, len(BYTES))) == len(BYTES) and seen == 0
    taken.freemsg()


def in_place(pool: strm.Pool, queue: strm.Queue) -> None:
    msg = pool.allocb(len(BYTES))
    msg.write(0, BYTES)
    seen = msg.bytes(0)[0]
    queue.put(msg)
    taken = queue.get()
    assert taken and len(taken.bytes(0)) == len(BYTES) and seen == 0
    taken.freemsg()


made = copies if WAY.startswith("copies") else in_place
with strm.Pool(4095, [(64, 4055), (256, 32), (4096, 8)], [strm.QueueSpec(65536, 1024, 1)]) as pool:
    begun = time.process_time_ns()
    for _ in range(ROUNDS):
        made(pool, pool.queues[0])
    print((time.process_time_ns() - begun) / ROUNDS)

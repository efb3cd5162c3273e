"""A relay by threads, as ../c/locked.c has it: two threads share a pool. The sender puts numbers on queue 1 (WAY) until that is full, and then waits for
room. The taker takes the numbers off. The pool enables queue 0 (SENDER), which never has a message, once queue 1 has drained: then the taker wakes the
sender. The condition also keeps a thread from waiting for what the other has just done; single calls need no lock."""
import threading

import strm

NUMBERS = 100_000
SENDER, WAY = range(2)
QUEUES = [strm.QueueSpec(2, 1, 1, WAY), strm.QueueSpec(128, 32, 1)]

pool = strm.Pool(mblks=64, classes=[(4, 64)], queues=QUEUES)
changed = threading.Condition()


def send(number: int) -> None:
    """Waits for room, and sends a number."""
    with changed:
        changed.wait_for(pool.queues[WAY].bcanput)
        msg = pool.allocb(4)
        msg.write(0, number.to_bytes(4, "little"))
        pool.queues[WAY].put(msg)
        changed.notify()


def send_all() -> None:
    for number in range(NUMBERS):
        send(number)


def take() -> int:
    """Waits for a number, and takes it."""
    with changed:
        changed.wait_for(pool.queues[WAY].size)
        msg = pool.queues[WAY].get()
        assert msg
        with msg:
            number = int.from_bytes(msg.read(), "little")
        enabled = iter(pool.next_service, None)
        if any([queue.number == SENDER for queue in enabled if queue]):
            changed.notify()
        return number


sender = threading.Thread(target=send_all, daemon=True)
sender.start()
assert all(take() == number for number in range(NUMBERS))
sender.join()
print(NUMBERS, "numbers came in order")
print("free {} queued {} held {}".format(*pool.census()))

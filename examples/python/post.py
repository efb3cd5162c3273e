"""Posts two messages, as ../c/post.c does. The first goes on the queue. The second is larger than the largest size class, so it is refused."""
import strm


def post(pool: strm.Pool, data: bytes) -> None:
    """Puts a message with these bytes on queue 0. If a call is refused, the message is freed."""
    with pool.allocb(len(data)) as msg:
        msg.write(0, data)
        pool.queues[0].put(msg)


def posted(pool: strm.Pool, data: bytes) -> str:
    try:
        post(pool, data)
    except strm.Refusal as why:
        return str(why)
    return "done"


with strm.Pool(mblks=40, classes=[(16, 32), (256, 8)], queues=[strm.QueueSpec(hiwat=64, lowat=16, service=1)]) as pool:
    print("4 bytes:", posted(pool, b"lion"))
    print("300 bytes:", posted(pool, bytes(300)))
    print("free {} queued {} held {}".format(*pool.census()))

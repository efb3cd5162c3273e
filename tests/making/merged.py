"""Draws scripts of several sections on few blocks, few queues and small marks, has workers serve them, and judges what comes."""
import subprocess

from making.mixed import drawn
from making.served import numbered
from strm_tools.judge import Wrong, judge
from strm_tools.model import WORDS, Model, Pool

# How many bytes a script may have, and how many seconds a run, whose status is 124 where it takes longer.
BYTES = 16_777_216
SECONDS = 120
LAST_ID = 2**32 - 1


def drawn_queue(dice, following):
    high = 1 + dice.below(16)
    return high, dice.below(high), dice.one_of("sssn"), following


def drawn_pool(dice):
    queues = 1 + dice.below(3)
    return Pool(
        mblks=1 + dice.below(40),
        classes=[(16, 1 + dice.below(20)), (64, 1 + dice.below(10))],
        queues=[drawn_queue(dice, following) for following in [*range(1, queues), "-"]],
        bufcalls=dice.below(4),
        first_id=dice.one_of([1, LAST_ID - dice.below(40)]),
    )


class LongMessage:
    """A message that each worker has in register y, so long that to ask for its last block takes some microseconds. Lines that do so make
    a section last longer than it takes to start a thread, and longer than one thread has a processor for itself. No drawn line names
    registers x and y."""

    def __init__(self, workers):
        # As many as there is room for in a pool, as a power of two.
        self.blocks = 8_192 >> (workers.bit_length() - 1)
        self.workers = workers

    def pool(self, pool):
        """A pool that has, beside what this one has, the blocks of these messages."""
        count = self.workers * self.blocks
        return pool._replace(mblks=pool.mblks + count, classes=[*pool.classes, (65, count)])

    def made(self):
        """The lines that make it: it is doubled until it is long."""
        return ["allocb y 65", *["copymsg y x", "linkb y x"] * (self.blocks.bit_length() - 1)]

    def asked(self):
        """Lines that ask for its last block. They take as long for short messages as for long ones."""
        return [f"block y {self.blocks - 1}"] * (4_096 // self.blocks)


def serve_line(model, line):
    """Has the model serve a line, which is a command, and returns it with the reply."""
    word, *rest = line.split(" ")
    items = WORDS[word].items
    return line, model.answer(word, items, [int(value) if value.isdigit() else value for value in rest])


def drawn_script(dice, workers, lines, message=None):
    """A script of so many lines in the sections of so many workers. Each is drawn as it stands in one merge of them. Workers with a long
    message ask for its last block after each line."""
    pool = drawn_pool(dice)
    model = Model(message.pool(pool) if message else pool)
    sections = [[] for _ in range(workers)]
    for section in sections:
        model.begin()
        if message:
            section += [serve_line(model, line) for line in message.made()]
    asked = [(line, "") for line in message.asked()] if message else []
    for _ in range(lines):
        worker = dice.below(workers)
        model.turn_to(worker)
        sections[worker] += [drawn(model, dice), *asked]
    return "".join(f"{line}\n" for line, _ in numbered(model.pool.header(), sections))


def slow_script(workers):
    """A script whose first and last worker take tens of milliseconds, so that others get a turn before they end, in whatever order workers
    start, and on one processor too."""
    message = LongMessage(2)
    slow = [*message.made(), *message.asked() * 2_000]
    quick = ["allocb a 1", "freemsg a"] * 10
    lines = message.pool(Pool(1, [(16, 1)], [(10, 4, "s", "-")], 0, 1)).header()
    for worker in range(workers):
        lines += ["worker", *(slow if worker in (0, workers - 1) else quick)]
    return "".join(f"{line}\n" for line in lines)


def serve(program, script, *words):
    """How the program ends on a script, which workers serve where no word says otherwise, and what it writes."""
    command = ["timeout", str(SECONDS), program, *words, "--max", str(BYTES)]
    return subprocess.run(command, input=script.encode(), capture_output=True)


def written(ran):
    """The text that a run has written. Raises `Wrong` where the program ended otherwise."""
    if ran.returncode != 0 or ran.stderr:
        raise Wrong(f"status {ran.returncode}: {ran.stderr.decode(errors='replace').rstrip()}")
    return ran.stdout.decode(errors="replace")


def order_of(script, ran):
    """The order in which workers served a script, as `judge` gives it."""
    return judge(script, written(ran))

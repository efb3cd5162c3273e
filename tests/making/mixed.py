"""Draws lines of all words, and answers them by the model."""
from making.served import print_served
from strm_tools.judge import Replay
from strm_tools.model import HIGH_PRIORITY, ORDINARY, WORDS, Model, Pool, rank

REGISTERS = "abcdefghijklmz"
# A pool for one worker or few, and a pool for sixteen.
FEW = Pool(24, [(16, 12), (64, 6)], [(12, 4, "s", 1), (8, 0, "n", 2), (9, 3, "s", "-")], 3, 1)
MANY = Pool(180, [(16, 80), (64, 70), (256, 50)], [(12, 4, "s", 2), (8, 0, "s", 3), (20, 9, "n", 4), (6, 2, "n", "-"), (9, 3, "s", "-")], 3, 8)


class Dice:
    """Numbers that look random, the same on every run with the same seed."""

    def __init__(self, seed=1):
        self.state = seed

    def below(self, bound):
        self.state = (self.state * 6364136223846793005 + 1442695040888963407) % 2**64
        return (self.state >> 33) % bound

    def one_of(self, items):
        return items[self.below(len(items))]


BAG = [word for word, row in WORDS.items() for _ in range(row.often)]


def queue_of(model, before):
    """The queue that a line names, if there is such a one."""
    return model.queues[before[0] : before[0] + 1]


def value_of(what, model, dice, before):
    """What may stand behind a word and these values. Mostly, a source holds a message and a destination doesn't, a band that is
    marked has messages or is wanted, and its marks are near the number of its bytes."""
    if what in ("from", "to"):
        fitting = [register for register in REGISTERS if (register in model.held) == (what == "from")]
        return dice.one_of(fitting if fitting and dice.below(8) > 0 else REGISTERS)
    if what == "size":
        return dice.below(70) if dice.below(3) > 0 else dice.below(280)
    if what == "block":
        return 0 if dice.below(5) > 1 else dice.below(4)
    if what == "octets":
        return bytes(dice.below(256) for _ in range(dice.below(12) if dice.below(4) > 0 else dice.below(41)))
    if what == "kind":
        return dice.one_of(dice.one_of([["M_DATA"], ["M_DATA", "M_PROTO"], ORDINARY, HIGH_PRIORITY]))
    if what == "band":
        return dice.below(3) if dice.below(6) > 0 else dice.below(256)
    if what == "marked":
        bands = [rank(message) % 256 for queue in queue_of(model, before) for message in queue.messages]
        bands += [band for queue in queue_of(model, before) for band in sorted(queue.wanted) * 3]
        return dice.one_of(bands) if bands and dice.below(4) > 0 else dice.below(256)
    if what == "high":
        count = sum(queue.bytes_in(before[1]) for queue in queue_of(model, before))
        return dice.one_of([count, count + dice.below(9), dice.below(count + 9), dice.below(24), dice.below(2**32)])
    if what == "low":
        high = before[2]
        return dice.one_of([min(dice.below(high + 2), 2**32 - 1), max(high - dice.below(6), 0)])
    if what == "count":
        return dice.one_of([-1, dice.below(10) - 3, dice.below(60) - 20, dice.below(2**32) - 2**31])
    if what == "at":
        return dice.below(12) if dice.below(4) > 0 else dice.below(100)
    if what == "place":
        return dice.below(5)
    if what == "id":
        pending = [own for own, _ in model.wishes]
        return dice.one_of(pending) if pending and dice.below(3) > 0 else dice.below(model.next_id + 3)
    if what == "flag":
        return dice.one_of(["all", "data"])
    queues = len(model.queues)
    return dice.below(queues) if dice.below(12) > 0 else queues


def written(value):
    return value.hex() or "-" if isinstance(value, bytes) else str(value)


def drawn(model, dice):
    """A line, and the reply to it, or None where it is none of a command."""
    if dice.below(20) == 0:
        return dice.one_of(["", "#", "# more"]), None
    word = dice.one_of(BAG)
    items = WORDS[word].items
    values = []
    for what in items:
        values.append(value_of(what, model, dice, values))
    return " ".join([word, *map(written, values)]), model.answer(word, items, values)


def section(model, dice, lines):
    """So many lines of another worker, with their replies."""
    model.begin()
    return [drawn(model, dice) for _ in range(lines)]


def print_mixed(pool, workers, lines):
    """Prints a script of so many sections of so many lines, and its text."""
    model = Model(pool)
    dice = Dice()
    sections = [section(model, dice, lines) for _ in range(workers)]
    print_served(pool.header(), sections, model.report())


def drawn_text(script, dice):
    """A text of a script, in an order that dice make."""
    replay, told = Replay(script), []
    while waiting := replay.waiting():
        told.append(replay.serve(dice.one_of(waiting)))
    return "".join(f"{line}\n" for line in told + replay.model.report())

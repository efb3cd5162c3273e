"""What a picture of tools/strm-view has at each frame, and what it marks, counted from the states of the plain model alone.

An item has a key, as the picture has it, its text, what is compared of it, and the key of what it is in. An item is marked if it was not
there in the frame before, or if what is compared differs; but not if that which it is in was not there."""
import copy
import re
from typing import NamedTuple

from strm_tools.judge import Replay
from strm_tools.model import HIGH_PRIORITY

# Up to so many bands of a queue have their rows always; runs with more blocks in use than this draw them narrow.
MOST_BANDS = 8
MOST_WIDE_BLOCKS = 40
# The letters of more empty registers have no spaces between them.
MOST_PARTED_LETTERS = 12
SIGNS = "◆●■▼★✚"


class Item(NamedTuple):
    """Something in the picture."""

    text: str
    compared: object
    within: str


class Seen(Replay):
    """A replay that numbers message blocks and data blocks as it first sees them, and keeps a copy of the model after each line."""

    def __init__(self, script):
        super().__init__(script)
        self.numbers = [{}, {}]
        self.states = []
        self.note()

    def note(self):
        for message in messages_in(self.model):
            for block in message:
                for numbers, thing in zip(self.numbers, (block, block.data)):
                    if not hasattr(thing, "seen"):
                        numbers[len(numbers) + 1] = thing
                        thing.seen = len(numbers)
        self.states.append(copy.deepcopy(self.model))

    def serve(self, worker):
        told = super().serve(worker)
        self.note()
        return told


def messages_in(model):
    for queue in model.queues:
        yield from queue.messages
    for registers in model.workers:
        yield from registers.values()


def busy_bands(queue):
    """The bands that have bytes or are wanted."""
    return {band for band in range(256) if queue.bytes_in(band)} | queue.wanted


class Drawing:
    """The pictures of a run."""

    def __init__(self, script, labels, text=None):
        self.labels = labels
        self.seen = Seen(script)
        self.seen.play(text)
        self.states = self.seen.states
        queues = range(len(self.states[0].queues))
        self.bands = [sorted(set().union(*(busy_bands(state.queues[q]) | set(state.queues[q].marks) for state in self.states)), reverse=True) for q in queues]
        self.wanted = self.wanted_bands()
        self.held_ever = [self.registers_held(worker) for worker in range(len(self.states[0].workers))]
        self.is_narrow = max(sum(state.counts()[1:]) for state in self.states) > MOST_WIDE_BLOCKS

    def registers_held(self, worker):
        return sorted(set().union(*(state.workers[worker] for state in self.states)))

    def bands_at(self, frame):
        """The bands of each queue that a frame shows."""
        queues = self.states[frame].queues
        return [own if len(own) <= MOST_BANDS else sorted(busy_bands(queue), reverse=True) for own, queue in zip(self.bands, queues)]

    def items(self, frame, bands):
        """The items of a frame, by key, where each queue shows these bands."""
        state = self.states[frame]
        items = dict(self.of_pool(state))
        for number, queue in enumerate(state.queues):
            items.update(of_queue(number, queue, number in state.run, bands[number]))
            for place, message in enumerate(queue.messages):
                items.update(self.of_message(f"queue {number}", f"queue {number}", place, message))
        for worker, registers in enumerate(state.workers):
            empty = [letter for letter in self.held_ever[worker] if letter not in registers]
            if self.held_ever[worker]:
                items[f"worker {worker} empty"] = word("empty registers", ("" if len(empty) > MOST_PARTED_LETTERS else " ").join(empty) or "-", f"worker {worker}")
            for letter, message in sorted(registers.items()):
                items.update(self.of_message(f"worker {worker} {letter}", f"worker {worker}", letter, message))
        return items

    def of_pool(self, state):
        for name, count in zip(("free", "queued", "held"), state.counts()):
            yield f"pool {name}", word(name, count, "pool")
        for place, (free, (_, total)) in enumerate(zip(state.data, state.pool.classes)):
            yield f"pool data {place}", word("free", f"{free} of {total}", "pool")
        run = [self.labels.queue(number) for number in state.run]
        wishes = [f"id {own} size {size}" for own, size in state.wishes]
        for key, name, listed in (("run", "run list", run), ("wishes", "wishes", wishes)):
            yield f"pool {key}", Item(name + ("".join(listed) or "-"), listed, "pool")

    def of_message(self, home, panel, label, message):
        rank = "high" if message[0].data.kind in HIGH_PRIORITY else f"band {message[0].band}"
        key = f"{home}/{message[0].seen}"
        shown = f"{label} {'▲ ' if rank == 'high' else ''}{rank}"
        yield key, Item(shown, (rank, [block.seen for block in message]), panel)
        for block in message:
            yield f"{key}/{block.seen}", Item("", None, key)
            yield from self.of_block(f"{key}/{block.seen}", block)

    def of_block(self, key, block):
        sign = SIGNS[block.data.seen % len(SIGNS)] if block.data.names > 1 else ""
        length, room = (str(block.length()), f"+{block.room()}") if self.is_narrow else (f"len {block.length()}", f"room {block.room()}")
        texts = [block.data.kind, length, room, f"d{block.data.seen}", f"×{block.data.names}{sign}"]
        compared = [block.data.kind, block.length(), block.room(), block.data.seen, block.data.names]
        for name, text, value in zip(("type", "length", "room", "data", "references"), texts, compared):
            yield f"{key} {name}", Item(text, value, key)

    def at(self, frame):
        """The items of a frame, and the keys of those that are marked, each with + if it came and ≠ if it differs."""
        bands = self.bands_at(frame)
        items = self.items(frame, bands)
        if frame == 0:
            return items, {}
        before = self.items(frame - 1, bands)
        marks = {}
        for key, item in items.items():
            if item.within not in items or item.within in before:
                if key not in before:
                    marks[key] = "+"
                elif before[key].compared != item.compared:
                    marks[key] = "≠"
        return items, marks


    # ---- What is found -----------------------------------------------------------------------------------------------------------

    def events(self, frame):
        """What happened with the line of a frame, by the states around it: bands became full, queues were enabled, or back-enabled."""
        before, after = self.states[frame - 1 : frame + 1]
        for q, (old, new) in enumerate(zip(before.queues, after.queues)):
            yield from (f"F{q}.{band}" for band in self.bands[q] if new.is_full(band) and not old.is_full(band))
        is_settled = any(old.wanted - new.wanted for old, new in zip(before.queues, after.queues))
        yield from (f"{'B' if is_settled else 'E'}{q}" for q in sorted(set(after.run) - set(before.run)))

    def wanted_bands(self):
        """Each band of a queue that is ever wanted, with 1 for each frame at which it is and 0 for each other."""
        pairs = sorted({(q, band) for state in self.states for q, queue in enumerate(state.queues) for band in queue.wanted})
        return {(q, band): [int(band in state.queues[q].wanted) for state in self.states] for q, band in pairs}

    def band_decided(self, frame, command, reply):
        """The queue and the band that a line found full or of which it cleared the first wanted mark, if any, and what it did so: the name of
        a rule and its numbers (docs/MODEL.md)."""
        before, after = self.states[frame - 1 : frame + 1]
        word, *rest = command.split(" ")
        if (word, reply) == ("bcanput", "no"):
            q, band = target_of(after.queues, int(rest[0])), int(rest[1])
            return "full", {"B": band, "Q": q, "N": after.queues[q].bytes_in(band), "H": after.queues[q].marks_of(band)[0]}
        for q, (old, new) in enumerate(zip(before.queues, after.queues)):
            for band in sorted(old.wanted - new.wanted):
                waker = waker_of(after.queues, q)
                name = "no_waker" if waker is None else "waker_runs" if waker in before.run else "drained"
                return name, {"B": band, "Q": q, "N": new.bytes_in(band), "L": new.marks_of(band)[1], "W": waker}
        return "", {}

    def names_at(self, frame, worker, command, reply):
        """The names of the tracks that a frame is on."""
        items, marks = self.at(frame)
        panels = {panel_of(key, items) for key in marks}
        names = {f"changed {panel.split(' ')[1]}" for panel in panels if panel.startswith("queue")}
        names |= {f"used {worker} {word}" for word in command.split(" ")[1:] if re.fullmatch("[a-z]", word)}
        names |= {"refused"} if re.match("refused|empty|taken", reply) else set()
        rule, numbers = self.band_decided(frame, command, reply)
        names |= {f"no {numbers['Q']}"} if rule == "full" else set()
        for event in self.events(frame):
            queue = event[1:].split(".")[0]
            names |= {f"{name} {queue}" for name in {"F": ["full"], "E": ["enabled"], "B": ["enabled", "back"]}[event[0]]}
        return names

    def tracks(self, lines):
        """The frames of each name, where lines have worker, command and reply."""
        tracks = {}
        for frame, line in enumerate(lines, 1):
            for name in self.names_at(frame, *line):
                tracks.setdefault(name, []).append(frame)
        return tracks


def word(name, value, within):
    return Item(f"{name} {value}", value, within)


def flag(name, value, within):
    return Item(name, bool(value), within)


def of_queue(number, queue, is_enabled, bands):
    key = f"queue {number}"
    flags = {"enabled": is_enabled, "read": queue.wants_to_read, "noenable": queue.enabling_is_off}
    for name, value in flags.items():
        yield f"{key} {name}", flag(name, value, key)
    yield f"{key} messages", word("messages", len(queue.messages), key)
    yield f"{key} bytes", word("bytes", sum(block.length() for message in queue.messages for block in message), key)
    for band in bands:
        high, low = queue.marks_of(band)
        for name, value in (("bytes", queue.bytes_in(band)), ("low", low), ("high", high)):
            yield f"{key} band {band} {name}", word(name, value, key)
        for name, value in (("own", band in queue.marks), ("full", queue.is_full(band)), ("wanted", band in queue.wanted)):
            yield f"{key} band {band} {name}", flag(name, value, key)


def target_of(queues, q):
    """The queue that a `bcanput` asks which names this one."""
    return q if queues[q].has_service or queues[q].next == "-" else target_of(queues, queues[q].next)


def waker_of(queues, q):
    """The queue that this one back-enables, or None."""
    behind = [k for k, queue in enumerate(queues) if queue.next == q]
    return None if not behind else behind[0] if queues[behind[0]].has_service else waker_of(queues, behind[0])


def panel_of(key, items):
    """The panel that has an item."""
    while key in items:
        key = items[key].within
    return key

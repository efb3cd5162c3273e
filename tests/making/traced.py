"""Writes traces, as strm-record(1) explains them, of a driver whose STREAMS are the plain model."""
from making.mixed import Dice, drawn
from strm_tools.model import HIGH_PRIORITY, ORDINARY, WORDS, Model

REGISTERS = "abcdefghijklmz"


class Numbers:
    """The numbers of blocks in use. One that is freed leaves its number to the next one that is taken."""

    def __init__(self, free):
        self.free = free
        self.taken = {}

    def of(self, block):
        if block not in self.taken:
            self.taken[block] = self.free.pop()
        return self.taken[block]

    def keep(self, used):
        """Lets go of all but these."""
        for block in [block for block in self.taken if block not in used]:
            self.free.append(self.taken.pop(block))


class Trace:
    """The lines so far, and what they have last said of each held block and of the bytes of each data block."""

    def __init__(self, model):
        self.model = model
        sizes = [size for size, count in model.pool.classes for _ in range(count)]
        self.lines = [f"h {line}" for line in model.pool.header()] + [f"c {number} {size}" for number, size in enumerate(sizes)]
        self.blocks = Numbers(list(range(model.pool.mblks)))
        self.data = [Numbers([number for number, size in enumerate(sizes) if size == own]) for own, _ in model.pool.classes]
        self.bytes = [bytearray(size) for size in sizes]
        self.told = {}

    def held(self):
        return list(self.model.held.values())

    def data_number(self, block):
        return self.data[block.data.place].of(block.data)

    def heads(self):
        """The number of the message in each register."""
        return {register: self.blocks.of(message[0]) for register, message in self.model.held.items()}

    def now(self):
        """What a line has of each held block behind its number."""
        told = {}
        for message in self.held():
            for block, following in zip(message, [*map(self.blocks.of, message[1:]), -1]):
                words = following, self.data_number(block), block.read, block.write, block.data.kind, block.band
                told[self.blocks.of(block)] = " ".join(map(str, words))
        return told

    def tell_bytes(self):
        """Tells the bytes up to the write place that are new, of each held block."""
        for block in (block for message in self.held() for block in message):
            number, octets = self.data_number(block), block.data.octets
            changed = [at for at in range(block.write) if self.bytes[number][at] != octets[at]]
            if changed:
                first, last = changed[0], changed[-1] + 1
                self.lines.append(f"b {number} {first} {octets[first:last].hex()}")
                self.bytes[number][first:last] = octets[first:last]
                # So that a line of the block follows.
                self.told.pop(self.blocks.of(block), None)

    def tell(self, mark):
        """Tells what has changed: by a pointer, or by a call."""
        self.tell_bytes()
        now = self.now()
        self.lines += [f"{mark} {number} {told}" for number, told in now.items() if self.told.get(number) != told]
        self.told = now

    def tell_ends(self):
        """Tells which blocks are held no longer."""
        now = self.now()
        self.lines += [f"- {number}" for number in self.told if number not in now]
        self.told = {number: told for number, told in self.told.items() if number in now}
        messages = self.held() + [message for queue in self.model.queues for message in queue.messages]
        used = {block for message in messages for block in message}
        self.blocks.keep(used)
        for numbers in self.data:
            numbers.keep({block.data for block in used})

    def call(self, line, reply, before):
        """Tells a line that the model has served, where registers held messages of these numbers before."""
        word, *words = line.split(" ")
        told = []
        for item, value in zip(WORDS[word].items, words):
            given = self.heads()[value] if item == "to" and reply == "ok" else ""
            told.append(f"<{before[value]}" if item == "from" else f">{given}" if item == "to" else value)
        self.lines.append(f"! driver {' '.join([word, *told])} | {reply}")
        self.tell_ends()
        self.tell("=")

    def drawn_call(self, dice):
        """Tells a drawn line, and returns it with its reply, or None where no trace has such a line."""
        before = self.heads()
        line, reply = drawn(self.model, dice)
        if reply in (None, "empty", "taken") or (reply == "refused 11 NoSuchQueue" and WORDS[line.split(" ")[0]].items != ["queue"]):
            return None
        self.call(line, reply, before)
        return line, reply

    def end(self):
        self.lines += [f"r {line}" for line in self.model.report()]


class Driver:
    """A driver that makes drawn calls, and between them changes messages through pointers. `rows` has the calls with their replies."""

    def __init__(self, pool, seed):
        self.model = Model(pool)
        self.model.begin()
        self.trace = Trace(self.model)
        self.dice = Dice(seed)
        self.rows = []

    def call(self):
        row = self.trace.drawn_call(self.dice)
        self.rows += [row] if row else []

    def play(self, calls, most_changes):
        """Makes calls, and up to so many changes before each."""
        for _ in range(calls):
            for _ in range(self.dice.below(most_changes + 1)):
                self.change()
            if most_changes:
                self.trace.tell("~")
                if self.dice.below(4) == 0:
                    self.call_for_rest()
            self.call()
        self.trace.end()
        return self

    def change(self):
        """Changes a message through a pointer, if one is held."""
        held = list(self.model.held)
        if not held:
            return
        act = self.dice.one_of([self.change_place, self.change_place, self.change_bytes, self.change_type, self.relink, self.cut])
        act(self.dice.one_of(held))

    def change_place(self, register):
        """Moves a read place or a write place. Bytes that come are new ones."""
        below, block = self.dice.below, self.dice.one_of(self.model.held[register])
        way = below(4)
        if way == 0:
            block.write -= below(block.length() + 1)
        elif way == 1:
            block.read += below(block.length() + 1)
        elif block.data.names == 1:
            begin, end = (block.read, block.read) if way == 2 else (block.write, block.write)
            begin, end = (begin - below(begin + 1), end) if way == 2 else (begin, end + below(block.room() + 1))
            block.data.octets[begin:end] = bytes(below(256) for _ in range(begin, end))
            block.read, block.write = min(block.read, begin), max(block.write, end)

    def change_bytes(self, register):
        block = self.dice.one_of(self.model.held[register])
        if block.data.names == 1 and block.length() > 0:
            block.data.octets[block.read + self.dice.below(block.length())] = self.dice.below(256)

    def change_type(self, register):
        """Changes a band, and the type of a data block that is not shared."""
        block = self.dice.one_of(self.model.held[register])
        block.band = self.dice.below(4)
        if block.data.names == 1:
            block.data.kind = self.dice.one_of(ORDINARY + HIGH_PRIORITY)

    def relink(self, register):
        """Puts a message into another one, or puts the blocks of one into another order."""
        other = self.dice.one_of(list(self.model.held))
        message = self.model.held[register]
        if other != register:
            at = self.dice.below(len(message) + 1)
            message[at:at] = self.model.held.pop(other)
        elif self.dice.below(2):
            message.reverse()
        else:
            at = self.dice.below(len(message))
            message[:] = message[at:] + message[:at]

    def cut(self, register):
        """Cuts a message in two. Returns the register of the second one, if there is one."""
        message = self.model.held[register]
        free = [other for other in REGISTERS if other not in self.model.held]
        if len(message) == 1 or not free:
            return None
        at = 1 + self.dice.below(len(message) - 1)
        self.model.held[register], self.model.held[free[0]] = message[:at], message[at:]
        return free[0]

    def call_for_rest(self):
        """Makes a call for the rest of a message, to which the block before it still leads."""
        register = self.dice.one_of(list(self.model.held) or [None])
        rest = register and self.cut(register)
        if not rest:
            return
        before = self.trace.heads()
        line, values = self.dice.one_of(
            [(f"freemsg {rest}", [rest]), (f"freeb {rest}", [rest]), (f"putq 0 {rest}", [0, rest]), (f"size {rest}", [rest])]
        )
        word = line.split(" ")[0]
        reply = self.model.answer(word, WORDS[word].items, values)
        if word == "size":
            self.model.held[register] += self.model.held.pop(rest)
        self.trace.call(line, reply, before)
        self.rows.append((line, reply))

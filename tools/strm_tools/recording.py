"""Makes a script of strm, and its text, of a driver's trace. strm-record(1) explains the lines of a trace.

A message that is held has a register. What was changed in message blocks through pointers since the last call is before the line of the
next call, as lines that make the same change. The reply to each of these is `ok`."""
from __future__ import annotations

from collections import Counter
from typing import Callable, Counter as Counts, NamedTuple

from strm_tools.faults import AFTER, FORMS, MOST, HeaderLine, config_faults
from strm_tools.held import Held, Memory
from strm_tools.labels import WRITTEN, form_of, queues_of
from strm_tools.made_script import Script
from strm_tools.model import Pool
from strm_tools.plain import Plain
from strm_tools.script import Wrong, script_of
from strm_tools.shown import CARRIAGE_RETURN
from strm_tools.trace import LINES, Bad, Beyond, Call, Told, block_number, call_in, capacity, header_line, new_bytes, quoted, told_block

COMMAND = "a command with registers"
CALL = "a call of messages"
# Calls after which a message that they take is held no longer, and calls that return blocks that were not held before.
TAKE_ALL = ("putq", "putbq", "insq", "freemsg")
RETURN_NEW = ("allocb", "dupb", "dupmsg", "copyb", "copymsg", "getq", "rmvq")


class Pending(NamedTuple):
    """A call whose outcome the lines after it tell."""

    line: int
    call: Call
    # The blocks of the messages that it takes, and the first block of the one that it returns, by register.
    taken: dict[str, list[int]]
    returned: dict[str, int]
    # The blocks that are perhaps held no longer, and those that lines have told as changed or new.
    may_end: set[int]
    told: set[int]


def may_end(call: Call, taken: dict[str, list[int]]) -> set[int]:
    """The blocks that are perhaps held no longer after a call."""
    numbers = [number for numbers in taken.values() for number in numbers] if call.reply == "ok" else []
    if call.word in TAKE_ALL:
        return set(numbers)
    return set(numbers[:1] if call.word == "freeb" else numbers[1:] if call.word == "pullupmsg" else [])


def require_ends(pending: Pending, held: list[int]) -> None:
    """Raises `Bad` where a call took a block that is still held, of these."""
    for number in held if pending.call.word in (*TAKE_ALL, "freeb") else []:
        if number in pending.may_end:
            raise Bad(f"this call takes block {number}, and no line '- {number}' follows")


def require_returns(call: Call, number: str, taken: dict[str, list[int]], memory: Memory) -> None:
    """Raises `Bad` unless a call can return the message of this number, or none where that is '', by its reply, by the messages that it
    takes and by what is held."""
    if (call.reply == "ok") != (number != ""):
        raise Bad(f"{call.word} returns {'message ' + number if number else 'no message'}, and its reply is {quoted(call.reply)}")
    if number and call.word in RETURN_NEW and int(number) in memory.blocks:
        raise Bad(f"{call.word} returns message {number}, and block {number} is held already")
    if number and call.word not in RETURN_NEW and not any(int(number) in blocks for blocks in taken.values()):
        raise Bad(f"{call.word} returns message {number}, and takes no message with block {number}")


class Recording:
    """A trace as far as it is read, and the script that it makes."""

    # The pool, once the header is whole.
    pool: Pool

    def __init__(self, is_checked: bool) -> None:
        self.made = Script()
        self.is_checked = is_checked
        # The number of the line.
        self.at = 0
        # Whether the header is whole; until then the last line of it, how many there are of each, and all of them, by number in the trace.
        self.is_open = False
        self.before = "nothing"
        self.counts: Counts[str] = Counter()
        self.header: list[HeaderLine] = []
        # Who made the call, and who makes all calls where a label says so.
        self.who = ""
        self.label: str | None = None
        self.held = Held(self.do, self.shares)
        self.memory = self.held.memory
        self.pending: Pending | None = None
        # The line of each block that has changed since the last call, and of new bytes that no line of a block followed.
        self.changed: dict[int, int] = {}
        self.written: dict[int, int] = {}
        # The lines of the first command with registers, and of the first call of messages.
        self.first_of: dict[str, int] = {}
        self.takes: dict[str, Callable[[str], None]] = {
            "h": self.take_header,
            "#": self.take_comment,
            "c": self.take_capacity,
            "b": self.take_bytes,
            "~": self.take_change,
            "!": self.take_call,
            "=": self.take_outcome,
            "-": self.take_end,
            ".": self.take_command,
            "r": self.take_report,
        }

    def take(self, line: str) -> None:
        """Takes a line of the trace."""
        self.at += 1
        if not line:
            return
        mark, _, rest = ("#", "", line) if line.startswith("#") else line.partition(" ")
        if mark not in LINES:
            is_script = mark in FORMS and not self.is_open
            raise Bad(f"a line begins with one of {' '.join(LINES)}, here {quoted(line)}{'; this is a script already' * is_script}")
        if mark not in "h#" and not self.is_open:
            raise Bad(f"expected {self.next_of_header()} first, here {quoted(line)}")
        if self.made.report and mark != "r":
            raise Bad(f"expected {self.next_of_report()}, here {quoted(line)}")
        self.takes[mark](rest)

    # The header, labels and comments

    def next_of_header(self) -> str:
        return " or ".join(f"'h {word} ..'" for word in AFTER[self.before])

    def take_header(self, line: str) -> None:
        if self.is_open:
            raise Bad("the header ends with 'h bufcalls ..', and this line comes after it")
        first = header_line(line)
        if first not in AFTER[self.before]:
            raise Bad(f"expected {self.next_of_header()}, here {quoted(line)}")
        if self.counts[first] == MOST.get(first):
            raise Bad(f"a header has at most {MOST[first]} lines {first}")
        self.counts[first] += 1
        self.header.append((self.at, first, line.split(" ")[1:]))
        self.before = first
        self.made.add_row(line)
        if first == "bufcalls":
            self.open_pool()

    def open_pool(self) -> None:
        self.pool, _ = script_of(self.made.script())
        self.is_open = True
        fault = next(iter(config_faults(self.header)), None)
        if fault:
            raise Bad(f"{fault.reported()}: {fault.why}", fault.number)
        if self.is_checked:
            self.made.plain = Plain(self.pool)

    def take_comment(self, line: str) -> None:
        """A comment, or a label."""
        labelled = form_of(line)
        if line.startswith("#:") and not labelled:
            raise Bad(f"expected {' or '.join(map(repr, WRITTEN.values()))}, here {quoted(line)}")
        if labelled and not self.is_open:
            raise Bad("a label comes after the header")
        if labelled and labelled[0] == "caller":
            self.end_step()
            self.label = labelled[1]["label"]
            return
        for queue in queues_of(labelled[1]) if labelled else []:
            if queue >= len(self.pool.queues):
                raise Bad(f"there is no queue {queue}")
        self.made.add_row(line)

    # Calls and their outcomes

    def take_capacity(self, text: str) -> None:
        data, size = capacity(text)
        if data in self.memory.sizes:
            raise Bad(f"data block {data} has a line 'c' already")
        if size not in [size for size, _ in self.pool.classes]:
            raise Bad(f"no class has data blocks of {size} bytes")
        self.memory.sizes[data] = size

    def take_bytes(self, text: str) -> None:
        data, place, octets = new_bytes(text)
        size = self.memory.size_of(data)
        if place + len(octets) > size:
            raise Bad(f"data block {data} has {size} bytes, and here {len(octets)} from {place} on")
        self.memory.bytes_of(data)[place : place + len(octets)] = octets
        self.written[data] = self.at

    def take_block(self, told: Told) -> int:
        self.memory.take(told)
        self.written.pop(told.block.data, None)
        return told.number

    def take_change(self, text: str) -> None:
        told = told_block("~", text)
        self.end_call()
        self.memory.require_held(told.number)
        self.changed[self.take_block(told)] = self.at

    def take_outcome(self, text: str) -> None:
        """What a call left, which the script's line of it does too."""
        told = told_block("=", text)
        if not self.pending:
            raise Bad("a line '=' follows a call; what a pointer changed has a line '~'")
        number = self.take_block(told)
        self.held.take(number)
        self.pending.told.add(number)

    def take_end(self, text: str) -> None:
        number = block_number(text)
        self.memory.require_held(number)
        if not self.pending or number not in self.pending.may_end:
            raise Bad(f"block {number} is still held: the call before this line does not take it")
        self.memory.end(number)
        self.pending.told.discard(number)
        del self.held.blocks[number]

    def take_command(self, text: str) -> None:
        """A command as it is."""
        call = call_in(".", text)
        self.end_step()
        if set(call.items) & {"from", "to"}:
            self.require_one_kind(COMMAND)
        self.who = call.who
        self.add(" ".join([call.word, *call.words]), call.reply)

    def require_one_kind(self, kind: str) -> None:
        """Raises `Bad` where some commands have registers of their own, and some messages get registers here."""
        self.first_of.setdefault(kind, self.at)
        if len(self.first_of) > 1:
            other = CALL if kind == COMMAND else COMMAND
            raise Bad(f"this is {kind}, and line {self.first_of[other]} is {other}: a trace has only one of both")

    def take_call(self, text: str) -> None:
        call = call_in("!", text)
        self.end_call()
        self.who = call.who
        self.agree()
        messages = {item: word[1:] for item, word in zip(call.items, call.words) if item == "to"}
        taken = self.taken_by(call)
        new = self.returned_by(call, messages.get("to"), taken)
        registers = iter([*taken, *new])
        words = [next(registers) if item in ("from", "to") else word for item, word in zip(call.items, call.words)]
        self.add(" ".join([call.word, *words]), call.reply)
        returned = {register: int(number) for register, number in new.items() if number}
        self.pending = Pending(self.at, call, taken, returned, may_end(call, taken), set())

    def taken_by(self, call: Call) -> dict[str, list[int]]:
        """The blocks of each message that a call takes, by its register."""
        numbers = [int(word[1:]) for item, word in zip(call.items, call.words) if item == "from"]
        if set(call.items) & {"from", "to"}:
            self.require_one_kind(CALL)
        for number in numbers:
            self.memory.require_held(number)
        if len(set(numbers)) < len(numbers):
            raise Bad(f"{call.word} takes message {numbers[0]} twice")
        registers = []
        for number in numbers:
            register, before = self.held.begin_at(number)
            registers.append(register)
            # In memory this block still leads to the message, unless the call changes that.
            if before is not None:
                self.changed[before] = self.at
        return {register: self.held.messages[register] for register in registers}

    def returned_by(self, call: Call, number: str | None, taken: dict[str, list[int]]) -> dict[str, str]:
        """The number of the message that a call returns, or '', by its register, where the call may return one."""
        if number is None:
            return {}
        require_returns(call, number, taken, self.memory)
        return {self.held.free_register(): number}

    # The report, and the end

    def report_words(self) -> tuple[list[str], int]:
        """The first word of each line of the report, without those of bands, and how many of them there are."""
        words = ["blocks", *["data"] * len(self.pool.classes), *["queue"] * len(self.pool.queues), "run", "wishes"]
        return words, sum(not line.startswith("band ") for line in self.made.report)

    def next_of_report(self) -> str:
        words, at = self.report_words()
        return f"'r {words[at]} ..'" if at < len(words) else "no line after the report"

    def take_report(self, line: str) -> None:
        self.end_step()
        words, at = self.report_words()
        is_band = line.startswith("band ") and words[: at + 1][-2:-1] == ["queue"]
        if not is_band and line.split(" ")[0] not in words[at : at + 1]:
            raise Bad(f"expected {self.next_of_report()}, here {quoted('r ' + line)}")
        if self.made.plain:
            wanted = dict(enumerate(self.made.plain.model.report())).get(len(self.made.report))
            if wanted != line:
                raise Bad(f"strm reports {quoted(str(wanted))}, and here it is {quoted(line)}")
        self.made.report.append(line)

    def end(self) -> None:
        """The trace ends."""
        self.at += 1
        if not self.is_open:
            raise Bad(f"the trace ends: expected {self.next_of_header()}")
        if not self.made.report or not self.made.report[-1].startswith("wishes"):
            raise Bad(f"the trace ends: expected {self.next_of_report()}")
        self.made.begin_section()

    # Lines of the script

    def add(self, line: str, reply: str) -> None:
        """Adds the line of a call."""
        self.made.add(line, reply, self.who, self.label or self.who)
        wanted = self.made.plain.reply(line) if self.made.plain else reply
        if wanted != reply:
            raise Bad(f"strm replies {quoted(wanted)} to {quoted(line)}, and here the reply is {quoted(reply)}")

    def do(self, line: str) -> None:
        """Adds a line for what was done through a pointer."""
        self.made.add(line, "ok", "pointers", self.label or self.who)
        wanted = self.made.plain.reply(line) if self.made.plain else "ok"
        if wanted != "ok":
            raise Beyond(f"the change through a pointer needs {quoted(line)}, and strm replies {quoted(wanted)}")

    def shares(self, register: str) -> bool:
        """Whether a message of one block shares its data block, as the plain model has it."""
        return self.made.plain is not None and not self.made.plain.reply(f"block {register} 0").endswith(" names=1")

    # Between two calls

    def end_step(self) -> None:
        """The outcome of the last call is whole, and the script does what was done through pointers since."""
        self.end_call()
        self.agree()

    def agree(self) -> None:
        """Has the script do what was done through pointers."""
        for data, line in self.written.items():
            raise Bad(f"bytes of data block {data} change, and no line of a block that refers to it follows", line)
        changed = {number: line for number, line in self.changed.items() if number in self.memory.blocks}
        self.changed.clear()
        if changed:
            try:
                self.held.agree(changed)
            except Bad as why:
                why.line = why.line or max(changed.values())
                raise

    def end_call(self) -> None:
        """The outcome of the last call is whole: registers hold the messages that it left."""
        pending, self.pending = self.pending, None
        if pending:
            try:
                self.settle(pending)
            except Bad as why:
                why.line = pending.line
                raise

    def settle(self, pending: Pending) -> None:
        for number in pending.returned.values():
            if number not in self.memory.blocks:
                raise Bad(f"this call returns message {number}, and no line '= {number} ..' follows")
        self.memory.end_at(pending.told)
        heads = self.heads_after(pending)
        messages = {register: self.memory.chain(head) for register, head in heads.items()}
        self.require_whole(pending, messages)
        for register in {*pending.taken, *messages}:
            self.held.set(register, [])
        for register, numbers in messages.items():
            self.held.set(register, numbers)
        if self.made.plain:
            self.made.plain.require_messages(messages, self.held)

    def heads_after(self, pending: Pending) -> dict[str, int]:
        """The first block of each message that a call can have changed, by its register."""
        heads = dict(pending.returned)
        returned = {number for head in heads.values() for number in self.memory.chain(head)}
        taken = list(pending.taken.items())
        for register, numbers in taken[:1] if pending.call.word == "linkb" else taken:
            require_ends(pending, [number for number in numbers if number in self.memory.blocks])
            left = [number for number in numbers if number in self.memory.blocks and number not in returned]
            if left:
                heads[register] = left[0]
        for number in pending.told:
            own = self.held.register_of.get(number)
            if own and own not in {*heads, *pending.taken}:
                heads[own] = self.held.messages[own][0]
        return heads

    def require_whole(self, pending: Pending, messages: dict[str, list[int]]) -> None:
        """Raises `Bad` unless each block that a call can have changed is in one message."""
        placed: set[int] = set()
        for register, numbers in messages.items():
            for number in numbers:
                own = self.held.register_of.get(number, register)
                if number in placed or own not in {*messages, *pending.taken}:
                    raise Bad(f"after this call block {number} is in two messages")
                placed.add(number)
        taken = [number for numbers in pending.taken.values() for number in numbers if number in self.memory.blocks]
        for number in [*taken, *sorted(pending.told)]:
            if number not in placed and number in self.held.register_of:
                raise Bad(f"after this call block {number} is in no message")
            if number not in placed:
                raise Bad(f"block {number} appears from nowhere: it is in no message that this call returns")


class Cut(Wrong):
    """A trace of which a script can have only these lines, and why."""

    def __init__(self, message: str, why: Beyond, kept: list[str]) -> None:
        super().__init__(message, "trace")
        self.why = why
        self.kept = kept


def recorded(lines: list[str], is_checked: bool = False) -> Script:
    """The script that the lines of a trace make. Where it is checked, each reply, outcome and line of the report is that of the plain
    model. Raises `Wrong` with the number of a line that is wrong, and `Cut` where that is all that is wrong."""
    recording = Recording(is_checked)
    try:
        for line in lines:
            recording.take(line)
        recording.end()
    except Bad as why:
        number = why.line or recording.at
        more = f"; {CARRIAGE_RETURN}" if "".join(lines[number - 1 : number]).endswith("\r") else ""
        message = f"line {number}: {why}{more}"
        raise (Cut(message, why, before_step(lines, number)) if isinstance(why, Beyond) else Wrong(message, "trace")) from None
    return recording.made


def before_step(lines: list[str], number: int) -> list[str]:
    """The lines of a trace before the call in this line, or the change through pointers, and before other such changes just before it."""
    at = number - 1
    while lines[at - 1][:1] in {"~", "b", "c", "#"}:
        at -= 1
    return lines[:at]


def completed(lines: list[str]) -> list[str]:
    """The lines of a trace, with the report of the plain model if the trace ends before the report."""
    if any(line.startswith("r ") for line in lines):
        return lines
    recording = Recording(is_checked=True)
    try:
        for line in lines:
            recording.take(line)
    except Bad:
        return lines
    return [*lines, *(f"r {line}" for line in recording.made.plain.model.report())] if recording.made.plain else lines

"""Reads pages of tools/strm-view again: the rows of the list, the pool at each frame, the bytes of blocks, and tracks. Makes scripts for pages: of
sixteen queues, and of two hundred message blocks in use."""
import html
import json
import re
from itertools import accumulate
from typing import NamedTuple

ELEMENT = re.compile(r'<script (?:class="(\w+)" )?(?:id="(\w+)" )?(?:data-name="([^"]*)" )?type="[\w/]+">(.*?)</script>', re.DOTALL)
LINE = re.compile(r"(\d+):(\d+) ([^\t]*)(?:\t([^\t]*))?(?:\t([^\t]*))?(?:\t(.*))?")
DATA, RUN, WISHES, FIRST_QUEUE = range(4)
BYTES = -1


class Line(NamedTuple):
    """A row of an executed line."""

    worker: int
    number: int
    command: str
    reply: str
    events: list
    # The name of the rule that decided, and its numbers by name; or no name.
    rule: str
    numbers: dict


class Page:
    """A page: its rows, and what its program reads."""

    def __init__(self, text):
        elements = ELEMENT.findall(text)
        self.run = json.loads(next(content for _, name, _, content in elements if name == "run"))
        self.row_chunks = [content.split("\n") if content else [] for kind, *_, content in elements if kind == "rows"]
        self.states = [json.loads(content) for kind, *_, content in elements if kind == "states"]
        self.tracks = {name: json.loads(content) for kind, _, name, content in elements if kind == "track"}
        self.rows = [row for chunk in self.row_chunks for row in chunk]
        self.lines = [line_of(row) for row in self.rows if row[0] not in "#=>@"]

    def comments(self):
        """The rows that are of no executed line, as in the script; a queue has its number after a tab."""
        return [html.unescape(row.lstrip("=")) for row in self.rows if row[0] in "#="]

    def callers(self):
        """The label of the caller that the rows before each line say."""
        label = ""
        for row in self.rows:
            if row[0] == "@":
                label = self.run["callerNames"][int(row[1:])] if row[1:] else ""
            elif row[0] not in "#=>":
                yield label

    def frames(self):
        """The parts of the pool as it opens, and after each line. They are the same objects, which change."""
        parts = {int(part): items for part, items in self.states[0][0].items()}
        yield parts
        for opening, lines in self.states:
            if parts_that_count(parts) != parts_that_count({int(part): items for part, items in opening.items()}):
                raise ValueError(f"a chunk begins with {opening}, and the one before ends with {parts}")
            for changes in lines:
                for part, place, gone, *items in (change for change in changes if change[0] != BYTES):
                    parts.setdefault(part, [])[place : place + gone] = items
                yield parts

    def changes(self):
        """The changes of each line, by its frame."""
        return dict(enumerate((changes for _, lines in self.states for changes in lines), 1))

    def frames_of(self, name):
        """The frames of a track."""
        return list(accumulate(self.tracks.get(name, [])))

    def values_of(self, name):
        """The value of a track's number at each frame."""
        first, *steps = self.tracks[name]
        changes = dict(zip(accumulate(steps[::2]), steps[1::2]))
        return list(accumulate([first, *(changes.get(frame, 0) for frame in range(1, len(self.lines) + 1))]))

    # ---- Parts -----------------------------------------------------------------------------------------------------------------

    def flags(self, parts, number):
        return parts[FIRST_QUEUE + 2 * number]

    def messages(self, parts, number):
        return parts[FIRST_QUEUE + 2 * number + 1]

    def registers(self, parts, worker):
        """The messages of a worker's registers, by letter."""
        first = FIRST_QUEUE + 2 * len(self.run["queues"]) + 26 * worker
        return {chr(ord("a") + at): parts[first + at] for at in range(26) if parts.get(first + at)}


def line_of(row):
    worker, number, command, reply, events, rule = LINE.fullmatch(row).groups()
    name, *numbers = (rule or "").split(" ")
    return Line(int(worker), int(number), command, reply or "ok", (events or "").split(), name, dict(pair.split("=") for pair in numbers))


def parts_that_count(parts):
    return {part: items for part, items in parts.items() if items}


def octets_of(page, number, begin, end):
    """The bytes of a number from one place to another."""
    if number == 0 or begin == end:
        return bytes(end - begin)
    made = next((change[1:] for change in page.changes()[number] if change[0] == BYTES), [0, 0])
    if made and isinstance(made[0], list):
        return b"".join(octets_of(page, *piece) for piece in made)[begin:end]
    before, at = made
    own = bytes.fromhex(page.lines[number - 1].command.split(" ")[3].replace("-", ""))
    return (octets_of(page, before, 0, at) + own)[begin:end]


# ---- The report ------------------------------------------------------------------------------------------------------------------


def length(message):
    return sum(block[5] - block[4] for block in message)


def census_of(page, parts):
    queued = sum(len(message) for number in range(len(page.run["queues"])) for message in page.messages(parts, number))
    held = sum(len(message) for worker in range(page.run["workers"]) for message in page.registers(parts, worker).values())
    return page.run["mblks"] - queued - held, queued, held


def bands_of(page, parts, number):
    """The lines of the report on the bands of a queue."""
    *_, wanted, own = page.flags(parts, number)
    marks = {band: (high, low) for band, high, low in own}
    counts = {}
    for message in page.messages(parts, number):
        band = 0 if message[0][3] >= page.run["ordinary"] else message[0][6]
        counts[band] = counts.get(band, 0) + length(message)
    for band, count in sorted(counts.items(), reverse=True):
        high, _ = marks.get(band, page.run["queues"][number][:2])
        if count > 0:
            yield f"band {band} bytes={count} full={int(count >= high)} wanted={int(band in wanted)}"


def report_of(page, parts):
    """The report that strm would print."""
    lines = ["blocks free={} queued={} held={} total={}".format(*census_of(page, parts), page.run["mblks"])]
    for (size, total), free in zip(page.run["classes"], parts[DATA]):
        lines.append(f"data size={size} free={free} total={total}")
    for number in range(len(page.run["queues"])):
        messages = page.messages(parts, number)
        read, noenable, *_ = page.flags(parts, number)
        lines.append(
            f"queue {number} msgs={len(messages)} bytes={sum(map(length, messages))} read={read} noenable={noenable}"
            f" enabled={int(number in parts[RUN])}"
        )
        lines += bands_of(page, parts, number)
    lines.append(f"run {' '.join(map(str, parts[RUN])) or '-'}")
    lines.append(f"wishes {' '.join(f'{own}:{size}' for own, size in parts[WISHES]) or '-'}")
    return lines


def sixteen_queues():
    """Four chains of four queues, with messages of some bands and of high priority, some shared, some of several blocks."""
    lines = ["pool 1 96", "class 16 48", "class 64 24", "class 256 8"]
    for queue in range(16):
        following = "-" if queue % 4 == 3 else queue + 1
        lines.append(f"queue {10 + queue} {4 + queue % 3} {'n' if queue % 4 == 1 else 's'} {following}")
    lines += ["bufcalls 4 1", "worker"]
    for queue in range(16):
        for k in range(1 + queue % 3):
            lines += [f"allocb a {8 + 9 * k}", f"write a 0 {'0a' * (4 + 3 * k + queue % 4)}", f"setband a {k * queue % 4}"]
            lines += ["settype a 0 M_PCPROTO"] if queue % 5 == 0 and k == 0 else []
            lines += ["allocb b 200", "write b 0 0b0c", "linkb a b"] if queue % 7 == 3 and k == 0 else []
            lines += ["dupmsg a c", f"putq {queue} a", "freemsg c" if queue % 4 else f"putq {queue + 1} c"]
        lines += [f"bcanput {queue} 0", f"strqset {queue} {queue % 4} 9 2" if queue % 3 == 1 else f"bcanput {queue} 2"]
    lines += ["noenable 4", "census", "worker"]
    for queue in range(0, 16, 3):
        lines += [f"getq {queue} {'abcdef'[queue // 3]}", "service"]
    return lines + ["bufcall 300", "bufcall 256", "bufcall 16", "adjmsg a 2", "copymsg a m", "census"]


def labelled_queues():
    """The same as two streams of four modules, each with a queue that writes and one that reads."""
    lines = sixteen_queues()
    labels = []
    for stream, first in (("A", 0), ("B", 8)):
        for place, name in enumerate(("head", "ldterm", "ppp_async", "serial_driver")):
            down, up = first + place, first + 7 - place
            labels += [f"#: module {name}_{stream} {down} {up}", f"#: queue {down} {name} write, stream {stream}", f"#: queue {up} {name} read, stream {stream}"]
    callers = ["#: caller head of stream A", "#: caller a caller with quite a long name, of 40"]
    marked = [line for at, own in enumerate(lines) for line in ([callers[at // 40 % 2], own] if at > 30 and at % 40 == 0 else [own])]
    place = marked.index("worker")
    return marked[:place] + labels + marked[place:]


def two_hundred_blocks():
    """48 messages of two blocks and their duplicates, on two queues, and eight messages in registers."""
    lines = ["pool 1 220", "class 16 120", "class 64 60", "queue 400 100 s 1", "queue 200 50 s -", "bufcalls 2 1", "worker"]
    for k in range(48):
        lines += ["allocb a 5", f"write a 0 {'01' * (1 + k % 7)}", "allocb b 40", f"write b 0 {'02' * (k % 40) or '-'}", "linkb a b"]
        lines += [f"setband a {k % 3}", "dupmsg a c", "putq 0 a", "putq 1 c", "bcanput 1 0"]
    lines += [line for register in "abcdefgh" for line in (f"allocb {register} 9", f"write {register} 0 0708")]
    return lines + ["census", "getq 1 z", "freemsg z", "flushband 0 1 all", "census"]

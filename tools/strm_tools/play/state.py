"""The state of a pool as rows of words, and as text in which each word that a line changed has a star before it.

A row has a key. Its words are compared one by one with those that had the same key before."""
from __future__ import annotations

from itertools import zip_longest
from typing import TYPE_CHECKING, Any, Collection, Container, Dict, Iterable, Iterator, NamedTuple, Tuple

from strm_tools.model import Message, Next, Pool, rank

if TYPE_CHECKING:
    from strm_tools.play.face import Piece
    from strm_tools.play.session import Play

BAR = 12
# The most bytes of a block that are drawn.
BYTES = 8
# The most messages that are drawn at the front of a queue, and those at its back if there are more.
FRONT, BACK = 12, 3
# What a row of each kind is of.
OF = {"band": "queue", "message": "queue", "register": "worker"}


class Row(NamedTuple):
    """A line of the state."""

    label: str
    words: list[str]
    # The bar of a band.
    tail: str = ""
    # The message of the row. It is kept, so that no later message has the same identity.
    message: object = None


Key = Tuple[Any, ...]
Rows = Dict[Key, Row]


def shown(octets: bytes) -> str:
    """The first bytes of a block."""
    return (octets[:BYTES].hex() or "-") + (".." if len(octets) > BYTES else "")


def words_of(play: Play, message: Message) -> list[str]:
    """The words of a message: its band or its priority, and as many for each block."""
    words = ["high" if rank(message) == 256 else f"band={message[0].band}"]
    for block in message:
        shared = f" x{block.data.names}" if block.data.names > 1 else ""
        words += ["+", block.data.kind, f"len={block.length()}", f"room={block.room()}"]
        words += [f"d{play.numbers[block.data]}{shared}", shown(block.octets())]
    del words[1]
    return words


def bar(count: int, high: int, low: int) -> str:
    """The bytes of a band as a bar up to its high water mark, in which `|` is the low one."""
    filled = min(BAR, -(-count * BAR // high))
    cells = "#" * filled + "." * (BAR - filled)
    place = low * BAR // high
    return f"[{cells[:place]}|{cells[place:]}]"


def along_lines(pool: Pool) -> Iterator[int]:
    """The queues along their lines: each queue that no other leads to, and those after it."""
    led_to = {following for *_, following in pool.queues}
    for first in range(len(pool.queues)):
        number: Next = "-" if first in led_to else first
        while number != "-":
            yield number
            number = pool.queues[number][3]


def rows_of_queue(play: Play, number: int, label: str, bands_before: Collection[int]) -> Iterator[tuple[Key, Row]]:
    """The rows of a queue, its bands and its messages, front to back."""
    queue = play.model.queues[number]
    counts = queue.bytes_of_bands()
    words = [] if queue.next == "-" else [f"-> {queue.next}"]
    words += ["service" if queue.has_service else "no service"]
    words += [f"msgs={len(queue.messages)}", f"bytes={sum(counts.values())}", f"read={int(queue.wants_to_read)}"]
    words += [f"noenable={int(queue.enabling_is_off)}", f"enabled={int(number in play.model.run)}"]
    yield ("queue", number), Row(label, words)
    with_bytes = [band for band, count in counts.items() if count > 0]
    for band in sorted({*with_bytes, *queue.wanted, *queue.marks, *bands_before}, reverse=True):
        count, (high, low) = counts[band], queue.marks_of(band)
        words = [f"bytes={count}", f"high={high}", f"low={low}"]
        words += [f"full={int(count >= high)}", f"wanted={int(band in queue.wanted)}"]
        yield ("band", number, band), Row(f"  band {band}", words, bar(count, high, low))
    for place, message in enumerate(queue.messages):
        yield ("message", number, id(message)), Row(f"  {place}", words_of(play, message), message=message)


def rows_of_worker(play: Play, worker: int, names_before: Collection[str]) -> Iterator[tuple[Key, Row]]:
    """The rows of a worker, and of its registers that hold a message or held one before."""
    held = play.model.workers[worker]
    section = play.sections[worker]
    waiting = [f"waiting={section.waiting()}"] if len(play.sections) > 1 or section.waiting() else []
    yield ("worker", worker), Row(f"worker {worker}", [f"held={len(held)}", *waiting])
    for name in sorted({*held, *names_before}):
        yield ("register", worker, name), Row(f"  {name}", words_of(play, held[name]) if name in held else ["empty"])


def rows_of(play: Play, before: Rows | None = None) -> Rows:
    """The state as rows by key, with a row too for each band and register that has one in the state before."""
    model = play.model
    labels = play.labels()
    kept: dict[Key, list[Any]] = {}
    for kind, *place, last in filter(lambda key: key[0] in ("band", "register"), before or {}):
        kept.setdefault((kind, *place), []).append(last)
    free, queued, held = model.counts()
    rows: Rows = {("blocks",): Row("blocks", [f"free={free}", f"queued={queued}", f"held={held}", f"total={model.pool.mblks}"])}
    for (size, count), left in zip(model.pool.classes, model.data):
        rows["data", size] = Row(f"data {size}", [f"free={left}", f"total={count}"])
    rows[("run",)] = Row("run list", [" ".join(map(str, model.run)) or "-"])
    rows[("wishes",)] = Row("wishes", [" ".join(f"{own}:{size}" for own, size in model.wishes) or "-"])
    for number in along_lines(model.pool):
        label = f"queue {number}" + (f" ({labels[number]})" if number in labels else "")
        rows.update(rows_of_queue(play, number, label, kept.get(("band", number), [])))
    for worker in range(len(play.sections)):
        rows.update(rows_of_worker(play, worker, kept.get(("register", worker), [])))
    return rows


def messages_left_out(rows: Rows) -> list[list[Key]]:
    """The keys of the messages in the middle of each long queue, which are not drawn."""
    queues: dict[int, list[Key]] = {}
    for key in rows:
        if key[0] == "message":
            queues.setdefault(key[1], []).append(key)
    return [keys[FRONT:-BACK] for keys in queues.values() if len(keys) > FRONT + BACK + 1]


def lines_of_row(label: str, pieces: Iterable[Piece], width: int) -> Iterator[list[Piece]]:
    """A row in as many lines as a window of this width needs. Pieces are texts with their colour."""
    indent = min(12, width // 4)
    line, length = [(f"{label[:width - 1]:<{indent}}", "")], max(indent, len(label[: width - 1]))
    for text, colour in pieces:
        if length + 1 + len(text) > width and length > indent:
            yield line
            line, length = [(" " * indent, "")], indent
        line += [(" ", ""), (text, colour)]
        length += 1 + len(text)
    yield line


def pieces_of(row: Row, old: Row | None) -> Iterator[Piece]:
    """The words of a row as texts with their colour. A changed word has a star before it."""
    for word, other in zip_longest(row.words, (old or row).words):
        is_changed = word != other
        colour = {"full=1": "red", "wanted=1": "yellow"}.get(word, "bold" if is_changed else "")
        for at, part in enumerate((word or "").split(" ") if word else []):
            yield ("*" if is_changed and at == 0 else "") + part, colour
    if row.tail:
        yield row.tail, ""


def changed(play: Play, before: Rows) -> set[Key]:
    """The keys of the rows that differ from the state before, and of the queue or worker that each is of."""
    now = rows_of(play, before)
    keys = {key for key, row in now.items() if key not in before or row.words != before[key].words}
    return keys | {(OF[key[0]], key[1]) for key in keys if key[0] in OF}


def drawn(play: Play, before: Rows, width: int, keys: Container[Key] | None = None) -> Iterator[list[Piece]]:
    """The lines of the state for a window of this width, or only of the rows with these keys, each as texts with their colour."""
    rows = rows_of(play, before)
    if keys is not None:
        rows = {key: row for key, row in rows.items() if key in keys}
    hidden = messages_left_out(rows)
    first = {keys[0]: len(keys) for keys in hidden}
    skipped = {key for keys in hidden for key in keys}
    for key, row in rows.items():
        if key in first:
            yield [(f"   .. {first[key]} more messages", "")]
        if key not in skipped:
            old = before.get(key)
            star = "*" if old is None or len(old.words) != len(row.words) else " "
            yield from lines_of_row(star + row.label, pieces_of(row, old), width)

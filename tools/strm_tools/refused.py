"""Which commands of a right script strm refuses whenever it executes them: in any order of the workers, and whatever memory is left."""
from __future__ import annotations

from typing import Callable, Container, Iterable, Iterator, Mapping, NamedTuple, Optional, Sequence, Tuple

from strm_tools.faults import FORMS, Header, HeaderLine
from strm_tools.model import WORDS
from strm_tools.rules import RULES

# After one of these its message is in no register, since strm refuses it only if there is no such queue or message.
TAKE_ALL = ("putq", "putbq", "freemsg")


class Most(NamedTuple):
    """What a header allows its commands: numbers of queues, message blocks, bytes of a data block, and wishes."""

    queues: int
    mblks: int
    size: int
    wishes: int


def most_of(lines: list[HeaderLine]) -> Most:
    """What the lines of a header without faults allow (`Reading.header`)."""
    header = Header(lines)
    (_, (_, mblks)), (_, (wishes, _)) = header.of("pool")[0], header.of("bufcalls")[0]
    return Most(header.queue_count(), mblks, max(size for _, (size, _) in header.of("class")), wishes)


# Why a command is refused: what strm replies then, unless it refuses it for another reason, and a sentence as it follows a colon.
Why = Tuple[str, str]


def by_rule(name: str, **numbers: object) -> Why:
    """What a rule decides, and its sentence."""
    sentence = RULES[name].sentence.format(**numbers).rstrip(".")
    return RULES[name].decides, sentence[0].lower() + sentence[1:]


Items = Mapping[str, str]
Check = Callable[[Items, Most], Optional[Why]]


# ---- Why the words of a command refuse it, each by its item (strm_tools.model), or None ------------------------------


def no_block(items: Items, most: Most) -> Why | None:
    why = "NoSuchBlock", f"no message has a block {items['block']}: the pool has {most.mblks} message blocks"
    return why if int(items["block"]) >= most.mblks else None


def no_place(items: Items, most: Most) -> Why | None:
    why = "NoSuchPlace", f"no queue has a place {items['place']}: the pool has {most.mblks} message blocks"
    return why if int(items["place"]) >= most.mblks else None


def too_large(items: Items, most: Most) -> Why | None:
    size = int(items["size"]) if "size" in items else len(items["octets"]) // 2
    return by_rule("too_large", S=size, M=most.size) if size > most.size else None


def no_wishes(items: Items, most: Most) -> Why | None:
    return by_rule("wishes", N=0) if most.wishes == 0 else None


def bad_count(items: Items, most: Most) -> Why | None:
    count = int(items["count"])
    return by_rule("below", N=count) if count < -1 else too_large({"size": str(count)}, most)


def bad_marks(items: Items, most: Most) -> Why | None:
    return by_rule("marks", L=items["low"], H=items["high"]) if int(items["low"]) >= int(items["high"]) else None


CHECKS: dict[str, list[Check]] = {
    **dict.fromkeys(["settype", "rmvb", "block"], [no_block]),
    **dict.fromkeys(["insq", "rmvq"], [no_place]),
    "allocb": [too_large],
    "bufcall": [too_large, no_wishes],
    "write": [no_block, too_large],
    "pullupmsg": [bad_count],
    "strqset": [bad_marks],
}


def by_registers(items: Items, sources: Sequence[str], holding: Container[str]) -> Why | None:
    """Why the registers of a command refuse it, or None. Only those that `holding` has can hold a message."""
    empty = [source for source in sources if source not in holding]
    if empty:
        return by_rule("empty", R=empty[0])
    if len(set(sources)) < len(sources):
        return by_rule("twice", R=sources[0])
    return ("taken", f"register {items['to']} holds the message that the command uses") if items.get("to") in sources else None


def refusals(lines: Iterable[str], header: list[HeaderLine]) -> Iterator[tuple[int, str, str]]:
    """The number of each command that is refused in any case, and why. The lines have their ends."""
    most = most_of(header)
    holding: set[str] = set()
    for number, line in enumerate(lines, 1):
        word, *rest = line[:-1].split(" ")
        if word == "worker":
            holding = set()
        if word not in WORDS:
            continue
        items = dict(zip(FORMS[word], rest))
        if "queue" in items and int(items["queue"]) >= most.queues:
            yield (number, *by_rule("no_queue", Q=items["queue"], N=most.queues))
            continue
        sources = [value for item, value in zip(FORMS[word], rest) if item == "from"] if "from" in items else []
        why = by_registers(items, sources, holding) or next(filter(None, (check(items, most) for check in CHECKS.get(word, ()))), None)
        if why:
            yield (number, *why)
        elif word in TAKE_ALL:
            holding.discard(sources[0])
        elif "to" in items:
            holding.add(items["to"])

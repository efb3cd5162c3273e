"""Why a line is refused, and why it enables a queue or not, in one sentence with the numbers of the pool.

docs/MODEL.md has a table of the same sentences. A name in braces is a number there, such as Q, the queue."""
from __future__ import annotations

import copy
import string
from typing import Any, Callable, Collection, Mapping, NamedTuple

from strm_tools.model import WORDS, Model, Queue, Refused, Values, rank


class Rule(NamedTuple):
    """What a rule decides, its sentence, and the section of docs/MODEL.md that it belongs to."""

    decides: str
    sentence: str
    section: str


DATA, MESSAGES, QUEUES, FLOW, ENABLING, POOL, STEPS = (
    "Data blocks",
    "Messages",
    "Queues",
    "Flow control",
    "Enabling",
    "A pool",
    "Registers and steps",
)
RULES = {
    "no_queue": Rule("NoSuchQueue", "There is no queue {Q}: the pool has {N}, numbered from 0.", STEPS),
    "empty": Rule("empty", "Register {R} holds no message.", STEPS),
    "twice": Rule("empty", "`linkb` needs two registers, not {R} twice.", STEPS),
    "taken": Rule("taken", "Register {R} already holds a message.", STEPS),
    "too_large": Rule("TooLarge", "The call needs {S} bytes, and the largest size class has {M}.", DATA),
    "no_blocks": Rule("NoMblk", "The call needs more message blocks, {N}, than are free, {F}.", MESSAGES),
    "no_data": Rule("NoData", "No data block of size {S} or more is left.", DATA),
    "references": Rule("RefMax", "A data block would get {N} references, above {M}.", DATA),
    "no_block": Rule("NoSuchBlock", "The message has no block {K}: it has {N}, numbered from 0.", MESSAGES),
    "shared": Rule("Shared", "Block {K} shares its data block, which has {N} references.", MESSAGES),
    "no_room": Rule("NoRoom", "The room of block {K} is {F}, and the call needs {N}.", MESSAGES),
    "short": Rule("Short", "The {END} blocks of one type have too few bytes, {F}, for {N}.", MESSAGES),
    "below": Rule("Short", "`pullupmsg` needs -1 or a number of bytes, not {N}.", MESSAGES),
    "no_place": Rule("NoSuchPlace", "Queue {Q} has no place {K}: the number of its messages is {N}.", QUEUES),
    "order": Rule("BadOrder", "Ranks would rise at place {K}, from {A} to {B}.", QUEUES),
    "marks": Rule("BadMarks", "The low water mark, {L}, is not below the high one, {H}.", QUEUES),
    "wishes": Rule("Full", "The pool records no more wishes than {N} at a time.", POOL),
    "ids": Rule("IdsSpent", "The last id, {M}, is given.", POOL),
    "no_wish": Rule("NotPending", "No recorded wish has the id {I}.", POOL),
    "full": Rule("no", "Band {B} of queue {Q}, the target, is full: its bytes, {N}, reach its high water mark, {H}.", FLOW),
    "nothing": Rule("none", "Queue {Q} is empty, so `getq` sets its want-to-read mark.", ENABLING),
    "idle": Rule("none", "The run list is empty: no queue is enabled.", ENABLING),
    "no_service": Rule("not enabled", "Queue {Q} has no service procedure, so nothing enables it.", ENABLING),
    "already": Rule("not enabled", "Queue {Q} is on the run list already.", ENABLING),
    "high": Rule("enabled", "`putq` and `putbq` of a high priority message enable queue {Q} in any case.", ENABLING),
    "off": Rule("not enabled", "Enabling of queue {Q} by messages is off.", ENABLING),
    "reads": Rule("enabled", "The want-to-read mark of queue {Q} is set, so the message enables it.", ENABLING),
    "band": Rule("enabled", "`putq` of a message in band {B}, above 0, enables queue {Q}.", ENABLING),
    "reads_not": Rule("not enabled", "The last `getq` of queue {Q} found a message and cleared the want-to-read mark.", ENABLING),
    "by_call": Rule("enabled", "`qenable` enables queue {Q}, even if enabling is off.", ENABLING),
    "switches": Rule("not enabled", "`noenable` and `enableok` enable no queue themselves.", ENABLING),
    "drained": Rule(
        "enabled",
        "Band {B} of queue {Q} was wanted and its bytes, {N}, are at most its low water mark, {L}, so its waker, queue {W}, is enabled.",
        FLOW,
    ),
    "no_waker": Rule("not enabled", "Band {B} of queue {Q} is wanted no longer; no queue before it has a service procedure.", FLOW),
    "waker_runs": Rule("not enabled", "Band {B} is wanted no longer; the waker, queue {W}, is on the run list already.", FLOW),
    "stays": Rule("not enabled", "Band {B} of queue {Q} stays wanted: its bytes, {N}, are above its low water mark, {L}.", FLOW),
    "not_wanted": Rule("not enabled", "No band of queue {Q} is wanted.", FLOW),
}
# Which names in sentences are those of queues.
QUEUES_OF_RULE = ("Q", "W")
# What a rule decides, if it is no reply.
EFFECTS = ("enabled", "not enabled")
PUTS = ("putq", "putbq", "insq")
SETTLES = [word for word, row in WORDS.items() if row.settles]
SWITCHES = ("noenable", "enableok")
# The rules of a band that is wanted no longer, where this enables no queue.
WAKE_NONE = ("no_waker", "waker_runs")


class Found(NamedTuple):
    """A rule by its name, and the numbers of the pool where it decided."""

    name: str
    numbers: dict[str, Any]

    @property
    def rule(self) -> Rule:
        return RULES[self.name]

    def text(self, labels: Mapping[int, str] = {}) -> str:
        """The rule's sentence. A queue that has a label in `labels` has it after its number."""
        named = {name: labelled(number, labels) for name, number in self.numbers.items() if name in QUEUES_OF_RULE}
        return self.rule.sentence.format_map({**self.numbers, **named})


def labelled(number: int, labels: Mapping[int, str]) -> str:
    """The number of a queue, and after it the label that it has in `labels`."""
    return f"{number} ({labels[number]})" if number in labels else str(number)


def found(name: str, **numbers: int | str) -> Found:
    return Found(name, numbers)


def denies(reply: str) -> bool:
    """Whether a reply is a refusal, or `no`. Each such line has a rule."""
    return reply.partition(" ")[0] in ("refused", "empty", "taken", "no")


def explains(word: str, reply: str) -> bool:
    """Whether a rule explains the reply to a line, or what the line enables."""
    name = reply.partition(" ")[0]
    return denies(reply) or (word, name) == ("service", "none") or word in (*PUTS, *SETTLES, *SWITCHES, "qenable")


def why(model: Model, word: str, items: list[str], values: Values) -> Found:
    """The rule that decides a line that `explains` names, and that the model has not answered yet."""
    after = copy.deepcopy(model)
    reply = after.answer(word, items, values)
    if reply.startswith("refused ") or reply in ("empty", "taken", "no", "none"):
        return why_not(model, word, items, values, reply)
    if word in PUTS:
        return why_put(model, word, values[0], values[-1])
    if word in SETTLES:
        return why_settled(after, values[0], model.queues[values[0]].wanted, model.run)
    return found("switches") if word in SWITCHES else can_enable(model, values[0]) or found("by_call", Q=values[0])


def why_not(model: Model, word: str, items: list[str], values: Values, reply: str) -> Found:
    """Why a line is refused, or has the reply `no` or `none`. Whether the model has answered it already makes no difference."""
    name = reply.split(" ")[-1]
    if name in STEP_RULES:
        return STEP_RULES[name](model, items, values)
    if name == "none":
        return found("idle") if word == "service" else found("nothing", Q=values[0])
    return why_no(model, word, *values) if name == "no" else why_refused(model, word, *values)


# ---- What is checked of every call -----------------------------------------------------------------------------------


def why_empty(model: Model, items: list[str], values: Values) -> Found:
    sources = [value for item, value in zip(items, values) if item == "from"]
    missing = [source for source in sources if source not in model.held]
    return found("empty", R=missing[0]) if missing else found("twice", R=sources[0])


STEP_RULES: dict[str, Callable[[Model, list[str], Values], Found]] = {
    "NoSuchQueue": lambda model, items, values: found("no_queue", N=len(model.queues), Q=values[items.index("queue")]),
    "empty": why_empty,
    "taken": lambda model, items, values: found("taken", R=values[items.index("to")]),
}


# ---- A call's own refusals, and the replies `no`, and `none` -------------------------------------------------------


def why_refused(model: Model, word: str, *values: Any) -> Found:
    """The rule of a call's own refusal, of those with its name the one whose sentence has the numbers. The call is refused once more."""
    try:
        getattr(model, word)(*values)
    except Refused as refusal:
        name = str(refusal).split(" ")[-1]
        for rule in RULES:
            if RULES[rule].decides == name and fields_of(RULES[rule].sentence) == set(refusal.numbers):
                return Found(rule, refusal.numbers)
    raise ValueError(f"{word} has no rule for its refusal, or is not refused")


def fields_of(sentence: str) -> set[str]:
    return {field for _, field, *_ in string.Formatter().parse(sentence) if field}


def target(model: Model, number: int) -> int:
    queue = model.queues[number]
    return number if queue.has_service or queue.next == "-" else target(model, queue.next)


def why_no(model: Model, word: str, *values: Any) -> Found:
    if word == "testb":
        return why_refused(model, "allocb", "", *values)
    number, band = values
    number = target(model, number)
    queue = model.queues[number]
    return found("full", B=band, Q=number, N=queue.bytes_in(band), H=queue.marks_of(band)[0])


# ---- Enabling --------------------------------------------------------------------------------------------------------


def can_enable(model: Model, number: int) -> Found | None:
    """Why no call enables a queue now, or None."""
    if not model.queues[number].has_service:
        return found("no_service", Q=number)
    return found("already", Q=number) if number in model.run else None


def why_put(model: Model, word: str, number: int, source: str) -> Found:
    """Why a message that is put enables its queue, or does not."""
    return can_enable(model, number) or by_message(model.queues[number], word, number, rank(model.held[source]))


def by_message(queue: Queue, word: str, number: int, own: int) -> Found:
    """Why a message of this rank enables its queue, which a call can enable now, or does not."""
    if own == 256 and word != "insq":
        return found("high", Q=number)
    if queue.enabling_is_off:
        return found("off", Q=number)
    if queue.wants_to_read:
        return found("reads", Q=number)
    return found("band", B=own, Q=number) if own > 0 and word == "putq" else found("reads_not", Q=number)


def waker_of(model: Model, number: int) -> int | None:
    """The nearest queue behind that has a service procedure, or None."""
    behind = [k for k, queue in enumerate(model.queues) if queue.next == number]
    return None if not behind else behind[0] if model.queues[behind[0]].has_service else waker_of(model, behind[0])


def why_settled(model: Model, number: int, wanted: Collection[int], run: list[int]) -> Found:
    """Why a call that has settled a queue enabled the queue's waker, or did not. Before the call these bands of the queue were wanted, and
    this was the run list."""
    if not wanted:
        return found("not_wanted", Q=number)
    queue = model.queues[number]
    cleared = [band for band in wanted if band not in queue.wanted]
    band = min(cleared or wanted)
    waker = waker_of(model, number)
    numbers = {"B": band, "Q": number, "N": queue.bytes_in(band), "L": queue.marks_of(band)[1], "W": waker}
    if not cleared:
        return Found("stays", numbers)
    if waker is None:
        return Found("no_waker", numbers)
    return Found("waker_runs" if waker in run else "drained", numbers)


class Before(NamedTuple):
    """What decides whether a line enables a queue, before the model answers the line: the run list, the wanted bands of the line's queue,
    and the rank of the message that the line puts."""

    run: list[int]
    wanted: set[int]
    own: int


def before_line(model: Model, word: str, values: Values) -> Before:
    """What decides whether a line, which the model has not answered yet, enables a queue."""
    wanted = model.queues[values[0]].wanted if word in SETTLES and values[0] < len(model.queues) else ()
    message = model.held.get(values[-1]) if word in PUTS else None
    return Before(list(model.run), set(wanted), rank(message) if message else 0)


def enabled(model: Model, word: str, values: Values, before: Before, labels: Mapping[int, str] = {}) -> str:
    """Which queue a line enabled, and why, or why none was although a band is wanted no longer, or nothing. The model has answered the line
    since `before`."""
    number = values[0] if values else None
    why_now = why_settled(model, number, before.wanted, before.run) if word in SETTLES and before.wanted else None
    if len(model.run) <= len(before.run):
        return why_now.text(labels) if why_now and why_now.name in WAKE_NONE else ""
    if not why_now:
        why_now = by_message(model.queues[number], word, number, before.own) if word in PUTS else found("by_call", Q=number)
    verb = "back-enables" if word in SETTLES else "enables"
    return f"{verb} queue {labelled(model.run[-1], labels)}: {why_now.text(labels)}"

"""The session's own commands, what is wrong with a line, and a header that is typed line by line."""
from __future__ import annotations

import difflib
from collections import Counter

from strm_tools.faults import FITS, FORMS, MOST, HeaderLine, LineFault, config_faults, fault_in, line_kind
from strm_tools.hints import FOR_HIGH_PRIORITY, TYPES, first_hint
from strm_tools.play.session import is_command
from strm_tools.script import Wrong
from strm_tools.streams import hint_for
from strm_tools.words import MEANINGS, WORDS, counted, misplaced, whole_form, wrong_count

# The session's own commands: what comes after each, what it does, and the items for completion.
OWN = {
    "help": ("[WORD]", "Lists all commands, or says what one does.", "word"),
    "header": ("", "Shows the lines that describe the pool.", ""),
    "new": ("[FILE]", "Opens the pool of a script, or one that you type.", "file"),
    "load": ("FILE", "Opens a script, whose lines wait for next, until or run.", "file"),
    "state": ("[on|off]", "Shows the state; on: after every line, off: on request.", "switch"),
    "report": ("", "Prints the report of the pool, as strm does.", ""),
    "list": ("[N]", "Lists the executed lines, or the last N, with replies.", ""),
    "why": ("[LINE]", "Explains the last line that was refused, replied no or none, took a queue off the run list, or enabled one or could have; or line LINE.", ""),
    "undo": ("[N]", "Takes back the last line, or the last N.", ""),
    "redo": ("[N]", "Does again what undo took back.", ""),
    "save": ("[-f] FILE [TEXT]", "Writes the script, and the text of several workers.", "file file"),
    "turn": ("W", "The lines that you enter are worker W's.", "worker"),
    "hold": ("[off]", "The lines that you enter wait for next or run.", "off"),
    "rewind": ("", "All lines wait again, and the pool is as it was opened.", ""),
    "next": ("[W]", "Executes a waiting line: of worker W, or a drawn one.", "worker"),
    "until": ("LINE", "Executes the waiting lines of a worker up to line LINE of the script.", ""),
    "run": ("[SEED]", "Executes all waiting lines, in an order that is drawn.", ""),
    "workers": ("", "Lists the lines of each worker, also those that wait.", ""),
    "quit": ("", "Ends the session, as Ctrl-D does.", ""),
}
# What people type for commands of the session.
MEANT = {"exit": "quit", "q": "quit", "?": "help", "show": "state", "open": "load", "step": "next", "goto": "until", "break": "until", "continue": "run"}
# What refuses each command with such an item, before its own refusals.
REPLIES_OF_ITEMS = {"queue": "NoSuchQueue", "from": "empty", "to": "taken"}
# What the words of the state mean that are no commands, and those that are.
TERMS = {
    "band": "Messages have a band, 0 to 255: those of a greater band go first. Each band of a queue has its own bytes and water marks.",
    "rank": "What orders a queue: high priority first, and then bands from 255 down to 0.",
    "full": "full=1: the bytes of the band have reached its high water mark, so bcanput replies no.",
    "wanted": "wanted=1: bcanput found the band full, so a sender waits. Once the bytes are down to the low water mark, the nearest queue before it with a service procedure is enabled.",
    "enabled": "enabled=1: the queue is on the run list, from which service takes it.",
    "room": "room: the bytes that a block can still take, after its write place.",
    "register": "A letter, a to z, for a message that a worker holds.",
    "read": "In the state, read=1: the last getq found nothing, so the next message enables the queue.",
    "noenable": "In the state, noenable=1: messages do not enable the queue, except those of high priority.",
}


def other_replies(word: str) -> list[str]:
    """What a command may reply beside what the sentence on it names."""
    of_items = [reply for item, reply in REPLIES_OF_ITEMS.items() if item in FORMS[word]]
    return of_items + (["ok"] if "Reply:" not in WORDS[word].does else [])


def is_on_types(word: str) -> bool:
    """Whether help on this word is on types: one of them, or a word for all or for those of high priority."""
    return word.upper() in (*TYPES, "TYPE", "TYPES") or FOR_HIGH_PRIORITY.fullmatch(word) is not None


def number_of(word: str, least: int = 0) -> int:
    """The number that a word is, or `Wrong`."""
    if not (word.isascii() and word.isdigit() and least <= int(word) < 10**9):
        raise Wrong(f"{word} is no number from {least} to 999999999")
    return int(word)


def hint_of(fault: str, first: str, rest: list[str]) -> str:
    """The first note of strm-check on a fault of a line, after a semicolon, or nothing."""
    line = " ".join([first, *rest])
    return first_hint(LineFault(1, fault, line, "command", 0), f"{line}\n")


def explained(fault: str, first: str, rest: list[str]) -> str:
    """A fault of a line, with what was expected."""
    if fault == "unknown":
        known = None if first in MEANT else hint_for(first, WORDS)
        if known:
            return f"unknown: {known}"
        if first not in WORDS and first.lower() in WORDS:
            return f"unknown: there is no command {first}{hint_of(fault, first, rest)}"
        near = [MEANT[first]] if first in MEANT else difflib.get_close_matches(first, [*WORDS, *OWN], 1)
        return f"unknown: there is no command {first}" + (f"; is {near[0]} meant?" if near else "; help lists all")
    if fault == "toomany":
        return f"toomany: a script has at most {counted(MOST[line_kind(first)], 'such line')}"
    if fault == "shape":
        return f"shape: {wrong_count(whole_form(first), len(rest) + 1)}{hint_of(fault, first, rest)}"
    names = WORDS[first].form.split()
    for name, item, word in zip(names, FORMS[first], rest):
        if not FITS[item][0](word):
            return f"{fault}: {name} is {MEANINGS[item]}; here it is {word}{hint_of(fault, first, rest)}"
    return fault


def wrong_form(word: str) -> Wrong:
    """That a command of the session has other words after it than its form has."""
    form = OWN[word][0]
    return Wrong(f"shape: the form is {word} {form}" if form else f"shape: {word} takes no words")


class HeaderFault(Wrong):
    """A fault of a header that is typed. `advice` is what the session says of it at a terminal; without one, the session ends."""

    def __init__(self, why: str, advice: str = "") -> None:
        super().__init__(why)
        self.advice = advice


class TypedHeader:
    """The lines of a header that is typed, which a line `worker` ends."""

    def __init__(self) -> None:
        self.lines: list[str] = []

    def header_with(self, text: str) -> list[HeaderLine]:
        """The lines of the header with another one. As long as this is not the last, queues may follow to which others lead already."""
        lines = [(number, line.split(" ")) for number, line in enumerate([*self.lines, text], 1) if is_command(line)]
        header: list[HeaderLine] = [(number, words[0], words[1:]) for number, words in lines]
        return header if text.startswith(("bufcalls", "worker")) else header + [(0, "queue", None)] * MOST["queue"]

    def take(self, text: str) -> list[str] | None:
        """Takes a line. Returns the header if it is whole, and otherwise nothing. Raises `HeaderFault` for a fault."""
        kinds = [line_kind(line.split(" ")[0]) for line in filter(is_command, self.lines)]
        before = kinds[-1] if kinds else "nothing"
        word, *rest = text.split(" ")
        fault = is_command(text) and fault_in(word, rest, before, Counter(kinds))
        if fault == "order":
            raise HeaderFault(f"order: {misplaced(word, before)}", "; undo takes back the line before")
        if fault:
            raise HeaderFault(explained(fault, word, rest))
        for of_pool in config_faults(self.header_with(text)):
            is_above = of_pool.number <= len(self.lines)
            raise HeaderFault(of_pool.told() if is_above else f"{of_pool.reported()}: {of_pool.why}", "; undo takes back the line before")
        if word == "worker":
            return self.lines
        self.lines += [text] if text else []
        return None

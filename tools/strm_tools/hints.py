"""Hints: what may have caused a fault of a script. Each says what is so, and applies only to the fault at hand."""
from __future__ import annotations

import functools
import itertools
import os
import re
import shlex
import shutil
import sys
import unicodedata
from typing import Callable, Iterator, NamedTuple

from strm_tools.faults import AFTER, BYTE_ORDER_MARK, FITS, FORMS, MOST, STAGE, ConfigFault, LineFault, bare_of, first_fault, has_form, line_kind, misfit
from strm_tools.model import HIGH_PRIORITY, ORDINARY
from strm_tools.script import Wrong
from strm_tools.shown import CARRIAGE_RETURN, octets, shown
from strm_tools.streams import ADVICE_ON_TYPES, FLUSHES, NO_TYPE, hint_for

# How a file in UTF-16 begins.
UTF_16 = ("\xff\xfe", "\xfe\xff")
TYPES = (*ORDINARY, *HIGH_PRIORITY)
# Words for high priority, where a type is expected.
FOR_HIGH_PRIORITY = re.compile("(?:STRM_|M_|RS_)*(?:(?:HIGH|HI|HP|H)?_?(?:PRI|PRIO|PRIORITY)|HIGH|HI|URGENT|EXPEDITED|QPCTL)", re.IGNORECASE)
# How the files begin that people take for a script.
OTHER_FILES = {
    "h pool ": "a trace begins so; strm-record makes a script of it",
    r"(0|[1-9][0-9]?):[1-9][0-9]* ": "a text that strm printed begins so; it comes after its script",
}
# Longer words are none that somebody mistyped.
LONGEST_WORD = 16


def beside(tool: str) -> str:
    """The name of a tool if the shell finds it, or else its path, if it is in the folder from which this tool was called."""
    path = os.path.join(os.path.dirname(sys.argv[0]), tool)
    return tool if shutil.which(tool) or not os.path.isfile(path) else shlex.quote(path)


def as_word(path: str) -> str:
    """A path as the shell takes it for a file of a tool beside, or `-` for standard input."""
    return shlex.quote(f"./{path}" if path.startswith("-") and path != "-" else path)


class Faulty(NamedTuple):
    """A line with a fault, as hints see it."""

    number: int
    kind: str
    line: str
    before: str
    # The words of the line, and the place of the wrong one from 0, or -1 if it is not one word.
    words: list[str]
    place: int
    script: bytes

    def word(self) -> str:
        """The wrong word, or nothing."""
        return self.words[self.place] if 0 <= self.place < len(self.words) else ""

    def item(self) -> str:
        """What the wrong word, which is not the first, should be."""
        return FORMS[self.words[0]][self.place - 1]

    def text(self) -> str:
        """Where the cause of the fault is: the wrong word, or the whole line if the number of words or its end is wrong."""
        return self.line if self.kind in ("shape", "cut") else self.word()

    def has_empty(self) -> bool:
        """Whether an empty word may be the cause."""
        return "" in self.words if self.kind == "shape" else not self.word()


def place_of(fault: LineFault, words: list[str]) -> int:
    """The place of the wrong word of a line, from 0, or -1."""
    if fault.kind in ("shape", "cut", "missing"):
        return -1
    return 0 if fault.kind in ("unknown", "order", "toomany") else misfit(words[0], words[1:]) or -1


def fits(line: str, before: str) -> bool:
    """Whether a line has no fault after such a line."""
    first = line.split(" ")[0]
    return first in FORMS and line_kind(first) in AFTER[before] and bool(has_form(first)(line))


def encoding(faulty: Faulty) -> Iterator[str]:
    if faulty.number == 1 and faulty.line.startswith(BYTE_ORDER_MARK):
        yield "a byte order mark begins the file; save the file without it"
    elif faulty.number == 1 and faulty.line.startswith(UTF_16):
        yield "the file is UTF-16; save it as UTF-8 without a byte order mark"
    elif "\0" in faulty.text():
        yield "the line has bytes 00, as a binary file has, or one in UTF-16"


def carriage_return(faulty: Faulty) -> Iterator[str]:
    is_last = faulty.place == len(faulty.words) - 1
    if faulty.line.endswith("\r") and (is_last or faulty.words[-1] == "\r"):
        yield CARRIAGE_RETURN


def tabs(faulty: Faulty) -> Iterator[str]:
    if "\t" in faulty.text():
        yield "a tab is part of a word; put one space between words"


def is_word_before_comment(faulty: Faulty) -> bool:
    """Whether the wrong word would be right without a # in it and what follows."""
    word, mark, _ = faulty.word().partition("#")
    if not mark:
        return False
    return word in FORMS if faulty.place == 0 else bool(FITS[faulty.item()][0](word))


def comment(faulty: Faulty) -> Iterator[str]:
    first = faulty.words[0]
    bare = faulty.line.lstrip(" \t")
    if faulty.kind == "unknown" and bare.startswith("#"):
        yield "a comment has # at the very beginning of its line"
    elif faulty.kind == "unknown" and first.startswith(("//", "/*", "--", ";", "%")):
        yield "a comment begins with #"
    elif is_word_before_comment(faulty) or " #" in f" {faulty.text()}":
        yield "a comment is a line of its own; here # and what follows are words"


def spaces(faulty: Faulty) -> Iterator[str]:
    line = faulty.line
    if not faulty.has_empty():
        return
    if not line.strip(" "):
        yield "the line has only spaces; remove them"
    elif line[0] == " " and not line.lstrip().startswith("#"):
        yield "a line begins with its first word, without spaces before it"
    elif line[0] != " ":
        text = line.rstrip(" ")
        inner = re.search("  +", text)
        if inner:
            yield f"{len(inner[0])} spaces are before {shown(text[inner.end() :].split(' ')[0])}; put one"
        count = len(line) - len(text)
        if count:
            yield "a space ends the line; remove it" if count == 1 else f"{count} spaces end the line; remove them"


def not_ascii(faulty: Faulty) -> Iterator[str]:
    found = re.search("[\x80-\xff]+", faulty.text())
    if not found or faulty.number == 1 and faulty.line.startswith((BYTE_ORDER_MARK, *UTF_16)):
        return
    char = octets(found[0][:4]).decode("utf-8", "surrogateescape")[0]
    if "\udc80" <= char <= "\udcff":
        yield f"byte {ord(found[0][0]):02x} is not ASCII"
    else:
        yield f"U+{ord(char):04X}, {unicodedata.name(char, 'without a name')}, is not ASCII"


def punctuation(faulty: Faulty) -> Iterator[str]:
    if not re.search("[(),;]", faulty.line):
        return
    bare = " ".join(re.findall(r"[^\s(),;]+", faulty.line))
    if fits(bare, faulty.before):
        yield f"without ( ) , ; it has the right form: {bare}"
    elif faulty.kind == "unknown" and faulty.word().split("(")[0] in FORMS and "(" in faulty.word():
        yield "words follow each other after single spaces, without ( ) , ;"


def another_order(faulty: Faulty) -> Iterator[str]:
    if faulty.kind == "number" and faulty.word().isdigit():
        return
    first, *rest = faulty.words
    orders = (f"{first} {' '.join(order)}" for order in itertools.permutations(rest))
    right = next((line for line in orders if has_form(first)(line)), None)
    if right:
        yield f"in another order the words have the right form: {right}"


def distance(one: str, other: str) -> int:
    """How many letters are to be replaced, inserted, removed, or swapped with the next, to make one word of the other."""
    rows = [list(range(len(other) + 1))]
    for i, letter in enumerate(one, 1):
        row = [i]
        for j, another in enumerate(other, 1):
            costs = [rows[-1][j] + 1, row[-1] + 1, rows[-1][j - 1] + (letter != another)]
            if i > 1 and j > 1 and letter == other[j - 2] and one[i - 2] == another:
                costs.append(rows[-2][j - 2] + 1)
            row.append(min(costs))
        rows.append(row)
    return rows[-1][-1]


@functools.lru_cache(maxsize=4096)
def nearest(word: str, known: tuple[str, ...]) -> list[str]:
    """Those of the known words that are nearest to a word and near enough to be meant."""
    if not 2 <= len(word) <= LONGEST_WORD:
        return []
    near = [(distance(word, other), other) for other in known if abs(len(word) - len(other)) <= 2]
    least = min(near, default=(LONGEST_WORD, ""))[0]
    return [other for count, other in near if count == least] if least <= (1 if len(word) < 5 else 2) else []


def begun(word: str, known: tuple[str, ...]) -> list[str]:
    """Those of the known words that begin with a word."""
    return [other for other in known if len(word) > 2 and other.startswith(word)]


def nearest_hint(word: str, known: tuple[str, ...]) -> Iterator[str]:
    near = list(dict.fromkeys([*nearest(word, known), *begun(word, known)]))
    if near:
        yield f"the nearest {'word is' if len(near) == 1 else 'words are'} {', '.join(near)}"


def first_word(faulty: Faulty) -> Iterator[str]:
    """What a first word may mean that is none."""
    word = bare_of(faulty.word())
    known = hint_for(word, FORMS)
    other = next((hint for begin, hint in OTHER_FILES.items() if faulty.before == "nothing" and re.match(begin, faulty.line)), None)
    if other:
        yield other
    elif word.lower() in FORMS:
        if word not in FORMS:
            yield f"words are in small letters: write {word.lower()}"
    elif known:
        yield known
    else:
        here = tuple(first for first in FORMS if line_kind(first) in AFTER[faulty.before])
        near = list(nearest_hint(word, here)) or list(nearest_hint(word, tuple(FORMS)))
        is_plain = re.fullmatch(f"[A-Za-z_][A-Za-z0-9_]{{0,{LONGEST_WORD}}}", faulty.word())
        yield from near or ([f"{beside('strm-check')} --words lists all words"] if is_plain else [])


def line_of_first(script: bytes, kind: str) -> int:
    """The number of the first line of a script with this first word, or 0."""
    found = re.search(rb"^" + kind.encode() + rb"(?=[ \n])", script, re.MULTILINE)
    return script.count(b"\n", 0, found.start()) + 1 if found else 0


def order(faulty: Faulty) -> Iterator[str]:
    """Which line of the header is missing, or where it is."""
    first = faulty.words[0]
    kind, before = line_kind(first), faulty.before
    here = functools.partial(line_of_first, faulty.script)
    if first == "bufcall" and before == "queue":
        yield "the line of the header is bufcalls WISHES ID"
    elif first == "bufcalls" and STAGE[before] == STAGE["worker"]:
        yield "the command is bufcall SIZE"
    elif STAGE[kind] > STAGE[before]:
        for skipped in AFTER:
            if STAGE[before] < STAGE[skipped] < STAGE[kind] or skipped == "worker" and kind == "command":
                line = here(skipped)
                yield f"a {skipped} line belongs before it: " + (f"the first is line {line}" if line else "there is none")
    elif STAGE[before] == STAGE["worker"]:
        yield f"the header ends before the first worker line, line {here('worker')}"
    elif kind in MOST:
        follower = AFTER[kind][-1]
        yield f"{kind} lines belong before the first {follower} line, line {here(follower)}"
    elif here(kind) < faulty.number:
        yield f"a script has one {kind} line, here line {here(kind)}"
    else:
        yield f"the {kind} line belongs before the first {AFTER[kind][-1]} line"


def number(faulty: Faulty) -> Iterator[str]:
    word, item = faulty.word(), faulty.item()
    found = re.fullmatch("([-+]?)([0-9]+)", word)
    if found:
        sign, digits = found.groups()
        value = digits.lstrip("0") or "0"
        signed = item == "count" and sign == "-"
        if sign == "+":
            yield "a number has no +"
        elif sign == "-" and (value == "0" or not signed):
            yield "0 has no sign" if value == "0" else "a negative number can't be here"
        if digits != value:
            yield "a number has no leading zeros" + ("" if len(value) > 10 else f": write {sign if signed and value != '0' else ''}{value}")
    elif re.fullmatch("0[xX][0-9a-fA-F]{1,8}", word):
        yield f"a number is decimal: write {int(word, 16)}"
    elif re.fullmatch("[0-9]{1,3}([,._'][0-9]{3}){1,3}", word):
        yield f"a number has no separators: write {re.sub('[^0-9]', '', word)}"


def register(faulty: Faulty) -> Iterator[str]:
    word = faulty.word()
    if re.fullmatch("[A-Z]", word):
        yield f"a register is a small letter: write {word.lower()}"
    elif re.fullmatch("[A-Za-z][A-Za-z0-9]+", word):
        yield "a register is one letter"


def named_word(faulty: Faulty) -> Iterator[str]:
    word, item = bare_of(faulty.word()), faulty.item()
    words: dict[str, tuple[str, ...]] = {"kind": TYPES, "flag": ("all", "data"), "service": ()}
    known = words[item]
    if word in known:
        return
    if word in NO_TYPE and item == "kind":
        yield f"strm has no {word}: {ADVICE_ON_TYPES}"
    elif word in FLUSHES and item == "flag":
        yield f"instead of {word} write {FLUSHES[word]}"
    elif item == "kind" and {word.upper(), f"M_{word.upper()}", word.upper()[5:]} & set(TYPES):
        right = next(kind for kind in (word.upper(), f"M_{word.upper()}", word.upper()[5:]) if kind in TYPES)
        yield f"the type's name is {right}"
    elif item == "kind" and FOR_HIGH_PRIORITY.fullmatch(word):
        yield f"of high priority are: {', '.join(HIGH_PRIORITY)}"
    elif item != "kind" and word.lower() in ("all", "data", "s", "n"):
        yield f"words are in small letters: write {word.lower()}"
    else:
        yield from nearest_hint(word, known)


def octets_apart(faulty: Faulty) -> Iterator[str]:
    """Bytes that are more than one word."""
    first, *rest = faulty.words
    apart = rest[2:] if first == "write" else []
    if len(apart) > 1 and all(len(word) % 2 == 0 for word in apart) and has_form("write")(f"write {rest[0]} {rest[1]} {''.join(apart)}"):
        yield f"write the bytes without spaces: {''.join(apart)}"
    else:
        yield from quoted_text(" ".join(apart))


def quoted_text(text: str) -> Iterator[str]:
    """Text in quotes, or letters without them, where bytes are expected."""
    found = re.fullmatch(r"([\"']?)([\x20-\x7e]{1,64})\1", text)
    if found and (found[1] or re.search("[g-z]", text) and not re.search("[0-9]", text)):
        yield f"in hexadecimal: {found[2].encode().hex()}"


def octets_word(faulty: Faulty) -> Iterator[str]:
    word = faulty.word()
    text = list(quoted_text(word))
    if text:
        yield from text
        return
    digits = word[2:] if word[:2] in ("0x", "0X") else word
    wrong = re.search("[^0-9a-fA-F]", digits)
    if digits is not word:
        yield "digits follow without 0x"
    if wrong and wrong[0].isprintable() and wrong[0].isascii():
        yield f"{shown(wrong[0])}, at place {wrong.start() + 1 + len(word) - len(digits)} of the word, is no digit"
    if wrong or not digits:
        return
    if digits != digits.lower():
        yield "digits above 9 are small letters, a to f"
    if len(digits) % 2:
        yield f"{len(digits)} is an odd number of digits; each byte has two"
    if len(digits) > 128:
        yield f"{(len(digits) + 1) // 2} bytes are too many; one write appends at most 64"


def cut(faulty: Faulty) -> Iterator[str]:
    begin = next((line for line in faulty.line.split("\r") if line and not line.startswith("#")), None)
    if b"\n" not in faulty.script and "\r" in faulty.line and (begin is None or fits(begin, "nothing")):
        yield "carriage returns end the lines; save the file with line feeds"


# The hints for each kind of fault.
OF_BYTES = (encoding, carriage_return, tabs, comment, spaces, not_ascii)
HINTS: dict[str, tuple[Callable[[Faulty], Iterator[str]], ...]] = {
    "unknown": (*OF_BYTES, punctuation, first_word),
    "order": (order,),
    "shape": (*OF_BYTES, punctuation, octets_apart),
    "number": (*OF_BYTES, number, punctuation, another_order),
    "register": (*OF_BYTES, register, punctuation, another_order),
    "word": (*OF_BYTES, named_word, another_order),
    "hex": (*OF_BYTES, octets_word),
    "cut": (encoding, cut),
}


def hints(fault: LineFault, script: bytes) -> list[str]:
    """The hints for a fault of a line."""
    words = fault.line.split(" ")
    faulty = Faulty(fault.number, fault.kind, fault.line, fault.before, words, place_of(fault, words), script)
    return [hint for hints_of in HINTS.get(fault.kind, ()) for hint in hints_of(faulty)]


def config_hints(fault: ConfigFault) -> Iterator[str]:
    """The hints for a fault of the pool that a header describes."""
    if fault.which == "Marks" and fault.why.endswith("the high one, 0"):
        yield "no low water mark is below 0; with the marks 1 and 0 a band is full from its first byte on"


def first_hint(fault: LineFault, script: str) -> str:
    """The first hint for a fault of a line, after a semicolon, or nothing."""
    line, octets = (text.encode("utf-8", "surrogateescape") for text in (fault.line, script))
    return "".join(f"; {hint}" for hint in hints(fault._replace(line=line.decode("latin-1")), octets)[:1])


def require_right(script: str, path: str = "-") -> None:
    """Raises `Wrong` with the first fault of a script and what may have caused it, if strm refuses the script, which is in the file of this
    path."""
    fault = first_fault(script)
    if isinstance(fault, LineFault):
        raise Wrong(f"{fault.reported()}{first_hint(fault, script)}; {beside('strm-check')} {as_word(path)} says more", "script")
    if fault:
        raise Wrong(f"{fault.told()}; {beside('strm-check')} --all {as_word(path)} lists all faults", "script")

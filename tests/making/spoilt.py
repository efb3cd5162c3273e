"""Spoils right scripts, which are bytes, in many ways, most of which strm refuses."""
import functools
import re

from strm_tools.limits import CLASSES, DATA_BLOCK_BYTES, DATA_BLOCKS, MESSAGE_BLOCKS, QUEUES, WISHES, WORKERS
from strm_tools.model import HIGH_PRIORITY, ORDINARY, WORDS

HEADER = ["pool", "class", "queue", "bufcalls"]
# Bytes that a script may have, and bytes that mean something where they are not expected.
BYTES = b"abcmqrz0159-# \t\r\0A_\x7f\x80\xe4\xff" + b"\n" * 4
# Words that are right in some place.
SOME_WORDS = [*HEADER, "worker", *WORDS, *ORDINARY, *HIGH_PRIORITY, *"a z A - -1 0 1 255 s n all data 6162 ab".split(), "", "#", "\xe4"]
LIMITS = [0, 1, 64, 65, 255, 256, DATA_BLOCK_BYTES, DATA_BLOCK_BYTES + 1, DATA_BLOCKS, DATA_BLOCKS + 1, 2**31 - 1, 2**31, 2**32 - 1, 2**32]
NUMBERS = [*map(str, LIMITS), "-1", "-0", "-2147483648", "-2147483649", "00", "01", "+1", "9" * 30, "-" + "9" * 30, "", "-"]
# Lines of a header that strm refuses, most of them because of their values, some for two reasons.
HEADER_LINES = {
    "pool": ["pool 1 0", f"pool 1 {MESSAGE_BLOCKS + 1}", "pool 1 4294967295", "pool 1"],
    "class": ["class 0 1", f"class {DATA_BLOCK_BYTES + 1} 1", "class 16 0", f"class 16 {DATA_BLOCKS + 1}", "class 1 4294967295", "class 0 0"],
    "queue": ["queue 4 4 s -", "queue 0 0 n -", "queue 1 4294967295 s -", "queue 9 4 s 0", "queue 9 4 s 1", "queue 9 4 s 200", "queue 4 4 n 0"],
    "bufcalls": [f"bufcalls {WISHES + 1} 1", "bufcalls 0 0", "bufcalls 4294967295 1", "bufcalls 1 0", "bufcalls 65 0"],
}
# Commands of which one word is right or almost right.
COMMANDS = [
    *(f"write a 0 {octets}" for octets in ("-", "61" * 64, "61" * 65, "6", "6G", "AB", "0x61", "--", "6\xe4")),
    *(f"settype a 0 {kind}" for kind in ("M_DATA", "m_data", "M_RSE", "DATA", "M_DATA\0")),
    *(f"flushband 0 1 {what}" for what in ("all", "data", "ALL", "both", "-")),
    *(f"dupb a {register}" for register in ("b", "B", "bb", "`", "{", "1", "\xe4")),
    *(f"adjmsg a {count}" for count in (2**31 - 1, 2**31, -(2**31), -(2**31) - 1)),
    *(f"allocb a {size}" for size in (2**32 - 1, 2**32)),
    *(f"bcanput {queue} {band}" for queue, band in ((255, 255), (256, 0), (0, 256))),
]
# How long a long line is.
LONG = 20_000


def place_in(dice, items):
    return dice.below(len(items))


def change_byte(dice, script):
    at = place_in(dice, script)
    return script[:at] + bytes([dice.one_of(BYTES) if dice.below(3) else dice.below(256)]) + script[at + 1 :]


def insert_byte(dice, script):
    at = place_in(dice, script)
    return script[:at] + bytes([dice.one_of(BYTES) if dice.below(3) else dice.below(256)]) + script[at:]


def remove_byte(dice, script):
    at = place_in(dice, script)
    return script[:at] + script[at + 1 :]


def cut_off(dice, script):
    return script[: dice.below(len(script))]


def in_lines(change):
    """Spoils a script by a change of its list of lines."""

    @functools.wraps(change)
    def spoil(dice, script):
        lines = script.decode("latin-1").split("\n")[:-1]
        change(dice, lines)
        return "".join(f"{line}\n" for line in lines).encode("latin-1")

    return spoil


def in_words(change):
    """Spoils a script by a change of the list of words of one line."""

    @functools.wraps(change)
    def spoil(dice, lines):
        at = place_in(dice, lines)
        words = lines[at].split(" ")
        change(dice, words)
        lines[at] = " ".join(words)

    return in_lines(spoil)


@in_words
def drop_word(dice, words):
    del words[place_in(dice, words)]


@in_words
def double_word(dice, words):
    at = place_in(dice, words)
    words.insert(at, words[at])


@in_words
def swap_words(dice, words):
    one, other = place_in(dice, words), place_in(dice, words)
    words[one], words[other] = words[other], words[one]


@in_words
def replace_word(dice, words):
    words[place_in(dice, words)] = dice.one_of(SOME_WORDS)


@in_words
def change_case(dice, words):
    at = place_in(dice, words)
    words[at] = words[at].swapcase()


@in_words
def append_comment(dice, words):
    words += dice.one_of([["#", "note"], ["#"], ["//", "note"], ["#note"]])


@in_words
def lengthen_word(dice, words):
    at = place_in(dice, words)
    words[at] = dice.one_of([words[at] + "0" * LONG, "61" * (32 + dice.below(66)), "#" + words[at] * LONG, "1" * LONG])


@in_words
def lengthen_line(dice, words):
    words += [dice.one_of(SOME_WORDS)] * dice.one_of([3, LONG])


@in_lines
def move_line(dice, lines):
    line = lines.pop(place_in(dice, lines))
    lines.insert(dice.below(len(lines) + 1), line)


@in_lines
def double_line(dice, lines):
    at = place_in(dice, lines)
    lines[at:at] = [lines[at]] * (1 + dice.below(18))


@in_lines
def drop_line(dice, lines):
    del lines[place_in(dice, lines)]


@in_lines
def insert_line(dice, lines):
    lines.insert(place_in(dice, lines), dice.one_of(["", "#", "# note", " ", "# \xe4\xff\0", " # note", "worker", "census", "canput 0", "\r"]))


@in_lines
def append_command(dice, lines):
    lines.append(dice.one_of(COMMANDS))


@in_lines
def change_number(dice, lines):
    words = [line.split(" ") for line in lines]
    numbers = [(at, place) for at, line in enumerate(words) for place, word in enumerate(line) if re.fullmatch("-?[0-9]+", word)]
    at, place = dice.one_of(numbers)
    words[at][place] = dice.one_of(NUMBERS)
    lines[at] = " ".join(words[at])


@in_lines
def change_header(dice, lines):
    for _ in range(1 + dice.below(3)):
        word = dice.one_of(HEADER)
        at = dice.one_of([at for at, line in enumerate(lines) if line.split(" ")[0] == word])
        lines[at] = dice.one_of(HEADER_LINES[word])


@in_lines
def repeat_header(dice, lines):
    """As many lines of the header as there may be, or one more, which may be another fault too."""
    word, most = dice.one_of([("class", CLASSES), ("queue", QUEUES), ("worker", WORKERS)])
    of_word = [at for at, line in enumerate(lines) if line.split(" ")[0] == word]
    forms = {"class": "class {} 1", "queue": "queue 2 1 s -", "worker": "worker"}
    lines[of_word[0] : of_word[0] + 1] = [forms[word].format(16 + at) for at in range(most - len(of_word) + 1 + dice.below(2))]
    if dice.below(2):
        lines.insert(of_word[0] + most, word)


@in_lines
def lead_to_queues(dice, lines):
    """Next queues that are drawn, some of which are not there, not greater or taken."""
    queues = [at for at, line in enumerate(lines) if line.startswith("queue ")]
    for queue, at in enumerate(queues):
        following = dice.one_of(["-", "-", queue + 1, len(queues) - 1, len(queues) - 1, dice.below(5), 255])
        lines[at] = f"{lines[at].rpartition(' ')[0]} {following}"


def spaces(dice, script):
    at = dice.one_of([at for at, byte in enumerate(script) if byte in b" \n"])
    return script[:at] + dice.one_of([b" ", b"  ", b"\t", b" \t", b"\xc2\xa0"]) + script[at:] if dice.below(2) else script.replace(b" ", b"\t")


def carriage_returns(dice, script):
    at = dice.one_of([at for at, byte in enumerate(script) if byte == 10])
    every = script.replace(b"\n", dice.one_of([b"\r\n", b"\r\n", b"\r"]))
    return script[:at] + b"\r" + script[at:] if dice.below(2) else every


def encode(dice, script):
    text = script.decode("utf-8", "replace")
    return b"\xef\xbb\xbf" + script if dice.below(2) else text.encode(dice.one_of(["utf-16", "utf-16-le", "utf-16-be", "utf-8-sig"]))


def drop_line_end(_, script):
    return script.rstrip(b"\n")


def empty(dice, _):
    return dice.one_of([b"", b"\n", b"#\n", b"\n\n# a comment\n", b"#", b" ", b"\0", b"worker\n"])


def binary(dice, script):
    return bytes(dice.below(256) for _ in range(dice.below(300))) + script[: dice.below(len(script))]


OF_BYTES = [change_byte, insert_byte, remove_byte, cut_off]
SPOILING = [
    *OF_BYTES,
    *(drop_word, double_word, swap_words, replace_word, change_case, append_comment, lengthen_word, lengthen_line),
    *(move_line, double_line, drop_line, insert_line, append_command, change_number, repeat_header),
    # More often, since it has many kinds of faults.
    *[change_header] * 3,
    *(lead_to_queues, spaces, carriage_returns, encode, drop_line_end, empty, binary),
]


def spoilt(dice, script):
    """The name of a way to spoil scripts, and the script that was spoilt so, and in one of four a byte of it too."""
    way = dice.one_of(SPOILING)
    script = way(dice, script)
    if script and dice.below(4) == 0:
        script = dice.one_of(OF_BYTES)(dice, script)
    return way.__name__, script

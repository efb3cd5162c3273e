"""The page strm(1), as its mdoc says it."""
import functools
import os
import re
import subprocess
import tempfile
from typing import NamedTuple

from making import TOP

NAME = "strm.1"

# The macros that words of the page stand under, and punctuation, which stands under none.
MACROS = "Ar Cm Dv Er Fl Ic It Ns Op Ql Sq Sy Ta".split()
PUNCTUATION = ". , : ;".split()


class Item(NamedTuple):
    """An item of a list: its line of macros, and the lines of its text."""

    head: str
    body: list


@functools.lru_cache(maxsize=None)
def read_page(name=NAME):
    """A page of section 1, as it is installed."""
    with tempfile.TemporaryDirectory() as folder:
        subprocess.run([os.path.join(TOP, "tools", "man_pages"), "1", folder], check=True)
        with open(os.path.join(folder, name), encoding="utf-8") as page:
            return page.read()


def section(name):
    """The lines of a section."""
    return re.search(rf"^\.Sh {name}\n(.*?)(?=^\.Sh |\Z)", read_page(), re.DOTALL | re.MULTILINE)[1].splitlines()


def items(lines):
    """The items of all lists in these lines."""
    found, body = [], None
    for line in lines:
        if line.startswith(".It "):
            body = []
            found.append(Item(line, body))
        elif line == ".El":
            body = None
        elif body is not None:
            body.append(line)
    return found


def plain(text):
    """A text as it is shown."""
    return text.replace("\\-", "-")


def tokens(line):
    """The words of a line of macros, each with the macro that it stands under."""
    macro = None
    for word in line[1:].split():
        if word in MACROS:
            macro = word
        elif word not in PUNCTUATION:
            yield macro, plain(word)


def marked(macro, lines):
    """The words that stand under a macro in these lines."""
    macros = [line for line in lines if line.startswith(".")]
    return [word for line in macros for under, word in tokens(line) if under == macro]


def quoted(lines):
    """The texts that are quoted in these lines, each on a line of its own."""
    return [" ".join(marked("Ql", [line])) for line in lines if line.startswith(".Ql ")]


def text_of(lines):
    """What these lines say beside their macros."""
    return plain(" ".join(line for line in lines if not line.startswith(".")))


def displays(lines):
    """The texts that stand apart in these lines."""
    text = plain("\n".join(lines))
    return re.findall(r"^\.Bd -literal.*?\n(.*?)^\.Ed$", text, re.DOTALL | re.MULTILINE)


def options():
    """The options, each with the name of its value and the numbers that are said of it, if it has a value."""
    found = {}
    for item in items(section("DESCRIPTION")):
        value = "".join(marked("Ar", [item.head]))
        numbers = re.findall(r"\d+", text_of(item.body)) if value else []
        found |= {f"-{name}": (value, sorted(numbers)) for name in marked("Fl", [item.head])}
    return found


def arguments():
    """The kind of each argument, by its name."""
    kinds = [(marked("Ar", [item.head]), text_of(item.body).partition(":")[0]) for item in items(section("ARGUMENTS"))]
    return {name: kind for names, kind in kinds for name in names}


def lines_of_script(names=("SCRIPT", "COMMANDS")):
    """The first words of a script's lines that these sections explain, each with the names of its arguments."""
    heads = [item.head for name in names for item in items(section(name))]
    return {marked("Ic", [head])[0]: marked("Ar", [head]) for head in heads}


def answers():
    """What each command may be answered beside what all may be, as the beginning of its section says."""
    lines = section("COMMANDS")
    first = next(at for at, line in enumerate(lines) if line.startswith(".Ss "))
    of_all = {*marked("Cm", lines[:first]), *marked("Er", lines[:first])} - {"ok"}
    own = {}
    for item in items(lines):
        replies = marked("Cm", item.body) or ["ok"]
        own[marked("Ic", [item.head])[0]] = sorted([*replies, *marked("Er", item.body)])
    return own, of_all


def routines():
    """The routines of STREAMS that the page names."""
    return re.findall(r"(\w+)\(9F\)", text_of(section("SEE ALSO")))


def own_words():
    """The commands that no routine of STREAMS has its name for."""
    return marked("Ic", section("STANDARDS"))


def types():
    """Each type of messages, and whether it is ordinary or of high priority."""
    found = {}
    for item in items(section("ARGUMENTS")):
        if not marked("Ar", [item.head]):
            found |= {name: item.head.removeprefix(".It ") for name in marked("Dv", item.body)}
    return found


def data_types():
    """The types that a flush of data takes."""
    return sorted(name for item in items(section("ARGUMENTS")) if "what" in item.head for name in marked("Dv", item.body))


def replies():
    """The words that replies begin with."""
    return sorted(marked("Cm", [item.head])[0] for item in items(section("REPLIES")))


def report():
    """What is told in each line of the report, by its first word."""
    heads = [marked("Cm", [item.head]) for item in items(section("REPORT OF THE POOL"))]
    return {word: told for word, *told in heads}


def report_shown():
    """The same, of the lines that the examples show."""
    texts = [text for _, texts in examples() for text in texts]
    lines = [line.split(" ") for text in texts for line in text.splitlines() if ":" not in line.split(" ")[0]]
    return {word: [told.partition("=")[0] + "=" for told in rest if "=" in told] for word, *rest in lines}


def refusals():
    """The name and the meaning of each refusal, by its number."""
    return {
        int(marked("It", [item.head])[0]): (marked("Er", [item.head])[0], text_of(item.body).partition(".")[0].lower())
        for item in items(section("REFUSALS"))
    }


def terms_of_sharing():
    """The terms of shared pools that the page explains."""
    return [item.head.removeprefix(".It ") for item in items(section("SHARED POOLS"))]


def faults():
    """The faults of a script and of its configuration, each with its example, or none."""
    return {marked("Cm", [item.head])[0]: "".join(quoted(item.body)) for item in items(section("FAULTS"))}


def limits():
    """The limits, by the names of their constants."""
    rows = [item.head for item in items(section("LIMITS"))]
    return {marked("Dv", [row])[0]: int(marked("Ta", [row])[0]) for row in rows if marked("Dv", [row])}


def numbers_of_script():
    """The numbers that are told of a script's lines, but for 0 and 1."""
    return {int(number) for number in re.findall(r"\d+", text_of(section("SCRIPT")))} - {0, 1}


def statuses():
    """What is written to standard error, by the status."""
    return {int(marked("It", [item.head])[0]): sorted(quoted(item.body)) for item in items(section("EXIT STATUS"))}


def examples():
    """The scripts with their texts: that of one thread first, and then some by workers."""
    found = []
    for text in displays(section("EXAMPLES")):
        if text.startswith("pool "):
            found.append((text, []))
        else:
            found[-1][1].append(text)
    return found

"""What the source says of what stands in strm(1). The tables of words are those of the definitions, which the parser's code is
proved to follow."""
import glob
import os
import re
import subprocess

from making import TOP, read
from making.cases import kept_cases

# Cases that a program prints, for refusals that no script of a few lines meets.
MADE = ["most_names"]
# The form of a word that is a field of a call, by the field's type.
FORMS = {
    **{"Reg": "register_of", "u8": "u8_of", "u32": "u32_of", "i32": "i32_of", "Octets": "octets_of"},
    **{"MsgType": "type_of", "Flush": "flush_of"},
}


def declared(header="strm.h"):
    """The functions that a header declares."""
    words = [os.path.join(TOP, "tests", "c", "declared"), os.path.join(TOP, "c", header)]
    return subprocess.run(words, capture_output=True, text=True, check=True).stdout.split()


def version():
    return read("VERSION").strip()


def forms():
    """The first words of a script's lines, each with the forms of the words behind it."""
    entries = read("crates/strm_script/specs/Entry.antt")
    shape = r"(?:none|one|two|three|four)((?: \w+_of)*)"
    found = dict(re.findall(rf'\(codes "(\w+)", {shape} calls', entries))
    said = dict(re.findall(rf"^entry_of words\.(\w+) = {shape}", entries, re.MULTILINE))
    for word, name in re.findall(r'\(codes "(\w+)", (\w+)\)', read("crates/strm_script/specs/Word.antt")):
        found[word] = said[name]
    return {word: behind.split() for word, behind in found.items()}


def calls():
    """The words of the table of calls, each with the forms of the call's fields."""
    text = read("crates/strm_pool/src/call.rt")
    fields = dict(re.findall(r"^    (\w+)(?:\((.*)\))?,$", text, re.MULTILINE))
    rows = re.findall(r'b"(\w+)" (\w+)(?:\([^()]*\))?: act_\w+\(', text)
    return {word: [FORMS[kind] for kind in fields[name].split(", ") if kind] for word, name in rows}


def type_names():
    """The names of the types of messages, by their variants."""
    return dict(re.findall(r'MsgType::(\w+) => "(\w+)"', read("crates/strm_data/src/msg_type.rt")))


def types():
    """Each type of messages, and whether it is ordinary or of high priority."""
    rows = re.findall(r"^is_high_priority (\w+) = (\w+)$", read("crates/strm_data/specs/MsgType.antt"), re.MULTILINE)
    return {type_names()[kind]: "high priority" if high == "true" else "ordinary" for kind, high in rows}


def data_types():
    """The types that a flush of data takes."""
    carry = re.findall(r"^carries_data (\w+) = true$", read("crates/strm_queue/specs/Flush.antt"), re.MULTILINE)
    return sorted(type_names()[kind] for kind in carry)


def replies():
    """The words that replies begin with."""
    return sorted(re.findall(r'" ?([a-z]+)(?: "|\\n")', read("crates/strm_script/src/transcript.rt")))


def refusals():
    """The name and the meaning of each refusal, by its number."""
    rows = re.findall(r'#\[error\("([^"]+)"\)\]\s+(\w+) = (\d+),', read("crates/strm_data/src/refusal.rt"))
    return {int(number): (name, meaning.lower()) for meaning, name, number in rows}


def kinds():
    """The faults of a script, in the order in which they are looked for on one line."""
    return re.findall(r'Kind::\w+ => "(\w+)"', read("crates/strm_script/src/fault.rt"))


def config_faults():
    """The faults of a configuration, in the order in which they are looked for."""
    return re.findall(r'Which::\w+ => "(\w+)"', read("crates/strm_pool/src/config.rt"))


def limits():
    """The limits, by the names of their constants."""
    files = glob.glob(os.path.join(TOP, "crates", "*", "src", "limits.rt"))
    rows = [row for file in files for row in re.findall(r"pub const (\w+): \w+ = ([\d_]+);", read(file))]
    return {name: int(number) for name, number in rows}


def statuses():
    """What is written to standard error, by the status, from the table of docs/MODEL.md."""
    rows = re.findall(r"^\| (\d+) \|.*\| (.*) \|$", read("docs/MODEL.md"), re.MULTILINE)
    return {int(status): sorted(re.findall(r"`(strm: [^`]+)`", texts)) for status, texts in rows}


def options(help_text):
    """The options of a help text, each with the name of its value and the numbers that are said of it, if it has a value."""
    row = re.compile(r"^ +((?:-\w|--\w+)(?:, --\w+)?)(?: <(\w+)>)? +(.*)$", re.MULTILINE)
    found = {}
    for names, value, text in row.findall(help_text):
        numbers = re.findall(r"\d+", text) if value else []
        found |= {name: (value, sorted(numbers)) for name in names.split(", ")}
    return found


def newest_change():
    """The newest version of CHANGELOG.md."""
    return re.search(r"^## \[([\d.]+)\]", read("CHANGELOG.md"), re.MULTILINE)[1]


def told_lines(case):
    """The first word of each command line of a case, and the words of its reply."""
    script = case.text("script").split("\n")
    for number, reply in re.findall(r"^\d+:(\d+) (.*)$", case.text("stdout"), re.MULTILINE):
        yield script[int(number) - 1].partition(" ")[0], reply.split(" ")


def answers(of_all):
    """What each command is answered in the cases, beside what all may be: the first word of a reply, or a refusal's name."""
    found = {}
    for case in kept_cases(*MADE):
        if "script" in case.sections:
            for word, reply in told_lines(case):
                found.setdefault(word, set()).add(reply[2] if reply[0] == "refused" else reply[0])
    return {word: sorted(replies - of_all) for word, replies in found.items()}

"""Sessions of tools/strm-play, by a pipe and in a terminal, and what is typed into them."""
import os
import re
import shutil
import subprocess
import sys

from making import TOP, read
from making.telling import want
from making.typed import Typed
from strm_tools.model import WORDS, Pool

TOOLS = os.path.join(TOP, "tools")
SECONDS = 60
PROMPT = r"\n(\d+:\d+( waits)?|header)> "
# What a strm prints, as a program in Python, which is quick to write a fault into.
STAND_IN = """#!{python}
import sys
from strm_tools.judge import Replay
replay = Replay(sys.stdin.read())
lines = []
while replay.waiting():
    lines.append(replay.serve(replay.waiting()[0]))
text = "".join(f"{{line}}\\n" for line in lines + replay.model.report())
print({printed}, end="")
"""
# The pool for rules that the session's own has no room for, and these rules.
OTHER_POOL = Pool(mblks=300, classes=[(16, 2)], queues=[(10, 4, "s", 1), (10, 4, "n", "-")], bufcalls=2, first_id=4_294_967_295)
IN_OTHER_POOL = ("references", "ids", "no_service")
# The rules on a band that is full or wanted, of which `why` says since when it is.
HAVE_LASTED = ("full", "stays")
# What each command of strm does after these lines, which undo takes back.
BEFORE_UNDO = (
    "allocb a 16; write a 0 61626364656667686970; allocb b 3; write b 0 010203; settype b 0 M_PROTO; dupmsg b c; linkb b c; allocb d 40;"
    " write d 0 0405060708090a0b0c0d0e0f; putq 0 d; allocb d 2; write d 0 0a0b0c0d0e0f00010203; putq 1 d; bcanput 1 0; bufcall 40"
).split("; ")
# What stands for each item of a command then, and the lines of commands that have others.
VALUES = {
    **{"from": "a b", "to": "e", "queue": "0", "block": "0", "place": "0", "octets": "ff", "kind": "M_CTL", "size": "1", "count": "2", "at": "0"},
    **{"band": "0", "marked": "0", "high": "99", "low": "50", "id": "1", "flag": "all"},
}
OTHERS = (
    "dupmsg b e; setband a 4; unlinkb b e; rmvb b 1 e; pullupmsg b 5; freeb b; getq 1 e; flushband 1 0 all; strqset 1 0 99 50; qenable 1"
).split("; ")
TAKEN_BACK = {word: " ".join([word, *(VALUES[item].split()[row.items[:at].count(item)] for at, item in enumerate(row.items))]) for word, row in WORDS.items()}
TAKEN_BACK |= {line.split(" ")[0]: line for line in OTHERS}
# What is typed, with a tab at its end, and what is there then.
COMPLETED = {
    "alloc": "allocb ",
    "wh": "why ",
    "wri": "write ",
    "settype a 0 M_PC\tP": "settype a 0 M_PCPROTO ",
    "freemsg ": "freemsg a ",
    "putq 1 ": "putq 1 a ",
    "flushq 0 d": "flushq 0 data ",
    "help pullu": "help pullupmsg ",
    "state of": "state off ",
}


def played():
    """The rows of played.txt by their kinds: the name of each, the lines that are typed, and what is shown."""
    text = read("tests", "making", "played.txt").encode().decode("unicode_escape")
    text = re.sub(r"\(([^()]*)\)\*(\d+)", lambda found: found[1] * int(found[2]), text)
    rows = {}
    for part in re.split("^=== ", text, flags=re.MULTILINE)[1:]:
        head, _, body = part.partition("\n")
        kind, _, name = head.partition(": ")
        typed = [line for row in re.findall("^> ?(.*)", body, re.MULTILINE) for line in row.split("; ")]
        rows.setdefault(kind, []).append((name, typed, re.sub(r"(?m)^(>.*)?\n", "", body)))
    return rows


class Room:
    """A folder with a copy of the tool, in which there is no strm."""

    def __init__(self, path):
        self.path = path
        self.tools = self.of("copy", "tools")
        shutil.copytree(os.path.join(TOOLS, "strm_tools"), os.path.join(self.tools, "strm_tools"))
        shutil.copy(os.path.join(TOOLS, "strm-play"), self.tools)
        # For the programs of `stand_in`.
        os.symlink(os.path.join(self.tools, "strm_tools"), self.of("strm_tools"))
        os.mkdir(self.of("empty"))
        self.command = [sys.executable, os.path.join(self.tools, "strm-play")]
        self.variables = {**os.environ, "PATH": self.of("empty"), "COLUMNS": "120", "TERM": "dumb"}

    def of(self, *names):
        return os.path.join(self.path, *names)

    def write(self, name, text):
        with open(self.of(name), "w", encoding="utf-8") as file:
            file.write(text)
        return self.of(name)

    def stand_in(self, name, printed="text"):
        """A program that prints what strm prints, or another text."""
        path = self.write(name, STAND_IN.format(python=sys.executable, printed=printed))
        os.chmod(path, 0o755)
        return path

    def run(self, lines, *words, **variables):
        """A session by a pipe."""
        given = "".join(f"{line}\n" for line in lines).encode("utf-8", "surrogateescape")
        environment = {**self.variables, **variables}
        command = [*self.command, *words]
        ran = subprocess.run(command, input=given, env=environment, capture_output=True, timeout=SECONDS, cwd=self.path)
        ran.stdout, ran.stderr = ran.stdout.decode(), ran.stderr.decode()
        return ran

    def answers(self, lines, *words, **variables):
        """What a session by a pipe shows after its header."""
        ran = self.run(["help quit", *lines], *words, **variables)
        want((0, ""), (ran.returncode, ran.stderr), "how it ends")
        return ran.stdout.partition("quit\n  Ends the session, as Ctrl-D does.\n")[2]

    def typed(self, *words, **settings):
        """A session in a terminal, and what it shows before the first line."""
        settings = {"PATH": self.of("empty"), **settings}
        terminal = Typed([*self.command, *words], **settings)
        return terminal, terminal.until(PROMPT)

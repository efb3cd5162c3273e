"""The script that is made of a trace, with its text."""
from __future__ import annotations

from collections import Counter
from typing import TYPE_CHECKING, Counter as Counts

from strm_tools.limits import COMMAND_LINES, SCRIPT_BYTES
from strm_tools.trace import Beyond

if TYPE_CHECKING:
    from strm_tools.plain import Plain


class Script:
    """The lines of the script so far, each with its reply, or None where it is no command."""

    def __init__(self) -> None:
        self.rows: list[tuple[str, str | None]] = []
        self.report: list[str] = []
        self.bytes = 0
        self.commands = 0
        self.is_begun = False
        # How many commands there are of each caller, of whom pointers are one, and of each word.
        self.callers: Counts[str] = Counter()
        self.words: Counts[str] = Counter()
        # The caller of the last command, and where replies are checked the plain model.
        self.caller: str | None = None
        self.plain: Plain | None = None

    def add_row(self, line: str, reply: str | None = None) -> None:
        self.rows.append((line, reply))
        self.bytes += len(line.encode()) + 1
        if self.bytes > SCRIPT_BYTES:
            raise Beyond(f"a script has at most {SCRIPT_BYTES} bytes")

    def begin_section(self) -> None:
        """Begins the section, unless it has begun."""
        if not self.is_begun:
            self.add_row("worker")
        self.is_begun = True

    def add(self, line: str, reply: str, who: str, label: str) -> None:
        """Adds a command, after the label of its caller where that is another one than before."""
        self.begin_section()
        if label != self.caller:
            self.add_row(f"#: caller {label}")
        self.caller = label
        self.add_row(line, reply)
        self.callers[who] += 1
        self.words[line.split(" ")[0]] += 1
        self.commands += 1
        if self.commands > COMMAND_LINES:
            raise Beyond(f"a script has at most {COMMAND_LINES} commands")

    def numbered(self) -> list[tuple[str, str | None]]:
        """The lines, each with its line of the text, or None where it has none."""
        return [(line, None if reply is None else f"0:{number} {reply}") for number, (line, reply) in enumerate(self.rows, 1)]

    def script(self) -> str:
        return "".join(f"{line}\n" for line, _ in self.rows)

    def text(self) -> str:
        told = [line for _, line in self.numbered() if line is not None]
        return "".join(f"{line}\n" for line in told + self.report)

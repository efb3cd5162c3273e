"""The session as a dialogue: reads a line, answers it, and draws the state."""
from __future__ import annotations

import os
import shlex
from collections import Counter
from itertools import chain
from typing import Callable, Container, Sequence, Tuple

from strm_tools.faults import fault_in
from strm_tools.library import difference
from strm_tools.listing import listing
from strm_tools.play import proved
from strm_tools.play.completion import completed
from strm_tools.model import Model
from strm_tools.play.face import Face, Piece, named
from strm_tools.play.own import OWN, TERMS, HeaderFault, TypedHeader, explained, is_on_types, number_of, other_replies, wrong_form
from strm_tools.play.session import Change, Session, is_command, opening, parted, parts_of
from strm_tools.play.state import Key, changed, drawn
from strm_tools.play.turns import Turns
from strm_tools.rules import EFFECTS, FLOW, Found, explains, labelled, why
from strm_tools.script import Wrong
from strm_tools.words import COMMANDS, HEADER, TYPES, WORDS, counted, whole_form

DEFAULT = """pool 1 8
class 16 4
class 64 2
queue 10 4 s 1
queue 10 4 s -
bufcalls 2 1
worker
"""
# An executed line: worker and number in the script, text, reply.
Row = Tuple[str, str, str]
# Of how many changes that are taken back or done again the words are shown.
NAMED = 5


class Ended(Exception):
    """The session is at its end."""


def is_served(row: Row) -> bool:
    """Whether a line took a queue off the run list."""
    _, text, reply = row
    return text == "service" and reply != "none"


def is_explained(row: Row) -> bool:
    """Whether a rule explains what a line did, or another line does, which enabled a queue."""
    _, text, reply = row
    return is_served(row) or explains(text.split(" ")[0], reply)


def shown(row: Row) -> str:
    """A line that was executed, with its reply."""
    return "{} {}: {}".format(*row)


class Shell(Turns):
    """A session with the program that answers it, if any, and the face that shows it. Each command of the session has a method
    whose name is `on_` and the command."""

    def __init__(self, session: Session, program: str | None, face: Face) -> None:
        self.session = session
        self.program = program
        self.face = face
        self.say = face.say
        # The header that is typed, or None.
        self.typed: TypedHeader | None = None
        self.is_drawn: bool | None = None
        # The script as it was begun or saved.
        self.kept = session.play.script()
        self.said: set[str] = set()

    def say_once(self, text: str) -> None:
        if text not in self.said:
            self.said.add(text)
            self.say(text)

    def greet(self, path: str | None) -> None:
        """Says what the session begins with."""
        pool = self.play.pool
        data = sum(count for _, count in pool.classes)
        counts = f"{counted(pool.mblks, 'message block')}, {counted(data, 'data block')}, {counted(len(pool.queues), 'queue')}"
        self.say(f"{counts}; help lists the commands, quit ends:")
        self.on_header()
        if path is not None:
            replies, _ = self.answers()
            self.say(f"{path}: {counted(len(replies), 'command')} executed; list shows them, and after rewind next goes through them")
        self.draw()

    def interrupted(self) -> None:
        """A line was broken off: the session is as its changes make it."""
        self.typed = None
        self.session.play_again()

    def prompt(self) -> str:
        if self.typed is not None:
            return "header> "
        return f"{self.play.place()}{' waits' if self.play.holds else ''}> "

    def complete(self, before: list[str], begin: str) -> list[str]:
        """What may come next, for a terminal."""
        if self.typed is not None and not before:
            return [f"{word} " for word in HEADER if word.startswith(begin)]
        items = {word: entry[2] for word, entry in OWN.items()}
        return completed(self.play, items, before, begin)

    # ---- A line ------------------------------------------------------------------------------------------------------

    def take(self, line: str) -> None:
        """Does what a line says. Raises `HeaderFault` if a header has a fault that no terminal can show, so that no command is executed in
        another pool."""
        text = line.strip() if line.strip().startswith("#") else " ".join(line.split())
        word, *rest = text.split(" ")
        try:
            if word in OWN:
                self.take_own(word, line.split(None, 1)[1:])
            elif self.typed is not None:
                self.take_header(self.typed, text)
            elif word == "pool":
                self.begin_header(text)
            elif text.startswith("#"):
                self.enter(text)
            elif text:
                self.take_command(text, word, rest)
        except HeaderFault as reason:
            if not self.face.reads_terminal:
                raise
            self.say(f"{reason}{reason.advice}")
        except Wrong as reason:
            self.say(str(reason))

    def take_end(self) -> None:
        """The input is at its end. Raises `HeaderFault` if a header is not, and no terminal shows it."""
        if self.typed is not None and not self.face.reads_terminal:
            raise HeaderFault("the input ends in a header, whose end is a line `worker`")

    def goes_on(self) -> bool:
        """Whether a session at a terminal goes on after Ctrl-D: once, if lines are not saved."""
        script = self.play.script()
        if not self.face.is_terminal or script == self.kept:
            return False
        self.kept = script
        self.say("lines are not saved: save FILE keeps them, quit or another Ctrl-D does not")
        return True

    def take_own(self, word: str, rest: list[str]) -> None:
        """Does a command of the session."""
        try:
            words = shlex.split(rest[0]) if rest else []
        except ValueError:
            raise Wrong("a quotation mark has no end")
        form = OWN[word][0]
        most = len(form.replace("[-f] ", "-f ").split())
        least = len([part for part in form.split() if not part.startswith("[")])
        if not least <= len(words) <= most:
            raise wrong_form(word)
        if self.typed is not None and word not in ("help", "quit", "undo"):
            raise Wrong("the header is not at its end yet, which is a line `worker`; undo takes its lines back")
        getattr(self, f"on_{word}")(*words)

    def take_command(self, text: str, word: str, rest: list[str]) -> None:
        """Executes a line of the script, or has it wait."""
        sections = self.play.sections
        commands = len(self.play.executed) + sum(section.waiting() for section in sections)
        fault = fault_in(word, rest, "command", Counter(worker=len(sections), command=commands))
        if fault == "order":
            raise HeaderFault(f"order: {word} describes a pool, before its commands", "; new opens another pool")
        if fault:
            raise Wrong(explained(fault, word, rest))
        if word == "worker":
            self.session.do("begin", named=text)
            self.say(f"worker {self.play.turn} begins, with empty registers")
        else:
            self.enter(text)

    def enter(self, text: str) -> None:
        """Executes a line, or has it wait."""
        if self.play.holds:
            self.session.do("wait", self.play.turn, text, named=text)
        else:
            self.session.do("add", self.play.turn, text, named=text)
            if is_command(text):
                self.say_reply(self.answers()[0][-1])
                if waiting := sum(section.waiting() for section in self.play.sections):
                    self.say(f"{counted(waiting, 'line')} still waiting")
                self.draw(anew=False)

    def say_reply(self, reply: str) -> None:
        self.say(reply, "red" if reply.startswith("refused") else "")

    # ---- The program -------------------------------------------------------------------------------------------------

    def answers(self) -> tuple[list[str], list[str]]:
        """The replies to all executed lines, and the report: those of the library or of strm, or without them those of the plain model."""
        replies, report = [line.reply for line in self.play.executed], self.play.report()
        if self.play.library:
            differs = self.play.differs or difference(report, self.play.model.report())
            if differs:
                self.say(differs)
        if self.program is None:
            return replies, report
        served = self.play.one_section()
        if served is None:
            self.say_once("more than 26 registers hold messages, too many for strm: the plain model replies alone")
            return replies, report
        try:
            text = proved.text_of(self.program, served[0])
        except Wrong as reason:
            self.say(f"{reason}; the plain model replies")
            return replies, report
        if text != served[1]:
            self.say("strm prints {!r}, and the plain model {!r}: one has a fault; please report it".format(*proved.difference(text, served[1])))
        return proved.parts(text, replies)

    def draw(self, anew: bool = True) -> None:
        """Draws the state. Unless `state on` asks for it, it must fit the window, and have changed if it is not drawn anew."""
        by_itself = self.is_drawn is None
        if self.is_drawn is False or by_itself and not self.face.is_terminal:
            return
        keys = changed(self.play, self.session.before) if by_itself else set()
        if by_itself and not anew and not keys:
            return
        lines = self.lines_of_state()
        if by_itself and len(lines) > (most := self.face.height() - 3):
            self.say_once("the state does not fit this window, so only what changes is drawn; state shows all")
            lines = self.lines_of_state(keys)
            if len(lines) > most:
                lines[most - 1 :] = [[(f" .. {counted(len(lines) - most + 1, 'more line')}", "")]]
        self.face.show(lines)

    def lines_of_state(self, keys: Container[Key] | None = None) -> list[list[Piece]]:
        return list(drawn(self.play, self.session.before, self.face.width(), keys))

    # ---- Another pool ------------------------------------------------------------------------------------------------

    def open(self, change: Change, of: str) -> None:
        """Opens a pool, and shows its header."""
        self.session.open([change])
        self.say(f"the pool of {of}:")
        self.on_header()
        self.draw()

    def begin_header(self, text: str) -> None:
        """Takes the first line of a header, if it is right."""
        typed = TypedHeader()
        typed.take(text)
        self.typed = typed

    def take_header(self, typed: TypedHeader, text: str) -> None:
        """Takes a line of a header, and opens its pool if it is whole."""
        header = typed.take(text)
        if header is not None:
            self.typed = None
            self.open(opening(header), "these lines")

    # ---- Commands of the session -------------------------------------------------------------------------------------

    def on_help(self, word: str | None = None) -> None:
        if word is None:
            self.say("Commands of strm; `help WORD` says what one does:")
            for group, words in COMMANDS.items():
                self.face.paragraph(f"  {group:<18}", " ".join(words))
            self.say("  Sections          worker")
            self.say("Commands of the session:")
            for own, (form, does, _) in OWN.items():
                self.face.paragraph(f"  {own + ' ' + form:<22}", does)
        elif word in OWN:
            self.say(f"{word} {OWN[word][0]}".rstrip())
            self.face.paragraph("  ", OWN[word][1])
        elif word in WORDS:
            self.say(whole_form(word) + (" (in the header)" if word in HEADER and word != "worker" else ""))
            self.face.paragraph("  ", WORDS[word].does)
            others = other_replies(word) if word not in HEADER else []
            if others:
                self.face.paragraph("  ", f"Replies also: {', '.join(others)}.")
            if word in TERMS:
                self.face.paragraph("  ", TERMS[word])
            if "TYPE" in WORDS[word].form.split():
                self.say_types()
        elif word in TERMS:
            self.face.paragraph("", TERMS[word])
        elif is_on_types(word):
            self.say_types()
        else:
            raise Wrong(explained("unknown", word, []))

    def say_types(self) -> None:
        for priority, types in TYPES.items():
            self.say(f"{priority}:")
            self.face.paragraph("  ", " ".join(types))

    def on_header(self) -> None:
        for line in self.play.header:
            self.say(f"  {line}".rstrip())

    def on_new(self, path: str | None = None) -> None:
        if path is None:
            self.typed = TypedHeader()
            self.say("Type the header, each line in its form, and `worker` at its end; undo takes a line back:")
            for word in HEADER:
                self.say(f"  {whole_form(word)}")
            return
        header, *sections = self.parts_of_file(path)
        self.open(opening(header), path)
        count = sum(map(is_command, chain(*sections)))
        if count:
            self.say(f"{counted(count, 'command')} left out; load {named(path)} has them wait for next")

    def on_load(self, path: str) -> None:
        self.open(opening(*self.parts_of_file(path)), path)
        self.kept = self.play.script()
        self.say_waiting()

    def parts_of_file(self, path: str) -> list[list[str]]:
        """The lines of the header and of the sections of a script. Raises `Wrong` with the name of its file."""
        try:
            return parts_of(self.face.read(path), path)
        except Wrong as reason:
            raise Wrong(f"{named(path)}: {reason}")

    def on_state(self, switch: str | None = None) -> None:
        if switch not in (None, "on", "off"):
            raise wrong_form("state")
        if switch is None:
            self.face.show(self.lines_of_state())
        else:
            self.is_drawn = switch == "on"

    def on_report(self) -> None:
        for line in self.answers()[1]:
            self.say(line)

    def on_list(self, count: str | None = None) -> None:
        rows = list(self.play.rows())
        self.say_rows(rows if count is None else rows[len(rows) - min(number_of(count), len(rows)) :])

    def say_rows(self, rows: Sequence[Row]) -> None:
        self.face.write(listing(rows))

    def on_why(self, line: str | None = None) -> None:
        rows = list(self.play.rows())
        if line is not None:
            self.explain(self.explained_at(rows, number_of(line, 1)), rows)
            return
        place = next((place for place in reversed(range(len(rows))) if is_explained(rows[place])), None)
        if not rows:
            raise Wrong("nothing to explain: no line is executed")
        if place is None:
            raise Wrong("nothing to explain: no line was refused, replied no or none, or could enable a queue")
        if place < len(rows) - 1:
            self.say(f"nothing to explain in the last line, {shown(rows[-1])}; before it:")
        self.explain(place, rows)

    def explained_at(self, rows: list[Row], number: int) -> int:
        """The place of the line that has this number in the script, if there is something to explain in it."""
        place = next((place for place, (at, _, _) in enumerate(rows) if at.endswith(f":{number}")), None)
        if place is None:
            raise Wrong(f"no line {number} is executed; list shows those that are")
        if not is_explained(rows[place]):
            raise Wrong(f"nothing to explain in {shown(rows[place])}")
        return place

    def explain(self, place: int, rows: list[Row]) -> None:
        """Gives the rule for the executed line at a place. For one that took a queue off the run list, this is the line that enabled it."""
        if is_served(rows[place]):
            self.say(shown(rows[place]))
            number = int(rows[place][2].split(" ")[1])
            place = self.session.since(place - 1, [lambda model: number in model.run])[0] or 0
            self.say("queue {} was enabled by {} {}".format(labelled(number, self.play.labels()), *rows[place]))
        _, text, _ = rows[place]
        found = why(self.session.model_before(place), *parted(text))
        self.say(shown(rows[place]) + (f", {found.rule.decides}" if found.rule.decides in EFFECTS else ""))
        self.face.paragraph("  ", f"{found.text(self.play.labels())} (docs/MODEL.md, {found.rule.section})")
        if found.rule.section == FLOW and "B" in found.numbers:
            self.say_since(found, place, rows)

    def say_since(self, found: Found, place: int, rows: list[Row]) -> None:
        """Says since which lines the band that a rule is about has been full and wanted, if it is."""
        number: int = found.numbers["Q"]
        band: int = found.numbers["B"]
        facts: dict[str, Callable[[Model], bool]] = {
            "full": lambda model: model.queues[number].is_full(band),
            "wanted": lambda model: band in model.queues[number].wanted,
        }
        begins = zip(facts, self.session.since(place, list(facts.values())))
        parts = ["{} since {} {}".format(name, *rows[begin]) for name, begin in begins if begin is not None]
        labels = self.play.labels()
        if parts:
            self.face.paragraph("  ", f"Band {band} of queue {labelled(number, labels)} has been {', and '.join(parts)}.")

    def on_undo(self, count: str = "1") -> None:
        if self.typed is not None:
            if self.typed.lines:
                self.say(f"taken back: {self.typed.lines.pop()}")
            else:
                self.typed = None
                self.say("no header is typed any more, and the pool is as before")
            return
        self.say_changes("taken back", self.session.undo(number_of(count, 1)), "there is nothing to take back")

    def on_redo(self, count: str = "1") -> None:
        self.say_changes("done again", self.session.redo(number_of(count, 1)), "there is nothing to do again")

    def say_changes(self, what: str, changes: list[Change], nothing: str) -> None:
        named = [change.named for change in changes if change.named]
        if not named:
            raise Wrong(nothing)
        more = len(named) - NAMED
        self.face.paragraph(f"{what}: ", "; ".join(named[:NAMED]) + (f"; and {more} more" if more > 0 else ""))
        self.draw()

    def on_save(self, *words: str) -> None:
        overwrites = words[:1] == ("-f",)
        paths = [os.path.expanduser(word) for word in words[overwrites:]]
        if len(paths) not in (1, 2) or not overwrites and len(words) > 2:
            raise wrong_form("save")
        waiting = sum(section.waiting() for section in self.play.sections)
        if waiting and len(paths) > 1:
            raise Wrong(f"{counted(waiting, 'line')} waiting, so there is no text yet; run executes them")
        if len(self.play.sections) > 1 and len(paths) == 1 and not waiting:
            paths.append(os.path.splitext(paths[0])[0] + ".text")
        if len(set(paths)) < len(paths):
            raise Wrong("script and text need two files")
        self.face.save(dict(zip(paths, (self.play.script(), self.play.text()))), overwrites)
        self.kept = self.play.script()
        commands = len(self.play.executed) + waiting
        self.say(f"wrote {paths[0]}: {counted(len(self.play.sections), 'section')}, {counted(commands, 'command')}")
        for path in paths[1:]:
            self.say(f"wrote {path}: the replies in the order of execution, and the report")
        if waiting:
            self.say(f"{counted(waiting, 'command')} waiting, so no text is written")

    def on_quit(self) -> None:
        raise Ended

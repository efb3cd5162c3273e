"""A session from its first line to its last, with interrupts and a closed output."""
from __future__ import annotations

import argparse
import sys

from strm_tools.ends import end, end_for, end_wrong, name_of
from strm_tools.library import binding
from strm_tools.play import proved
from strm_tools.play.face import Face, Unreadable
from strm_tools.play.own import HeaderFault
from strm_tools.play.session import Session, changes_of
from strm_tools.play.shell import DEFAULT, Ended, Shell
from strm_tools.script import Wrong


def program_of(named: str | None, session: Session, face: Face) -> str | None:
    """The program that answers a session: the named one, which has to work, or one that is found, or None, also if the library replies."""
    if session.strm:
        face.say(f"The proved library {session.strm.version()} replies, in this process.")
        return None
    program = named or proved.find()
    if program is None:
        face.say("There is no built strm, so the plain model replies: strm's rules, written again in Python.")
        return None
    try:
        proved.text_of(program, session.pool_alone())
        return program
    except Wrong as why:
        if named:
            end(2, why)
        face.say(f"{why}, so the plain model replies.")
        return None


def begin(words: argparse.Namespace, face: Face) -> Session:
    """The session that a script, or without one a small pool, begins."""
    try:
        changes = changes_of(DEFAULT) if words.script is None else changes_of(face.read(words.script), words.script)
        return Session(changes, None if words.strm else binding())
    except Unreadable as why:
        end(2, f"{name_of(words.script)}: {why}")
    except Wrong as why:
        end_wrong(why, words)


def go_on(shell: Shell, face: Face) -> None:
    """Takes lines until the end. A fault of a header ends the program if no terminal shows it."""
    number = 0
    while True:
        number += 1
        try:
            sys.stdout.flush()
            line = face.line(shell.prompt())
            if line is None:
                if shell.goes_on():
                    continue
                shell.take_end()
                return
            shell.take(line)
        except Ended:
            return
        except HeaderFault as why:
            sys.stdout.flush()
            end(1, f"standard input: line {number}: {why}")
        except KeyboardInterrupt:
            if not face.is_terminal:
                raise
            face.say("")
            shell.interrupted()


def hold_session(words: argparse.Namespace) -> None:
    """Holds a session by the words of the command line."""
    face = Face()
    session = begin(words, face)
    program = program_of(words.strm, session, face)
    shell = Shell(session, program, face)
    face.complete_by(shell.complete)
    shell.greet(words.script)
    go_on(shell, face)
    sys.stdout.flush()


def talk(words: argparse.Namespace) -> None:
    """Holds a session, which ends if its output can't be written."""
    try:
        hold_session(words)
    except OSError as why:
        end_for("standard output", why)

"""The commands of a session that let several workers take turns, and execute lines that wait."""
from __future__ import annotations

import random
from typing import Callable

from strm_tools.play.own import number_of, wrong_form
from strm_tools.play.session import Play, Session, draw, drawn_order
from strm_tools.script import Wrong
from strm_tools.words import counted


# How many lines `until` shows, the last ones.
SHOWN = 5


class Turns:
    """These commands, as a part of the shell of a session."""

    session: Session
    say: Callable[..., None]
    say_rows: Callable[..., None]
    draw: Callable[..., None]
    answers: Callable[[], tuple[list[str], list[str]]]
    seed: int | None = None

    @property
    def play(self) -> Play:
        return self.session.play

    def worker_of(self, word: str) -> int:
        worker = number_of(word)
        if worker >= len(self.play.sections):
            raise Wrong(f"there is no worker {worker}; a line `worker` begins worker {len(self.play.sections)}")
        return worker

    def on_turn(self, word: str) -> None:
        worker = self.worker_of(word)
        self.session.do("turn_to", worker, named=f"turn {worker}")
        self.say(f"the lines that you enter are those of worker {worker}")

    def on_hold(self, off: str | None = None) -> None:
        if off not in (None, "off"):
            raise wrong_form("hold")
        self.session.do("hold", off is None, named="hold off" if off else "hold")
        self.say("the lines that you enter are executed at once" if off else "the lines that you enter wait, until next or run")

    def on_rewind(self) -> None:
        self.session.do("rewind", named="rewind")
        self.say_waiting()
        self.draw()

    def say_waiting(self) -> None:
        waiting = sum(section.waiting() for section in self.play.sections)
        self.say(f"{counted(waiting, 'line')} waiting: next executes one, until those up to a line, run all")

    def seeded(self, seed: int) -> int:
        """The seed, which is said if there is more than one worker to draw."""
        self.seed = seed
        if len(self.play.waiting()) > 1:
            self.say(f"seed {seed}")
        return seed

    def next_worker(self) -> int:
        """The worker whose line is executed next: the only one that waits, or a drawn one."""
        waiting = self.play.waiting()
        if not waiting:
            raise Wrong("no line waits")
        if len(waiting) == 1:
            return waiting[0]
        seed = self.seeded(random.randrange(10_000) if self.seed is None else self.seed)
        return draw(waiting, seed, len(self.play.executed))

    def on_next(self, word: str | None = None) -> None:
        worker = self.next_worker() if word is None else self.worker_of(word)
        if not self.play.sections[worker].waiting():
            raise Wrong(f"no line of worker {worker} waits")
        for comment in self.play.sections[worker].comments():
            self.say(comment)
        self.serve("serve", [worker], "next")

    def on_run(self, word: str | None = None) -> None:
        if not self.play.waiting():
            raise Wrong("no line waits")
        seed = self.seeded(random.randrange(10_000) if word is None else number_of(word))
        self.serve("run", drawn_order(self.play, seed), f"run {seed}")

    def on_until(self, word: str) -> None:
        number = number_of(word, 1)
        found = self.play.waiting_up_to(number)
        if found is None:
            raise Wrong(f"no worker has a line {number}; list shows the lines that were executed, workers those that wait too")
        worker, count = found
        if count == 0:
            raise Wrong(f"no line waits up to line {number}; rewind has all lines wait again")
        self.serve("serve", [worker] * count, f"until {number}", SHOWN)

    def serve(self, method: str, workers: list[int], named: str, most: int | None = None) -> None:
        """Executes waiting lines of these workers, and shows them with their replies: all, or the last ones."""
        self.session.do(method, workers, named=named)
        replies = self.answers()[0]
        rows = list(self.play.rows())
        left_out = 0 if most is None else max(0, len(workers) - most)
        if left_out:
            self.say(f".. {counted(left_out, 'line')}; list shows all")
        self.say_rows([(at, text, reply) for (at, text, _), reply in zip(rows, replies)][left_out - len(workers) :])
        self.draw(anew=False)

    def on_workers(self) -> None:
        for worker, section in enumerate(self.play.sections):
            self.say(f"worker {worker}: {counted(len(section.commands()), 'line')} executed, {section.waiting()} waiting")
            self.say_rows([(at, text, reply or "(waiting)") for at, text, reply in self.play.rows_of_section(worker)])

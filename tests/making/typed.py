"""A program in a pseudo-terminal: what is typed into it, and what it shows."""
import fcntl
import os
import pty
import re
import select
import signal
import struct
import subprocess
import termios
import time

SECONDS = 20
# What sets colours, and what rings.
CODES = re.compile(r"\x1b\[[0-9;?]*[A-Za-z]|\a")


def take_interrupts():
    """Lets a program be interrupted, also where the shell ignores interrupts, as for a script in the background."""
    signal.signal(signal.SIGINT, signal.SIG_DFL)


def begin_terminal():
    """Gives a program the terminal that is its input, as a user's shell does."""
    fcntl.ioctl(0, termios.TIOCSCTTY, 0)
    take_interrupts()


class Typed:
    """A program whose input, output and terminal are a window of this size."""

    def __init__(self, command, lines=40, columns=80, cwd=None, **environment):
        own, other = pty.openpty()
        fcntl.ioctl(other, termios.TIOCSWINSZ, struct.pack("HHHH", lines, columns, 0, 0))
        variables = {name: value for name, value in os.environ.items() if name not in ("LINES", "COLUMNS", "NO_COLOR")}
        variables.update({"TERM": "xterm", "INPUTRC": "/dev/null", **environment})
        streams = dict.fromkeys(["stdin", "stdout", "stderr"], other)
        self.ran = subprocess.Popen(command, **streams, env=variables, cwd=cwd, start_new_session=True, preexec_fn=begin_terminal)
        os.close(other)
        self.terminal = own

    def until(self, wanted, seconds=SECONDS):
        """What is shown until a pattern is at its end, until the program ends, or for so many seconds."""
        text, last = "", time.monotonic() + seconds
        while not re.search(wanted + r"\Z", CODES.sub("", text)) and time.monotonic() < last:
            if not select.select([self.terminal], [], [], 0.1)[0]:
                continue
            try:
                piece = os.read(self.terminal, 65536)
            except OSError:
                piece = b""
            if not piece:
                break
            text += piece.decode("utf-8", "replace").replace("\r\n", "\n")
        return text

    def type(self, text, wanted):
        """Types a text, and returns what is shown until a pattern."""
        os.write(self.terminal, text.encode())
        return self.until(wanted)

    def interrupt(self, wanted):
        """Types Ctrl-C once the program waits, and returns what is shown until a pattern."""
        # Python misses a signal between its look for signals and its wait for input.
        text, last = "", time.monotonic() + SECONDS
        while not re.search(wanted + r"\Z", CODES.sub("", text)) and time.monotonic() < last:
            time.sleep(0.2)
            os.write(self.terminal, b"\x03")
            text += self.until(wanted, 3)
        return text

    def end(self):
        """The status at the end, and what was still shown."""
        rest = self.until("(?!)")
        try:
            status = self.ran.wait(SECONDS)
        except subprocess.TimeoutExpired:
            self.ran.kill()
            status = None
        os.close(self.terminal)
        return status, rest

    def leave(self):
        """The same after Ctrl-D."""
        os.write(self.terminal, b"\x04")
        return self.end()

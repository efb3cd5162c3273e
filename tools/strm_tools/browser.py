"""Chromium without a window, for what only a browser draws."""
from __future__ import annotations

import shutil
import subprocess
import tempfile
from typing import NamedTuple

from strm_tools.ends import end

NAMES = ("chromium", "chromium-browser", "google-chrome")
SECONDS = 400
WITHOUT = ["--headless", "--no-sandbox", "--disable-gpu", "--disable-dev-shm-usage"]


class Failed(Exception):
    """How a run of the browser ended, where it did not end well."""


def found() -> str | None:
    return next(filter(None, map(shutil.which, NAMES)), None)


def chromium() -> str:
    """The browser's program. If there is none, ends the program."""
    return found() or end(2, "there is no Chromium, which Debian has as the package chromium")


class Browser(NamedTuple):
    """The browser's program, and a folder that it may write in."""

    program: str
    room: str

    def run(self, address: str, *words: str) -> str:
        with tempfile.TemporaryDirectory(dir=self.room) as profile:
            own = [self.program, *WITHOUT, f"--user-data-dir={profile}"]
            try:
                ran = subprocess.run([*own, *words, address], capture_output=True, text=True, timeout=SECONDS)
            except subprocess.TimeoutExpired:
                raise Failed(f"Chromium takes more than {SECONDS} seconds")
        if ran.returncode != 0:
            raise Failed(f"Chromium ends with status {ran.returncode}: {ran.stderr}")
        return ran.stdout

    def dom(self, path: str, frame: int | None = None, width: int = 1280) -> str:
        address = f"file://{path}" + ("" if frame is None else f"#frame={frame}")
        return self.run(address, "--dump-dom", f"--window-size={width},900")

    def picture(self, address: str, png: str, width: int, height: int, dark: bool) -> None:
        scheme = f"--blink-settings=preferredColorScheme={0 if dark else 1}"
        self.run(address, f"--screenshot={png}", f"--window-size={width},{height}", scheme)

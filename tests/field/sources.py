"""Debian's source packages, fetched by apt-get with lists of its own, which are gone with the folder that they stand in."""
import glob
import os
import platform
import subprocess
from typing import NamedTuple

MIRROR = "http://deb.debian.org/debian"
KEYRING = "/usr/share/keyrings/debian-archive-keyring.gpg"
# A suite whose ppp has its STREAMS modules, where that of this machine has none.
OTHER_SUITE = "bookworm"


class Unreachable(Exception):
    """Why there are no sources."""


class Source(NamedTuple):
    """A source package: its name, its version and where it is unpacked."""

    name: str
    version: str
    folder: str


def run(*words, folder):
    try:
        ran = subprocess.run(words, cwd=folder, capture_output=True, text=True)
    except OSError as why:
        raise Unreachable(f"{words[0]}: {why.strerror}") from None
    if ran.returncode != 0:
        said = ran.stderr.strip().splitlines() or [f"status {ran.returncode}"]
        raise Unreachable(f"{words[0]}: {said[-1]}")


def own_suite():
    """The suite of this machine, where it is Debian's."""
    try:
        release = platform.freedesktop_os_release()
    except OSError:
        release = {}
    return release.get("VERSION_CODENAME", OTHER_SUITE) if release.get("ID") == "debian" else OTHER_SUITE


class Suite:
    """The sources of a suite, fetched into a folder."""

    def __init__(self, name, folder):
        self.folder = folder
        for part in ("state/lists/partial", "cache/archives/partial"):
            os.makedirs(os.path.join(folder, part), exist_ok=True)
        with open(os.path.join(folder, "sources.list"), "w") as file:
            file.write(f"deb-src [signed-by={KEYRING}] {MIRROR} {name} main\n")
        self.apt_get("update", "--error-on=any")

    def apt_get(self, *words):
        settings = {
            "Dir::Etc::SourceList": os.path.join(self.folder, "sources.list"),
            "Dir::Etc::SourceParts": "-",
            "Dir::State": os.path.join(self.folder, "state"),
            "Dir::Cache": os.path.join(self.folder, "cache"),
            "APT::Sandbox::User": "root",
            "Acquire::Retries": "1",
            "Acquire::http::Timeout": "30",
        }
        run("apt-get", *(f"-o{key}={value}" for key, value in settings.items()), *words, folder=self.folder)

    def source(self, name):
        """Fetches a source package, and unpacks it with Debian's changes."""
        self.apt_get("source", "--download-only", name)
        (description,) = glob.glob(os.path.join(self.folder, f"{name}_*.dsc"))
        version = os.path.basename(description)[len(name) + 1 : -len(".dsc")]
        folder = os.path.join(self.folder, name)
        run("dpkg-source", "--no-check", "-x", description, folder, folder=self.folder)
        return Source(name, version, folder)


def sources(room):
    """The suite that has them, and the sources of ppp with its STREAMS modules and of lwip."""
    for name in dict.fromkeys([own_suite(), OTHER_SUITE]):
        folder = os.path.join(room, name)
        os.mkdir(folder)
        suite = Suite(name, folder)
        ppp = suite.source("ppp")
        if os.path.exists(os.path.join(ppp.folder, "modules", "ppp_ahdlc.c")):
            return name, ppp, suite.source("lwip")
    raise Unreachable(f"the ppp of {name} has no STREAMS modules")

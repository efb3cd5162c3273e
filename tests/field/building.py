"""Builds the players: each is one program, of a source of Debian's as it is, and of what stands here."""
import glob
import os
import subprocess
from typing import NamedTuple

HERE = os.path.dirname(os.path.abspath(__file__))
TOP = os.path.dirname(os.path.dirname(HERE))
DDI = os.path.join(TOP, "ddi")
# What ppp's modules include that is no part of ddi.
OF_PPP = os.path.join(TOP, "tests", "ddi")
PLAYERS = os.path.join(HERE, "players")
OPTIONS = os.path.join(HERE, "options")
# Ways of System V Release 4 in which the modules can be built.
VARIANTS = {
    "ppp": [],
    # As for several processors, where a message that is pulled up is copied; and with packets of the network layer in bands.
    "ppp in bands": ["-DD_MP", "-DPRIOQ"],
}
MODULES = "ppp ppp_ahdlc ppp_comp vjcompress bsd-comp".split()
# The modules take no compiler for granted; what they call `time` is no function.
OF_A_KERNEL = "-std=gnu89 -w -DSVR4 -U__GNUC__ -Dtime=kernel_time -DDO_DEFLATE=0".split()
OWN = "-std=gnu11 -Wall -Wextra -Werror".split()
BUFFERS = "pbuf mem memp def stats".split()


class Player(NamedTuple):
    """A program that plays as drawn, and tells its calls."""

    name: str
    program: str


def compile_one(room, source, words):
    """Compiles a file into an object in a folder."""
    name = os.path.basename(os.path.dirname(source)) + "-" + os.path.basename(source)
    made = os.path.join(room, name.replace(".c", ".o"))
    subprocess.run(["cc", "-O1", *words, "-c", source, "-o", made], check=True)
    return made


def link(room, name, objects):
    """Links a player. What it keeps stands at the same place in each run, since messages may have addresses in them."""
    program = os.path.join(room, name.replace(" ", "_"))
    subprocess.run(["cc", "-no-pie", "-o", program, *objects], check=True)
    return Player(name, program)


def build_ppp(room, source, name, variant, archive):
    """A player of ppp's modules, built in one of their ways, over ddi and the library for C."""
    own = os.path.join(room, name.replace(" ", "-"))
    os.mkdir(own)
    words = [f"-I{folder}" for folder in (DDI, os.path.join(DDI, "include"), OF_PPP, os.path.join(TOP, "c"), os.path.join(source.folder, "include"))]
    modules = [os.path.join(source.folder, "modules", f"{module}.c") for module in MODULES]
    objects = [compile_one(own, module, [*OF_A_KERNEL, *variant, *words]) for module in modules]
    here = glob.glob(os.path.join(DDI, "src", "*.c")) + [os.path.join(PLAYERS, f"{part}.c") for part in ("dice", "packets", "line", "looks", "ppp")]
    objects += [compile_one(own, part, [*OWN, *words]) for part in here]
    return link(own, name, [*objects, archive])


def build_lwip(room, source):
    """A player of lwIP's buffers."""
    own = os.path.join(room, "lwip-built")
    os.mkdir(own)
    core = os.path.join(source.folder, "src", "core")
    words = [f"-I{OPTIONS}", f"-I{os.path.join(source.folder, 'src', 'include')}"]
    objects = [compile_one(own, os.path.join(core, f"{part}.c"), [*words, "-w"]) for part in BUFFERS]
    objects += [compile_one(own, os.path.join(PLAYERS, f"{part}.c"), [*words, *OWN]) for part in ("dice", "lwip")]
    return link(own, "lwip", objects)


def players(room, ppp, lwip, archive):
    return [*(build_ppp(room, ppp, name, variant, archive) for name, variant in VARIANTS.items()), build_lwip(room, lwip)]

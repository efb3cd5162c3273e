"""Names of STREAMS, of C and of Rattle for which strm has another command or none. docs/FROM-STREAMS.md of the
repository says more of each."""
from __future__ import annotations

import re
from typing import Collection

# What a script has for a routine.
INSTEAD = {
    "allocb_cred": "allocb R SIZE",
    "allocb_wait": "allocb R SIZE, and bufcall SIZE if that is refused",
    "appq": "insq Q K R",
    "bcanputnext": "bcanput Q B, with the next queue as Q",
    "canput": "bcanput Q 0",
    "canputnext": "bcanput Q 0, with the next queue as Q",
    "esbbcall": "bufcall SIZE",
    "mi_bufcall": "bufcall SIZE",
    "mcopymsg": "read R AT, and then freemsg R",
    "miocpullup": "unlinkb R S, then pullupmsg S N, and then linkb R S",
    "mkiocb": "allocb R SIZE, then settype R K M_IOCTL, and then write R K HEX",
    "msgpullup": "dupmsg R S, and then pullupmsg S N",
    "msgsize": "size R",
    "next_service": "service",
    "qbufcall": "bufcall SIZE",
    "qunbufcall": "unbufcall ID",
    "take_ready": "ready",
    **dict.fromkeys(["datamsg", "pcmsg", "queclass", "DB_TYPE", "DB_REF", "MBLKL", "MBLKTAIL", "MBLKSIZE", "MBLKHEAD"], "block R K"),
    **dict.fromkeys(["esballoc", "esballoca", "desballoc", "desballoca"], "allocb R SIZE, and then write R K HEX"),
}
# Routines that no command of a script replaces, by what to do in a script instead.
ADVICE = {
    "write the commands of the queue's put procedure, often putq Q R": ["put"],
    "write the commands of the next queue's put procedure, often putq Q R with the next queue as Q": ["putnext"],
    "write the commands of the put procedure of the next queue in the other direction, often putq Q R": ["qreply"],
    "make the message by allocb R SIZE and settype R K TYPE, and write the commands of the put procedure, often putq Q R": ["putctl", "putnextctl"],
    "make the message by allocb R SIZE, settype R K TYPE and write R K HEX, and write the commands of the put procedure, often putq Q R": [
        "putctl1",
        "putnextctl1",
    ],
    "the header fixes each next queue, by the last word of the queue's line": ["backq", "unweldq", "weldq"],
    "the report shows noenable of each queue": ["canenable"],
    "no other command runs during a command, and nothing holds several commands together": ["freezestr", "qwriter", "splstr", "splx", "unfreezestr"],
    "there are no streams or modules, so leave it out": [
        *["getadmin", "getmid", "qassociate", "qprocsoff", "qprocson", "SAMESTR", "str_install", "wantio", "wantmsg"],
    ],
    "write the copyreq by adjmsg R N and write R K HEX, and set the type by settype R K TYPE": ["mcopyin", "mcopyout"],
    "write over the first block by adjmsg R N and write R K HEX, and set the type by settype R K TYPE": ["merror", "mexchange"],
    "write the iocblk anew by adjmsg R N and write R K HEX, set the type by settype R K TYPE, and reply as for qreply": ["miocack", "miocnak"],
    "each direction has its own queue; write the number of the other one": ["OTHERQ", "RD", "WR"],
    "a script has no clock; write qenable Q where the timer would run": ["mi_timer", "qtimeout", "quntimeout", "timeout", "untimeout"],
    "no command waits; ask again by bcanput Q B, ready or service": ["qwait", "qwait_sig"],
    "a comment, a line that begins with #, may say what happens": ["strlog"],
}
ADVICE_ON = {name: advice for advice, names in ADVICE.items() for name in names}
OF_MI_FAMILY = "keep a table of your own by queue number"
# Types of later systems.
NO_TYPE = """
    M_CMD M_EVENT M_HPDATA M_MULTIDATA M_NOTIFY M_PCCTL M_PCEVENT M_PCRSE M_RSE M_STARTI M_STOPI M_UNHANGUP
""".split()
ADVICE_ON_TYPES = "for data use M_PROTO or M_PCPROTO, for anything else M_CTL or, of high priority, M_PCSIG"
FLUSHES = {"FLUSHALL": "all", "FLUSHDATA": "data", "STRM_FLUSHALL": "all", "STRM_FLUSHDATA": "data"}


def command_for(name: str, commands: Collection[str]) -> str | None:
    """What a script has for a name that is none of these commands, as a hint, or None."""
    if name.startswith("strm_") and name[5:] in (*commands, *INSTEAD):
        name = name[5:]
        if name in commands:
            return f"a command has no strm_ before it: write {name}"
    if name in INSTEAD:
        return f"instead of {name} write {INSTEAD[name]}"
    if name in ADVICE_ON or re.fullmatch("mi_[a-z_]{1,20}", name):
        return f"strm has no {name}: {ADVICE_ON.get(name, OF_MI_FAMILY)}"
    return None


def hint_for(word: str, commands: Collection[str]) -> str | None:
    """What a script has for a word that may be a name of STREAMS in letters of another case, as a hint, or None."""
    return next(filter(None, (command_for(name, commands) for name in (word, word.lower(), word.upper()))), None)

#!/usr/bin/env python3
"""Tests bindings/python over the library that STRM_LIBRARY names. With files of tests/c/drawn.c, the pool does the calls of SCRIPT, and must give the
replies of TEXT and its report. Without, it tests what the binding adds to the calls of strm.h, and if Debian's hypothesis is there, drawn lines beside
the plain model of the tools. The last line is 'N passed, M failed'.

    PYTHONPATH=bindings/python:tools tests/bindings/each.py [SCRIPT TEXT]
"""
import gc
import os
import subprocess
import sys
import threading

import strm
from strm_tools import model, script
from strm_tools.library import Library
from strm_tools.listing import listed
from strm_tools.play.session import Session, changes_of

TOP = os.path.dirname(os.path.dirname(os.path.dirname(os.path.abspath(__file__))))
passed = failed = 0


def check(holds, what):
    """Counts a check."""
    global passed, failed
    passed, failed = passed + bool(holds), failed + (not holds)
    if not holds:
        print(f"not {what}")


def refused(code, call, *args):
    """Counts whether a call is refused with a code."""
    try:
        call(*args)
    except strm.Refusal as why:
        check(why.code == code, f"{code.name} but {why.code!r} of {call.__name__}")
    else:
        check(False, f"{code.name} of {call.__name__}")


# ---- lines of scripts


def play(script_text, text):
    """Counts a script whose replies are right, each 1,000 lines as one."""
    pool, (section,) = script.lazily(script_text)
    player = Library(strm, pool)
    player.begin()
    replies = text.splitlines()
    for start in range(0, len(section), 1000):
        part = range(start, min(start + 1000, len(section)))
        wrong = [k for k in part if player.answer(*section[k][1:]) != replies[k]]
        check(not wrong, f"the reply of strm to call {wrong[:1]}, {[section[k] for k in wrong[:1]]}: {[replies[k] for k in wrong[:1]]}")
    check(len(section) > 0 and replies[len(section) :] == player.report(), "the report after the last line")


# ---- what the binding adds


def pool_of(**changed):
    given = {"mblks": 40, "classes": [(8, 40)], "queues": [strm.QueueSpec(64, 16, 1, 1), strm.QueueSpec()]}
    return strm.Pool(**{**given, **changed})


def filled(pool, data):
    msg = pool.allocb(8)
    msg.write(0, data)
    return msg


def messages():
    with pool_of() as pool, pool_of() as other:
        msg, kept = filled(pool, b"lion"), filled(pool, bytearray(b"wolf"))
        check(msg.read() == b"lion" and msg.read(1, 2) == b"io" and msg != kept and msg == pool.adopt(msg.name), "two messages")
        check(repr(msg) == "<Message 0: M_DATA band=0 bytes 6c696f6e>", f"the text of a message: {msg!r}")
        check(repr(pool) == f"<Pool {pool.id}: free=38 queued=0 held=2>", f"the text of a pool: {pool!r}")
        pool.queues[0].put(msg)
        check(repr(msg) == "<Message, spent>" and repr(pool.queues[0]) == "<Queue 0: msgs=1 bytes=4 read=1 noenable=0 enabled=1>", "the text of a queue")
        check([it.bytes for it in pool.queues[0]] == [4] and pool.queues[0].read_queued(0) == b"lion", "the messages on a queue")
        first, last = pool.queues[0].first_queued(), pool.queues[0].last_queued()
        check(pool.queued_after(first) is pool.queued_before(last) is None and pool.run_at(0) == 0, "one message on a queue")
        check([bytes(part) for part in pool.queued_iov(first)] == [bytes(pool.queued_bytes(first, 0))] == [b"lion"], "its bytes in place")
        check(first == last and pool.queue_of(first) is pool.queues[0] and pool.queues[1].last_queued() is None, "the queue of a message")
        for call in (msg.freemsg, msg.size, msg.dupb, msg.unlinkb, msg.freeb):
            refused(strm.Code.INVALID, call)
        refused(strm.Code.INVALID, pool.queues[0].put, msg)
        refused(strm.Code.INVALID, other.queues[0].put, kept)
        refused(strm.Code.INVALID, kept.linkb, kept)
        refused(strm.Code.NO_SUCH_BLOCK, kept.block, 1)
        refused(strm.Code.BAD_ARGUMENT, kept.block, -1)
        refused(strm.Code.BAD_ARGUMENT, pool.allocb, 2**32 + 1)
        refused(strm.Code.BAD_ARGUMENT, kept.adjmsg, 2**31)
        moved = kept.transfer(other)
        check(moved.read() == b"wolf" and not kept.has() and other.census().held == 1, "a message in another pool")
        with filled(pool, b"bear") as freed:
            freed.setband(3)
        check(not freed.has() and pool.census() == (39, 1, 0), "a message that is freed at the end")
        with pool.queues[0].get() as passed_on:
            pool.queues[1].put(passed_on)
        name = filled(pool, b"leak").name
        check([*pool.leaked()] == [name] and pool.adopt(name).read() == b"leak", "a message that leaked")
        first = filled(pool, b"ab")
        first.linkb(filled(pool, b"cd"))
        first.prepend(b"") or first.overwrite(1, b"BC")
        check([bytes(part) for part in first.iov()] == [b"aB", b"Cd"] and [it.length for it in first.blocks()] == [2, 2], "the bytes of blocks")
        check(first.block_number(0) == first.name.head != first.block_number(1), "the numbers of blocks")
        check(first.place(1).capacity == 8 and first.rmvb(0).read() == b"aB" and first.read() == b"Cd", "a block that is taken out")
        check(first.unlinkb() is None and first.freeb() is None and not first.has(), "the last block")
        refused(strm.Code.NO_SUCH_PLACE, pool.queue_of, 39)
        refused(strm.Code.NO_SUCH_PLACE, pool.queued_iov, 39)
        refused(strm.Code.NO_SUCH_BLOCK, pool.queued_bytes, pool.queues[1].first_queued(), 1)
        check(pool.report().splitlines()[:2] == ["blocks free=37 queued=1 held=2 total=40", "data size=8 free=37 total=40"], f"a report: {pool.report()}")
    refused(strm.Code.NOT_OPEN, pool.allocb, 1)
    check(pool.report() == "", "no report after the end")
    check("closed" in repr(pool) and "closed" in repr(pool.queues[0]) and repr(name and moved) == "<Message, spent>", "texts after the end")


def bytes_in_place():
    with pool_of() as pool:
        msg = filled(pool, b"lion")
        view = msg.bytes(0)
        check(view.readonly and bytes(view) == b"lion" and msg.size() == 4 and bytes(view[1:]) == b"ion", "bytes in place, after a look")
        pool.queues[0].qenable()
        try:
            check(view[0] < 0, "no byte after a change")
        except ValueError:
            check(True, "")
        view = msg.bytes(0)
        held = memoryview(view).__class__(view)
        del held
        check(len(msg.bytes(0)) == 4 and not msg.rmvb(0).size() != 4, "bytes twice")
        msg = filled(pool, b"lion")
        view, room, own = msg.bytes(0), msg.room(0), msg.edit(0)
        own[0], room[:2] = ord("L"), b"s!"
        check(view.readonly and bytes(view) == b"Lion" == msg.read() and len(room) == 4, "bytes that are changed in place")
        msg.advance(0, 1)
        check(msg.read() == b"Lions" and len(msg.room(0)) == 3, "room that was written")
        for view in (room, own):
            try:
                view[0] = 0
                check(False, "no byte written after a change")
            except ValueError:
                check(True, "")
        msg.advance(0, 3)
        check(len(msg.room(0)) == 0, "no room")
        msg.shape(0, 1, 3)
        check(msg.read() == b"ion" and bytes(msg.window(0)) == b"Lions!\0\0", "a block's places in its data block")
        msg.shape(0, 0, 8)
        msg.shape_all([strm.BlockShape(1, 3, strm.MsgType.M_PROTO, 2)])
        check(msg.read() == b"ion" and msg.block(0)[:3] == (strm.MsgType.M_PROTO, 3, 2), "a block's places, type and band")
        for number in (-1, 256, 2**32):
            refused(strm.Code.BAD_ARGUMENT, msg.shape_all, [strm.BlockShape(0, 8, 0, number)])
        refused(strm.Code.NO_SUCH_BLOCK, msg.shape_all, [strm.BlockShape(0, 8, 0, 0)] * 2)
        msg.shape_all([]) or msg.shape_all([strm.BlockShape(0, 8, 0, 0)])
        copy = msg.dupb()
        refused(strm.Code.SHARED, msg.edit, 0)
        refused(strm.Code.NO_SUCH_BLOCK, copy.room, 1)
        check(msg.read() == b"Lions!\0\0", "bytes after refused calls")


def by_heads():
    with pool_of() as pool:
        last, first = filled(pool, b"last"), filled(pool, b"first")
        head, name = last.name.head, first.name
        pool.queues[1].insq_at(None, last)
        pool.queues[1].insq_at(head, first)
        check([it.head for it in pool.queues[1]] == [name.head, head], "messages that are put by their first blocks")
        check(pool.rmvq_msg(head).read() == b"last" and not last.has(), "a message that is taken by its first block")
        refused(strm.Code.NO_SUCH_PLACE, pool.rmvq_msg, head)
        check(pool.least_free_blocks() == pool.least_free(0) == 38 and pool.least_free(1) is None, "the fewest free blocks")
        pool.rmvq_msg(name.head).freemsg()
        pool.reset_least()
        check(pool.least_free_blocks() == pool.least_free(0) == 39, "the fewest free blocks from now on")
        base, size, stride = pool.region(0)
        check(base > 0 and size == 40 * stride and stride >= 8 and pool.region(1) is None, "the data blocks of a class")


def series():
    with pool_of() as pool:
        msgs = pool.allocb_n(8, 50)
        check(len(msgs) == 40 and len({msg.name for msg in msgs}) == 40, "40 messages")
        refused(strm.Code.NO_MBLK, pool.allocb_n, 8, 1)
        msgs[30].freemsg()
        check(pool.queues[1].put_n(msgs) == 30 and not msgs[29].has() and msgs[31].has(), "30 messages put")
        check(pool.freemsg_n(msgs[31:]) == 9 and len(pool.queues[1].get_n(50)) == 30 and pool.queues[1].get_n(1) == [], "the others")


def pools():
    refused(strm.Code.BAD_MBLKS, strm.Pool, 0, [(8, 1)], [strm.QueueSpec()])
    refused(strm.Code.BAD_ARGUMENT, strm.Pool, 8, [(8, 1)], [strm.QueueSpec()] * 17)
    refused(strm.Code.BAD_ARGUMENT, strm.Pool, 8, [(8, -1)], [strm.QueueSpec()])
    check(strm.Pool.memory(40, [(8, 40)], [strm.QueueSpec()]) > 320, "the bytes of a pool")
    with open(os.path.join(TOP, "VERSION"), encoding="utf-8") as file:
        check(strm.version() == file.read().strip(), "the version")
    try:
        pool_of().allocb(9)
    except strm.Refusal as why:
        check(str(why) == "the size is above the largest class" and why.name == "STRM_TOO_LARGE", "the text of a refusal")
    gc.collect()
    check(type(strm._LIBRARY) is strm.ctypes.PyDLL, "the interpreter's lock during each call")
    with pool_of(mblks=400, classes=[(8, 400)]) as pool:
        sent = [threading.Thread(target=lambda: [pool.queues[1].put(filled(pool, b"n")) for _ in range(100)]) for _ in range(4)]
        for thread in sent:
            thread.start()
        for thread in sent:
            thread.join()
        check(pool.queues[1].size() == 400 and pool.queues[1].spec().next == 2**32 - 1, "the messages of four threads")


# ---- the tools


def said_by(tool, *words, **given):
    return subprocess.run([sys.executable, os.path.join(TOP, "tools", tool), *words], capture_output=True, text=True, **given).stdout


def tools():
    """strm-play and strm-list have the library reply, say so, and say where it differs from the plain model."""
    path = os.path.join(TOP, "examples", "full_band.strm")
    said = said_by("strm-play", path, input="getq 0 e\nworker\nsize c\nundo 2\nreport\nbcanput 0 0\n").splitlines()
    check(said[0] == f"The proved library {strm.version()} replies, in this process.", f"that the library replies: {said[0]!r}")
    wanted = ["ok", "worker 1 begins, with empty registers", "empty", "taken back: size c; worker", "blocks free=6 queued=0 held=2 total=8"]
    check(said[-10:-5] == wanted and said[-1] == "yes", f"the session {said}")
    near, far = os.openpty()
    subprocess.run([sys.executable, os.path.join(TOP, "tools", "strm-list"), path], stdout=subprocess.PIPE, stderr=far, check=True)
    noted = os.read(near, 1000)
    check(noted == f"strm-list: the proved library {strm.version()} replies, in this process\r\n".encode(), f"the note {noted}")
    with open(path, encoding="utf-8") as file:
        text = file.read()
    right, why = Library.answer, "libstrm says 'no', and the plain model 'yes': one has a fault; please report it"
    Library.answer = lambda self, word, *rest: "no" if word == "bcanput" else right(self, word, *rest)
    try:
        listed(text)
    except script.Wrong as fault:
        check(str(fault) == why, f"the fault {fault}")
    else:
        check(False, "a fault of a library that is wrong")
    check(Session(changes_of(text), strm).play.differs == why, "a fault in a session")
    Library.answer = right
    check(Session(changes_of(text), strm).play.differs == "", "no fault in a session")


# ---- drawn lines beside the model


def properties():
    try:
        from hypothesis import given, settings
        from hypothesis import strategies as st
    except ImportError:
        print("not run: drawn lines beside the plain model: there is no hypothesis (Debian package python3-hypothesis)")
        return
    drawn = {
        "from": st.sampled_from("abc"), "to": st.sampled_from("abc"), "queue": st.integers(0, 2), "band": st.sampled_from([0, 1, 255]),
        "marked": st.sampled_from([0, 1]), "octets": st.binary(max_size=5), "kind": st.sampled_from(model.ORDINARY + model.HIGH_PRIORITY),
        "flag": st.sampled_from(["all", "data"]), "count": st.integers(-6, 6), "size": st.integers(0, 9), "id": st.integers(0, 4),
    }  # fmt: skip
    line = st.sampled_from(sorted(model.WORDS)).flatmap(
        lambda word: st.tuples(st.just(word), st.tuples(*(drawn.get(item, st.integers(0, 4)) for item in model.WORDS[word].items)))
    )

    # Drawn lines seldom bring a message on a queue by themselves.
    first = [("allocb", ("a", 4)), ("write", ("a", 0, b"lion")), ("allocb", ("b", 8)), ("putq", (0, "a")), ("dupb", ("b", "c")), ("putq", (1, "c"))]

    @settings(max_examples=300, deadline=None, database=None, derandomize=True)
    @given(st.lists(line, max_size=40))
    def same(lines):
        of = model.Pool(6, [(4, 4), (8, 2)], [(6, 3, "s", 1), (8, 2, "s", "-")], 2, 1)
        plain, player = model.Model(of), Library(strm, of)
        plain.begin()
        player.begin()
        for word, values in [*first, *lines]:
            items = model.WORDS[word].items
            assert player.answer(word, items, values) == plain.answer(word, items, values), (word, values)
        assert player.report() == plain.report()

    try:
        same()
        check(True, "")
    except AssertionError as fault:
        check(False, f"the reply of the model: {fault}")


if len(sys.argv) == 3:
    texts = []
    for path in sys.argv[1:]:
        with open(path, encoding="utf-8") as file:
            texts.append(file.read())
    play(*texts)
else:
    for test in (messages, bytes_in_place, by_heads, series, pools, tools, properties):
        test()
print(f"{passed} passed, {failed} failed")
sys.exit(1 if failed else 0)

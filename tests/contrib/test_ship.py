"""contrib/ship: a copy that follows a store by its batches, over kills of either side."""
import hashlib
import os
import random
import signal
import subprocess
import sys
import time

import files
from common import LOGIN, PATIENCE, TOP, Server, files_in, holds, refuses, same, script, tool, works

SHIP = os.path.join(TOP, "contrib/ship")


def objects_of(folder, store):
    """What tests/store/files.py reads of the two files of a store."""
    found = files_in(folder)
    it = files.read(found.get(f"{store}.a", b""), found.get(f"{store}.b", b""))
    assert isinstance(it, files.World), (store, it)
    return it


def is_same(folder):
    """The copy holds what the store holds."""
    world, copy = objects_of(folder, "world"), objects_of(folder, "copy")
    same("the objects", copy.objects, world.objects)
    same("what is tuned", copy.tuned, world.tuned)


def dumps(folder, count, said="ball"):
    """A run that makes so many dumps, and the last one."""
    script(folder, LOGIN + "".join(f"send 1 @create {said} {n}\nsend 1 @dump\n" for n in range(count)))


def children(pid):
    with open(f"/proc/{pid}/task/{pid}/children", encoding="ascii") as file:
        return list(map(int, file.read().split()))


def once(folder):
    dumps(folder, 2)
    same("nothing yet", works("ship", "behind", "world", "copy", folder=folder), "3 dumps behind: the copy holds nothing\n")
    same("all", works("ship", "send", "world", "copy", "--once", "--tell", folder=folder).split(",")[0], "3 shipped")
    is_same(folder)
    same("nobody else reads it", os.stat(os.path.join(folder, "copy.a")).st_mode & 0o77, 0)
    same("in step", works("ship", "behind", "world", "copy", folder=folder), "0 dumps behind, 0 seconds\n")
    past = time.time() - 100
    os.utime(os.path.join(folder, "copy.a"), (past, past))
    dumps(folder, 1)
    holds("behind", works("ship", "behind", "world", "copy", folder=folder), "2 dumps behind, 10")
    same("the rest", works("ship", "send", "world", "copy", "--once", "--tell", folder=folder).split(",")[0], "2 shipped")
    same("nothing more", works("ship", "send", "world", "copy", "--once", "--tell", folder=folder), "")
    is_same(folder)
    # a run begins on the copy
    holds("a run", script(folder, LOGIN + "send 1 inventory\n", "copy"), "ball 0")


def other_files(folder):
    """A file takes 64 dumps, then the other one begins; a copy that slept over that, once and twice, follows all the same."""
    for count in (3, 66, 140):
        dumps(folder, count)
        works("ship", "send", "world", "copy", "--once", folder=folder)
        is_same(folder)
        same("in step", works("ship", "behind", "world", "copy", folder=folder), "0 dumps behind, 0 seconds\n")


def refusals(folder):
    holds("no store", refuses("ship", "send", "world", "copy", "--once", folder=folder), "there is no store world")
    dumps(folder, 1)
    works("ship", "send", "world", "copy", "--once", folder=folder)
    script(folder, LOGIN + "send 1 @create cat\n", "copy")
    before = files_in(folder)
    holds("another world", refuses("ship", "send", "world", "copy", "--once", folder=folder), "the copy holds what world doesn't")
    same("nothing is changed", files_in(folder), before)
    status, _, why = tool("ship", "send", "world", "far", "--once", "--over", "false", folder=folder)
    same("no far end", (status, why), (1, "ship: the far end has gone\n"))
    status, out, why = tool("ship", "receive", "copy", folder=folder, typed=b"batch 0 4 00 0\nMUCK")
    same("something else", (status, why), (1, "ship: what came isn't what was sent\n"))
    place = os.path.getsize(os.path.join(folder, "copy.a")) - 1
    for number, generation in ((9, 1), (4, 2), (2, 1)):
        body = b"MUCK\x01" + generation.to_bytes(8, "big") + number.to_bytes(8, "big") + bytes(36)
        status, out, why = tool("ship", "receive", "copy", folder=folder, typed=f"batch {place} {len(body)} {hashlib.sha256(body).hexdigest()} 0\n".encode() + body)
        same("not the next", (status, why), (1, "ship: what came doesn't stand behind what is there\n"))
    same("nothing is changed", files_in(folder), before)
    with Server(folder, "copy"):
        status, out, why = tool("ship", "receive", "copy", folder=folder)
        same("a server has it", (status, out), (1, ""))
        holds("why", why, "is locked by a run of its store")


def beside_a_server(folder):
    """While a server makes dumps, and players do what they do."""
    with Server(folder) as server:
        with subprocess.Popen([sys.executable, SHIP, "send", "world", "copy", "--every", "0.02"], cwd=folder) as shipping:
            try:
                for n in range(80):
                    server.talk(f"@create ball {n}", "@dump")
            finally:
                shipping.send_signal(signal.SIGTERM)
                shipping.wait(PATIENCE)
    objects_of(folder, "copy")
    works("ship", "send", "world", "copy", "--once", folder=folder)
    is_same(folder)


def killed(folder):
    """Either side is killed at any moment: the copy loads each time, and loses nothing that it had."""
    chance, had = random.Random(1), 0
    writer = subprocess.Popen([os.environ.get("MUCKD", os.path.join(TOP, "dist/muckd")), "run", "world"], cwd=folder, stdin=subprocess.PIPE, stdout=subprocess.DEVNULL)
    writer.stdin.write((LOGIN + "".join(f"send 1 @create ball {n}\nsend 1 @dump\n" for n in range(300))).encode())
    writer.stdin.close()
    for _ in range(20):
        shipping = subprocess.Popen([sys.executable, SHIP, "send", "world", "copy", "--every", "0.001"], cwd=folder, start_new_session=True, stderr=subprocess.DEVNULL)
        side = chance.random() < 0.5
        while side and not children(shipping.pid):
            time.sleep(0.001)
        time.sleep(chance.random() / 2)
        os.kill((children(shipping.pid) or [shipping.pid])[0] if side else shipping.pid, signal.SIGKILL)
        time.sleep(0.05)
        os.killpg(shipping.pid, signal.SIGKILL)
        shipping.wait(PATIENCE)
        if os.path.exists(os.path.join(folder, "copy.a")):
            now = len(objects_of(folder, "copy").objects)
            assert now >= had, f"{had} objects were there, now {now}"
            had = now
    writer.wait(PATIENCE)
    works("ship", "send", "world", "copy", "--once", folder=folder)
    is_same(folder)


TESTS = (once, other_files, refusals, beside_a_server, killed)

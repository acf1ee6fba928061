#!/usr/bin/env python3
"""What a mirror costs, through dist/muckd or the program that MUCKD names, that follows a store of 100,000 things, or of as many as the first word says: mounting the store, feeding the batch
that holds them all, feeding one of 100 changes, looking at an object, and memory. Times are of the processor, user and system, the least of nine runs; instructions are counted by valgrind's
callgrind, so they are the same each time. Memory is the most that the process had at any time."""
import contextlib
import dataclasses
import os
import re
import subprocess
import sys
import tempfile

HERE = os.path.dirname(os.path.realpath(__file__))
sys.dont_write_bytecode = True
sys.path.insert(0, os.path.join(HERE, "../tests/store"))
from files import NOTHING, ONE, ROOM, ROOM_ZERO, THING, Record, batch

PROGRAM = os.path.abspath(os.environ.get("MUCKD", os.path.join(HERE, "../dist/muckd")))
CHANGED = 100
BATCHES = 60
LOOKS = 20
RUNS = 9


def thing(number, objects, word):
    return Record(number, THING, b"%s %d" % (word, number), place=2, home=2, next=number + 1 if number + 1 < objects else NOTHING)


def store(objects, batches):
    """A batch of Room Zero, One, a room, and things in that room, up to so many objects; and so many batches that name 100 of them anew, all over the world."""
    room = Record(2, ROOM, b"Hall", place=0, first_content=3)
    step = (objects - 3) // CHANGED
    first = batch(1, 1, [ROOM_ZERO, dataclasses.replace(ONE, next=2), room, *(thing(n, objects, b"thing") for n in range(3, objects))])
    more = (batch(1, 2 + k, [thing(3 + step * n, objects, b"round %d" % k) for n in range(CHANGED)]) for k in range(batches))
    return first + b"".join(more) + b"\x00"


def run(folder, script):
    """The processor's seconds of a mirror that follows the store of this folder by this script, and the most memory that it had, in KB."""
    done = subprocess.run(["/usr/bin/time", "-f", "%U %S %M", PROGRAM, "mirror", "w"], cwd=folder, input=script.encode(), stdout=subprocess.DEVNULL, stderr=subprocess.PIPE, check=True)
    user, system, most = done.stderr.split()
    return float(user) + float(system), int(most)


def counted(folder, script):
    """The instructions of such a mirror."""
    said = subprocess.run(["valgrind", "--tool=callgrind", "--callgrind-out-file=/dev/null", PROGRAM, "mirror", "w"], cwd=folder, input=script.encode(), stdout=subprocess.DEVNULL, stderr=subprocess.PIPE, check=True)
    return int(re.search(rb"Collected : (\d+)", said.stderr)[1])


@contextlib.contextmanager
def kept(data):
    with tempfile.TemporaryDirectory(dir="/dev/shm") as folder:
        for ending, what in (("a", data), ("b", b"")):
            with open(os.path.join(folder, "w." + ending), "wb") as file:
                file.write(what)
        yield folder


def main(words):
    objects = int(words[0]) if words else 100_000
    feeds = "".join(f"feed {1 + k}\n" for k in range(1 + BATCHES))
    looks = "feed 1\n" + "look #1\n" * LOOKS
    data = store(objects, BATCHES)
    with kept(b"") as folder:
        empty = run(folder, "")[1]
    with kept(data) as folder:
        for name, cost, unit in (("ms", lambda script: min(run(folder, script)[0] for _ in range(RUNS)), 1e3), ("million instructions", lambda script: counted(folder, script), 1e-6)):
            mounted, one, all_, looked = (cost(script) * unit for script in ("", "feed 1\n", feeds, looks))
            print(f"{name}: mounting {mounted:,.0f}; feeding the batch of {objects:,} {one - mounted:,.0f}; feeding one of {CHANGED} {(all_ - one) / BATCHES:,.2f}; looking at an object {(looked - one) / LOOKS:,.1f}")
        print(f"memory in KB: {empty} on an empty store, {run(folder, '')[1]} where it is mounted, {run(folder, feeds)[1]} where all is fed, {run(folder, looks)[1]} where it is looked into; the store has {len(data) >> 10}")


if __name__ == "__main__":
    main(sys.argv[1:])

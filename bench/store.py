#!/usr/bin/env python3
"""What the store costs, through dist/muckd or the program that MUCKD names, in a world of 100,000 objects, or of as many as the first word says: mounting it, mounting 64 batches, a
dump of 100 objects that changed, a dump of none, and a full one, which opens a new generation; each against the same in a world of half as many objects. Times are of the processor,
user and system, in seconds, the least of nine runs, on a machine that does nothing else; instructions are counted by valgrind's callgrind, so they are the same each time. In seconds twice the
objects may take more or less than twice as long, since a processor's cache may hold the one world and not the other. Bytes are those that a dump writes. The exit status is 1 where twice the
objects take more than 2.3 times the instructions, or the dump of 100 takes more than a tenth of the time or of the bytes of the full one."""
import dataclasses
import os
import re
import resource
import subprocess
import sys
import tempfile

HERE = os.path.dirname(os.path.realpath(__file__))
sys.dont_write_bytecode = True
sys.path.insert(0, os.path.join(HERE, "../tests/store"))
from files import NOTHING, ONE, ROOM, ROOM_ZERO, THING, Record, batch, places

PROGRAM = os.path.abspath(os.environ.get("MUCKD", os.path.join(HERE, "../dist/muckd")))
LOGIN = "open 1\nsend 1 connect One potrzebie\n"
CHANGED = 100
DUMPS = 60
DUMPS_COUNTED = 4
RUNS = 9
MOST = 2.3
SHARE = 0.1


def world(objects, number=1):
    """A batch of Room Zero, One, a room, and things in that room, up to so many objects."""
    room = Record(2, ROOM, b"Hall", place=0, first_content=3)
    things = [Record(n, THING, b"thing %d" % n, place=2, home=2, next=n + 1 if n + 1 < objects else NOTHING) for n in range(3, objects)]
    return batch(1, number, [ROOM_ZERO, dataclasses.replace(ONE, next=2), room, *things])


def named(word, objects):
    """Gives 100 objects another name, all over the world."""
    step = (objects - 3) // CHANGED
    return "".join(f"send 1 @name #{3 + step * n}={word} {n}\n" for n in range(CHANGED))


def run(data, script, *words):
    """Runs the script on this store, by the program or by what runs it: what the run wrote about itself, and its files behind it."""
    with tempfile.TemporaryDirectory() as folder:
        with open(os.path.join(folder, "w.a"), "wb") as file:
            file.write(data)
        done = subprocess.run([*words, PROGRAM, "run", "w"], cwd=folder, input=script.encode(), stdout=subprocess.DEVNULL, stderr=subprocess.PIPE, check=True)
        files = []
        for ending in "ab":
            with open(os.path.join(folder, "w." + ending), "rb") as file:
                files.append(file.read())
    return done.stderr, files


def spent(data, script):
    """The processor seconds of a run on this store, and its files behind it."""
    least, files = None, None
    for _ in range(RUNS):
        before = resource.getrusage(resource.RUSAGE_CHILDREN)
        _, files = run(data, script)
        now = resource.getrusage(resource.RUSAGE_CHILDREN)
        took = now.ru_utime + now.ru_stime - before.ru_utime - before.ru_stime
        least = took if least is None else min(least, took)
    return least, files


def counted(data, script):
    """The instructions of a run on this store, and its files behind it."""
    said, files = run(data, script, "valgrind", "--tool=callgrind", "--callgrind-out-file=/dev/null")
    return int(re.search(rb"Collected : (\d+)", said)[1]), files


def last_batch(data):
    """How many bytes the last batch of a file has."""
    gates = places(data)
    return gates[-1] - gates[-2]


def measured(objects, cost, dumps):
    """Costs by what they are of, each by so many dumps, and the bytes of a small dump and of a full one."""
    one = world(objects)
    many = one + b"".join(batch(1, n) for n in range(2, 64))
    # the world as the last batch of its file, behind so many of the starting world
    behind = {count: b"".join(batch(1, n) for n in range(1, count)) + world(objects, count) for count in (63, 64)}
    rounds = [named(f"round {n}", objects) for n in range(dumps)]
    # each run ends with a dump of its own: of nothing, where nothing has changed since the one before
    once, _ = cost(one + b"\x00", LOGIN)
    nothing = (cost(one + b"\x00", LOGIN + "dump\n" * dumps)[0] - once) / dumps
    without, _ = cost(one + b"\x00", LOGIN + "".join(rounds))
    with_dumps, _ = cost(one + b"\x00", LOGIN + "dump\n".join(rounds) + "dump\n")
    _, small = cost(one + b"\x00", LOGIN + rounds[0])
    before, _ = cost(behind[63] + b"\x00", LOGIN)
    opening, full = cost(behind[64] + b"\x00", LOGIN)
    batches, _ = cost(many + b"\x00", LOGIN)
    return {
        "mount": once - nothing,
        "mount of 64 batches": batches - nothing + (batches - once) / 62,
        f"dump of {CHANGED}": (with_dumps - without) / dumps,
        "dump of nothing": nothing,
        "full dump": opening - before + nothing,
    }, last_batch(small[0]), last_batch(full[1])


def main(words):
    objects = int(words[0]) if words else 100_000
    half, _, _ = measured(objects // 2, spent, DUMPS)
    whole, small_bytes, full_bytes = measured(objects, spent, DUMPS)
    half_counted, _, _ = measured(objects // 2, counted, DUMPS_COUNTED)
    whole_counted, _, _ = measured(objects, counted, DUMPS_COUNTED)
    bad = False
    for what, took in whole.items():
        ratio = whole_counted[what] / half_counted[what]
        print(f"{what}: {took:.4f} s and {whole_counted[what] / 1e6:,.1f} million instructions, {ratio:.2f} times those of half as many objects (at most {MOST}; {took / max(half[what], 1e-6):.2f} times in seconds)")
        bad |= ratio > MOST
    share = whole[f"dump of {CHANGED}"] / whole["full dump"]
    print(f"a dump of {CHANGED} writes {small_bytes} bytes, {small_bytes / full_bytes:.5f} of those of the full one, and takes {share:.3f} of its time (at most {SHARE} each)")
    return 1 if bad or share > SHARE or small_bytes > SHARE * full_bytes else 0


sys.exit(main(sys.argv[1:]))

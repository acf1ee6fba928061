#!/usr/bin/env python3
"""What a line of a player costs while 400 processes sleep, against none, which is to be at most 1.2 times as much; how many slices a second are taken
of 400 background processes that are all ready; how many processes are forked a second. Scripts run through dist/muckd, or the program that
MUCKD names; times are of the processor, the least of three runs. One, the only player of a script, may have 400 processes only once
`player_processes` is tuned so; where the program doesn't take that, it is said, and 32 are measured. The exit status is 1 where a line costs too much."""
import os
import resource
import subprocess
import sys
import tempfile

PROGRAM = os.path.abspath(os.environ.get("MUCKD", os.path.join(os.path.dirname(os.path.realpath(__file__)), "../dist/muckd")))
MOST = 1.2
CONNECTED = "open 1\nsend 1 connect One potrzebie\n"
TUNED = "send 1 @tune player_processes=400\n"


def run(script):
    """The transcript of a script."""
    with tempfile.TemporaryDirectory() as folder:
        return subprocess.run([PROGRAM, "run", "world"], cwd=folder, input=script.encode(), stdout=subprocess.PIPE, check=True).stdout.decode()


def spent(script):
    """The processor seconds of a run."""
    least = None
    for _ in range(3):
        before = resource.getrusage(resource.RUSAGE_CHILDREN).ru_utime
        with tempfile.TemporaryDirectory() as folder:
            subprocess.run([PROGRAM, "run", "world"], cwd=folder, input=script.encode(), stdout=subprocess.DEVNULL, check=True)
        took = resource.getrusage(resource.RUSAGE_CHILDREN).ru_utime - before
        least = took if least is None else min(least, took)
    return least


def typed(words):
    """A world in which the program of these words is #2, and One may have 400 processes where that can be tuned."""
    typing = ["@program it", "i", f": main {words} ;", ".", "c", "q"]
    return CONNECTED + TUNED + "".join(f"send 1 {line}\n" for line in typing)


def more(start, end):
    """The processor seconds that `end` takes behind `start`."""
    return spent(start + end) - spent(start)


def processes():
    """How many processes One may have."""
    reply = run(CONNECTED + TUNED).splitlines()[-1]
    if reply == "1< Parameter set.":
        return 400
    print(f"@tune player_processes=400 is answered `{reply.removeprefix('1< ')}`, so 32 processes are measured in place of 400")
    return 32


def lines_cost(count):
    """How many times as much a line costs beside so many processes that sleep."""
    sleepers = typed("background pop 86400 sleep")
    lines = 'send 1 "a\n' * 40_000
    none = more(sleepers, lines) / 40_000
    many = more(sleepers + "send 1 @run #2=\n" * count, lines) / 40_000
    print(f"a line: {none * 1e6:.2f} us with no process, {many * 1e6:.2f} us with {count} that sleep: {many / none:.2f} times")
    return many / none


def slices(count):
    """The slices of so many processes that all become ready in one second: of each line that follows, 4,096."""
    ready = typed("background pop 1 sleep begin repeat") + "send 1 @run #2=\n" * count
    rate = 10 * 4096 / more(ready + "wait 1\n", "\n" * 10)
    print(f"slices of 2,000 units, of {count} ready processes: {rate:.0f} a second")


def forks():
    """Children that end as they are forked."""
    rate = 20_000 / more(typed("background pop 1 20000 1 for pop fork kill pop repeat"), "send 1 @run #2=\n")
    print(f"forks: {rate:.0f} a second")


if __name__ == "__main__":
    count = processes()
    cost = lines_cost(count)
    slices(count)
    forks()
    sys.exit(0 if cost <= MOST else 1)

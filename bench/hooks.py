#!/usr/bin/env python3
"""What hooks cost: microseconds of the processor for `say` in a room of 300 things without a `_listen`, for a walk between two rooms, for a line by which nobody moves, comes or speaks (`inventory`),
and for `say` with one program that listens. With BEFORE=PROGRAM the first three are measured of that program too, and `say` may take at most 1.3 times as long.

    [MUCKD=PROGRAM] [BEFORE=PROGRAM] bench/hooks.py [LINES]"""
import os
import resource
import subprocess
import sys
import tempfile

HERE = os.path.dirname(os.path.dirname(os.path.realpath(__file__)))
PROGRAM = os.environ.get("MUCKD", f"{HERE}/crates/muckd/out/muckd")
BEFORE = os.environ.get("BEFORE")
LINES = int(sys.argv[1]) if len(sys.argv) > 1 else 50000

BEGIN = ["open 1", "send 1 connect One potrzebie"]
THINGS = [f"send 1 @create thing {n}" for n in range(300)] + [f"send 1 drop thing {n}" for n in range(300)]
ROOMS = ["send 1 @dig Den", "send 1 @open out;o=#2", "send 1 @teleport me=#2", "send 1 @open back;b=#0", "send 1 @teleport me=#0"]
LISTENER = ["send 1 @program ear", "send 1 i", "send 1 : main pop ;", "send 1 .", "send 1 c", "send 1 q"]


def processor(program, lines):
    """The time of the processor that a run of these lines takes, in seconds: the least of five."""
    took = []
    for _ in range(5):
        with tempfile.TemporaryDirectory() as folder:
            before = resource.getrusage(resource.RUSAGE_CHILDREN)
            ran = subprocess.run([program, "run", "w"], cwd=folder, input="\n".join(lines) + "\n", text=True, stdout=subprocess.DEVNULL, check=False)
            after = resource.getrusage(resource.RUSAGE_CHILDREN)
            if ran.returncode != 0:
                sys.exit(f"{program}: status {ran.returncode}")
            took.append(after.ru_utime + after.ru_stime - before.ru_utime - before.ru_stime)
    return min(took)


def each(program, begin, lines):
    """Microseconds a line, beside what the beginning takes."""
    many = [lines[n % len(lines)] for n in range(LINES)]
    return (processor(program, begin + many) - processor(program, begin)) / LINES * 1e6


def main():
    worlds = {
        "say, 300 things in the room": (BEGIN + THINGS, ["send 1 say Hello"]),
        "a walk": (BEGIN + ROOMS, ["send 1 o", "send 1 b"]),
        "inventory": (BEGIN + THINGS, ["send 1 inventory"]),
    }
    worst = 0
    for name, (begin, lines) in worlds.items():
        now = each(PROGRAM, begin, lines)
        text = f"{name}: {now:.2f} us"
        if BEFORE:
            then = each(BEFORE, begin, lines)
            text += f", {then:.2f} us before: {now / then:.2f} times"
            if name.startswith("say"):
                text += " (at most 1.3)"
                worst = now / then
        print(text, flush=True)
    listened = each(PROGRAM, BEGIN + THINGS + LISTENER + ["send 1 @set here=_listen/a:#302"], ["send 1 say Hello"])
    print(f"say, one program listens: {listened:.2f} us")
    return 1 if worst > 1.3 else 0


if __name__ == "__main__":
    sys.exit(main())

#!/usr/bin/env python3
"""What a server costs on a machine that it shares: dist/muckd, or the program that MUCKD names, and TinyMUX (Debian's package tinymux) in turn, each on the machine as it is and then beside four processes that
only reckon, at ordinary priority. Where TinyMUX isn't installed, muckd is measured alone, and the last lines say so. It prints a table, and on standard error each figure as it comes.

`bench/shared.py SECONDS LESS`: while it is idle a server is looked at for so many seconds (60), and all counts are divided by the second number. `shared.py 5 10` is a quick look. What is measured:

- say: one player, alone in its room, says a text and waits until it is answered: the time in which half are answered, and 99 of 100;
- lines: eight players, each in a room of its own, send all their lines at once, and read what comes;
- a room of a hundred: one of them sends its lines at once; how many lines a second come to all of them together;
- logins: one after the other, up to what a player sees when it has come in;
- idle: one connection, and 256, of players who do nothing: processor time of the program, and its memory.

Each process that reckons, the server, and this client with all its connections stand in sessions of their own, so a kernel that shares a processor by sessions gives each as much. Times are by the clock, and of
the client and the server together. A ratio behind two figures says how many times as long it takes beside the others, or how many times as few it does; the ratio of muckd to TinyMUX likewise: above 1, muckd is slower.
What a server takes while it is idle is measured on the machine as it is, by the program's own clock of the processor. Other work on the machine counts as sharing too: the load is printed in the end.
"""
import contextlib
import subprocess
import sys

sys.dont_write_bytecode = True
from serving import tables
from serving.games import there
from serving.measures import delivered, idle, lines, logins, say
from serving.tables import megabytes, micros, percent, rate

RECKONERS = 4
# it ends with the process that has started it
RECKONS = "import os\nmine = os.getppid()\nwhile os.getppid() == mine:\n    sum(range(100_000))"


@contextlib.contextmanager
def beside(count):
    """So many processes that only reckon."""
    started = [subprocess.Popen([sys.executable, "-c", RECKONS], stdin=subprocess.DEVNULL, start_new_session=True) for _ in range(count)]
    try:
        yield
    finally:
        for process in started:
            process.kill()
            process.wait()


def rows_of(seconds, less):
    """What is measured: whether it is measured beside others too, and what each figure says, how it is written, and whether more of it is better."""
    return [
        (lambda game: say(game, 2000 // less), True, [("say: half are answered within", micros, False), ("99 of 100", micros, False)]),
        (lambda game: lines(game, 2000 // less), True, [("lines a second, sent at once", rate, True)]),
        (lambda game: delivered(game, 500 // less), True, [("lines a second that come to a room of a hundred", rate, True)]),
        (lambda game: logins(game, 200 // less), True, [("logins a second", rate, True)]),
        (lambda game: idle(game, seconds), False, [("memory with one connection", megabytes, False), ("with 256 that are idle", megabytes, False),
                                                   ("processor while idle, with one", percent, False), ("with 256", percent, False)]),
    ]


def ratio(figure, other, more):
    """How many times worse the first is."""
    worse, better = (other, figure) if more else (figure, other)
    return f"{worse / better:.2f}" if isinstance(worse, float) and isinstance(better, float) and better else "-"


def figures_of(kind, measure, shared, count):
    """The figures on the machine as it is, and beside those that reckon."""
    alone = tables.measured(kind, measure, count)
    if not shared:
        return alone, [None] * count
    with beside(RECKONERS):
        return alone, tables.measured(kind, measure, count)


def main(words):
    seconds = int(words[0]) if words else 60
    less = int(words[1]) if words[1:] else 1
    tables.many_links()
    games = there()
    heads = [text for kind in games for text in (f"{kind.name} alone", f"beside {RECKONERS}", "ratio")]
    table = [["", *heads, *(["muckd : TinyMUX alone", f"beside {RECKONERS}"] if games[1:] else [])]]
    for measure, shared, figures in rows_of(seconds, less):
        columns = [figures_of(kind, measure, shared, len(figures)) for kind in games]
        for at, (what, how, more) in enumerate(figures):
            found = [(alone[at], others[at]) for alone, others in columns]
            cells = [text for alone, others in found for text in (tables.written(alone, how), tables.written(others, how), ratio(others, alone, more))]
            if games[1:]:
                cells += [ratio(ours, theirs, more) for ours, theirs in zip(*found)]
            table.append([what, *cells])
            print(": ".join(table[-1]), file=sys.stderr, flush=True)
    return tables.show(table, games)


if __name__ == "__main__":
    sys.exit(main(sys.argv[1:]))

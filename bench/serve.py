#!/usr/bin/env python3
"""What the server costs, by sockets on this machine, through dist/muckd or the program that MUCKD names, and beside it the same of TinyMUX (Debian's package tinymux) where it
is installed: `bench/serve.py` prints a table, and on standard error each figure as it comes. `serve.py OBJECTS` takes so many objects for the dumps (100,000 where no number is given), and a
second word divides all counts: `serve.py 2000 20` is a quick look. Times are by the clock, and of the client and the server together, on a machine that does nothing else: each is the
round trip through both. Where other programs want the processor, half of the times say more than the longest: `chrt -r 1 bench/serve.py`, as root, comes before those. What is measured:

- say: one player, alone in its room, says a text and waits until it is answered;
- lines: eight players, each in a room of its own, send all their lines at once, and read what comes; with one worker and with four (TinyMUX has no number of them);
- heard: a hundred players in a room; from one's line until all have heard it;
- logins: one after the other, up to what a player sees when it has come in;
- idle: 256 connections of players who do nothing: memory of the program, and its processor time;
- dump: a hundred of all objects have changed; while they are stored another player says texts and waits for each answer: the longest wait of each of seven dumps, beside the longest wait
  while none is made. TinyMUX tells nobody when a dump is over: there it is the longest wait within a second of the command.
"""
import sys

sys.dont_write_bytecode = True
from serving import tables
from serving.games import CHANGED, Muckd, TinyMux, there
from serving.measures import DUMPS, dump, heard, idle, lines, logins, say
from serving.tables import megabytes, micros, millis, percent, rate


def rows_of(objects, less):
    """What is measured, of whom, and what each figure says and how it is written."""
    both = (Muckd, TinyMux)
    return [
        (lambda game: say(game, 4000 // less), both, [("say: half are answered within", micros), ("99 of 100", micros)]),
        (lambda game: lines(game, 10_000 // less, 1), both, [("lines a second, one worker", rate)]),
        (lambda game: lines(game, 10_000 // less, 4), (Muckd,), [("lines a second, four workers", rate)]),
        (lambda game: heard(game, 400 // less), both, [("heard by a hundred: half within", micros), ("99 of 100", micros)]),
        (lambda game: logins(game, 400 // less), both, [("logins a second", rate)]),
        (lambda game: idle(game, max(1, 5 // less)), both, [("memory with one connection", megabytes), ("with 256 that are idle", megabytes), ("processor with one", percent), ("with 256", percent)]),
        (lambda game: dump(game, objects), both, [(f"longest wait while {CHANGED} of {objects:,} objects are dumped: half of {DUMPS} dumps", millis), ("all", millis), ("with no dump: half", millis),
                                                  ("all", millis), ("up to `Dump N stored.`: half within", millis)]),
    ]


def main(words):
    objects = int(words[0]) if words else 100_000
    less = int(words[1]) if words[1:] else 1
    tables.many_links()
    games = there()
    table = [["", *(kind.name for kind in games)]]
    for measure, those, figures in rows_of(objects, less):
        columns = [tables.measured(kind, measure, len(figures)) if kind in those else [None] * len(figures) for kind in games]
        for (what, how), *values in zip(figures, *columns):
            table.append([what, *(tables.written(value, how) for value in values)])
            print(": ".join(table[-1]), file=sys.stderr, flush=True)
    return tables.show(table, games)


if __name__ == "__main__":
    sys.exit(main(sys.argv[1:]))

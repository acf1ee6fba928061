#!/usr/bin/env python3
"""What one turn costs: a line, a compilation, a unit or a slice of one player, for which everybody else waits. A table of seconds of the processor, the bound of each row, and what it took as the row was
written; with --serve also how long another player waited for the echo of a line meanwhile, by the clock, in a server on this machine. Words choose the rows whose names hold one of them. It runs
dist/muckd, or the program that MUCKD names. The exit status is 1 where a row is over its bound, but for those that are known to be: the parameter that bounds these stands behind them, and in docs/WIZARD.md."""
import argparse
import os
import sys

sys.dont_write_bytecode = True
from turns import dumps, formulas, lists, measure, names, recycling, rows, sources, walks

ROWS = [row for subject in (formulas, lists, sources, walks, names, recycling, dumps) for row in subject.ROWS]


def written(value):
    return "-" if value is None else f"{value:,.0f}" if value >= 100 else f"{value:.4f}" if value < 0.01 else f"{value:.2f}"


def main():
    here = os.path.dirname(os.path.realpath(__file__))
    parser = argparse.ArgumentParser(description=__doc__)
    parser.add_argument("words", nargs="*", metavar="WORD")
    parser.add_argument("--serve", action="store_true", help="measure too how long another player waits")
    parser.add_argument("--runs", type=int, default=3, help="the least of so many runs is taken (3)")
    parser.add_argument("--limit", type=int, default=20, help="seconds of the processor after which a run is ended, and its row over (20)")
    given = parser.parse_args()
    program = os.path.abspath(os.environ.get("MUCKD", os.path.join(here, "../dist/muckd")))
    chosen = [row for row in ROWS if not given.words or any(word in row.name for word in given.words)]
    width = max((len(row.name) for row in chosen), default=0)
    print(f"{'turn':{width}} {'took':>8} {'bound':>8} {'before':>8}" + (f" {'waited':>8}" if given.serve else ""))
    over = 0
    for row in chosen:
        known = f"known: {row.over}" if row.over else ""
        try:
            took = measure.memory(program, row) if isinstance(row, rows.Memory) else measure.seconds(program, row, given.runs, given.limit)
            shown, ends = written(took), ("OVER", known) if took > row.bound else ()
        except measure.TooLong:
            shown, ends = f">{given.limit}", ("OVER", known)
        except measure.Broken as why:
            shown, known, ends = "broken", "", (str(why),)
        waited = ""
        if given.serve and isinstance(row, rows.Row) and shown != "broken":
            try:
                waited = f" {written(measure.waited(program, row)):>8}"
            except measure.TooLong:
                waited = f" {f'>{measure.PATIENCE}':>8}"
        over += bool(ends) and not known
        print(f"{row.name:{width}} {shown:>8} {written(row.bound):>8} {written(row.before):>8}{waited} {' '.join(ends)}".rstrip(), flush=True)
    return 1 if over else 0


if __name__ == "__main__":
    sys.exit(main())

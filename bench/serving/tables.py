"""Figures of servers, and the table of them."""
import os
import resource
import sys
import tempfile


def micros(seconds):
    return f"{seconds * 1e6:,.0f} us"


def millis(seconds):
    return f"{seconds * 1e3:.1f} ms"


def rate(number):
    return f"{number:,.0f}"


def megabytes(number):
    return f"{number:.1f} MB"


def percent(number):
    return f"{number:.1f} %"


def measured(kind, measure, count):
    """The figures, or why there are none, which ends no other measure."""
    with tempfile.TemporaryDirectory() as folder:
        game = kind(folder)
        try:
            return measure(game)
        except (OSError, TypeError, IndexError) as fault:
            print(f"{kind.name}: {fault!r}", file=sys.stderr, flush=True)
            return ["failed"] * count
        finally:
            game.stop()


def written(figure, how):
    return "-" if figure is None else figure if isinstance(figure, str) else how(figure)


def many_links():
    """Raises the number of files that this process may have open, for hundreds of connections."""
    resource.setrlimit(resource.RLIMIT_NOFILE, (min(4096, resource.getrlimit(resource.RLIMIT_NOFILE)[1]),) * 2)


def show(table, games):
    """Writes the table, of which the first row is its head; answers the exit status."""
    if len(games) == 1:
        print("(TinyMUX isn't installed.)")
    print(f"({os.cpu_count()} processors, load {os.getloadavg()[0]:.1f} in the end)")
    head, *rows = table
    for row in (head, ["---", *("--:" for _ in head[1:])], *rows):
        print("| " + " | ".join(row) + " |")
    return 1 if any("failed" in row for row in rows) else 0

"""The log: one line for each who comes, is refused, comes in, fails and goes. No line has a password."""
import sys
import time


def write(what, **parts):
    """A line: the time, what happened, and its parts by name."""
    words = [f"{name}={value}" for name, value in parts.items() if value is not None]
    try:
        print(time.strftime("%Y-%m-%d %H:%M:%S"), what, *words, flush=True)
    except OSError:
        # a full disk or a reader that has gone closes no door
        sys.stdout = open("/dev/null", "w", encoding="ascii")

"""How a tool of `contrib` refuses: a sentence on standard error and status 1."""
import argparse
import os
import signal
import sys


class Refused(Exception):
    """What is wrong, as a sentence for whoever called the tool. Whoever raises it has written nothing."""


class Parser(argparse.ArgumentParser):
    """Words of a command line; wrong ones end with status 1."""

    def error(self, message):
        self.print_usage(sys.stderr)
        self.exit(1, f"{self.prog}: {message}\n")


def run(tool, main):
    """The status of `main`, with its refusal told in the name of the tool. A SIGTERM is taken as Ctrl-C is, so that what was begun is cleared away."""
    signal.signal(signal.SIGTERM, signal.default_int_handler)
    # (the name of a file may hold any byte)
    sys.stdout.reconfigure(errors="backslashreplace")
    try:
        status = main()
        sys.stdout.flush()
        return status or 0
    except Refused as why:
        print(f"{tool}: {why}", file=sys.stderr)
    except BrokenPipeError:
        # whoever read has gone; what is left in the buffer goes nowhere
        os.dup2(os.open(os.devnull, os.O_WRONLY), sys.stdout.fileno())
    except KeyboardInterrupt:
        print(f"{tool}: interrupted", file=sys.stderr)
    except OSError as why:
        print(f"{tool}: {why.filename + ': ' if why.filename else ''}{why.strerror or why}", file=sys.stderr)
    return 1


def read_bytes(path):
    """All of a file, or of standard input where the path is `-`."""
    if path == "-":
        return sys.stdin.buffer.read()
    with open(path, "rb") as file:
        return file.read()


def write_whole(path, data, mode=0o666):
    """Puts the file there whole, or leaves what was there. What is there and is no file, as a device, isn't touched."""
    named, path = path, os.path.realpath(path)
    if os.path.lexists(path) and not os.path.isfile(path):
        raise Refused(f"{named} is there, and is no file")
    if not os.path.isdir(os.path.dirname(path)):
        raise Refused(f"{named}: there is no folder {os.path.dirname(named) or '.'}")
    part = f"{path}.part.{os.getpid()}"
    handle = os.open(part, os.O_WRONLY | os.O_CREAT | os.O_EXCL, mode)
    try:
        with open(handle, "wb") as file:
            file.write(data)
            file.flush()
            os.fsync(file.fileno())
        os.replace(part, path)
    except BaseException:
        os.unlink(part)
        raise


def port(word):
    """A port, among the words of a command line."""
    number = int(word)
    if not 1 <= number <= 65535:
        raise ValueError
    return number

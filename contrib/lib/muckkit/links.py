"""A connection to a server, by which a tool types lines as a player does."""
import os
import re
import select
import socket
import stat
import time

from .says import Refused

GREETING = "Use: connect NAME PASSWORD"
# a line that comes is cut there
MOST_LINE = 2048


def password_in(path):
    """Name and password of a player, from a file of one line that only its user reads."""
    if not path:
        raise Refused("--password FILE is wanted: a file with one line, NAME PASSWORD")
    # (a pipe that nobody writes to would never open)
    with open(os.open(path, os.O_RDONLY | os.O_NONBLOCK), "rb") as file:
        it = os.fstat(file.fileno())
        if not stat.S_ISREG(it.st_mode):
            raise Refused(f"{path} is no file")
        # what systemd lends has its reader in an access list, which shows as the group's bits
        lent = os.path.dirname(os.path.abspath(path)) == os.environ.get("CREDENTIALS_DIRECTORY")
        if it.st_mode & (0o007 if lent else 0o077) or it.st_uid not in (0, os.geteuid()):
            raise Refused(f"{path} can be read by others than you: chmod 600 {path}, and own it")
        lines = file.read().split(b"\n")
    while lines and not lines[-1]:
        lines.pop()
    if len(lines) != 1:
        raise Refused(f"{path}:{min(len(lines), 1) + 1}: a password file has one line, NAME PASSWORD")
    found = re.fullmatch(rb"([!-~]+) ([!-~](?:[ -~]{0,30}[!-~])?)", lines[0])
    if not found:
        raise Refused(f"{path}:1: the line isn't NAME PASSWORD, with one space between and a password of 1 to 32 bytes")
    return found[1].decode(), found[2].decode()


class Link:
    """A connection that was greeted. What comes is lines that end with CR LF."""

    def __init__(self, where, patience=30, wait=0):
        """To a host and a port; where nothing listens yet it is tried again for so many seconds."""
        self.where, self.patience, self.kept = where, patience, b""
        until = time.monotonic() + wait
        while True:
            try:
                self.socket = socket.create_connection(where, patience)
                break
            except OSError as why:
                if time.monotonic() >= until:
                    raise Refused(f"nothing answers at {where[0]} port {where[1]}: {why.strerror or why}") from None
                time.sleep(0.1)
        self.until(lambda line: line.startswith(GREETING), "the greeting, so the world may be full, or be something else")

    def close(self):
        self.socket.close()

    def send(self, *lines):
        for line in lines:
            if len(line) > MOST_LINE or not re.fullmatch(r"[ -~]*", line):
                raise Refused(f"{line[:60]!r} can't be typed: a line has up to {MOST_LINE} letters, all of ASCII")
        try:
            self.socket.sendall(b"".join(line.encode("ascii") + b"\r\n" for line in lines))
        except OSError as why:
            raise Refused(f"the connection broke: {why.strerror or why}") from None

    def fill(self, seconds):
        """Whether more came within so many seconds; at the end of the connection nothing does, which is told by None."""
        if not select.select([self.socket], [], [], max(seconds, 0))[0]:
            return False
        try:
            more = self.socket.recv(65536)
        except OSError:
            more = b""
        self.kept += more
        return True if more else None

    def lines(self):
        """The whole lines that have come."""
        *found, self.kept = self.kept.split(b"\r\n")
        return [line.decode("ascii", "replace") for line in found]

    def until(self, last, what):
        """The lines up to the first of which `last` holds; `what` names it where it doesn't come."""
        found, end = [], time.monotonic() + self.patience
        while True:
            while b"\r\n" in self.kept:
                line, self.kept = self.kept.split(b"\r\n", 1)
                found.append(line.decode("ascii", "replace"))
                if last(found[-1]):
                    return found
            came = self.fill(end - time.monotonic())
            if not came:
                raise Refused(f"{'the connection ended' if came is None else f'{self.patience:g} seconds went by'} without {what}" + (f"; the last line was: {found[-1]}" if found else ""))

    def rest(self, what):
        """The lines up to the end of the connection."""
        end = time.monotonic() + self.patience
        while True:
            came = self.fill(end - time.monotonic())
            if came is None:
                return self.lines()
            if not came:
                raise Refused(f"{self.patience:g} seconds went by without {what}")

    def mark(self):
        """A line of which nobody else hears, and its answer, which nothing else is."""
        word = "keep-" + os.urandom(6).hex()
        self.send(f"examine {word}")
        return f"I don't understand '{word}'."

    def log_in(self, name, password):
        """Comes in as a player, past all that it is shown by that."""
        self.send(f"connect {name} {password}")
        answer = self.mark()
        seen = self.until(lambda line: line == answer or line.startswith(("Either that player", GREETING)), "an answer to the login")[-1]
        if seen != answer:
            raise Refused(f"the player {name} can't come in: {seen}")


def lines_to_type(path):
    """The lines of a file that are to be typed, each with its number; the first that can't be is refused."""
    with open(path, "rb") as file:
        lines = file.read().split(b"\n")
    if lines[-1] == b"":
        lines.pop()
    for number, line in enumerate(lines, 1):
        odd = line.rstrip(b"\r").translate(None, bytes(range(32, 127)))
        if odd:
            raise Refused(f"{path}:{number}: byte {odd[0]} can't be typed: a line has bytes from 32 to 126")
        if len(line) > MOST_LINE:
            raise Refused(f"{path}:{number}: the line has {len(line)} bytes, and what passes {MOST_LINE} would be lost")
    return [(number, line.rstrip(b"\r").decode()) for number, line in enumerate(lines, 1)]

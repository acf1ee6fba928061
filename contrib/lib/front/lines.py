"""Lines as the world takes them: at most 2,048 bytes from 32 to 126."""
import re

from muckkit.plain_text import letters, plain

MOST = 2048
# a letter has at most four bytes, and one may be cut
MOST_RAW = 4 * (MOST + 1)
END = re.compile(rb"\r\n|\r\x00|\r|\n")


class Splitter:
    """Bytes that come piece by piece, as lines without their ends. Of one that is too long the front is kept."""

    def __init__(self):
        self.part, self.after_return = b"", False

    def take(self, data):
        if self.after_return and data[:1] in (b"\n", b"\0"):
            data = data[1:]
            self.after_return = False
        if not data:
            return []
        self.after_return = data.endswith(b"\r")
        found = END.split(data)
        found[0] = self.part + found[0]
        self.part = bounded(found.pop())
        return [bounded(line) for line in found]


def bounded(raw):
    """The front of a line, one byte longer than is read of it, so that one sees that it was cut."""
    return raw[:MOST_RAW + 1]


def erased(text):
    """The text behind its backspaces, each of which takes the letter before it."""
    found = []
    for letter in text:
        if letter not in "\b\x7f":
            found.append(letter)
        elif found:
            found.pop()
    return "".join(found)


def whole_letters(raw):
    """The bytes without a letter of UTF-8 that is cut at their end."""
    at = len(raw)
    while at and len(raw) - at < 3 and raw[at - 1] & 0xC0 == 0x80:
        at -= 1
    return raw[:at - 1] if at and raw[at - 1] >= 0xC0 else raw


def as_the_world_takes_it(raw):
    """The line with the nearest letters that the world has, and whether all of it is there."""
    whole = len(raw) <= MOST_RAW
    if not whole:
        raw = whole_letters(raw[:MOST_RAW])
    if b"\b" in raw or b"\x7f" in raw:
        raw = erased(letters(raw)).encode()
    line = plain(raw)[0].replace(b"\r", b" ")
    return line[:MOST], whole and len(line) <= MOST

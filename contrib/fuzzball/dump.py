"""Reads a dump of Fuzzball, in the formats Foxen5 to Foxen9, as its public sources write them.

    ***Foxen8 TinyMUCK DUMP Format***
    how many objects
    flags: 1 where parameters follow, 2 where texts are compressed
    how many parameters, and these, a line NAME=VALUE each
    #N, and the object: name, place, first of its contents, next of its list, flags, four lines of times and uses,
    *Props*, a line PATH:FLAGS:VALUE for each property, *End*, and the lines of its kind:
        thing: home, first exit, owner, and up to Foxen7 its value
        room: drop-to, first exit, owner
        exit: how many destinations, these, owner
        player: home, first exit, up to Foxen7 its pennies, password
        program: owner
    ***END OF DUMP***

Where the value or the pennies are there in a later version, or aren't in an earlier one, that is read too. Where there is no *Props* the first line of the kind stands in its place.
Objects of a file of deltas that was put behind the dump take the place of those before."""
import dataclasses
import re

from muckkit.says import Refused

ROOM, THING, EXIT, PLAYER, PROGRAM, GARBAGE = 0, 1, 2, 3, 4, 6
KINDS = {ROOM: "room", THING: "thing", EXIT: "exit", PLAYER: "player", PROGRAM: "program", GARBAGE: "garbage"}
HEAD = re.compile(rb"\*\*\*Foxen([5-9]) TinyMUCK DUMP Format\*\*\*")
DELTAS = re.compile(rb"\*\*\*Foxen\d Deltas Dump Extention\*\*\*")
END = b"***END OF DUMP***"
# the last version that writes a thing's value and a player's pennies
LAST_WITH_PENNIES = 7
HAS_PARAMETERS, IS_COMPRESSED = 1, 2


@dataclasses.dataclass
class Property:
    line: int
    path: bytes
    flags: int
    value: bytes


@dataclasses.dataclass
class Object:
    line: int
    number: int
    name: bytes
    place: int
    contents: int
    next: int
    flags: int
    properties: list
    home: int = -1
    exits: int = -1
    owner: int = -1
    to: list = dataclasses.field(default_factory=list)
    password: bytes = b""

    @property
    def kind(self):
        return self.flags & 7


@dataclasses.dataclass
class Dump:
    version: int
    count: int
    parameters: list
    objects: dict


class Lines:
    """The lines of a dump, with their numbers."""

    def __init__(self, data, path):
        self.rows, self.path, self.at, self.version = data.split(b"\n"), path, 0, 0
        if self.rows[-1] == b"":
            self.rows.pop()

    def wrong(self, why, line=None):
        raise Refused(f"{self.path}:{line or self.at}: {why}")

    def next(self, what):
        if self.at >= len(self.rows):
            self.wrong(f"the dump ends where {what} is wanted", self.at + 1)
        self.at += 1
        return self.rows[self.at - 1]

    def number(self, what):
        row = self.next(what)
        if not re.fullmatch(rb"\s*[+-]?\d{1,18}\s*", row):
            self.wrong(f"{what} is wanted, and {row.decode('latin-1')!r:.80} stands there")
        return int(row)

    def begins_object(self, ahead):
        """Whether an object, or the end, begins so many lines further on."""
        row = self.rows[self.at + ahead] if self.at + ahead < len(self.rows) else END
        return row == END or bool(re.fullmatch(rb"#\d+", row) or DELTAS.fullmatch(row))


    def has_pennies(self, behind):
        """Whether the next line is a value or pennies, behind which so many lines stand: as the version says, unless the object only ends right the other way."""
        usual = self.version <= LAST_WITH_PENNIES
        return usual if self.begins_object(behind + usual) else not usual


def property_in(lines, row):
    path, _, rest = row.partition(b":")
    flags, colon, value = rest.partition(b":")
    if not (path and colon and flags.isdigit()):
        lines.wrong(f"a property is wanted, PATH:FLAGS:VALUE, and {row.decode('latin-1')!r:.80} stands there")
    return Property(lines.at, path, int(flags), value)


def properties_in(lines):
    found = []
    while True:
        row = lines.next("*End* of the properties")
        if row == b"*End*":
            return found
        found.append(property_in(lines, row))


def rest_of(lines, it, first):
    """The lines of the object's kind, of which the first may have been read."""
    def number(what):
        nonlocal first
        found, first = first, None
        return lines.number(what) if found is None else found

    if it.kind in (ROOM, THING, PLAYER):
        it.home = number("its drop-to" if it.kind == ROOM else "its home")
        it.exits = lines.number("the first of its exits")
    if it.kind in (ROOM, THING):
        it.owner = lines.number("its owner")
    if it.kind == THING and lines.has_pennies(0):
        lines.number("its value")
    if it.kind == PLAYER:
        it.owner = it.number
        if lines.has_pennies(1):
            lines.number("its pennies")
        it.password = lines.next("its password")
    if it.kind == EXIT:
        count = number("how many destinations it has")
        if not 0 <= count <= 1000:
            lines.wrong(f"an exit has {count} destinations")
        it.to = [lines.number("a destination") for _ in range(count)]
    if it.kind in (EXIT, PROGRAM):
        it.owner = number("its owner")


def object_in(lines, number):
    line = lines.at
    name = lines.next(f"the name of #{number}")
    place, contents, behind, flags = (lines.number(what) for what in ("its place", "the first of its contents", "the next of its list", "its flags"))
    if flags & 7 not in KINDS:
        lines.wrong(f"#{number} is of a kind {flags & 7}, which isn't there")
    for what in ("when it was made", "when it was used", "how often it was used", "when it was changed"):
        lines.number(what)
    it, first = Object(line, number, name, place, contents, behind, flags & 0xffffffff, []), None
    if lines.at < len(lines.rows) and lines.rows[lines.at].startswith(b"*"):
        if lines.next("*Props*") != b"*Props*":
            lines.wrong("*Props* is wanted")
        it.properties = properties_in(lines)
    elif it.kind != GARBAGE:
        first = lines.number("*Props*, or the first line of its kind,")
    rest_of(lines, it, first)
    if not lines.begins_object(0):
        lines.wrong(f"#{number} ({KINDS[it.kind]}) ends, and neither another object nor the end of the dump begins here", lines.at + 1)
    return it


def read(data, path):
    """What a dump holds; the first line that isn't as it should be is told."""
    lines = Lines(data, path)
    head = HEAD.fullmatch(lines.next("the name of the format"))
    if not head:
        lines.wrong("it doesn't begin as a dump of the formats Foxen5 to Foxen9 does")
    lines.version = int(head[1])
    count, flags = lines.number("the number of objects"), lines.number("the flags of the dump")
    if flags & IS_COMPRESSED:
        lines.wrong("its texts are compressed: have it written by a Fuzzball that compresses nothing")
    parameters = []
    if flags & HAS_PARAMETERS:
        parameters = [lines.next("a parameter") for _ in range(lines.number("the number of parameters"))]
    objects = {}
    while True:
        row = lines.next("an object, or the end of the dump,")
        if row == END:
            if lines.at == len(lines.rows):
                return Dump(lines.version, count, parameters, objects)
        elif re.fullmatch(rb"#\d{1,9}", row):
            number = int(row[1:])
            objects[number] = object_in(lines, number)
        elif not DELTAS.fullmatch(row):
            lines.wrong(f"an object, #N, is wanted, and {row.decode('latin-1')!r:.80} stands there")

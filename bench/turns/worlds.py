"""The worlds of the rows, as the bytes of a store. In each of them #0 holds One and the room #2, in which Ann is, #3, who has One's password."""
import functools
import os
import sys
from dataclasses import replace

sys.path.insert(0, os.path.join(os.path.dirname(os.path.realpath(__file__)), "../../tests/store"))
from files import DIGEST, NOTHING, ONE, PLAYER, ROOM, ROOM_ZERO, THING, Record, batch

MANY = 99_000
PROPERTIES = 30_000
FIRST = 4  # the first object beyond the four


def stored(others=(), one=ONE, in_zero=NOTHING, zero=ROOM_ZERO):
    """The four, of which #2 is the last in #0 but for a row that begins with `in_zero`, and others."""
    yard = Record(2, ROOM, b"Yard", place=0, first_content=3, next=in_zero)
    ann = Record(3, PLAYER, b"Ann", owner=3, place=2, home=2, digest=DIGEST)
    return batch(1, 1, [zero, one, yard, ann, *others]) + b"\x00"


IN_ZERO = replace(ONE, next=2)


def thing(n):
    return Record(n, THING, b"thing %d" % n, home=0)


def row_of(count, place, first=FIRST, make=thing):
    """So many objects in one place, each behind the one before."""
    return [replace(make(n), place=place, next=n + 1 if n < first + count - 1 else NOTHING) for n in range(first, first + count)]


def many(make, count):
    """So many objects in a room of their own, #4."""
    return stored([Record(4, ROOM, b"Barn", place=0, first_content=5), *row_of(count, 4, 5, make)], IN_ZERO, 4)


@functools.cache
def small():
    return stored((), IN_ZERO)


@functools.cache
def things():
    """99,000 things in a room where nobody is."""
    return many(thing, MANY)


@functools.cache
def things_with_a_property():
    return many(lambda n: replace(thing(n), properties=((b"a", 1),)), MANY)


@functools.cache
def players():
    """10,000 players more."""
    return many(lambda n: Record(n, PLAYER, b"player%d" % n, owner=n, home=4, digest=DIGEST), 10_000)


@functools.cache
def full_room():
    """99,000 things where One is."""
    return stored(row_of(MANY, 0), IN_ZERO, FIRST)


@functools.cache
def full_hands():
    """One carries 99,000 things."""
    return stored(row_of(MANY, 1), replace(IN_ZERO, first_content=FIRST))


@functools.cache
def deep():
    """99,000 rooms, each in the one before, and One in the last."""
    last = FIRST + MANY - 1
    rooms = [Record(n, ROOM, b"room", place=n - 1 if n > FIRST else 0, first_content=n + 1 if n < last else 1) for n in range(FIRST, last + 1)]
    return stored(rooms, replace(ONE, place=last), FIRST, replace(ROOM_ZERO, first_content=2))


@functools.cache
def properties():
    """One has 30,000 properties, p1 to p30000."""
    return stored((), replace(IN_ZERO, properties=tuple(sorted((b"p%d" % n, 1) for n in range(1, PROPERTIES + 1)))))


def lender(definitions):
    """What makes a thing that lends so many, always of the same names."""
    def make(n):
        return Record(n, THING, b"lender", home=0, properties=tuple(sorted((b"_defs/n%d" % name, b"%d%d" % (n, name)) for name in range(definitions))))
    return make


@functools.cache
def lenders():
    """#4 and #5 lend 6,800 definitions each."""
    return stored(row_of(2, 0, FIRST, lender(6800)), IN_ZERO, FIRST)


@functools.cache
def lender_of_many():
    """#4 lends 40,800."""
    return stored(row_of(1, 0, FIRST, lender(40_800)), IN_ZERO, FIRST)


@functools.cache
def lenders_of_one():
    """#4 to #2003 lend one definition each, of the same name."""
    return stored(row_of(2000, 0, FIRST, lender(1)), IN_ZERO, FIRST)

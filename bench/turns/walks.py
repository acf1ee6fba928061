"""What goes over many objects, properties or connections: locks, names in a large room and along a long environment, texts to many."""
from turns import worlds
from turns.rows import LINE, SLICE, Row, rounds_of, section, typed

SECTION = "preempt_units: each unit goes over all of them"
LOCKED = '"a:b" 1 449 1 for pop "|a:b" strcat repeat parselock w !'
TERMS = "no parameter: each term of the lock asks each thing"
TELL = '"\\r" 1 12 1 for pop dup strcat repeat v !'
OTHERS = [line for d in range(2, 61) for line in (f"open {d}", f"send {d} connect One potrzebie")]


def both(what, body, before, in_unit=None, over_unit="", over=SECTION, **more):
    """The unit, so often that it shows, and a section."""
    return [rounds_of(what, LINE, in_unit, 20, body, turns=20, over=over_unit, **more), section(what, SLICE, before, body, over=over, **more)]


def line(what, *texts, world, **more):
    """The line, or lines that are alike."""
    return Row(f"line: {what}", typed("look me"), typed(*texts), LINE, None, len(texts), world, **more)


ROWS = [
    *both("testlock of 450 terms, 30,000 properties", "me @ w @ testlock pop", 960, 0.29, over="", first=LOCKED, world=worlds.properties),
    rounds_of("testlock of 450 terms, carrying 99,000 things", LINE, None, 1, "me @ w @ testlock pop", LOCKED, over=TERMS, world=worlds.full_hands),
    *both("match in a room of 99,000 things", '"lantern" match pop', 45, world=worlds.full_room),
    *both("match 99,000 places deep", '"lantern" match pop', 23, world=worlds.deep),
    *both("envprop 99,000 places deep", 'me @ "lantern" envprop pop pop', 15, world=worlds.deep),
    section("notify of 4,096 line ends to 60 connections", SLICE, 26, "me @ v @ notify", TELL, setup=OTHERS),
    rounds_of("moveto of the last of 99,000 things: a section", SLICE, None, 1900, f"{worlds.MANY + worlds.FIRST} swap - dbref #2 moveto", index="", world=worlds.full_room, over=SECTION),
    line("say, beside nothing that takes long", *['"a'] * 1000, world=worlds.small),
    line("look in a room of 99,000 things", *["look"] * 10, world=worlds.full_room),
    line("look at one of 99,000 things", *["look thing 50000"] * 10, world=worlds.full_room),
    line("inventory of 99,000 things", *["inventory"] * 10, world=worlds.full_hands),
    line("@teleport of the last of 99,000 things", *[f"@teleport #{worlds.MANY + worlds.FIRST - at}=#2" for at in range(1, 11)], world=worlds.full_room),
    line("@find among 99,000 objects", *["@find lantern"] * 10, world=worlds.things),
    line("@find that shows 99,000 objects", *["@find thing"] * 10, world=worlds.things),
]

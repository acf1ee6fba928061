"""Makes a world of what a dump holds, and a list of what doesn't come over."""
from muckkit.records import EXIT, FLAGS, GARBAGE, HOME, KINDS, MOST_OBJECTS, NOTHING, PLAYER, PROGRAM, ROOM, THING, Record
from muckkit.says import Refused
from muckkit.worlds import MAY_LINK, MAY_LIVE, MAY_STAND

from . import dump as fuzzball
from .left import name_of
from .properties import properties_of
from .sources import check_words, libraries_of, source_of, with_library

KIND_OF = {fuzzball.ROOM: ROOM, fuzzball.THING: THING, fuzzball.EXIT: EXIT, fuzzball.PLAYER: PLAYER, fuzzball.PROGRAM: PROGRAM, fuzzball.GARBAGE: GARBAGE}
FLAG_BITS = {0x10: "W", 0x20: "L", 0x40: "D", 0x100: "S", 0x200: "B", 0x400: "C", 0x800: "J", 0x4000: "K", 0x10000: "H", 0x20000: "A", 0x80000: "Q", 0x1000000: "V", 0x2000000: "Z", 0x8000000: "X"}
LOST_FLAGS = {0x8000: "guest", 0x4000000: "listener", 0x40000000: "yield", 0x80000000: "overt"}
LEVEL_TWO, LEVEL_ONE = 0x40000, 0x100000


def flags_of(left, it):
    """Flags and level."""
    letters = "".join(letter for bit, letter in FLAG_BITS.items() if it.flags & bit)
    for bit, what in LOST_FLAGS.items():
        if it.flags & bit:
            left.add(it.number, f"its flag {what}")
    if it.kind == fuzzball.PROGRAM and "A" in letters:
        left.add(it.number, "it isn't started by itself: flag A does nothing here")
    level = (2 if it.flags & LEVEL_TWO else 0) + (1 if it.flags & LEVEL_ONE else 0)
    if level and it.kind not in (fuzzball.PLAYER, fuzzball.PROGRAM):
        left.add(it.number, f"its level {level}")
        level = 0
    return sum(1 << FLAGS.index(letter) for letter in letters), level


def may_stand(kinds, flags, n, place):
    return kinds.get(place) in MAY_STAND[kinds[n]] or kinds[n] == PLAYER and kinds.get(place) == THING and bool(flags[place] & 1 << FLAGS.index("V"))


def places_of(left, objects, kinds, flags):
    """Where each object is. An exit whose place can't be is left out, since elsewhere it would be another's command."""
    places = {0: NOTHING}
    for n in sorted(n for n in objects if n and kinds[n] != GARBAGE):
        it = objects[n]
        places[n] = it.place
        if not may_stand(kinds, flags, n, it.place):
            if kinds[n] == EXIT:
                left.add(n, f"it itself: its place is #{it.place}, where an exit can't be")
                kinds[n] = GARBAGE
                del places[n]
                continue
            places[n] = it.owner if kinds[n] in (THING, PROGRAM) and kinds.get(it.owner) == PLAYER else 0
            left.add(n, f"its place, #{it.place}, where a {KINDS[kinds[n]]} can't be: it is in #{places[n]}")
    rooted = {0}
    for n in sorted(places):
        seen, at = set(), n
        while at not in seen and at not in rooted:
            seen.add(at)
            at = places[at]
        if at == n and at not in rooted:
            left.add(n, f"its place, #{places[n]}, which is in it: it is in #0")
            places[n] = at = 0
        if at in rooted:
            rooted |= seen
    return places


def lists_of(left, objects, kinds, places, which):
    """What stands in each object's list, in its order; those whose place it is, and which stood in no list, at its end."""
    rows, met = {n: [] for n in places}, set()
    for n in places:
        d = getattr(objects[n], which)
        while d in places and d not in met and places[d] == n and (kinds[d] == EXIT) == (which == "exits"):
            rows[n].append(d)
            met.add(d)
            d = objects[d].next
    for d in sorted(places):
        if d and d not in met and (kinds[d] == EXIT) == (which == "exits"):
            rows[places[d]].append(d)
            if objects[d].place == places[d]:
                left.add(d, f"it stood in no list of #{places[d]}: it stands at the end now")
    return rows


def link_of(left, it, kinds):
    """Where an exit leads, and what is dropped in a room goes."""
    kind = kinds[it.number]
    wanted = it.to if kind == EXIT else [it.home] if kind == ROOM and it.home != NOTHING else []
    usable = [d for d in wanted if kinds.get(d) in MAY_LINK.get(kind, ()) or kind == EXIT and d == HOME]
    taken = usable[0] if usable else NOTHING
    for n, d in enumerate(wanted):
        if taken == NOTHING or n != wanted.index(taken):
            what = "home" if d == HOME else "nothing" if d < 0 else f"#{d} ({KINDS[kinds.get(d, GARBAGE)]})"
            left.add(it.number, f"its {'destination' if kind == EXIT else 'drop-to'} {what}")
    return taken


def count_of(objects, path):
    """How many objects the world has; refused where a world doesn't begin so."""
    for n, kind, what in ((0, fuzzball.ROOM, "a room"), (1, fuzzball.PLAYER, "a player")):
        if n not in objects or objects[n].kind != kind:
            raise Refused(f"{path}:{objects[n].line if n in objects else 2}: #{n} has to be {what}, as the world begins with it")
    count = max(max(objects) + 1, 2)
    if count > MOST_OBJECTS:
        raise Refused(f"{path}:{objects[count - 1].line}: #{count - 1} is past the {MOST_OBJECTS:,} objects that a world may have")
    return count


def add_library(objects):
    """A program more, carried by #1, for a library; its number."""
    number = max(objects) + 1
    objects[number] = fuzzball.Object(0, number, b"lib-common", 1, -1, objects[1].contents, fuzzball.PROGRAM | 0x20 | LEVEL_TWO | LEVEL_ONE, [], owner=1)
    objects[1].contents = number
    return number


def made(dump, path, sources, digests, left, library=None):
    """The objects of the world. `sources` gives the source of a program by its number, or None; `digests` those of players by their numbers; `library` is the number of a program that others may include."""
    objects, count = dump.objects, count_of(dump.objects, path)
    kinds = {n: KIND_OF[it.kind] for n, it in objects.items()}
    both = {n: flags_of(left, it) if kinds[n] != GARBAGE else (0, 0) for n, it in objects.items()}
    places = places_of(left, objects, kinds, {n: flags for n, (flags, _) in both.items()})
    contents, exits = (lists_of(left, objects, kinds, places, which) for which in ("contents", "exits"))
    following = {d: behind for rows in (contents, exits) for row in rows.values() for d, behind in zip(row, [*row[1:], NOTHING])}
    properties = {n: properties_of(left, objects[n], objects) for n in places}
    lines, libraries = {}, libraries_of(objects)
    for n in (n for n in places if kinds[n] == PROGRAM):
        data = sources(n)
        if data is None:
            left.add(n, f"its source: there is no {n}.m")
        lines[n] = source_of(left, objects[n], data or b"", libraries, properties[n])
    for n in lines:
        if library is not None and n != library:
            lines[n] = with_library(lines[n], library, properties)
        check_words(left, n, lines[n], properties)
    records = []
    for n in range(count):
        if n not in places:
            records.append(Record(n, GARBAGE, b"<garbage>"))
            continue
        it, kind = objects[n], kinds[n]
        owner = it.owner
        if kinds.get(owner) != PLAYER:
            left.add(n, f"its owner, #{owner}, which is no player: it is #1")
            owner = 1
        home = NOTHING
        if kind in MAY_LIVE:
            home = it.home if kinds.get(it.home) in MAY_LIVE[kind] else 0
            if home != it.home:
                left.add(n, f"its home, #{it.home}, where a {KINDS[kind]} can't be at home: it is #0")
        if kind == PLAYER:
            left.add(n, "its password" + (": it has another one" if n in digests else ": it has none, and can't come in"))
        rising = tuple(sorted(properties[n].items(), key=lambda pair: pair[0].split(b"/")))
        records.append(Record(n, kind, name_of(left, it), *both[n], owner, places[n], link_of(left, it, kinds), home, (contents[n] or [NOTHING])[0], (exits[n] or [NOTHING])[0], following.get(n, NOTHING),
                              rising, tuple(line.encode() for line in lines.get(n, ())), digests.get(n, b"")))
    return tuple(records)

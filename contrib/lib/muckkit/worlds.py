"""Whether objects make a world that a run begins with, and which of them doesn't fit."""
from .records import EXIT, FLAGS, GARBAGE, HOME, KINDS, MOST_NAME, MOST_OBJECTS, NOTHING, PLAYER, PROGRAM, ROOM, THING, TUNED_MOST, TUNED_NAMES, Record

MAY_STAND = {ROOM: (ROOM,), THING: (ROOM, THING, PLAYER), PROGRAM: (ROOM, THING, PLAYER), EXIT: (ROOM, THING, PLAYER), PLAYER: (ROOM,)}
MAY_LINK = {EXIT: (ROOM, PROGRAM), ROOM: (ROOM,)}
MAY_LIVE = {THING: (ROOM, THING, PLAYER), PLAYER: (ROOM, THING)}
VEHICLE = 1 << FLAGS.index("V")


class Unsound(Exception):
    """What doesn't hang together, and the object of which that is said; none of what is tuned."""

    def __init__(self, number, why):
        super().__init__(why)
        self.number, self.why = number, why


def shown(number):
    return {NOTHING: "nothing", HOME: "home"}.get(number, f"#{number}")


def check_limits(r):
    """The bounds of the parts of one object."""
    if not 1 <= len(r.name) <= MOST_NAME:
        raise Unsound(r.number, f"its name has {len(r.name)} bytes, and may have 1 to {MOST_NAME}")
    if r.level > 3:
        raise Unsound(r.number, f"its level is {r.level}, and may be 0 to 3")
    if r.flags >= 1 << len(FLAGS):
        raise Unsound(r.number, "it has a flag that isn't there")
    if len(r.digest) not in (0, 80) or r.digest.translate(None, b"0123456789abcdef"):
        raise Unsound(r.number, "its digest isn't one: nothing, or 80 hex digits in small letters")


def check_tied(objects, r):
    """Whether an object agrees with the kinds of what it names."""
    number = r.number

    def kind(d):
        return objects[d].kind if 0 <= d < len(objects) else GARBAGE

    def there(d):
        return f"{shown(d)} ({KINDS[kind(d)]})" if 0 <= d < len(objects) else shown(d)

    if r.kind == GARBAGE:
        if r != Record(number, GARBAGE, b"<garbage>"):
            raise Unsound(number, "it is garbage, and isn't blank")
        return
    for d in (r.first_content, r.first_exit, r.next):
        if d != NOTHING and not 0 <= d < len(objects):
            raise Unsound(number, f"a list of it goes on at {shown(d)}, which isn't there")
    if kind(r.owner) != PLAYER:
        raise Unsound(number, f"its owner is {there(r.owner)}, and has to be a player")
    if number == 0:
        if r.kind != ROOM or r.place >= 0 or r.next != NOTHING:
            raise Unsound(number, "it has to be a room that is nowhere")
    elif kind(r.place) not in MAY_STAND[r.kind]:
        rides = r.kind == PLAYER and kind(r.place) == THING and objects[r.place].flags & VEHICLE
        if not rides:
            raise Unsound(number, f"its place is {there(r.place)}, where a {KINDS[r.kind]} can't be")
    if r.link != NOTHING and not (r.kind == EXIT and r.link == HOME) and kind(r.link) not in MAY_LINK.get(r.kind, ()):
        raise Unsound(number, f"its link is {there(r.link)}, where a {KINDS[r.kind]} can't lead")
    if r.kind in MAY_LIVE:
        if kind(r.home) not in MAY_LIVE[r.kind]:
            raise Unsound(number, f"its home is {there(r.home)}, where a {KINDS[r.kind]} can't be at home")
    elif r.home != NOTHING:
        raise Unsound(number, f"it is a {KINDS[r.kind]} and has a home")


def check_tree(objects):
    """Whether the lists from #0 on down hold each object but garbage once, where its place is."""
    met, order = {0}, [0]
    for holder in order:
        for exits, d in ((False, objects[holder].first_content), (True, objects[holder].first_exit)):
            while d >= 0:
                r = objects[d]
                if d in met:
                    raise Unsound(d, f"it stands twice in lists, the second time in that of #{holder}")
                if r.place != holder:
                    raise Unsound(d, f"its place is {shown(r.place)}, and it stands in a list of #{holder}")
                if (r.kind == EXIT) != exits:
                    raise Unsound(d, f"it is {KINDS[r.kind]} and stands among the {'exits' if exits else 'contents'} of #{holder}")
                met.add(d)
                order.append(d)
                d = r.next
    for r in objects:
        if r.kind != GARBAGE and r.number not in met:
            raise Unsound(r.number, f"it stands in no list that begins at #0; its place is {shown(r.place)}")


def check(objects, tuned):
    """Nothing, where a run may begin with these; else who doesn't fit, and why."""
    if len(objects) > MOST_OBJECTS:
        raise Unsound(MOST_OBJECTS, f"a world has at most {MOST_OBJECTS:,} objects")
    for name, number, most in zip(TUNED_NAMES, tuned, TUNED_MOST):
        if not 1 <= number <= most:
            raise Unsound(None, f"{name} is {number}, and may be 1 to {most}")
    if len(objects) < 2 or objects[1].kind != PLAYER:
        raise Unsound(1, "#1 has to be a player")
    for n, r in enumerate(objects):
        if r.number != n:
            raise Unsound(n, f"#{r.number} stands where #{n} has to")
        check_limits(r)
        check_tied(objects, r)
    check_tree(objects)

"""Texts and names as a world takes them, and the list of what doesn't come over."""
from muckkit import plain_text
from muckkit.records import GARBAGE, KINDS, MOST_NAME, MOST_TEXT

from . import dump as fuzzball


class Left:
    """What didn't come over, by object."""

    def __init__(self):
        self.rows = []

    def add(self, number, why):
        self.rows.append((number, why))

    def text(self, objects, dump):
        """A line for each, by the objects of the world, or by those of the dump where an object itself didn't come."""
        def what(number):
            if number < 0:
                return ""
            r, it = objects[number], dump.objects.get(number)
            if r.kind == GARBAGE and it:
                return f"#{number} {fuzzball.KINDS[it.kind]} {plain_text.plain(it.name)[0].decode()}: "
            return f"#{number} {KINDS[r.kind]} {r.name.decode()}: "
        return "".join(f"{what(number)}{why}\n" for number, why in sorted(self.rows, key=lambda row: row[0]))


def text_of(left, number, what, data, most=MOST_TEXT):
    """A text as a world takes it."""
    data, changed = plain_text.plain(data)
    if changed:
        left.add(number, f"{what}: {plain_text.told(changed)}")
    if len(data) > most:
        left.add(number, f"{what}: the last {len(data) - most} of {len(data)} bytes")
    return data[:most]


def name_of(left, it):
    name = text_of(left, it.number, "its name", it.name, MOST_TEXT).replace(b"\r", b" ").strip(b" ")
    if len(name) > MOST_NAME:
        whole, name = name, name[:MOST_NAME]
        if it.kind == fuzzball.EXIT and b";" in name and whole[MOST_NAME:MOST_NAME + 1] != b";":
            name = name[:name.rindex(b";")]
        left.add(it.number, f"its name: all behind {name.decode()!r}")
    if not name:
        left.add(it.number, "its name, which is empty: it is unnamed")
    elif name[:1] in (b"#", b"*", b"!") or name.lower() in (b"me", b"here", b"home") or it.kind == fuzzball.PLAYER and b" " in name:
        left.add(it.number, "its name stays, but none could give it here: who means it by name may not find it")
    return name or b"unnamed"

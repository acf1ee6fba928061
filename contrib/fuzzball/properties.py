"""Properties of Fuzzball as those of a world: texts, numbers, locks and objects; floats stay behind."""
import re

from muckkit import plain_text
from muckkit.records import Outside, parts_of

from . import dump as fuzzball
from .left import text_of

TEXT, NUMBER, LOCK, REFERENCE, FLOAT = 2, 3, 4, 5, 6
BLESSED = 0x1000
MESSAGES = (b"_/de", b"_/sc", b"_/osc", b"_/fl", b"_/ofl", b"_/dr", b"_/odr")
# keys, properties with their values, and what puts them together
LOCK_TEXT = re.compile(rb"(?:[!&|() ]|#\d+|[^!&|():#]+:[^!&|()]*)+")
FUNCTIONS = frozenset("""v set with inc dec lit null if and or xor not add mult subt div mod abs sign min max dice strlen toupper tolower strip instr subst midstr mklist count lmember sublist for foreach
    while parse filter name ref loc owner type flags contents exits dbeq holds controls prop prop! propdir store delprop tell otell""".split())


def check_lock(left, it, what, value, objects):
    """Tells of what a lock holds that does something else here."""
    for n in map(int, re.findall(rb"#(\d+)", value)):
        if n not in objects:
            left.add(it.number, f"{what} names #{n}, which isn't there")
        elif objects[n].kind == fuzzball.PROGRAM:
            left.add(it.number, f"{what} runs program #{n}: here it is a key like a thing")
    if not LOCK_TEXT.fullmatch(value):
        left.add(it.number, f"{what} can't be read here, and opens for nobody: {value.decode()[:60]!r}")
    if re.search(rb":[^&|)]*[*?\[]", value):
        left.add(it.number, f"{what} has a pattern behind the colon: here it is a text")


def check_formula(left, it, what, value):
    """Tells of functions that aren't here, and of what isn't a formula."""
    names = sorted({name.decode().lower() for name in re.findall(rb"(?<!\\)\{([A-Za-z!?][\w!?-]*)", value)} - FUNCTIONS)
    if names:
        left.add(it.number, f"{what} has functions that aren't here: " + " ".join("{%s}" % name for name in names))
    plain = re.sub(rb"\\.", b"", value)
    if plain.count(b"{") != plain.count(b"}"):
        left.add(it.number, f"{what} has brackets without their other half: it is shown as an error")
    if re.match(rb"@(\$?\w+|#?\d+)", value):
        left.add(it.number, f"{what} runs a program: here it is a text")


def path_of(left, it, one):
    """The path of a property, or None where it can't be one here."""
    path, changed = plain_text.plain(one.path)
    path = b"/".join(part for part in path.lower().split(b"/") if part)
    try:
        parts_of(path)
    except Outside as why:
        left.add(it.number, f"the property {plain_text.plain(one.path)[0].decode()[:60]!r}: {why}")
        return None
    if changed:
        left.add(it.number, f"the path {path.decode()}: {plain_text.told(changed)}")
    return path


def value_of(left, it, one, path, objects):
    """The value of a property, or None."""
    what, kind = path.decode(), one.flags & 7
    if one.flags & BLESSED:
        left.add(it.number, f"{what}: its blessing, which is nothing here")
    if kind == TEXT:
        value = text_of(left, it.number, what, one.value)
        if path in MESSAGES:
            check_formula(left, it, what, value)
        return value or None
    if kind == LOCK:
        value = text_of(left, it.number, what, one.value)
        check_lock(left, it, what, value, objects)
        if path != b"_/lok":
            left.add(it.number, f"{what} is a lock: here it is a text, and locks nothing")
        return value or None
    if kind in (NUMBER, REFERENCE) and re.fullmatch(rb"\s*[+-]?\d{1,18}\s*", one.value):
        number = int(one.value)
        if kind == REFERENCE:
            left.add(it.number, f"{what} is an object: here it is the text #{number}")
            return b"#%d" % number
        if not -2 ** 31 <= number < 2 ** 31:
            left.add(it.number, f"{what}: the number {number}, which 32 bits don't hold")
            return None
        return number or None
    if kind == FLOAT:
        left.add(it.number, f"{what}: the float {one.value.decode('latin-1')[:40]}")
    elif kind != 0:
        left.add(it.number, f"{what}: a value of a kind that isn't known")
    return None


def properties_of(left, it, objects):
    found = {}
    for one in it.properties:
        path = path_of(left, it, one)
        value = None if path is None else value_of(left, it, one, path, objects)
        if value is None:
            continue
        if path in found:
            left.add(it.number, f"{path.decode()}: a second value")
        found.setdefault(path, value)
    return found

"""Sources of programs, with their libraries by number, what they lend, and the words in them that aren't here."""
import re

from muckkit import muf
from muckkit.records import MOST_LINES, Outside, parts_of

from .left import text_of
from .properties import NUMBER, REFERENCE, TEXT


def libraries_of(objects):
    """The numbers behind `$lib/NAME`, as Fuzzball registers them on #0."""
    found = {}
    for one in objects[0].properties:
        path = one.path.lower().strip(b"/")
        if path.startswith(b"_reg/lib/") and one.flags & 7 in (REFERENCE, NUMBER, TEXT) and re.fullmatch(rb"#?\d+", one.value):
            found[path[9:].decode("latin-1")] = int(one.value.lstrip(b"#"))
    return found


def source_of(left, it, data, libraries, lends):
    """The lines of a source, with numbers in place of the names of libraries. What it lends goes into `lends`."""
    lines = data.split(b"\n")
    if lines[-1] == b"":
        lines.pop()
    if len(lines) > MOST_LINES:
        left.add(it.number, f"its source: the last {len(lines) - MOST_LINES} of {len(lines)} lines")
    found = [text_of(left, it.number, f"line {n} of its source", line.rstrip(b"\r").expandtabs()).replace(b"\r", b" ").decode() for n, line in enumerate(lines[:MOST_LINES], 1)]
    found, lent = muf.plain(found) if found else ([], {})
    for name, text in lent.items():
        path = b"_defs/" + name.lower().encode()
        try:
            parts_of(path)
            lends.setdefault(path, (f'#{it.number} "{name.lower()}" call' if text is None else text).encode() or b" ")
        except Outside as why:
            left.add(it.number, f"what it lends as {name}: {why}")
    for name, where in muf.libraries(found).items():
        if name not in libraries:
            left.add(it.number, f"line {where[0]} of its source: $lib/{name} is registered nowhere on #0")
    return muf.with_numbers(found, libraries)


def included(lines, properties):
    """The names that a source has of the objects that it includes."""
    return {name for line in lines for n in re.findall(r"^\s*\$include\s+#(\d+)", line, re.I) for name in lent_by(properties, int(n))}


def check_words(left, number, lines, properties):
    """Tells of the words of a source that aren't here, with what the objects lend that it includes."""
    unknown = muf.unknown(lines, included(lines, properties))
    if unknown:
        left.add(number, "words of its source that aren't here: " + ", ".join(f"{word} (line {line})" for word, line in sorted(unknown.items())))


def lent_by(properties, number):
    """The names that an object lends."""
    return {path[6:].decode() for path in properties.get(number, {}) if path.startswith(b"_defs/")}


def with_library(lines, library, properties):
    """A source that uses words of the library includes it in front of its first line; what it declares itself stays its own."""
    lent = lent_by(properties, library)
    if not lent & set(muf.unknown(lines, included(lines, properties))):
        return lines
    own = {name for names in muf.taken(lines, lent).values() for name in names} & lent
    front = f"$include #{library} " + "".join(f"$undef {name} " for name in sorted(own))
    return [front + lines[0], *lines[1:]]

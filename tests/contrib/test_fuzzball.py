"""contrib/import-fuzzball. No dump that a Fuzzball wrote could be had: the two in tests/contrib/dumps were written by hand, after the format as its public sources write it."""
import json
import os
import random

from common import HERE, TOP, holds, put, refuses, same, script, tool, works
from fuzzball import dump as reading
from fuzzball.left import Left
from fuzzball.world import made
from muckkit import lines
from muckkit.records import TUNED
from muckkit.says import Refused
from muckkit.worlds import Unsound, check

SMALL = os.path.join(HERE, "dumps")
OLD, NEW, MUF = (os.path.join(SMALL, name) for name in ("foxen5.db", "foxen8.db", "muf"))


def dump(path):
    with open(path, "rb") as file:
        return file.read()


def a_dump_of_today(folder):
    out = works("import-fuzzball", NEW, "world.json", "--muf", MUF, "--passwords", "words", "--left", "left", folder=folder)
    same("what is said", out, "15 objects are in world.json; 32 lines of what isn't are in left\n")
    same("what doesn't come over", dump(os.path.join(folder, "left")).decode(), dump(os.path.join(SMALL, "left.txt")).decode())
    same("nobody else reads them", [os.stat(os.path.join(folder, name)).st_mode & 0o77 for name in ("words", "world.json")], [0, 0])
    words = dict(line.split() for line in dump(os.path.join(folder, "words")).decode().splitlines())
    same("who has a password", sorted(words), ["Ann", "One"])
    works("store", "import", "world", "world.json", folder=folder)
    # what is read is what was written: lines out of the store are those lines
    same("out again", works("store", "export", "world", folder=folder).encode(), dump(os.path.join(folder, "world.json")))
    said = script(folder, f"open 1\nsend 1 connect One {words['One']}\nsend 1 look\nsend 1 inventory\nsend 1 n\nsend 1 look loaf\nsend 1 get loaf\nsend 1 @list lib-greet\n"
                  "send 1 @program user\nsend 1 i\nsend 1 $include #7\nsend 1 : main greet bye ;\nsend 1 .\nsend 1 c\nsend 1 q\nsend 1 @run user=you\nsend 1 roaming\n"
                  f"open 2\nsend 2 connect Ann {words['Ann']}\nsend 2 look me\nsend 2 drop loaf\n")
    holds("a run", said, "1< Town Square(#0R)\n1< A wide square.\n1< Contents:\n1< The Cafe(#2RAJ)\n1< box(#11)\n", "1< cmd-hello.muf(#6FLM3)\n1< lib-greet(#7FALM3)\n", "1< The Cafe(#2RAJ)\n", "1< Fresh, One.\n", "1< Compiler done.\n",
          "1< Hello, you\n1< Bye\n", "1< You can't go that way.\n", "2< Ann smiles.\n2< She waves.\n")


def an_old_dump(folder):
    """Foxen5 has values, pennies and passwords that can be read; and an object without *Props*."""
    out = works("import-fuzzball", OLD, "world.json", folder=folder)
    same("what doesn't come over", out, "of a dump of the format Foxen5: times, counts of use, values and pennies of all objects\nsources of programs: --muf DIR says where they are\n"
         "#1 player One: its password: it has none, and can't come in\n5 objects are in world.json; 3 lines of what isn't\n")
    rows = [json.loads(line) for line in dump(os.path.join(folder, "world.json")).splitlines()]
    same("objects", [(row["kind"], row["name"], row.get("place"), row.get("link")) for row in rows[1:]],
         [("room", "Limbo", None, None), ("player", "One", 0, None), ("thing", "rock", 1, None), ("room", "Den", 0, 0), ("exit", "out;o", 3, 0)])
    works("store", "import", "world", "world.json", folder=folder)
    works("store", "password", "world", "One", folder=folder, typed="new\n")
    holds("a run", script(folder, "open 1\nsend 1 connect One new\nsend 1 inventory\nsend 1 @teleport me=#3\nsend 1 out\n"), "1< Limbo(#0R)\n", "1< rock(#2)\n", "1< Den(#3R)\n", "1< You can't go that way.\n")


def all_formats(folder):
    """The same world in each format: with pennies where a version writes them, and where it doesn't."""
    data = dump(OLD)
    first = None
    for version in range(5, 10):
        for pennies in (True, False):
            text = data.replace(b"Foxen5", b"Foxen%d" % version)
            if not pennies:
                text = text.replace(b"\n-1\n100\n#3\n", b"\n-1\n#three\n").replace(b"\n-1\n1\n1\n#1\n", b"\n-1\n1\n#1\n")
            elif version > 7:
                text = text.replace(b"\n100\n#3\n", b"\n100\n#three\n")
            put(folder, "it.db", text)
            works("import-fuzzball", "it.db", "it.json", folder=folder)
            found = dump(os.path.join(folder, "it.json"))
            os.remove(os.path.join(folder, "it.json"))
            first = first or found
            same(f"Foxen{version}", found, first)
    put(folder, "it.db", data.replace(b"***END OF DUMP***\n", b"***Foxen5 Deltas Dump Extention***\n#3\nDune\n0\n-1\n-1\n0\n1\n1\n1\n1\n*Props*\n*End*\n0\n4\n1\n***END OF DUMP***\n"))
    works("import-fuzzball", "it.db", "it.json", folder=folder)
    holds("deltas", dump(os.path.join(folder, "it.json")).decode(), '"name":"Dune"')


def dumps_that_are_wrong(folder):
    """Each is told with its file and line, and nothing is written."""
    data = dump(OLD)
    given = data.split(b"\n")

    def line(number, text):
        return b"\n".join([*given[:number - 1], text, *given[number:]])

    rows = [(b"", 1, "the dump ends where the name of the format is wanted"), (b"hello\n", 1, "it doesn't begin as a dump of the formats Foxen5 to Foxen9"), (data.replace(b"Foxen5", b"Foxen4"), 1, "it doesn't begin"),
            (line(2, b"x"), 2, "the number of objects is wanted, and 'x' stands there"), (line(3, b"2"), 3, "its texts are compressed"), (line(3, b"1"), 4, "the number of parameters is wanted, and '#4'"),
            (line(4, b"#x"), 4, "an object, #N, is wanted, and '#x' stands there"), (line(6, b"here"), 6, "its place is wanted, and 'here'"), (line(9, b"5"), 9, "#4 is of a kind 5"), (line(14, b"*Properties*"), 14, "*Props* is wanted"),
            (line(15, b"_/lok"), 15, "a property is wanted, PATH:FLAGS:VALUE"), (line(15, b"_/lok:x:y"), 15, "a property is wanted"), (line(17, b"99999"), 17, "an exit has 99999 destinations"),
            (line(17, b"2"), 20, "its owner is wanted"), (data[:60], 11, "the dump ends where when it was used is wanted"), (data[:-1 - len(b"***END OF DUMP***\n")], 0, ""),
            (dump(NEW).replace(b"#0\nTown Square\n-1\n1\n-1\n0\n", b"#0\nTown Square\n-1\n1\n-1\n1\n"), 0, "#0 has to be a room, as the world begins with it"),
            (data.replace(b"#4\nout", b"#100000\nout"), 4, "#100000 is past the 100,000 objects")]
    for n, (text, at, why) in enumerate(rows):
        put(folder, "bad.db", text)
        said = refuses("import-fuzzball", "bad.db", "world.json", "--passwords", "words", "--left", "left", folder=folder)
        holds(f"row {n}", said, why)
        assert said.startswith(f"bad.db:{at}: " if at else "bad.db:"), (n, said)
    same("nothing is written", os.listdir(folder), ["bad.db"])
    for words, why in (((OLD, "bad.db"), "bad.db is there already"), ((OLD, "w", "--passwords", "bad.db"), "bad.db is there already"), (("nothing", "w"), "nothing: No such file"), ((OLD, "w", "--muf", "nowhere"), "nowhere isn't a folder")):
        holds(words, refuses("import-fuzzball", *words, folder=folder), why)
    same("nothing is written", os.listdir(folder), ["bad.db"])


def what_cannot_be_written(folder):
    """Where one of the files can't be written none is."""
    for words, why in ((("w", "--left", "w"), "w is named twice, for two files"), (("w", "--left", "./w"), "w is named twice"), (("nowhere/w", "--passwords", "words", "--left", "left"), "nowhere/w: there is no folder nowhere"),
                       (("w", "--passwords", "nowhere/words"), "nowhere/words: there is no folder nowhere"), (("/dev/null",), "/dev/null is there already")):
        holds(words, refuses("import-fuzzball", OLD, *words, folder=folder), why)
        same("nothing is written", os.listdir(folder), [])


def cut_anywhere(folder):
    """Wherever a dump is cut it is refused, by a sentence with a line."""
    data = dump(NEW)
    for end in range(0, len(data) - 1, 7):
        try:
            reading.read(data[:end], "it")
        except Refused as why:
            assert str(why).startswith("it:"), why
        else:
            raise AssertionError(f"a dump that is cut at {end} is read")


def with_a_library(folder):
    """Programs that use words of the library include it, and keep what they declare themselves."""
    os.mkdir(os.path.join(folder, "muf"))
    put(os.path.join(folder, "muf"), "6.m", '( a note )\n$include $lib/greet\n: tell "own: " swap strcat me @ swap notify ;\n: main strip greet { "a" "b" }list array_reverse ", " array_join tell bye ;\n')
    put(os.path.join(folder, "muf"), "7.m", dump(os.path.join(MUF, "7.m")))
    works("import-fuzzball", NEW, "world.json", "--muf", "muf", "--left", "left", "--library", os.path.join(TOP, "demos/library.muf"), folder=folder)
    same("words that aren't here", [row for row in dump(os.path.join(folder, "left")).decode().splitlines() if "words of its source" in row], [])
    works("store", "import", "world", "world.json", folder=folder)
    works("store", "password", "world", "One", folder=folder, typed="new\n")
    said = script(folder, "open 1\nsend 1 connect One new\nsend 1 i\nsend 1 @run #6=  you \nsend 1 @list #6\nsend 1 @list #7\n")
    holds("a run", said, "1< lib-common(#15FLM3)\n", "1< Hello, you\n1< own: b, a\n1< Bye\n1< $include #15 $undef tell ( a note )\n1< $include #7\n", "1< : greet ( s -- )")


def object_at_random(draw, n, count, version):
    """The lines of an object whose numbers name anything."""
    def ref():
        return draw.choice((-3, -1, *range(count + 1)))

    kind = {0: 0, 1: 3}.get(n, draw.choice((0, 1, 1, 2, 2, 3, 4, 6)))
    rows = [f"#{n}", f"name {n}", ref() if n else -1, ref(), ref(), kind | draw.choice((0, 0x1000000, 0x140000, draw.getrandbits(28) << 3)), 1, 1, 1, 1, "*Props*", f"p/{n}:{draw.randrange(8)}:{ref()}", "*End*"]
    if kind in (0, 1, 3):
        rows += [ref(), ref()] + ([ref()] if kind < 3 else [])
    if kind in (1, 3) and version < 8:
        rows.append(5)
    if kind == 3:
        rows.append("secret")
    if kind == 2:
        rows += [2, ref(), ref(), ref()]
    if kind == 4:
        rows.append(ref())
    return "".join(f"{row}\n" for row in rows)


def dumps_at_random(folder):
    """Whatever the objects of a dump name, what comes of it is a world."""
    draw = random.Random(4)
    for turn in range(400):
        version, count = draw.randrange(5, 10), draw.randrange(2, 14)
        numbers = [n for n in range(count - 1, -1, -1) if n < 2 or draw.random() < 0.9]
        text = f"***Foxen{version} TinyMUCK DUMP Format***\n{count}\n0\n" + "".join(object_at_random(draw, n, count, version) for n in numbers) + "***END OF DUMP***\n"
        held, left = reading.read(text.encode(), "it"), Left()
        objects = made(held, "it", lambda _: None, {}, left)
        try:
            check(objects, TUNED)
        except Unsound as it:
            raise AssertionError(f"turn {turn}, #{it.number}: {it.why}\n{text}") from None
        assert left.text(objects, held).count("\n") == len(left.rows)
        same("its lines", lines.back(lines.out(objects, TUNED), "it"), (objects, TUNED))


def words_that_are_wrong(folder):
    for words in ((), ("a",), ("a", "b", "c")):
        status, out, why = tool("import-fuzzball", *words, folder=folder)
        same(words, (status, out, "usage: import-fuzzball" in why), (1, "", True))
    holds("--help", works("import-fuzzball", "--help", folder=folder), "usage: import-fuzzball")


TESTS = [a_dump_of_today, an_old_dump, all_formats, dumps_that_are_wrong, what_cannot_be_written, cut_anywhere, with_a_library, dumps_at_random, words_that_are_wrong]

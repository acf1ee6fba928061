"""The bytes of a store as muckkit reads and writes them, against tests/store/files.py, which shares nothing with it, and against worlds that the program has left."""
import dataclasses
import glob
import os
import random

import files
from common import LOGIN, TOP, files_in, same, script, works
from muckkit import lines, stores
from muckkit.records import Record


def ours(first, second):
    """What muckkit reads of two files, as files.py says it."""
    try:
        held = stores.held_by("it", (first, second))
    except stores.Damaged as damage:
        return files.Damaged(bool(damage.second), damage.at)
    objects = tuple(files.Record(**vars(r)) for r in held.objects)
    return files.World(held.second, held.place, held.generation, held.number, held.batches, objects, held.tuned)


def a_store(folder):
    """The files of a store of two generations, of few bytes."""
    script(folder, LOGIN + "send 1 @create ball\nsend 1 @set ball=a/b:x\n" + "dump\n" * 63 + "send 1 @dig Den\nsend 1 @open n=#3\ndump\nsend 1 @create old\ndump\nsend 1 @recycle old\nsend 1 @set me=c:1\n")
    found = files_in(folder)
    return found["world.a"], found["world.b"]


def bytes_that_change(folder):
    """Whatever byte is another one, and wherever a file is cut, both readers say the same of it."""
    first, second = a_store(folder)
    first = first[:1200]
    draw, kinds = random.Random(1), set()
    for n in range(4000):
        both = [bytearray(first), bytearray(second)]
        it = both[draw.randrange(2)] if n % 4 == 0 else both[1]
        for _ in range(draw.choice((1, 1, 1, 2))):
            it[draw.randrange(len(it))] = draw.choice((0, 1, 2, 13, 32, 65, 97, 127, 255, draw.randrange(256)))
        if draw.random() < 0.1:
            del it[draw.randrange(len(it)):]
        got, want = ours(*map(bytes, both)), files.read(*map(bytes, both))
        same(f"change {n}", got, want)
        kinds.add(type(want))
    same("both came", kinds, {files.World, files.Damaged})


def records_at_random(draw, objects):
    """Some of the objects, with parts that are others, whole or not."""
    found = []
    for r in objects:
        if draw.random() < 0.2:
            part = draw.choice("place link home owner kind level flags first_content first_exit next".split())
            found.append(dataclasses.replace(r, **{part: draw.choice((-3, -2, -1, 0, 1, 2, 3, 4)) if part not in ("kind", "level", "flags") else draw.randrange(6)}))
        elif draw.random() < 0.3:
            found.append(r)
    return found


def worlds_that_do_not_hang_together(folder):
    """Both readers judge batches alike whose objects don't fit together."""
    _, second = a_store(folder)
    before = files.read(b"", second)
    objects = before.objects
    draw, sound = random.Random(2), 0
    for n in range(4000):
        records = sorted(records_at_random(draw, objects), key=lambda r: r.number)
        try:
            data = second[:files.places(second)[-1]] + files.batch(before.generation, before.number + 1, records) + b"\x00"
        except files.struct.error:
            continue
        got, want = ours(b"", data), files.read(b"", data)
        same(f"world {n}", got, want)
        sound += isinstance(want, files.World)
    assert 100 < sound < 3900, sound


class Torn(stores.Files):
    """Files in memory that are looked at behind each byte, and each few bytes, that is written."""

    def __init__(self, first, second, seen):
        super().__init__("it", None)
        self.data, self.seen = [bytearray(first), bytearray(second)], seen

    def read(self):
        return stores.held_by("it", list(map(bytes, self.data)))

    def put(self, second, place, data):
        it = self.data[second]
        step = max(1, len(data) // 37)
        for at in range(0, len(data), step):
            piece = data[at:at + step]
            it.extend(bytes(max(0, place + at + len(piece) - len(it))))
            it[place + at:place + at + len(piece)] = piece
            self.seen(files.read(*map(bytes, self.data)))


def a_write_that_is_cut(folder):
    """Wherever the writing of a batch stops, the files hold the world from before, and then the new one: in the same file, in the other one, in an empty store, and where a world is replaced."""
    first, second = a_store(folder)
    full = files_in(folder)["world.a"]
    for data, anew in (((first, second), False), ((first, second), True), ((full, b""), False), ((full, second[:1]), True), ((b"", b""), False), ((b"\x00", b"rest"), True)):
        worlds = []
        torn = Torn(*data, worlds.append)
        held = torn.read()
        objects = list(held.objects)
        objects[0] = dataclasses.replace(objects[0], name=b"Changed")
        after = torn.append(held, objects, held.tuned, anew)
        numbers = [it.number for it in worlds]
        same("no damage, and in this order", numbers, sorted(numbers))
        same("one and the other", sorted(set(numbers)), [held.number, held.number + 1])
        same("what is there then", (files.read(*map(bytes, torn.data)).objects[0].name, after.generation), (b"Changed", held.generation + (anew and held.batches > 0 or held.batches >= 64)))


def worlds_of_the_demos(folder):
    """Each demo's world goes out, in and out to the same bytes, and a run of it dumps nothing more."""
    for path in sorted(glob.glob(os.path.join(TOP, "demos/*.muck"))):
        name = os.path.basename(path)[:-5]
        with open(path, encoding="utf-8") as file:
            script(folder, file.read(), name)
        found = files_in(folder)
        held = stores.held_by(name, (found[f"{name}.a"], found[f"{name}.b"]))
        text = lines.out(held.objects, held.tuned)
        same(name, lines.back(text, name), (held.objects, held.tuned))
    works("store", "export", "town", "town.json", folder=folder)
    works("store", "import", "new", "town.json", folder=folder)
    script(folder, "", "new")
    same("an empty dump behind it", len(files_in(folder)["new.a"]) - files.places(files_in(folder)["new.a"])[-2], 67)


def worlds_at_random(folder):
    """Lines of worlds with names, texts, properties and sources at random come back as they were."""
    draw = random.Random(3)

    def text(least, most):
        return bytes(draw.choice((13, 32, 34, 92, 47, 126, *range(33, 127))) for _ in range(draw.randrange(least, most)))

    for _ in range(60):
        count = draw.randrange(2, 12)
        rows = [Record(0, 0, text(1, 80), first_content=1), Record(1, 3, text(1, 80), flags=draw.randrange(1 << 14), level=draw.randrange(4), place=0, home=0, digest=draw.choice((b"", b"0" * 80)), next=2 if count > 2 else -1)]
        for n in range(2, count):
            paths = sorted({b"/".join(draw.choice((b"a", b"b-c", b"_", b"~x", b"9")) for _ in range(draw.randrange(1, 5))) for _ in range(draw.randrange(6))}, key=lambda path: path.split(b"/"))
            properties = tuple((path, draw.choice((text(1, 60), draw.choice((-2 ** 31, -1, 1, 2 ** 31 - 1))))) for path in paths)
            kind = draw.choice((1, 4))
            rows.append(Record(n, kind, text(1, 80), draw.randrange(1 << 14), draw.randrange(4), 1, 0, -1, draw.choice((0, 1)) if kind == 1 else -1, next=n + 1 if n + 1 < count else -1, properties=properties,
                               lines=tuple(text(0, 50) for _ in range(draw.randrange(4)))))
        tuned = tuple(draw.randrange(1, most + 1) for most in files.TUNED_MOST)
        it = lines.out(rows, tuned)
        same("a world", lines.back(it, "it"), (tuple(rows), tuned))
        same("its text", lines.out(*lines.back(it, "it")), it)


TESTS = [bytes_that_change, worlds_that_do_not_hang_together, a_write_that_is_cut, worlds_of_the_demos, worlds_at_random]

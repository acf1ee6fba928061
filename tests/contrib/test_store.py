"""contrib/store, against the program and against the reading of the bytes in tests/store/files.py."""
import fcntl
import json
import os
import resource
import subprocess

import files
from common import LOGIN, PATIENCE, PROGRAM, TOP, Server, files_in, holds, put, refuses, same, script, tool, works

BUILDING = LOGIN + """\
send 1 @describe here=A wide hall.
send 1 @dig Den
send 1 @open north;n=#2
send 1 @lock north=*One|#2
send 1 @create ball
send 1 @set ball=color:red
send 1 @set ball=_/a/b:two\\rlines
send 1 @set ball=_/a-b:dash
send 1 @set ball=V
send 1 @create old
send 1 @recycle old
send 1 @program shout
send 1 i
send 1 : main
send 1   me @ "n" 12 setprop me @ swap notify ;
send 1 .
send 1 c
send 1 q
send 1 @run shout=hi
send 1 @pcreate Two=secret
send 1 @set *Two=B
send 1 @tune instr_slice=100
send 1 @open back=home
send 1 @create last
send 1 @create gone
send 1 @recycle last
"""


def world_of(folder, store="world"):
    """What tests/store/files.py reads of the two files."""
    found = files_in(folder)
    it = files.read(found.get(f"{store}.a", b""), found.get(f"{store}.b", b""))
    assert isinstance(it, files.World), it
    return it


def what_is_shown(folder):
    script(folder, BUILDING)
    out = works("store", "info", "world", folder=folder)
    holds("info", out, "world.a counts: generation 1, dump 1, batches 1", "instr_slice 100")
    out = works("store", "list", "world", folder=folder)
    holds("list", out, "#0 room - owner #1 place nothing: Room Zero\n", "#4 thing V owner #1 place #1: ball\n", "program M3")
    same("players", [line.split(":")[1] for line in works("store", "list", "world", "--kind", "player", folder=folder).splitlines()], [" One", " Two"])
    out = works("store", "show", "world", "#4", folder=folder)
    holds("show", out, "#4 thing: ball\n", "flags: V\n", "home: #0\n", "property color: red\n", "property _/a/b: two\\\\rlines\n")
    assert out.index("_/a/b") < out.index("_/a-b")
    holds("a program", works("store", "show", "world", "5", folder=folder), "line 1: : main\n")
    holds("a number", works("store", "show", "world", "1", folder=folder), "property n: ^12\n", "password: set\n")
    holds("nothing there", refuses("store", "show", "world", "#99", folder=folder), "there is no object #99")
    holds("no number", refuses("store", "show", "world", "ball", folder=folder), "there is no object ball")


def out_and_back(folder):
    """The world as lines goes into another store, where a run finds the same; and those lines are the same bytes again."""
    script(folder, BUILDING)
    works("store", "export", "world", "first.json", folder=folder)
    works("store", "import", "new", "first.json", folder=folder)
    works("store", "export", "new", "second.json", folder=folder)
    found = files_in(folder)
    same("the lines", found["second.json"], found["first.json"])
    same("the objects", world_of(folder, "new").objects, world_of(folder).objects)
    same("what is tuned", world_of(folder, "new").tuned, world_of(folder).tuned)
    look = LOGIN + "send 1 look\nsend 1 inventory\nsend 1 @list shout\nsend 1 examine north\nsend 1 @tune\n"
    same("a run", script(folder, look, "new"), script(folder, look))
    holds("a name of any bytes", works("store", "import", b"n\xff".decode(errors="surrogateescape"), "first.json", folder=folder), "; n\\udcff.a counts, dump 1\n")
    same("standard output and input", tool("store", "import", "third", "-", folder=folder, typed=works("store", "export", "world", folder=folder))[0], 0)
    same("nobody else reads the digests", os.stat(os.path.join(folder, "first.json")).st_mode & 0o77, 0)


def where_lines_go(folder):
    """A file that a link names is written, not the link; what is there and is no file isn't touched."""
    script(folder, BUILDING)
    os.mkfifo(os.path.join(folder, "pipe"))
    os.mkdir(os.path.join(folder, "folder"))
    os.symlink("target", os.path.join(folder, "link"))
    for name in ("pipe", "folder"):
        same(name, refuses("store", "export", "world", name, folder=folder), f"{name} is there, and is no file")
    same("no folder", refuses("store", "export", "world", "nowhere/it", folder=folder), "nowhere/it: there is no folder nowhere")
    works("store", "export", "world", "link", folder=folder)
    same("the link", (os.readlink(os.path.join(folder, "link")), os.stat(os.path.join(folder, "target")).st_mode & 0o777), ("target", 0o600))
    same("nothing else", sorted(os.listdir(folder)), ["folder", "link", "pipe", "target", "world.a", "world.b"])


def a_file_that_may_not_grow(folder):
    """Where a file can't be written, as on a disk that is full, it is told which, and the world is the one from before."""
    script(folder, BUILDING + "send 1 @describe here=" + "long " * 300 + "\n")
    works("store", "export", "world", "it.json", folder=folder)
    before = files_in(folder)["world.a"]
    for command, name, typed in (("import new it.json", "new.a", ""), ("password world One", "world.a", "x\n"), ("import world it.json --replace", "world.b", "")):
        done = subprocess.run(["bash", "-c", f"ulimit -f 1; exec {TOP}/contrib/store {command}"], cwd=folder, input=typed.encode(), capture_output=True, timeout=PATIENCE)
        same(command, (done.returncode, done.stdout, done.stderr.decode()), (1, b"", f"store: {name}: File too large\n"))
    same("the world", files_in(folder)["world.a"], before)
    holds("nothing is in the other", works("store", "info", "new", folder=folder), "no dump is stored")
    script(folder, LOGIN)
    script(folder, LOGIN, "new")


def the_batch_of_a_whole_world(folder):
    """Bringing in writes the bytes that the program writes where it begins the other file."""
    script(folder, BUILDING + "dump\n" * 64 + "send 1 @create late\n")
    it = world_of(folder)
    same("the other file began", (it.second, it.batches), (True, 1))
    works("store", "export", "world", "it.json", folder=folder)
    works("store", "import", "new", "it.json", folder=folder)
    whole, ours = (files_in(folder)[name] for name in ("world.b", "new.a"))
    same("but for generation and number", ours[:14] + whole[14:30] + ours[30:], whole)


def ten_thousand_objects(folder):
    """Out and back within ten seconds of a processor, to the same bytes."""
    objects = [files.ROOM_ZERO, files.ONE]
    for n in range(2, 10000):
        objects.append(files.Record(n, files.THING, b"thing %d" % n, place=0, home=0, next=n + 1 if n < 9999 else -1,
                                    properties=((b"_/de", b"The thing of number %d, as plain as the others." % n), (b"a/count", n), (b"color", b"red"))))
    objects[1] = files.Record(**{**vars(files.ONE), "next": 2})
    put(folder, "world.a", files.batch(1, 1, [r for r in objects[1:]]) + b"\x00")
    before = resource.getrusage(resource.RUSAGE_CHILDREN)
    works("store", "export", "world", "first.json", folder=folder)
    works("store", "import", "new", "first.json", folder=folder)
    works("store", "export", "new", "second.json", folder=folder)
    after = resource.getrusage(resource.RUSAGE_CHILDREN)
    took = after.ru_utime + after.ru_stime - before.ru_utime - before.ru_stime
    works("store", "import", "third", "second.json", folder=folder)
    found = files_in(folder)
    same("the lines", found["second.json"], found["first.json"])
    same("the stores", found["third.a"], found["new.a"])
    same("the objects", world_of(folder, "new").objects, tuple(objects))
    assert took < 10, f"it took {took:.1f} s of a processor"
    holds("a run begins with it", script(folder, LOGIN + "send 1 look thing 9999\n", "new"), "The thing of number 9999")


def a_changed_world(folder):
    """Lines that another tool has changed are another world."""
    script(folder, BUILDING)
    rows = [json.loads(line) for line in works("store", "export", "world", folder=folder).splitlines()]
    rows[0]["objects"] += 1
    number = len(rows) - 1
    rows[1]["contents"].append(number)
    rows[1]["properties"]["_/de"] = "A wide hall, swept."
    rows.append({"number": number, "kind": "thing", "name": "broom", "owner": 1, "place": 0, "home": 0, "properties": {"b": "x", "a": 3}})
    put(folder, "changed.json", "".join(json.dumps(row, indent=None) + "\n" for row in rows))
    holds("refused", refuses("store", "import", "world", "changed.json", folder=folder), "world holds a world already; --replace")
    before = files_in(folder)
    works("store", "import", "world", "changed.json", "--replace", folder=folder)
    same("the old world stays in its file", files_in(folder)["world.a"], before["world.a"])
    same("the next generation", (world_of(folder).second, world_of(folder).generation, world_of(folder).number), (True, 2, 2))
    holds("a run", script(folder, LOGIN + "send 1 look\nsend 1 get broom\n"), "A wide hall, swept.", "broom(#", "Taken.")


def a_password(folder):
    script(folder, BUILDING)
    before = world_of(folder)
    out = works("store", "password", "world", "two", folder=folder, typed="new word\n")
    holds("what is said", out, "Two (#", "dump 2")
    after = world_of(folder)
    same("one batch more", (after.batches, after.number), (2, 2))
    same("nothing else", [(a.number, a.name) for a, b in zip(after.objects, before.objects) if a != b], [(r.number, r.name) for r in before.objects if r.name == b"Two"])
    holds("it is the password", script(folder, "open 1\nsend 1 connect Two secret\nsend 1 connect Two new word\n"), "1< Either that player", "1< Room Zero")
    for typed, why in (("", "that is no password"), ("\n", "that is no password"), ("x" * 33 + "\n", "that is no password"), (" a\n", "no spaces at its ends"), ("é\n", "that is no password"), (b"\xff\xfe\n", "holds byte 255"), ("a\rb\n", "that is no password")):
        holds(typed, refuses("store", "password", "world", "two", folder=folder, typed=typed), why)
    holds("nobody", refuses("store", "password", "world", "Nobody", folder=folder, typed="a\n"), "no player of world has the name Nobody")
    # behind 64 batches it begins the other file, as a dump does
    script(folder, "dump\n" * (64 - world_of(folder).batches - 1))
    same("a full file", world_of(folder).batches, 64)
    works("store", "password", "world", "One", folder=folder, typed="a b\n")
    same("the other file", (world_of(folder).second, world_of(folder).batches, world_of(folder).generation), (True, 1, 2))
    holds("it is the password", script(folder, "open 1\nsend 1 connect One a b\n"), "1< Room Zero(#0R)")


def damage(folder):
    script(folder, LOGIN + "dump\nsend 1 @create ball\ndump\nsend 1 @create cup\n")
    whole = files_in(folder)["world.a"]
    gates = files.places(whole)
    holds("not damaged", refuses("store", "cut", "world", folder=folder), "isn't damaged")
    for at, names in ((gates[1], []), (gates[2], [b"ball"])):
        damaged = whole[:at + 20] + b"?" + whole[at + 21:]
        put(folder, "world.a", damaged)
        holds("info", refuses("store", "info", "world", folder=folder), f"world.a is damaged at byte {at}: it is of generation")
        holds("password", refuses("store", "password", "world", "One", folder=folder, typed="x\n"), f"world.a is damaged at byte {at}")
        same("nothing is written", files_in(folder)["world.a"], damaged)
        out = works("store", "cut", "world", folder=folder)
        (aside,) = [name for name in os.listdir(folder) if name.endswith(".damaged")]
        same("what it was", files_in(folder)[aside], damaged)
        os.remove(os.path.join(folder, aside))
        same("where it ends", files_in(folder)["world.a"], whole[:at] + b"\x00")
        same("the world of the dump before", [r.name for r in world_of(folder).objects[2:]], names)
        holds("what is said", out, "the world is that of dump")
        script(folder, LOGIN)
    # cut short, and the gate behind the last batch missing
    for cut in (len(whole) - 1, len(whole) - 30, gates[2] + 3):
        put(folder, "world.a", whole[:cut])
        status = subprocess.run([PROGRAM, "run", "world"], cwd=folder, stdin=subprocess.DEVNULL, capture_output=True).stderr.decode()
        holds("as the program says", status, "Damaged 0 ")
        holds("the same place", refuses("store", "info", "world", folder=folder), f"at byte {status.split()[2]}:")


def damage_at_the_beginning(folder):
    script(folder, LOGIN + "dump\n" * 63 + "send 1 @create ball\ndump\nsend 1 @create cup\n")
    found = files_in(folder)
    put(folder, "world.b", found["world.b"][:10] + b"?" + found["world.b"][11:])
    out = works("store", "cut", "world", folder=folder)
    holds("put aside", out, "world.b is damaged at byte 0", "the world is that of the other file")
    same("the world of the other file", [r.name for r in world_of(folder).objects[2:]], [b"ball"])
    put(folder, "alone.a", found["world.a"][:10] + b"?" + found["world.a"][11:])
    holds("nothing else is there", refuses("store", "cut", "alone", folder=folder), "the other file holds nothing: take a backup")


def a_store_that_is_locked(folder):
    """What changes a store is refused while something has one of its files locked, as a run that has it mounted; the others read on."""
    script(folder, BUILDING)
    works("store", "export", "world", "it.json", folder=folder)
    for ending in "ab":
        with open(os.path.join(folder, f"world.{ending}"), "rb") as held:
            fcntl.flock(held, fcntl.LOCK_EX)
            before = files_in(folder)
            for words in (("password", "world", "One"), ("cut", "world"), ("import", "world", "it.json"), ("import", "world", "it.json", "--replace")):
                same(words, refuses("store", *words, folder=folder, typed="x\n"), f"world.{ending} is locked by a run of its store: end that first")
            same("nothing is written", files_in(folder), before)
            holds("reading", works("store", "info", "world", folder=folder), "counts: generation 1, dump 1")
            works("store", "export", "world", folder=folder)
    works("store", "password", "world", "One", folder=folder, typed="x\n")


def while_a_server_dumps(folder):
    """What is read beside a server that dumps is always a world of one of its dumps."""
    with Server(folder) as server:
        server.talk("@create ball", "@dump")
        reader = None
        for n in range(6):
            reader = subprocess.Popen([os.path.join(os.path.dirname(os.path.realpath(files.__file__)), "../../contrib/store"), "list", "world"], cwd=folder, stdout=subprocess.PIPE, stderr=subprocess.PIPE)
            server.talk(*(line for k in range(10) for line in (f"@create thing {n} {k}", "@dump")))
            out, why = reader.communicate()
            same("reading", (reader.returncode, why), (0, b""))
            names = [line.split(": ", 1)[1] for line in out.decode().splitlines()][2:]
            same("in the order in which they were made", names, (["ball"] + [f"thing {a} {b}" for a in range(6) for b in range(10)])[:len(names)])
            assert names


def by_root(folder):
    """What root makes belongs to who owns the other file, or the folder."""
    if os.geteuid() != 0:
        return
    script(folder, BUILDING)
    works("store", "export", "world", "it.json", folder=folder)
    os.remove(os.path.join(folder, "world.b"))
    os.chown(os.path.join(folder, "world.a"), 65534, 65534)
    works("store", "password", "world", "One", folder=folder, typed="x\n")
    os.chown(folder, 12345, 65534)
    works("store", "import", "new", "it.json", folder=folder)
    same("owners", [os.stat(os.path.join(folder, name)).st_uid for name in ("world.a", "world.b", "new.a", "new.b")], [65534, 65534, 12345, 12345])
    same("for them alone", [os.stat(os.path.join(folder, name)).st_mode & 0o77 for name in ("world.b", "new.a", "new.b")], [0, 0, 0])


WRONG = (
    ("not json", 3, "it isn't JSON"),
    ("[1]", 3, "it isn't an object of JSON"),
    ('{"number":1,"number":2}', 3, "'number' stands twice"),
    ('{"number":1,"kind":"cat"}', 3, "'kind' isn't one of room"),
    ('{"number":2,"kind":"player"}', 3, "the number is 2, and has to be 1"),
    ('{"number":1,"kind":"player","name":"One","owner":1,"place":0,"home":0,"color":1}', 3, "'color' is no part of an object"),
    ('{"number":1,"kind":"player","name":"","owner":1,"place":0,"home":0}', 3, "'name': a text of 0 bytes"),
    ('{"number":1,"kind":"player","name":"Oné","owner":1,"place":0,"home":0}', 3, "'name'"),
    ('{"number":1,"kind":"player","name":"O\\u2014","owner":1,"place":0,"home":0}', 3, "isn't ASCII"),
    ('{"number":1,"kind":"player","name":"One","place":0,"home":0}', 3, "'owner' is missing"),
    ('{"number":1,"kind":"player","name":"One","owner":true,"place":0,"home":0}', 3, "'owner' isn't a number"),
    ('{"number":1,"kind":"player","name":"One","owner":1,"place":0,"home":0,"flags":"WW"}', 3, "'flags' isn't a text of some of"),
    ('{"number":1,"kind":"player","name":"One","owner":1,"place":0,"home":0,"level":4}', 3, "'level' isn't a number from 0 to 3"),
    ('{"number":1,"kind":"player","name":"One","owner":1,"place":0,"home":9}', 3, "its home is #9"),
    ('{"number":1,"kind":"player","name":"One","owner":0,"place":0,"home":0}', 3, "its owner is #0 (room), and has to be a player"),
    ('{"number":1,"kind":"player","name":"One","owner":1,"place":0,"home":0,"link":0}', 3, "its link is #0 (room)"),
    ('{"number":1,"kind":"player","name":"One","owner":1,"place":0,"home":0,"digest":"abc"}', 3, "its digest isn't one"),
    ('{"number":1,"kind":"player","name":"One","owner":1,"place":0,"home":0,"contents":[0]}', 3, "'contents' holds #0, whose place is #-1"),
    ('{"number":1,"kind":"player","name":"One","owner":1,"place":0,"home":0,"contents":[7]}', 3, "'contents' holds #7, which isn't there"),
    ('{"number":1,"kind":"player","name":"One","owner":1,"place":0,"home":0,"properties":{"A":"x"}}', 3, "a path holds byte 65"),
    ('{"number":1,"kind":"player","name":"One","owner":1,"place":0,"home":0,"properties":{"a//b":"x"}}', 3, "one slash between"),
    ('{"number":1,"kind":"player","name":"One","owner":1,"place":0,"home":0,"properties":{"a":""}}', 3, "a text of 0 bytes"),
    ('{"number":1,"kind":"player","name":"One","owner":1,"place":0,"home":0,"properties":{"a":1.5}}', 3, "neither a text"),
    ('{"number":1,"kind":"player","name":"One","owner":1,"place":0,"home":0,"source":["a\\nb"]}', 3, "line 1 of the source: a text holds byte 10"),
    ('{"number":1,"kind":"garbage"}', 2, "'contents' holds #1, which is garbage"),
    ('{"number":1,"kind":"room","name":"One","owner":1,"place":0}', 3, "#1 has to be a player"),
)


def lines_that_are_wrong(folder):
    """Each is told with its file and line, and nothing is written."""
    first = '{"muckd":1,"objects":2,"tuned":{"instr_slice":2000,"preempt_units":20000,"m1_units":20000,"m2_units":80000,"process_limit":400,"player_processes":32,"mpi_commands":2048,"dump_interval":900}}\n'
    zero = '{"number":0,"kind":"room","name":"Room Zero","owner":1,"contents":[1]}\n'
    one = '{"number":1,"kind":"player","name":"One","flags":"W","owner":1,"place":0,"home":0}\n'
    put(folder, "good.json", first + zero + one)
    works("store", "import", "good", "good.json", folder=folder)
    before = files_in(folder)
    rows = [(first + zero + line + "\n", at, why) for line, at, why in WRONG]
    rows += [(first.replace('"muckd":1', '"muckd":true') + zero + one, 1, "'muckd' isn't a number"), (first.replace("900", "9" * 5000) + zero + one, 1, "it isn't JSON: a number in it is too long"),
             (first + zero + "{", 3, "it isn't JSON: Expecting property name enclosed in double quotes, at byte 2 of the line"), (first + zero + "[" * 100000, 3, "it is nested too deep"), ("\ufeff" + first + zero + one, 1, "it isn't JSON: "),
             ("", 1, "it is empty"), ("{}\n", 1, "it doesn't begin as an exported world does"), (first, 1, "it tells of 2 objects, and 0 follow"), (first.replace("900", "0") + zero + one, 1, "dump_interval is 0"),
             (first.replace('"m1_units":20000,', "") + zero + one, 1, "'tuned' isn't"), (first + zero.replace(',"contents":[1]', "") + one, 3, "it stands in no list"),
             (first + zero.replace("[1]", "[1,1]") + one, 2, "'contents' holds #1, which stands in a list already"), (first + zero.replace("contents", "exits") + one, 2, "'exits' holds #1, which is player")]
    for text, at, why in rows:
        put(folder, "bad.json", text)
        said = refuses("store", "import", "good", "bad.json", "--replace", folder=folder)
        holds(text, said, why)
        assert said.startswith(f"bad.json:{at}: "), said
    os.remove(os.path.join(folder, "bad.json"))
    same("nothing is written", files_in(folder), before)
    put(folder, "bad.json", first.encode() + zero.encode() + b"\xff\xfe\n")
    holds("bytes", refuses("store", "import", "bad", "bad.json", folder=folder), "bad.json:3: it isn't UTF-8")


def words_that_are_wrong(folder):
    for words in ((), ("info",), ("frob", "world"), ("show", "world"), ("import", "world"), ("list", "world", "--kind", "cat")):
        status, out, why = tool("store", *words, folder=folder)
        same(words, (status, out, "usage: store" in why), (1, "", True))
    for words in (("info", "world"), ("password", "world", "One"), ("cut", "world"), ("export", "world", "it.json")):
        holds("no store", refuses("store", *words, folder=folder, typed="x\n"), "there is no store world")
    holds("no file", refuses("store", "import", "world", "nothing.json", folder=folder), "nothing.json: No such file")
    same("nothing is made", os.listdir(folder), [])
    for command in ((), ("info",), ("list",), ("show",), ("password",), ("cut",), ("export",), ("import",)):
        holds("--help", works("store", *command, "--help", folder=folder), "usage: store")


TESTS = [what_is_shown, out_and_back, where_lines_go, a_file_that_may_not_grow, the_batch_of_a_whole_world, ten_thousand_objects, a_changed_world, a_password, damage, damage_at_the_beginning, a_store_that_is_locked, by_root, while_a_server_dumps,
         lines_that_are_wrong, words_that_are_wrong]

"""contrib/keep, beside the real program."""
import fcntl
import os
import re
import shutil
import socket
import subprocess
import sys
import threading
import time

from common import PATIENCE, PROGRAM, TOP, Server, files_in, holds, put, refuses, same, script, tool, works


def keeper(folder, line="One potrzebie\n"):
    return put(folder, "keeper", line)


def keep(server, *words):
    return ("--port", server.port, *(("--patience", 300) if "--patience" not in words else ()), "--store", os.path.join(server.folder, "world"), "--password", os.path.join(server.folder, "keeper"), *words)


def a_probe(folder):
    with Server(folder) as server:
        where = ("--port", server.port)
        out = works("keep", *where, "probe", folder=folder)
        found = re.fullmatch(r"up=1 players=0 connections=0 answer_ms=[\d.]+\n", out)
        assert found, out
        server.talk("@tune dump_interval=7", "@dump")
        with socket.create_connection(("127.0.0.1", server.port)) as one:
            one.sendall(b"connect One potrzebie\r\n")
            time.sleep(0.2)
            out = works("keep", *where, "--store", "world", "probe", folder=folder)
        found = re.fullmatch(r"up=1 players=1 connections=1 answer_ms=[\d.]+ dump_age=\d+ dump_interval=7 store_bytes=\d+\n", out)
        assert found, out
        same("the bytes", int(out.split("store_bytes=")[1]), sum(len(data) for name, data in files_in(folder).items() if name.startswith("world.")))
        # a dump that is too old
        for ending in "ab":
            os.utime(os.path.join(folder, f"world.{ending}"), (time.time() - 1000,) * 2)
        status, out, why = tool("keep", *where, "--store", "world", "probe", folder=folder)
        same("too old", (status, out[:4], why.startswith("keep: no dump for 100")), (1, "up=1", True))
        works("keep", *where, "--store", "world", "probe", "--max-age", "2000", folder=folder)
        status, out, why = tool("keep", *where, "--store", "nothing", "probe", folder=folder)
        same("no store", (status, out[:4], why), (1, "up=1", "keep: there is no store nothing\n"))
    status, out, why = tool("keep", *where, "probe", folder=folder)
    same("down", (status, out, "nothing answers at 127.0.0.1" in why), (1, "up=0\n", True))


def a_dump(folder):
    with Server(folder) as server:
        keeper(folder)
        same("a dump", works("keep", *keep(server, "dump"), folder=folder), "dump 1 is stored\n")
        same("and another", works("keep", *keep(server, "dump"), folder=folder), "dump 2 is stored\n")
        server.talk("@pcreate Two=secret")
        keeper(folder, "Two secret")
        same("no wizard", refuses("keep", *keep(server, "dump"), folder=folder), "no dump was made: Permission denied (P17).")
        keeper(folder, "Two wrong")
        same("a wrong password", refuses("keep", *keep(server, "dump"), folder=folder), "the player Two can't come in: Either that player does not exist, or has a different password.")


def nobody_hears_it(folder):
    """The keeper's lines are seen by nobody else in its room, but for its coming and going."""
    with Server(folder) as server:
        keeper(folder)
        server.talk("@pcreate Two=secret")
        with socket.create_connection(("127.0.0.1", server.port)) as two:
            two.sendall(b"connect Two secret\r\n")
            time.sleep(0.2)
            works("keep", *keep(server, "dump"), folder=folder)
            two.sendall(b"QUIT\r\n")
            data = b"".join(iter(lambda: two.recv(65536), b""))
        same("what Two sees", data.decode().split("\r\n")[-4:], ["One has connected.", "One has disconnected.", "Come back later!", ""])


def backups(folder):
    to = os.path.join(folder, "backups")
    os.mkdir(to)
    os.mkdir(os.path.join(to, "world-notes"))
    with Server(folder) as server:
        keeper(folder)
        for n in range(4):
            server.talk(f"@create thing {n}")
            out = works("keep", *keep(server, "backup", to, "--keep", "2"), folder=folder)
            holds("what is said", out, f" holds dump {n + 1}\n")
            same("one goes", out.count("was taken away"), int(n >= 2))
            time.sleep(1.05)
        same("what is there", [bool(re.fullmatch(r"world-\d{8}-\d{6}", name)) for name in sorted(os.listdir(to))], [True, True, False])
        newest = sorted(os.listdir(to))[-2]
        same("its files", sorted(os.listdir(os.path.join(to, newest))), ["world.a", "world.b"])
        said = script(os.path.join(to, newest), "open 1\nsend 1 connect One potrzebie\nsend 1 inventory\n")
        holds("the world of the dump", said, "thing 3(#5)", "thing 0(#2)")
        holds("no folder", refuses("keep", *keep(server, "backup", os.path.join(folder, "nowhere")), folder=folder), "nowhere isn't a folder")
        dumps = int(works("keep", *keep(server, "dump"), folder=folder).split()[1])
        words = [*keep(server), "--store", os.path.join(folder, "nothing"), "backup", to]
        holds("no store", refuses("keep", *words, folder=folder), "there is no store ", "neither ")
        same("no dump was asked for", works("keep", *keep(server, "dump"), folder=folder), f"dump {dumps + 1} is stored\n")
        holds("no program", refuses("keep", *keep(server, "backup", to, "--muckd", "/nowhere/muckd"), folder=folder, env={"PATH": os.path.dirname(sys.executable) + ":/usr/bin"}), "which isn't found")
    before = sorted(os.listdir(to))
    holds("down", refuses("keep", *keep(server, "backup", to), folder=folder), "nothing answers")
    same("nothing is left", sorted(os.listdir(to)), before)


def a_copy_that_is_not_whole(folder):
    """A copy that the program refuses is no backup, and is taken away."""
    to = os.path.join(folder, "backups")
    os.mkdir(to)
    with Server(folder) as server:
        keeper(folder)
        works("keep", *keep(server, "dump"), folder=folder)
        os.mkdir(os.path.join(folder, "other"))
        put(os.path.join(folder, "other"), "world.a", files_in(folder)["world.a"][:-1])
        words = [*keep(server), "--store", os.path.join(folder, "other/world"), "backup", to]
        same("refused", refuses("keep", *words, folder=folder), "3 copies weren't whole: a dump came into each")
        put(os.path.join(folder, "other"), "world.a", b"")
        holds("another store", refuses("keep", *words, folder=folder), "isn't the store that is served at port", "its last dump is none, and that one has stored dump 5")
        same("nothing is left", os.listdir(to), [])


def which_backups_stay(folder):
    """The newest ones, and the one that was just made also where the clock was ahead before; what else lies beside or in them."""
    to = os.path.join(folder, "backups")
    for name in ("world-20200101-000000", "world-20200102-000000", "world-20991231-000000", "world-notes", "other-20200101-000000", "world-20200103-000000"):
        os.makedirs(os.path.join(to, name))
        if name != "world-20200103-000000":
            put(os.path.join(to, name), "world.a", b"")
    put(os.path.join(to, "world-20200101-000000"), "note", "why it was made")

    def there():
        return {name for name in os.listdir(to) for file in os.listdir(os.path.join(to, name)) if file == "world.a"}

    with Server(folder) as server:
        keeper(folder)
        first = there()
        same("enough room", works("keep", *keep(server, "backup", to, "--keep", "5"), folder=folder).count("taken away"), 0)
        made = there() - first
        same("one more", (len(made), there() >= first), (1, True))
        time.sleep(1.05)
        out = works("keep", *keep(server, "backup", to, "--keep", "2"), folder=folder)
        same("taken away", re.findall(r"(world-20\d{6}-\d{6}) was taken away", out), ["world-20200101-000000", "world-20200102-000000", *made])
        newest = there() - first - made
        same("what stays", (there(), len(newest)), ({"world-20991231-000000", "world-notes", "other-20200101-000000"} | newest, 1))
        same("a note stays", os.listdir(os.path.join(to, "world-20200101-000000")), ["note"])


def a_backup_that_is_ended(folder):
    """What a signal ends leaves nothing behind, and says so."""
    to = os.path.join(folder, "backups")
    os.mkdir(to)
    put(folder, "slow", "#!/bin/sh\necho > tried\nexec sleep 600\n", 0o700)
    with Server(folder) as server:
        keeper(folder)
        tool_path = os.path.join(TOP, "contrib/keep")
        one = subprocess.Popen([tool_path, *map(str, keep(server, "backup", to, "--muckd", os.path.join(folder, "slow")))], cwd=folder, stdout=subprocess.PIPE, stderr=subprocess.PIPE)
        until = time.monotonic() + PATIENCE
        while not any("tried" in files for _, _, files in os.walk(to)):
            assert one.poll() is None and time.monotonic() < until, one.communicate()
            time.sleep(0.05)
        one.terminate()
        out, why = one.communicate(timeout=PATIENCE)
        same("ended", (one.returncode, out, why), (1, b"", b"keep: interrupted\n"))
        same("nothing is left", os.listdir(to), [])


def while_much_is_made(folder):
    """Backups of a server that dumps without a rest are whole."""
    to = os.path.join(folder, "backups")
    os.mkdir(to)
    with Server(folder) as server:
        keeper(folder)
        going = True

        def dumps():
            n = 0
            while going:
                server.talk(f"@create thing {n}", "@dump", f"@create more {n}", "@dump")
                n += 1

        other = threading.Thread(target=dumps)
        other.start()
        try:
            for _ in range(4):
                status, out, why = tool("keep", *keep(server, "backup", to), folder=folder)
                assert (status, why) == (0, "") or (status, why) == (1, "keep: 3 copies weren't whole: a dump came into each\n"), (status, out, why)
                time.sleep(1)
        finally:
            going = False
            other.join()
    for name in os.listdir(to):
        script(os.path.join(to, name), "")


def lines_are_typed(folder):
    script(folder, "open 1\nsend 1 connect One potrzebie\nsend 1 @program watch\nsend 1 i\nsend 1 : main background begin 60 sleep repeat ;\nsend 1 .\nsend 1 c\nsend 1 q\nsend 1 @set watch=L\n")
    with Server(folder) as server:
        keeper(folder)
        file = put(folder, "start", "# what runs behind each start\n@run #2=\n\n@ps\nno such word\n")
        same("what is shown", works("keep", *keep(server, "type", file), folder=folder), '1 #2 One\n1 processes.\nHuh?  (Type "help" for help.)\n')
        same("it runs on", server.talk("@ps")[-3:-1], ["1 #2 One", "1 processes."])
        put(folder, "start", "".join(f"@create thing {n}\n" for n in range(3000)))
        same("many lines", works("keep", *keep(server, "type", file), folder=folder).splitlines(), [f"Created thing {n}(#{n + 3})." for n in range(3000)])
        put(folder, "start", "@create a\n@create é\n")
        same("a line that can't be typed", refuses("keep", *keep(server, "type", file), folder=folder), f"{file}:2: byte 195 can't be typed: a line has bytes from 32 to 126")
        put(folder, "start", "@create a\n" + "x" * 2049 + "\n")
        holds("a long line", refuses("keep", *keep(server, "type", file), folder=folder), f"{file}:2: the line has 2049 bytes")
        same("nothing was typed", [line for line in server.talk("@find a") if line.startswith("a(")], [])
        put(folder, "start", "@program left\ni\n")
        holds("an editor left open", refuses("keep", *keep(server, "--patience", "20", "type", file), folder=folder), "20 seconds went by without the end of what the lines do")


def it_waits_for_a_server(folder):
    keeper(folder)
    file = put(folder, "start", "WHO\n")
    server = Server(folder)
    late = threading.Timer(1, server.__enter__)
    late.start()
    try:
        holds("it comes", works("keep", "--wait", "30", *keep(server, "type", file), folder=folder), "One (", "\n1 connected.\n")
    finally:
        late.join()
        server.__exit__()


def it_stops(folder):
    with Server(folder) as server:
        keeper(folder)
        server.talk("@create ball", "@pcreate Two=secret")
        keeper(folder, "Two secret\n")
        same("who may not", refuses("keep", *keep(server, "stop", "--say", ""), folder=folder), "the world goes on: Permission denied (P17).")
        keeper(folder)
        for text in ("Gute N\u00e4chte", "a\n@shutdown", "x" * 2049):
            holds(text, refuses("keep", *keep(server, "stop", "--say", text), folder=folder), "can't be typed: a line has up to 2048 letters, all of ASCII")
        with socket.create_connection(("127.0.0.1", server.port)) as one:
            one.sendall(b"connect One potrzebie\r\n")
            time.sleep(0.2)
            same("stopped", works("keep", *keep(server, "stop", "--say", "Good night."), folder=folder), "the world has stopped\n")
            data = b"".join(iter(lambda: one.recv(65536), b""))
        holds("all are told", data.decode(), 'One shouts, "Good night."')
        same("its status", server.ended(), 0)
        holds("the last dump", works("store", "list", "world", folder=folder), ": ball\n")
        holds("it is down", refuses("keep", *keep(server, "stop"), folder=folder), "nothing answers")


def it_waits_for_the_lock(folder):
    """A run has its store locked until its last dump is made, and the stop waits for that: here for one that takes the lock as the server lets it go."""
    with Server(folder) as server:
        keeper(folder)
        server.talk("@dump")
        with open(os.path.join(folder, "world.a"), "rb") as held:
            next_one = threading.Thread(target=fcntl.flock, args=(held, fcntl.LOCK_EX))
            next_one.start()
            holds("locked", refuses("keep", *keep(server, "--patience", "20", "stop"), folder=folder), "hadn't ended 20 seconds later")
            next_one.join()


def a_world_that_is_full(folder):
    """Where all connections are taken nobody is greeted, and a probe says so."""
    with Server(folder) as server:
        links = [socket.create_connection(("127.0.0.1", server.port)) for _ in range(256)]
        time.sleep(0.5)
        status, out, why = tool("keep", "--port", server.port, "--patience", "1", "probe", folder=folder)
        for one in links:
            one.close()
        same("full", (status, out, "without the greeting" in why), (1, "up=0\n", True))


def password_files(folder):
    with Server(folder) as server:
        for text, mode, why in (("One potrzebie\n", 0o644, "can be read by others than you"), ("One potrzebie\n", 0o640, "can be read by others"), ("", 0o600, "keeper:1: a password file has one line"),
                                ("One\n", 0o600, "keeper:1: the line isn't NAME PASSWORD"), ("One a\nTwo b\n", 0o600, "keeper:2: a password file has one line"), ("One é\n", 0o600, "keeper:1: the line isn't"),
                                ("One " + "x" * 33, 0o600, "keeper:1: the line isn't")):
            put(folder, "keeper", text, mode)
            holds(text, refuses("keep", *keep(server, "dump"), folder=folder), why)
        # what systemd lends shows the group's bits where an access list names its reader
        put(folder, "keeper", "One potrzebie\n", 0o440)
        same("lent by systemd", works("keep", *keep(server, "dump"), folder=folder, env={"CREDENTIALS_DIRECTORY": folder}), "dump 1 is stored\n")
        holds("not lent", refuses("keep", *keep(server, "dump"), folder=folder), "can be read by others")
        os.remove(os.path.join(folder, "keeper"))
        os.mkfifo(os.path.join(folder, "keeper"), 0o600)
        holds("a pipe", refuses("keep", *keep(server, "dump"), folder=folder), "keeper is no file")
        os.remove(os.path.join(folder, "keeper"))
        holds("no file", refuses("keep", *keep(server, "dump"), folder=folder), "keeper: No such file")
        holds("none is said", refuses("keep", "--port", server.port, "dump", folder=folder), "--password FILE is wanted")
        keeper(folder)
        same("by the environment", works("keep", "dump", folder=folder, env={"KEEP_PORT": str(server.port), "KEEP_PASSWORD": os.path.join(folder, "keeper")}), "dump 2 is stored\n")


def words_that_are_wrong(folder):
    for words in ((), ("frob",), ("type",), ("backup",), ("--port", "x", "probe"), ("--port", "0", "probe"), ("--port", "65536", "probe"), ("backup", "d", "--keep", "0")):
        status, out, why = tool("keep", *words, folder=folder)
        same(words, (status, out, "usage: keep" in why), (1, "", True))
    for command in ((), ("probe",), ("dump",), ("backup",), ("type",), ("stop",)):
        holds("--help", works("keep", *command, "--help", folder=folder), "usage: keep")


def units(folder):
    """systemd reads the timers and services without a word, where it is there."""
    if not shutil.which("systemd-analyze"):
        print("skipped units: systemd-analyze isn't installed")
        return
    names = sorted(os.listdir(os.path.join(TOP, "contrib/systemd")))
    for name in names:
        with open(os.path.join(TOP, "contrib/systemd", name), encoding="ascii") as file:
            put(folder, name, file.read().replace("/opt/muckd/", TOP + "/").replace("User=muckd\n", ""), 0o644)
    put(folder, "muckd.service", f"[Unit]\nDescription=muckd\n[Service]\nExecStart={PROGRAM} serve town 4201 4\n", 0o644)
    done = subprocess.run(["systemd-analyze", "verify", "--man=no", *(os.path.join(folder, name) for name in names)], capture_output=True, timeout=60)
    ours = [line for line in done.stderr.decode().splitlines() if any(name in line for name in names)]
    same("what systemd says", ours, [])


TESTS = [a_probe, a_dump, nobody_hears_it, backups, which_backups_stay, a_backup_that_is_ended, a_copy_that_is_not_whole, while_much_is_made, lines_are_typed, it_waits_for_a_server, it_stops, it_waits_for_the_lock, a_world_that_is_full, password_files,
         words_that_are_wrong, units]

"""contrib/container: the Containerfile, read as far as that goes without a container engine, and its entry script, which runs here."""
import contextlib
import json
import os
import re
import shlex
import signal
import socket
import subprocess

from common import BINARY, PATIENCE, PROGRAM, TOP, free_port, holds, put, same, works
from throwaway import SOURCES, Root

CONTAINER = os.path.join(TOP, "contrib/container")
ENTRY = os.path.join(CONTAINER, "entry")


def instructions():
    """The instructions of the Containerfile, each with its text in one line."""
    with open(os.path.join(CONTAINER, "Containerfile"), encoding="ascii") as file:
        lines = [line for line in file.read().splitlines() if line and not line.startswith("#")]
    return [tuple(line.split(" ", 1)) for line in re.sub(r"\\\n\s*", "", "\n".join(lines)).splitlines()]


def texts(word):
    return [text for name, text in instructions() if name == word]


def copied():
    """Where the image has each file or folder of the tree that is copied."""
    found = {}
    for text in texts("COPY"):
        *sources, to = text.split()
        for source in sources:
            found[to + os.path.basename(source) if to.endswith("/") else to] = os.path.join(TOP, source)
    return found


def here(path):
    """The file of the tree that is at this path of the image."""
    for to, source in copied().items():
        if path == to or path.startswith(to + "/"):
            return source + path[len(to):]
    raise AssertionError(f"{path} isn't copied")


def its_instructions(folder):
    names = [name for name, _ in instructions()]
    same("each is one", set(names) - {"FROM", "RUN", "COPY", "ENV", "USER", "WORKDIR", "VOLUME", "EXPOSE", "HEALTHCHECK", "STOPSIGNAL", "ENTRYPOINT"}, set())
    same("one of each", [names.count(name) for name in ("FROM", "ENV", "USER", "HEALTHCHECK", "STOPSIGNAL", "ENTRYPOINT")], [1] * 6)
    same("the first", names[0], "FROM")
    for text in texts("RUN"):
        same(text, subprocess.run(["sh", "-n", "-c", text], capture_output=True, timeout=PATIENCE).stderr, b"")
    for source in copied().values():
        assert os.path.exists(source), source
    init, dashes, entry = json.loads(texts("ENTRYPOINT")[0])
    same("an init is the first process", (init, dashes), ("/usr/bin/tini", "--"))
    holds("it is installed", texts("RUN")[0], " tini ", " python3 ")
    same("its entry", os.path.realpath(here(entry)), ENTRY)
    assert os.access(ENTRY, os.X_OK)
    same("the signal of a stop", texts("STOPSIGNAL"), ["SIGTERM"])


def its_environment(folder):
    """What the entry script reads is set, to what the script takes where it isn't."""
    said = dict(word.split("=", 1) for word in shlex.split(texts("ENV")[0]))
    with open(ENTRY, encoding="ascii") as file:
        read = dict(re.findall(r"\$\{(MUCKD_\w+):-([^}]*)\}", file.read()))
    same("variables", read, said)


class World:
    """The entry script on a port of its own, with a password of its own."""

    def __init__(self, folder, password="a word of mine", **env):
        self.folder, self.port = folder, free_port()
        secret = put(folder, "secret", password + "\n", 0o644)
        self.env = {**os.environ, "MUCKD": PROGRAM, "MUCKD_PORT": str(self.port), "MUCKD_WORKERS": "1", "MUCKD_PASSWORD": secret, **env}

    def __enter__(self):
        self.process = subprocess.Popen([ENTRY], cwd=self.folder, env=self.env, stdin=subprocess.DEVNULL, stdout=subprocess.PIPE, stderr=subprocess.PIPE, text=True, start_new_session=True)
        return self

    def __exit__(self, *_):
        # (its group is its own, with the server in it)
        with contextlib.suppress(ProcessLookupError):
            os.killpg(self.process.pid, signal.SIGKILL)
        self.process.communicate(timeout=PATIENCE)

    def ended(self):
        out, why = self.process.communicate(timeout=PATIENCE)
        return self.process.returncode, out, why

    def stop(self):
        self.process.send_signal(signal.SIGTERM)
        return self.ended()

    def probe(self):
        return works("keep", "--port", self.port, "--wait", "300", "--patience", "300", "--store", "town", "probe", folder=self.folder)

    def talk(self, *lines, password="a word of mine"):
        with socket.create_connection(("127.0.0.1", self.port), PATIENCE) as link:
            link.sendall("".join(line + "\r\n" for line in (f"connect One {password}", *lines, "QUIT")).encode())
            return b"".join(iter(lambda: link.recv(65536), b"")).decode()


def a_world(folder):
    """It is made with its password, served, looked after, and stopped by a signal with its last dump; and it is there again."""
    with World(folder) as world:
        holds("it is up", world.probe(), "up=1 players=0")
        holds("not by the first password", world.talk(password="potrzebie"), "Either that player does not exist")
        holds("by its own", world.talk("@create lantern"), "Created lantern(#2).")
        check = texts("HEALTHCHECK")[0].split(" CMD ")[1].replace("/opt/muckd", TOP).replace("/var/lib/muckd", folder).replace("--patience 20", "--patience 300")
        done = subprocess.run(["sh", "-c", check], env={**world.env, "MUCKD_STORE": "town"}, capture_output=True, text=True, timeout=PATIENCE)
        same("the health check", (done.returncode, done.stdout[:5], done.stderr), (0, "up=1 ", ""))
        status, out, why = world.stop()
        same("stopped", (status, why), (0, ""))
        holds("what it says", out, "One (#1) has another password")
        check = subprocess.run(["sh", "-c", check], env={**world.env, "MUCKD_STORE": "town"}, capture_output=True, text=True, timeout=PATIENCE)
        same("the health check of one that is down", (check.returncode, check.stdout), (1, "up=0\n"))
    same("what is left", sorted(os.listdir(folder)), ["secret", "town.a", "town.b"])
    holds("what is stored", works("store", "list", "town", folder=folder), ": lantern\n")
    with World(folder) as world:
        world.probe()
        holds("it is there", world.talk("inventory"), "lantern(#2)")
        same("nothing is made anew", world.stop(), (0, "", ""))


def a_stop_that_fails(folder):
    """Where the wizard's password isn't that of the file, the world ends by a signal, as that is said."""
    with World(folder) as world:
        world.probe()
        world.talk("@newpassword One=another")
        put(folder, "keeper", "One another\n")
        works("keep", "--port", world.port, "--password", "keeper", "--patience", "300", "dump", folder=folder)
        world.talk("@create lantern", password="another")
        status, _, why = world.stop()
        same("its end", (status, why), (143, "stop: the server knows no One with this password\nentry: the world is ended by a signal, and what came since its last dump is lost\n"))
    same("what is lost", ": lantern\n" in works("store", "list", "town", folder=folder), False)


def by_itself(folder):
    """A world that a wizard stops ends the container, with its status."""
    with World(folder) as world:
        world.probe()
        world.talk("@shutdown")
        same("its end", world.ended()[::2], (0, ""))
    with socket.socket() as taken:
        taken.bind(("", 0))
        taken.listen()
        with World(folder, MUCKD_PORT=str(taken.getsockname()[1])) as world:
            same("a port that is taken", world.ended()[::2], (8, "ListenFault\n"))


def no_world_with_the_first_password(folder):
    """Where there is no password, no world is made."""
    for env, password, why in (({"MUCKD_PASSWORD": "/nowhere"}, "x", "entry: /nowhere can't be read"), ({}, "", "entry: "), ({}, "x" * 33, "entry: "), ({"MUCKD_WIZARD": "Two"}, "x", "entry: ")):
        with World(folder, password, **env) as world:
            status, _, said = world.ended()
            same(said, (status, why in said), (1, True))
        assert not os.path.exists(os.path.join(folder, "town.a")) and not os.path.exists(os.path.join(folder, "town.b"))
    # what such a start left is no hindrance
    with World(folder) as world:
        world.probe()
        same("stopped", world.stop()[::2], (0, ""))


def in_a_root_of_its_own(folder):
    """What the Containerfile does by this machine's own tools, and its entry as its user; the init is left out."""
    with Root(folder) as root:
        if not root:
            print("skipped in_a_root_of_its_own: it wants root, and an overlay of file systems")
            return

        def does(*words, typed=""):
            status, said = root.run(*words, typed=typed)
            same((words, said), status, 0)
            return said

        does("sh", "-ec", "useradd" + texts("RUN")[0].split("useradd", 1)[1])
        for to, source in copied().items():
            does("mkdir", "-p", os.path.dirname(to))
            does("cp", "-r", SOURCES + source.removeprefix(TOP), to)
        with open(BINARY, "rb") as file:
            does("sh", "-c", "cat > /opt/muckd/dist/muckd", typed=file.read())
        does("sh", "-c", "mkdir /run/secrets && echo a word of mine > /run/secrets/muckd")
        port = str(free_port())
        # (its own port, since the network isn't one of its own)
        user = texts("USER")[0]
        words = [*shlex.split(texts("ENV")[0]), f"MUCKD_PORT={port}", "setpriv", "--reuid", user, "--regid", user, "--clear-groups", "--"]
        entry = root.start("sh", "-c", 'cd "$0" && echo $$ > /run/entry && exec env "$@"', texts("WORKDIR")[0], *words, json.loads(texts("ENTRYPOINT")[0])[-1])
        does("/opt/muckd/contrib/keep", "--port", port, "--wait", "300", "--patience", "300", "probe")
        holds("the health check", does("env", *words, "sh", "-c", texts("HEALTHCHECK")[0].split(" CMD ")[1].replace("--patience 20", "--patience 300")), "up=1 players=0", " store_bytes=")
        does("sh", "-c", "kill -TERM $(cat /run/entry)")
        same("its end", entry.wait(PATIENCE), 0)
        same("whose the world is", does("stat", "-c", "%U %a %n", "/var/lib/muckd/town.a"), "muckd 600 /var/lib/muckd/town.a\n")
        holds("the last dump", does("/opt/muckd/contrib/store", "info", "/var/lib/muckd/town"), "town.a counts: ", "dump 3,")


TESTS = [its_instructions, its_environment, a_world, a_stop_that_fails, by_itself, no_world_with_the_first_password, in_a_root_of_its_own]

"""Servers that run in folders of their own: muckd (dist/muckd, or the program that MUCKD names) and TinyMUX (Debian's package tinymux)."""
import contextlib
import dataclasses
import os
import re
import select
import shutil
import signal
import subprocess
import sys
import time

from .clients import PATIENCE, Client, free_port

HERE = os.path.dirname(os.path.realpath(__file__))
sys.path.insert(0, os.path.join(HERE, "../../tests/store"))
from files import NOTHING, ONE, ROOM, ROOM_ZERO, THING, Record, batch

PROGRAM = os.path.abspath(os.environ.get("MUCKD", os.path.join(HERE, "../../dist/muckd")))
MUX = "/usr/lib/tinymux/game/bin"
MUX_DATA = "/usr/share/tinymux/game"
CHANGED = 100


class Game:
    """A server that runs in a folder of its own."""

    def __init__(self, folder):
        self.folder, self.port, self.process = folder, free_port(), None

    def comes_in(self, name=None, password="secret"):
        client = Client(self.port)
        client.send(f"connect {name or self.keeper} {password if name else 'potrzebie'}")
        client.says("here.")
        return client

    def players(self, count):
        """So many players, each in a room of its own."""
        keeper = self.comes_in()
        clients = []
        for n in range(count):
            room = re.search(self.dug, keeper.does(f"@dig Room{n}"))[1]
            keeper.does(f"@pcreate P{n}x=secret")
            keeper.does(f"@teleport *P{n}x=#{room}")
            clients.append(self.comes_in(f"P{n}x"))
        return keeper, clients

    def memory(self):
        with open(f"/proc/{self.process.pid}/status", encoding="ascii") as file:
            return int(re.search(r"VmRSS:\s+(\d+)", file.read())[1]) / 1024

    def processor(self):
        with open(f"/proc/{self.process.pid}/stat", encoding="ascii") as file:
            fields = file.read().rsplit(")", 1)[1].split()
        return (int(fields[11]) + int(fields[12])) / os.sysconf("SC_CLK_TCK")

    def stop(self):
        """Ends the program, which ends what it has started where it is told to end."""
        if self.process:
            self.process.terminate()
            with contextlib.suppress(subprocess.TimeoutExpired):
                self.process.wait(10)
            with contextlib.suppress(ProcessLookupError):
                os.killpg(self.process.pid, signal.SIGKILL)
            self.process.wait()


class Muckd(Game):
    name, keeper = "muckd", "One"
    dug = r"#(\d+)R"

    def start(self, workers=4):
        self.process = subprocess.Popen([PROGRAM, "serve", "w", str(self.port), str(workers)], cwd=self.folder, stdin=subprocess.DEVNULL, start_new_session=True)
        return self

    def fill(self, objects):
        """A store of so many objects, of which all but three are things in a hall of their own; two are left out for the player and the room that are made later."""
        stored = objects - 2
        hall = Record(2, ROOM, b"Hall", place=0, first_content=3)
        things = [Record(n, THING, b"thing %d" % n, place=2, home=2, next=n + 1 if n + 1 < stored else NOTHING) for n in range(3, stored)]
        with open(os.path.join(self.folder, "w.a"), "wb") as file:
            file.write(batch(1, 1, [ROOM_ZERO, dataclasses.replace(ONE, next=2), hall, *things]) + b"\x00")
        self.start()
        return [3 + (stored - 3) // CHANGED * n for n in range(CHANGED)]

    def dump(self, client, probe):
        """Asks for a dump, and calls `probe` until it is stored."""
        client.send("@dump")
        began = time.perf_counter()
        while b"stored." not in client.kept:
            probe()
            if select.select([client.socket], [], [], 0)[0]:
                client.kept += client.socket.recv(1 << 16)
            if b"failed." in client.kept or time.perf_counter() - began > PATIENCE:
                raise OSError("the dump isn't stored")
        took = time.perf_counter() - began
        client.until("stored.")
        return took


class TinyMux(Game):
    name, keeper = "TinyMUX", "Wizard"
    dug = r"created as room #(\d+)"
    told = ("ip_address 127.0.0.1", "command_quota_increment 10000000", "command_quota_max 10000000", "queue_active_chunk 100000", "queue_idle_chunk 100000", "hostnames no",
            "output_limit 100000000", "player_queue_limit 1000000", "idle_timeout 0", "dump_interval 86400", "check_interval 86400", "cache_max_size 500m")

    def start(self, workers=4):
        if not os.path.exists(os.path.join(self.folder, "netmux.conf")):
            shutil.copytree(MUX_DATA, self.folder, dirs_exist_ok=True)
            os.symlink(MUX, os.path.join(self.folder, "bin"))
            with open(os.path.join(self.folder, "netmux.conf"), "r+", encoding="latin-1") as file:
                text = re.sub(r"(?m)^port .*$", f"port {self.port}", file.read())
                file.seek(0)
                file.write(text + "\n" + "\n".join(self.told) + "\n")
        with open(os.path.join(self.folder, "said"), "wb") as said:
            self.process = subprocess.Popen(["bin/netmux", "-c", "netmux.conf", "-p", "netmux.pid", "-e", "."], cwd=self.folder, stdin=subprocess.DEVNULL, stdout=said, stderr=said,
                                            start_new_session=True, env={**os.environ, "LD_LIBRARY_PATH": "bin"})
        return self

    def fill(self, objects):
        self.start()
        keeper = self.comes_in()
        made = []
        for start in range(0, objects, 1000):
            count = min(1000, objects - start)
            keeper.send(f"@dolist lnum({start},{start + count - 1})=@create thing ##")
            came = keeper.until(f"thing {start + count - 1} created as object")
            made += [int(number) for number in re.findall(r"created as object #(\d+)", came)]
        return made[::len(made) // CHANGED][:CHANGED]

    def dump(self, client, probe):
        """It tells nobody when a dump is over: what is asked for lasts a second."""
        client.send("@dump")
        began = time.perf_counter()
        while time.perf_counter() - began < 1:
            probe()
        return None


def there():
    """The kinds of servers that can be started here."""
    return [Muckd] + ([TinyMux] if os.path.exists(f"{MUX}/netmux") else [])

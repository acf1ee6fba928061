"""What a row costs: seconds of the processor, by runs of scripts; how long another player waited, and bytes of memory, by servers on this machine."""
import contextlib
import fcntl
import os
import re
import resource
import signal
import socket
import subprocess
import tempfile
import threading
import time

BEGIN = ["open 1", "send 1 connect One potrzebie"]
FAULT = re.compile(rb"Program (error|not compiled)|Huh\?|Permission denied|That can't be done|I don't |Error \d+ in|Illegal editor|Too many |Usage: ")
EACH = 0.02  # seconds between what Ann says
PATIENCE = 60
PIPE = 4096


class Broken(Exception):
    """A row that doesn't do what it says."""


class TooLong(Exception):
    """A run or a turn that took more than it may."""


def fault_in(shown):
    """What the lines show that no row should."""
    found = FAULT.search(shown)
    return found and shown[found.start():found.start() + 80].split(b"\n")[0].decode()


def marked(on, word):
    """Lines by which a run tells how far it is, and then waits: what follows the word is more than its pipe holds."""
    return [f'send {on} "{word}', *[f'send {on} "{"x" * 2000}'] * 8]


def run(program, store, setup, turn, limit):
    """The processor seconds of the turn, in a script's run on a store of these bytes: its processor's clock is read as it waits before the turn and behind it."""
    on = turn[-1].split(" ", 2)[1]
    # Each line behind the last one gives 4,096 slices more.
    lines = [*BEGIN, *setup, *marked(1, "ready."), *turn, *marked(on, "turned."), *[""] * 20]
    with tempfile.TemporaryDirectory(dir="/dev/shm") as folder, tempfile.TemporaryFile(dir="/dev/shm") as script:
        with open(os.path.join(folder, "w.a"), "wb") as file:
            file.write(store)
        script.write("".join(f"{line}\n" for line in lines).encode())
        script.seek(0)
        out, into = os.pipe()
        fcntl.fcntl(into, fcntl.F_SETPIPE_SZ, PIPE)
        child = subprocess.Popen([program, "run", "w"], cwd=folder, stdin=script, stdout=into)
        os.close(into)
        resource.prlimit(child.pid, resource.RLIMIT_CPU, (limit, limit))
        try:
            clocks, kept = [], b""
            for word in (b'You say, "ready."', b'You say, "turned."'):
                while (at := kept.find(word)) < 0:
                    if fault := fault_in(kept):
                        raise Broken(fault)
                    kept = kept[-100:] + (more := os.read(out, PIPE))
                    if not more:
                        child.wait()
                        raise TooLong if child.returncode in (-signal.SIGXCPU, -signal.SIGKILL) else Broken(f"status {child.returncode}, ends with {kept!r}")
                kept = kept[at + len(word):]
                # The clock of another process, as clock_getcpuclockid makes its number.
                clocks.append(time.clock_gettime(~child.pid << 3 | 2))
        finally:
            child.kill()
            child.wait()
            os.close(out)
    return clocks[1] - clocks[0]


def seconds(program, row, runs, limit):
    """What a turn takes of the processor: the least of some runs, less the least of some with what is there in its place."""
    store, least = row.world(), {}
    for _ in range(runs):
        for lines in (row.turn, row.instead):
            if lines:
                took = run(program, store, row.setup, lines, limit)
                least[id(lines)] = min(took, least.get(id(lines), took))
        if least[id(row.turn)] > 3:
            break
    return max(0.0, least[id(row.turn)] - least.get(id(row.instead), 0.0)) / row.turns


class Client:
    """A connection; what comes before what is awaited is skipped, but for its faults."""

    def __init__(self, port):
        until = time.monotonic() + PATIENCE
        while True:
            try:
                self.socket = socket.create_connection(("127.0.0.1", port), timeout=PATIENCE)
                break
            except ConnectionRefusedError:
                if time.monotonic() > until:
                    raise
                time.sleep(0.02)
        self.socket.setsockopt(socket.IPPROTO_TCP, socket.TCP_NODELAY, 1)
        self.kept = b""

    def send(self, text):
        self.socket.sendall(text.encode() + b"\r\n")

    def until(self, mark):
        while (at := self.kept.find(mark)) < 0:
            try:
                more = self.socket.recv(1 << 18)
            except TimeoutError:
                raise TooLong from None
            if not more:
                raise Broken(f"the connection ended before {mark!r}")
            if fault := fault_in(self.kept):
                raise Broken(fault)
            self.kept = self.kept[-100:] + more
        self.kept = self.kept[at + len(mark):]

    def says(self, word):
        self.send(f'"{word}')
        self.until(b'You say, "%s"' % word.encode())


@contextlib.contextmanager
def server(program, store):
    """The port of a server of its own."""
    with tempfile.TemporaryDirectory(dir="/dev/shm") as folder:
        with open(os.path.join(folder, "w.a"), "wb") as file:
            file.write(store)
        with socket.socket() as probe:
            probe.bind(("127.0.0.1", 0))
            port = probe.getsockname()[1]
        child = subprocess.Popen([program, "serve", "w", str(port), "1"], cwd=folder, stdin=subprocess.DEVNULL)
        try:
            yield port, child.pid
        finally:
            child.kill()
            child.wait()


def waited(program, row):
    """The longest that Ann, in a room of her own, waited for the echo of what she said while One's turn was taken."""
    with server(program, row.world()) as (port, _):
        clients = {}

        def does(line):
            what, on, *text = line.split(" ", 2)
            if what == "open":
                clients[on] = Client(port)
            else:
                clients[on].send(*text)
            if text == ["@dump"]:
                clients[on].until(b"stored.")
            return on

        for line in BEGIN + row.setup:
            on = does(line)
        clients["1"].says("ready.")
        ann = Client(port)
        ann.send("connect Ann potrzebie")
        ann.says("here.")
        over, longest = threading.Event(), [0.0]

        def talk():
            while not over.wait(EACH):
                began = time.perf_counter()
                with contextlib.suppress(TooLong):
                    ann.says("well.")
                longest[0] = max(longest[0], time.perf_counter() - began)

        talker = threading.Thread(target=talk)
        talker.start()
        try:
            time.sleep(2 * EACH)
            for line in row.turn:
                on = does(line)
            clients[on].says("turned.")
        finally:
            over.set()
            talker.join()
        return longest[0]


def memory(program, row):
    """The bytes that an object of one world has more than one of the other, in servers that have just mounted them."""
    held = []
    for world in (row.world, row.other):
        with server(program, world()) as (port, pid):
            Client(port).until(b"Use: connect")
            with open(f"/proc/{pid}/status", encoding="ascii") as file:
                held.append(int(re.search(r"VmRSS:\s+(\d+)", file.read())[1]) * 1024)
    return (held[0] - held[1]) / row.objects

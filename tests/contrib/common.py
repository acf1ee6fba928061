"""What the tests of the tools share: a tool that is run, and a server on a store of a folder."""
import os
import signal
import socket
import subprocess
import time

HERE = os.path.dirname(os.path.realpath(__file__))
TOP = os.path.realpath(os.path.join(HERE, "../.."))
PROGRAM = os.path.abspath(os.environ.get("MUCKD", os.path.join(TOP, "bin/muckd")))
# the program itself, where that is bin/muckd
BINARY = os.path.join(TOP, "dist/muckd") if os.path.realpath(PROGRAM) == os.path.join(TOP, "bin/muckd") else PROGRAM
# (on a machine that is busy with proofs an answer may take its time)
PATIENCE = 600
LOGIN = "open 1\nsend 1 connect One potrzebie\n"
WELCOME = "1< Use: connect NAME PASSWORD, WHO or QUIT.\n"


def same(what, got, want):
    if got != want:
        raise AssertionError(f"{what}: got {got!r:.900}, wanted {want!r:.900}")


def holds(what, got, *parts):
    for part in parts:
        if part not in got:
            raise AssertionError(f"{what}: {part!r} isn't in {got!r:.1500}")


def tool(name, *words, folder, typed="", env=None):
    """Status, standard output and standard error of a tool."""
    done = subprocess.run([os.path.join(TOP, "contrib", name), *map(str, words)], cwd=folder, input=typed if isinstance(typed, bytes) else typed.encode(), capture_output=True, timeout=PATIENCE,
                          env={**os.environ, "MUCKD": PROGRAM, **(env or {})})
    return done.returncode, done.stdout.decode(), done.stderr.decode()


def works(name, *words, **how):
    """What a tool prints that ends with 0."""
    status, out, why = tool(name, *words, **how)
    same(f"{name} {words}", (status, why), (0, ""))
    return out


def refuses(name, *words, **how):
    """The sentence of a tool that refuses: one line, status 1, and nothing on standard output."""
    status, out, why = tool(name, *words, **how)
    same(f"{name} {words}: {why}", (status, out, why.count("\n"), why.startswith(f"{name}: ")), (1, "", 1, True))
    return why[len(name) + 2:-1]


def script(folder, text, store="world"):
    """What a run of a script writes, which ends with 0."""
    done = subprocess.run([PROGRAM, "run", store], cwd=folder, input=text.encode(), capture_output=True, timeout=PATIENCE)
    same("a run", (done.returncode, done.stderr), (0, b""))
    return done.stdout.decode()


def files_in(folder):
    """All files of a folder, with their bytes."""
    found = {}
    for name in sorted(os.listdir(folder)):
        path = os.path.join(folder, name)
        if os.path.isfile(path):
            with open(path, "rb") as file:
                found[name] = file.read()
    return found


def put(folder, name, text, mode=0o600):
    path = os.path.join(folder, name)
    with open(path, "w" if isinstance(text, str) else "wb") as file:
        file.write(text)
    os.chmod(path, mode)
    return path


def free_port():
    with socket.socket() as probe:
        probe.bind(("127.0.0.1", 0))
        return probe.getsockname()[1]


class Server:
    """The real program on the loopback address; it ends with the block."""

    def __init__(self, folder, store="world"):
        self.folder, self.store, self.port = folder, store, free_port()

    def __enter__(self):
        self.process = subprocess.Popen([PROGRAM, "serve", self.store, str(self.port), "1"], cwd=self.folder, stdin=subprocess.DEVNULL, stdout=subprocess.DEVNULL, stderr=subprocess.DEVNULL)
        until = time.monotonic() + PATIENCE
        while True:
            try:
                socket.create_connection(("127.0.0.1", self.port)).close()
                return self
            except ConnectionRefusedError:
                if self.process.poll() is not None or time.monotonic() > until:
                    raise AssertionError(f"the server doesn't come: {self.process.poll()}") from None
                time.sleep(0.01)

    def __exit__(self, *_):
        if self.process.poll() is None:
            self.process.send_signal(signal.SIGKILL)
        self.process.wait(PATIENCE)

    def ended(self):
        return self.process.wait(PATIENCE)

    def talk(self, *lines, who="connect One potrzebie"):
        """What a player is shown for these lines, up to the end of its connection."""
        with socket.create_connection(("127.0.0.1", self.port), PATIENCE) as link:
            link.sendall("".join(line + "\r\n" for line in (who, *lines, "QUIT")).encode())
            data = b""
            while True:
                more = link.recv(65536)
                if not more:
                    return data.decode().split("\r\n")[:-1]
                data += more

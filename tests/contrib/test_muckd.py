"""bin/muckd: its own words, what it hands on, and what it says at a terminal; its manual page and completion."""
import contextlib
import hashlib
import os
import pty
import re
import select
import shutil
import signal
import socket
import subprocess
import time

from common import BINARY, LOGIN, PATIENCE, TOP, free_port, holds, put, same

SENTENCES = {0: "the world is stored in world.a and world.b", 1: "Usage: these words are no command", 2: "BadScript: ", 3: "NoMemory: ", 4: "ReadFault: ", 5: "WriteFault: ", 6: "DiskFault: ", 7: "Damaged: ",
             8: "ListenFault: is port 4201 in use?", 9: "StoreFull: ", 10: "Spent: "}


def tree(folder, program=BINARY, sources=None):
    """A tree of bin and dist alone, as a package has, with this program; with sources, as the digest of these, it is a tree of sources. Its bin/muckd."""
    for name in ("bin", "dist"):
        os.makedirs(os.path.join(folder, name), exist_ok=True)
    for name in ("bin/muckd", "bin/at-terminal"):
        shutil.copy(os.path.join(TOP, name), os.path.join(folder, name))
    shutil.copy(program, os.path.join(folder, "dist/muckd"))
    with open(program, "rb") as file:
        digest = hashlib.sha256(file.read()).hexdigest()
    put(folder, "dist/muckd.sources", f"sources 0123\nkit a-kit 1\nprogram {digest}\n")
    # a build leaves a mark, and builds nothing
    put(folder, "bin/build", f"#!/bin/sh\ntouch '{folder}/built'\nexit 1\n", 0o755)
    if sources:
        put(folder, "crates.txt", "")
        put(folder, "bin/sources", f"#!/bin/sh\necho {sources}\n", 0o755)
    return os.path.join(folder, "bin/muckd")


def off(muckd, *words, folder, typed=b""):
    """Status, standard output and standard error off a terminal."""
    done = subprocess.run([muckd, *words], cwd=folder, input=typed, capture_output=True, timeout=PATIENCE)
    return done.returncode, done.stdout.decode(), done.stderr.decode()


class Terminal:
    """A program with a terminal as its standard error; what came on it is `shown`."""

    def __init__(self, *words, folder, **streams):
        self.ours, theirs = pty.openpty()
        self.process = subprocess.Popen(words, cwd=folder, stderr=theirs, **{"stdin": subprocess.DEVNULL, "stdout": subprocess.DEVNULL, **streams})
        os.close(theirs)
        self.shown = ""

    def __enter__(self):
        return self

    def __exit__(self, *_):
        # (a killed wrapper can't end its program: that goes first)
        with contextlib.suppress(FileNotFoundError, ProcessLookupError):
            for one in children(self.process.pid):
                os.kill(one, signal.SIGKILL)
        if self.process.poll() is None:
            self.process.kill()
        self.process.wait(PATIENCE)
        os.close(self.ours)

    def read(self, seconds):
        """Whether more came within so many seconds; None behind the end."""
        if not select.select([self.ours], [], [], seconds)[0]:
            return False
        try:
            self.shown += os.read(self.ours, 65536).decode().replace("\r\n", "\n")
            return True
        except OSError:
            return None

    def until(self, part):
        end = time.monotonic() + PATIENCE
        while part not in self.shown:
            if self.read(1) is None or time.monotonic() > end:
                raise AssertionError(f"{part!r} doesn't come: {self.shown!r}")

    def ended(self):
        """The status, with all that was shown."""
        status = self.process.wait(PATIENCE)
        while self.read(0):
            pass
        return status


def children(process):
    with open(f"/proc/{process}/task/{process}/children", encoding="ascii") as file:
        return list(map(int, file.read().split()))


def program_of(wrapper):
    """The process of the muckd that this one runs."""
    end = time.monotonic() + PATIENCE
    while time.monotonic() < end:
        for one in children(wrapper):
            with contextlib.suppress(FileNotFoundError):
                if os.readlink(f"/proc/{one}/exe").endswith("/dist/muckd"):
                    return one
        time.sleep(0.02)
    raise AssertionError("the program doesn't come")


def at_terminal(muckd, *words, folder, typed=b"", **streams):
    """Status, standard output and what the terminal shows."""
    given = put(folder, "typed", typed)
    taken = os.path.join(folder, "taken")
    with open(given, "rb") as source, open(taken, "wb") as sink, Terminal(muckd, *words, folder=folder, **{"stdin": source, "stdout": sink, **streams}) as it:
        status = it.ended()
    with open(taken, encoding="utf-8") as file:
        return status, file.read(), it.shown


def talk(port, *lines):
    with socket.create_connection(("127.0.0.1", port), PATIENCE) as link:
        link.sendall("".join(line + "\r\n" for line in ("connect One potrzebie", *lines)).encode())
        return b"".join(iter(lambda: link.recv(65536), b"")).decode()


def help_and_version(folder):
    muckd = tree(folder)
    status, out, why = off(muckd, "--help", folder=folder)
    same("--help", (status, why), (0, ""))
    holds("--help", out, "usage: muckd run STORE\n", "muckd serve STORE PORT WORKERS\n", "muckd mirror STORE\n", "muckd debug STORE\n", "muckd drill N\n", "--version", "potrzebie")
    with open(BINARY, "rb") as file:
        digest = hashlib.sha256(file.read()).hexdigest()
    same("--version", off(muckd, "--version", folder=folder), (0, f"muckd, built with a-kit 1\nsources 0123\nprogram {digest} ({folder}/dist/muckd)\n", ""))
    os.symlink(muckd, os.path.join(folder, "link"))
    same("by a link", off(os.path.join(folder, "link"), "--version", folder="/")[0], 0)
    same("more words are the program's", off(muckd, "--help", "me", folder=folder), (1, "", "Usage\n"))
    same("no words are the program's", off(muckd, folder=folder), (1, "", "Usage\n"))


def of_this_tree(folder):
    """What dist/muckd.sources says, and bin/sources, where they are alike."""
    with open(os.path.join(TOP, "dist/muckd.sources"), encoding="ascii") as file:
        said = dict(line.rstrip("\n").split(" ", 1) for line in file)
    status, out, _ = off(os.path.join(TOP, "bin/muckd"), "--version", folder=folder)
    if status == 0:
        holds("--version", out, f"muckd, built with {said['kit']}\nsources {said['sources']}\nprogram ")
    else:
        assert said["sources"] != subprocess.run([os.path.join(TOP, "bin/sources")], capture_output=True, check=True, timeout=PATIENCE).stdout.decode().strip()


def nothing_is_built(folder):
    """--help and --version don't build where the program isn't of the sources; a run does."""
    muckd, mark = tree(folder, sources="4567"), os.path.join(folder, "built")
    same("--help", off(muckd, "--help", folder=folder)[0], 0)
    status, out, why = off(muckd, "--version", folder=folder)
    same("--version", (status, out, why), (1, "", "muckd: no program is there that was built from these sources, 4567\n"))
    assert not os.path.exists(mark)
    same("a run", off(muckd, "run", "world", folder=folder), (1, "", ""))
    assert os.path.exists(mark)
    muckd = tree(folder, sources="0123")
    os.remove(mark)
    same("of these sources", off(muckd, "run", "world", folder=folder), (0, "", ""))
    # another program than the record says isn't run
    with open(os.path.join(folder, "dist/muckd"), "ab") as file:
        file.write(b"\0")
    same("--version of another", off(muckd, "--version", folder=folder)[0], 1)
    assert not os.path.exists(mark)
    os.remove(os.path.join(folder, "crates.txt"))
    same("without sources", off(muckd, "run", "world", folder=folder), (1, "", f"muckd: {folder}/dist/muckd isn't the program that muckd.sources beside it names\n"))
    assert not os.path.exists(mark)


def handed_on(folder):
    """Off a terminal bin/muckd is the program: same words, same bytes, same process."""
    muckd = tree(folder)
    one, two = os.path.join(folder, "one"), os.path.join(folder, "two")
    for to in (one, two):
        os.mkdir(to)
        put(to, "hurt.a", b"\1damage")
    with socket.socket() as taken:
        taken.bind(("", 0))
        taken.listen()
        port = str(taken.getsockname()[1])
        for status, words, typed in ((0, ("run", "world"), LOGIN.encode() + b"send 1 look\n"), (2, ("run", "world"), b"open 1\nfrob\n"), (1, ("serve",), b""), (0, ("drill", "3"), b""), (7, ("run", "hurt"), b""),
                                     (8, ("serve", "other", port, "1"), b"")):
            got = off(muckd, *words, folder=one, typed=typed)
            same(words, got, off(BINARY, *words, folder=two, typed=typed))
            same(words, got[0], status)
    process = subprocess.Popen([muckd, "run", "world"], cwd=one, stdin=subprocess.PIPE, stdout=subprocess.DEVNULL, stderr=subprocess.DEVNULL)
    try:
        end = time.monotonic() + PATIENCE
        while os.readlink(f"/proc/{process.pid}/exe") != os.path.join(folder, "dist/muckd"):
            assert time.monotonic() < end, "the program doesn't take the place of bin/muckd"
            time.sleep(0.02)
    finally:
        process.kill()
        process.wait(PATIENCE)


def sentences(folder):
    """Each status has its sentence at a terminal, and stays."""
    muckd = tree(folder, put(folder, "fake", "#!/bin/sh\nexit $(cat)\n", 0o755))
    for status, sentence in SENTENCES.items():
        got, out, shown = at_terminal(muckd, "serve", "world", "4201", "1", folder=folder, typed=str(status).encode())
        same(status, (got, out, shown.count("\n"), shown.startswith("muckd: " + sentence)), (status, "", 1, True))
    # a drill has no world
    for status, shown in ((0, ""), (3, "muckd: NoMemory: memory was refused\n"), (5, "muckd: WriteFault: standard output can't be written\n")):
        same("a drill", at_terminal(muckd, "drill", "1", folder=folder, typed=str(status).encode()), (status, "", shown))
    # a mirror stores none
    for status, shown in ((0, ""), (3, "muckd: NoMemory: memory was refused\n"), (5, "muckd: WriteFault: standard output can't be written, so the replies aren't whole\n"),
                          (6, "muckd: DiskFault: are world.a and world.b there, and may they be read? Or is the disk broken?\n")):
        same("a mirror", at_terminal(muckd, "mirror", "world", folder=folder, typed=str(status).encode()), (status, "", shown))
    # the program that doesn't read its words as bin/at-terminal does: each is one word still
    muckd = tree(folder, put(folder, "fake", '#!/bin/sh\nprintf "<%s>" "$@"\ncat\n', 0o755))
    same("words and input", at_terminal(muckd, "run", "a b", "*", "", folder=folder, typed=b"in\n")[:2], (0, "<run><a b><*><>in\n"))


def at_a_terminal(folder):
    """The real program says there what it says elsewhere, and a sentence comes behind."""
    muckd = tree(folder)
    for status, words, typed in ((0, ("run", "world"), LOGIN.encode() + b"send 1 look\n"), (2, ("run", "world"), b"open 1\nfrob\n"), (1, ("serve", "world", "0", "1"), b""), (0, ("drill", "3"), b"")):
        _, out, why = off(BINARY, *words, folder=folder, typed=typed)
        got = at_terminal(muckd, *words, folder=folder, typed=typed)
        same(words, got[:2], (status, out))
        holds(words, got[2], why + (f"muckd: {SENTENCES[status]}" if words[0] != "drill" else ""))
    with open("/dev/full", "wb") as full:
        status, _, shown = at_terminal(muckd, "run", "world", folder=folder, typed=LOGIN.encode(), stdout=full)
    same("a full disk", (status, shown.startswith("WriteFault\nmuckd: WriteFault: standard output")), (5, True))
    put(folder, "hurt.a", b"\1damage")
    status, _, shown = at_terminal(muckd, "run", "hurt", folder=folder)
    same("damage", (status, shown.startswith("Damaged 0 0\nmuckd: Damaged: that file (0: hurt.a, 1: hurt.b)")), (7, True))


def a_server(folder):
    muckd, port = tree(folder), str(free_port())
    with Terminal(muckd, "serve", "world", port, "1", folder=folder) as server:
        server.until(f"muckd: world is served on port {port} (telnet localhost {port}).")
        status, _, shown = at_terminal(muckd, "run", "world", folder=folder)
        same("its store is taken", (status, shown.startswith("DiskFault\nmuckd: DiskFault: has another program the store (lsof world.a world.b)?")), (6, True))
        status, _, shown = at_terminal(muckd, "serve", "other", port, "1", folder=folder)
        same("its port is taken", (status, shown.startswith(f"ListenFault\nmuckd: ListenFault: is port {port} in use? 'ss -ltnp sport = :{port}'"), "served" in shown), (8, True, False))
        talk(port, "@create lantern", "@shutdown")
        same("its status", server.ended(), 0)
        holds("its end", server.shown, "\nmuckd: the world is stored in world.a and world.b\n")
        same("lines", server.shown.count("\n"), 2)
    holds("what is stored", off(muckd, "run", "world", folder=folder, typed=LOGIN.encode() + b"send 1 inventory\n")[1], "lantern(#2)")


def signals(folder):
    """A signal goes on to the program, and the wrapper ends by it."""
    muckd, port = tree(folder), str(free_port())
    for number in (signal.SIGTERM, signal.SIGINT, signal.SIGHUP, signal.SIGQUIT):
        with Terminal(muckd, "serve", "world", port, "1", folder=folder) as server:
            server.until("is served on port")
            inner = program_of(server.process.pid)
            server.process.send_signal(number)
            same(number, server.ended(), -number)
            holds(number, server.shown, f"muckd: ended by signal {number:d}; the world is that of the last dump")
            assert not os.path.exists(f"/proc/{inner}"), "the program goes on"
    # the program alone is ended
    with Terminal(muckd, "serve", "world", port, "1", folder=folder) as server:
        server.until("is served on port")
        os.kill(program_of(server.process.pid), signal.SIGKILL)
        same("killed", server.ended(), -signal.SIGKILL)
        holds("killed", server.shown, "muckd: ended by signal 9;")
    if not shutil.which("setpriv"):
        print("skipped a part of signals: setpriv isn't installed")
        return
    with Terminal(muckd, "serve", "world", port, "1", folder=folder) as server:
        server.until("is served on port")
        inner, end = program_of(server.process.pid), time.monotonic() + PATIENCE
        server.process.kill()
        same("the wrapper is killed", server.process.wait(PATIENCE), -signal.SIGKILL)
        while os.path.exists(f"/proc/{inner}"):
            assert time.monotonic() < end, "the program goes on"
            time.sleep(0.02)


def signals_that_are_ignored(folder):
    """What the caller has the program ignore, as nohup does, it ignores behind bin/muckd too."""
    muckd, port = tree(folder), str(free_port())

    def ignore():
        for number in (signal.SIGINT, signal.SIGHUP):
            signal.signal(number, signal.SIG_IGN)

    with Terminal(muckd, "serve", "world", port, "1", folder=folder, preexec_fn=ignore) as server:
        server.until("is served on port")
        inner = program_of(server.process.pid)
        for number in (signal.SIGINT, signal.SIGHUP):
            server.process.send_signal(number)
            os.kill(inner, number)
        talk(port, "@shutdown")
        same("its status", server.ended(), 0)


def control_c(folder):
    """At a terminal of its own the program reads what is typed, and Ctrl-C ends it."""
    muckd = tree(folder)
    process, terminal = pty.fork()
    if process == 0:
        os.chdir(folder)
        os.execv(muckd, [muckd, "run", "world"])
    shown = b""
    try:
        program_of(process)
        os.write(terminal, b"open 1\n")
        while shown != b"open 1\r\n":
            shown += os.read(terminal, 65536)
        os.write(terminal, b"\x03")
        with contextlib.suppress(OSError):
            while select.select([terminal], [], [], PATIENCE)[0]:
                shown += os.read(terminal, 65536)
        _, status = os.waitpid(process, 0)
        process = None
    finally:
        if process:
            os.kill(process, signal.SIGKILL)
            os.waitpid(process, 0)
        os.close(terminal)
    same("its end", (os.WIFSIGNALED(status), os.WTERMSIG(status)), (True, signal.SIGINT))
    holds("what is shown", shown.decode(), "muckd: ended by signal 2;")


def a_manual_page(folder):
    """It names all commands and statuses, and man has nothing to say of it."""
    page = os.path.join(TOP, "contrib/man/muckd.1")
    with open(page, encoding="ascii") as file:
        text = file.read()
    holds("its commands", text, '.BI run " STORE"', '.BI serve " STORE PORT WORKERS"', '.BI mirror " STORE"', '.BI debug " STORE"', '.BI drill " N"', "\\-\\-version")
    same("its statuses", [int(number) for number in re.findall(r"^\.B (\d+)", text, re.M)], list(SENTENCES))
    for name in re.findall(r"docs/[A-Z]+\.md", text):
        assert os.path.exists(os.path.join(TOP, name)), name
    for words in (("man", "--warnings", "-E", "UTF-8", "-l", "-Tutf8", "-Z", page), ("mandoc", "-Tlint", "-W", "warning", page)):
        if not shutil.which(words[0]):
            print(f"skipped a part of a_manual_page: {words[0]} isn't installed")
            continue
        done = subprocess.run(words, capture_output=True, timeout=PATIENCE, env={**os.environ, "LC_ALL": "C.UTF-8", "MANROFFSEQ": "", "MANWIDTH": "80"})
        same(words[0], (done.returncode, done.stderr.decode(), "STDOUT"), (0, "", "STDOUT"))


def completion(folder):
    for name in ("town.a", "town.b", "two words.a", "tower"):
        put(folder, name, "")
    os.mkdir(os.path.join(folder, "towns"))
    asked = 'source "$0"; COMP_WORDS=("$@"); COMP_CWORD=$(($# - 1)); _muckd; printf "%s\\n" "${COMPREPLY[@]}"'
    for words, want in ((("muckd", ""), ["--help", "--version", "debug", "drill", "mirror", "run", "serve"]), (("muckd", "s"), ["serve"]), (("muckd", "run", ""), ["town", "towns", "two words"]), (("muckd", "mirror", "two"), ["two words"]), (("muckd", "debug", "two"), ["two words"]), (("muckd", "serve", "tow"), ["town", "towns"]),
                        (("muckd", "serve", "town", "4"), [""]), (("muckd", "serve", "town", "4201", ""), list("12345678")), (("muckd", "drill", ""), [""])):
        done = subprocess.run(["bash", "-c", asked, os.path.join(TOP, "contrib/completion/muckd"), *words], cwd=folder, capture_output=True, timeout=PATIENCE, text=True)
        same(words, (done.stderr, sorted(done.stdout.splitlines())), ("", want))


TESTS = [help_and_version, of_this_tree, nothing_is_built, handed_on, sentences, at_a_terminal, a_server, signals, signals_that_are_ignored, control_c, a_manual_page, completion]

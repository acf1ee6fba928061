"""contrib/front, before the real program."""
import hashlib
import itertools
import json
import os
import random
import re
import select
import shutil
import signal
import socket
import ssl
import subprocess
import time
import urllib.error
import urllib.request

from common import HERE, TOP, Server, free_port, holds, put, refuses, same, script, works
from front.limits import Limits, counted, plain_address
from front.lines import Splitter, as_the_world_takes_it
from front.login import Login
from front.telnet import Commands
from front.visit import AGAIN, SAID

PYTHON = "/usr/bin/python3"
PATIENCE = 200
GREETING = "Use: connect NAME PASSWORD, WHO or QUIT."
WRONG = "Either that player does not exist, or has a different password."


class Front:
    """contrib/front before a world, with a door for telnet and one for the page; it ends with the block."""

    def __init__(self, folder, port, *words, doors=("--telnet", "--web")):
        self.file, self.doors = os.path.join(folder, "log"), len(doors)
        self.words = [os.path.join(TOP, "contrib/front"), "--world", f"127.0.0.1:{port}", *words, *(part for door in doors for part in (door, "127.0.0.1:0"))]

    def __enter__(self):
        with open(self.file, "wb") as log:
            self.process = subprocess.Popen(list(map(str, self.words)), stdin=subprocess.DEVNULL, stdout=log, stderr=log)
        self.until(lambda log: log.count("\n") >= self.doors)
        self.ports = {how: int(port) for how, port in re.findall(r" opens how=(\S+) at=127\.0\.0\.1 port=(\d+)", self.log())}
        return self

    def __exit__(self, fault, *_):
        self.process.terminate()
        status = self.process.wait(PATIENCE)
        if fault is None:
            same("the front's end", (status, self.log().splitlines()[-1][20:]), (0, "closes"))

    def log(self):
        with open(self.file, encoding="ascii") as file:
            return file.read()

    def until(self, holds_of):
        """Waits until this holds of the log."""
        end = time.monotonic() + PATIENCE
        while not holds_of(self.log()):
            if time.monotonic() > end or self.process.poll() is not None:
                raise AssertionError(f"the log doesn't come: {self.log():.2000}")
            time.sleep(0.02)

    def until_logged(self, *parts):
        self.until(lambda log: all(part in log for part in parts))

    def told(self):
        """The log without times and addresses."""
        return [line[20:].replace(" address=127.0.0.1", "") for line in self.log().splitlines() if " opens " not in line]

    def telnet(self, tls=False):
        return Telnet(self.ports["telnet+tls" if tls else "telnet"], tls)

    def page(self, *words, tls=False):
        return Page(f"ws{'s' if tls else ''}://127.0.0.1:{self.ports['web+tls' if tls else 'web']}/link", *words)

    def url(self, name=""):
        return f"http://127.0.0.1:{self.ports['web']}/{name}"


class Telnet:
    def __init__(self, port, tls=False):
        self.socket = socket.create_connection(("127.0.0.1", port), PATIENCE)
        if tls:
            context = ssl.SSLContext(ssl.PROTOCOL_TLS_CLIENT)
            context.check_hostname, context.verify_mode = False, ssl.CERT_NONE
            self.socket = context.wrap_socket(self.socket)
        self.data = b""

    def __enter__(self):
        return self

    def __exit__(self, *_):
        self.socket.close()

    def send(self, *lines):
        for line in lines:
            self.socket.sendall((line.encode() if isinstance(line, str) else line) + b"\r\n")

    def until(self, line):
        """What came before this line, as lines."""
        mark = line.encode() + b"\r\n"
        while mark not in self.data:
            more = self.socket.recv(65536)
            assert more, f"the link ended without {line!r}: {self.data!r:.500}"
            self.data += more
        before, self.data = self.data.split(mark, 1)
        return before.decode().split("\r\n")[:-1]

    def answer(self):
        """Three bytes that telnet itself says."""
        while len(self.data) < 3:
            self.data += self.socket.recv(1)
        answer, self.data = self.data[:3], self.data[3:]
        return answer

    def rest(self):
        while True:
            more = self.socket.recv(65536)
            if not more:
                return self.data.decode().split("\r\n")[:-1]
            self.data += more

    def enter(self, name="One", password="potrzebie"):
        self.until(GREETING)
        self.send(f"connect {name} {password}", "examine ?mark?")
        self.until("I don't understand '?mark?'.")
        return self


class Page:
    """A link of the page, by a client with aiohttp."""

    def __init__(self, url, *words):
        self.process = subprocess.Popen([PYTHON, os.path.join(HERE, "web_client.py"), url, *words], stdin=subprocess.PIPE, stdout=subprocess.PIPE)
        self.data = b""

    def __enter__(self):
        return self

    def __exit__(self, *_):
        self.process.kill()
        self.process.wait()
        self.process.stdin.close()
        self.process.stdout.close()

    def send(self, *messages):
        for one in messages:
            self.process.stdin.write(json.dumps(one).encode() + b"\n")
        self.process.stdin.flush()

    def next(self):
        """The next message."""
        while b"\n" not in self.data:
            assert select.select([self.process.stdout], [], [], PATIENCE)[0], "no message comes"
            more = os.read(self.process.stdout.fileno(), 65536)
            assert more, "the client ended"
            self.data += more
        line, self.data = self.data.split(b"\n", 1)
        return json.loads(line)

    def until(self, line):
        """The lines of the world before this one."""
        found = []
        while True:
            it = self.next()
            assert "closed" not in it, (line, it, found)
            found += it.get("lines", [])
            if line in found:
                return found[:found.index(line)]

    def end(self):
        """What the door says in the end, and how it closes."""
        said = []
        while True:
            it = self.next()
            if "door" in it:
                said.append(it["door"])
            if "closed" in it:
                return said, it["closed"]

    def enter(self, name="One", password="potrzebie"):
        self.until(GREETING)
        self.send(f"connect {name} {password}")
        while "in" not in self.next():
            pass
        self.send("examine ?mark?")
        self.until("I don't understand '?mark?'.")
        return self


def players(folder, *names):
    script(folder, "open 1\nsend 1 connect One potrzebie\n" + "".join(f"send 1 @pcreate {name}=secret\n" for name in names))


def fetch(url, **heads):
    """Status, heads by their names in small letters, and text of an address."""
    try:
        it = urllib.request.urlopen(urllib.request.Request(url, headers=heads), timeout=PATIENCE)
    except urllib.error.HTTPError as why:
        it = why
    with it:
        return it.status, {name.lower(): value for name, value in it.headers.items()}, it.read().decode()


def certificate(folder, name):
    """A certificate that signs itself, and its key."""
    subprocess.run(["openssl", "req", "-x509", "-newkey", "ec", "-pkeyopt", "ec_paramgen_curve:prime256v1", "-nodes", "-keyout", "privkey.pem", "-out", "fullchain.pem", "-subj", f"/CN={name}", "-days", "9"],
                   cwd=folder, check=True, capture_output=True, timeout=PATIENCE)
    return "--certificate", os.path.join(folder, "fullchain.pem"), "--key", os.path.join(folder, "privkey.pem")


# What is read of a line, what a login is, and what is counted: by the functions themselves.


def lines_as_the_world_takes_them(_):
    for raw, want in ((b"say hi", b"say hi"), ("h\u00e9llo \u201cw\u201d \u2013 na\u00efve caf\u00e9".encode(), b'hello "w" - naive cafe'), (b"caf\xe9", b"cafe"), ("\u00df\u00c6\u0142 \u20ac5".encode(), b"ssAEl EUR5"),
                      ("\U0001f600 \u4e2d".encode(), b"? ?"), (b"a\tb\0c\x1b[31md\x1b[0m\x07", b"a bcd"), (b"one\x7f\x7f\b\btwo", b"two"), ("caf\u00e9\x7fe".encode(), b"cafe"), (b"a\rb", b"a b"), (b"", b""), (b"\xff\xfe", b"yth")):
        same(raw, as_the_world_takes_it(raw), (want, True))
    same("the longest", as_the_world_takes_it(b"x" * 2048), (b"x" * 2048, True))
    same("too long", as_the_world_takes_it(b"x" * 2049), (b"x" * 2048, False))
    for letter in ("\u00e9", "\u4e2d", "\U0001f600"):
        for front in range(4):
            line, whole = as_the_world_takes_it((b"x" * front + letter.encode() * 5000)[:8197])
            same((letter, front), (set(line[front:]), len(line), whole), (set(b"e" if letter == "\u00e9" else b"?"), 2048, False))
    data = b"one\r\ntwo\nthree\rfour\r\0\r\n\nfive\r\r\nsix"
    for cuts in itertools.combinations(range(len(data) + 1), 2):
        it = Splitter()
        found = [line for piece in (data[:cuts[0]], data[cuts[0]:cuts[1]], data[cuts[1]:]) for line in it.take(piece)]
        same(cuts, (found, it.part), ([b"one", b"two", b"three", b"four", b"", b"", b"five", b"", b"six"][:-1], b"six"))
    it = Splitter()
    for _ in range(1000):
        same("no line", it.take(b"x" * 4096), [])
    assert len(it.part) == 8197, len(it.part)
    same("its end", [len(line) for line in it.take(b"x\nshort\n")], [8197, 5])


def what_telnet_says_of_itself(_):
    data = (b"a\xff\xfb\x1fb\xff\xfd\x18\xff\xf1c\xff\xfa\x1f\0\xff\xff\xf0\x50\xff\xf0d\xff\xffe\xff\xfc\x01\xff\xfe\x03\xff\xfb\x1f\xff\xfd\x1ff\xff\xf6", b"abcdef", b"\xff\xfe\x1f\xff\xfc\x18\xff\xfc\x1f[Yes]\r\n")
    for cuts in itertools.combinations(range(len(data[0]) + 1), 2):
        it, plain, answers = Commands(), b"", b""
        for piece in (data[0][:cuts[0]], data[0][cuts[0]:cuts[1]], data[0][cuts[1]:]):
            more = it.take(piece)
            plain, answers = plain + more[0], answers + more[1]
        same(cuts, (plain, answers, it.kept), (data[1], data[2], b""))
    it = Commands()
    for _ in range(1000):
        same("a list without an end", it.take(b"\xff\xfa" + b"x" * 1000 + b"\xff"), (b"", b""))
        assert len(it.kept) <= 3
    same("its end", it.take(b"\xf0on"), (b"on", b""))
    same("options that are asked for again and again", len(Commands().take(b"\xff\xfb\x01\xff\xfd\x01" * 10000)[1]), 6)


def what_a_login_is(_):
    def told(*talk):
        it, heard = Login(), []
        for line in talk:
            if line[:1] == b">":
                it.ask(line[1:], False)
            else:
                heard.append(it.hear(line))
        return heard, it.is_in, it.name

    use, wrong = GREETING.encode(), WRONG.encode()
    same("in", told(b">connect One potrzebie", b"Room Zero(#0R)"), (["in"], True, "One"))
    same("wrong", told(b">connect One wrong", wrong, b">look", use), (["wrong", None], False, "One"))
    same("in by the second", told(b">connect Two x", wrong, b">  CONNECT  Two   y z ", b"Hall"), (["wrong", "in"], True, "Two"))
    same("who", told(b">who", b"One (3)", b"2 (1)", b"2 connected.", b">WHO ", b"0 connected."), ([None] * 4, False, "-"))
    same("who with more", told(b">who now", use, b">connect One x", wrong), ([None, "wrong"], False, "One"))
    same("quit", told(b">quit", b"Come back later!"), ([None], False, "-"))
    # what a builder may name a room
    same("a room named like an end of WHO", told(b">connect One x", b"1 connected."), (["in"], True, "One"))
    same("like a farewell", told(b">connect One x", b"Come back later!"), (["in"], True, "One"))
    same("like a refusal", told(b">connect One x", wrong, b"A dark place."), (["wrong", "in"], True, "One"))
    same("like the greeting", told(b">connect One x", use, b"Contents:"), ([None, "in"], True, "One"))
    same("nobody tried", told(b"A line."), ([None], False, "-"))
    for name in (b"potrze=bie", b"x" * 81, b"a\x7fb"):
        same("no name", told(b">connect " + name + b" y", wrong), (["wrong"], False, "-"))


def what_is_counted(_):
    for address, plain, who in (("192.0.2.7", "192.0.2.7", "192.0.2.7"), ("::ffff:192.0.2.7", "192.0.2.7", "192.0.2.7"), ("2001:db8:1:2:3::4", "2001:db8:1:2:3::4", "2001:db8:1:2::/64"), ("fe80::1%eth0", "fe80::1", "fe80::/64")):
        same(address, (str(plain_address(address)), counted(address)), (plain, who))
    now = [0.0]
    it = Limits(2, 3, 2, lambda: now[0])
    same("of an address", [it.come("a") for _ in range(3)], [None, None, "links"])
    same("in all", [it.come(who) for who in "bc"], [None, "full"])
    it.go("a")
    same("one went", [it.come("c"), it.come("a")], [None, "full"])
    same("tries", [it.may_try("a") for _ in range(3)], [True, True, False])
    it.right("a")
    same("a right one doesn't count", [it.may_try("a"), it.may_try("a"), it.may_try("b")], [True, False, True])
    now[0] = 59.9
    same("within the minute", it.may_try("a"), False)
    now[0] = 60.0
    same("behind it", [it.may_try("a") for _ in range(3)], [True, True, False])
    now[0] = 200.0
    it.may_try("z")
    same("what is forgotten", list(it.tried), ["z"])


# Coming in, by each door.


def by_telnet_and_by_the_page(folder):
    players(folder, "Two", "Three")
    with Server(folder) as server, Front(folder, server.port) as front, front.telnet() as two, front.page() as three:
        same("greeted", two.until(GREETING), [])
        two.send("connect Two wrong-word", "connect Two", "connect  two   secret", "look")
        same("in", two.until("Room Zero"), [WRONG, GREETING])
        three.enter("Three", "secret")
        two.send("examine ?mark?")
        two.until("I don't understand '?mark?'.")
        two.socket.sendall(b"\xff\xfb\x1f")
        same("an option", two.answer(), b"\xff\xfe\x1f")
        two.send("say H\u00e9llo \u201cyou\u201d", b"\xff\xfa\x1f\0\x50\0\x18\xff\xf0:waves.")
        two.until('You say, "Hello "you""')
        same("what the page shows", three.until("Two waves."), ['Two says, "Hello "you""'])
        three.send("say \u00a1Ol\u00e9!\nsay \U0001f600 \x1b[31mred")
        two.until('Three says, "!Ole!"')
        two.until('Three says, "? red"')
        # what is too long is cut, and told
        two.send("say " + "x" * 5000)
        two.until("[The line was too long, and its end is cut off.]")
        three.until(f'Two says, "{"x" * 2044}"')
        three.send("say " + "y" * 5000)
        while "too long" not in three.next().get("door", ""):
            pass
        two.until(f'Three says, "{"y" * 2044}"')
        two.send("QUIT")
        same("the farewell", two.rest()[-1], "Come back later!")
        three.send("QUIT")
        same("the page's end", three.end(), ([], 4000))
        front.until(lambda log: log.count(" goes ") == 2)
        told = front.told()
        same("the log of Two", [line for line in told if "link=1" in line],
             ["comes how=telnet link=1", "fails how=telnet link=1 name=Two", "in how=telnet link=1 name=two", "goes how=telnet link=1 name=two why=quit"])
        same("the log of Three", [line for line in told if "link=2" in line], ["comes how=web link=2", "in how=web link=2 name=Three", "goes how=web link=2 name=Three why=quit"])
        assert re.fullmatch(r"\d{4}-\d\d-\d\d \d\d:\d\d:\d\d comes address=127\.0\.0\.1 how=telnet link=1", front.log().splitlines()[2]), front.log()
        for secret in ("secret", "wrong-word"):
            assert secret not in front.log(), front.log()


def lines_that_come_at_once(folder):
    """Each answer of the login screen is that of its own line, however many wait."""
    players(folder, "Two")
    with Server(folder) as server, Front(folder, server.port) as front, front.telnet() as one:
        one.socket.sendall(b"connect Ann first\r\nWHO\r\nconnect Bob second\r\nnothing\r\nconnect Two secret\r\nsay one\r\nsay two\r\nQUIT\r\n")
        same("what is shown", one.rest(), [GREETING, WRONG, "0 connected.", WRONG, GREETING, "Room Zero", "Contents:", "One", 'You say, "one"', 'You say, "two"', "Come back later!"])
        front.until_logged(" goes ")
        same("the log", [line.replace(" how=telnet link=1", "") for line in front.told()], ["comes", "fails name=Ann", "fails name=Bob", "in name=Two", "goes name=Two why=quit"])


def by_tls(folder):
    words = certificate(folder, "first")
    players(folder, "Two")
    with Server(folder) as server, Front(folder, server.port, *words, doors=("--telnet", "--telnet-tls", "--web", "--web-tls")) as front, front.telnet(tls=True) as one, front.page(tls=True) as two:
        one.enter()
        two.enter("Two", "secret")
        one.send("say by TLS")
        two.until('One says, "by TLS"')
        front.until_logged(" in address=127.0.0.1 how=telnet+tls link=", " in address=127.0.0.1 how=web+tls link=")

        def shown():
            return [hashlib.sha256(ssl.get_server_certificate(("127.0.0.1", front.ports[how])).encode()).hexdigest() for how in ("telnet+tls", "web+tls")]

        before = shown()
        same("one certificate", before[0], before[1])
        certificate(folder, "second")
        front.process.send_signal(signal.SIGHUP)
        front.until_logged(" renewed ")
        after = shown()
        assert after[0] == after[1] != before[0], (before, after)
        # a file that is wrong changes nothing
        good = open(words[1], "rb").read()
        for wrong in (b"", good[:100]):
            put(folder, "fullchain.pem", wrong)
            count = front.log().count(" fault ")
            front.process.send_signal(signal.SIGHUP)
            front.until(lambda log: log.count(" fault ") > count)
            same("as it was", shown(), after)
        # one whose key is another
        os.mkdir(os.path.join(folder, "third"))
        certificate(os.path.join(folder, "third"), "third")
        shutil.copy(os.path.join(folder, "third/fullchain.pem"), folder)
        count = front.log().count(" fault ")
        front.process.send_signal(signal.SIGHUP)
        front.until(lambda log: log.count(" fault ") > count)
        same("as it was", shown(), after)
        one.send("say still here")
        two.until('One says, "still here"')
        # no TLS where TLS is spoken
        with socket.create_connection(("127.0.0.1", front.ports["telnet+tls"]), PATIENCE) as plain:
            plain.sendall(b"connect One potrzebie\r\n")
            assert b"Use" not in b"".join(iter(lambda: plain.recv(4096), b""))


def the_page(folder):
    with Server(folder) as server, Front(folder, server.port, "--title", "Tom & <b>Jerry</b>'s") as front:
        status, heads, text = fetch(front.url())
        same("the page", (status, heads["content-type"]), (200, "text/html; charset=utf-8"))
        holds("its name", text, "<title>Tom &amp; &lt;b&gt;Jerry&lt;/b&gt;&#x27;s</title>")
        for name, kind in (("page.js", "text/javascript"), ("page.css", "text/css")):
            status, heads, more = fetch(front.url(name))
            same(name, (status, heads["content-type"]), (200, kind + "; charset=utf-8"))
            holds("named by the page", text, f'"{name}"')
            text += more
        policy = heads["content-security-policy"]
        holds("the policy", policy, "default-src 'none'", "script-src 'self';", "style-src 'self';", f"connect-src 'self' ws://127.0.0.1:{front.ports['web']} ", "frame-ancestors 'none'")
        assert "unsafe" not in policy and "*" not in policy
        # nothing from elsewhere, and no text as HTML
        for word in ("innerHTML", "outerHTML", "insertAdjacentHTML", "document.write", "eval(", "style=", "onclick=", 'src="http', 'href="http', "@import", "url("):
            assert word not in text, word
        for name in ("link", "nothing", "page/page.js", "%2e%2e/web.py", "page.py"):
            assert fetch(front.url(name))[0] in (400, 404), name
        for host in ("a; script-src *", "a b", "*"):
            assert "*" not in fetch(front.url(), Host=host)[1].get("content-security-policy", ""), host
        # a page from elsewhere has no link
        with front.page("--origin", "http://elsewhere.example") as other:
            same("from elsewhere", other.next(), {"status": 403})
        with front.page("--origin", f"http://127.0.0.1:{front.ports['web']}") as own:
            own.enter()
        same("the log", {line.split()[0] for line in front.told()} - {"comes", "in", "goes"}, set())


# Limits.


def links_of_an_address(folder):
    refusal = "There are too many connections from your address. Close one, and come again."
    players(folder, "Two")
    with Server(folder) as server, Front(folder, server.port, "--links", "3") as front, front.telnet() as one, front.page() as two:
        one.enter()
        two.enter("Two", "secret")
        with front.telnet() as three:
            three.until(GREETING)
            with front.telnet() as four, front.page() as five:
                same("by telnet", four.rest(), [refusal])
                same("by the page", five.end(), ([refusal], 4000))
        front.until_logged(" goes ")
        with front.page() as six:
            six.until(GREETING)
            with front.telnet() as seven:
                same("again", seven.rest(), [refusal])
        one.send("say hello")
        two.until('One says, "hello"')
        front.until(lambda log: log.count("why=links") == 3)
        same("the log", sorted(line.split(" link=")[0] + line.split(" link=")[1][1:] for line in front.told() if line.startswith("refused")), ["refused how=telnet why=links"] * 2 + ["refused how=web why=links"])


def connections_that_are_no_links(folder):
    """Connections that ask for nothing are bounded too, and hinder no link of the other door."""
    with Server(folder) as server, Front(folder, server.port, "--links", "1") as front:
        silent = [socket.create_connection(("127.0.0.1", front.ports["web"]), PATIENCE) for _ in range(13)]
        same("the last one is closed", silent[-1].recv(100), b"")
        front.until_logged("why=connections")
        same("the log", front.told(), ["refused how=web why=connections"])
        silent.pop(0).close()
        end = time.monotonic() + PATIENCE
        while "how=telnet" not in front.log().split(" comes ")[-1]:
            assert time.monotonic() < end, front.log()
            with front.telnet() as one:
                one.socket.recv(1)
        for it in silent:
            it.close()


def tries_of_passwords(folder):
    refusal = "Too many wrong passwords came from your address. Wait a minute, and come again."
    players(folder, "Two")
    with Server(folder) as server, Front(folder, server.port, "--tries", "3") as front, front.telnet() as one, front.page() as two:
        # who is right may come as often as it likes
        for _ in range(4):
            with front.telnet() as it:
                it.enter("Two", "secret")
        one.until(GREETING)
        one.send("connect One first", "CONNECT one second", "connect Two")
        same("wrong", one.until(GREETING), [WRONG, WRONG])
        two.until(GREETING)
        two.send("connect nobody third")
        two.until(WRONG)
        two.send("WHO")
        two.until("0 connected.")
        # now nobody of this address comes in, whatever it says, and what is said by the way stays out of the log
        began = time.monotonic()
        two.send("connect One potrzebie\nconnect One fourth")
        said = two.end()
        one.send("connect Two secret")
        answer = one.rest()
        if time.monotonic() - began < 40:
            same("refused by the page", said, ([refusal], 4000))
            same("refused by telnet", answer, [refusal])
        front.until(lambda log: log.count(" goes ") == 6)
        told = front.told()
        same("what fails", [re.sub(r" link=\d+", "", line) for line in told if line.startswith("fails")], ["fails how=telnet name=One", "fails how=telnet name=one", "fails how=web name=nobody"])
        same("why they go", sorted(line.split("why=")[1] for line in told if line.startswith("goes")), ["left"] * 4 + ["tries"] * 2)
        for secret in ("first", "second", "third", "fourth", "potrzebie", "secret"):
            assert secret not in front.log(), front.log()


def time_at_the_login_screen(folder):
    refusal = "You were at the login screen for too long. Please come again."
    with Server(folder) as server, Front(folder, server.port, "--login", "15") as front, front.page() as one, front.page() as three:
        one.enter()
        two = front.telnet()
        two.send(*["WHO"] * 3, "", "nothing")
        three.until(GREETING)
        with two:
            shown = two.rest()
        same("by telnet", (shown[-1], shown.count(GREETING)), (refusal, 3))
        same("by the page", three.end(), ([refusal], 4000))
        one.send("WHO")
        one.until("1 connected.")
        front.until(lambda log: log.count("why=login") == 2)


def who_has_vanished(folder):
    """A page that doesn't answer any more is closed; and the system asks whether those of telnet are there."""
    with Server(folder) as server, Front(folder, server.port, "--keepalive", "8") as front, front.page("--deaf") as deaf, front.page() as well, front.telnet() as telnet:
        well.enter()
        telnet.until(GREETING)
        deaf.until(GREETING)
        front.until_logged("why=lost")
        well.send("WHO")
        well.until("1 connected.")
        same("who went", [line.split()[1] for line in front.told() if line.startswith("goes")], ["how=web"])
        with open("/proc/net/tcp", encoding="ascii") as file:
            rows = [line.split() for line in file]
        ours, theirs = (f"0100007F:{port:04X}" for port in (front.ports["telnet"], telnet.socket.getsockname()[1]))
        # (a timer of this kind is that of keepalive, where nothing waits to be sent)
        same("the timer", [row[5][:2] for row in rows if (row[1], row[2]) == (ours, theirs)], ["02"])


# A world that isn't there.


def a_world_that_is_down(folder):
    down = "The world is down. Please try again later."
    server = Server(folder)
    with Front(folder, server.port) as front:
        with front.telnet() as one, front.page() as two:
            same("by telnet", one.rest(), [down])
            same("by the page", two.end(), ([down], 4001))
        with server, front.telnet() as one, front.page() as two, front.page() as three:
            one.enter()
            two.enter()
            three.until(GREETING)
            server.talk("@shutdown")
            gone = "The world has closed the connection."
            same("by telnet", one.rest()[-1], gone)
            same("by the page", [two.end(), three.end()], [([gone], 4001)] * 2)
            same("the server's end", server.ended(), 0)
        again = Server(folder)
        again.port = server.port
        with again:
            with front.page() as two:
                two.enter()
            # (before the world goes too)
            front.until_logged("why=left")
        same("why they went", sorted(line.split("why=")[1] for line in front.told() if line.startswith("goes")), ["down", "down", "gone", "gone", "gone", "left"])


def a_world_that_is_full(folder):
    with Server(folder) as server, Front(folder, server.port, "--most", "2", "--patience", "5") as front:
        with front.telnet() as one, front.telnet() as two:
            one.until(GREETING)
            two.until(GREETING)
            with front.telnet() as three, front.page() as four:
                same("by telnet", three.rest(), ["The world is full. Please try again later."])
                same("by the page", four.end(), (["The world is full. Please try again later."], 4001))
        front.until(lambda log: log.count(" goes ") == 2)
        # where others have all its places it greets nobody
        links = [socket.create_connection(("127.0.0.1", server.port), PATIENCE) for _ in range(256)]
        for it in links:
            it.recv(1)
        with front.telnet() as one, front.page() as two:
            silent = "The world is full, or busy: it doesn't answer. Please try again later."
            same("by telnet", one.rest(), [silent])
            same("by the page", two.end(), ([silent], 4001))
        for it in links:
            it.close()
        front.until(lambda log: log.count(" goes ") == 4)
        with front.telnet() as one:
            one.enter()


def something_else_than_a_world(folder):
    with socket.create_server(("127.0.0.1", 0)) as other, Front(folder, other.getsockname()[1]) as front, front.telnet() as one:
        with other.accept()[0] as link:
            link.sendall(b"220 mail.example ESMTP\r\n")
            holds("told", one.rest()[0], "it doesn't answer")


# Hostile ones, and the end.


def hostile_bytes(folder):
    with Server(folder) as server, Front(folder, server.port, "--links", "100") as front, front.telnet() as well:
        well.enter()
        with front.telnet() as one, front.page() as two, front.page() as three, front.page() as four:
            for _ in range(48):
                one.socket.sendall(b"x" * 65536)
            one.send("", "WHO")
            holds("a line of 3 MB", one.until("1 connected."), "[The line was too long, and its end is cut off.]", GREETING)
            two.until(GREETING)
            two.send({"bytes": 1000}, "x" * 9000, "WHO")
            two.until("1 connected.")
            three.send("x" * 70000)
            same("a message that is too long", three.end()[1], 1009)
            four.send("\n" * 300 + "WHO")
            same("many lines", four.until("1 connected.").count(GREETING), 301)
        numbers = random.Random(7)
        for n in range(20):
            for how in ("telnet", "web"):
                with socket.create_connection(("127.0.0.1", front.ports[how]), PATIENCE) as one:
                    data = numbers.randbytes(numbers.randrange(3000))
                    one.sendall(data if how == "telnet" or n % 2 else b"GET /link HTTP/1.1\r\nHost: a\r\nUpgrade: websocket\r\nConnection: upgrade\r\nSec-WebSocket-Version: 13\r\nSec-WebSocket-Key: AAAAAAAAAAAAAAAAAAAAAA==\r\n\r\n" + data)
                    one.shutdown(socket.SHUT_WR)
        with front.telnet() as one:
            one.send("POST / HTTP/1.1", "Host: a", "", "connect One potrzebie")
            same("a browser", one.rest()[-1], "This door is for telnet.")
        well.send("say well")
        well.until('You say, "well"')
        assert " fault " not in front.log() and "Traceback" not in front.log(), front.log()
        assert all(re.fullmatch(r"[ -~]+", line) for line in front.log().splitlines()), front.log()


def who_does_not_read(folder):
    """One who reads nothing hinders nobody, and loses what the world gave up for it: the front keeps little."""
    players(folder, "Two")
    with Server(folder) as server, Front(folder, server.port) as front, front.telnet() as two, socket.socket() as slow:
        two.enter("Two", "secret")
        slow.setsockopt(socket.SOL_SOCKET, socket.SO_RCVBUF, 4096)
        slow.settimeout(PATIENCE)
        slow.connect(("127.0.0.1", front.ports["telnet"]))
        slow.sendall(b"connect One potrzebie\r\n")
        two.until("One has connected.")
        for n in range(60):
            two.send(*[f"say {'x' * 2000}"] * 60, f"say part {n}")
            two.until(f'You say, "part {n}"')
        with open(f"/proc/{front.process.pid}/status", encoding="ascii") as file:
            memory = int(re.search(r"VmRSS:\s+(\d+) kB", file.read())[1])
        assert memory < 100000, memory
        slow.sendall(b"examine ?mark?\r\n")
        data = b""
        while b"I don't understand '?mark?'." not in data:
            data += slow.recv(1 << 20)
        assert b"<Output Flushed>" in data and len(data) < 3600 * 2000, len(data)


def the_end(folder):
    with Server(folder) as server, Front(folder, server.port) as front, front.telnet() as one, front.page() as two, front.page() as three:
        one.enter()
        two.enter()
        three.until(GREETING)
        front.process.terminate()
        closing = "The door closes. Please come again in a minute."
        same("by telnet", one.rest()[-1], closing)
        same("by the page", [two.end(), three.end()], [([closing], 4001)] * 2)
        same("its status", front.process.wait(PATIENCE), 0)
        end = time.monotonic() + PATIENCE
        while server.talk("WHO")[-2] != "1 connected.":
            assert time.monotonic() < end, "somebody is left in the world"


def words_that_are_wrong(folder):
    files = certificate(folder, "name")
    with socket.create_server(("127.0.0.1", 0)) as taken:
        port = taken.getsockname()[1]
        for words, why in (((), "no door is asked for"), (("--telnet", "4201"), "port 4201 is that of the world"), (("--telnet", f"127.0.0.1:{port}"), f"port {port} of 127.0.0.1 can't be listened on: Address already in use"),
                           (("--web", "no.such.host.example:0"), "port 0 of no.such.host.example can't be listened on"), (("--telnet-tls", "127.0.0.1:0"), "wants --certificate FILE and --key FILE"),
                           (("--web-tls", "127.0.0.1:0", *files[:2]), "wants --certificate FILE and --key FILE"), (("--web-tls", "127.0.0.1:0", files[0], "nothing.pem", *files[2:]), "nothing.pem: No such file"),
                           (("--web-tls", "127.0.0.1:0", files[0], files[3], *files[2:]), "aren't a certificate and its key")):
            holds(words, refuses("front", *words, folder=folder), why)
    for words in (("--telnet", "65536"), ("--telnet", "host:"), ("--links", "0", "--telnet", "0"), ("--keepalive", "10001", "--telnet", "0"), ("--tries", "1e3", "--telnet", "0"), ("--frob",)):
        done = subprocess.run([os.path.join(TOP, "contrib/front"), *words], capture_output=True, timeout=PATIENCE)
        same(words, (done.returncode, done.stdout, b"usage: front" in done.stderr), (1, b"", True))
    holds("--help", works("front", "--help", folder=folder), "usage: front", "--telnet-tls", "--keepalive")


def without_aiohttp(folder):
    """Where it isn't installed, that is said."""
    done = subprocess.run([PYTHON, "-I", "-c", f"import sys, runpy\nsys.modules['aiohttp'] = None\nsys.argv = ['front', '--telnet', '127.0.0.1:0']\nrunpy.run_path({os.path.join(TOP, 'contrib/front')!r}, run_name='__main__')"],
                          capture_output=True, timeout=PATIENCE, cwd=folder)
    same("missing", (done.returncode, done.stdout), (1, b""))
    holds("what is said", done.stderr.decode(), "front: aiohttp is missing for /usr/bin/python3: contrib/setup installs it")


def a_hundred_in_one_room(folder):
    """A hundred pages in one room: each sees the lines of all others, within a minute."""
    players(folder, *(f"P{n + 1}" for n in range(100)))
    with Server(folder) as server, Front(folder, server.port, "--links", "100", "--tries", "100") as front:
        done = subprocess.run([PYTHON, os.path.join(HERE, "web_load.py"), f"ws://127.0.0.1:{front.ports['web']}/link", "100"], capture_output=True, timeout=PATIENCE)
        same("it ends", (done.returncode, done.stderr.decode()[-500:]), (0, ""))
        seen, seconds = done.stdout.split()
        same("lines that were seen", int(seen), 10000)
        assert float(seconds) < 60, seconds
        same("the log", [sum(line.startswith(word) for line in front.told()) for word in ("comes", "in", "fails", "refused")], [100, 100, 0, 0])


def what_is_needed(folder):
    """contrib/setup has nothing to do where all is there, and says what it can't install."""
    done = subprocess.run([os.path.join(TOP, "contrib/setup")], cwd=folder, capture_output=True, timeout=PATIENCE)
    same("all is there", (done.returncode, done.stdout, done.stderr), (0, b"", b""))
    done = subprocess.run([shutil.which("bash"), os.path.join(TOP, "contrib/setup")], cwd=folder, capture_output=True, timeout=PATIENCE, env={"PATH": folder})
    same("something is missing", (done.returncode, done.stdout), (1, b""))
    holds("what is said", done.stderr.decode(), "setup: openssl missing, and there is no apt-get")
    if os.geteuid():
        return
    os.symlink(shutil.which("tail"), os.path.join(folder, "tail"))
    for name, then, status in (("refuses", "echo no such package; exit 100", 1), ("installs", "case $1 in install) echo $* >>$PATH/asked; printf '#!/bin/sh\n' >$PATH/openssl; /bin/chmod 755 $PATH/openssl;; esac", 0)):
        put(folder, "apt-get", f"#!/bin/sh\n{then}\n", 0o755)
        done = subprocess.run([shutil.which("bash"), os.path.join(TOP, "contrib/setup")], cwd=folder, capture_output=True, timeout=PATIENCE, env={"PATH": folder})
        said = ("setup: installed openssl\n", "") if status == 0 else ("", "no such package\nsetup: openssl missing, and apt-get couldn't install it\n")
        same(name, (done.returncode, done.stdout.decode(), done.stderr.decode()[-len(said[1]):] if said[1] else done.stderr.decode()), (status, *said))
    with open(os.path.join(folder, "asked"), encoding="ascii") as file:
        same("what is asked for", file.read(), "install -y --no-install-recommends openssl\n")


def what_the_manual_says(folder):
    """docs/FRONT.md has each word of the command with its number, each sentence, and each reason of the log."""
    with open(os.path.join(TOP, "docs/FRONT.md"), encoding="utf-8") as file:
        text = file.read()
    told = works("front", "--help", folder=folder, env={"COLUMNS": "500"})
    words = dict(re.findall(r"^  (--[a-z-]+) .*?(?:\((\d+)\).*)?$", told, re.M))
    assert len(words) == 14, words
    for word, number in words.items():
        holds("a word", text, f"`{word}`" if word not in ("--certificate", "--key") else f"`{word} FILE`")
        if number:
            holds("its number", text, f"| `{word}` | {number} |")
    for why, said in SAID.items():
        if why != "fault":
            holds("what is told", text, f"`{said}` | comes again" if why in AGAIN else f"`{said}` |")
        holds("why", text, f"`{why}`")
    for name in set(re.findall(r"`((?:contrib|tests|docs)/[\w./-]+)`", text)):
        assert os.path.exists(os.path.join(TOP, name)), name
    assert os.path.exists(os.path.join(TOP, "docs/front.png"))


TESTS = [lines_as_the_world_takes_them, what_telnet_says_of_itself, what_a_login_is, what_is_counted, by_telnet_and_by_the_page, lines_that_come_at_once, by_tls, the_page, links_of_an_address, connections_that_are_no_links, tries_of_passwords,
         time_at_the_login_screen, who_has_vanished, a_world_that_is_down, a_world_that_is_full, something_else_than_a_world, hostile_bytes, who_does_not_read, the_end, words_that_are_wrong, what_the_manual_says, without_aiohttp, a_hundred_in_one_room, what_is_needed]

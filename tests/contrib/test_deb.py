"""contrib/deb/build: what is in the package, and what it does to a machine, in a root of its own."""
import hashlib
import os
import re
import shutil
import stat
import subprocess

from common import BINARY, PATIENCE, TOP, free_port, holds, put, same
from throwaway import Root

SECOND = {"SOURCE_DATE_EPOCH": "1700000000"}
# what would say nothing of the package: that man's index is made anew, and that all is on the disk
DPKG = ("dpkg", "--no-triggers", "--force-unsafe-io", "--force-depends")


def can_build():
    if shutil.which("dpkg-deb"):
        return True
    print("skipped a test of the package: dpkg-deb isn't installed")
    return False


def tree(folder):
    """What a package is built from, with the program of this test: no crates, so nothing is asked of them."""
    top = os.path.join(folder, "tree")
    for name in ("bin", "contrib", "docs", "demos"):
        shutil.copytree(os.path.join(TOP, name), os.path.join(top, name), ignore=shutil.ignore_patterns("__pycache__"))
    for name in ("README.md", "LICENSE", "LICENSE-CRATES"):
        shutil.copy(os.path.join(TOP, name), top)
    os.mkdir(os.path.join(top, "dist"))
    shutil.copy(BINARY, os.path.join(top, "dist/muckd"))
    with open(BINARY, "rb") as file:
        put(top, "dist/muckd.sources", f"sources 0123\nkit a-kit 1\nprogram {hashlib.sha256(file.read()).hexdigest()}\n", 0o644)
    return top


def build(top, folder, *words, env=SECOND):
    """Status, standard output and standard error of the builder of a tree."""
    others = {name: value for name, value in os.environ.items() if name != "SOURCE_DATE_EPOCH"}
    done = subprocess.run([os.path.join(top, "contrib/deb/build"), *words], cwd=folder, capture_output=True, text=True, timeout=PATIENCE, env={**others, **env})
    return done.returncode, done.stdout, done.stderr


def unpacked(folder, package):
    to = os.path.join(folder, "unpacked")
    subprocess.run(["dpkg-deb", "--raw-extract", package, to], check=True, timeout=PATIENCE)
    return to


def bytes_of(*path):
    with open(os.path.join(*path), "rb") as file:
        return file.read()


def what_is_in_it(folder):
    if not can_build():
        return
    same("built", build(tree(folder), folder), (0, "./muckd_0.20231114.221320_amd64.deb\n", ""))
    to = unpacked(folder, os.path.join(folder, "muckd_0.20231114.221320_amd64.deb"))
    same("the program", bytes_of(to, "usr/lib/muckd/dist/muckd"), bytes_of(BINARY))
    for ours, theirs in (("README.md", "README.md"), ("LICENSE", "LICENSE"), ("docs/PUBLIC.md", "docs/PUBLIC.md"), ("demos/town.muck", "demos/town.muck")):
        same(ours, bytes_of(TOP, ours), bytes_of(to, "usr/share/doc/muckd", theirs))
    for name in ("muckd", "muckd-keep", "muckd-put", "muckd-stop", "muckd-store", "muckd-import-fuzzball"):
        assert os.access(os.path.join(to, "usr/bin", name), os.X_OK), name
    units = os.path.join(to, "usr/lib/systemd/system")
    same("units", sorted(os.listdir(units)), sorted(["muckd.service", *os.listdir(os.path.join(TOP, "contrib/systemd"))]))
    for name in os.listdir(units):
        text = bytes_of(units, name).decode()
        assert "/opt/" not in text, name
        for path in re.findall(r"/usr/(?:lib|share/doc)/muckd/[\w./-]*\w", text):
            assert os.path.exists(to + path), (name, path)
    for where, folders, names in os.walk(to):
        for name in folders + names:
            path = os.path.join(where, name)
            assert os.path.islink(path) or stat.S_IMODE(os.stat(path).st_mode) in (0o644, 0o755), path
            assert name != "__pycache__" and not name.endswith((".a", ".b")), path
    control = bytes_of(to, "DEBIAN/control").decode()
    holds("control", control, "Version: 0.20231114.221320\n", "libc6 (>= 2.34)", "iproute2")
    size = int(re.search(r"Installed-Size: (\d+)", control)[1])
    assert 700 < size < 10000, size


def the_same_bytes(folder):
    """The same sources and second give the same package."""
    if not can_build():
        return
    top, found = tree(folder), []
    for name in ("one", "two"):
        os.mkdir(os.path.join(folder, name))
        same(name, build(top, folder, "--out", name, "--version", "1.0")[0], 0)
        found.append(bytes_of(folder, name, "muckd_1.0_amd64.deb"))
        same("nothing else", os.listdir(os.path.join(folder, name)), ["muckd_1.0_amd64.deb"])
    same("bytes", hashlib.sha256(found[0]).digest(), hashlib.sha256(found[1]).digest())


def refusals(folder):
    if not can_build():
        return
    top = tree(folder)
    os.mkdir(os.path.join(folder, "out"))

    def refused(*words, env=SECOND):
        status, out, why = build(top, folder, "--out", "out", *words, env=env)
        same(words, (status, out, os.listdir(os.path.join(folder, "out"))), (1, "", []))
        return why

    same("a version", refused("--version", "new one"), "deb/build: new one is no version: a digit, and then letters, digits and .+~\n")
    same("a second", refused(env={"SOURCE_DATE_EPOCH": "today"}), "deb/build: neither git nor SOURCE_DATE_EPOCH says of which second the sources are\n")
    holds("words", refused("--frob"), "usage: deb/build")
    same("a folder", build(top, folder, "--out", "nowhere")[2], "deb/build: nowhere isn't a folder\n")
    with open(os.path.join(top, "dist/muckd"), "ab") as file:
        file.write(b"\0")
    same("another program", refused(), "deb/build: dist/muckd isn't of these sources: bin/build refreshes it\n")
    status, out, _ = build(TOP, folder, "--help")
    same("--help", (status, "usage: deb/build" in out), (0, True))


def by_git(folder):
    """Without SOURCE_DATE_EPOCH the second is that of the newest commit."""
    if not can_build():
        return
    if not shutil.which("git"):
        print("skipped by_git: git isn't installed")
        return
    top = tree(folder)
    same("no commit", build(top, folder, env={"GIT_CEILING_DIRECTORIES": folder})[2], "deb/build: neither git nor SOURCE_DATE_EPOCH says of which second the sources are\n")
    who = {"GIT_AUTHOR_NAME": "a", "GIT_AUTHOR_EMAIL": "a@b", "GIT_COMMITTER_NAME": "a", "GIT_COMMITTER_EMAIL": "a@b", "GIT_COMMITTER_DATE": "1600000000 +0200"}
    for words in (("init", "-q"), ("commit", "-q", "--allow-empty", "-m", "sources")):
        subprocess.run(["git", "-C", top, *words], check=True, timeout=PATIENCE, env={**os.environ, **who})
    same("a commit", build(top, folder, env={})[:2], (0, "./muckd_0.20200913.122640_amd64.deb\n"))


def of_these_sources(folder):
    """Beside sources the program has to be of them, as bin/muckd wants."""
    if not can_build():
        return
    current = subprocess.run([os.path.join(TOP, "bin/muckd"), "--version"], capture_output=True, timeout=PATIENCE, text=True).stdout.endswith("/dist/muckd)\n")
    status, out, why = build(TOP, folder, "--version", "1.0")
    same("this tree", (status, out, why), (0, "./muckd_1.0_amd64.deb\n", "") if current else (1, "", "deb/build: dist/muckd isn't of these sources: bin/build refreshes it\n"))
    top = tree(folder)
    put(top, "crates.txt", "")
    put(top, "bin/sources", "#!/bin/sh\necho 4567\n", 0o755)
    same("other sources", build(top, folder), (1, "", "deb/build: dist/muckd isn't of these sources: bin/build refreshes it\n"))
    put(top, "bin/sources", "#!/bin/sh\necho 0123\n", 0o755)
    same("its sources", build(top, folder)[0], 0)


class Machine:
    """A root of its own on which the package is installed."""

    def __init__(self, root, folder):
        self.root, self.folder, self.top = root, folder, tree(folder)

    def package(self, version):
        same(version, build(self.top, self.folder, "--version", version)[0], 0)
        inside = f"/var/tmp/muckd_{version}.deb"
        self.does("sh", "-c", f"cat > {inside}", typed=bytes_of(self.folder, f"muckd_{version}_amd64.deb"))
        return inside

    def does(self, *words, typed=""):
        status, said = self.root.run(*words, typed=typed)
        if status:
            raise AssertionError(f"{words}: {status}: {said}")
        return said

    def as_keeper(self, command, typed=""):
        """What the user of the worlds is shown."""
        return self.does("runuser", "-u", "muckd", "--", "sh", "-c", "cd /var/lib/muckd && " + command, typed=typed)

    def has(self, command):
        return self.root.run("sh", "-c", command)[0] == 0


def installed(folder):
    """Installed, used, installed anew beside a server that runs, removed, and purged: nothing of a world goes by that."""
    if not can_build():
        return
    with Root(folder) as root:
        if not root:
            print("skipped installed: a root of its own wants root, and an overlay of file systems")
            return
        it = Machine(root, folder)
        old, new = it.package("1.0"), it.package("2.0")
        it.does(*DPKG, "--install", old)
        same("folders", it.does("stat", "-c", "%U %a %n", "/var/lib/muckd", "/var/backups/muckd"), "muckd 700 /var/lib/muckd\nmuckd 700 /var/backups/muckd\n")
        holds("its words", it.does("muckd", "--version"), "(/usr/lib/muckd/dist/muckd)\n")
        # what docs/PUBLIC.md says to type
        it.as_keeper("muckd run town </dev/null")
        holds("a first password", it.as_keeper("muckd-store password town One", "a word of mine\n"), "One (#1) has another password")
        port = str(free_port())
        server = root.start("runuser", "-u", "muckd", "--", "sh", "-c", f"cd /var/lib/muckd && exec muckd serve town {port} 1")
        holds("a probe", it.does("muckd-keep", "--port", port, "--wait", "300", "--patience", "300", "--store", "/var/lib/muckd/town", "probe"), "up=1 players=0")
        # another package comes while it runs
        it.does(*DPKG, "--install", new)
        same("it is installed", it.does("dpkg-query", "-W", "-f", "${Version} ${Status}", "muckd"), "2.0 install ok installed")
        it.as_keeper("umask 077; echo a word of mine > one")
        it.does("runuser", "-u", "muckd", "--", "muckd-stop", "--port", port, "--wait", "300", "--password-file", "/var/lib/muckd/one")
        same("the server's end", server.wait(PATIENCE), 0)
        before = it.does("sha256sum", "/var/lib/muckd/town.a", "/var/lib/muckd/town.b")
        it.does(*DPKG, "--remove", "muckd")
        assert not it.has("test -e /usr/bin/muckd -o -e /usr/lib/muckd/dist -o -e /usr/lib/systemd/system/muckd.service"), "files of the package are left"
        said = it.does(*DPKG, "--purge", "muckd")
        holds("what is said", said, "muckd: kept, with the user muckd, since they hold what is yours: /var/lib/muckd\n")
        same("the world", it.does("sha256sum", "/var/lib/muckd/town.a", "/var/lib/muckd/town.b"), before)
        holds("its user", it.does("stat", "-c", "%U", "/var/lib/muckd/town.a"), "muckd\n")
        # it comes back, and the world is there
        it.does(*DPKG, "--install", new)
        holds("the world", it.does("muckd-store", "list", "/var/lib/muckd/town"), "#1 player W")
        it.does("sh", "-c", "rm /var/lib/muckd/*")
        same("nothing is said", [line for line in it.does(*DPKG, "--purge", "muckd").splitlines() if line.startswith("muckd:")], [])
        assert not it.has("test -e /var/lib/muckd -o -e /var/backups/muckd -o -e /etc/muckd"), "folders are left"
        assert not it.has("id muckd"), "the user is left"
    assert not os.path.exists("/usr/lib/muckd"), "the machine was changed"


SYSTEMCTL = """#!/bin/sh
echo "$@" $(test -e /usr/bin/muckd && echo there) >> /var/tmp/told
"""


def what_systemd_is_told(folder):
    """An installation starts nothing; an upgrade ends nothing; a removal stops the server while its files are there."""
    if not can_build():
        return
    with Root(folder) as root:
        if not root:
            print("skipped what_systemd_is_told: a root of its own wants root, and an overlay of file systems")
            return
        it = Machine(root, folder)
        old, new = it.package("1.0"), it.package("2.0")
        it.does("sh", "-c", "mkdir -p /run/systemd/system /usr/local/sbin && cat > /usr/local/sbin/systemctl && chmod 755 /usr/local/sbin/systemctl", typed=SYSTEMCTL)
        for words, wanted in ((("--install", old), ["daemon-reload there", "--quiet is-active muckd.service there"]), (("--install", new), ["daemon-reload there"] * 2 + ["--quiet is-active muckd.service there"])):
            said = it.does(*DPKG, *words)
            holds("what is said", said, "muckd: the server goes on with the program from before, until: systemctl restart muckd\n")
            same(words, it.does("cat", "/var/tmp/told").splitlines(), wanted)
            it.does("rm", "/var/tmp/told")
        it.does(*DPKG, "--remove", "muckd")
        told = it.does("cat", "/var/tmp/told").splitlines()
        same("a removal", sorted(told), sorted([f"--quiet disable --now {name} there" for name in ["muckd.service", *os.listdir(os.path.join(TOP, "contrib/systemd"))]] + ["daemon-reload"]))
        same("its end", told[-1], "daemon-reload")
        # where the server can't be stopped, nothing is removed
        it.does(*DPKG, "--install", new)
        it.does("sh", "-c", "printf '#!/bin/sh\\nexit 1\\n' > /usr/local/sbin/systemctl")
        status, _ = root.run(*DPKG, "--remove", "muckd")
        assert status and it.has("test -e /usr/bin/muckd"), status


TESTS = [what_is_in_it, the_same_bytes, refusals, by_git, of_these_sources, installed, what_systemd_is_told]

"""A root of its own in which a test may install what it likes: what is there is seen, and what is changed lies in a folder that goes."""
import os
import subprocess

from common import PATIENCE, TOP

# where the repository stands in such a root, wherever it lies on this machine
SOURCES = "/mnt/sources"

PLAIN = {"PATH": "/usr/local/sbin:/usr/local/bin:/usr/sbin:/usr/bin:/sbin:/bin", "LC_ALL": "C.UTF-8", "HOME": "/", "DEBIAN_FRONTEND": "noninteractive"}
MOUNTS = """
set -e
mount -t overlay overlay -o lowerdir=/,upperdir="$0/upper",workdir="$0/work" "$0/root"
mount -t proc proc "$0/root/proc"
mount --rbind /dev "$0/root/dev"
mount -t tmpfs tmpfs "$0/root/run"
mount -t tmpfs tmpfs "$0/root/tmp"
mkdir -p "$0/root$2"
mount --bind "$1" "$0/root$2"
echo ready
exec sleep infinity
"""


class Root:
    """Its processes are its own too, and end with the block."""

    def __init__(self, folder):
        self.folder = folder
        for name in ("upper", "work", "root"):
            os.mkdir(os.path.join(folder, name))

    def __enter__(self):
        """None, where this machine or this user can't have one."""
        self.holder = subprocess.Popen(["unshare", "--mount", "--pid", "--fork", "--kill-child", "sh", "-c", MOUNTS, self.folder, TOP, SOURCES], stdin=subprocess.DEVNULL, stdout=subprocess.PIPE, stderr=subprocess.PIPE)
        if self.holder.stdout.readline() != b"ready\n":
            return None
        with open(f"/proc/{self.holder.pid}/task/{self.holder.pid}/children", encoding="ascii") as file:
            inside = file.read().split()[0]
        self.enter = ["nsenter", "--target", inside, "--mount", "--pid", "chroot", os.path.join(self.folder, "root")]
        return self

    def __exit__(self, *_):
        self.holder.kill()
        self.holder.wait(PATIENCE)
        self.holder.stdout.close()
        self.holder.stderr.close()

    def start(self, *words, **streams):
        """A process in it."""
        return subprocess.Popen([*self.enter, *words], env=PLAIN, **{"stdin": subprocess.DEVNULL, "stdout": subprocess.DEVNULL, "stderr": subprocess.DEVNULL, **streams})

    def run(self, *words, typed=""):
        """Status, and all that is printed, of a command in it."""
        process = self.start(*words, stdin=subprocess.PIPE, stdout=subprocess.PIPE, stderr=subprocess.STDOUT)
        out, _ = process.communicate(typed if isinstance(typed, bytes) else typed.encode(), PATIENCE)
        return process.returncode, out.decode()

"""contrib/muckd.nft: in a network of its own, beside the real program."""
import shutil
import subprocess
import sys

from common import BINARY, PATIENCE, TOP, same

# loaded twice; then so many links are made, one is closed, and one more is made
LINKS = r"""
import socket, sys, time

def link():
    try:
        one = socket.create_connection(("127.0.0.1", 4201), 60)
        held.append(one)
        return one.recv(4).decode()
    except OSError as why:
        return type(why).__name__

held, end = [], time.monotonic() + 300
while link() != "Use:" and time.monotonic() < end:
    time.sleep(0.1)
print([link() for _ in range(5)])
held.pop(0).close()
while (said := link()) != "Use:" and time.monotonic() < end:
    time.sleep(0.1)
print(said, link())
"""
NETWORK = """
set -e
ip link set lo up
nft -f "$1/contrib/muckd.nft"
"$2" serve world 4201 1 &
nft -f "$1/contrib/muckd.nft"
"$3" -c "$4"
"""


def a_firewall(folder):
    """Each address has four links, and a fifth one where one of them has gone."""
    own = ["unshare", "--net", "--pid", "--fork", "--kill-child"]
    if not shutil.which("nft") or subprocess.run([*own, "nft", "list", "tables"], capture_output=True, timeout=PATIENCE).returncode:
        print("skipped a_firewall: it wants nft, and root for a network of its own")
        return
    done = subprocess.run([*own, "sh", "-c", NETWORK, "sh", TOP, BINARY, sys.executable, LINKS], cwd=folder, capture_output=True, text=True, timeout=PATIENCE)
    same("links", (done.returncode, done.stderr, done.stdout.splitlines()), (0, "", [str(["Use:"] * 3 + ["ConnectionRefusedError"] * 2), "Use: ConnectionRefusedError"]))


TESTS = [a_firewall]

"""docs/KEEPER.md, docs/STARTER.md and docs/PUBLIC.md: their examples, in their order, with a server on a free port in place of 4201."""
import os
import re
import shutil
import signal
import subprocess

from common import BINARY, PATIENCE, PROGRAM, TOP, free_port, same


def text_of(page):
    with open(os.path.join(TOP, page), encoding="utf-8") as file:
        return file.read()


def examples(page):
    """The commands of a page with what they show."""
    lines = [line for block in re.findall(r"```shell\n(.*?)```", text_of(page), re.S) for line in block.splitlines()]
    found = []
    for line in lines:
        if line.startswith("$ "):
            found.append((line[2:], []))
        else:
            found[-1][1].append(line)
    return found


def plain(text):
    """What differs from run to run, as the manual writes it."""
    text = re.sub(r"\d{8}-\d{6}", "DATE-TIME", text)
    text = re.sub(r"(?m)^(Ann +)\ds$", r"\g<1>0s", text)
    return re.sub(r"(answer_ms|dump_age|store_bytes)=[\d.]+", r"\1=N", text)


def of_any_number(text):
    """The same without the numbers of dumps: where the machine is slow, a server makes some by itself."""
    return re.sub(r"dump \d+", "dump N", plain(text))


def run_page(folder, page, plain, least=30):
    """Runs the examples of a page, which has so many at least; each server that they start ends with 0."""
    port, servers = str(free_port()), []
    for name in ("contrib", "demos", "tests", "docs"):
        os.symlink(os.path.join(TOP, name), os.path.join(folder, name))
    os.mkdir(os.path.join(folder, "bin"))
    os.symlink(PROGRAM, os.path.join(folder, "bin/muckd"))
    rows = examples(page)
    assert len(rows) >= least, len(rows)
    try:
        for command, want in rows:
            command = command.replace("4201", port)
            if command.endswith(" &"):
                servers.append(subprocess.Popen(command[:-2].split(), cwd=folder, stdin=subprocess.DEVNULL, stdout=subprocess.DEVNULL, stderr=subprocess.DEVNULL))
                continue
            done = subprocess.run(["bash", "-c", "umask 022; " + command], cwd=folder, stdin=subprocess.DEVNULL, stdout=subprocess.PIPE, stderr=subprocess.STDOUT, timeout=PATIENCE, env={**os.environ, "MUCKD": PROGRAM})
            same(command, plain(done.stdout.decode()).splitlines(), [plain(line) for line in want])
        assert servers
        same("the servers' ends", [it.wait(PATIENCE) for it in servers], [0] * len(servers))
    finally:
        for it in servers:
            if it.poll() is None:
                it.send_signal(signal.SIGKILL)
                it.wait()


def the_manual(folder):
    run_page(folder, "docs/KEEPER.md", plain)


def the_manual_of_the_starter(folder):
    run_page(folder, "docs/STARTER.md", plain, 12)


def going_public(folder):
    # the program that an upgrade brings
    os.makedirs(os.path.join(folder, "new/bin"))
    shutil.copy(BINARY, os.path.join(folder, "new/bin/muckd"))
    run_page(folder, "docs/PUBLIC.md", of_any_number)


def headings(page):
    """The parts of a page of docs/, as links name them."""
    return [re.sub(r"[^\w -]", "", line.lstrip("# ").lower()).replace(" ", "-") for line in text_of(os.path.join("docs", page)).splitlines() if line.startswith("#")]


def what_they_link_to(folder):
    """The manuals name files and headings that are there."""
    for page in ("KEEPER.md", "STARTER.md"):
        text = text_of(os.path.join("docs", page))
        for name, part in set(re.findall(r"\]\(([\w./]+\.md)#?([\w-]*)\)", text)):
            assert not part or part in headings(name), (page, name, part)
        for name in set(re.findall(r"`(contrib/[\w./-]+|demos/[\w./-]+|tests/[\w./-]+)`", text)):
            assert os.path.exists(os.path.join(TOP, name.replace("NAME", "help"))), name
    for name in os.listdir(os.path.join(TOP, "contrib/systemd")):
        assert f"`{name}`" in text_of("docs/KEEPER.md"), name


def parts_that_are_linked(folder):
    """What docs/PUBLIC.md links to is there: pages, and headings in them; and so are the files of the tree that it names."""
    text = text_of("docs/PUBLIC.md")
    # the front comes with its page and its unit
    to_come = set() if os.path.exists(os.path.join(TOP, "contrib/front")) else {"contrib/front", "FRONT.md", "muckd-front.service"}
    for page, part in re.findall(r"\]\(([\w.]*)#?([\w-]*)\)", text):
        if page in to_come:
            continue
        assert not part or part in headings(page or "PUBLIC.md"), (page, part)
    for name in set(re.findall(r"(?<![\w/])contrib/[\w./-]*\w(?![\w*-])", text)) - to_come:
        assert os.path.exists(os.path.join(TOP, name)), name
    for name in set(re.findall(r"muckd-\w+\.(?:timer|service)", text)) - to_come:
        assert os.path.exists(os.path.join(TOP, "contrib/systemd", name)), name


TESTS = [the_manual, the_manual_of_the_starter, what_they_link_to, going_public, parts_that_are_linked]

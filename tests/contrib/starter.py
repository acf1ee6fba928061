"""demos/starter.muck, which is made of demos/library.muf, of the programs and topics in demos/starter, and of the tables of rules and errors in docs/:
`python3 tests/contrib/starter.py` writes it anew."""
import os
import re
import sys

HERE = os.path.dirname(os.path.realpath(__file__))
sys.dont_write_bytecode = True
sys.path[:0] = [HERE, os.path.join(HERE, "../../contrib/lib")]
import library
from muckkit import muf

TOP = os.path.join(HERE, "../..")
DEMOS = os.path.join(TOP, "demos")
LIBRARY, HALL = 2, 4
# each program with its level, and the commands that start it
PROGRAMS = (("help", "M2", ("help;man;?",)), ("ex", "M3", ("ex;@ex",)), ("who", "M3", ("who", "doing")), ("post", "M3", ("page;p", "mail")), ("chan", "M3", ("chan", "pub")))
FRONT = """\
# A world to begin with: help for players and builders, with every rule and error by its number, `ex`, a list of who is on, pages, mail, a channel, and a first room apart
# from Room Zero. docs/STARTER.md says how to begin a world with it, and what each command does. It is made of demos/library.muf, of demos/starter and of tables in docs
# (tests/contrib/starter.py writes this script). On an empty store:
#     bin/muckd run world < demos/starter.muck
open 1
send 1 connect One potrzebie
"""
TUNED = """\
# Everybody waits while a formula of a message is evaluated. So many commands are enough for most, and the worst that is known takes some hundredths of a second by them.
@tune mpi_commands=200
"""
ROOMS = """\
# The workshop: One lives there and no exit leads to it, so nobody hears what One types. The programs stand there.
@dig Workshop
@set Workshop=D
@describe Workshop=Shelves with the programs of this world. No exit leads here.
# The first room. Anyone may open exits to it, and move things there.
@dig Gatehouse
@describe Gatehouse=A wide room with benches along its walls. Type  help  to see what you can do here, and  help build  to build.\\rMake it your home by  @link me=here
@set Gatehouse=L
@set Gatehouse=J
# Room Zero: players are made there, and builders dig below it.
@set #0=L
@describe #0=Nothing is here but what hangs together the world. Type  start  to come in, or  help
@open start;begin=Gatehouse
@success start=You come in.
"""
END = """\
# Last, One goes to the workshop, and lives there.
@link me=#3
@teleport me=#3
"""


def read(*path):
    with open(os.path.join(TOP, *path), encoding="utf-8") as file:
        return file.read()


def flat(cell):
    """A cell of a table as plain text."""
    return re.sub(r"\[([^]]*)\]\([^)]*\)", r"\1", cell).replace("`", "").strip()


def rows(page, heading):
    """The rows of the first table behind a line of a page of docs/, as lists of cells."""
    text = read("docs", page).split(f"\n{heading}\n")[1]
    found = []
    for line in text.splitlines():
        if line.startswith("|"):
            found.append([flat(cell.replace("\0", "|")) for cell in line.replace("\\|", "\0").strip("|").split("|")])
        elif found:
            break
    return found[2:]


def rules():
    """The lines of help on each rule, by its topic."""
    return {rule.lower(): [f"{rule} refuses {refuses}.", f"What helps: {helps}."] for rule, refuses, helps in rows("BUILDING.md", "## Who may")}


def errors():
    """The lines of help on each error, by its topic."""
    found = {number: [f"Error {number} in line N, of the compiler: {comes}."] for number, comes in rows("MUF.md", "## Faults of the source")}
    found.update((number, [f"{number}, of a program that runs: {text}", f"It comes of {comes}."]) for number, text, comes in rows("MUF.md", "## Faults of a program"))
    found.update((number, [f"MPI error {number}, of a formula: {where}."]) for number, _, where in rows("MPI.md", "## What may be refused"))
    return found


def texts():
    """The topics of errors by what they are called, in small letters and without the dot."""
    return {text.rstrip(".").lower(): number for number, text, _ in rows("MUF.md", "## Faults of a program") if "(" not in text and text.endswith(".")}


def topics():
    """The lines of help on each topic of demos/starter/topics.txt."""
    found = {}
    for line in read("demos/starter/topics.txt").splitlines():
        if line.startswith("== "):
            found[line[3:]] = []
        else:
            list(found.values())[-1].append(line)
    return found


def program(name, level, words, number):
    """The lines that make a program, with its commands."""
    lines, _ = muf.plain(read("demos/starter", f"{name}.muf").split("\n")[:-1])
    typed = [f"# {name}", f"@program {name}", "i", *muf.with_numbers(lines, {"common": str(LIBRARY)}), ".", "c", "q", f"@set {name}=L", f"@set {name}={level}", f"@teleport {name}=Workshop"]
    return typed + [f"@open {word}=#{number}" for word in words]


def script():
    typed = [*TUNED.splitlines(), *library.typed(), *ROOMS.splitlines(), f"@teleport #{LIBRARY}=Workshop"]
    number = 6
    for name, level, words in PROGRAMS:
        typed += program(name, level, words, number)
        if name == "help":
            typed += [f"@set #{number}=_help/{topic}#/{n}:{line}" for topic, lines in {**topics(), **rules(), **errors()}.items() for n, line in enumerate(lines, 1)]
            typed += [f"@set #{number}=_text/{text}:{topic}" for text, topic in texts().items()]
        number += 1 + len(words)
    return FRONT + "".join(f"{line}\n" if line.startswith("# ") else f"send 1 {line}\n" for line in [*typed, *END.splitlines()])


if __name__ == "__main__":
    with open(os.path.join(DEMOS, "starter.muck"), "w", encoding="ascii") as file:
        file.write(script())

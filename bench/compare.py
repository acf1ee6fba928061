#!/usr/bin/env python3
"""Instructions of the processor that a line of a script takes, of two programs or more: `compare.py OLD NEW` counts them by valgrind's callgrind, so a machine that does other work makes no
difference. The programs are those of `dist/` at two commits, as `git show REV:dist/muckd >old`. Of each row the lines of a script are counted against the same script without them, and what an
empty line costs, which is the runner of scripts, is taken off. The exit status is 1 where a row of the last program takes more than 1.1 times what it takes of the first."""
import os
import re
import subprocess
import sys
import tempfile

MOST = 1.1
LOGIN = "open 1\nsend 1 connect One potrzebie\n"


def typed(*words):
    return "".join(f"send 1 {line}\n" for line in ("@program it", "i", *words, ".", "c", "q"))


def sent(*lines):
    return "".join(f"send 1 {line}\n" for line in lines)


RUN = sent("@run it=")
DOORS = sent("@dig Den", "@open in=#2", "@success in=You go in.", "@osuccess in=goes in.", "in", "@open out=#0", "@success out=You go out.")
ROWS = [
    # what is counted, what comes before, the lines, how often (a program takes at most 80,000 units at once, since older ones end there)
    ("5,000 turns of an empty loop", typed(": main pop 1 5000 1 for pop repeat ;"), RUN, 3),
    ("5,000 turns of `dup 1 + swap pop`", typed(": main pop 0 1 5000 1 for pop dup 1 + swap pop repeat ;"), RUN, 3),
    ("5,000 calls of a word", typed(": f 1 pop ;", ": main pop 1 5000 1 for pop f repeat ;"), RUN, 3),
    ("5,000 STRCATs", typed(': main pop 1 5000 1 for pop "ab" "cd" strcat pop repeat ;'), RUN, 3),
    ("2,000 NOTIFYs", typed(': main pop 1 2000 1 for pop me @ "hello" notify repeat ;'), RUN, 3),
    ("say", "", sent('"hello there'), 2000),
    ("whisper", "", sent("whisper me=hi"), 2000),
    ("look", "", sent("look"), 2000),
    ("look among 20 things", "".join(sent(f"@create t{n}", f"drop t{n}") for n in range(20)), sent("look"), 500),
    ("a walk with messages, and back", DOORS, sent("out", "in"), 500),
    ("@name", sent("@create ball"), sent("@name ball=ball"), 1500),
    ("@describe", sent("@create ball"), sent("@describe ball=It is round."), 1500),
]


def instructions(program, script):
    with tempfile.TemporaryDirectory() as folder:
        done = subprocess.run(["valgrind", "--tool=callgrind", "--callgrind-out-file=/dev/null", program, "run", "w"], cwd=folder, input=script.encode(), stdout=subprocess.DEVNULL,
                              stderr=subprocess.PIPE, check=True)
    return int(re.search(rb"Collected : (\d+)", done.stderr)[1])


def each(program, before, lines, count):
    return (instructions(program, LOGIN + before + lines * count) - instructions(program, LOGIN + before)) / count


def main(words):
    programs = [os.path.abspath(word) for word in words]
    if len(programs) < 2:
        print(__doc__, file=sys.stderr)
        return 2
    empty = [each(program, "", "\n", 2000) for program in programs]
    print("an empty line of a script:", " ".join(f"{it:,.0f}" for it in empty))
    slower = False
    for what, before, lines, count in ROWS:
        took = [each(program, before, lines, count) - one * lines.count("\n") for program, one in zip(programs, empty)]
        slower |= took[-1] > MOST * took[0]
        print(f"{what}:", " ".join(f"{it:,.0f}" for it in took), "times", " ".join(f"{it / took[0]:.2f}" for it in took[1:]), flush=True)
    return 1 if slower else 0


sys.exit(main(sys.argv[1:]))

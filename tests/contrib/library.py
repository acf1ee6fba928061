"""demos/library.muck, which is made of demos/library.muf: `python3 tests/contrib/library.py` writes it anew."""
import os
import sys

HERE = os.path.dirname(os.path.realpath(__file__))
sys.dont_write_bytecode = True
sys.path.insert(0, os.path.join(HERE, "../../contrib/lib"))
from muckkit import muf

DEMOS = os.path.join(HERE, "../../demos")
FRONT = """\
# One types in a library of words that Fuzzball has and this server hasn't, and a program that takes them by `$include`. docs/MUF.md has the table of these words. It is made of
# demos/library.muf, which contrib/put types into a world that is there (tests/contrib/library.py writes this script). What the server writes of it is its transcript:
#     bin/muckd run world < demos/library.muck
open 1
send 1 connect One potrzebie
"""
USE = """\
# Fruits in order, what is here, how long a week is, and a date.
@program roll
i
$include #2
: main pop
  { "pear" "Fig" "apple" "banana" }list sorttype_nocase_ascend array_sort ", " array_join tell
  loc @ contents_array foreach swap pop name 12 strleft "|" strcat tell repeat
  { "A week has " 604800 span ", an hour " 3600 span "." }join tell
  "%A, %e %B %Y, %H:%M" 1000000000 timefmt tell
  "in all, this is #" prog intostr strcat otell
  { "a" 1 "b" 2 }dict "b" [] intostr tell
;
.
c
q
@run roll=
"""


def typed():
    """The lines that make the library, which is to be #2."""
    with open(os.path.join(DEMOS, "library.muf"), encoding="ascii") as file:
        lines, lent = muf.plain(file.read().split("\n")[:-1])
    found = ["@program lib-common", "i", *lines, ".", "c", "q", "@set lib-common=L"]
    return found + [f"@set lib-common=_defs/{name}:" + (f'#2 "{name}" call' if text is None else text) for name, text in lent.items()]


def script():
    return FRONT + "".join(line + "\n" if line.startswith("# ") else f"send 1 {line}\n" for line in [*typed(), *USE.splitlines()])


if __name__ == "__main__":
    with open(os.path.join(DEMOS, "library.muck"), "w", encoding="ascii") as file:
        file.write(script())

"""Compilations: `c` of the editor, on a source that is as long as one may be or nearly so. Any player of level 1 may ask for one."""
import itertools

from turns import worlds
from turns.rows import LINE, Row, program, typed

ROOM = 2000  # bytes of a line of a source that is packed full
LINES = 4000
OVER = "no parameter: in proportion to the source"
LENT = "no parameter: in proportion to the objects that lend the name"


def packed(words, lines=LINES):
    """Lines of a source that have as many of these words as there is room for."""
    line, size = [], 0
    for word in words:
        if size + len(word) + 1 > ROOM:
            yield " ".join(line)
            lines -= 1
            if lines == 0:
                return
            line, size = [], 0
        line.append(word)
        size += len(word) + 1
    if line:
        yield " ".join(line)


def named(pattern):
    return (pattern % at for at in itertools.count())


def compiled(name, source, before, over="", world=worlds.small):
    """The source, and what keeps and compiles it, less what keeps it."""
    setup = program("bench", *source, ": main 1 ;")
    return Row(f"compile: {name}", setup, typed("@edit bench", "c", "q"), LINE, before, 1, world, typed("@edit bench", "q"), over)


def rows():
    yield compiled("include of one object, 4,000 times", ["$include #4"] * LINES, 10, world=worlds.lenders)
    yield compiled("include of one object, as often as there is room", packed(itertools.repeat("$include #4")), 1500, OVER, worlds.lenders)
    yield compiled("names taken away, the first one first", [*packed(named("$define x%d $enddef"), LINES // 2), *packed(named("$undef x%d"), LINES // 2)], 100, OVER)
    yield compiled("include of two objects in turn, 2,000 times each", ["$include #4", "$include #5"] * (LINES // 2), 28, world=worlds.lenders)
    yield compiled("include and a definition in turn, 2,000 times each", ["$include #4", "$def n1 5"] * (LINES // 2), 13, world=worlds.lenders)
    lend_all = packed(f"$include #{n}" for n in range(4, 2004))
    yield compiled("looks for a name that 2,000 objects lend", [*lend_all, *packed(itertools.repeat("$ifdef n0 $endif"), LINES - 20)], None, LENT, worlds.lenders_of_one)
    yield compiled("include of one object with 40,800 definitions, 4,000 times", ["$include #4"] * LINES, 24, world=worlds.lender_of_many)
    yield compiled("words that aren't read", ["$ifdef a", *[" ".join("a" * 1000)] * LINES, "$endif"], 0.44, OVER)
    yield compiled("definitions of as many names as there is room for", packed(named("$define x%d $enddef")), 0.34, OVER)
    yield compiled("16,384 uses of a text of 1,990 bytes", ["$def t " + '"' + "a" * 1990 + '"', "$define d0 t t $enddef", *[f"$define d{n} d{n - 1} d{n - 1} $enddef" for n in range(1, 14)], ": far d13 ;"], 0.15, OVER)


ROWS = list(rows())

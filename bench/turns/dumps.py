"""Dumps of a world of 99,000 objects, of which a hundred are due, or none; and the memory of its objects."""
from turns import worlds
from turns.rows import Memory, Row, typed

HOLD = 0.0003
DUMPS = 60  # so that none begins another file
CHANGED = [10 + at * 900 for at in range(100)]


def renamed(turn):
    return typed(*(f"@name #{number}=thing {turn} {number}" for number in CHANGED))


ROUNDS = [renamed(turn) for turn in range(DUMPS)]
ASKED = typed("@dump")
ROWS = [
    Row("dump of 100 due in 99,000 objects", ASKED, [line for lines in ROUNDS for line in lines + ASKED], HOLD, 0.0036, DUMPS, worlds.things, [line for lines in ROUNDS for line in lines]),
    Row("dump of none due in 99,000 objects", ASKED, ASKED * DUMPS, HOLD, None, DUMPS, worlds.things),
    Memory("memory of a property, beside none (bytes)", worlds.things_with_a_property, worlds.things, worlds.MANY, 600, 1100),
]

"""Players by their names, among many objects and among many players."""
from turns import worlds
from turns.rows import PLAIN, SLICE, Row, section

TRIES = 2_000
TRY = 0.0001  # as many as one likes are done, one behind the other


def pmatch(where, world, before, bound):
    return section(f"pmatch {where}", bound, before, '"nobody" pmatch pop', world=world)


def tries(where, world, before):
    """Somebody tries passwords of a name that nobody has; the last line comes in."""
    last = ["send 2 connect One potrzebie"]
    return Row(f"{TRIES:,} tries of a password {where}: each", ["open 2"], ["send 2 connect Nobody secret"] * TRIES + last, TRY, before, TRIES, world, last)


ROWS = [
    pmatch("in 99,000 objects", worlds.things, 9, PLAIN),
    pmatch("among 10,000 players", worlds.players, None, SLICE),
    tries("in 99,000 objects", worlds.things, 0.0005),
    tries("among 10,000 players", worlds.players, None),
]

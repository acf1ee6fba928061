"""What makes objects and ends them, among 99,000."""
from turns import worlds
from turns.rows import LINE, PLAIN, Row, rounds_of, section, typed

ROWS = [
    section("newobject and recycle in 99,000 objects", PLAIN, 16, '#2 "x" newobject recycle', world=worlds.things),
    rounds_of("newobject in 99,000 objects: 900 of a section", PLAIN, None, 900, '#2 "x" newobject pop', world=worlds.things),
    Row("line: @recycle of one of 99,000 objects", [], typed(*(f"@recycle #{50000 + at}" for at in range(10))), LINE, None, 10, worlds.things),
    Row("line: @recycle of a room with 99,000 things", [], typed("@recycle #4"), LINE, None, 1, worlds.things),
]

"""A row of bench/turns.py, and the lines that most rows begin with."""
import dataclasses
import textwrap
from collections.abc import Callable

from turns import worlds

# What a turn may take of the processor, in seconds.
LINE = 0.1  # one line, one compilation, one unit, whoever it is of
SLICE = 1.0  # a slice of a process, which is a whole section where it is in preempt
PLAIN = 0.02  # the same of a program without PARSEMPI, MATCH among very many things, and the like


@dataclasses.dataclass(frozen=True)
class Row:
    """One turn, or several that are alike. Lines are those of a script; One has come in on connection 1 before them."""
    name: str
    setup: list  # lines that aren't measured
    turn: list  # those that are
    bound: float  # seconds of the processor that a turn may take
    before: float | None  # those that it took before its work was bounded
    turns: int = 1
    world: Callable = worlds.small  # the records of the store
    instead: list = dataclasses.field(default_factory=list)  # lines that the other run has in place of the turn
    over: str = ""  # why it's known to be over its bound, and what bounds it then


@dataclasses.dataclass(frozen=True)
class Memory:
    """The bytes by which an object of a world is larger than one of another world."""
    name: str
    world: Callable
    other: Callable
    objects: int
    bound: float
    before: float | None
    over: str = ""


def typed(*texts):
    """Lines of One."""
    return [f"send 1 {text}" for text in texts]


def program(name, *source):
    """One types in a program, which isn't built yet."""
    return typed(f"@program {name}", "i", *source, ".", "q")


def rounds_of(name, bound, before, rounds, body, first="", preempt=True, setup=(), turns=1, index="pop", **more):
    """A row of a program that does the body so many times, in preempt where it isn't said otherwise, behind what isn't measured.
    `index` is what it does with the number of the round."""
    source = f"var v var w : main atoi var! many {first} {'preempt' if preempt else ''} 1 many @ 1 for {index} {body} repeat ;"
    lines = program("bench", *textwrap.wrap(source, 1500, break_long_words=False, break_on_hyphens=False))
    none = typed("@run bench=0")
    return Row(name, [*setup, *lines, *none], typed(f"@run bench={rounds}"), bound, before, turns, instead=none, **more)


def section(name, bound, before, body, first="", **more):
    """A row of a section in preempt that is full of the body."""
    words = 20 * len(body.split()) + 5
    return rounds_of(f"{name}: a section", bound, before, 19_800 // words, " ".join([body] * 20), first, **more)

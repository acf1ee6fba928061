"""Formulas. One of a message has what fits on a line of 2,048 bytes; that of a program (PARSEMPI) may have 4,096."""
from turns import worlds
from turns.rows import LINE, SLICE, Row, rounds_of, typed

# What a formula begins with in which `&l` is a list of 4,096 items without bytes.
LIST = r"{with:l,\r,{null:{for:i,1,11,1,{set:l,{&l}{&l}}},{set:l,{&l}{midstr:{&l},1,2047}}}"


def over_list(body):
    """The body for each of the 4,096 items, as often as the commands allow."""
    return LIST + "{foreach:i,{&l}," + body + "}}"


def filtered(body):
    return LIST + "{filter:i,{&l}," + body + "}}"


def looked_at(name, formula, before, world=worlds.small, over=""):
    """One's description is the formula, and One looks at it."""
    return Row(f"look: {name}", typed(f"@describe me={formula}"), typed("look me"), LINE, before, world=world, over=over)


# So many line ends as bytes, which a program may put into a formula, and the words that make them.
ENDS = "\r" * 3840
MAKES_ENDS = '"%s" 1 8 1 for pop dup strcat repeat' % (r"\r" * 15)


def literals(text):
    """The words of a program that make a part of a formula, of texts that fit on a line."""
    parts = ['"%s"' % text[at:at + 700].replace("\\", "\\\\") for at in range(0, len(text), 700)]
    return " strcat ".join([" ".join(parts[:2]), *parts[2:]]) + " strcat" * (len(parts) > 1)


def parsed(name, formula, rounds=1, bound=LINE, over="mpi_commands"):
    """A program evaluates the formula up to the fault in which its commands end."""
    front, *behind = formula.split(ENDS)
    first = " ".join([literals(front), *[f"{MAKES_ENDS} strcat {literals(part)} strcat" for part in behind], "w !"])
    return rounds_of(f"parsempi: {name}", bound, None, rounds, '0 try me @ w @ "" 0 parsempi pop catch pop endcatch', first, over=over)


ROWS = [
    looked_at("foreach in foreach, 1,500 plain bytes", over_list("{foreach:j,{&l},%s}" % ("a" * 1500)), 13.1),
    looked_at("filter in filter, 1,500 plain bytes", filtered("{filter:j,{&l},%s}" % ("a" * 1500)), 13.3),
    looked_at("foreach in foreach, 750 times \\A", over_list("{foreach:j,{&l},%s}" % ("\\A" * 750)), 8.6),
    looked_at("foreach in foreach, 750 times \\{", over_list("{foreach:j,{&l},%s}" % ("\\{" * 750)), 8.6),
    looked_at("foreach in foreach, 1 byte", over_list("{foreach:j,{&l},a}"), 0.87),
    looked_at("parse in foreach, no byte", over_list("{parse:j,{&l},}"), 0.63),
    looked_at("null of 1,901 arguments", over_list("{null:%s}" % ("," * 1900)), 0.11),
    looked_at("add of 951 arguments", over_list("{add:%s}" % ("1," * 950)), 0.19),
    looked_at("mklist of 1,901 arguments", over_list("{mklist:%s}" % ("," * 1900)), 0.15, over="mpi_commands"),
    looked_at("or of 1,901 arguments", over_list("{or:%s}" % ("," * 1900)), 0.08),
    looked_at("subst of 4,095 bytes, each replaced", over_list("{subst:{&l},\\r,a}"), 0.13, over="mpi_commands"),
    looked_at("sublist of 4,096 items", over_list("{sublist:{&l},1,4096}"), 0.06),
    looked_at("tell of 4,095 line ends", over_list("{tell:{&l}}"), None, over="mpi_commands"),
    looked_at("ref of one of 99,000 things in the room", over_list("{ref:thing 50000}"), None, worlds.full_room, "mpi_commands"),
    looked_at("prop along 99,000 places", over_list("{prop:lantern}"), None, worlds.deep, "mpi_commands"),
    looked_at("propdir among 30,000 properties", over_list("{propdir:p}"), None, worlds.properties),
    looked_at("contents of a room of 99,000 things", over_list("{contents:here}"), None, worlds.full_room),
    parsed("foreach in foreach, 3,900 plain bytes", over_list("{foreach:j,{&l},%s}" % ("a" * 3900)), over=""),
    parsed("add of 1,951 arguments", over_list("{add:%s}" % ("1," * 1950))),
    parsed("null of 3,901 arguments", over_list("{null:%s}" % ("," * 3900))),
    parsed("mklist of 3,901 arguments", over_list("{mklist:%s}" % ("," * 3900))),
    parsed("or of 1,951 arguments, each 0", over_list("{or:%s}" % ("0," * 1950))),
    parsed("add of 1,301 arguments with a \\ each", over_list("{add:%s}" % ("\\1," * 1300))),
    parsed("mklist of 1,301 arguments with a \\ each", over_list("{mklist:%s}" % ("\\,," * 1300))),
    parsed("parse of 3,841 items, no byte", over_list("{parse:j,%s,}" % ENDS)),
    parsed("sublist of 3,841 items", over_list("{sublist:%s,1,4096}" % ENDS)),
    parsed("count of 3,841 items", over_list("{count:%s}" % ENDS)),
    parsed("lt of 3,880 bytes", over_list("{lt:%s,%s}" % ("a" * 1940, "a" * 1940))),
    parsed("nested 55 deep, null of 3,300 arguments", over_list("{null:%s{null:%s}%s" % ("{if:1," * 55, "," * 3300, "}" * 56))),
    parsed("subst of 3,900 bytes, each replaced", over_list("{subst:%s,a,b}" % ("a" * 3900))),
    parsed("a section of subst of 3,900 bytes", over_list("{subst:%s,a,b}" % ("a" * 3900)), 1100, SLICE, "mpi_commands and preempt_units"),
]

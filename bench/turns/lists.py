"""Long lists, dictionaries and texts of programs, and properties where there are many: sections in preempt, and one program of many slices."""
from turns import worlds
from turns.rows import PLAIN, SLICE, rounds_of

ITEMS = 60_000
# How each long list or dictionary, and a text of 4,096 bytes, come about in the variable v.
MADE = {
    "": "",
    "numbers": f"0 array_make 1 {ITEMS} 1 for swap array_appenditem repeat v !",
    "texts": f'0 array_make 1 {ITEMS} 1 for pop "abc" swap array_appenditem repeat v !',
    "empty texts": f'0 array_make 1 {ITEMS} 1 for pop "" swap array_appenditem repeat v !',
    "letters": '"a" 1 12 1 for pop dup strcat repeat v !',
    "names": f"0 array_make_dict v ! 1 {ITEMS} 1 for dup v @ rot intostr array_setitem v ! repeat",
}
COPIED = "preempt_units: each unit copies the list"


def section(name, made, rounds, body, before, bound=PLAIN, **more):
    """A section that does this so many times, over what stands in v, which isn't measured."""
    return rounds_of(name, bound, before, rounds, body, MADE[made], **more)


ROWS = [
    section("array_explode of 60,000, refused", "numbers", 1500, "0 try v @ array_explode catch pop endcatch", 2.5),
    section("array_keys of 60,000, refused", "numbers", 1500, "0 try v @ array_keys catch pop endcatch", 0.93),
    section("array_vals of 60,000, refused", "numbers", 1500, "0 try v @ array_vals catch pop endcatch", 1.3),
    section("explode into 4,097, refused", "letters", 1400, '0 try v @ "a" explode catch pop endcatch', 0.57),
    section("array_setitem, stored back", "numbers", 1700, "7 v @ 0 array_setitem v !", 0.01),
    section("array_appenditem, stored back", "numbers", 1700, "7 v @ array_appenditem v !", 0.01),
    section("array_delitem at the front, stored back", "numbers", 1700, "v @ 0 array_delitem v !", 0.19, SLICE),
    section("array_join of 60,000 empty texts", "empty texts", 2200, 'v @ "" array_join pop', 2.3, SLICE, over=COPIED),
    section("array_setitem, v keeps its list", "numbers", 1900, "7 v @ 0 array_setitem pop", 0.93, SLICE, over=COPIED),
    section("array_setitem, v keeps its list of texts", "texts", 1900, "7 v @ 0 array_setitem pop", 2.6, SLICE, over=COPIED),
    section("array_setitem, v keeps its dictionary", "names", 1900, '7 v @ "1" array_setitem pop', 5.6, SLICE, over=COPIED),
    section("500,000 strcat of a byte, in slices", "", 500, '"" 1 1000 1 for pop "x" strcat repeat pop', 0.84, 0.4, preempt=False),
    section("setprop beside 30,000 properties", "", 1900, 'me @ "p15000" many @ setprop', None, world=worlds.properties),
    section("nextprop among 30,000 properties", "", 2000, 'me @ "p15000" nextprop pop', None, world=worlds.properties),
]

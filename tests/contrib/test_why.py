"""contrib/why, against the program."""
from common import LOGIN, files_in, holds, put, refuses, same, script, tool, works

BROKEN = """\
send 1 @program broken
send 1 i
send 1 : main pop
send 1   1
send 1   + intostr
send 1   me @ swap notify
send 1 ;
send 1 .
send 1 c
send 1 q
"""


def a_fault_is_found(folder):
    script(folder, LOGIN + BROKEN)
    before = files_in(folder)
    put(folder, "broken.script", LOGIN + "send 1 @run broken=\n")
    out = works("why", "world", "broken.script", folder=folder)
    same("what it says", out, """\
broken(#2), line 3: Stack underflow.
     1  : main pop
     2    1
>    3    + intostr
     4    me @ swap notify
     5  ;
  unit 1 of that line, whose words are: + intostr
  on the stack, the top one last: 1
""")
    put(folder, "broken.script", "")
    same("the store", files_in(folder), {**before, "broken.script": b""})


def of_several(folder):
    script(folder, LOGIN + BROKEN)
    # one that is called, a word with a variable, and one that is caught
    put(folder, "wrong.script", LOGIN + """\
open 2
send 2 connect One potrzebie
send 1 @program other
send 1 i
send 1 : half var! n 9 n @ 0 / "x" + ;
send 1 : main pop 0 try 1 abort catch pop endcatch 7 half ;
send 1 .
send 1 q
send 1 @program caller
send 1 i
send 1 : main pop "a" #2 call ;
send 1 .
send 1 q
send 1 @run other=
send 1 @run caller=
break #3 1
send 1 say fine
""")
    out = works("why", "world", "wrong.script", folder=folder)
    first, second = out.split("\n\n")
    holds("the first", first, "other(#3), line 1: Wrong type of argument.\n", "in the variables of the word: 7")
    holds("the second", second, "broken(#2), line 3: Stack underflow.\n", "on the stack, the top one last: 1")


def what_is_refused(folder):
    script(folder, LOGIN)
    put(folder, "fine.script", LOGIN)
    put(folder, "bad.script", LOGIN + "fly away\n")
    status, out, why = tool("why", "world", "fine.script", folder=folder)
    same("none", (status, out, why), (1, "no program ended by a fault\n", ""))
    holds("a bad line", refuses("why", "world", "bad.script", folder=folder), "line 3 is none of a script")
    holds("no store", refuses("why", "town", "fine.script", folder=folder), "there is no store town")


TESTS = [a_fault_is_found, of_several, what_is_refused]

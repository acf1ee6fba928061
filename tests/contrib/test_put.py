"""contrib/put, the words of muckkit.muf, and demos/library.muf, beside the real program."""
import os
import random
import re
import subprocess

import library
from common import LOGIN, PATIENCE, TOP, Server, holds, put as write, refuses, same, script, tool, works
from muckkit import muf

HELLO = ': main "Hello, " swap strcat me @ swap notify ;\n'


def of_library():
    """The source of the library, and the names that it lends."""
    with open(os.path.join(TOP, "demos/library.muf"), encoding="ascii") as file:
        text = file.read()
    return text, {name.lower() for name in muf.plain(text.split("\n"))[1]}


def puts(server, *words):
    return ("--port", server.port, "--patience", 300, "--password", write(server.folder, "who", "One potrzebie\n"), *words)


def a_program(folder):
    with Server(folder) as server:
        write(folder, "hello.muf", HELLO)
        same("it is made", works("put", *puts(server, "hello.muf"), folder=folder), "hello is #2, which is new: 1 lines\n")
        same("it runs", server.talk("@run hello=you")[-2], "Hello, you")
        write(folder, "hello.muf", "( a note )\n\n" + HELLO.replace("Hello", "Good day"))
        same("it is put anew", works("put", *puts(server, "hello.muf", "HELLO"), folder=folder), "HELLO is #2, with another source: 3 lines\n")
        same("it runs", server.talk("@run hello=you")[-2], "Good day, you")
        same("by its number", works("put", *puts(server, "hello.muf", "#2", "--set", "L", "--set", "M2"), folder=folder), "#2 is #2, with another source: 3 lines\n")
        holds("its flags", server.talk("@find hello")[1:-1], "hello(#2FLM2)")
        # a name that is a part of another's is another program
        same("a part of a name", works("put", *puts(server, "hello.muf", "hell"), folder=folder), "hell is #3, which is new: 3 lines\n")
        server.talk("@name hell=hello")
        same("two of one name", refuses("put", *puts(server, "hello.muf"), folder=folder), "the player has several programs hello: say which, as #2")
        same("nothing is left over", [line for line in server.talk("@find put-") if line.startswith("put-")], [])


def every_length(folder):
    """A source of any length gives way to another."""
    with Server(folder) as server:
        for lines in (1, 3, 64, 700, 4096, 1):
            write(folder, "long.muf", "( line )\n" * (lines - 1) + ': main pop me @ "%d lines" notify ;\n' % lines)
            works("put", *puts(server, "long.muf"), folder=folder)
            same("it runs", server.talk("@run long=")[-2], f"{lines} lines")
        shown = server.talk("@list long")
        same("nothing of the others is left", shown[2:-1], [': main pop me @ "1 lines" notify ;'])
        write(folder, "long.muf", "( line )\n" * 4097)
        holds("too long", refuses("put", *puts(server, "long.muf"), folder=folder), "long.muf:4097: a source has 1 to 4096 lines")


ERRORS = (
    (20, ': main\n  "abc\n;\n', 2, "a text isn't closed on its line: \"abc"),
    (21, ": main\n  ( abc\n;\n", 2, "a comment isn't closed: ( abc"),
    (22, "$frob\n: main ;\n", 1, "a directive that isn't there, or lacks its name, its end or its beginning: $frob"),
    (23, "$def a b\n$def b a\n: main a ;\n", 3, "definitions that stand within themselves: : main a ;"),
    (25, ": main\n99999999999 ;\n", 2, "a number that 32 bits don't hold: 99999999999 ;"),
    (26, "$include #99\n: main ;\n", 1, "$include of what isn't there: $include #99"),
    (30, ": main\n  me @ name stripp frobnicate strip ;\n", 2, "a word that means nothing here (stripp): me @ name stripp frobnicate strip ;"),
    (31, ": main\n 1 if\n;\n", 3, "an IF isn't closed: ;"),
    (32, ": main\n then ;\n", 2, "ELSE or THEN without an IF, or a second ELSE: then ;"),
    (33, ": main\n begin ;\n", 2, "a loop isn't closed: begin ;"),
    (34, ": main\n break ;\n", 2, "BREAK, CONTINUE, WHILE, UNTIL or REPEAT outside loops: break ;"),
    (35, ": main\n catch ;\n", 2, "TRY, CATCH and ENDCATCH don't fit: catch ;"),
    (36, ": main\n", 1, "there is no word, or the last has no ;: : main"),
    (37, ": put 1 ;\n: main put ;\n", 1, "a name that is taken (put): : put 1 ;"),
    (38, ": main var ;\n", 1, "a declaration without a name, in a wrong place, or whose header isn't closed: : main var ;"),
)


def errors(folder):
    """Each is told by file, line and what it means, and the program that was there is as it was."""
    with Server(folder) as server:
        write(folder, "hello.muf", HELLO)
        works("put", *puts(server, "hello.muf"), folder=folder)
        for number, text, line, why in ERRORS:
            write(folder, "bad.muf", text)
            same(f"error {number}", refuses("put", *puts(server, "bad.muf", "hello"), folder=folder), f"bad.muf:{line}: {why}")
        refuses("put", *puts(server, "bad.muf"), folder=folder)
        same("what is there", [line for line in server.talk("@find l") if "(#" in line and "F" in line.split("(#")[1]], ["hello(#2FM3)"])
        same("it runs", server.talk("@run hello=you")[-2], "Hello, you")
        for text, why in ((b": main\n \xc3\xa9 ;\n", "bad.muf:2: it holds '\\xe9', and a source is ASCII"), (b": main\n" + b"1 " * 1100 + b";\n", "bad.muf:2: the line has 2201 bytes"), (b"", "bad.muf:1: a source has 1 to 4096 lines"),
                          (b": main ;\n$include $lib/frob\n", "bad.muf:2: the player has no program lib-frob for $lib/frob")):
            write(folder, "bad.muf", text)
            holds(text, refuses("put", *puts(server, "bad.muf", "hello"), folder=folder), why)
        write(folder, "ok.muf", HELLO)
        holds("no such number", refuses("put", *puts(server, "ok.muf", "#99"), folder=folder), "#99 can't be edited: I don't understand '#99'.")
        holds("no program", refuses("put", *puts(server, "ok.muf", "#0"), folder=folder), "#0 can't be edited: That can't be done.")
        holds("no name", refuses("put", *puts(server, "ok.muf", "*ok"), folder=folder), "a program can't have the name *ok: That's not a reasonable name.")
        server.talk("@pcreate Two=secret")
        write(folder, "two", "Two secret\n")
        holds("who may not", refuses("put", "--port", server.port, "--password", "two", "ok.muf", folder=folder), "no program can be made: Permission denied (P")
        holds("no file", refuses("put", *puts(server, "nothing.muf"), folder=folder), "nothing.muf: No such file")
        same("nothing is left over", [line for line in server.talk("@find put-") if line.startswith("put-")], [])
        write(folder, "bad.muf", "$include $lib/common\n: main\n  frob strip blub ;\n")
        same("behind an $include", refuses("put", "--lib", "common=#0", *puts(server, "bad.muf"), folder=folder), "bad.muf:3: a word that means nothing here (frob or strip or blub): frob strip blub ;")
    holds("down", refuses("put", *puts(server, "ok.muf"), folder=folder), "nothing answers")


FUZZBALL = """\
( cmd-greet   by Somebody
  ( a comment within another ) and its end )
$author Somebody (else)
$note A program in Fuzzball's manner.
$version 1.2
$lib-version 1.0
$pragma comment_recurse
$include $lib/common
$def GREETING "Hello, "
: greet[ str:who ref:to -- ] GREETING who @ strip strcat to @ swap notify ;
: main[ str:args -- ]
  { "a" "b" }list foreach swap pop me @ greet repeat
  args @ me @ greet
\t"(not a comment)" tell (caf\xe9)
;
public greet
$libdef greet
$pubdef greeting2 "Good day, "
"""


def a_source_of_fuzzball(folder):
    with Server(folder) as server:
        works("put", *puts(server, os.path.join(TOP, "demos/library.muf"), "lib-common", "--set", "L"), folder=folder)
        write(folder, "cmd-greet.muf", FUZZBALL.encode("latin-1"))
        holds("a letter", refuses("put", *puts(server, "cmd-greet.muf"), folder=folder), "cmd-greet.muf:14: it holds '\\xe9'")
        same("it is put", works("put", "--ascii", *puts(server, "cmd-greet.muf"), folder=folder), "cmd-greet is #3, which is new: 18 lines, lending 2 names\n")
        same("it runs", server.talk("@run cmd-greet= you ")[-5:-1], ["Hello, a", "Hello, b", "Hello, you", "(not a comment)"])
        write(folder, "user.muf", '$include $lib/greet\n: main pop "x" me @ greet greeting2 me @ swap notify ;\n')
        same("by a number", works("put", "--lib", "greet=#3", *puts(server, "user.muf"), folder=folder), "user is #4, which is new: 2 lines\n")
        same("it runs", server.talk("@run user=")[-3:-1], ["Hello, x", "Good day, "])
        holds("a wrong number", refuses("put", "--lib", "greet", *puts(server, "user.muf"), folder=folder), "--lib greet: it is written NAME=N")
        shown = server.talk("@list cmd-greet")
        same("each line keeps its number", shown[11], ": greet[ who to -- ] GREETING who @ strip strcat to @ swap notify ;")


# Words, and what they leave on the stack, as a text; `3 }s` is of the upper three.
VALUES = (
    ('"ab" 4 strleft "|" strcat', "ab  |"), ('"abcde" 4 strleft', "abcde"), ('"ab" 4 strright', "  ab"), ('"ab" 5 strcenter "|" strcat', " ab  |"), ('"abcdef" 4 pad "|" strcat', "abcd|"), ('"ab" 0 strleft', "ab"),
    ("7 3 zero", "007"), ("1234 3 zero", "1234"), ('"a  b     c" sms', "a b c"), ('"  a " strip', "a"), ('"Hello" "he" stringpfx', "1"), ('"Hello" "lo" stringpfx', "0"), ('"x" "" stringpfx', "1"),
    ('"12" number? " -7 " number? "+3" number? "1x" number? "" number? "-" number? 5 number? { 1 }list number? 8 }s', "1 1 1 0 0 0 0 0"), ('"#12" stod "7" stod "x" stod 3 }s', "#12 #7 #-1"),
    ('"a,b,,c" "," explode_array', "a b  c"), ('"abc" "," explode_array array_count', "1"), ('"" "," explode_array array_count', "1"),
    ("1 2 3 3 lreverse }s", "3 2 1"), ("1 2 3 -rot 3 }s", "3 1 2"), ("{ 1 2 3 }list array_reverse", "3 2 1"), ("{ }list array_reverse array_count", "0"),
    ("{ 5 6 7 8 }list 1 2 array_getrange", "6 7"), ("{ 5 6 7 8 }list 1 2 [..]", "6 7"), ("{ 5 6 7 8 }list 2 9 array_getrange", "7 8"), ("{ 5 6 7 8 }list 3 1 array_getrange array_count", "0"),
    ("{ 5 6 7 8 }list 1 2 array_delrange", "5 8"), ('{ "a" "b" "a" }list "a" array_findval', "0 2"), ('{ 1 #1 "1" }list 1 array_findval', "0"), ('{ "a" "b" "a" }list "a" array_excludeval', "1"),
    ("{ 5 6 7 }list array_last 2 }s", "2 1"), ("{ }list array_last 2 }s", "0 0"), ('{ "x" 1 "a" 2 }dict array_last 2 }s', "x 1"),
    ('{ "b" "A" "c" "a" }list sorttype_case_ascend array_sort', "A a b c"), ('{ "b" "A" "c" "a" "B" }list sorttype_nocase_ascend array_sort', "A a B b c"), ('{ "b" "A" "c" "a" }list sorttype_case_descend array_sort', "c b a A"),
    ('{ "b" "A" "C" }list sorttype_nocase_descend array_sort', "C b A"), ("{ 10 -3 7 7 }list 0 array_sort", "-3 7 7 10"), ('{ "ab" "a" 3 }list 1 array_sort', "3 a ab"), ("{ 3 1 2 }list sorttype_shuffle array_sort 0 array_sort", "1 2 3"),
    ("{ 1 2 }list { 2 3 }list array_union", "1 2 3"), ('{ "b" "a" "b" }list { "c" }list array_union', "a b c"), ("{ 1 2 3 }list { 2 }list array_diff", "1 3"), ('{ "a" #1 2 }list { #1 "x" }list array_diff', "2 a"), ("{ 1 2 3 }list { 2 3 4 }list array_intersect", "2 3"),
    ("{ 1 2 }list dup 1 [] swap array_count 2 }s", "2 2"), ("9 { 1 2 }list 0 ->[]", "9 2"), ("9 { 1 2 }list []<-", "1 2 9"), ('{ "a" 1 "b" 2 }dict "b" []', "2"), ('{ "x" 5 "y" }join', "x5y"), ('{ "I am " me @ "." }cat', "I am One."),
    ('{ "I am " me @ }list array_interpret', "I am One"), ("0 timesplit 8 }s", "0 0 0 1 1 1970 5 1"), ("951868799 timesplit 8 }s", "59 59 23 29 2 2000 3 60"), ("1709251199 timesplit 8 }s", "59 59 23 29 2 2024 5 60"),
    ("1735689599 timesplit 8 }s", "59 59 23 31 12 2024 3 366"), ("1735689600 timesplit 8 }s", "0 0 0 1 1 2025 4 1"), ("2147483647 timesplit 8 }s", "7 14 3 19 1 2038 3 19"), ("1677628800 timesplit 8 }s", "0 0 0 1 3 2023 4 60"), ("-1 timesplit 8 }s", "59 59 23 31 12 1969 4 365"),
    ('"%Y-%m-%d %H:%M:%S" 1000000000 timefmt', "2001-09-09 01:46:40"), ('"%A %a %B %b %e %y %I%p %j %% %D %T %R %F %Z %Q" 1000000000 timefmt', "Sunday Sun September Sep  9 01 01AM 252 % 09/09/01 01:46:40 01:46 2001-09-09 UTC %Q"),
    ('"%I %p" 43200 timefmt', "12 PM"), ('"%I %p" 0 timefmt', "12 AM"), ('"none" 5 timefmt', "none"), ('"%c" 1000000000 timefmt', "Sun Sep  9 01:46:40 2001"), ("45 span 59 span 3600 span 200000 span 4 }s", "45s 59s 1h 2d"), ("720 span", "12m"),
    ("1000000000 date-of 3 }s", "9 9 2001"), ("1000000000 time-of 3 }s", "40 46 1"), ("gmtoffset", "0"), ("pr_mode fg_mode bg_mode 3 }s", "0 1 2"),
    ('me @ "rl" #1 reflist_add me @ "rl" #0 reflist_add me @ "rl" #1 reflist_add me @ "rl" getpropstr', "#0 #1"), ('me @ "rl" #1 reflist_find me @ "rl" #0 reflist_find me @ "rl" #5 reflist_find 3 }s', "2 1 0"),
    ('me @ "rl" #0 reflist_del me @ "rl" getpropstr', "#1"), ('me @ "rl" #1 reflist_del me @ "rl" getprop', "0"),
    ('me @ "list" { "x" "y" "z" }list array_put_proplist me @ "list" array_get_proplist', "x y z"), ('me @ "list#" getpropval', "3"), ('me @ "nolist" array_get_proplist array_count', "0"),
    ('me @ "A text." setdesc me @ desc', "A text."), ('me @ "s" setsucc me @ "o" setosucc me @ "f" setfail me @ "g" setofail me @ "d" setdrop me @ "e" setodrop me @ succ me @ osucc me @ fail me @ ofail me @ drop me @ odrop 6 }s', "s o f g d e"),
    ("me @ truename", "One"), ("#0 contents_array", "#1"), ("me @ contents_array", "#3 #2"), ("#0 exits_array array_count", "0"), ("online_array", "#1"), ("me @ #0 locked?", "0"), ('#0 "!me" setlockstr pop me @ #0 locked?', "1"), ('#0 "" setlockstr', "1"),
    ('me @ "p" "{name:me}, {&how}" setprop me @ "p" "how" 0 parseprop', "One, how"),
)


def the_library(folder):
    """Each word of the library gives what it should."""
    with Server(folder) as server:
        out = works("put", *puts(server, os.path.join(TOP, "demos/library.muf"), "lib-common", "--set", "L"), folder=folder)
        lent = of_library()[1]
        same("how many it lends", out, f"lib-common is #2, which is new: 222 lines, lending {len(lent)} names\n")
        front = ["$include $lib/common", "$def }s array_make as-text", ": as-text ( x -- s ) dup string? if exit then dup array? if 0 array_make swap foreach swap pop dup string? over dbref? or not if intostr then swap []<- repeat",
                 '  " " array_join exit then dup dbref? if intostr "#" swap strcat exit then intostr ;']
        words = [f": w{n} {row[0]} as-text tell ;" for n, row in enumerate(VALUES)]
        write(folder, "check.muf", "\n".join([*front, *words, ": main pop", *(f'  0 try w{n} catch "fault: " swap strcat tell endcatch' for n in range(len(VALUES))), ";"]) + "\n")
        works("put", *puts(server, "check.muf"), folder=folder)
        seen = server.talk("@run check=")[-1 - len(VALUES):-1]
        wrong = [(row[0], got, row[1]) for row, got in zip(VALUES, seen) if got != row[1]]
        same("values", wrong, [])
        used = {word for row in VALUES for _, word in muf.tokens(row[0])}
        same("words that no row tries", sorted(lent - used), sorted("}array }tell array_notify date notify_except otell ref-place ref-with ref-without tell time".split()))
        # those that talk, and those that tell the time
        write(folder, "talk.muf", '$include $lib/common\n: main pop { "a" "b" }tell { "x" "y" }array { me @ }list array_notify "others" otell loc @ me @ "not me" notify_except date 2000 > swap 13 < and swap 32 < and time 24 < swap 60 < and swap 60 < and and intostr tell ;\n')
        works("put", *puts(server, "talk.muf"), folder=folder)
        same("talk", server.talk("@run talk=")[-6:-1], ["a", "b", "x", "y", "1"])


def no_right_is_lent(folder):
    """A program of a low level does no more by the library than by itself: its words that are called read and change nothing but the stack."""
    text = of_library()[0]
    code = text[:text.index(": main pop")]
    reaching = set("getprop getpropstr getpropval setprop addprop remove_prop propdir? nextprop envprop envpropstr parsempi notify notify_exclude online name owner location contents exits next getlink mlevel getlockstr unparseobj moveto "
                   "setlink setown setname set setlockstr newroom newobject newexit recycle kill fork queue event_send conboot descriptors condbref match pmatch parselock testlock controls flag? call me loc trigger command".split())
    same("words that reach the world", sorted({word for _, word in muf.tokens(code)} & reaching), [])
    assert text.count("setprop") > 5


def the_script_of_the_library(folder):
    with open(os.path.join(TOP, "demos/library.muck"), encoding="ascii") as file:
        same("demos/library.muck is made of demos/library.muf", file.read(), library.script())
    out = script(folder, library.script())
    holds("it runs", out, "1< Compiler done.\n", "1< apple, banana, Fig, pear\n", "1< A week has 7d, an hour 1h.\n", "1< Sunday,  9 September 2001, 01:46\n")
    same("no error", re.findall(r"Error|Huh|Permission|That can't", out), [])


def what_a_signal_ends(folder):
    """Wherever the typing is ended by a signal no program is left over, and the one that was there is as it was."""
    with Server(folder) as server:
        write(folder, "long.muf", HELLO)
        works("put", *puts(server, "long.muf"), folder=folder)
        write(folder, "long.muf", ("( " + "line " * 390 + ")\n") * 4000 + HELLO.replace("Hello", "Good day"))
        ended = 0
        for _ in range(4):
            one = subprocess.Popen([os.path.join(TOP, "contrib/put"), *map(str, puts(server, "long.muf"))], cwd=folder, stdout=subprocess.PIPE, stderr=subprocess.PIPE)
            while one.poll() is None and not any(line.startswith("put-") for line in server.talk("@find put-")):
                pass
            one.terminate()
            out, why = one.communicate(timeout=PATIENCE)
            ended += one.returncode == 1
            if one.returncode:
                same("what is said", (one.returncode, out, why), (1, b"", b"put: interrupted\n"))
            same("nothing is left over", [line for line in server.talk("@find put-") if line.startswith("put-")], [])
        same("it runs", server.talk("@run long=you")[-2], "Hello, you" if ended == 4 else "Good day, you")


PLAIN = (
    (["$note sad :-( and ( this", '$author me "x', ": main ( x ( y ) -- ) pop ;"], ["( $note sad :- and  this )", '( $author me "x )', ": main ( x [ y ] -- ) pop ;"], {}),
    (["( its head:", "$author x", "  $note y (z)", ")", ": f[ str:a", '   int:b? -- str:c ] ": a[str:b]" ;'], ["( its head:", "$author x", "  $note y [z]", ")", ": f[ a", '   b? -- str:c ] ": a[str:b]" ;'], {}),
    (["$libdef old", "$pubdef :", "$libdef f $libdef \\g : h ;", '$pubdef k "(" x', "$pubdef empty", "$notes x"], ["( $libdef old )", "( $pubdef : )", "( $libdef f ) ( $libdef \\g ) : h ;", '( $pubdef k "" x )', "( $pubdef empty )", "$notes x"],
     {"f": None, "g": None, "k": '"(" x', "empty": ""}),
    ([": a[ str:b] ;", ": c[ ] str:d ;", ": e", "[ str:x ]", ":", "f[", "int:y", "]"], [": a[ b] ;", ": c[ ] str:d ;", ": e", "[ str:x ]", ":", "f[", "y", "]"], {}),
)


def what_is_written_otherwise(folder):
    """Notes, lending, types and comments, wherever they stand; each line keeps its number."""
    for lines, want, lent in PLAIN:
        same(lines, muf.plain(lines), (want, lent))
    draw = random.Random(5)
    for _ in range(3000):
        lines = "".join(draw.choice(("(", ")", '"', "\\", "\n", " ", ":", "[", "]", "$note", "$libdef", "$pubdef ", "str:a", "--", "x", "$author ")) for _ in range(draw.randrange(20))).split("\n")
        same(lines, len(muf.plain(lines)[0]), len(lines))


def before_it_connects(folder):
    """What is wrong with the words or the file is told with the line, and no server is asked."""
    where = ("--port", 1, "--password", "nobody")
    for text, why in ((b": main ;\n$libdef a:b\n", "bad.muf:2: a:b can't be lent: a path holds byte 58"), (b"$pubdef a//b x\n", "bad.muf:1: a//b can't be lent: a path has up to 16 parts"), (b"\n\n$pubdef x " + b"y " * 1020 + b"\n", "bad.muf:3: x can't be lent: its text is too long"),
                      (b"$pubdef " + b"x" * 123 + b" 1\n", "can't be lent: a path has 129 bytes"), (b"\xef\xbb\xbf: main ;\n", "bad.muf:1: it holds '\\ufeff'"), (b": main\n\x01 ;\n", "bad.muf:2: it holds '\\x01'")):
        write(folder, "bad.muf", text)
        holds(text, refuses("put", *where, "bad.muf", folder=folder), why)
    for word in ("frob", "M4", "Y", "", "LM2"):
        status, out, why = tool("put", *where, "--set", word, "bad.muf", folder=folder)
        same(word, (status, out, f"argument --set: invalid flag value: '{word}'" in why), (1, "", True))


def the_words_of_this_server(folder):
    """What muckkit.muf takes for a word the compiler takes for one, and the manual has it."""
    words = sorted(muf.PRIMITIVES)
    same("how many", len(words), 168)
    lines = [": main 0 if"] + ["  " + " ".join(words[n:n + 20]) for n in range(0, 168, 20)] + ["  me loc trigger command", "then ;"]
    said = script(folder, LOGIN + "send 1 @program all\nsend 1 i\n" + "".join(f"send 1 {line}\n" for line in lines) + "send 1 .\nsend 1 c\n")
    holds("they compile", said, "1< Compiler done.\n")
    with open(os.path.join(TOP, "docs/MUF.md"), encoding="utf-8") as file:
        manual = file.read()
    same("the manual has them", sorted(word for word in words if f"`{word.upper()}`" not in manual), [])
    same("words that aren't there", muf.unknown([": main dup frob 1.5 .tell 'x fmtstring #12 12 \"frob\" ( frob ) me @ 'main ;"]), {"frob": 1, "1.5": 1, ".tell": 1, "'x": 1, "fmtstring": 1})
    for before, after in (("( a ( b ) c ) d", "( a [ b ] c ) d"), ("( a ( b ) c", "( a [ b ) c"), ('"( a" ( b (c) "d ) e" ) f', '"( a" ( b [c] "d ) e" ) f'), ('x( ( "a ) ( b ) "(" (c(d)e)', 'x( ( "a ) ( b ) "(" (c[d]e)'), ("(\n(a)\n)\n( b", "(\n[a]\n)\n( b")):
        same("comments within comments", muf.without_nesting(before), after)
    same("what is declared", muf.unknown([": f[ a str:b -- c ] a @ b @ ;", "var x lvar y : main var! z f x @ y @ z @ 'f g ;", "public f wizcall main", "$def k frob2", "$ifdef no nothing $else k $endif"], ("g",)), {"b": 1, "frob2": 4})


def the_table_of_words(folder):
    """docs/MUF.md says of Fuzzball's words what is here: those that it says the library lends are lent, those that it says are written otherwise compile so, and none of them is a word already."""
    with open(os.path.join(TOP, "docs/MUF.md"), encoding="utf-8") as file:
        table = file.read().split("## Fuzzball's word, here\n")[1].split("\n## ")[0]
    lent = of_library()[1]
    rows = [re.fullmatch(r"\| (.*?) \| (.*) \|", line) for line in table.splitlines() if line.startswith("| `")]
    assert len(rows) > 45, len(rows)
    said, tries = set(), []
    for row in rows:
        names = [name.lower() for name in re.findall(r"`([^`]+)`", row[1])]
        said.update(names if row[2].startswith("library") else ())
        same("words that are here", [name for name in names if name in muf.PRIMITIVES], [])
        if row[2].startswith("library"):
            same("lent", [name for name in names if name not in lent], [])
        else:
            tries += re.findall(r"`([^`]+)`", row[2])
            same("not lent", [name for name in names if name in lent], [])
    own = set("strleft strright strcenter pad zero sms span date-of time-of ref-with ref-without ref-place }array pr_mode fg_mode bg_mode".split())
    same("all that is lent is said", sorted(lent - said - own), [])
    lines = ["$include $lib/common"] + [f": w{n} {words} ;" for n, words in enumerate(tries)] + [": main ;"]
    with Server(folder) as server:
        works("put", *puts(server, os.path.join(TOP, "demos/library.muf"), "lib-common", "--set", "L"), folder=folder)
        write(folder, "tries.muf", "\n".join(lines) + "\n")
        works("put", *puts(server, "tries.muf"), folder=folder)


def words_that_are_wrong(folder):
    for words in ((), ("--port", "x", "f"), ("f", "n", "more")):
        status, out, why = tool("put", *words, folder=folder)
        same(words, (status, out, "usage: put" in why), (1, "", True))
    holds("--help", works("put", "--help", folder=folder), "usage: put")


TESTS = [a_program, every_length, errors, what_a_signal_ends, what_is_written_otherwise, before_it_connects, a_source_of_fuzzball, the_library, no_right_is_lent, the_script_of_the_library, the_words_of_this_server, the_table_of_words, words_that_are_wrong]

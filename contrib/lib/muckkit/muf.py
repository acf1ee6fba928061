"""Sources of MUF: their words, those that this server hasn't, and what is written otherwise for it."""
import re

PRIMITIVES = frozenset("""
    POP DUP ?DUP SWAP OVER ROT ROTATE PICK PUT NIP TUCK DUPN LDUP POPN REVERSE DEPTH { } @ ! INT? STRING? DBREF? ADDRESS? ARRAY? DICTIONARY? LOCK? EXECUTE ABORT
    + - * / % ++ -- ABS SIGN BITOR BITAND BITXOR BITSHIFT = != < > <= >= NOT AND OR XOR INT DBREF DBCMP
    STRCAT STRLEN STRCMP STRINGCMP STRNCMP STRCUT MIDSTR INSTR RINSTR INSTRING RINSTRING SPLIT RSPLIT EXPLODE SUBST TOUPPER TOLOWER STRIPLEAD STRIPTAIL ATOI INTOSTR CTOI ITOC
    ARRAY_MAKE ARRAY_MAKE_DICT ARRAY_COUNT ARRAY_GETITEM ARRAY_SETITEM ARRAY_INSERTITEM ARRAY_APPENDITEM ARRAY_DELITEM ARRAY_FIRST ARRAY_NEXT ARRAY_KEYS ARRAY_VALS ARRAY_EXPLODE ARRAY_JOIN
    GETPROP GETPROPSTR GETPROPVAL SETPROP ADDPROP REMOVE_PROP PROPDIR? NEXTPROP ENVPROP ENVPROPSTR PARSEMPI
    NOTIFY NOTIFY_EXCLUDE AWAKE? ONLINE CONCOUNT CONDBREF DESCRIPTORS DESCR CONBOOT CALL
    NAME OWNER LOCATION CONTENTS EXITS NEXT GETLINK MLEVEL GETLOCKSTR UNPARSEOBJ OK? PLAYER? THING? ROOM? EXIT? PROGRAM? FLAG? CONTROLS MATCH PMATCH PARSELOCK UNPARSELOCK TESTLOCK DBTOP
    MOVETO SETLINK SETOWN SETNAME SET SETLOCKSTR NEWROOM NEWOBJECT NEWEXIT RECYCLE
    PID ISPID? KILL FORK QUEUE SLEEP READ EVENT_SEND EVENT_WAIT EVENT_COUNT MODE SETMODE PREEMPT FOREGROUND BACKGROUND SYSTIME RANDOM PROG TRIG CALLER CMD
""".lower().split())
STRUCTURE = frozenset(": ; var lvar var! if else then begin until repeat for foreach while break continue exit try catch endcatch public wizcall me loc trigger command".split())
DIRECTIVES = frozenset("$def $define $enddef $undef $ifdef $ifndef $else $endif $include".split())
# what Fuzzball's compiler reads for people and for itself, and what would be nothing here
NOTES = "author|note|version|lib-version|pragma|doccmd|language|echo|entrypoint|cleardefs"
# error numbers of the compiler
MEANS = {20: "a text isn't closed on its line", 21: "a comment isn't closed", 22: "a directive that isn't there, or lacks its name, its end or its beginning",
         23: "definitions that stand within themselves", 24: "too many words", 25: "a number that 32 bits don't hold", 26: "$include of what isn't there",
         30: "a word that means nothing here", 31: "an IF isn't closed", 32: "ELSE or THEN without an IF, or a second ELSE", 33: "a loop isn't closed",
         34: "BREAK, CONTINUE, WHILE, UNTIL or REPEAT outside loops", 35: "TRY, CATCH and ENDCATCH don't fit", 36: "there is no word, or the last has no ;", 37: "a name that is taken",
         38: "a declaration without a name, in a wrong place, or whose header isn't closed", 39: "too many instructions, or more than 64 variables"}


def tokens(text):
    """The words of a source with the lines on which they stand; texts and comments stay out, and a text stands as `"`."""
    at, line = 0, 1
    while at < len(text):
        if text[at].isspace():
            line += text[at] == "\n"
            at += 1
        elif text[at] == "(":
            end = text.find(")", at)
            end = len(text) if end < 0 else end + 1
            line += text.count("\n", at, end)
            at = end
        elif text[at] == '"':
            found = re.compile(r'"(?:\\.|[^"\\\n])*"?').match(text, at)
            yield line, '"'
            at = found.end()
        else:
            found = re.compile(r"\S+").match(text, at)
            yield line, found[0].lower()
            at = found.end()


class Scan:
    """Reads the words of a source as the compiler does, for what they are and not for how they stand."""

    def __init__(self, text, lent):
        self.words, self.at = list(tokens(text)), 0
        self.known = set(PRIMITIVES) | STRUCTURE | set(lent)
        self.defined = set(lent)
        self.unknown, self.taken = {}, {}

    def next(self):
        self.at += 1
        return self.words[self.at - 1] if self.at <= len(self.words) else (0, "")

    def declare(self, defines=False):
        line, name = self.next()
        header = name.endswith("[") and len(name) > 1
        name = name[:-1] if header else name
        if not defines and name in self.known:
            self.taken.setdefault(line, []).append(name)
        self.known.add(name)
        if defines:
            self.defined.add(name)
        note = False
        while header and self.at < len(self.words):
            name = self.next()[1]
            if name == "]":
                break
            note = note or name == "--"
            if not note:
                self.known.add(name)

    def skip(self, line):
        """Past the part of a condition that isn't read."""
        depth = 1
        while depth and self.at < len(self.words):
            word = self.next()[1]
            depth += word in ("$ifdef", "$ifndef")
            depth -= word == "$endif" or word == "$else" and depth == 1

    def run(self):
        while self.at < len(self.words):
            line, word = self.next()
            if word in (":", "var", "lvar", "var!"):
                self.declare()
            elif word in ("$def", "$define"):
                self.declare(True)
            elif word in ("$ifdef", "$ifndef"):
                name = self.next()[1]
                if (name in self.defined) != (word == "$ifdef"):
                    self.skip(line)
            elif word == "$else":
                self.skip(line)
            elif word in ("$undef", "$include", "public", "wizcall"):
                self.next()
            elif not self.means(word):
                self.unknown.setdefault(word, line)
        return self

    def means(self, word):
        if word in self.known or word in DIRECTIVES or word == '"' or re.fullmatch(r"[+-]?\d+|#-?\d+", word):
            return True
        return word.startswith("'") and word[1:] in self.known


def unknown(lines, lent=()):
    """The words of a source that mean nothing here, each with its first line, where these names are lent."""
    return Scan("\n".join(lines), lent).run().unknown


def taken(lines, lent=()):
    """The names that a source declares and that mean something already, by line."""
    return Scan("\n".join(lines), lent).run().taken


PIECE = re.compile(r'\s+|"(?:\\.|[^"\\\n])*"?|\S+')


def comment_end(text, at):
    """Behind the bracket of a comment that begins here and may hold others; where brackets don't come out even, behind the first `)`, as any comment ends."""
    depth = 0
    for bracket in re.compile(r"[()]").finditer(text, at):
        depth += 1 if bracket[0] == "(" else -1
        if depth == 0:
            return bracket.end()
    first = text.find(")", at)
    return first + 1 if first >= 0 else len(text)


NOTE = re.compile(rf"\$(?:{NOTES})(?!\S)[^\n]*", re.I)
LIBDEF = re.compile(r"\$libdef[ \t]+\\?(\S+)", re.I)
PUBDEF = re.compile(r"\$pubdef[ \t]+\\?(\S+)[ \t]*([^\n]*)", re.I)
TYPE = re.compile(r"[\w?]+:(?=.)")


def pieces(text):
    """A source as what it consists of, in its order: comments, texts, directives for people and for lending with their words, other words, and what stands between."""
    at = 0
    while at < len(text):
        lines = NOTE, LIBDEF, PUBDEF
        found = next(filter(None, (line.match(text, at) for line in lines)), None) or PIECE.match(text, at)
        end = comment_end(text, at) if text[at] == "(" else found.end()
        yield text[at:end]
        at = end


def bracketed(comment):
    """A comment that holds comments, as one that holds square brackets."""
    return "(" + comment[1:-1].replace("(", "[").replace(")", "]") + ")" if comment.endswith(")") else comment


def without_nesting(text):
    """Comments that hold comments, as comments that hold square brackets."""
    return "".join(bracketed(piece) if piece.startswith("(") else piece for piece in pieces(text))


def lends(piece, lent):
    """Keeps what a directive lends, by name: its text, or None for a word of the program. Whether the piece is one."""
    word, text = LIBDEF.fullmatch(piece), PUBDEF.fullmatch(piece)
    if text and text[1] == ":":
        # (what was lent before is lent no more)
        lent.clear()
    elif word or text:
        lent[(word or text)[1]] = None if word else text[2].strip()
    return bool(word or text)


def plain(lines):
    """A source of Fuzzball as this server reads it, line by line: notes for people as comments, no types in headers, no comments within comments. And what it lends, by name."""
    lent, found, before, header = {}, [], "", False
    for piece in pieces("\n".join(lines)):
        if piece.startswith("("):
            piece = bracketed(piece)
        elif NOTE.fullmatch(piece) or lends(piece, lent):
            piece = "( " + re.sub(r"[()]", "", piece.strip()) + " )"
        elif not piece.isspace():
            if header:
                header = piece != "--" and not piece.endswith("]")
                piece = TYPE.sub("", piece, 1) if piece != "--" else piece
            else:
                header = before == ":" and len(piece) > 1 and piece.endswith("[")
            before = piece
        found.append(piece)
    return "".join(found).split("\n"), lent


INCLUDE = re.compile(r"^(\s*\$include\s+)\$lib/(\S+)", re.I)


def libraries(lines):
    """The names behind `$include $lib/`, each with the lines on which they stand."""
    found = {}
    for number, line in enumerate(lines, 1):
        for name in INCLUDE.findall(line):
            found.setdefault(name[1].lower(), []).append(number)
    return found


def with_numbers(lines, numbers):
    """The lines with numbers of objects in place of the names of libraries, of which all those are known."""
    return [INCLUDE.sub(lambda it: f"{it[1]}#{numbers[it[2].lower()]}" if it[2].lower() in numbers else it[0], line) for line in lines]

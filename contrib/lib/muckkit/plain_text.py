"""Texts with letters that a world hasn't, by letters that it has: each of those has one byte from 32 to 126, or is the line end, 13."""
import re
import unicodedata

NEAREST = str.maketrans({"\u201c": '"', "\u201d": '"', "\u201e": '"', "\u00ab": '"', "\u00bb": '"', "\u2018": "'", "\u2019": "'", "\u201a": "'", "\u2013": "-", "\u2014": "--", "\u2212": "-",
                         "\u2026": "...", "\u2022": "*", "\u00b7": ".", "\u00d7": "x", "\u00df": "ss", "\u00e6": "ae", "\u00c6": "AE", "\u00f8": "o", "\u00d8": "O", "\u0153": "oe", "\u0152": "OE",
                         "\u00f0": "d", "\u00d0": "D", "\u00fe": "th", "\u00de": "Th", "\u0142": "l", "\u0141": "L", "\u00a0": " ", "\u00a9": "(c)", "\u00ae": "(r)", "\u20ac": "EUR", "\u00a3": "GBP",
                         "\u00bf": "?", "\ufeff": "", "\u00a1": "!", "\t": " "})
COLOURS = re.compile("\x1b\\[[0-9;]*[A-Za-z]")


def letters(data):
    """Bytes as letters: UTF-8 where they are that, else Latin-1."""
    try:
        return data.decode()
    except UnicodeDecodeError:
        return data.decode("latin-1")


def nearest(letter):
    it = unicodedata.normalize("NFKD", letter.translate(NEAREST))
    it = "".join(one for one in it if not unicodedata.combining(one))
    return "".join(one if 32 <= ord(one) <= 126 else "?" if ord(one) > 126 else "" for one in it)


def plain(data):
    """The text as bytes that a world takes, and what was changed: pairs of what stood there and what it became."""
    if not data.translate(None, bytes([13, *range(32, 127)])):
        return data, []
    changed, found = {}, []
    for piece in re.split("(\x1b\\[[0-9;]*[A-Za-z])", letters(data)):
        if COLOURS.fullmatch(piece):
            changed["a colour"] = ""
            continue
        for letter in piece:
            if letter == "\r" or 32 <= ord(letter) <= 126:
                found.append(letter)
                continue
            it = nearest(letter)
            changed[letter] = it
            found.append(it)
    return "".join(found).encode(), list(changed.items())


def told(changed):
    """What was changed, for people."""
    return ", ".join(f"{before if before == 'a colour' else ascii(before)} became {after!r}" if after else f"{before if before == 'a colour' else ascii(before)} went" for before, after in changed)

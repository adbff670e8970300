#!/usr/bin/env python3
"""Computes the definition `reading` of crates/rules on many texts and compares it with the original Rust's answers.

    tests/definitions.py [--count N] [--seed S] [--batch B] [--jobs J] [--oracle PATH]

The oracle is the original Rust: `../shared/oracle/build DIR` builds it and prints its path, which is handed over
by --oracle or in the environment variable ORACLE.

The whole answer is written as one line: number, place, counts, every word of the stored records, how many cells each
buffer has and that the others are all 0. The prover computes that line from the definition: each text has a theorem
`answer text .. ≡ "line"`, proved by `refl`. The theorems stand in a repository of their own, in a temporary folder that is
removed at the end.

The expected line comes from the oracle. The words and refusals that the Rust doesn't have are found from the
oracle's answers on the text cut behind each token; those for limits 1 and 7 are written out. Of the diagnostic cells
all are looked at for one text in eight, else the stored ones and 20 more. All short texts, and every blank and every
edge of UTF-8 at every place, are among them from a count of 9,544 on. A text that differs is cut down to a small one
that still differs; the exit status is then 1. Of a text with hundreds of notes the prover may not tell within its limit of
steps: it is printed as NOT TOLD, and the exit status is 2.

A text with rests of whole bars (`=`), which the Rust reads otherwise, is written out for the oracle, `=3` as `-/-/-`.
That holds but for kind, length and places, where no tie waits at the `=` and the pattern has one length; elsewhere, what
differs stands in BY_HAND, and other texts are left out. Beyond the count there are rests of every form at every place
where one can stand, and one text with rests for every eight.

Groups, beams and figures that are closed in a later bar, which the Rust reads otherwise too, are taken out for the
oracle: what opens them becomes a blank, a `)` or second `!` a `?`, whose d15 stands for the d10 or d17 that is due.
Beyond the count there are the texts of OVER_BARLINES, whose diagnostics, beams, tuplets and marks are stated by hand and
must be those that the oracle's answer comes to, and one text full of groups for every eight.
"""
import argparse
import os
import random
import re
import shutil
import subprocess
import sys
import tempfile
from collections import Counter
from pathlib import Path

ROOT = Path(__file__).resolve().parent.parent

# ---- the texts

LETTERS = "ABCDEFG"
CLEFS = ["G-2", "g-2", "F-4", "C-1", "C-2", "C-3", "C-4", "C-5"]
MENSURAL = ["G+2", "g+2", "F+4", "C+1", "C+3", "C+5", "G+3", "x+y", "+++", "1+/"]
BAD_CLEFS = ["", "G", "G-", "G-3", "c-3", "C-6", "C-0", "F-3", "G2-", "---", "%G-", "G-22", "+", "C+", "/:/"]
SHARPS, FLATS = ["FCGDAEB"[:n] for n in range(8)], ["BEADGCF"[:n] for n in range(8)]
ODD_KEYS = ["x", "b", "F", "xFG", "xCF", "bEB", "bBx", "xFbB", "bBxF", "xFxC", "bBbE", "xbF", "bxF", "[xF]", "x[F]C", "xFn", "nF", "xFF", "xFCGDAEBF",
            "bBEADGCFB", "FxF", "xFCb", "bBEx", "[", "n", "xFCGF", "bBEAB", "xAbA", "xFCGDAEBFCGDAEB"]
METERS = ["c", "c/", "3/4", "4/4", "6/8", "2/2", "12/16", "1/1", "255/128", "+3/4", "3/+8", "+2/+2", "03/004"]
BAD_METERS = ["", "3", "/", "/4", "3/", "0/4", "4/0", "3/3", "256/4", "4/256", "3/255", "c.", "cc", "c//", "c/2", "3/4/2", "3//4", "++3/4", "3/4.", ".", "+/4", "3/+", "+",
              "3.5/4", "1000/4", "4/1024", "4/512"]
COUNTS = ["", "0", "1", "2", "3", "4", "5", "6", "7", "8", "9", "12", "15", "16", "17", "32", "33", "64", "65", "127", "128", "129", "130", "255", "256", "300", "1000", "003", "0000255"]
UNKNOWN = list("?zHaduewshjklmopvycX.[]|~_*&#<>\"\\`RTIVZ\x00\x01\x08\x0e\x1b\x1c\x1f\x7f")
BLANKS = [" "] * 6 + ["  ", "\t", "\n", "\r", "\r\n", "\v", "\f"]

# White_Space; what stands beside it or is taken for it; the first and last characters of each row of the standard's table; other ones
BLANK = "\t\n\v\f\r \x85\xa0\u1680\u2000\u2001\u2002\u2003\u2004\u2005\u2006\u2007\u2008\u2009\u200a\u2028\u2029\u202f\u205f\u3000"
BESIDE = "\x1c\x1f\x84\x86\x9f\xa1\u167f\u1681\u180e\u1fff\u200b\u2027\u202a\u202e\u2030\u205e\u2060\u2fff\u3001\ufeff"
EDGES = "\x7f\x80\xbf\xc0\u07ff\u0800\u0fff\u1000\ucfff\ud7ff\ue000\uffff\U00010000\U0003ffff\U00040000\U000fffff\U00100000\U0010ffff"
ACCENTED = "éüïßñç\u0301ł…\u266f\u266dあ漢\U0001d11e\U0001f3b5"
WIDE = ACCENTED * 3 + EDGES + BESIDE + BLANK[6:] * 3
# where a character can stand
AROUND = ["%s", "%sC", "C%s", "C%sD", "x%sC", "8%s6C", "'%s'C", "%%%sC", "%%G-2%sC", "%%G%s2C", "%%G-%sC", "%%é%s+üC", "%%+%s+C", "$x%sFF", "@3%s/4C", "q%sqC", "/%s/C", "(CD;%s2)",
          "@data:%sC%s", "@data:C %s", "%s@data:C", "@clef:%sG-2%s\n@data:C", "@clef:é+%s\n@data:C", "@clef:%s+x\n@data:C", "@keysig:x%sF\n@data:F", "@timesig:%s3/4%s\n@data:C",
          "@timesig:3%s/4\n@data:C", "@t%stle:x\n@data:C", "@title:%sx%s\n@data:C", "@title:é%s\n@data:C", "x%s\n@data:C", "%s%s\n@data:C", "@x:%s@data:C", "@data%s:C", "@%sdata:C"]
# bytes that begin a sequence, the second ones, what may follow
FIRST = [0x80, 0xBF, 0xC0, 0xC1, 0xC2, 0xDF, 0xE0, 0xE1, 0xEC, 0xED, 0xEE, 0xEF, 0xF0, 0xF1, 0xF3, 0xF4, 0xF5, 0xF8, 0xFE, 0xFF]
SECOND = [0x7F, 0x80, 0x8F, 0x90, 0x9F, 0xA0, 0xBF, 0xC0]
LATER = [b"", b"\x80", b"\xbf\xbf", b"\x80\x7f", b"\x80\xc0", b"\x7f\x80", b"\xbf\x80\x80"]

INCIPITS = [
    "%G-2$xFC@3/4 '4C8DE/4F+F^A/{8CDEF}(CDE)/",
    "%C-1$bBEA@c ,4G'C/8.6DEFG/4-G/2C-//",
    "%F-4@c/ 2,,C,G/4.E8F4GA/1C://:2D/",
    "$xFCG@6/8 8''E'A''C/4.E{8DC'B}/",
    "@2/4 {6CDEF}{8G''C}/!8{CDEC}!f/i/",
    "''4C+8C{6DE}/(8CDE)(4F)tG/",
    "%g-2$bB@3/8 8F/A^''C'F/qqDErC/gB4A/",
    "'4C//:D/E://F//",
    "%C-3@4/4 4(CDE;3){8FG}(6FGABC;5)/",
    "4.'C8q6D8E/n4FxFbF/xxGbbG/G",
    "8.6{CD}{EF}/t4G(-)/2.C/",
    "$bBEAD 4C^E^G^''C/'x4FF,F/F",
    "%G-2@c '2C(D)/=3/4C",
    "!4CDE!ff/!8{CD}{EF}!/f/i/",
    "4C+/C+-C/+C/C^E+C^E",
    "gC8qqDEr4F-/qGg^AB",
]
FORMS = [
    "@clef:G-2\n@keysig:xFC\n@timesig:3/4\n@data:'4C8DE/4F+FA/",
    "@data:4CDE\n@clef:C-3\n@keysig:bB\n@timesig:c/\n",
    "@clef:F-4\r\n@key:x\r\n@data: ,4C/D \r\n",
]


def octave(r):
    k = r.choice([1, 1, 1, 2, 2, 3, 4, 5, 6, 7, 8])
    return r.choice("'',") * k


def duration(r):
    return "".join(r.choice("0912486357448866") + "." * r.choice([0, 0, 0, 0, 1, 1, 2, 3, 4, 6]) for _ in range(r.choice([1, 1, 1, 2, 2, 3, 4])))


def key(r):
    kind = r.random()
    if kind < 0.45:
        sharp = r.random() < 0.5
        return "x" + r.choice(SHARPS) if sharp else "b" + r.choice(FLATS)
    if kind < 0.8:
        return r.choice(ODD_KEYS)
    return "".join(r.choice("xxbbnABCDEFG[]") for _ in range(r.randrange(8)))


def clef(r):
    return r.choice(r.choice([CLEFS, CLEFS, MENSURAL, BAD_CLEFS]))


def meter(r):
    kind = r.random()
    if kind < 0.85:
        return r.choice(METERS if kind < 0.5 else BAD_METERS)
    return "".join(r.choice("0123468/c.+/") for _ in range(r.randrange(1, 7)))


def letter(r):
    return r.choice(LETTERS)


def letters(r, most):
    return "".join(r.choice(LETTERS + "-gq") for _ in range(r.randint(0, most)))


TOKENS = {
    "letter": letter,
    "few": lambda r: r.choice("CCCDF"),
    "octave": octave,
    "duration": duration,
    "accidental": lambda r: r.choice(["x", "x", "b", "b", "n", "n", "xx", "bb", "xxx", "bbbb"]),
    "rest": lambda r: "-",
    "chord": lambda r: "^",
    "joined": lambda r: "^" + r.choice(["", "", "x", "n", "'", ","]) + letter(r),
    "late": lambda r: r.choice(["^", "x", "q", "+"]) + r.choice(["-", "/", "f", "-f", "/i", "qq", " "]) + letter(r),
    "grace": lambda r: r.choice(["g", "q", "qq", "r", "qq", "r", "qqq"]),
    "bar": lambda r: r.choice(["/", "/", "/", "//", "//:", "://", "://:", "/:", ":", "///", ":/", "//://:"]),
    "figure": lambda r: r.choice("!!!fffi"),
    "repeat": lambda r: "/i",
    "copied": lambda r: "!" + letters(r, 4) + "!" + "f" * r.randrange(3),
    "crossing": lambda r: letters(r, 3) + r.choice(["!%s!", "(%s)"]) % (letters(r, 2) + "/" + letters(r, 3)),
    "beam": lambda r: r.choice("{{}}"),
    "group": lambda r: r.choice(["(", "(", ")", ")", ";" + r.choice(COUNTS)]),
    "tuplet": lambda r: "(" + letters(r, 5) + r.choice(["", ";" + r.choice(COUNTS), ";" + r.choice("0122345")]) + ")",
    "marked": lambda r: "(" + r.choice(["C", "D", "-", "qED", "FgG"]) + "t" * r.choice([0, 1, 7, 8, 8]) + r.choice(["", "", "gA", "qB", "C"]) + ")" + "t" * r.choice([0, 0, 1, 7]),
    "chords": lambda r: letter(r) + "".join("^" + letter(r) for _ in range(r.choice([2, 5, 6, 7, 8]))),
    "tie": lambda r: "+",
    "trill": lambda r: "t",
    "clef": lambda r: "%" + clef(r),
    "key": lambda r: "$" + key(r),
    "meter": lambda r: "@" + meter(r),
    "unknown": lambda r: r.choice(UNKNOWN),
    "blank": lambda r: r.choice(BLANKS),
    "measure rest": lambda r: r.choice(["=", "=3", "=0"]),
}
# how often the kinds of tokens stand in a line; the first suits all, the others bring out one thing
MOODS = [
    dict(letter=10, octave=2, duration=3, accidental=3, rest=2, chord=2, grace=2, bar=3, figure=2, beam=2, group=3, tuplet=1, tie=2, trill=1, clef=1, key=1, meter=1, unknown=1, blank=2),
    dict(few=8, octave=3, accidental=6, bar=2, key=2, joined=2, figure=1, grace=1),
    dict(letter=6, duration=5, rest=3, grace=4, joined=2, bar=1, blank=1),
    dict(letter=8, figure=6, copied=2, crossing=1, rest=1, bar=2, repeat=2, joined=2, late=2, tie=2, trill=1, beam=1, group=1),
    dict(letter=6, group=5, tuplet=3, crossing=2, rest=1, grace=2, bar=1, trill=1, figure=1),
    dict(letter=8, beam=6, rest=2, grace=2, bar=1, figure=1, group=1),
    dict(letter=6, tie=5, trill=4, late=2, rest=3, joined=2, grace=2, bar=2, repeat=1),
    dict(letter=3, clef=3, key=3, meter=3, bar=3, rest=1, blank=1, unknown=1),
    dict(few=4, joined=6, chords=1, trill=2, bar=1, copied=1),
    dict(letter=4, trill=6, marked=2, tuplet=1, group=1, copied=1),
    dict(letter=5, bar=6, repeat=2, clef=1, rest=1),
]


def data_line(r):
    mood = dict(r.choice(MOODS + MOODS[:1] * 6))
    if r.random() < 0.02:
        mood["measure rest"] = 1
    kinds = list(mood)
    size = r.choice([2, 4, 6, 8, 10, 12, 14, 16, 20, 25])
    return "".join(TOKENS[k](r) for k in r.choices(kinds, [mood[k] for k in kinds], k=size))


def mutated(r, text):
    for _ in range(r.choice([1, 1, 2, 3, 4])):
        at = r.randrange(len(text) + 1)
        kind = r.random()
        new = TOKENS[r.choice([k for k in TOKENS if k != "measure rest"])](r)
        if kind < 0.35:
            text = text[:at] + text[at + r.randrange(1, 3):]
        elif kind < 0.7:
            text = text[:at] + new + text[at:]
        else:
            text = text[:at] + new + text[at + r.randrange(1, 4):]
    return text


def field_line(r):
    name = r.choice(["clef", "keysig", "keysig", "timesig", "other", "odd", "blank", "bare"])
    space = lambda: r.choice(["", "", "", " ", "\t", "  "])
    if name == "clef":
        value = clef(r)
    elif name == "keysig":
        value = key(r)
        if r.random() < 0.5:
            value = "".join(c + r.choice(["", "", " "]) for c in value)
    elif name == "timesig":
        value = meter(r)
    elif name == "other":
        name, value = r.choice(["key", "title", "Data", "CLEF", "a", "datas", "dat", "clefs", "Z"]), r.choice(["", "x", "G-2", "a b", ":", "@data:C"])
    elif name == "odd":
        return space() + r.choice(["hello", "@:x", "@", "@clef", "clef:G-2", "@c1:x", "@da ta:C", "@ data:C", "@@data:C", "4CDE", ":", "@data", "@clef/:G-2", "x @data:C"]) + space()
    elif name == "blank":
        return r.choice(["", "", " ", "\t \v"])
    else:
        return data_line(r)
    return space() + "@" + name + ":" + space() + value + space()


def field_form(r):
    lines = [field_line(r) for _ in range(r.choice([0, 1, 2, 3, 4, 5]))]
    for _ in range(r.choice([0, 1, 1, 1, 1, 1, 1, 1, 2, 3])):
        data = re.sub("\n", " ", data_line(r)) if r.random() < 0.9 else data_line(r)
        lines.insert(r.randrange(len(lines) + 1), r.choice(["", "", "", " ", "\t"]) + "@data:" + r.choice(["", "", " ", "\v "]) + data)
    end = r.choice(["\n", "\n", "\n", "\r\n"])
    return end.join(lines) + r.choice(["", end, end + end])


def random_text(r):
    kind = r.random()
    if kind < 0.55:
        text = data_line(r)
    elif kind < 0.77:
        text = field_form(r)
    elif kind < 0.95:
        text = mutated(r, r.choice(INCIPITS))
    elif kind < 0.99:
        text = mutated(r, r.choice(FORMS))
    else:
        text = "".join(r.choice(BLANKS + list(BLANK) + ["\ufeff", "C"]) for _ in range(r.randrange(4)))
    return spiced(r, text)


def spiced(r, text):
    """in UTF-8; half of them with other characters, put in or in the place of others; one in thirty with a byte changed, put in or left out, mostly malformed"""
    if r.random() < 1 / 2:
        for _ in range(r.choice([1, 1, 2, 3, 5])):
            at = r.randrange(len(text) + 1)
            text = text[:at] + r.choice(WIDE) * r.choice([1, 1, 1, 2, 3]) + text[at + r.choice([0, 0, 1]):]
    text = text.encode()
    if r.random() < 1 / 30:
        high = [i for i, b in enumerate(text) if b > 127] or [len(text)]
        at = r.choice(high)
        text = text[:at] + r.choice([b"", bytes([r.randrange(256)]), bytes([r.choice(FIRST)])]) + text[at + r.choice([0, 1, 1]):]
    return text


def wide_texts():
    """every blank and every edge at every place where a character can stand; sequences at the edges of the standard's table"""
    said = [a.replace("%s", c) for a in (a.replace("%%", "%") for a in AROUND) for c in BLANK + BESIDE + EDGES]
    return [t.encode() for t in said] + [b"C" + bytes([a, b]) + c for a in FIRST for b in SECOND for c in LATER] + [b"C" + bytes([a]) for a in range(256)]


# rests of whole bars, good counts and bad ones, and where one can stand
RESTS = ["=", "=1", "=2", "=3", "=02", "=0", "=00", "=1001"]
REST_AROUND = ["%s", "C%s", "%sC", "-%s-", "C/%s", "%s/C", "%s%s", "C%sD", "%s 2C", "%s.C", "4%s8C", "8.%sC", "x%sC", "xC%sC", "C^%sD", "C^E%s^G", "C+D%sE", "%s+C", "%st", "(%s)", "(C%s)", "(%sD;5)",
               "(%s;2)", "{%sC}", "{C%s}", "!%s!f", "!C%s!fD", "C!%sD!f", "%s/i", "%s/i/i", "%si", "$xF %sF", "%s$xF F", "F%s$xF/F", "%%F-4%s", "%s%%F-4C", "%%%sC", "@3/4%s/C", "g%sC", "q%sC", "qq%sCrD",
               "//:%s", "%s://:%s", "C%s//", ":%s", "é%sé?", "@data:%s", "@data: C%s?\n@title:é", "@a:%s\n@data:C", "@data:%s\n@data:C"]
# where a tie waits or the pattern is stepped: by record and word, what differs from the line written out
DURATION, DOTS, TIES = 2, 3, 4
BY_HAND = {
    b"C+=": {}, b"C+=-D": {}, b"C+=D": {(2, TIES): 2}, b"C+=2D": {(3, TIES): 2}, b"C+=/D": {(2, TIES): 2}, b"C+==D": {(3, TIES): 2}, b"C+=+D": {(2, TIES): 2}, b"C+=^D": {(2, TIES): 2}, b"C+=gD": {(2, TIES): 2},
    b"C+=D+=2D": {(2, TIES): 3, (5, TIES): 2}, b"86C=D": {(2, DURATION): 6}, b"86C=2DE": {}, b"86=CD": {(1, DURATION): 5, (2, DURATION): 6}, b"86=": {}, b"864=2qCD": {(2, DURATION): 5, (3, DURATION): 5},
    b"8.6!C=!fD": {(4, DURATION): 6, (4, DOTS): 0},
}


# groups, beams and figures over barlines: the diagnostics with their places; by record, what isn't 0 of beam, tuplet actual and mark count
BEAM, ACTUAL, MARKS = 5, 6, 8
OVER_BARLINES = {
    b"C(D/EFG)": ([(10, 8)], {}), b"(C/D)": ([(10, 5)], {}), b"(C/)": ([(10, 4)], {}), b"(C/DEF;5)": ([(10, 9)], {}), b"(C/D;2)": ([(10, 7)], {}), b"C(D/;5)": ([(10, 7)], {}), b"(C/i)": ([(10, 5)], {}),
    b"(C/D;)E": ([(12, 5), (10, 6)], {}), b"(C/D);5": ([(10, 5), (12, 6)], {}), b"(C/D)E)": ([(10, 5), (13, 7)], {}), b"(C(D/E)F)": ([(10, 7), (13, 9)], {}), b"(C/D)(E)": ([(10, 5)], {(2, MARKS): 1}),
    b"(C;5/D)(EF)": ([(10, 7)], {(2, ACTUAL): 3, (3, ACTUAL): 3}), b"(C/(DE)": ([], {(1, ACTUAL): 3, (2, ACTUAL): 3}), b"(/CDE)": ([], {(0, ACTUAL): 3, (1, ACTUAL): 3, (2, ACTUAL): 3}), b"(//:C)": ([], {(0, MARKS): 1}),
    b"C/(/D)": ([], {(1, MARKS): 1}), b"C/(/D/E)": ([(10, 8)], {}), b"(C:D)": ([(9, 3)], {(0, ACTUAL): 3, (1, ACTUAL): 3}), b"(C/Dtttttttt)": ([(10, 13)], {(1, MARKS): 8}), b"(C//:D)": ([(10, 7)], {}),
    b"{C/DE}": ([], {}), b"{C/}": ([], {}), b"{C/D}EF}": ([], {}), b"{C/D}{EF}": ([], {(2, BEAM): 1, (3, BEAM): 3}), b"{C{D/EF}GA}": ([], {}), b"{/CD}": ([], {(0, BEAM): 1, (1, BEAM): 3}),
    b"!C/!": ([(17, 4)], {}), b"!C/D!": ([(17, 5)], {}), b"!C/D!f": ([(17, 5), (18, 6)], {}), b"!C!!D/E!f": ([(17, 8)], {}), b"!C/!D!E!f": ([(17, 4)], {}), b"!C!/f": ([], {}), b"!/C!f": ([], {}), b"!C/DEF!": ([(17, 7)], {}),
    b"(=2)": ([(10, 4)], {}), b"!=2!": ([(17, 4)], {}), b"{=2CD}": ([], {}), b"{=C}": ([], {(0, BEAM): 1, (1, BEAM): 3}), b"=2(=)": ([], {(2, MARKS): 1}), b"@data:(C/D)\n@a:(": ([(2, 2), (10, 5)], {}),
    "é(C/é)".encode(): ([(15, 1), (15, 5), (10, 6)], {}), b"@data:{(!C/D!)}": ([(17, 7), (10, 8)], {}),
}


def rest_texts():
    said = [a.replace("%s", rest) for a in (a.replace("%%", "%") for a in REST_AROUND) for rest in RESTS]
    return [t.encode() for t in said] + list(BY_HAND)


def rested(r):
    """a line with rests of whole bars between its tokens"""
    share = r.choice([0.1, 0.2, 0.4])
    rest = lambda: r.choice(["", "", " 4", " 8."]) + "=" + r.choice(["", "", "1", "2", "2", "3", "4", "02", "12", "0", "1001"])
    return spiced(r, "".join((rest() if r.random() < share else "") + token for token in TOKEN.findall(data_line(r))))


def grouped(r):
    """a line full of groups, beams and figures"""
    mood = dict(letter=8, crossing=2, group=4, beam=3, figure=4, bar=4, tuplet=1, copied=1, rest=1, grace=1, joined=1, trill=1, repeat=1, blank=1)
    mood["measure rest"] = r.choice([0, 0, 1])
    kinds = list(mood)
    return spiced(r, r.choice(["", "", "@data:"]) + "".join(TOKENS[k](r) for k in r.choices(kinds, list(mood.values()), k=r.choice([6, 10, 14, 20]))))


# every text of one or two of these bytes
SHORT = "CG-^xbn',48.gqrt+!fi{}();%$@/: =\n?"


def short_texts():
    return [a.encode() for a in SHORT] + [(a + b).encode() for a in SHORT for b in SHORT] + [b""]


# more diagnostics than are stored
MANY = [b"C" + b"?" * 1030]

# ---- the data and its tokens

FIELD = re.compile("@([A-Za-z]+):(.*)", re.S)
TOKEN = re.compile(r"'+|,+|x+|b+|[0-9][0-9.]*|[;=][0-9]*|%%[^%s]{0,3}|\$[xbnA-G\[\]]*|@[0-9/c.+]*|://:|://|//:|//|qq|." % BLANK, re.S)
BARLINES = ("/", "//", "//:", "://", "://:")


def data_of(text):
    """where the data stands in the text, in characters; None: field form, no data field"""
    at, form, data = 0, False, None
    for line in text.split("\n"):
        field = FIELD.fullmatch(line.strip(BLANK))
        if field:
            form = True
            if field[1] == "data":
                value = field[2].strip(BLANK)
                start = at + line.index("@data:") + 6
                start += len(text[start:]) - len(text[start:].lstrip(BLANK)) if value else 0
                data = (start, start + len(value))
        at += len(line) + 1
    return data if form else (0, len(text))


def decoded(text):
    """the characters; None: malformed"""
    try:
        return text.decode()
    except UnicodeDecodeError:
        return None


def prefixes(text):
    """the text, its data cut behind each token"""
    text = decoded(text)
    data = None if text is None else data_of(text)
    if data is None:
        return []
    start, end = data
    return [(text[:start + token.end()] + text[end:]).encode() for token in TOKEN.finditer(text[start:end])]


def bars_of(token):
    """how many bars a rest of whole bars has; 0: it is none, or its count is bad"""
    count = int(token[1:] or 1) if token[0] == "=" else 0
    return count if count <= 1000 else 0


def has_rests(text):
    """whether a token of the data that is read is an `=` token"""
    text = decoded(text)
    data = None if text is None else data_of(text)
    return data is not None and any(token[0] == "=" for token in TOKEN.findall(text[data[0]:data[1]]))


def later(data):
    """what is closed in a later bar: by place, the size of each sign that opens or counts, and the diagnostic due at each `)` and second `!`; rests of whole bars are written out"""
    bars, chord = 0, False  # the stored ones; a `^` waits
    bar, last_bar, figure = [], [], []  # of each record, whether a letter can join it
    opened = {}  # by kind: the bar, its length at the start, the signs since none was open
    signs, closings = {}, {}
    for token in TOKEN.finditer(data):
        name, place = token[0], token.start() + 1
        kind = {")": "(", "}": "{"}.get(name, name[0])
        if name in LETTERS:
            bar += [] if chord and bar and bar[-1] else [True]
            chord = False
        elif name == "-":
            bar.append(False)
        elif name == "^":
            chord = True
        elif name in BARLINES and bar:
            bars, bar, last_bar = bars + 1, [], bar
        elif name == "f":
            bar += figure
        elif name == "i" and not bar:
            bar += last_bar
        elif name in ("(", "{") or name == "!" and kind not in opened:
            opened[kind] = bars, len(bar), opened[kind][2] + [token] if kind in opened else [token]
        elif kind == ";" and "(" in opened and name[1:] and int(name[1:]) < 256:
            opened["("][2].append(token)
        elif name in (")", "}", "!") and kind in opened:
            own, start, since = opened.pop(kind)
            if own != bars:
                signs.update((t.start() + 1, len(t[0])) for t in since)
                closings.update({place: {")": 10, "!": 17}[name]} if name != "}" else {})
            elif name == "!":
                figure = bar[start:]
    return signs, closings


def taken_out(data):
    """the data without what is closed in a later bar, and the closings; a blank at its start would be trimmed, a `}` does nothing there"""
    signs, closings = later(data)
    characters = list(data)
    for place, size in signs.items():
        characters[place - 1:place - 1 + size] = ("}" if place == 1 else " ") + " " * (size - 1)
    for place in closings:
        characters[place - 1] = "?"
    return "".join(characters), closings


def closes_later(text):
    """whether a group, beam or figure is closed in a later bar of the data that is read"""
    said, _, _ = written(text)
    return said != written_out(text)[0]


def written(text):
    """the text written out, with what is closed in a later bar taken out; the origins of its places; the closings"""
    said, origins = written_out(text)
    characters = decoded(said)
    data = None if characters is None else data_of(characters)
    if data is None:
        return said, origins, {}
    start, end = data
    rewritten, closings = taken_out(characters[start:end])
    return (characters[:start] + rewritten + characters[end:]).encode(), origins, closings


def written_out(text):
    """the text with rests of whole bars written out as rests and barlines; of each place in its data, and of the one behind, the place in the text's data and whether such a rest stands there"""
    characters = decoded(text)
    data = None if characters is None else data_of(characters)
    if data is None:
        return text, []
    start, end = data
    said, origins = "", []
    for token in TOKEN.finditer(characters[start:end]):
        place, bars = token.start() + 1, bars_of(token[0])
        said += "/".join("-" * bars) if bars else token[0]
        origins += [(place, True)] * (2 * bars - 1) if bars else [(place + i, False) for i in range(len(token[0]))]
    return (characters[:start] + said + characters[end:]).encode(), origins + [(end - start + 1, False)]


def asked(texts):
    """what the oracle is asked of the texts"""
    texts = [written(t)[0] for t in texts]
    return texts + [p for t in texts for p in prefixes(t)]


# ---- what is expected

NOTE, BAR, DIAGNOSTIC = 44, 10, 6  # words in a record
CAPACITY = 8  # pitches or marks of a note
STORED = 1024  # diagnostics
UNIT = dict(notes=NOTE, bars=BAR, figure=NOTE)


class Oracle:
    """the original's answers, each text asked once"""

    def __init__(self, path):
        self.path, self.known = path, {}

    def ask(self, texts):
        new = [t for t in dict.fromkeys(texts) if t not in self.known]
        run = subprocess.run([self.path], input="".join(t.hex() + "\n" for t in new), capture_output=True, text=True, check=True)
        lines = run.stdout.split("\n")[:-1]
        assert len(lines) == len(new), "the oracle answered %d of %d texts" % (len(lines), len(new))
        self.known.update(zip(new, lines))

    def records(self, text, kind):
        return [p[1:] for p in self.known[text].split(";")[1:] if p[0] == kind]


class Expectation:
    """what the oracle's answers on a text, as it is asked (`written`), and its prefixes say: where it can be refused, and the places of what is stored"""

    def __init__(self, text, oracle):
        self.text, self.oracle = text, oracle
        self.written, self.origins, self.closings = written(text)
        self.stops = []  # place, number, what must be lent (None: nothing helps), how many records of it
        self.places = []  # of each record: the places, written out, of the storing token, of its letters, of the token that first stored it
        self.felt = []  # the places, written out, of rests that cancel a tie or step a pattern of more than one length
        self.characters = decoded(self.written)
        assert (self.characters is None) == (oracle.known[self.written] == "err Utf8"), text
        if self.characters is None:
            self.stops = [(0, 3, None, 0)]
        elif not self.characters.strip(BLANK):
            self.stops = [(0, 4, None, 0)]
        elif data_of(self.characters) is None:
            self.stops = [(0, 5, None, 0)]
        elif self.same_form():
            self.follow()
        self.needed = {what: max([n for _, _, w, n in self.stops if w == what], default=0) for what in UNIT}

    def at(self, place):
        """the place in the text of a place written out"""
        return self.origins[place - 1][0] if place else 0

    def is_rest(self, place):
        """whether a rest of whole bars was written out there"""
        return self.origins[place - 1][1]

    def covered(self):
        return self.same_form() and self.same_rests()

    def same_rests(self):
        """whether rests of whole bars, written out, do the same"""
        return self.text in BY_HAND or not any(map(self.is_rest, self.felt))

    def same_form(self):
        """whether the data stands where it stood: a line of a bare text may become a field when a sign before it is taken out"""
        said = decoded(written_out(self.text)[0])
        return said is None or data_of(said) == data_of(self.characters)

    def follow(self):
        start, end = data_of(self.characters)
        first, last_bar, figure, mark = 0, [], [], None  # the open bar's first record, the last stored bar, the figure, the open `!`
        tie, stepped = False, False  # a tie waits; the pattern has more than one length

        def stop(number, what=None, size=0):
            self.stops.append((self.at(place), number, what, size))

        for token, cut in zip(TOKEN.finditer(self.characters[start:end]), prefixes(self.written)):
            place, name = token.start() + 1, token[0]
            notes = [n.split(",") for n in self.oracle.records(cut, "N")]
            added, opened = len(notes) - len(self.places), len(self.places) - first
            if added:
                stop(8, "notes", len(notes))
            if name == "-" and (tie or stepped):
                self.felt.append(place)
            if name[0].isdigit():
                stepped = len(name.replace(".", "")) > 1
            if name == "-" or name in LETTERS and added:
                tie = False
                self.places.append((place, [place] if name in LETTERS else [], place))
            elif name in LETTERS:
                last, letters, origin = self.places[-1]
                self.places[-1] = (last, letters + [place], origin)
            elif added:
                self.places += [(place, letters, origin) for _, letters, origin in (figure if name == "f" else last_bar)]
            elif name == "+" and opened and self.places[-1][1]:
                tie = True
            assert len(notes) == len(self.places), (self.text, place)
            if any(int(n[9]) > CAPACITY for n in notes):
                return stop(9)
            if any(int(n[7]) > CAPACITY for n in notes):
                return stop(10)
            if name == "!" and mark is None:
                mark = opened
            elif name == "!":
                figure, mark = self.places[first + mark:], None
                stop(11, "figure", len(figure))
            if name in BARLINES and opened:
                last_bar, first = self.places[first:], len(self.places)
                stop(12, "bars", len(self.oracle.records(cut, "B")))
        place = end - start + 1
        if len(self.places) > first:
            stop(12, "bars", len(self.oracle.records(self.written, "B")))
        place = 0
        if not self.places:
            stop(13)

    def refusal(self, lent):
        if lent["diagnostics"] < STORED:
            return 2, 0
        return next(((number, place) for place, number, what, size in self.stops if what is None or size > lent[what] // UNIT[what]), (0, 0))

    def stored(self):
        """what is accepted: the counts and the stored records, as in the oracle's line but with the places, without d2's key and with what rests of whole bars have"""
        notes, bars = (self.oracle.records(self.written, kind) for kind in "NB")
        found = self.found()
        line = "0,0,%d,%d,%d" % (len(notes), len(bars), len(found))
        for record, (words, (place, letters, origin)) in enumerate(zip(notes, self.places)):
            words = [str(self.at(place))] + words.split(",")
            assert len(words) == 12 + 3 * len(letters), self.text
            if self.is_rest(origin):
                words[1:4] = "4", "0", "0"
            for word in range(12):
                words[word] = str(BY_HAND.get(self.text, {}).get((record, word), words[word]))
            triples = [words[i:i + 3] for i in range(12, len(words), 3)]
            line += ";N" + ",".join(words[:12] + [w for p, three in zip(letters, triples) for w in [str(self.at(p))] + three])
        return line + "".join(";B" + b for b in bars) + "".join(";D" + d for d in found)

    def found(self):
        """the stored diagnostics; 99 is the oracle's number of d20, and its d15 at a closing that was taken out stands for d10 or d17"""
        lines = []
        for line in self.oracle.records(self.written, "D")[:STORED]:
            number, kind, place, value_kind, _, value = line.split(",")
            due = self.closings.get(int(place)) if kind == "3" else None
            assert due is None or number == "15", self.text
            if due:
                number, value_kind, value = (due, "2", b"()".hex()) if due == 10 else (due, "1", b"!".hex())
            place = str(self.at(int(place))) if kind == "3" else place
            lines.append(",".join(["20" if number == "99" else str(number), kind, place, value_kind, "", value]))
        return lines

    def as_stated(self):
        """whether diagnostics, beams, tuplets and marks are those of OVER_BARLINES"""
        found, words = OVER_BARLINES[self.text]
        notes = [["0"] + n.split(",") for n in self.oracle.records(self.written, "N")]
        marked = {(i, w): int(n[w]) for i, n in enumerate(notes) for w in (BEAM, ACTUAL, MARKS) if n[w] != "0"}
        return marked == words and [(int(d.split(",")[0]), int(d.split(",")[2])) for d in self.found()] == found


class Case:
    """a text, what is lent, how many diagnostic cells are looked at, and what the definitions must answer"""

    def __init__(self, text, oracle, r=None, lent=None):
        expectation = Expectation(text, oracle)
        self.text = text
        self.lent = lent or lent_for(r, expectation.needed)
        self.number, place = expectation.refusal(self.lent)
        empty = oracle.known[expectation.written] == "err Empty"
        assert self.number not in (0, 4, 5, 13) or (self.number in (4, 5, 13)) == empty, (text, self.number)
        self.stored = "%d,%d,0,0,0" % (self.number, place) if self.number else expectation.stored()
        self.found = [int(d.split(",")[0]) for d in expectation.found()] if self.number == 0 else []
        cells = DIAGNOSTIC * self.lent["diagnostics"]
        self.looked = cells + 1 if r and r.random() < 1 / 8 else DIAGNOSTIC * len(self.found) + 20
        self.cells = "%d,%d,%d,%d" % (self.lent["notes"], self.lent["bars"], self.lent["figure"], min(cells, self.looked))

    def call(self, name):
        return "%s %s %d %d %d %d %d" % (name, literal(self.text), self.lent["notes"], self.lent["bars"], self.lent["figure"], self.lent["diagnostics"], self.looked)

    def statement(self):
        return '%s ≡ "%s;%s"' % (self.call("answer"), self.stored, self.cells)


def lent_for(r, needed):
    """exactly what is needed, more, or too little; broken records too, and now and then too few diagnostics"""
    lent, kind = {}, r.random()
    for what, size in UNIT.items():
        records = needed[what]
        if kind < 0.15:
            records = max(0, records - r.choice([0, 0, 1, 1, 2, 4]))
        elif kind < 0.6:
            records += r.choice([1, 2, 4, 8])
        lent[what] = records * size + r.choice([0, 0, 0, 1, size - 1, r.randrange(size)])
    lent["diagnostics"] = r.choices([0, STORED - 1, STORED, STORED + 1], [1, 2, 500, 5])[0]
    return lent


# ---- the theorems

SHOWN = """\
-- The answer of `reading` as one line.
use Rattle.std.specs.Prelude.{ℕ, zero, suc, ◌+◌, ◌-◌, ◌*◌, ◌/◌, ◌%◌, Bool, true, false, cond, ◌&&◌, eqb, ltb, List, [], ◌∷◌, length, take, drop, get_or, ℤ, pos, negsuc}
use Prim.Native.String.{String, ◌++◌, slice}
use Rattle.rules.specs.Limits.{note_size, bar_size, diagnostic_size, pitch_size}
use Rattle.rules.specs.Text.{bytes}
use Rattle.rules.specs.Reading.{Lent, Reading, reading}

abbrev pub Words : Type 0
Words = List ℤ

-- a digit, of base 16 too
abbrev pub digit : ℕ → String
digit n = slice "0123456789abcdef" n (n + 1)

-- a number of at most f digits
abbrev pub decimal_in : ℕ → ℕ → String
decimal_in zero n = "?"
decimal_in (suc f) n = cond (ltb n 10) (digit n) (decimal_in f (n / 10) ++ digit (n % 10))

abbrev pub decimal : ℕ → String
decimal n = decimal_in 8 n

abbrev pub word : ℤ → String
word (pos n) = decimal n
word (negsuc n) = "-" ++ decimal (suc n)

-- words, a comma before each
abbrev pub listed : Words → String
listed [] = ""
listed (w ∷ ws) = "," ++ word w ++ listed ws

-- words, a comma between two
abbrev pub words : Words → String
words [] = ""
words (w ∷ ws) = word w ++ listed ws

abbrev pub natural : ℤ → ℕ
natural (pos n) = n
natural (negsuc n) = 0

abbrev pub word_at : Words → ℕ → ℕ
word_at ws i = natural (get_or ws i (pos 0))

abbrev pub is_zero : ℤ → Bool
is_zero (pos n) = eqb n 0
is_zero (negsuc n) = false

abbrev pub all_zero : Words → Bool
all_zero [] = true
all_zero (w ∷ ws) = is_zero w && all_zero ws

-- a `+` where not all are 0
abbrev pub rest_shown : Words → String
rest_shown ws = cond (all_zero ws) "" "+"

-- n records of so many words, each shown
abbrev pub records : (Words → String) → ℕ → ℕ → Words → String
records show size zero ws = ""
records show size (suc n) ws = show (take size ws) ++ records show size n (drop size ws)

-- a note's words up to its pitch count; the rest is 0
abbrev pub note_shown : Words → String
note_shown ws = let used = 12 + pitch_size * word_at ws 10 in ";N" ++ words (take used ws) ++ rest_shown (drop used ws)

abbrev pub bar_shown : Words → String
bar_shown ws = ";B" ++ words ws

-- bytes in hex
abbrev pub hex : List ℕ → String
hex [] = ""
hex (b ∷ bs) = digit (b / 16) ++ digit (b % 16) ++ hex bs

-- the value: a part of the text; `()`, its words 0, 0; a number, its last word 0
abbrev pub value_shown : List ℕ → ℕ → ℕ → ℕ → String
value_shown text kind start end =
    cond (eqb kind 1) (hex (take (end - start) (drop start text)))
    (cond (eqb kind 2 && eqb start 0 && eqb end 0) (hex (bytes "()"))
    (cond (eqb kind 3 && eqb end 0) (hex (bytes (decimal start))) "?"))

abbrev pub diagnostic_shown : List ℕ → Words → String
diagnostic_shown text ws = ";D" ++ words (take 4 ws) ++ ",," ++ value_shown text (word_at ws 3) (word_at ws 4) (word_at ws 5)

-- number, place, counts, the stored records
abbrev pub stored_shown : List ℕ → Reading → String
stored_shown text r =
    decimal r.number ++ "," ++ decimal r.place ++ "," ++ decimal r.notes ++ "," ++ decimal r.bars ++ "," ++ decimal r.diagnostics
    ++ records note_shown note_size r.notes r.note_cells
    ++ records bar_shown bar_size r.bars r.bar_cells
    ++ records (diagnostic_shown text) diagnostic_size r.diagnostics r.diagnostic_cells

-- how many cells there are; those from n on are 0
abbrev pub buffer_shown : ℕ → Words → String
buffer_shown n ws = decimal (length ws) ++ rest_shown (drop n ws)

-- the four buffers, the diagnostics' up to so many cells
abbrev pub cells_shown : ℕ → Reading → String
cells_shown looked r =
    buffer_shown (note_size * r.notes) r.note_cells
    ++ "," ++ buffer_shown (bar_size * r.bars) r.bar_cells
    ++ "," ++ buffer_shown 0 r.figure_cells
    ++ "," ++ buffer_shown (diagnostic_size * r.diagnostics) (take looked r.diagnostic_cells)

-- lent are so many words for notes, bars and figure, and so many diagnostics
abbrev pub read : List ℕ → ℕ → ℕ → ℕ → ℕ → Reading
read text notes bars figure diagnostics = reading text (record { notes = notes; bars = bars; figure = figure; diagnostics = diagnostics })

abbrev pub stored : List ℕ → ℕ → ℕ → ℕ → ℕ → ℕ → String
stored text notes bars figure diagnostics looked = stored_shown text (read text notes bars figure diagnostics)

abbrev pub cells : List ℕ → ℕ → ℕ → ℕ → ℕ → ℕ → String
cells text notes bars figure diagnostics looked = cells_shown looked (read text notes bars figure diagnostics)

abbrev pub answer : List ℕ → ℕ → ℕ → ℕ → ℕ → ℕ → String
answer text notes bars figure diagnostics looked = let r = read text notes bars figure diagnostics in stored_shown text r ++ ";" ++ cells_shown looked r
"""

# limits that need a long text or many cells: 65,536 bytes, 65,535 bytes, 131,071 notes, 100 and 1,000 bars; of malformed texts too; what is checked at a closing in its own bar alone
LIMITS = [
    ("stored (replicate 65536 195) 0 0 0 0 0", "1,0,0,0,0"),
    ("stored (replicate 65535 195) 0 0 0 1023 0", "2,0,0,0,0"),
    ("stored (replicate 65535 195) 0 0 0 1024 0", "3,0,0,0,0"),
    ("stored (replicate 65536 32) 0 0 0 1024 0", "1,0,0,0,0"),
    ("stored (replicate 65535 32) 0 0 0 1024 0", "4,0,0,0,0"),
    ('stored (bytes "C%s") 8800000 200 8800000 1024 0' % ("/!i!f" * 16), "7,81,0,0,0"),
    ('stored (bytes "C=100") 4443 1000 0 1024 0', "8,2,0,0,0"),
    ('stored (bytes "C=100") 4444 999 0 1024 0', "12,6,0,0,0"),
    ('stored (bytes "=1000") 88 20 0 1024 0', "8,1,0,0,0"),
    ('stored (bytes "=1000") 132 10 0 1024 0', "12,1,0,0,0"),
    ('stored (bytes "!C/!") 44 10 0 1024 0', "0,0,1,1,1;N2,0,4,0,0,0,0,0,0,0,1,1,2,0,4,0;B0,1,1,1,0,0,0,0,0,0;D17,3,4,1,,21"),
    ('stored (bytes "!/C!") 44 10 0 1024 0', "11,4,0,0,0"),
    ('stored (bytes "(-/-tttttttt)") 88 20 0 1024 0', "0,0,2,2,1;N2,1,4,0,0,0,0,0,0,0,0,1;N4,1,4,0,0,0,0,0,8,255,0,2;B0,1,1,1,0,0,0,0,0,0;B1,1,0,0,0,0,0,0,0,0;D10,3,13,2,,2829"),
    ('stored (bytes "-/(/-tttttttt)") 88 20 0 1024 0', "10,14,0,0,0"),
]


def literal(text):
    if all(32 <= b < 127 and b not in b'"\\' for b in text):
        return '(bytes "%s")' % text.decode()
    return "(" + "".join("%d ∷ " % b for b in text) + "[])"


def unfoldable():
    """by module, the names that compute only in a theorem that names them"""
    files = sorted((ROOT / "crates" / "rules" / "specs").glob("*.antt"))
    return {f.stem: re.findall(r"^\s*unfoldable (?:abbrev )?pub (\S+) ", f.read_text(), re.M) for f in files}


def write(path, content):
    path.parent.mkdir(parents=True, exist_ok=True)
    path.write_text(content)


def is_untold(messages):
    """whether the prover couldn't tell of a statement, since it takes more steps than the prover gives one"""
    return all("stopped at the step limit" in m for m in messages)


class Prover:
    """a repository of its own: the definitions, what shows an answer, and a crate of theorems for each batch of statements"""

    def __init__(self, work, jobs):
        self.crates, self.jobs = Path(work) / "crates", jobs
        for part in ("src", "specs"):
            shutil.copytree(ROOT / "crates" / "rules" / part, self.crates / "rules" / part)
        self.write_crate("shown", "specs", "Shown", SHOWN)

    def write_crate(self, name, part, module, content):
        write(self.crates / name / "src" / "lib.rt", "// No code.\n#![tactic(auto)]\n")
        write(self.crates / name / part / "Lib.antt", "pub mod %s\n" % module)
        write(self.crates / name / part / (module + ".antt"), content)

    def check(self, batches):
        """of each batch, the messages by statement, of those that are not proved"""
        for old in self.crates.glob("texts*"):
            shutil.rmtree(old)
        crates = ["texts%d" % i for i in range(len(batches))]
        write(self.crates.parent / "crates.txt", "rules:\nshown: rules\n" + "".join(c + ": rules shown\n" for c in crates))
        for crate, batch in zip(crates, batches):
            self.write_crate(crate, "proofs", "Texts", theorems(batch))
        command = ["rt", "all", "check", "--jobs", str(self.jobs)]
        said = subprocess.run(command, cwd=self.crates.parent, stdout=subprocess.PIPE, stderr=subprocess.STDOUT, text=True).stdout
        sections = re.split(r"^== (\S+)$", said, flags=re.M)
        sections = dict(zip(sections[1::2], sections[2::2]))
        answers = []
        for crate in crates:
            parts = re.split(r"^\S*Texts\.antt:\d+:\d+: error: `t(\d+)`", sections.get(crate, ""), flags=re.M)
            errors = {}
            for i, message in zip(map(int, parts[1::2]), parts[2::2]):
                errors.setdefault(i, []).append(message)
            proved = re.search(r"^%s: ok$" % crate, sections.get("summary", ""), re.M)
            if bool(errors) == bool(proved):
                sys.exit("rt could not tell of %s:\n%s" % (crate, sections.get(crate, said)[-2000:]))
            answers.append(errors)
        return answers


def theorems(statements):
    names = {module: found for module, found in unfoldable().items() if found}
    lines = ["use Rattle.std.specs.Prelude.{◌≡◌, refl, [], ◌∷◌, replicate}", "use Prim.Native.String.{slice}"]
    lines += ["use Rattle.rules.specs.Text.{bytes}", "use Rattle.shown.specs.Shown.{stored, cells, answer}"]
    lines += ["use Rattle.rules.specs.%s.{%s}" % (module, ", ".join(found)) for module, found in names.items()]
    unfolding = "unfolding " + " ".join(n for found in names.values() for n in found)
    for i, s in enumerate(statements):
        lines += ["", "t%d : %s" % (i, s), unfolding, "t%d = refl" % i]
    return "\n".join(lines) + "\n"


# ---- differences


def smaller(case, oracle, prover):
    """a smaller text, found by leaving out parts, that still differs"""
    while len(case.text) < 300:
        size = len(case.text)
        spans = sorted({size // 2, size // 4, 3, 2, 1} - {0}, reverse=True)
        texts = list(dict.fromkeys(case.text[:i] + case.text[i + n:] for n in spans for i in range(size - n + 1)))
        oracle.ask(asked(texts))
        texts = [t for t in texts if Expectation(t, oracle).covered()]
        cases = [Case(t, oracle, lent=case.lent) for t in texts]
        errors = prover.check([[c.statement() for c in cases]])[0] if cases else {}
        errors = [i for i in errors if not is_untold(errors[i])]
        if not errors:
            return case
        case = min((cases[i] for i in errors), key=lambda c: len(c.text))
    return case


def computed(case, prover):
    """the stored part as the prover's messages show it, and whether the other cells agree"""
    size = 80
    pieces = ['slice (%s) %d %d ≡ ""' % (case.call("stored"), i * size, (i + 1) * size) for i in range(2 * len(case.stored) // size + 3)]
    errors = prover.check([pieces + ['%s ≡ "%s"' % (case.call("cells"), case.cells)]])[0]
    found = [re.search(r'"([^"]*)"`\s+\(found\)', "".join(errors[i])) for i in range(len(pieces)) if i in errors]
    return "".join(f[1] if f else "(too long to show)" for f in found), len(pieces) not in errors


def report(case, oracle, prover):
    small = smaller(case, oracle, prover)
    line, agree = computed(small, prover)
    print("DIFFERS   %r\nsmaller   %r\nlent      %r\nexpected  %s\ncomputed  %s%s" % (case.text, small.text, small.lent, small.stored, line, "" if agree else "\nother cells differ"), flush=True)


# ---- the run


def main():
    options = argparse.ArgumentParser(description="compares the definitions of crates/rules with the original Rust")
    options.add_argument("--count", type=int, default=5000, help="texts, the short ones among them")
    options.add_argument("--seed", type=int, default=1)
    options.add_argument("--batch", type=int, default=250, help="theorems in a file")
    options.add_argument("--jobs", type=int, default=2, help="files that are checked side by side")
    options.add_argument("--oracle", default=os.environ.get("ORACLE"))
    given = options.parse_args()
    if not given.oracle:
        options.error("--oracle PATH or ORACLE is needed")
    r = random.Random(given.seed)
    texts = short_texts() + wide_texts()
    texts = r.sample(texts, min(len(texts), given.count // 2))
    texts += [random_text(r) for _ in range(given.count - len(texts))] + MANY
    texts += rest_texts() + [rested(r) for _ in range(given.count // 8)]
    texts += list(OVER_BARLINES) + [grouped(r) for _ in range(given.count // 8)]
    oracle = Oracle(given.oracle)
    oracle.ask(asked(texts))
    otherwise = [t for t in OVER_BARLINES if not Expectation(t, oracle).as_stated()]
    assert not otherwise, "stated otherwise than the oracle's answer comes to: %r" % otherwise
    expected = [Expectation(t, oracle) for t in texts]
    cases = [Case(e.text, oracle, r) for e in expected if e.covered()]
    left_out = sum(not e.same_rests() for e in expected), sum(not e.same_form() for e in expected)
    r.shuffle(cases)
    batches = [cases[i:i + given.batch] for i in range(0, len(cases), given.batch)]
    with tempfile.TemporaryDirectory(prefix="definitions-") as work:
        prover = Prover(work, given.jobs)
        limits, *answers = prover.check([['%s ≡ "%s"' % s for s in LIMITS]] + [[c.statement() for c in b] for b in batches])
        failed = [(b[i], is_untold(errors[i])) for b, errors in zip(batches, answers) for i in errors]
        wrong = sorted((c for c, untold in failed if not untold), key=lambda c: len(c.text))
        for case in wrong[:5]:
            report(case, oracle, prover)
    for case in wrong[5:]:
        print("DIFFERS   %r" % case.text)
    for i in limits:
        print("DIFFERS   %s\nexpected  %s" % LIMITS[i])
    untold = [c.text for c, untold in failed if untold]
    for text in untold:
        print("NOT TOLD  %r" % text)
    numbers = Counter(c.number for c in cases)
    found = Counter(d for c in cases for d in c.found)
    rests, crossing = (sum(map(which, (c.text for c in cases))) for which in (has_rests, closes_later))
    print("texts: %d, %d of them with rests of whole bars, %d closing in a later bar; different: %d; not told within the prover's limit: %d" % (len(cases) + len(LIMITS), rests, crossing, len(wrong) + len(limits), len(untold)))
    print("left out: %d for `=`, %d that close in a later bar and become a field form without it" % left_out)
    print("accepted: %d; refused: %s" % (numbers[0], ", ".join("%d: %d" % (n, numbers[n]) for n in sorted(numbers) if n)))
    print("diagnostics: " + ", ".join("d%d: %d" % (d, found[d]) for d in range(1, 21)))
    sys.exit(1 if wrong or limits else 2 if untold else 0)


if __name__ == "__main__":
    main()

#!/usr/bin/env python3
"""Makes the list of texts and answers that the program `vectors` replays, from the original Rust's answers.

    tests/make-vectors.py --oracle PATH [--seed N]

The oracle is the original Rust: `../shared/oracle/build DIR` builds it and prints its path. The same seed and oracle
give the same bytes: crates/vectors/stdin, the list, and crates/vectors/stdout, what the program must print.
crates/vectors/README.md has the list's format.

The texts: every kind of token after every other, in six surroundings; fields, keys, meters, clefs and counts; every
diagnostic but d10, d17 and d20 with its values; the limits that fit a line; texts written out for one rule each; every
blank, what is taken for one and characters of two to four bytes, at the places where they matter; random ones. A text
that the program's buffers, or the words and refusals that the Rust doesn't have, would stop isn't taken, nor is
one with an `=` token or one that closes a group, beam or figure in a later bar, which the library reads otherwise than
the Rust (S-10.2 and section 8 of docs/SPECIFICATION.md). Only these have d10, d17 and d20.
"""
import argparse
import os
import random
import re
import sys
from collections import Counter
from pathlib import Path

ROOT = Path(__file__).resolve().parent.parent
VECTORS = ROOT / "crates" / "vectors"

sys.path.insert(0, str(ROOT / "tests"))
sys.dont_write_bytecode = True
import definitions as d

# what crates/vectors/src/main.rt lends, and the list's size there
LENT = dict(notes=1024 * d.NOTE, bars=512 * d.BAR, figure=512 * d.NOTE, diagnostics=1024)
LIST = 1048576
RANDOM = 1400

# ---- pairs of tokens

TOKENS = ["C", "F", "'", "''", ",", "4", "8.6", "x", "xx", "b", "bb", "n", "-", "^", "/", "//", "//:", "://", "://:", ":", "g", "q", "qq", "r",
          "!", "f", "i", "{", "}", "(", ")", ";3", ";", "+", "t", "%F-4", "%?", "$xF", "$n", "@3/4", "@", "?", " "]
AROUND = [("4C", "FC/C"), ("", "C^F/FC"), ("86!xFC!", "fF/iF"), ("{(C", "FDE)}/F"), ("F/", "C,F+/-F"), ("26xFb", "DCF^C/F")]


def pairs():
    """each in a surrounding, by turns; where that would close what it opened in a later bar, in the one behind"""
    count = 0
    for a in TOKENS:
        for b in TOKENS:
            around = [AROUND[(count + more) % len(AROUND)] for more in range(2)]
            count += 1
            yield next(text for text in (before + a + b + after for before, after in around) if not d.closes_later(text.encode()))


# ---- values and limits

KEYS = ["x" + s for s in d.SHARPS] + ["b" + s for s in d.FLATS] + d.ODD_KEYS
SCALE = "CDEFGAB''CDEFGAB,CDEFGAB"


def values():
    for clef in d.CLEFS + d.MENSURAL + d.BAD_CLEFS:
        yield "%%%s C" % clef
        yield "@clef:%s\n@data:C" % clef
    for key in KEYS:
        yield "$%s %s" % (key, SCALE)
        yield "@data:%s\n@keysig:%s" % (SCALE, key)
    for key in ["x F C", "x\tF", " bB ", "xF c", "b B E", "x FC bB", "F x F", "xF|C", "xA xF", "bAxA", "xAbA", "xFnF", "xFCFGC",
                "\tx F", "xF\tC", "xF\v", "bFxF", "xFbF C", "xAbAxA", "bBE xF", "xF bBE"]:
        yield "@keysig:%s\n@data:%s" % (key, SCALE)
    for meter in d.METERS + d.BAD_METERS:
        yield "@2/4@%s C/@3/8@%s D" % (meter, meter)
        yield "@timesig:%s\n@data:C" % meter
    yield "/".join("@%d/%d C" % (n, 2 ** (n % 8)) for n in range(1, 256))
    yield "".join("@%d/4" % n for n in range(258)) + "C"
    yield "".join("@3/%d" % n for n in range(258)) + "C"
    for mark in "',":
        for n in range(1, 9):
            yield "''C%sC/F" % (mark * n)
            yield "%sxCC/%sC" % (mark * n, mark * n)
    for digit in "0912486357":
        yield digit + "CqDgE-^F"
        for dots in ".", "..", "...", "....", ".......":
            yield digit + dots + "6CD-E"
    for size in 2, 3, 7, 255, 256, 257, 300:
        yield "".join("8642"[i % 4] + "." * (i % 3) for i in range(size)) + ("CDEqF-GA^B/" * size)[:2 * size + 20]
    for count in d.COUNTS:
        for group in "C", "CD", "CDE", "gC", "-qDC", "":
            yield "(%s;%s)F" % (group, count)


LIMITS = [
    "C" + "?" * 1030, "?" * 1024 + "C", "@x:\n" * 700 + "@data:" + "+" * 400 + "C", "\n".join(["y"] * 1030) + "\n@data:C",
    "C^D^E^F^G^A^B^C", "C^C^C^C^C^C^C^C/iD", "!C^D^E^F^G^A^B^C!ff", "Ctttttttt", "(Cttttttt)", "-tttttttt/i", "(Cttt)tttt/!i!f",
    "C" * 255 + "/" + "D" * 256 + "/i", "{" + "C" * 255 + "}(" + "DE" * 128 + ";255)", "(" + "C" * 300 + ";255)", "(" + "C" * 20 + ";256)",
    "C/" * 300 + "i/f", "C/" * 512, "!" + "CD" * 8 + "!" + "f" * 62, "!C!!f!!f!!f!!f!!f!!f!!f!", "C" + "/!i!f" * 8, "8.6.4C" * 40,
    "8643.21" * 30 + "CDEFGABC/DEFGABC", "8" + "6" * 200 + "C" * 201 + "D", "4" + "." * 200 + "8C-D", "x" * 300 + "C" + "b" * 300 + "D", "'" * 300 + "C" + "," * 300 + "C",
    "q" * 101 + "C" + "g" * 100 + "D" + "qq" * 50 + "E" + "r" * 5 + "F", "(" * 200 + "CD" + ")" * 200, "{" * 100 + "CD" + "}" * 100, ";" * 100 + "C", "!" * 201 + "C!f",
    "/" * 300 + "C" + "/" * 300 + "D", "+" * 100 + "C" + "+" * 100 + "C", "^" * 100 + "C" + "^" * 100 + "D", "@c" * 100 + "C" + "@c" * 100 + "D", " " * 500 + "C" + "\t" * 500,
    " " * 65530 + "C/?t", "\n" * 300 + "@data:C", "@data:C\n" * 300 + "x", "@clef:G-2\n" * 200 + "@data:C", "@" + "a" * 500 + ":C\n@data:D", "@data:" + " " * 500 + "C" + " " * 500, "C" + "z" * 200,
]

# ---- one rule each

DIAGNOSTICS = [
    "hello\n@data:C", "  two words \n@data:C", "@data:C\n\nx", "@title:a b\n@data:C", "@Data:x\n@data:C", " @a: \n@data:C", "C%F-4D", "C$bB D", "C@c D", "C%D", "C$D", "C@ D",
    "%G+2C", "%C+4C/%F+4D", "%x+yC", "%?C", "%G-3C", "%---C", "@clef:\n@data:C", "@clef:a b\n@data:C", "$xG C", "$n C", "$FC", "@keysig:?\n@data:C", "@3/3C", "@c.C", "@C",
    "@timesig:3 4\n@data:C", "''''''''C", ",,,,,C", "C:C", ":C", "C:/D", "(CD;2)", "(C;0)", "(C;1)", "(C;2)D", ";3C", "(C;)", "(C;256)", "(C;1000)D", "C)", ")C", "(C))",
    "tC", "C/tD", "?C", "rC", "zC", "C.", "\x00C", "C\x7f", "C\\D", "C\"", "+C", "-+C", "C/+D", "fC", "C!!fD", "iC", "C/DiE", "C/i/ii",
]
RULES = [
    # octaves, accidentals, keys
    "''C/D", "''C'C,C", "xC/C", "xC''C'C/C", "xCC-C", "xC-C/C", "xC:C", "x-C", "x/C", "xC//C", "xC://:C", "xbC", "bxCC", "xxCnCC", "xnC", "xqCC", "xgCC", "Cx^DD", "Cx^CC", "xC^''C'C", "$xF FnFFxxFF/F",
    "$bBE BE''BE'nBB''B/B", "$xF F/$bB FB", "$xF F/$FF", "$xFxC FC", "xF$bB F", "xF/$xC FC", "!xF!fF", "xF/iF", "!xF!/fFF", "C/xiC", "xF,F'F", "'xF''F'F/''F", "$xF 'F''F,F", "nF$xF/F", "b,Bb'B,BB",
    "$xFCG CnC/C''C", "xCb^C^C", "Cb^xDD", "''xCnC/C", "x''C'C", "x''C''C", "xC$n C", "C@?xDD", "''''''''''C", "''C,,,,,,C",
    # patterns, graces
    "86CDE", "8.6 C D E", "86CqDE", "86CgDE", "86CqqDErF", "86C-E", "86-C", "86C^DE", "86qqC-DrE", "86CD/EF", "864C/!DE!fF", "86!C-!ffD", "86C4D8E", "864CD2EF", "8C6", "6.8..4...CDEF", "86qC^DE", "gCqDE", "gqC",
    "qgC", "g-C", "q/C", "qq-CrC", "qqgCqDErF", "C/giC", "C/qqiCrC", "gC^DE", "qCqD/qE", "Dq^GB", "^gCD", "g^CD", "qqC^DrE", "qq^CrD", "r", "qqqCD", "qqqqCrD", "8gC", "8.gC.", "2.gCqDE", "0C9D1E2F4G8A6B3C5D7E",
    "qqrC", "rqqC", "qqrrC", "8642gCqDEFG-qA-gB",
    # chords
    "4C^E-^G", "C^E^G/^C", "C^/D", "B^/iC", "C/^iE", "!F!^-fD", "!F!^--ffA", "!C^E!^-f^G", "!A!B^-fC/^-D", "^CD", "C^^D", "C^D^E+C^D", "gC^D", "-^C", "C-^D", "C^ D", "C^xD", "C^''D", "C^8D", "C^qD", "C^(D)", "C^D/i^E", "!C!f^D", "C^Dt^E", "(C^D)", "{C^DE^F}",
    "C^D8^E", "C/^-D", "C^-^D", "C+^DE", "C^i", "C/i^Df",
    # ties
    "C+C", "C+-C", "C+/C", "C+C+C", "C++C", "C+^EC", "C+gC", "C+qC+C", "-+C", "C-+C", "C+/i", "C+/iC", "C+!D!f", "!C+!f", "!C+C!fC", "C+/!D!f", "B+/+A", "-C+/iC", "C+C/i/C", "C+{D}", "C+(D)", "C+tC", "gC+C", "C+rC",
    "C+$xFC", "C+x-C", "C+/-/C", "C+/-C", "C+-+C", "C+C/i+C", "!C!+fC", "C+fC",
    # bars
    "C/D", "C//D", "C//:D", "C://D", "C://:D", "//:C", "://:C", "//:/C", "//://C", "//:C/D", "C//:/D", "C//:/ /D", "C/ /D", "C//", "C://:", "//:", "/C", "//C//", "C:/D", "C:/:D", "C/:D", "C//://:D", "C://://D", "-//:-", "C/:/D",
    "C//:%F-4D", "C//:i", "C://:i/D", "//:%F-4/C", "//:gC//D", "C/%F-4/D", "C/$xF/F", "C/@c/D",
    # attributes
    "%F-4C/D", "C/%F-4D", "%F-4%G-2C", "%F-4% C", "%?%F-4C", "C%F-4/D", "%F-4-/C", "$xF-/F", "C/$xF F", "$xF$n F", "$n$xF F", "@3/4C/D", "C/@c D", "@c@C", "@c/ C", "@c@3/3@C", "C@3/4/D", "C$xF/F", "-$xF/F", "gC$xF/F",
    "C%F-4%G-2/D", "%g-2C/%C-1C/%C-2C/%C-3C/%C-4C/%C-5C/%G-2C", "%G+2C/%g+2C/%F+4C/%C+1C/%C+2C/%C+3C/%C+4C/%C+5C", "%%F-4C", "%/C", "%G -2C", "%G-22C", "%G-2", "C/%F-4", "C/i%F-4D", "/%F-4C", "C/%F-4i", "C/$xF i F", "!F!/$xF f F",
    "C/@3/4i/i",
    # figures
    "!CD!f", "!CD!ff", "!C!Df", "!C!f/f", "!!f", "!C!!f", "!C!!!f", "!C!tf", "!Ct!f", "!gC!f", "!8.C!6fD", "!{CD}!f", "!(CDE)!f", "{!CD!f}", "(!CD!f)", "!C-D!f", "!xC!nCf",
    "!C^E!f^G", "!C!f!f", "C!D!fE/f", "!C!!D!f", "!C!f!!f", "C/i", "C/D/i", "C/ /i", "C/i/i", "CD/i/E/i", "Ci", "i", "C/Di", "-/i", "C/ii", "C/if", "!C!/i", "!CD!/Ef/i", "C//:i", "C://i", "{CD}/i", "(CDE)/i", "Ct/i", "gC/i", "8.C/i",
    "C+C/i", "!/C!f", "C!-!f", "!CDE!f/!i!ff", "C!D!!E!f", "!C!-f", "!f!", "!i!", "C/!i!f", "ABC/!D!/i", "!A!B!C!f/f", "!C", "!CD!{f}", "!CD!(f)", "!C!f+D", "!C!f+f",
    "!C!/f/f", "!C/D", "!C!!D/f", "C/!/!D", "C/!/D!f", "C/!//D!:f", "//:!/C!f/f", "!//:C!f", "C/!/i!f", "C/!i!/f", "!C:D!f", "!/!f/C",
    # beams
    "{CD}", "{CDE}", "{C}", "{}C", "{C-D}", "{-}", "{gCD}", "{CgDE}", "{CqqDErF}", "{/CD}", "{C{DE}", "{C}D}", "}CD", "C{DE}F{GA}", "{C}{D}", "{(CDE)}", "{CD", "{-C}", "{C-}", "{--}", "{gC}", "{gCqD}",
    "{C^DE}", "CD{EF", "{CD}}", "C}DE{F}", "{C}DE}", "{CDEF}/i",
    "{CD/E", "{C/{DE}", "C/{/DE}", "C/{//:DE}F", "{///CD}", "C/D/{/i}", "CD/{i}", "CD/{/iE}", "{C:D}", "{/}CD}",
    # groups
    "(CDE)", "(CD)", "(C)", "(-)", "(C-)", "()C", "(gC)", "(gCD)", "(CqD)", "(-qC)", "(/)C", "(/CDE)", "(C(DE)", "(C)D)", "(CDEFG;5)", "(CD;2)", "(CD;3)", "(CD;4)", "(CD;255)", "(CD;256)", "(C;3)",
    "(C;4;5)", "(C;4;)", "(;4(C)", "(CD;5(EF)", "(C;4(DE)F", "(;5(C)D", "(;4/C)", "(CD;5;256)E", "(CDE;4;;)", "(C;5;)D", "(C;03)", "(CDE;4)", "(CDE;7)", "(CDE;8)", "(CDE;9)", "(CDE;17)", "C;3D", "(C);3", "(;3)C", "(CD)(EF;4)", "((CD))", "g(CDE)", "(C^D)", "(Ct)", "(C)t", "(C)(C)", "(C)/i", "(gC;3)D", "(gC;1)D",
    "(C;1D)", "(CDE;0)", "C(D)E", "CD(EF)/(G)", "(-;3)", "(--)", "(-;1)", "(C-qD)", "(CD;5)/(EF)", "(CD;5)(EF)", "(C)D(E)", "(CD)t", "(;5)(CD)", "(;256CD)", "(;CD)", "(CD;a)", "(C D E ; 5)",
    "(C/D", "(C/(D)", "(C;5/(DE)", "(C/(D;5E)", "C/(/D)", "C/(/)D", "C/(//:DE)F", "(///C)", "(//:CDE;5)", "(/;5CD)", "(;5/CD)", "C/D/(i)", "CD/(/i)", "(C:D)", "(/C)/(/D)", "(/)/(C)",
    # trills
    "Ct", "Ctt", "-t", "C/t", "C/tDt", "gCt", "C^Et", "Ct/i", "!Ct!ft", "(Ct)t", "C t", "t", "Ct^E", "C+t", "Ct+C", "Ct-t", "C/it",
    # blanks and unknown tokens
    "C D\tE\nF\rG\vA\fB", "\x1cC", "C\x00D", "c", "a", "H", "C.D", "4.C", ".4C", "8 6CD", "8 .C", "x xC", "' 'C", "/ /C", ": //C", "q qC", ": / / :C", "= ", "C#", "4C4", "44", "4", "x", "'", "^", "+", "C/:://:/D",
    "8?6CDE", "86?CD", "x?xC", "'?'C", "/:/:C",
    # fields
    "@data:C", "@data: C ", "@data:\tC\v", "@data:C\r\n", "@clef:F-4\n@data:C", "@data:C\n@clef:F-4", "@data:C\n@data:D", "@data:C\n@data:", "@clef:F-4\n@clef:?\n@data:C", "@keysig:xF\n@data:F$nF", "@keysig:xF\n@data:$n F",
    "@keysig:bB\n@keysig:xF\n@data:BF", "@timesig:c\n@timesig:3\n@data:C", "@timesig:3/4\n@data:@c C", "@clef:C-1\n@data:%F-4C", " @data:C", "\t@data:C\n", "@data:C\n x y \n", "C\n@data:D", "C\n@clef:F-4", "@data", "@data:C\n@key:x",
    "@:C", "@1:C", "@data :C", "@data:C\n@:x", "@data:C\n@1:x", "@data:C\n@Data:D", "@data:C\n@clefs:F-4", "@data:C\nx@data:D", "@data:@data:C", "@data:C?\n?", "?\n@data:?C", "\n\n@data:C\n\n?", "@a:\n@b:1\n@data:C", "@data:C\rD",
    "@data:C\n\t\n@data:?D\n", "@data:tC\n@data:?C", "@clef:G+2\n@data:C", "@clef:C+9\n@data:C", "@keysig:xFn\n@data:F", "@data:C\n@keysig:bB\n@timesig:c/", "@data: 'C\n", "@data: ? C", "  @data:  ?", "@data:=\n@data:C",
    "C\n%F-4D", "%F-4\nC", "@3/4\nC", "@c:C", "@c:\n", "@clef:G-2", "@clef:G-2\n%G-2C", "", " ", "\n", "\t\r\n ", "?", "/", "%G-2", "@data:?", "@data:\n", "4x'", "!f", "@data: \n ", "@Z:\n@data:/",
]

# ---- characters

BLANK_AROUND = ["%s", "%sC%sD?", "8%s6.%s{CD}x%sF%s:", "%%G%s-2C/%%F-4%sD", "%%%sC", "$x%sF F", "@data:%sC %s", "%s@title:%sx %sy%s\n%s@data:C", "@keysig:x%sF\n@data:F", "@x:%s@data:C", "%s\n@data:C\nz%s"]
WIDE_AROUND = ["%sC", "C%sD?", "x%sF8%s6{CD}", "%%%s+%sC", "%%%s%s%sC", "%%G-2%sC", "$%sC", "@3/4%sC", "C/%s!DE!%sf", "@title:%s\n@clef:%s\n@keysig:xF%s\n@timesig:%s\n@data:%sF%s", "@t%stle:x\n@data:C%s"]
CHARACTERS = [
    # places behind them: notes, chords, figures, bars, groups
    "éC^éEé^G", "é!Cé!fé/éi?", "漢C/漢D//漢E?", "(éC漢D𝄞E)t)", "{éCéDé}é)", "éCé+éCé+?", "éqqCéDérE?", "ü8.6CüDüEü'F", "é,,,,,,C", "é%é C%éD", "é$xé FéF", "é@3/é4C", "é:C:é//:D:", "é(/éC)", "(éCD;é2)", "(éCD;2)é",
    "é;3C", "éfC", "éiC", "éC/éDéié", "é!/éC!éf", "étC", "é+C", "érC", "e\u0301C", "\u0301", "é", "é漢𝄞", "éé=\n@data:C", "éC\u00a0\u3000", "é" * 300 + "C?", "漢C" * 40 + "?", "\u00a0" * 200 + "C" + "\u3000" * 200 + "?",
    # clefs of three characters
    "%é+üC", "%é-üC", "%+é+C", "%++éC", "%é++C", "%漢+字C/%𝄞+𝄞D", "%éG-2C", "%Gé2C", "%G-éC", "%é", "%é+", "%éé C", "%é\u00a0+C", "%G-2éC", "%G+2éC", "C%é+üD", "%é+ü%F-4C", "%éüïC", "%" + "é" * 50 + "C", "%" + "漢" * 50 + " C",
    # fields
    "@tïtle:x\n@data:C", "@title:Für Elise\n@data:C", "@title:Noël\u00a0\n@data:C", "@title:\u00a0\n@data:C", "@composer:Dvořák, Antonín\n@title:六段\n@clef:G-2\n@keysig:xFC\n@timesig:3/4\n@data:'4C8DE/4F+FA/", "@clef:é\n@data:C", "@clef:é+ü\n@data:C",
    "@clef:漢-2\n@data:C", "@clef:\u00a0F-4\u3000\n@data:C", "@clef:F\u00a0-4\n@data:C", "@keysig:é\n@data:C", "@keysig:xFé\n@data:F", "@keysig:\u00a0bB\u2003\n@data:B", "@keysig:b\u3000B\n@data:B", "@timesig:é\n@data:C", "@timesig:３/４\n@data:C",
    "@timesig:\u00a03/4\u00a0\n@data:C", "@timesig:3\u00a0/4\n@data:C", "@timesig:é/4\n@data:C", "@data:é\n@data:C", "@data:C\n@data:é", "@data:éC\n@data:\u00a0éD\u00a0", "@datä:C", "@data:C\n@datä:D", "\ufeff@data:C", "\ufeffC", "@data\u00a0:C\n@data:D", "@data：C",
    "für\n@data:C", "\u00a0für \u2003\n@data:C?", "\u200b\n@data:C", "\u2028\n@data:C", "@x:\u2028@data:C", "@x:\u0085@data:C", "@x:\r@data:C", "C\u2028@data:D", "@data:C\u2028@data:D", "\u2029@data:C\u2029", "@title:é\r\n@data:éC\r\n", "ß\nß\n@data:ßC\nß",
]


def characters():
    yield from CHARACTERS
    for around, wide in (BLANK_AROUND, d.BLANK[6:]), (BLANK_AROUND[:4], d.BESIDE), (WIDE_AROUND, d.ACCENTED + d.EDGES):
        for character in wide:
            yield from (a.replace("%%", "%").replace("%s", character) for a in around)


# ---- the list

COMPACT = re.compile(rb"[^ -\[\]-~]")


def escaped(text):
    return COMPACT.sub(lambda b: b"\\%03o" % b[0][0], text)


def coded(word):
    n = abs(int(word))
    return ("-" if int(word) < 0 else "") + ("%d" if n < 10 else "<%d>") % n


def diagnostic(line):
    number, kind, place, value_kind, _, value = line.split(",")
    head = b"D" + "".join(map(coded, (number, kind, place, value_kind))).encode()
    value = bytes.fromhex(value)
    if value_kind == "1":
        return head + escaped(value) + b"\t"
    assert value_kind == "3" or value == b"()", line
    return head + (coded(value) if value_kind == "3" else "0").encode() + b"0"


def answer(text, number, oracle):
    if number:
        return b"R" + coded(number).encode()
    notes, bars, found = (oracle.records(text, kind) for kind in "NBD")
    records = [k + "".join(map(coded, r.split(","))) for k, rs in (("N", notes), ("B", bars)) for r in rs]
    return "".join(records).encode() + b"".join(map(diagnostic, found[:d.STORED]))


def taken(texts, oracle):
    """the texts that the program can be held to, each once, with the refusal's number"""
    texts = [t for t in dict.fromkeys(texts) if d.decoded(t) is not None and not d.has_rests(t) and not d.closes_later(t)]
    oracle.ask(d.asked(texts))
    for text in texts:
        number, _ = d.Expectation(text, oracle).refusal(LENT)
        if number in (0, 4, 5, 13):
            assert (number > 0) == (oracle.known[text] == "err Empty"), text
            yield text, number


def counts(cases, oracle):
    accepted = [t for t, number in cases if not number]
    stored = {kind: sum(len(oracle.records(t, kind)[:d.STORED if kind == "D" else None]) for t in accepted) for kind in "NBD"}
    lines = [(len(cases), "texts, 0 differ"), (len(cases) - len(accepted), "refused"), (len(accepted), "come back from their cards"), (stored["N"], "notes"), (stored["B"], "bars"), (stored["D"], "diagnostics")]
    return "".join("%d %s\n" % line for line in lines)


def main():
    options = argparse.ArgumentParser(description="makes the list that the program `vectors` replays")
    options.add_argument("--seed", type=int, default=1)
    options.add_argument("--oracle", default=os.environ.get("ORACLE"))
    given = options.parse_args()
    if not given.oracle:
        options.error("--oracle PATH or ORACLE is needed")
    r = random.Random(given.seed)
    written = [t.encode() for t in DIAGNOSTICS + RULES + list(values()) + list(pairs()) + LIMITS + list(characters())]
    oracle = d.Oracle(given.oracle)
    cases = list(taken(written + [d.random_text(r) for _ in range(RANDOM)], oracle))
    stored = b"".join(escaped(text) + b"\t" + answer(text, number, oracle) + b"\n" for text, number in cases)
    assert len(stored) <= LIST, "the list has %d bytes" % len(stored)
    (VECTORS / "stdin").write_bytes(stored)
    (VECTORS / "stdout").write_text(counts(cases, oracle))
    found = Counter(int(line.split(",")[0]) for text, number in cases if not number for line in oracle.records(text, "D")[:d.STORED])
    refused = Counter(number for _, number in cases if number)
    print("%d texts, %d bytes" % (len(cases), len(stored)))
    print("refused: " + ", ".join("%d: %d" % n for n in sorted(refused.items())))
    print("diagnostics: " + ", ".join("d%d: %d" % (n, found[n]) for n in range(1, 20)))


if __name__ == "__main__":
    main()

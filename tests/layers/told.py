"""What `layers` must say of a text, by the library's records and the look-back of docs/SPECIFICATION.md."""
import re

from lookback import BLANKS, DIGITS, SIGNS, LookBack, is_barline, key_of, whole_bars

STEPS = "CDEFGAB"
LENGTHS = ["longa", "breve", "whole", "half", "quarter", "eighth", "16th", "32nd", "64th", "128th"]
DOTTED = ["", "dotted ", "double-dotted ", "triple-dotted "]
ALTERATIONS = {2: "double sharp", 1: "sharp", 0: "natural", -1: "flat", -2: "double flat"}
ALTERS = {-2: "bb", -1: "b", 0: "", 1: "#", 2: "##"}
KINDS = ["note", "rest", "grace", "slashed grace", "whole-bar rest"]
CLEFS = {"G-2": "treble", "g-2": "treble 8vb", "F-4": "bass", "C-1": "soprano", "C-2": "mezzosoprano", "C-3": "alto",
         "C-4": "tenor", "C-5": "baritone"}
CLEF_NAMES = ["-", *CLEFS.values()]
SYMBOLS = ["", " common", " cut"]
SIDES = ["plain", "double", "repeat starts", "repeat ends"]
BARLINES = {"/": "", "//": ", double", "//:": ", a repeat starts", "://": ", a repeat ends",
            "://:": ", a repeat ends, a repeat starts"}
CLOSERS = {"(": ")", "{": "}", "!": "!"}
OPENERS = {closer: opener for opener, closer in CLOSERS.items()}
NAMES = {"(": "group", "{": "beam", "!": "figure"}
WORDS = {1: "this line is no field, it is not read", 2: "no field with this name is read",
         4: "a mensural clef, read as the modern one", 5: "no clef has this name",
         6: "no standard key; what follows an x or b in it is altered all the same", 7: "no meter has this form",
         8: "outside octaves 0 to 9; the old octave stays", 9: "a colon alone is no barline",
         11: "a tuplet has three or more; the group is left as it is",
         12: "a count needs an open ( and digits for 0 to 255", 13: "no ( is open",
         14: "the bar has no note or rest for it yet", 15: "no rule for this sign",
         20: "the count of bars must be 1 to 1,000; no rest is stored"}
HINTS = {"‘’“”′´`": "; the octave sign is the straight quote '", "–—": "; the rest is the hyphen -",
         "acdehH": "; the letters are the capitals A to G"}
REPEATS = {"r": ["end of a grace group", "grace group ends", "no grace group to end"],
           "f": ["repeat of a figure", "repeats the figure", "no figure to repeat"],
           "i": ["repeat of a bar", "repeats the last bar", "no bar to repeat here"]}
STILL = "; the pattern does not step"


def shown(text):
    """A text with what stands for its blanks and control characters."""
    control = lambda c: ord(c) < 32 or 127 <= ord(c) < 160
    return "".join(" " if c in BLANKS else "?" if control(c) else c for c in text)


def part(text):
    return shown(text[:32]) + ("..." if len(text) > 32 else "")


def counted(count, word):
    return f"{count} {word}" + ("" if count == 1 else "s")


def named(pitch):
    return STEPS[pitch[1]] + ALTERS[pitch[3]] + str(pitch[2])


def pitches_of(note):
    return [note[12 + 4 * i:16 + 4 * i] for i in range(note[10])]


def in_words(note):
    return DOTTED[note[3]] + LENGTHS[note[2]]


def octave_of(token):
    return 3 + len(token) if token[0] == "'" else 4 - len(token)


def fifths_of(value):
    """The fifths of a key, and whether it is in the usual order (S-4.18, S-4.19)."""
    behind = re.sub("[^A-G]", "", value[re.search("[xb]|$", value).start():])
    stray = re.search(r"[^xbA-G ]|^[^xb]*[A-G]", value)
    for order, sign, other in ("FCGDAEB", 1, "b"), ("BEADGCF", -1, "x"):
        if order.startswith(behind) and (other not in value or not behind):
            return sign * len(behind), not stray
    return 0, False


def meter_of(value):
    if value in ("c", "c/"):
        return "4/4 common" if value == "c" else "2/2 cut"
    m = re.fullmatch(r"\+?([0-9]+)/\+?([0-9]+)", value)
    above, below = (int(m[1]), int(m[2])) if m else (0, 0)
    return f"{above}/{below}" if 1 <= above <= 255 and below in [2 ** k for k in range(8)] else "of no known form"


def count_of(value):
    """The count of a group, None for one that is not good (S-10.11)."""
    return int(value) if value and int(value) < 256 else None


class Told(LookBack):
    """The rows for a text that is accepted; of one that is refused, those of its marks and line ends."""

    def __init__(self, text, answer):
        super().__init__(text, answer.notes)
        self.disagreeing = [] if answer.number else list(self.disagreements())
        # what became of marks is told by records and diagnostics, if none is missing (S-2.22, S-12.5)
        self.known = not answer.number and len(answer.found) < 1024
        self.pitches = {p[0]: p for note in answer.notes for p in pitches_of(note)}
        self.found = {}
        for number, kind, place, *_ in answer.found:
            if kind == 3:
                self.found.setdefault(place, []).append(number)
        lines = [line.strip(BLANKS) for line in text.decode().split("\n")]
        self.keysig = max((n for n, line in enumerate(lines, 1) if line.startswith("@keysig:")), default=0)
        self.clefs = [line[6:].strip(BLANKS) for line in lines if line.startswith("@clef:")]

    def at(self, i):
        return f"{part(self.tokens[i][1])} at place {self.tokens[i][0]}"

    def behind(self, i, sought):
        return next((j for j in range(i + 1, len(self.tokens)) if sought(j, self.tokens[j][1])), None)

    def records(self, i):
        return self.stored.get(self.tokens[i][0], [])

    def filling(self, i):
        """The token that stored the last record of the open bar."""
        return next((j for j, t in self.before(i, lambda j, t: is_barline(t)) if self.records(j)), None)

    # ---- the line

    def line_ends(self):
        places = [str(place) for place, token in self.tokens if token == "\n"]
        behind = " (--lines reads each line as a text of its own)" if len(places) <= 8 else " .."
        return [f"line ends that are read as blanks, by place: {', '.join(places[:8])}{behind}"] if places else []

    def said(self, number, kind, place, value_kind, start, end):
        """What a diagnostic means."""
        words = WORDS.get(number)
        if number in (5, 7) and start == end:
            return "it has no value, so nothing is set"
        if kind != 3:
            return words + ("; the line sets none" if number in (5, 7) else "")
        i = next(j for j, token in enumerate(self.tokens) if token[0] == place)
        token, last = self.tokens[i][1], self.filling(i)
        if number in (5, 7):
            return words + "; it sets none, and one that was set before it stays"
        if number == 15:
            hint = next((hint for signs, hint in HINTS.items() if token in signs), "")
            return "r ends a grace group, and none is open" if token == "r" else words + hint
        if number in (10, 17):
            opened = self.opened(i, token)
            return (f"this closes the {NAMES[OPENERS[token]]} that {self.at(opened)} opened in bar "
                    f"{self.bar(opened) + 1}; this is bar {self.bar(i) + 1}, so nothing is made of it")
        if number == 16:
            none = "this bar has no note before it; a + stands right after its note, before the barline"
            return none if last is None else "a rest stands before it, which can't be tied"
        if number == 18:
            opened = self.opened(i, "!")
            return ("there is no figure to repeat" if opened is None else
                    f"the figure that {self.at(opened)} opened is not closed yet")
        has = f"bar has {self.at(last)} already" if last is not None else ""
        if number == 3:
            return f"not taken: the {has}"
        if number == 19:
            start_only = f"i repeats the last bar at a bar's start only, and this {has}"
            return start_only if has else "there is no bar before it to repeat"
        return words

    # ---- why a letter, a rest or a copy is as it is

    def whys(self):
        for i, (place, token) in enumerate(self.tokens):
            if token in STEPS:
                yield place, list(self.letter(i, self.pitches[place]))
            elif token == "-":
                yield place, [f"  rest at place {place}", self.pattern(i, self.records(i)[0]), *self.waiting(i)]
            elif whole_bars(token):
                length = "    length      none of its own, it lasts as long as its bar" + STILL
                head = f"  whole-bar rest at place {place}, {counted(whole_bars(token), 'bar')}"
                yield place, [head, length, *self.waiting(i)]
            elif token in "fi" and self.records(i):
                yield place, list(self.copies(i))

    def letter(self, i, pitch):
        place, step, octave, alter = pitch
        yield f"  {named(pitch)}, the letter at place {place}"
        mark = next((j for j, t in self.before(i) if t[0] in "'," and 0 <= octave_of(t) <= 9), None)
        yield f"    octave      {octave}, " + ("as at the start" if mark is None else "from " + self.at(mark))
        yield from self.alteration_rows(i, octave, alter)
        yield from self.length_rows(i)

    def sign_at(self, i):
        return next((j for j, t in self.since_letter(i) if t[0] in "xbn"), None)

    def alteration_rows(self, i, octave, alter):
        same = lambda found: [j for j, t in found if t == self.tokens[i][1] and self.sign_at(j) is not None]
        own, signed = self.sign_at(i), same(self.before(i))
        marked = [j for j in same(self.since_barline(i)) if self.octave(j) == octave]
        key = next((j for j, t in self.before(i) if t[0] == "$" and not self.last_record(j)), None)
        alone = ", which leaves it alone" if alter == 0 else ""
        if own is not None:
            cause = "from its own sign " + self.at(own)
        elif marked:
            cause = f"from {self.at(marked[0])} in this bar ({self.at(self.sign_at(marked[0]))})"
        elif key is not None:
            cause = f"from the key {self.at(key)}{alone}"
        elif self.keysig:
            cause = f"from the keysig field in line {self.keysig}{alone}"
        else:
            cause = "since no sign reaches it and no key was taken"
        yield f"    alteration  {ALTERATIONS[alter]}, {cause}"
        last = next((j for j, t in self.before(i) if t[0] == "$"), None)
        by_key = own is None and not marked and last != key
        if by_key and key_of(self.tokens[last][1]).get(self.tokens[i][1], 0) != alter:
            yield f"    not from    the key {self.at(last)}, which was not taken"
        if own is None and signed and signed[0] not in marked and self.sign(signed[0]) != alter:
            yield "    not from    " + self.unreached(i, signed[0], octave)

    def unreached(self, i, letter, octave):
        bars = [j for j in range(letter, i) if is_barline(self.tokens[j][1]) or whole_bars(self.tokens[j][1]) > 1]
        held = self.octave(letter)
        reasons = [f"holds in octave {held} only"] if held != octave else []
        if bars:
            place, barline = self.tokens[bars[0]]
            reasons += ["ended at the " + (f"first barline inside {self.at(bars[0])}" if barline[0] == "=" else
                                           f"barline at place {place}")]
        assert reasons
        return f"{self.at(self.sign_at(letter))}, which {' and '.join(reasons)}"

    def length_rows(self, i):
        chord = next((j for j, t in self.since_letter(i) if t == "^"), None)
        if i in self.joining:
            note = next(j for j, t in self.before(i) if self.records(j))
            whose = f"the note at place {self.tokens[note][0]}, whose chord it joins by {self.at(chord)}"
            yield f"    length      that of {whose}{STILL}"
            return
        record, = self.records(i)
        grace = next((j for j, t in self.before(i, lambda j, t: self.opens(j)) if t in ("g", "q")), None)
        if record[1] == 3:
            yield f"    length      {in_words(record)}, since {self.at(grace)} makes it a slashed grace{STILL}"
        else:
            yield self.pattern(i, record)
        if record[1] == 2:
            group = next((j for j, t in self.before(i) if t == "qq"), None)
            by = f"by {self.at(grace)}" if grace is not None else f"in the group of {self.at(group)}"
            yield f"    grace       {by}{STILL}"
        if chord is not None:
            yield f"    chord       {self.at(chord)} finds no note to join"

    def pattern(self, i, record):
        row = f"    length      {in_words(record)}, "
        mark = next((j for j, t in self.before(i) if t[0] in DIGITS), None)
        if mark is None:
            return row + "as at the start"
        takers = [j for j, t in self.before(i, lambda j, t: j == mark)
                  if t == "-" or self.opens(j) and self.records(j)[0][1] == 0]
        size = len(re.findall("[0-9]", self.tokens[mark][1]))
        element = len(takers) % size
        row += f"element {element + 1} of the pattern {self.at(mark)}"
        row += ", which starts again" if takers and not element and size > 1 else ""
        for n, j in enumerate(takers[:min(element, 8)]):
            row += f", {element - n} by " if n else f"; element {element} was taken by "
            row += self.at(j)
        return row + (" .." if element > 8 else "")

    def waiting(self, i):
        sign = self.sign_at(i)
        return [] if sign is None else [f"    sign        {self.at(sign)} waits on for a letter"]

    def copies(self, i):
        yield f"  copied by {self.at(i)}: signs, octave and pattern here change nothing, and ties are not copied"
        numbers = [n for n, note in enumerate(self.notes, 1) if note[0] == self.tokens[i][0]]
        # a pitch from behind the mark was not copied: its letter joined the copy (S-6.14)
        by = lambda p: "as" if p[0] < self.tokens[i][0] else "joined by"
        for n in numbers[:16]:
            pitches = [f"{named(p)} {by(p)} the letter at place {p[0]}" for p in pitches_of(self.notes[n - 1])]
            yield f"    note {n:<7}{', '.join(pitches) or 'a rest'}"
        if len(numbers) > 16:
            yield "    .."

    # ---- the marks

    def marks(self):
        """The rows of the second layer: place, mark, meaning."""
        for i, (place, token) in enumerate(self.tokens):
            if token in BLANKS:
                continue
            found = self.found.get(place, [])
            numbers = f" ({', '.join(f'd{n}' for n in found)})" if found else ""
            yield place, part(token), self.meaning(i, token, found[-1] if found else 0) + numbers

    def meaning(self, i, token, found):
        first, value = token[0], token[1:]
        untaken = {3: ", not taken", 5: ": nothing is set", 7: ": nothing is set", 12: ", not taken"}.get(found, "")
        if first in "%$@":
            untaken = untaken or self.lost(i)
        if first == "%":
            mensural = len(value) == 3 and value[1] == "+"
            name = CLEFS.get(value[0] + "-" + value[2] if mensural else value, "of no known name")
            return f"clef {name}{', mensural' * mensural}{untaken}"
        if first == "$":
            fifths, usual = fifths_of(value)
            altered = "".join(f" {c}{ALTERS[key_of(value)[c]]}" for c in "FCGDAEB" if c in key_of(value))
            stored = f", not standard: its signature is {self.key_name(fifths)}" if found == 6 else ""
            return "key" + altered + (" without signs" if not fifths and usual else "") + stored + untaken
        if first == "@":
            return f"meter {meter_of(value)}{untaken}"
        if first in "',":
            octave = octave_of(token)
            return f"octave {octave}" if 0 <= octave <= 9 else "octave out of range: the old one stays"
        if first in DIGITS:
            return "pattern" + re.sub("([0-9])", r" \1", token[:32]) + (" .." if len(token) > 32 else "")
        if first in "xbn":
            taken = self.taken(i, lambda j, t: t in STEPS, lambda j, t: t[0] in "xbn")
            return ALTERATIONS[SIGNS[token[:2]]] + taken
        if token in STEPS:
            return f"letter {token}" + (", joins a chord" if self.known and i in self.joining else "")
        if first == "=":
            bad = "its count is not 1 to 1,000: nothing is stored"
            return "whole-bar rest, " + (counted(whole_bars(token), "bar") if whole_bars(token) else bad)
        if is_barline(token):
            empty = self.known and self.last_record(i) is None
            lost = self.lost(i) if token.endswith("/:") else ""
            return "barline" + BARLINES[token] + lost + "; the bar is empty and goes on" * empty
        if token in ("g", "q"):
            kind = "slashed grace" if token == "g" else "grace"
            return kind + self.known * self.opening(i, lambda j, t: t in ("g", "q"), "replaced")
        if token in OPENERS:
            return self.ending(i, token, found)
        if token in CLOSERS:
            return f"{NAMES[token]} starts" + self.open(i, token)
        if first == ";":
            count = count_of(value)
            return f"group count {'of no known number' if count is None else count}{untaken}"
        if first == "^":
            return "chord" + self.known * self.chord(i)
        if token == "+" and found:
            return "tie, no note right before it in this bar"
        if token == "+":
            return "tie" + self.known * self.opening(i, lambda j, t: t == "-", "cancelled")
        if token == "t" and found:
            return "trill, no note or rest before it in this bar"
        if token == "t":
            return "trill" + self.known * " on the last note or rest"
        if token in REPEATS:
            return REPEATS[token][1 + (found > 0) if self.known else 0]
        others = {"-": "rest", "qq": "grace group starts", ":": "a colon alone is no barline"}
        return others.get(token, "no rule for it")

    def is_set(self, sign, known):
        """Whether a field or a mark before the first record sets a clef or key, which otherwise is there by default."""
        stored = next(i for i in range(len(self.tokens)) if self.records(i))
        return any(t[0] == sign and known(t[1:]) for j, t in self.before(stored))

    def notes_and_bars(self, answer):
        known = lambda value: value in CLEFS or len(value) == 3 and value[1] == "+" and value.replace("+", "-") in CLEFS
        clef_set = any(map(known, self.clefs)) or self.is_set("%", known)
        key_set = self.keysig or self.is_set("$", lambda value: True)
        copied = {place for place, token in self.tokens if token in "fi"}
        return note_rows(answer.notes, copied), bar_rows(answer.bars, answer.notes, clef_set, key_set)

    def key_name(self, fifths):
        return counted(abs(fifths), "sharp" if fifths > 0 else "flat") if fifths else "no signs"

    def lost(self, i):
        """That what is set for the next bar is lost, as none follows (S-5.14)."""
        lost = self.known and self.behind(i, lambda j, t: self.records(j)) is None
        return "; no bar follows, so it is lost" * lost

    def taken(self, i, taker, ender, ended="replaced", missing="no letter follows"):
        """What became of a mark that waits for a letter."""
        first = self.behind(i, lambda j, t: taker(j, t) or ender(j, t))
        if first is None:
            return f", and {missing}"
        return (", for " if taker(first, self.tokens[first][1]) else f", {ended} by ") + self.at(first)

    def opening(self, i, ender, ended):
        """What became of a mark that waits for a letter that opens a note."""
        return self.taken(i, lambda j, t: self.opens(j), ender, ended, "no note is opened after it")

    def open(self, i, opener):
        """What became of a group, beam or figure that is opened."""
        first = self.behind(i, lambda j, t: t in (opener, CLOSERS[opener]))
        if first is None:
            return f", and no {CLOSERS[opener]} follows"
        return "" if self.tokens[first][1] == CLOSERS[opener] else f", replaced by {self.at(first)}"

    def chord(self, i):
        letter = self.behind(i, lambda j, t: t in STEPS)
        if letter is None:
            return ", and no letter follows"
        if letter in self.joining:
            return f": {self.at(letter)} joins the last note"
        return f" finds no note to join: {self.at(letter)} opens one"

    def bar(self, i):
        """How many bars are stored before a token (S-10.1)."""
        last = next((j for j, t in self.before(i) if self.records(j)), None)
        return 0 if last is None else self.records(last)[-1][11] - (self.last_record(i) is not None)

    def opened(self, i, closer):
        """The token that opened what is open for a `)`, `}` or `!`."""
        if closer == "!":
            marks = [j for j, t in self.before(i) if t == "!"]
            return marks[0] if len(marks) % 2 else None
        return next((j for j, t in self.before(i, lambda j, t: t == closer) if t == OPENERS[closer]), None)

    def ending(self, i, token, found):
        name, opened = NAMES[OPENERS[token]], self.opened(i, token)
        if token == "!" and opened is None:
            return "figure starts" + self.open(i, "!")
        if not self.known:
            return f"end of a {name}"
        if opened is None:
            return f"no {name} to end"
        later = self.bar(opened) != self.bar(i)
        assert token == "}" or later == (found in (10, 17))
        made = " in an earlier bar: nothing is made of it" if later else self.made(opened, i, token)
        return f"{name} ends, opened by {self.at(opened)}{made}"

    def made(self, opened, i, token):
        """What is made of a figure (S-11.2), a beam (S-10.5) or a group (S-10.7 to S-10.11)."""
        stored = [record for j in range(opened, i) for record in self.records(j)]
        timed = [record for record in stored if record[1] not in (2, 3)]
        if token == "!":
            return "" if stored else ": of no note"
        if token == "}":
            return "" if len(timed) > 1 else ": of fewer than two no beam is made"
        if not timed:
            return ": without a note or rest, graces apart, nothing is made of it"
        counts = [count_of(t[1:]) for j, t in self.before(i, lambda j, t: j == opened) if t[0] == ";"]
        count = next((c for c in counts if c is not None), None)
        if count is None and len(timed) == 1:
            return ": a fermata"
        actual = 3 if count is None else count
        return f": a tuplet of {actual}" if actual > 2 else ": of fewer than three no tuplet is made"


# ---- the notes and the bars, rows without their columns

def same_rows(rows, alike, words):
    """Rows with those that are like the one before them taken together, where they are two or more."""
    n = 0
    while n < len(rows):
        yield f"{n + 1} {rows[n]}"
        end = n + 1
        while end < len(rows) and alike(end):
            end += 1
        if end > n + 2:
            yield f"{n + 2} to {end}: the same{words}"
            n = end
        else:
            n += 1


def note_rows(notes, copied):
    rows = []
    for note in notes:
        ties = ["", "tie starts", "tie ends", "tie ends and starts"][note[4]]
        beam = ["", "beam starts", "beam", "beam ends"][note[5]]
        tuplet = f"tuplet {note[6]}:{note[7]}" if note[6] else ""
        marks = ["trill" if note[9] >> i & 1 else "fermata" for i in range(note[8])]
        notations = ", ".join(n for n in [ties, beam, tuplet, *marks, "copy" * (note[0] in copied)] if n)
        length = "" if note[1] == 4 else f"{LENGTHS[note[2]]} {'.' * note[3]}"
        pitches = " ".join(map(named, pitches_of(note)))
        rows.append(" ".join(f"{note[0]} {KINDS[note[1]]} {length} {pitches} {notations}".split()))
    alike = lambda n: notes[n][1] == 4 and notes[n][:11] == notes[n - 1][:11]
    return list(same_rows(rows, alike, ""))


def bar_rows(bars, notes, clef_set, key_set):
    rows = []
    for n, bar in enumerate(bars):
        span = f"{bar[0] + 1}" if bar[1] == 1 else f"{bar[0] + 1} to {bar[0] + bar[1]}"
        key = Told.key_name(None, bar[4]) if bar[3] else "-"
        meter = f"{bar[5]}/{bar[6]}{SYMBOLS[bar[7]]}" if bar[5] else "-"
        star = lambda is_set: "" if n or is_set else "*"
        sides = f"{SIDES[bar[8]]} {SIDES[bar[9]]}"
        rows.append(f"{span} {CLEF_NAMES[bar[2]]}{star(clef_set)} {key}{star(key_set)} {meter} {sides}")
    resting = lambda n: bars[n][1] == 1 and notes[bars[n][0]][1] == 4
    alike = lambda n: resting(n) and resting(n - 1) and bars[n][2:] == bars[n - 1][2:]
    return list(same_rows(rows, alike, ", a whole-bar rest each"))

"""The look-back and the agreement of docs/SPECIFICATION.md, section 14, worked out from the text."""
import re

BLANKS = "".join(chr(c) for c in [*range(9, 14), 32, 0x85, 0xA0, 0x1680, *range(0x2000, 0x200B), 0x2028, 0x2029, 0x202F,
                                  0x205F, 0x3000])
TOKEN = re.compile(rf"'+|,+|x+|b+|[0-9][0-9.]*|[;=][0-9]*|%[^{BLANKS}]{{0,3}}|\$[xbnA-G\[\]]*|@[0-9/c.+]*"
                   r"|://:|://|//:|//|qq|.", re.DOTALL)
SIGNS = {"x": 1, "xx": 2, "b": -1, "bb": -2, "n": 0}
DIGITS = "0912486357"


def key_of(value):
    """The alteration of each letter."""
    alters, sign = {}, None
    for c in value:
        if c in "xb":
            sign = SIGNS[c]
        elif sign is not None and c in "ABCDEFG":
            alters[c] = sign
    return alters


def data_of(text):
    """The data, and the key of the fields (S-4)."""
    lines = [line.strip(BLANKS) for line in text.split("\n")]
    fields = [m.groups() for m in (re.match(r"@([A-Za-z]+):(.*)", line, re.DOTALL) for line in lines) if m]
    values = {name: value.strip(BLANKS) for name, value in fields}
    return (values["data"] if fields else text), key_of(values.get("keysig", ""))


class LookBack:
    def __init__(self, text, notes):
        data, self.key = data_of(text.decode())
        self.tokens = [(m.start() + 1, m[0]) for m in TOKEN.finditer(data)]
        self.stored = {}
        for note in notes:
            self.stored.setdefault(note[0], []).append(note)
        self.joining = set()
        self.notes = notes

    def before(self, i, stop=lambda j, token: False):
        """The tokens before token i, the latest first, back to where it stops."""
        for j in range(i - 1, -1, -1):
            if stop(j, self.tokens[j][1]):
                return
            yield j, self.tokens[j][1]

    def since_letter(self, i):
        return self.before(i, lambda j, token: token in "ABCDEFG")

    def since_barline(self, i):
        return self.before(i, lambda j, token: is_barline(token) or whole_bars(token) > 1)

    def octave(self, i):
        octaves = (3 + len(t) if t[0] == "'" else 4 - len(t) for j, t in self.before(i) if t[0] in "',")
        return next((o for o in octaves if 0 <= o <= 9), 4)

    def sign(self, i):
        return next((SIGNS[t[:2]] for j, t in self.since_letter(i) if t[0] in "xbn"), None)

    def last_record(self, i):
        """The last record stored since the last barline (S-14.6)."""
        for j, token in self.before(i, lambda j, token: is_barline(token)):
            if records := self.stored.get(self.tokens[j][0]):
                return records[-1]
        return None

    def alteration(self, i):
        letter, octave = self.tokens[i][1], self.octave(i)
        marked = (self.sign(j) for j, t in self.since_barline(i) if t == letter and self.octave(j) == octave)
        keys = (key_of(t) for j, t in self.before(i) if t[0] == "$" and not self.last_record(j))
        found = [self.sign(i), next((s for s in marked if s is not None), None), next(keys, self.key).get(letter, 0)]
        return next(f for f in found if f is not None)

    def joins(self, i):
        last = self.last_record(i)
        return any(t == "^" for j, t in self.since_letter(i)) and last is not None and last[1] not in (1, 4)

    def opens(self, i):
        return self.tokens[i][1] in "ABCDEFG" and i not in self.joining

    def kind(self, i):
        sign = next((t for j, t in self.before(i, lambda j, token: self.opens(j)) if t in ("g", "q")), None)
        group = next((t for j, t in self.before(i) if t in ("qq", "r")), "r")
        return 3 if sign == "g" else 2 if sign or group == "qq" else 0

    def length(self, i):
        if self.kind(i) == 3:
            return [5, 0]
        since = list(self.before(i, lambda j, token: token[0].isascii() and token[0].isdigit()))
        taken = sum(t == "-" or self.opens(j) and self.kind(j) == 0 for j, t in since)
        pattern = re.findall(r"\d\.*", self.tokens[i - len(since) - 1][1]) if len(since) < i else ["4"]
        element = pattern[taken % len(pattern)]
        return [DIGITS.index(element[0]), min(len(element) - 1, 3)]

    def disagreements(self):
        """Where the stored records and the look-back don't agree (S-14.10 to S-14.15)."""
        pitches, count = {}, 0
        for i, (place, token) in enumerate(self.tokens):
            here = [note[:4] for note in self.stored.get(place, [])]
            expected = None
            if token in "ABCDEFG":
                pitches[place] = [place, "CDEFGAB".index(token), self.octave(i), self.alteration(i)]
                if self.joins(i):
                    self.joining.add(i)
                    expected = []
                else:
                    expected = [[place, self.kind(i), *self.length(i)]]
            elif token[0] == "=":
                expected = [[place, 4, 0, 0]] * whole_bars(token)
            if expected is not None and here != expected:
                yield f"the look-back at place {place} gives {expected}, but it is {here}"
            count += len(here) if token in "fi" else token == "-" if expected is None else len(expected)
        stored = [note[at:at + 4] for note in self.notes for at in range(12, 12 + 4 * note[10], 4)]
        if any(pitches.get(pitch[0]) != pitch for pitch in stored) or len({p[0] for p in stored}) != len(pitches):
            yield f"the look-back gives the pitches {list(pitches.values())}, but they are {stored}"
        if count != len(self.notes):
            yield f"the look-back counts {count} records, but they are {len(self.notes)}"


def is_barline(token):
    return token[0] == "/" or token[:2] == ":/"


def whole_bars(token):
    """How many whole-bar rests an = stores."""
    count = int(token[1:] or 1) if token[0] == "=" else 0
    return count if count <= 1000 else 0

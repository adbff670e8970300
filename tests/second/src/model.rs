//! A second reader of Plaine & Easie Code, written from the scope that the reader was asked to have and the requests R-1,
//! alone, whose words docs/SPECIFICATION.md has replaced. The quoted sentences are theirs. It is plain on purpose: tokens are cut first, then read one by one.

pub const NOTE_WORDS: usize = 44;
pub const BAR_WORDS: usize = 10;
pub const DIAGNOSTIC_WORDS: usize = 6;
pub const MAX_NOTES: usize = 100_000;
pub const CELLS: usize = 1024;

/// What is lent: words for notes, bars and figure, cells for diagnostics.
#[derive(Clone, Copy, Debug, PartialEq)]
pub struct Lent {
    pub notes: usize,
    pub bars: usize,
    pub figure: usize,
    pub diagnostics: usize,
}

/// "The result holds the number (0: accepted, place 0), a place, and counts of notes, bars, diagnostics."
#[derive(Clone, Debug, PartialEq)]
pub struct Answer {
    pub number: u32,
    pub place: u32,
    pub notes: Vec<[i32; NOTE_WORDS]>,
    pub bars: Vec<[i32; BAR_WORDS]>,
    pub diagnostics: Vec<[i32; DIAGNOSTIC_WORDS]>,
    /// Records stored until the end or the refusal, and those of the longest figure.
    pub needs: Needs,
    pub closings: Closings,
}

#[derive(Clone, Copy, Debug, Default, PartialEq)]
pub struct Needs {
    pub notes: usize,
    pub bars: usize,
    pub figure: usize,
}

/// Closings of `)`, `}` and `!` until the end or the refusal, counted to show what the lines test: in a later bar
/// than the opening; and in the same bar, but behind a barline in the empty bar.
#[derive(Clone, Copy, Debug, Default, PartialEq)]
pub struct Closings {
    pub later: [u64; 3],
    pub same: [u64; 3],
}

const NOTE: i32 = 0;
const REST: i32 = 1;
const GRACE: i32 = 2;
const SLASHED: i32 = 3;
/// "records of kind 4, the whole-bar rest"
const BAR_REST: i32 = 4;

#[derive(Clone, Copy)]
struct Pitch {
    place: i32,
    step: i32,
    octave: i32,
    alteration: i32,
}

#[derive(Clone)]
struct Note {
    place: i32,
    kind: i32,
    duration: i32,
    dots: i32,
    ties: i32,
    beam: i32,
    actual: i32,
    normal: i32,
    marks: Vec<i32>,
    pitches: Vec<Pitch>,
    bar: i32,
}

impl Note {
    /// "The record counts as a rest for chords, `+` and groups."
    fn is_rest(&self) -> bool {
        self.kind == REST || self.kind == BAR_REST
    }

    fn is_grace(&self) -> bool {
        self.kind == GRACE || self.kind == SLASHED
    }

    /// "Note, 44 words: place of the storing token; kind; duration; dots; ties; beam; tuplet actual and normal; mark
    /// count; marks, bit i being mark i in order of arrival; pitch count; bar number from 1; then 8 pitches of four
    /// words: letter's place, step, octave, alteration. Unused pitches are 0."
    fn words(&self) -> [i32; NOTE_WORDS] {
        let mut words = [0; NOTE_WORDS];
        words[0] = self.place;
        words[1] = self.kind;
        words[2] = self.duration;
        words[3] = self.dots;
        words[4] = self.ties;
        words[5] = self.beam;
        words[6] = self.actual;
        words[7] = self.normal;
        words[8] = self.marks.len() as i32;
        for (i, mark) in self.marks.iter().enumerate() {
            words[9] |= mark << i;
        }
        words[10] = self.pitches.len() as i32;
        words[11] = self.bar;
        for (i, pitch) in self.pitches.iter().enumerate() {
            words[12 + 4 * i] = pitch.place;
            words[13 + 4 * i] = pitch.step;
            words[14 + 4 * i] = pitch.octave;
            words[15 + 4 * i] = pitch.alteration;
        }
        words
    }
}

#[derive(Clone, Copy, Default)]
struct Bar {
    first: usize,
    count: usize,
    clef: i32,
    key_set: i32,
    fifths: i32,
    numerator: i32,
    denominator: i32,
    symbol: i32,
    left: i32,
    right: i32,
}

impl Bar {
    /// "Bar, 10 words: first note from 0; note count; clef; key set 0 or 1; fifths; numerator, denominator; symbol;
    /// left, right."
    fn words(&self) -> [i32; BAR_WORDS] {
        [
            self.first as i32,
            self.count as i32,
            self.clef,
            self.key_set,
            self.fifths,
            self.numerator,
            self.denominator,
            self.symbol,
            self.left,
            self.right,
        ]
    }
}

/// A part of the text by offsets from 0, the end exclusive.
#[derive(Clone, Copy)]
struct Part {
    start: usize,
    end: usize,
}

/// "place kind (1 line, 2 line with field, 3 data); place"
#[derive(Clone, Copy)]
struct Spot {
    kind: i32,
    place: i32,
}

struct Token {
    place: usize,
    part: Part,
}

/// A refusal: number and place.
type Refusal = (u32, u32);

/// "blanks are Unicode White_Space"
fn blank(c: char) -> bool {
    matches!(c as u32, 9..=13 | 32 | 0x85 | 0xA0 | 0x1680 | 0x2000..=0x200A | 0x2028 | 0x2029 | 0x202F | 0x205F | 0x3000)
}

/// The part without the blanks at both ends.
fn trim(text: &str, part: Part) -> Part {
    let whole = &text[part.start..part.end];
    let start = part.start + (whole.len() - whole.trim_start_matches(blank).len());
    let kept = text[start..part.end].trim_end_matches(blank).len();
    Part { start, end: start + kept }
}

/// The value of decimal digits if it is at most `limit`; none for no digits or another byte.
fn number(digits: &str, limit: u32) -> Option<u32> {
    if digits.is_empty() {
        return None;
    }
    let mut value = 0;
    for c in digits.chars() {
        value = value * 10 + c.to_digit(10)?;
        if value > limit {
            return None;
        }
    }
    Some(value)
}

/// "Tokens are cut from the left by the text alone". Data places count characters from 1.
fn cut(text: &str, data: Part) -> Vec<Token> {
    let chars: Vec<(usize, char)> = text[data.start..data.end].char_indices().collect();
    let mut tokens = Vec::new();
    let mut at = 0;
    while at < chars.len() {
        let length = token_length(&chars[at..]);
        let end = if at + length < chars.len() { chars[at + length].0 } else { data.end - data.start };
        let part = Part { start: data.start + chars[at].0, end: data.start + end };
        tokens.push(Token { place: at + 1, part });
        at += length;
    }
    tokens
}

/// The characters of the token at the front.
fn token_length(chars: &[(usize, char)]) -> usize {
    let behind = |wanted: &dyn Fn(char) -> bool| 1 + chars[1..].iter().take_while(|(_, c)| wanted(*c)).count();
    let longest = |words: &[&str]| {
        let fits = |word: &&&str| word.chars().enumerate().all(|(i, c)| i < chars.len() && chars[i].1 == c);
        words.iter().find(fits).expect("the last is one character").len()
    };
    match chars[0].1 {
        // "a run of `'`, of `,`, of `x` or of `b`"
        first @ ('\'' | ',' | 'x' | 'b') => behind(&|c| c == first),
        // "a digit with following digits and dots"
        '0'..='9' => behind(&|c| c.is_ascii_digit() || c == '.'),
        // "`;` or `=` with following digits"
        ';' | '=' => behind(&|c| c.is_ascii_digit()),
        // "`%` with up to 3 non-blanks"
        '%' => behind(&|c| !blank(c)).min(4),
        // "`$` with following `x b n A-G [ ]`"
        '$' => behind(&|c| matches!(c, 'x' | 'b' | 'n' | 'A'..='G' | '[' | ']')),
        // "`@` with following digits and `/ c . +`"
        '@' => behind(&|c| matches!(c, '0'..='9' | '/' | 'c' | '.' | '+')),
        // "the longest of `://:`, `://`, `:`; of `//:`, `//`, `/`; of `qq`, `q`; else one byte" (one character, R-1)
        ':' => longest(&["://:", "://", ":"]),
        '/' => longest(&["//:", "//", "/"]),
        'q' => longest(&["qq", "q"]),
        _ => 1,
    }
}

/// "A field line, trimmed, begins with `@`, one or more ASCII letters, `:`; the trimmed rest is its value." The key and
/// the value of a trimmed line.
fn field(text: &str, line: Part) -> Option<(Part, Part)> {
    let rest = text[line.start..line.end].strip_prefix('@')?;
    let letters = rest.bytes().take_while(|b| b.is_ascii_alphabetic()).count();
    if letters == 0 || rest.as_bytes().get(letters) != Some(&b':') {
        return None;
    }
    let key = Part { start: line.start + 1, end: line.start + 1 + letters };
    Some((key, trim(text, Part { start: key.end + 1, end: line.end })))
}

/// "Lines end at byte 10." All lines, trimmed.
fn lines(text: &str) -> Vec<Part> {
    let mut lines = Vec::new();
    let mut start = 0;
    for line in text.split('\n') {
        lines.push(trim(text, Part { start, end: start + line.len() }));
        start += line.len() + 1;
    }
    lines
}

/// "G-2, g-2, F-4, C-1 to C-5 give treble, treble8vb, bass, soprano, mezzo, alto, tenor, baritone."
fn clef(value: &str) -> Option<i32> {
    ["G-2", "g-2", "F-4", "C-1", "C-2", "C-3", "C-4", "C-5"]
        .iter()
        .position(|name| *name == value)
        .map(|i| i as i32 + 1)
}

fn step(letter: char) -> usize {
    "CDEFGAB".find(letter).expect("a letter A to G")
}

struct Key {
    alterations: [i32; 7],
    fifths: i32,
    unusual: bool,
}

fn key(value: &str) -> Key {
    let mut alterations = [0; 7];
    let mut named = String::new();
    let mut unusual = false;
    let mut sign = 0;
    for c in value.chars() {
        match c {
            'x' => sign = 1,
            'b' => sign = -1,
            // "a letter A to G after a sign gets 1 (`x`) or -1 (`b`) by the nearest sign before it; its last naming
            // counts; unnamed steps get 0"
            'A'..='G' if sign != 0 => {
                alterations[step(c)] = sign;
                named.push(c);
            }
            // "Any other byte but a space, a letter before any sign too, gives d6 also, fifths kept."
            ' ' => (),
            _ => unusual = true,
        }
    }
    // "Fifths, by those letters in order: none, 0; a beginning of FCGDAEB, no `b` in the value: their count; a
    // beginning of BEADGCF, no `x`: minus it; else 0 and d6."
    let count = named.len() as i32;
    let fifths = if count == 0 {
        0
    } else if "FCGDAEB".starts_with(&named) && !value.contains('b') {
        count
    } else if "BEADGCF".starts_with(&named) && !value.contains('x') {
        -count
    } else {
        unusual = true;
        0
    };
    Key { alterations, fifths, unusual }
}

/// "`c` 4/4 common, `c/` 2/2 cut, else two numbers about the first `/`, each an optional `+` and digits, 1 to 255, the
/// second a power of two, no symbol." Numerator, denominator, symbol.
fn meter(value: &str) -> Option<(i32, i32, i32)> {
    if value == "c" {
        return Some((4, 4, 1));
    }
    if value == "c/" {
        return Some((2, 2, 2));
    }
    let (over, under) = value.split_once('/')?;
    let part = |s: &str| number(s.strip_prefix('+').unwrap_or(s), 255).filter(|n| *n >= 1);
    let (over, under) = (part(over)?, part(under)?);
    if [1, 2, 4, 8, 16, 32, 64, 128].contains(&under) { Some((over as i32, under as i32, 0)) } else { None }
}

/// "Digits 0 9 1 2 4 8 6 3 5 7 are longa to 128th; dots cap at 3": durations with dots.
fn pattern(token: &str) -> Vec<(i32, i32)> {
    let mut elements: Vec<(i32, i32)> = Vec::new();
    for c in token.chars() {
        if c == '.' {
            let last = elements.last_mut().expect("a digit stands first");
            last.1 = (last.1 + 1).min(3);
        } else {
            elements.push(("0912486357".find(c).expect("a digit") as i32, 0));
        }
    }
    elements
}

/// Where a group, beam or figure was opened: "A group, beam or figure is to remember its bar", told by the bars
/// stored before it, and the open bar's length.
#[derive(Clone, Copy)]
struct Start {
    bar: usize,
    length: usize,
    /// For the counts only.
    empty_barlines: usize,
}

struct State<'a> {
    text: &'a str,
    note_records: usize,
    bar_records: usize,
    figure_records: usize,
    notes: Vec<Note>,
    bars: Vec<Bar>,
    /// What the open bar has set at its start.
    open: Bar,
    /// The index of the open bar's first note.
    open_first: usize,
    diagnostics: Vec<[i32; DIAGNOSTIC_WORDS]>,
    octave: i32,
    pattern: Vec<(i32, i32)>,
    steps: usize,
    key: [i32; 7],
    accidentals: [[Option<i32>; 10]; 7],
    waiting: Option<i32>,
    chord: bool,
    mark: Option<i32>,
    grace_group: bool,
    tie: bool,
    beam: Option<Start>,
    group: Option<Start>,
    group_count: Option<u32>,
    figure_start: Option<Start>,
    figure: Vec<Note>,
    longest_figure: usize,
    /// For the counts only: barlines in an empty bar, and the closings.
    empty_barlines: usize,
    closings: Closings,
}

impl<'a> State<'a> {
    /// "A fresh reading starts in octave 4 with a quarter, key 0."
    fn new(text: &'a str, lent: Lent) -> State<'a> {
        State {
            text,
            // "Only whole records count as lent."
            note_records: lent.notes / NOTE_WORDS,
            bar_records: lent.bars / BAR_WORDS,
            figure_records: lent.figure / NOTE_WORDS,
            notes: Vec::new(),
            bars: Vec::new(),
            open: Bar::default(),
            open_first: 0,
            diagnostics: Vec::new(),
            octave: 4,
            pattern: vec![(4, 0)],
            steps: 0,
            key: [0; 7],
            accidentals: [[None; 10]; 7],
            waiting: None,
            chord: false,
            mark: None,
            grace_group: false,
            tie: false,
            beam: None,
            group: None,
            group_count: None,
            figure_start: None,
            figure: Vec::new(),
            longest_figure: 0,
            empty_barlines: 0,
            closings: Closings::default(),
        }
    }

    fn part(&self, part: Part) -> &'a str {
        &self.text[part.start..part.end]
    }

    /// The length of the open bar.
    fn length(&self) -> usize {
        self.notes.len() - self.open_first
    }

    /// "The first 1,024 are stored, later ones dropped."
    fn diagnose(&mut self, words: [i32; DIAGNOSTIC_WORDS]) {
        if self.diagnostics.len() < CELLS {
            self.diagnostics.push(words);
        }
    }

    /// A diagnostic whose value is a part of the text.
    fn about(&mut self, d: i32, spot: Spot, value: Part) {
        self.diagnose([d, spot.kind, spot.place, 1, value.start as i32, value.end as i32]);
    }

    fn take_clef(&mut self, spot: Spot, value: Part) {
        let mut name: Vec<char> = self.part(value).chars().collect();
        // "Any three bytes with `+` in the middle give d4 and read as if it were `-`." (three characters, R-1)
        if name.len() == 3 && name[1] == '+' {
            self.about(4, spot, value);
            name[1] = '-';
        }
        // "Else d5, after any d4."
        match clef(&name.iter().collect::<String>()) {
            Some(clef) => self.open.clef = clef,
            None => self.about(5, spot, value),
        }
    }

    fn take_key(&mut self, spot: Spot, value: Part) {
        let key = key(self.part(value));
        // "One d6 at most; the alterations always hold."
        if key.unusual {
            self.about(6, spot, value);
        }
        self.key = key.alterations;
        self.open.key_set = 1;
        self.open.fifths = key.fifths;
    }

    fn take_meter(&mut self, spot: Spot, value: Part) {
        match meter(self.part(value)) {
            Some((numerator, denominator, symbol)) => {
                self.open.numerator = numerator;
                self.open.denominator = denominator;
                self.open.symbol = symbol;
            }
            // "Else d7, old meter kept."
            None => self.about(7, spot, value),
        }
    }

    /// The fields, line by line; gives the last data value.
    fn fields(&mut self, lines: &[Part]) -> Option<Part> {
        let mut data = None;
        for (i, line) in lines.iter().enumerate() {
            // "Empty lines are skipped"
            if line.start == line.end {
                continue;
            }
            // "Only d2 has place kind 2; what else a line gives has kind 1."
            let spot = Spot { kind: 1, place: i as i32 + 1 };
            match field(self.text, *line) {
                // "other non-field lines are d1, the trimmed line their value"
                None => self.about(1, spot, *line),
                Some((key, value)) => match self.part(key) {
                    "clef" => self.take_clef(spot, value),
                    "keysig" => self.take_key(spot, value),
                    "timesig" => self.take_meter(spot, value),
                    // "The last data value is read, trimmed, places counted in it, after all fields."
                    "data" => data = Some(value),
                    // "keys other than clef, keysig, timesig, data d2"
                    _ => self.about(2, Spot { kind: 2, ..spot }, value),
                },
            }
        }
        data
    }

    /// "storing notes: 7, stored notes would pass 100,000; 8, they would pass the lent note records"
    fn room_for(&self, count: usize, place: i32) -> Result<(), Refusal> {
        if self.notes.len() + count > MAX_NOTES {
            return Err((7, place as u32));
        }
        if self.notes.len() + count > self.note_records {
            return Err((8, place as u32));
        }
        Ok(())
    }

    /// Stores a fresh record in the open bar.
    fn store(&mut self, place: i32, kind: i32, duration: i32, dots: i32) -> Result<(), Refusal> {
        self.room_for(1, place)?;
        let bar = self.bars.len() as i32 + 1;
        self.notes.push(Note {
            place,
            kind,
            duration,
            dots,
            ties: 0,
            beam: 0,
            actual: 0,
            normal: 0,
            marks: Vec::new(),
            pitches: Vec::new(),
            bar,
        });
        Ok(())
    }

    /// "Copies lose ties and get the `f` or `i` place; pitch places stay."
    fn append(&mut self, copied: Vec<Note>, place: i32) -> Result<(), Refusal> {
        self.room_for(copied.len(), place)?;
        let bar = self.bars.len() as i32 + 1;
        for note in copied {
            self.notes.push(Note { place, ties: 0, bar, ..note });
        }
        Ok(())
    }

    /// The open bar is stored with this right barline, if it has notes.
    fn close(&mut self, right: i32, place: u32) -> Result<(), Refusal> {
        // "barline, end: 12, the bar to store passes the lent bar records"
        if self.bars.len() + 1 > self.bar_records {
            return Err((12, place));
        }
        let mut bar = Bar { first: self.open_first, count: self.length(), right, ..self.open };
        // "The first stored bar, if it has no clef, gets treble; if no key, a set key of fifths 0."
        if self.bars.is_empty() {
            if bar.clef == 0 {
                bar.clef = 1;
            }
            if bar.key_set == 0 {
                bar.key_set = 1;
                bar.fifths = 0;
            }
        }
        self.bars.push(bar);
        self.open = Bar::default();
        self.open_first = self.notes.len();
        Ok(())
    }

    fn barline(&mut self, right: i32, left: i32, place: i32) -> Result<(), Refusal> {
        // "All clear the bar's accidentals."
        self.accidentals = [[None; 10]; 7];
        if self.length() > 0 {
            self.close(right, place as u32)?;
            self.open.left = left;
            return Ok(());
        }
        // "An empty bar isn't stored; a left of 2 is noted on it."
        if left == 2 {
            self.open.left = 2;
        }
        self.empty_barlines += 1;
        Ok(())
    }

    /// "Each non-grace opening takes the next pattern value; a `q` or group grace takes it without stepping".
    fn pattern_value(&self) -> (i32, i32) {
        self.pattern[self.steps % self.pattern.len()]
    }

    fn letter(&mut self, letter: char, place: i32) -> Result<(), Refusal> {
        let step = step(letter);
        // "After `^` the next letter joins the open bar's last record as a pitch if there is one and it is no rest"
        let chord = std::mem::take(&mut self.chord);
        let joins = chord && self.length() > 0 && !self.notes.last().unwrap().is_rest();
        if joins {
            // "chord letter: 9, the note has 8 pitches"
            if self.notes.last().unwrap().pitches.len() == 8 {
                return Err((9, place as u32));
            }
        } else {
            // "otherwise, as without `^`, it opens a record"
            self.open_note(place)?;
        }
        // "that letter takes it and enters it at its step and octave. Any other letter takes the entry there, else its
        // step's key alteration."
        let entry = &mut self.accidentals[step][self.octave as usize];
        let alteration = match self.waiting.take() {
            Some(sign) => {
                *entry = Some(sign);
                sign
            }
            None => entry.unwrap_or(self.key[step]),
        };
        let pitch = Pitch { place, step: step as i32, octave: self.octave, alteration };
        self.notes.last_mut().unwrap().pitches.push(pitch);
        Ok(())
    }

    fn open_note(&mut self, place: i32) -> Result<(), Refusal> {
        // "`g` (kind 3) and `q` (kind 2) mark the next opened note [..]; `qq` to `r` is a group, kind 2 where unmarked"
        let kind = match self.mark.take() {
            Some(kind) => kind,
            None if self.grace_group => GRACE,
            None => NOTE,
        };
        // "a `g` note is an eighth, no dots"
        let (duration, dots) = if kind == SLASHED { (5, 0) } else { self.pattern_value() };
        self.store(place, kind, duration, dots)?;
        if kind == NOTE {
            self.steps += 1;
        }
        // "starts its tie, which ends at the next opened note"
        if std::mem::take(&mut self.tie) {
            self.notes.last_mut().unwrap().ties |= 2;
        }
        Ok(())
    }

    /// "`-` takes the next pattern value."
    fn rest(&mut self, place: i32) -> Result<(), Refusal> {
        let (duration, dots) = self.pattern_value();
        self.store(place, REST, duration, dots)?;
        self.steps += 1;
        // "a rest cancels"
        self.tie = false;
        Ok(())
    }

    /// R-2, "Rests of whole bars".
    fn bar_rests(&mut self, digits: Part, spot: Spot) -> Result<(), Refusal> {
        // "Accept `=` with a count of 1 to 1,000, none meaning 1."
        let count = if digits.start == digits.end { Some(1) } else { number(self.part(digits), 1000) };
        match count {
            // "A bad count is d20 with the digits."
            None | Some(0) => self.about(20, spot, digits),
            Some(count) => {
                for i in 0..count {
                    // "A normal barline, clearing accidentals, stands between two of them; records and barlines are
                    // checked in turn."
                    if i > 0 {
                        self.barline(0, 0, spot.place)?;
                    }
                    // "It stores that many records of kind 4, the whole-bar rest: duration, dots and pitch count 0,
                    // the `=` token's place." "It doesn't step the pattern or cancel a tie."
                    self.store(spot.place, BAR_REST, 0, 0)?;
                }
            }
        }
        Ok(())
    }

    /// "trill, fermata: 10, the note has 8 marks"
    fn add_mark(&mut self, note: usize, mark: i32, place: i32) -> Result<(), Refusal> {
        if self.notes[note].marks.len() == 8 {
            return Err((10, place as u32));
        }
        self.notes[note].marks.push(mark);
        Ok(())
    }

    /// The indices of the open bar's non-grace records from a length on.
    fn non_grace_from(&self, start: usize) -> Vec<usize> {
        (self.open_first + start..self.notes.len()).filter(|i| !self.notes[*i].is_grace()).collect()
    }

    /// A start at the open bar's end.
    fn start(&self) -> Start {
        Start { bar: self.bars.len(), length: self.length(), empty_barlines: self.empty_barlines }
    }

    /// "Closed in a later bar" (R-4): a bar was stored since the start. "a barline in an empty bar starts no later
    /// one", for it stores none. An inner barline of `=` has a record before it, so it does. Counted by what is closed.
    fn in_later_bar(&mut self, start: Start, closed: usize) -> bool {
        let later = self.bars.len() > start.bar;
        if later {
            self.closings.later[closed] += 1;
        } else if self.empty_barlines > start.empty_barlines {
            self.closings.same[closed] += 1;
        }
        later
    }

    /// "`}` beams the open bar's non-grace records from that length on, rests too, if two or more; without `{` nothing."
    fn close_beam(&mut self) {
        let Some(start) = self.beam.take() else { return };
        // "a beam is dropped silently"
        if self.in_later_bar(start, 1) {
            return;
        }
        let beamed = self.non_grace_from(start.length);
        if beamed.len() < 2 {
            return;
        }
        for i in &beamed {
            self.notes[*i].beam = 2;
        }
        self.notes[beamed[0]].beam = 1;
        self.notes[beamed[beamed.len() - 1]].beam = 3;
    }

    fn close_group(&mut self, token: Part, spot: Spot) -> Result<(), Refusal> {
        // "`)` without `(` is d13"
        let Some(start) = self.group.take() else {
            self.about(13, spot, token);
            return Ok(());
        };
        let count = self.group_count.take();
        // "Closed in a later bar, `(` always gives d10" (R-4, for the scope's "start beyond the bar's length, d10")
        if self.in_later_bar(start, 0) {
            self.diagnose([10, spot.kind, spot.place, 2, 0, 0]);
            return Ok(());
        }
        // "No non-grace record: nothing. One and no count: fermata."
        let grouped = self.non_grace_from(start.length);
        if grouped.is_empty() {
            return Ok(());
        }
        if grouped.len() == 1 && count.is_none() {
            return self.add_mark(grouped[0], 0, spot.place);
        }
        // "Else actual is the count or 3; below 3, d11 with the number; normal is the largest power of two not above
        // actual less one."
        let actual = count.unwrap_or(3) as i32;
        if actual < 3 {
            self.diagnose([11, spot.kind, spot.place, 3, actual, 0]);
            return Ok(());
        }
        let mut normal = 1;
        while normal * 2 <= actual - 1 {
            normal *= 2;
        }
        for i in grouped {
            self.notes[i].actual = actual;
            self.notes[i].normal = normal;
        }
        Ok(())
    }

    /// "First `!` notes the open bar's length; the second copies the notes from there into the figure".
    fn figure_mark(&mut self, token: Part, spot: Spot) -> Result<(), Refusal> {
        let Some(start) = self.figure_start.take() else {
            self.figure_start = Some(self.start());
            return Ok(());
        };
        // "Closed in a later bar, [..] `!` d17" (R-4, for the scope's "or is d17 if the bar is now shorter")
        if self.in_later_bar(start, 2) {
            self.about(17, spot, token);
            return Ok(());
        }
        let copied = self.notes[self.open_first + start.length..].to_vec();
        self.longest_figure = self.longest_figure.max(copied.len());
        // "closing `!`: 11, the figure passes the lent figure records"
        if copied.len() > self.figure_records {
            return Err((11, spot.place as u32));
        }
        self.figure = copied;
        Ok(())
    }

    fn token(&mut self, token: &Token) -> Result<(), Refusal> {
        let place = token.place as i32;
        let spot = Spot { kind: 3, place };
        let whole = token.part;
        let text = self.part(whole);
        let first = text.chars().next().expect("a token has a character");
        // "Values are the text after the first byte for `%`, `$`, `@`, `;`, for other tokens all of it."
        let behind = Part { start: whole.start + first.len_utf8(), end: whole.end };
        let length = text.chars().count() as i32;
        match text {
            "/" => return self.barline(0, 0, place),
            "//" => return self.barline(1, 0, place),
            "//:" => return self.barline(0, 2, place),
            "://" => return self.barline(3, 0, place),
            "://:" => return self.barline(3, 2, place),
            _ => (),
        }
        match first {
            // "`%`, `$`, `@` are taken only while the open bar has no note; else d3."
            '%' | '$' | '@' if self.length() > 0 => self.about(3, spot, behind),
            '%' => self.take_clef(spot, behind),
            '$' => self.take_key(spot, behind),
            '@' => self.take_meter(spot, behind),
            // "A lone `:` is d9 and no barline."
            ':' => self.about(9, spot, whole),
            // "A run of k `'` sets octave 3+k, of k `,` 4-k; outside 0 to 9 d8, octave kept."
            '\'' | ',' => {
                let octave = if first == '\'' { 3 + length } else { 4 - length };
                if (0..=9).contains(&octave) {
                    self.octave = octave;
                } else {
                    self.about(8, spot, whole);
                }
            }
            // "a digit token replaces the pattern"
            '0'..='9' => {
                self.pattern = pattern(text);
                self.steps = 0;
            }
            // "`x`, longer `x` runs, `b`, longer `b` runs and `n` (1, 2, -1, -2, 0) wait for the next letter, the later
            // replacing the earlier"
            'x' => self.waiting = Some(length.min(2)),
            'b' => self.waiting = Some(-length.min(2)),
            'n' => self.waiting = Some(0),
            'A'..='G' => return self.letter(first, place),
            '^' => self.chord = true,
            '-' => return self.rest(place),
            '=' => return self.bar_rests(behind, spot),
            'g' => self.mark = Some(SLASHED),
            'q' if text == "qq" => self.grace_group = true,
            'q' => self.mark = Some(GRACE),
            // "A token without a rule below is d15, its byte the value; so is `r` outside a `qq` group."
            'r' if self.grace_group => self.grace_group = false,
            '!' => return self.figure_mark(whole, spot),
            // "`f` appends it, d18 if empty."
            'f' if self.figure.is_empty() => self.about(18, spot, whole),
            'f' => return self.append(self.figure.clone(), place),
            // "`i`, in an empty bar after a stored one, copies that bar's notes, else d19."
            'i' => match self.bars.last() {
                Some(bar) if self.length() == 0 => {
                    let copied = self.notes[bar.first..bar.first + bar.count].to_vec();
                    return self.append(copied, place);
                }
                _ => self.about(19, spot, whole),
            },
            // "`{` notes the open bar's length as a start, as `(` does"
            '{' => self.beam = Some(self.start()),
            '}' => self.close_beam(),
            // "`(` notes a start, replacing any open one."
            '(' => {
                self.group = Some(self.start());
                self.group_count = None;
            }
            // "`;` sets the open group's count, 0 to 255; without `(` or with other digits or none, d12."
            ';' => match number(self.part(behind), 255) {
                Some(count) if self.group.is_some() => self.group_count = Some(count),
                _ => self.about(12, spot, behind),
            },
            ')' => return self.close_group(whole, spot),
            // "`+`, if the open bar's last record is a note or grace, starts its tie, which ends at the next opened
            // note; a rest cancels; else d16."
            '+' => {
                if self.length() > 0 && !self.notes.last().unwrap().is_rest() {
                    self.notes.last_mut().unwrap().ties |= 1;
                    self.tie = true;
                } else {
                    self.about(16, spot, whole);
                }
            }
            // "`t` marks the bar's last record, rests too; none, d14."
            't' if self.length() == 0 => self.about(14, spot, whole),
            't' => return self.add_mark(self.notes.len() - 1, 1, place),
            // "Blanks do nothing."
            c if blank(c) => (),
            _ => self.about(15, spot, whole),
        }
        Ok(())
    }

    fn data(&mut self, data: Part) -> Result<(), Refusal> {
        for token in cut(self.text, data) {
            self.token(&token)?;
        }
        // "The end closes a non-empty bar, 0 and 0." "data length plus 1 for 12 at the end"
        if self.length() > 0 {
            let characters = self.part(data).chars().count() as u32;
            self.close(0, characters + 1)?;
        }
        // "after the data: 13, no note or rest stored"
        if self.notes.is_empty() {
            return Err((13, 0));
        }
        Ok(())
    }

    fn whole(&mut self) -> Result<(), Refusal> {
        let lines = lines(self.text);
        // "If any line is one, the text is in field form."
        let data = if lines.iter().any(|line| field(self.text, *line).is_some()) {
            // "fields: 5, field form, no data field"
            self.fields(&lines).ok_or((5, 0))?
        } else {
            // "Bare text is read untrimmed."
            Part { start: 0, end: self.text.len() }
        };
        self.data(data)
    }
}

/// "A refusal has counts 0".
fn refused((number, place): Refusal, needs: Needs) -> Answer {
    let closings = Closings::default();
    Answer { number, place, notes: Vec::new(), bars: Vec::new(), diagnostics: Vec::new(), needs, closings }
}

/// Reads a text. "Checks run in table order".
pub fn read(bytes: &[u8], lent: Lent) -> Answer {
    // "text over 65,535 bytes"
    if bytes.len() > 65_535 {
        return refused((1, 0), Needs::default());
    }
    // "under 1,024 diagnostic cells lent"
    if lent.diagnostics < CELLS {
        return refused((2, 0), Needs::default());
    }
    // "3 now means malformed UTF-8, same place in the order"
    let Ok(text) = std::str::from_utf8(bytes) else {
        return refused((3, 0), Needs::default());
    };
    // "text blank throughout"
    if text.chars().all(blank) {
        return refused((4, 0), Needs::default());
    }
    let mut state = State::new(text, lent);
    let result = state.whole();
    let needs = Needs { notes: state.notes.len(), bars: state.bars.len(), figure: state.longest_figure };
    match result {
        Err(refusal) => Answer { closings: state.closings, ..refused(refusal, needs) },
        Ok(()) => Answer {
            number: 0,
            place: 0,
            notes: state.notes.iter().map(Note::words).collect(),
            bars: state.bars.iter().map(Bar::words).collect(),
            diagnostics: state.diagnostics,
            needs,
            closings: state.closings,
        },
    }
}

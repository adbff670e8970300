//! Random texts: lines of tokens, field forms, incipits with slips; some with characters beyond ASCII, some malformed.

use super::characters::{ACCENTED, EDGES, NEAR_BLANKS, WIDE_BLANKS};
use super::incipits::{FORMS, GROUP_INCIPITS, INCIPITS, RECORDS, REST_INCIPITS};
use crate::random::Random;

const LETTERS: &[u8] = b"ABCDEFG";
const CLEFS: [&str; 12] = [
    "G-2", "g-2", "F-4", "C-1", "C-2", "C-3", "C-4", "C-5", "G-2", "F-4", "C-1", "C-3",
];
const MENSURAL: [&str; 10] = [
    "G+2", "g+2", "F+4", "C+1", "C+3", "C+5", "G+3", "x+y", "+++", "1+/",
];
const BAD_CLEFS: [&str; 15] = [
    "", "G", "G-", "G-3", "c-3", "C-6", "C-0", "F-3", "G2-", "---", "%G-", "G-22", "+", "C+", "/:/",
];
const ODD_KEYS: [&str; 29] = [
    "x",
    "b",
    "F",
    "xFG",
    "xCF",
    "bEB",
    "bBx",
    "xFbB",
    "bBxF",
    "xFxC",
    "bBbE",
    "xbF",
    "bxF",
    "[xF]",
    "x[F]C",
    "xFn",
    "nF",
    "xFF",
    "xFCGDAEBF",
    "bBEADGCFB",
    "FxF",
    "xFCb",
    "bBEx",
    "[",
    "n",
    "xFCGF",
    "bBEAB",
    "xAbA",
    "xFCGDAEBFCGDAEB",
];
const METERS: [&str; 13] = [
    "c", "c/", "3/4", "4/4", "6/8", "2/2", "12/16", "1/1", "255/128", "+3/4", "3/+8", "+2/+2",
    "03/004",
];
const BAD_METERS: [&str; 27] = [
    "", "3", "/", "/4", "3/", "0/4", "4/0", "3/3", "256/4", "4/256", "3/255", "c.", "cc", "c//",
    "c/2", "3/4/2", "3//4", "++3/4", "3/4.", ".", "+/4", "3/+", "+", "3.5/4", "1000/4", "4/1024",
    "4/512",
];
const COUNTS: [&str; 29] = [
    "", "0", "1", "2", "3", "4", "5", "6", "7", "8", "9", "12", "15", "16", "17", "32", "33", "64",
    "65", "127", "128", "129", "130", "255", "256", "300", "1000", "003", "0000255",
];
const UNKNOWN: &[u8] = b"?zHaduewshjklmopvycX.[]|~_*&#<>\"\\`RTIVZ\x00\x01\x08\x0e\x1b\x1c\x1f\x7f";
const BLANKS: [&str; 9] = [" ", " ", " ", "  ", "\t", "\r", "\r\n", "\x0b", "\x0c"];

/// Lines of a field form that are no fields, though some look like one.
const WIDE_LINES: [&str; 9] = [
    "@tïtle:x",
    "@datä:C",
    "@data\u{a0}:C",
    "@\u{2003}data:C",
    "\u{feff}@data:C",
    "＠data:C",
    "@data：C",
    "Für Elise",
    "\u{200b}",
];
/// Bytes that begin, continue or never stand in a sequence.
const LEADS: [u8; 12] = [
    0x80, 0xa0, 0xbf, 0xc0, 0xc3, 0xe0, 0xe2, 0xed, 0xf0, 0xf4, 0xf5, b'C',
];

#[derive(Clone, Copy)]
enum Kind {
    Letter,
    Few,
    Octave,
    Duration,
    LongPattern,
    Accidental,
    Rest,
    Chord,
    Joined,
    Late,
    Grace,
    Bar,
    Figure,
    Repeat,
    Copied,
    Crossing,
    Beam,
    Group,
    Tuplet,
    Marked,
    Chords,
    Tie,
    Trill,
    Clef,
    Key,
    Meter,
    Unknown,
    Blank,
    Newline,
    Wide,
    WideBlank,
    WideClef,
    WideValue,
}
use Kind::*;

/// All kinds, for slips.
const KINDS: [Kind; 33] = [
    Letter,
    Few,
    Octave,
    Duration,
    LongPattern,
    Accidental,
    Rest,
    Chord,
    Joined,
    Late,
    Grace,
    Bar,
    Figure,
    Repeat,
    Copied,
    Crossing,
    Beam,
    Group,
    Tuplet,
    Marked,
    Chords,
    Tie,
    Trill,
    Clef,
    Key,
    Meter,
    Unknown,
    Blank,
    Newline,
    Wide,
    WideBlank,
    WideClef,
    WideValue,
];

/// How often the kinds of tokens stand in a line; the first suits all, the others bring out one thing.
const MOODS: [&[(Kind, usize)]; 13] = [
    &[
        (Letter, 10),
        (Octave, 2),
        (Duration, 3),
        (Accidental, 3),
        (Rest, 2),
        (Chord, 2),
        (Grace, 2),
        (Bar, 3),
        (Figure, 2),
        (Beam, 2),
        (Group, 3),
        (Tuplet, 1),
        (Tie, 2),
        (Trill, 1),
        (Clef, 1),
        (Key, 1),
        (Meter, 1),
        (Unknown, 1),
        (Blank, 2),
    ],
    &[
        (Few, 8),
        (Octave, 3),
        (Accidental, 6),
        (Bar, 2),
        (Key, 2),
        (Joined, 2),
        (Figure, 1),
        (Grace, 1),
    ],
    &[
        (Letter, 6),
        (Duration, 5),
        (Rest, 3),
        (Grace, 4),
        (Joined, 2),
        (Bar, 1),
        (Blank, 1),
    ],
    &[
        (Letter, 8),
        (Figure, 6),
        (Copied, 2),
        (Crossing, 1),
        (Rest, 1),
        (Bar, 2),
        (Repeat, 2),
        (Joined, 2),
        (Late, 2),
        (Tie, 2),
        (Trill, 1),
        (Beam, 1),
        (Group, 1),
    ],
    &[
        (Letter, 6),
        (Group, 5),
        (Tuplet, 3),
        (Crossing, 2),
        (Rest, 1),
        (Grace, 2),
        (Bar, 1),
        (Trill, 1),
        (Figure, 1),
    ],
    &[
        (Letter, 8),
        (Beam, 6),
        (Rest, 2),
        (Grace, 2),
        (Bar, 1),
        (Figure, 1),
        (Group, 1),
    ],
    &[
        (Letter, 6),
        (Tie, 5),
        (Trill, 4),
        (Late, 2),
        (Rest, 3),
        (Joined, 2),
        (Grace, 2),
        (Bar, 2),
        (Repeat, 1),
    ],
    &[
        (Letter, 3),
        (Clef, 3),
        (Key, 3),
        (Meter, 3),
        (Bar, 3),
        (Rest, 1),
        (Blank, 1),
        (Unknown, 1),
    ],
    &[
        (Few, 4),
        (Joined, 6),
        (Chords, 1),
        (Trill, 2),
        (Bar, 1),
        (Copied, 1),
    ],
    &[
        (Letter, 4),
        (Trill, 6),
        (Marked, 2),
        (Tuplet, 1),
        (Group, 1),
        (Copied, 1),
    ],
    &[(Letter, 5), (Bar, 6), (Repeat, 2), (Clef, 1), (Rest, 1)],
    &[
        (Letter, 30),
        (LongPattern, 1),
        (Rest, 2),
        (Grace, 3),
        (Joined, 2),
        (Bar, 2),
    ],
    &[
        (Letter, 8),
        (Wide, 3),
        (WideBlank, 3),
        (WideClef, 2),
        (WideValue, 2),
        (Clef, 1),
        (Key, 1),
        (Meter, 1),
        (Bar, 3),
        (Figure, 2),
        (Joined, 1),
        (Tie, 1),
        (Blank, 1),
    ],
];

/// Groups, beams and figures among notes, barlines and what else they meet.
const GROUPED: &[(Kind, usize)] = &[
    (Letter, 8),
    (Crossing, 3),
    (Group, 4),
    (Beam, 3),
    (Figure, 4),
    (Bar, 4),
    (Tuplet, 1),
    (Copied, 1),
    (Marked, 1),
    (Rest, 1),
    (Grace, 1),
    (Joined, 1),
    (Tie, 1),
    (Trill, 1),
    (Repeat, 1),
    (Meter, 1),
    (Unknown, 1),
    (Blank, 1),
];

/// Appends random texts to an empty buffer.
pub struct Lines<'a> {
    random: &'a mut Random,
    text: &'a mut Vec<u8>,
    /// Of a hundred tokens of a data line, before how many a rest of whole bars stands.
    whole_bars: usize,
    /// Of a hundred data lines, how many are full of groups, beams and figures; of a hundred of these over a barline, how
    /// many have a note before it.
    grouped: usize,
    crossing: usize,
}

/// A random text in place of what stands in `text`.
pub fn random_text(random: &mut Random, text: &mut Vec<u8>) {
    text.clear();
    let kind = random.below(100);
    let mut lines = Lines {
        random,
        text,
        whole_bars: 0,
        grouped: 0,
        crossing: 40,
    };
    match kind {
        0..57 => lines.data_line(),
        57..74 => lines.field_form(),
        74..89 => lines.mutated(&INCIPITS),
        89..94 => lines.mutated(&FORMS),
        94..97 => lines.mutated(&RECORDS),
        97..99 => lines.any_ascii(),
        _ => lines.edges(),
    }
    match lines.random.below(100) {
        0..20 => lines.accented(),
        20..22 => lines.malformed(),
        _ => {}
    }
}

/// A random text with rests of whole bars in place of what stands in `text`.
pub fn random_rests(random: &mut Random, text: &mut Vec<u8>) {
    text.clear();
    let kind = random.below(100);
    let whole_bars = [5, 10, 20, 40][random.below(4)];
    let mut lines = Lines {
        random,
        text,
        whole_bars,
        grouped: 0,
        crossing: 40,
    };
    match kind {
        0..70 => lines.data_line(),
        70..85 => lines.field_form(),
        _ => lines.mutated(&REST_INCIPITS),
    }
    if lines.random.percent(20) {
        lines.accented();
    }
}

/// A random text with groups, beams and figures, many closed in a later bar, in place of what stands in `text`.
pub fn random_groups(random: &mut Random, text: &mut Vec<u8>) {
    grouped(random, text, 0);
}

/// One with rests of whole bars besides.
pub fn random_rest_groups(random: &mut Random, text: &mut Vec<u8>) {
    let whole_bars = [2, 5, 10, 20][random.below(4)];
    grouped(random, text, whole_bars);
}

fn grouped(random: &mut Random, text: &mut Vec<u8>, whole_bars: usize) {
    text.clear();
    let kind = random.below(100);
    let mut lines = Lines {
        random,
        text,
        whole_bars,
        grouped: 80,
        crossing: 80,
    };
    match kind {
        0..65 => lines.data_line(),
        65..85 => lines.field_form(),
        85..95 => lines.mutated(&GROUP_INCIPITS),
        _ => lines.mutated(&INCIPITS),
    }
    if lines.random.percent(20) {
        lines.accented();
    }
}

impl Lines<'_> {
    fn put(&mut self, part: &str) {
        self.text.extend_from_slice(part.as_bytes());
    }

    fn put_any(&mut self, from: &[&str]) {
        let part = self.random.pick(from);
        self.put(part);
    }

    fn put_byte(&mut self, from: &[u8]) {
        let byte = self.random.byte(from);
        self.text.push(byte);
    }

    fn put_character(&mut self, character: char) {
        let mut encoded = [0; 4];
        self.put(character.encode_utf8(&mut encoded));
    }

    fn repeated(&mut self, byte: u8, count: usize) {
        self.text.extend(std::iter::repeat_n(byte, count));
    }

    fn letters(&mut self, most: usize) {
        for _ in 0..self.random.below(most + 1) {
            self.put_byte(b"ABCDEFG-gq");
        }
    }

    fn data_line(&mut self) {
        let mood = if self.grouped > 0 && self.random.percent(self.grouped) {
            GROUPED
        } else if self.random.percent(33) {
            MOODS[0]
        } else {
            MOODS[self.random.below(MOODS.len())]
        };
        let count = match self.random.below(1_000) {
            0 => 200 + self.random.below(1_800),
            1..20 => 25 + self.random.below(100),
            _ => 1 + self.random.below(24),
        };
        for _ in 0..count {
            if self.random.percent(self.whole_bars) {
                self.whole_bars();
            }
            self.weighted(mood);
        }
    }

    /// A rest of whole bars, mostly short, some of bad counts; some where the pattern has one length, or behind a barline.
    fn whole_bars(&mut self) {
        self.put_any(&["", "", "", "/", "/", "/", " 4", " 8.", "/2"]);
        self.put("=");
        match self.random.below(1_000) {
            0..400 => self.put_any(&["", "", "1", "01"]),
            400..900 => self.put_any(&["2", "2", "3", "4", "02", "0003"]),
            900..960 => self.number(60),
            960..964 => self.number(1_000),
            964 => self.put_any(&["999", "1000", "01000"]),
            _ => self.put_any(&[
                "0",
                "00",
                "1001",
                "01001",
                "65536",
                "4294967297",
                "99999999999999999999",
            ]),
        }
        self.put_any(&["", "", "", "/", " "]);
    }

    fn number(&mut self, most: usize) {
        let number = 1 + self.random.below(most);
        self.put(&number.to_string());
    }

    fn weighted(&mut self, mood: &[(Kind, usize)]) {
        let sum = mood.iter().map(|(_, weight)| weight).sum();
        let mut at = self.random.below(sum);
        for (kind, weight) in mood {
            if at < *weight {
                return self.token(*kind);
            }
            at -= weight;
        }
    }

    fn token(&mut self, kind: Kind) {
        match kind {
            Letter => self.put_byte(LETTERS),
            Few => self.put_byte(b"CCCDF"),
            Octave => self.octave(),
            Duration => self.pattern(4),
            LongPattern => self.long_pattern(),
            Accidental => self.put_any(&["x", "x", "b", "b", "n", "n", "xx", "bb", "xxx", "bbbb"]),
            Rest => self.put("-"),
            Chord => self.put("^"),
            Joined => self.joined(),
            Late => self.late(),
            Grace => self.put_any(&["g", "q", "qq", "r", "qq", "r", "qqq"]),
            Bar => self.bar(),
            Figure => self.put_byte(b"!!!fffi"),
            Repeat => self.put("/i"),
            Copied => self.copied(),
            Crossing => self.crossing(),
            Beam => self.put_byte(b"{{}}"),
            Group => self.group(),
            Tuplet => self.tuplet(),
            Marked => self.marked(),
            Chords => self.chords(),
            Tie => self.put("+"),
            Trill => self.put("t"),
            Clef => {
                self.put("%");
                self.clef();
            }
            Key => {
                self.put("$");
                self.key();
            }
            Meter => {
                self.put("@");
                self.meter();
            }
            Unknown => self.put_byte(UNKNOWN),
            Blank => self.put_any(&BLANKS),
            Newline => self.put("\n"),
            Wide => self.wide(),
            WideBlank => self.wide_blank(),
            WideClef => self.wide_clef(),
            WideValue => self.wide_value(),
        }
    }

    /// A character beyond ASCII, or one that stands beside the blanks.
    fn wide(&mut self) {
        let from: &[char] = match self.random.below(6) {
            0 => &EDGES,
            1 => &NEAR_BLANKS,
            2 => return self.any_scalar(),
            _ => &ACCENTED,
        };
        let at = self.random.below(from.len());
        self.put_character(from[at]);
    }

    fn any_scalar(&mut self) {
        let value = self.random.below(0x11_0000) as u32;
        self.put_character(char::from_u32(value).unwrap_or('é'));
    }

    fn wide_blank(&mut self) {
        let at = self.random.below(WIDE_BLANKS.len());
        self.put_character(WIDE_BLANKS[at]);
    }

    /// Up to four characters behind `%`, of every length.
    fn wide_clef(&mut self) {
        self.put("%");
        for _ in 0..1 + self.random.below(4) {
            match self.random.below(8) {
                0..3 => self.wide(),
                3 => self.wide_blank(),
                4..6 => self.put("+"),
                _ => self.put_byte(b"G-2"),
            }
        }
    }

    /// A mark with a wide character inside or behind it.
    fn wide_value(&mut self) {
        self.put_any(&[
            "$x", "$", "@3", "@c", "(C;", "'", "8", "8.", "x", "/", ":", ":/", "q", "C^",
        ]);
        if self.random.percent(70) {
            self.wide();
        } else {
            self.wide_blank();
        }
        self.put_any(&["F", "/4", "5)", "'", "6", ".", "x", "/", "//:", "q", "D"]);
    }

    fn octave(&mut self) {
        let mark = self.random.byte(b"'',");
        let count = [1, 1, 1, 2, 2, 3, 4, 5, 6, 7, 8, 130, 300][self.random.below(13)];
        self.repeated(mark, count);
    }

    fn pattern(&mut self, most: usize) {
        for _ in 0..1 + self.random.below(most) {
            self.put_byte(b"0912486357448866");
            let dots = [0, 0, 0, 0, 0, 1, 1, 2, 3, 4, 6][self.random.below(11)];
            self.repeated(b'.', dots);
        }
    }

    /// A pattern of many elements or of many dots.
    fn long_pattern(&mut self) {
        let most = [8, 40, 300, 600][self.random.below(4)];
        self.pattern(most);
        let dots = self.random.below(300);
        self.repeated(b'.', dots);
        self.pattern(4);
    }

    fn joined(&mut self) {
        self.put("^");
        self.put_any(&["", "", "x", "n", "'", ","]);
        self.put_byte(LETTERS);
    }

    /// A mark for the next letter, something else, and the letter.
    fn late(&mut self) {
        self.put_any(&["^", "x", "q", "+", "g", "n"]);
        self.put_any(&["-", "/", "f", "-f", "/i", "qq", " "]);
        self.put_byte(LETTERS);
    }

    fn bar(&mut self) {
        self.put_any(&[
            "/", "/", "/", "//", "//:", "://", "://:", "/:", ":", "///", ":/", "//://:",
        ]);
    }

    fn copied(&mut self) {
        self.put("!");
        self.letters(4);
        self.put("!");
        let times = self.random.below(3);
        self.repeated(b'f', times);
    }

    /// A group, beam or figure over a barline, or over one in an empty bar.
    fn crossing(&mut self) {
        let (open, close) = [("!", "!"), ("(", ")"), ("{", "}")][self.random.below(3)];
        if self.random.percent(self.crossing) {
            self.letters(3);
            self.put(open);
            self.letters(2);
            self.put("/");
        } else {
            self.bar();
            self.put(open);
            self.bar();
        }
        self.letters(3);
        self.put(close);
    }

    fn group(&mut self) {
        match self.random.below(5) {
            0 | 1 => self.put("("),
            2 | 3 => self.put(")"),
            _ => {
                self.put(";");
                self.put_any(&COUNTS);
            }
        }
    }

    fn tuplet(&mut self) {
        self.put("(");
        self.letters(5);
        match self.random.below(3) {
            0 => {}
            1 => {
                self.put(";");
                self.put_any(&COUNTS);
            }
            _ => {
                self.put(";");
                self.put_byte(b"0122345");
            }
        }
        self.put(")");
    }

    /// A group of one with marks up to the limit and past it.
    fn marked(&mut self) {
        self.put("(");
        self.put_any(&["C", "D", "-", "qED", "FgG"]);
        let trills = [0, 1, 7, 8, 8][self.random.below(5)];
        self.repeated(b't', trills);
        self.put_any(&["", "", "gA", "qB", "C"]);
        self.put(")");
        let trills = [0, 0, 1, 7][self.random.below(4)];
        self.repeated(b't', trills);
    }

    fn chords(&mut self) {
        self.put_byte(LETTERS);
        for _ in 0..[2, 5, 6, 7, 8][self.random.below(5)] {
            self.joined();
        }
    }

    fn clef(&mut self) {
        match self.random.below(4) {
            0 | 1 => self.put_any(&CLEFS),
            2 => self.put_any(&MENSURAL),
            _ => self.put_any(&BAD_CLEFS),
        }
    }

    fn key(&mut self) {
        match self.random.below(20) {
            0..9 => {
                let order = self.random.pick(&["xFCGDAEB", "bBEADGCF"]);
                let signs = self.random.below(8);
                self.put(&order[..=signs]);
            }
            9..16 => self.put_any(&ODD_KEYS),
            _ => {
                for _ in 0..self.random.below(8) {
                    self.put_byte(b"xxbbnABCDEFG[]");
                }
            }
        }
    }

    fn meter(&mut self) {
        match self.random.below(20) {
            0..10 => self.put_any(&METERS),
            10..17 => self.put_any(&BAD_METERS),
            _ => {
                for _ in 0..1 + self.random.below(6) {
                    self.put_byte(b"0123468/c.+/");
                }
            }
        }
    }

    fn field_form(&mut self) {
        let end = self.random.pick(&["\n", "\n", "\n", "\r\n"]);
        let lines = self.random.below(6);
        let data = [0, 1, 1, 1, 1, 1, 1, 1, 2, 3][self.random.below(10)];
        let mut left = data;
        for line in 0..lines + data {
            if self.random.below(lines + data - line) < left {
                left -= 1;
                self.data_field();
            } else {
                self.field_line();
            }
            if line + 1 < lines + data || self.random.percent(40) {
                self.put(end);
            }
        }
    }

    fn data_field(&mut self) {
        self.put_any(&["", "", "", " ", "\t", "", "\u{a0}"]);
        self.put("@data:");
        self.put_any(&["", "", " ", "\x0b ", "", "\u{3000} "]);
        self.data_line();
        self.put_any(&["", "", "", " ", "\r", "\t ", "", "\u{2003}", "\u{85}\r"]);
    }

    fn field_line(&mut self) {
        self.put_any(&["", "", "", " ", "\t", "  "]);
        match self.random.below(18) {
            16 => self.title(),
            17 => self.put_any(&WIDE_LINES),
            0 | 1 => {
                self.put_any(&["@clef:", "@clef:", "@clef: "]);
                self.clef();
            }
            2..6 => {
                self.put_any(&["@keysig:", "@keysig:", "@keysig:\t"]);
                self.spaced_key();
            }
            6..8 => {
                self.put_any(&["@timesig:", "@timesig:", "@timesig: "]);
                self.meter();
            }
            8..10 => {
                self.put_any(&[
                    "@key:", "@title:", "@Data:", "@CLEF:", "@a:", "@datas:", "@dat:", "@clefs:",
                    "@Z:",
                ]);
                self.put_any(&["", "x", "G-2", " a b", ":", "@data:C", "C/D"]);
            }
            10..13 => self.put_any(&[
                "hello",
                "@:x",
                "@",
                "@clef",
                "clef:G-2",
                "@c1:x",
                "@da ta:C",
                "@ data:C",
                "@@data:C",
                "4CDE",
                ":",
                "@data",
                "@clef/:G-2",
                "x @data:C",
            ]),
            13 | 14 => self.put_any(&["", "", " ", "\t \x0b"]),
            _ => self.data_line(),
        }
        self.put_any(&["", "", "", " ", "\t", "\r"]);
    }

    /// A field that isn't read, with words of a catalogue.
    fn title(&mut self) {
        self.put_any(&["@title:", "@titel:", "@a:", "@Z:"]);
        for _ in 0..self.random.below(4) {
            self.put_any(&[
                "Kyrie",
                "Für",
                "Č",
                "Ouvertüre",
                "Noël",
                "漢字",
                "𝄞",
                "e\u{301}",
            ]);
            self.put_any(&[" ", " ", "\u{a0}", "\u{2009}", "-", ""]);
        }
    }

    fn spaced_key(&mut self) {
        let from = self.text.len();
        self.key();
        if self.random.percent(50) {
            let key = self.text.split_off(from);
            for byte in key {
                self.text.push(byte);
                self.put_any(&["", "", " ", "\t", "", "", " ", "\u{a0}"]);
            }
        }
    }

    /// A good text with a few slips.
    fn mutated(&mut self, from: &[&str]) {
        self.put_any(from);
        for _ in 0..[1, 1, 2, 3, 4][self.random.below(5)] {
            self.slip();
        }
    }

    fn slip(&mut self) {
        let size = self.text.len();
        let at = self.random.below(size + 1);
        let end = (at + 1 + self.random.below(3)).min(size);
        match self.random.below(8) {
            0 => drop(self.text.drain(at..end)),
            1 => {
                let byte = self.random.below(128) as u8;
                self.text.insert(at, byte);
            }
            2 if at < size => self.text[at] = self.random.below(128) as u8,
            3 if at + 1 < size => self.text.swap(at, at + 1),
            4 => self.text.extend_from_within(at..end),
            5 => self.slip_in(at, at),
            6 => self.slip_in(at, end),
            _ => {
                let doubled = self.text[at..end].to_vec();
                self.text.splice(at..at, doubled);
            }
        }
    }

    /// A random token in place of a part.
    fn slip_in(&mut self, at: usize, end: usize) {
        let tail = self.text.split_off(end);
        self.text.truncate(at);
        let kind = KINDS[self.random.below(KINDS.len())];
        self.token(kind);
        self.text.extend(tail);
    }

    /// Wide characters and blanks, put in or in the place of others, also at the ends of lines.
    fn accented(&mut self) {
        for _ in 0..[1, 1, 2, 3, 6][self.random.below(5)] {
            let at = self.boundary();
            let end = self.next_boundary(at);
            let end = if self.random.percent(30) { end } else { at };
            let tail = self.text.split_off(end);
            self.text.truncate(at);
            for _ in 0..[1, 1, 1, 2, 3][self.random.below(5)] {
                if self.random.percent(60) {
                    self.wide();
                } else {
                    self.wide_blank();
                }
            }
            self.text.extend(tail);
        }
    }

    /// An offset where a character begins; one in four stands about a line's end.
    fn boundary(&mut self) -> usize {
        let mut at = self.random.below(self.text.len() + 1);
        if self.random.percent(25) {
            let next = self.text[at..].iter().position(|byte| *byte == b'\n');
            at = next.map_or(self.text.len(), |more| at + more);
        }
        while at < self.text.len() && continues(self.text[at]) {
            at += 1;
        }
        at
    }

    fn next_boundary(&self, at: usize) -> usize {
        let more = self.text[at..].iter().skip(1);
        let size = 1 + more.take_while(|byte| continues(**byte)).count();
        (at + size).min(self.text.len())
    }

    /// Wide characters, then a byte of one of them changed, left out or put in.
    fn malformed(&mut self) {
        self.accented();
        let wide = self.text.iter().filter(|byte| **byte >= 128).count();
        let chosen = self.random.below(wide.max(1));
        let mut wides = (0..self.text.len()).filter(|at| self.text[*at] >= 128);
        let Some(at) = wides.nth(chosen) else {
            return;
        };
        let byte = self.random.byte(&LEADS);
        match self.random.below(4) {
            0 => drop(self.text.remove(at)),
            1 => self.text.insert(at, byte),
            2 => self.text[at] = byte,
            _ => self.text.truncate(at),
        }
    }

    fn any_ascii(&mut self) {
        for _ in 0..self.random.below(40) {
            let byte = self.random.below(128) as u8;
            self.text.push(byte);
        }
    }

    /// Blanks of every kind, and bytes of 128 and more.
    fn edges(&mut self) {
        for _ in 0..self.random.below(5) {
            match self.random.below(6) {
                0 => self.put_any(&BLANKS),
                1 => self.put("\n"),
                2 => self.put("C"),
                3 | 4 => self.wide_blank(),
                _ => {
                    let byte = 128 + self.random.below(128) as u8;
                    self.text.push(byte);
                }
            }
        }
    }
}

/// Whether the byte continues a character.
fn continues(byte: u8) -> bool {
    byte & 0xc0 == 0x80
}

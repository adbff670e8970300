//! Random numbers and random lines.

pub struct Random(u64);

impl Random {
    pub fn new(seed: u64) -> Random {
        let mut random = Random(seed.wrapping_mul(0x9e37_79b9_7f4a_7c15) | 1);
        for _ in 0..16 {
            random.next();
        }
        random
    }

    /// xorshift64*
    fn next(&mut self) -> u64 {
        self.0 ^= self.0 >> 12;
        self.0 ^= self.0 << 25;
        self.0 ^= self.0 >> 27;
        self.0.wrapping_mul(0x2545_f491_4f6c_dd1d)
    }

    pub fn below(&mut self, limit: usize) -> usize {
        ((self.next() >> 33) % limit as u64) as usize
    }

    pub fn one_in(&mut self, n: usize) -> bool {
        self.below(n) == 0
    }

    fn of<'a>(&mut self, words: &[&'a str]) -> &'a str {
        words[self.below(words.len())]
    }

    /// A number below `limit` with small ones more often.
    fn small(&mut self, limit: usize) -> usize {
        let within = self.below(limit) + 1;
        self.below(within)
    }
}

/// Which lines are drawn: with `=` tokens, without the byte `=`, or about groups, beams and figures over barlines.
#[derive(Clone, Copy, PartialEq)]
pub enum Lines {
    Rests,
    Plain,
    Groups,
}

const LETTERS: [&str; 7] = ["C", "D", "E", "F", "G", "A", "B"];
const STRANGE: [&str; 20] = [
    "?", ".", "[", "H", "z", "u", "p", "_", "*", "\"", "é", "ß", "♯", "𝄞", "\u{a0}", "\u{85}", "\u{2028}", "\u{3000}",
    "\u{feff}", "r",
];
const BLANKS: [&str; 10] = [" ", " ", " ", "\t", "\r", "\n", "  ", "\u{b}", "\u{a0}", "\u{3000}"];

/// A whole-bar rest with a count of any sort.
fn bar_rest(random: &mut Random) -> String {
    match random.below(40) {
        0..10 => "=".to_string(),
        10..24 => format!("={}", 1 + random.below(3)),
        24..32 => format!("={}", 1 + random.below(12)),
        32..34 => "=0".to_string(),
        34..36 => format!("={}{}", "0".repeat(1 + random.small(12)), random.below(13)),
        36 => ["=999", "=1000", "=1001", "=01000", "=0001001", "=100", "=256", "=255"][random.below(8)].to_string(),
        37 => {
            let huge = [
                "=65536",
                "=65537",
                "=4294967296",
                "=4294967297",
                "=18446744073709551617",
                "=99999999999999999999999999999",
            ];
            random.of(&huge).to_string()
        }
        38 => "=00".to_string(),
        _ => format!("=2{}", random.of(&["=", "=2", "/=2", "/", "i", "/i"])),
    }
}

fn key(random: &mut Random) -> String {
    let usual = ["", "xF", "xFC", "xFCGDAEB", "bB", "bBEA", "bBEADGCF", "xFCG", "n", "[xF]", "x", "b"];
    if random.below(3) > 0 {
        return random.of(&usual).to_string();
    }
    (0..random.below(6)).map(|_| random.of(&["x", "b", "n", "A", "B", "C", "D", "E", "F", "G", "[", "]"])).collect()
}

fn clef(random: &mut Random) -> String {
    match random.below(4) {
        0 => random.of(&["C+3", "G+2", "g+2", "F+4", "é+2", "G-3", "C-6", "c-1", "G-", "", "+++", "a+♯"]).to_string(),
        _ => random.of(&["G-2", "g-2", "F-4", "C-1", "C-2", "C-3", "C-4", "C-5"]).to_string(),
    }
}

fn meter(random: &mut Random) -> String {
    match random.below(3) {
        0 => {
            let odd = [
                "", "/", "c//", "c.", "3", "0/4", "3/0", "256/4", "255/128", "3/256", "3/6", "+3/4", "3/+4", "++3/4",
                "003/0004", "3/4/", "3.4", "1/1", "cc", "+/4", "3/",
            ];
            random.of(&odd).to_string()
        }
        _ => random.of(&["c", "c/", "3/4", "2/4", "6/8", "4/4", "12/16"]).to_string(),
    }
}

/// One piece of a line: most are one token.
fn piece(random: &mut Random, lines: Lines) -> String {
    match random.below(118) {
        0..30 => random.of(&LETTERS).to_string(),
        30..48 if lines == Lines::Rests => bar_rest(random),
        30..48 => random.of(&["-", "C", "D", "/", "!", "f", "i", "("]).to_string(),
        48..52 => "-".to_string(),
        52..61 => random.of(&["/", "/", "/", "//", "//:", "://", "://:", "://", ":"]).to_string(),
        61..64 => random.of(&["x", "xx", "b", "bb", "n", "xxx", "bbb"]).to_string(),
        64..67 => match random.below(8) {
            0 => "'".repeat(1 + random.below(8)),
            1 => ",".repeat(1 + random.below(6)),
            _ => random.of(&["'", "''", ",", ",,"]).to_string(),
        },
        67..70 => {
            let mut digits = String::new();
            for _ in 0..1 + random.small(4) {
                digits += random.of(&["0", "1", "2", "3", "4", "5", "6", "7", "8", "9"]);
                if random.one_in(3) {
                    digits += &".".repeat(1 + random.small(5));
                }
            }
            digits
        }
        70..73 => random.of(&["g", "q", "qq", "r", "qq", "r"]).to_string(),
        73..77 => "^".to_string(),
        77..81 => "+".to_string(),
        81..84 => "t".to_string(),
        84..87 => "(".to_string(),
        87..90 => ")".to_string(),
        90..92 => match random.below(4) {
            0 => random.of(&[";", ";0", ";2", ";256", ";255", ";0004", ";99999999999", ";1"]).to_string(),
            _ => format!(";{}", 1 + random.below(9)),
        },
        92..94 => "{".to_string(),
        94..96 => "}".to_string(),
        96..99 => "!".to_string(),
        99..101 => "f".to_string(),
        101..103 => "i".to_string(),
        103 => format!("${}", key(random)),
        104 => format!("%{}", clef(random)),
        105 => format!("@{}", meter(random)),
        106..109 => random.of(&BLANKS).to_string(),
        109 => random.of(&STRANGE).to_string(),
        110 => match random.below(6) {
            // a chord or a trill about the limit of 8
            0 => format!("C{}", "^E".repeat(6 + random.below(3))),
            1 => "t".repeat(6 + random.below(3)),
            _ => format!("{}^{}", random.of(&LETTERS), random.of(&LETTERS)),
        },
        _ => {
            // a group, a beam or a figure about a few pieces
            let inner: String = (0..1 + random.below(4)).map(|_| piece(random, lines)).collect();
            match random.below(5) {
                0 => format!("({inner})"),
                1 => format!("({inner};{})", random.below(9)),
                2 => format!("{{{inner}}}"),
                3 => format!("!{inner}!{}", random.of(&["f", "ff", "/f", ""])),
                _ => format!("{inner}/i"),
            }
        }
    }
}

/// One or, with a blank between, two barlines. The second stands in an empty bar.
fn barline(random: &mut Random) -> String {
    let forms = ["/", "/", "/", "//", "//:", "://", "://:"];
    let first = random.of(&forms);
    if random.one_in(5) { format!("{first} {}", random.of(&forms)) } else { first.to_string() }
}

/// A count of a group, most of them taken.
fn count(random: &mut Random) -> String {
    match random.below(6) {
        0 => random.of(&[";", ";0", ";256", ";255", ";005", ";999999999999"]).to_string(),
        _ => format!(";{}", 1 + random.below(6)),
    }
}

/// What fills a group: most of these store a record.
fn filling(random: &mut Random) -> String {
    match random.below(40) {
        0..20 => random.of(&LETTERS).to_string(),
        20..23 => "-".to_string(),
        23..27 => random.of(&["gD", "qE", "qqCDr", "g", "q", "qq", "r"]).to_string(),
        27..30 => format!("{}^{}", random.of(&LETTERS), random.of(&LETTERS)),
        30..32 => "C+".to_string(),
        32..34 => random.of(&["Dt", "t", "+", "^"]).to_string(),
        34 if random.one_in(3) => format!("E{}", "t".repeat(7 + random.below(2))),
        34..37 => random.of(&["f", "i", "f"]).to_string(),
        37 => random.of(&["x", "b", "n", "'", ",", "84", "4.", "6"]).to_string(),
        38 => random.of(&["?", "H", ":", "é", "=0", "=1001", "r", ";", "%G", "@3", "$x"]).to_string(),
        _ => random.of(&[" ", "$xF", "@3/4 ", "%F-4"]).to_string(),
    }
}

/// A piece of a line about groups, beams and figures over barlines.
fn group_piece(random: &mut Random) -> String {
    match random.below(100) {
        0..34 => filling(random),
        34..48 => barline(random),
        48..55 => "(".to_string(),
        55..62 => ")".to_string(),
        62..66 => count(random),
        66..70 => "{".to_string(),
        70..74 => "}".to_string(),
        74..82 => "!".to_string(),
        82..86 => "f".to_string(),
        86..89 => "i".to_string(),
        89..92 => random.of(&["=", "=1", "="]).to_string(),
        92..96 => random.of(&["=2", "=2", "=3", "=4", "=02"]).to_string(),
        _ => over(random),
    }
}

fn fillings(random: &mut Random, most: usize) -> String {
    (0..random.below(most + 1)).map(|_| filling(random)).collect()
}

/// A group, beam or figure, most with barlines between its ends, at times all of them in an empty bar.
fn over(random: &mut Random) -> String {
    let (left, right) = match random.below(8) {
        0..4 => ("(", ")"),
        4 | 5 => ("{", "}"),
        _ => ("!", "!"),
    };
    let mut text = fillings(random, 1) + left + &fillings(random, 2);
    for _ in 0..if random.one_in(6) { 0 } else { 1 + random.small(3) } {
        if left == "(" && random.one_in(6) {
            text += &count(random);
        }
        text += &if random.one_in(6) { random.of(&["=2", "=3", "=2"]).to_string() } else { barline(random) };
        text += &fillings(random, 3);
    }
    if left == "(" && random.one_in(4) {
        text += &count(random);
    }
    text += right;
    // what is left behind the closing
    text + match random.below(6) {
        0 => random.of(&[")", "}", "!"]),
        1 => random.of(&["f", "/f", "!f", "DE)", "DE}", "D!f"]),
        _ => "",
    }
}

/// A line about groups, beams and figures over barlines, most of 4 to 30 tokens.
fn group_data(random: &mut Random) -> String {
    let most = match random.below(20) {
        0 => 40,
        1..6 => 10,
        _ => 5,
    };
    let mut pieces: Vec<String> = (0..1 + random.below(most)).map(|_| group_piece(random)).collect();
    for _ in 0..[0, 1, 1, 1, 1, 1, 2, 2][random.below(8)] {
        let at = random.below(pieces.len() + 1);
        let piece = over(random);
        pieces.insert(at, piece);
    }
    // a figure that is there already
    if random.one_in(4) {
        pieces.insert(0, random.of(&["!C!", "!CgD!", "!C^E-!", "!=!"]).to_string());
    }
    pieces.concat()
}

fn data(random: &mut Random, lines: Lines) -> String {
    if lines == Lines::Groups {
        return group_data(random);
    }
    let most = if random.one_in(20) { 60 } else { 14 };
    let mut line: String = (0..1 + random.below(most)).map(|_| piece(random, lines)).collect();
    if random.one_in(10) {
        let front = [format!("%{}", clef(random)), format!("${}", key(random)), format!("@{}", meter(random))];
        let chosen: Vec<&str> = front.iter().filter(|_| random.below(3) > 0).map(String::as_str).collect();
        line = format!("{} {line}", chosen.join(""));
    }
    line
}

/// A text in field form.
fn fields(random: &mut Random, lines: Lines) -> String {
    let mut parts = Vec::new();
    if random.below(2) == 0 {
        parts.push(format!("@clef:{}{}", random.of(&["", " ", "\u{a0}"]), clef(random)));
    }
    if random.below(2) == 0 {
        let odd = ["x F", "$xF", "xF C", "x\tF", "xFé", "FxF", "bB EA"];
        let value = if random.one_in(4) { random.of(&odd).to_string() } else { key(random) };
        parts.push(format!("@keysig:{value}"));
    }
    if random.below(2) == 0 {
        let odd = ["3 /4", "3/ 4", "@3/4", "C", "c /", "٣/4"];
        let value = if random.one_in(6) { random.of(&odd).to_string() } else { meter(random) };
        parts.push(format!("@timesig:{value} "));
    }
    if random.one_in(2) {
        let others = [
            "@title:Grüße",
            "@Clef:G-2",
            "@DATA:C",
            "@x:",
            "@title: Aria \u{3000}",
            "stray",
            "@:C",
            "@a1:C",
            "  ",
            "",
            "Ärger ",
            "@clef G-2",
            "@data",
            "@clef:F-4",
        ];
        parts.push(random.of(&others).to_string());
    }
    let datas = match random.below(30) {
        0 => 0,
        1..4 => 2,
        _ => 1,
    };
    for _ in 0..datas {
        parts.push(format!(
            "{}@data:{}{}",
            random.of(&["", " ", "\t"]),
            random.of(&["", " ", "\u{a0} "]),
            data(random, lines)
        ));
    }
    for i in (1..parts.len()).rev() {
        let j = random.below(i + 1);
        parts.swap(i, j);
    }
    let end = random.of(&["\n", "\n", "\r\n", "\n\n", " \n"]);
    parts.join(end) + random.of(&["", "\n", "\r\n"])
}

/// Lines about the limits: many records, many diagnostics, long texts. They are slow, so they are few.
fn limits(random: &mut Random, lines: Lines) -> String {
    let many = |random: &mut Random, piece: &str, count: usize| {
        let front = data(random, lines);
        front + " " + &piece.repeat(count) + " " + &data(random, lines)
    };
    if lines == Lines::Groups {
        let piece = random.of(&["(C/)", "!C/!", "(C/!D)!", "{C/D}(/)", "(=2)"]);
        let count = 1000 + random.below(50);
        return match random.below(3) {
            0 => format!("{}!=1000!(=1000)!f{}", data(random, lines), data(random, lines)),
            _ => many(random, piece, count),
        };
    }
    match random.below(6) {
        0 if lines == Lines::Rests => {
            let piece = random.of(&["=1000", "=1000/", "=1000=999=", "=500 C=500"]);
            let count = 98 + random.below(4);
            many(random, piece, count)
        }
        0 | 1 => {
            // a figure of a thousand and some notes, repeated about a hundred times
            let figure = if lines == Lines::Rests { "C=D".repeat(333) } else { "CDE".repeat(333) };
            let more = "C".repeat(random.below(8));
            format!("!{figure}{more}!{}{}", "f".repeat(96 + random.below(4)), data(random, lines))
        }
        2 | 3 => {
            let piece = random.of(&["?", ";", "=0", "é"]);
            let piece = if lines == Lines::Plain && piece == "=0" { "?" } else { piece };
            let count = 1000 + random.below(50);
            many(random, piece, count)
        }
        _ => {
            let front = data(random, lines);
            let length = 65_534 + random.below(3);
            format!("{front}{}", random.of(&[" ", "/", "n"]).repeat(length.saturating_sub(front.len())))
        }
    }
}

/// A random text; now and then a byte is deleted, replaced or doubled.
pub fn line(random: &mut Random, lines: Lines) -> Vec<u8> {
    let text = match random.below(12_000) {
        0..4 => limits(random, lines),
        4..1200 => fields(random, lines),
        1200..1210 => random.of(&["", " ", "\n", "\u{a0}\u{3000}", "\t \r\n"]).to_string(),
        _ => data(random, lines),
    };
    let mut bytes = text.into_bytes();
    if random.one_in(40) && !bytes.is_empty() {
        let at = random.below(bytes.len());
        match random.below(4) {
            0 => drop(bytes.remove(at)),
            1 => bytes.insert(at, bytes[at]),
            2 => bytes[at] = b' ' + random.below(95) as u8,
            _ => bytes[at] = random.below(256) as u8,
        }
    }
    if lines == Lines::Plain {
        bytes.iter_mut().filter(|byte| **byte == b'=').for_each(|byte| *byte = b'-');
    }
    bytes
}

//! Characters of every length, each at the places where a character can stand, and byte sequences about UTF-8's edges.

use super::short;

/// Unicode's White_Space beyond ASCII.
pub const WIDE_BLANKS: [char; 19] = [
    '\u{85}', '\u{a0}', '\u{1680}', '\u{2000}', '\u{2001}', '\u{2002}', '\u{2003}', '\u{2004}',
    '\u{2005}', '\u{2006}', '\u{2007}', '\u{2008}', '\u{2009}', '\u{200a}', '\u{2028}', '\u{2029}',
    '\u{202f}', '\u{205f}', '\u{3000}',
];

/// Characters beside the blanks, or taken for blanks elsewhere.
pub const NEAR_BLANKS: [char; 28] = [
    '\u{8}',
    '\u{e}',
    '\u{1c}',
    '\u{1d}',
    '\u{1e}',
    '\u{1f}',
    '\u{84}',
    '\u{86}',
    '\u{9f}',
    '\u{a1}',
    '\u{167f}',
    '\u{1681}',
    '\u{180e}',
    '\u{1fff}',
    '\u{200b}',
    '\u{200d}',
    '\u{2027}',
    '\u{202a}',
    '\u{202e}',
    '\u{2030}',
    '\u{205e}',
    '\u{2060}',
    '\u{2420}',
    '\u{2fff}',
    '\u{3001}',
    '\u{feff}',
    '\u{ffa0}',
    '\u{e0020}',
];

/// The first and the last characters of each row of the standard's table of well-formed sequences.
pub const EDGES: [char; 18] = [
    '\u{7f}',
    '\u{80}',
    '\u{bf}',
    '\u{c0}',
    '\u{7ff}',
    '\u{800}',
    '\u{fff}',
    '\u{1000}',
    '\u{cfff}',
    '\u{d7ff}',
    '\u{e000}',
    '\u{ffff}',
    '\u{10000}',
    '\u{3ffff}',
    '\u{40000}',
    '\u{fffff}',
    '\u{100000}',
    '\u{10ffff}',
];

/// Letters of titles, signs of music, and characters whose low bits are those of a mark.
pub const ACCENTED: [char; 24] = [
    'é', 'ü', 'ï', 'ß', 'ñ', 'Ä', '\u{301}', 'ł', 'ő', '…', '♯', '♭', '𝄞', '🎵', 'あ', '漢', 'Ａ',
    '１', '＋', '：', '＠', '／', '\u{143}', '\u{140}',
];

/// Every scalar value, or only those below U+3100, every 61st and the edges.
pub fn scalars(all: bool) -> impl Iterator<Item = char> {
    ('\0'..=char::MAX).filter(move |character| {
        let value = u32::from(*character);
        all || value < 0x3100 || value.is_multiple_of(61) || EDGES.contains(character)
    })
}

/// Texts with the character, which stands for each `_`, at the places where it can matter.
const AROUND: [&str; 20] = [
    "_",
    "_C",
    "C_",
    "C_D/_",
    "%_C",
    "%_+_C",
    "%G-2_C/%G-_D",
    "$_C",
    "$x_F/@3_/4C",
    "x_C''_'C",
    "86_C4_.(CD;_2)",
    "@title:_\n@data:C",
    "@title:a_ _b\n@clef:_G-2_\n@keysig:x_F_\n@timesig:3_/4_\n@data:F",
    "@clef:_+2\n@data:_C_D_",
    "_@data:C_",
    "_\n@data:C\n__",
    "@t_tle:x\n@data:C",
    "@data_:C\n@_data:D",
    "@x:_@data:C",
    "_ _\n_C_\n@d:\n@data:?_C",
];

/// Calls `each` with the texts that have this character at each place.
pub fn around(character: char, each: &mut impl FnMut(&[u8])) {
    let mut encoded = [0; 4];
    let encoded = character.encode_utf8(&mut encoded).as_bytes();
    for pattern in AROUND {
        each(&filled_in(pattern, &[], encoded));
    }
}

/// Parts for all texts of up to six of them, and what they bring together.
pub const PARTS: [(&str, [&str; 8]); 3] = [
    (
        "clefs of every length",
        ["C", "%", "+", "G-2", "é", "𝄞", "\u{3000}", "/"],
    ),
    (
        "marks about characters",
        ["C", "!", "f", "8.", "'", "漢", "\u{a0}", "/"],
    ),
    (
        "fields, lines, blanks",
        ["@data:", "@é:", "@", "C", "é", "\n", "\u{a0}", ":"],
    ),
];

/// Characters of every length, blanks of every length, and malformed bytes, for the ends of runs.
const ENDS: [&[u8]; 12] = [
    "é".as_bytes(),
    "漢".as_bytes(),
    "𝄞".as_bytes(),
    "\u{85}".as_bytes(),
    "\u{a0}".as_bytes(),
    "\u{3000}".as_bytes(),
    "\u{2003}".as_bytes(),
    "\u{200b}".as_bytes(),
    b"\xc3",
    b"\xa9",
    b"\xe3\x80",
    b"\xff",
];
/// Runs of `~`, with the end that stands for each `_` before, in or behind them.
const RUNS: [(&str, &[&str]); 9] = [
    (
        "~_D?",
        &[
            "C", " ", "?", "\t", "'", ",", "x", "b", "8", ".", "8.", "/", "q", "(", "+", "\n",
        ],
    ),
    ("8~_6C?", &[".", "4"]),
    ("(C;~_D)", &["0"]),
    ("$~_D?", &["x", "F", "n["]),
    ("@~_D?", &["1", "/", "."]),
    (
        "_~D~_?",
        &["C", " ", "é", "漢", "𝄞", "\u{a0}", "\u{3000}", "%é+"],
    ),
    ("~@data:~C~_~\n?", &[" ", "\t", "\u{a0}", "\u{3000}", "\n"]),
    (
        "@title:~_~\n~_~\n@data:C?",
        &["a", " ", "é", "漢", "\u{a0}", "@", ":"],
    ),
    (
        "@~_:x\n@keysig:x~_F\n@clef:~_\n@timesig:~_3/4\n@data:F?",
        &["a", " ", "0", "é"],
    ),
];

/// Calls `each` with runs of up to so many parts, each with every end.
pub fn runs(longest: usize, each: &mut impl FnMut(&[u8])) {
    for (pattern, parts) in RUNS {
        for part in parts {
            for count in 0..=longest {
                let run = part.as_bytes().repeat(count);
                for end in ENDS {
                    each(&filled_in(pattern, &run, end));
                }
            }
        }
    }
}

fn filled_in(pattern: &str, run: &[u8], end: &[u8]) -> Vec<u8> {
    let mut text = Vec::new();
    for byte in pattern.bytes() {
        match byte {
            b'~' => text.extend_from_slice(run),
            b'_' => text.extend_from_slice(end),
            _ => text.push(byte),
        }
    }
    text
}

/// Bytes of each class of the standard's table of well-formed sequences, the classes' first and last ones.
const CLASSES: [u8; 26] = [
    0x00, 0x20, b'A', 0x7f, 0x80, 0x8f, 0x90, 0x9f, 0xa0, 0xbf, 0xc0, 0xc1, 0xc2, 0xdf, 0xe0, 0xe1,
    0xec, 0xed, 0xee, 0xef, 0xf0, 0xf1, 0xf3, 0xf4, 0xf5, 0xff,
];

/// Calls `each` with all sequences of up to four of these bytes, alone and behind `C`.
pub fn sequences(each: &mut impl FnMut(&[u8])) {
    short::all(&CLASSES, 4, each);
    let mut text = vec![b'C'];
    short::all(&CLASSES, 4, &mut |sequence| {
        text.truncate(1);
        text.extend_from_slice(sequence);
        each(&text);
    });
}

//! Random texts: any order of usual tokens, and incipits as a catalogue has them.

use crate::random::Random;

const LETTERS: [&str; 7] = ["C", "D", "E", "F", "G", "A", "B"];
const CLEFS: [&str; 9] = ["G-2", "g-2", "F-4", "C-1", "C-2", "C-3", "C-4", "C-5", "C+3"];
const KEYS: [&str; 10] = ["xF", "xFC", "xFCGDAEB", "bB", "bBEA", "bBEADGCF", "", "xFCG", "n", "xC"];
const METERS: [&str; 11] = ["c", "c/", "3/4", "2/4", "6/8", "4/4", "12/16", "255/128", "1/1", "3/2", "4/4"];
const OTHERS: [&str; 34] = [
    "/", "/", "/", "//", "//:", "://", "://:", "-", "-", "=", "=3", "=12", "x", "b", "n", "xx", "bb", "^", "^", "+",
    "t", "t", "g", "q", "qq", "r", "i", "f", ";3", ";255", "(", ")", "{", "}",
];

fn token(random: &mut Random) -> String {
    match random.below(30) {
        0..11 => random.of(&LETTERS).to_string(),
        11..20 => random.of(&OTHERS).to_string(),
        20 => random.of(&["'", "''", "'''", "''''''", ",", ",,", ",,,,"]).to_string(),
        21 | 22 => {
            random.of(&["4", "8", "6", "2", "1", "0", "9", "3", "5", "7", "8.", "4..", "2...", "84"]).to_string()
        }
        23 => format!("{}{}", random.of(&LETTERS), "^E".repeat(random.below(8))),
        24 => format!("{}{}", random.of(&LETTERS), "t".repeat(random.below(9))),
        25 => format!("%{} ", random.of(&CLEFS)),
        26 => match random.below(3) {
            0 => format!("/%{} ", random.of(&CLEFS)),
            1 => format!("/${} ", random.of(&KEYS)),
            _ => format!("/@{} ", random.of(&METERS)),
        },
        _ => {
            let inner: String = (0..1 + random.below(5)).map(|_| token(random)).collect();
            match random.below(5) {
                0 => format!("({inner})"),
                1 => format!("({inner};{})", 3 + random.below(9)),
                2 => format!("{{{inner}}}"),
                3 => format!("!{inner}!{}", random.of(&["f", "ff", "/f"])),
                _ => format!("qq{inner}r"),
            }
        }
    }
}

/// A few tokens, with a front or as fields now and then.
pub fn line(random: &mut Random) -> String {
    let most = random.of(&[5, 15, 15, 40]);
    let data: String = (0..1 + random.below(most)).map(|_| token(random)).collect();
    match random.below(6) {
        0 => format!("%{}${}@{} {data}", random.of(&CLEFS), random.of(&KEYS), random.of(&METERS)),
        1 => format!("@clef:{}\n@keysig:{}\n@timesig:c/\n@data:{data}", random.of(&CLEFS), random.of(&KEYS)),
        _ => data,
    }
}

/// An incipit of about 20 notes: clef, key and meter, then bars of quarters and eighths, some dotted or beamed.
pub fn incipit(random: &mut Random) -> String {
    let meter = random.of(&["c", "c/", "3/4", "2/4", "6/8"]);
    let mut line = format!("%{}${}@{meter} '", random.of(&CLEFS[..8]), random.of(&["", "xF", "xFC", "bB", "bBEA"]));
    let mut notes = 0;
    while notes < 20 {
        let letters = |random: &mut Random, n: usize| (0..n).map(|_| random.of(&LETTERS)).collect::<String>();
        let (part, stored) = match random.below(6) {
            0 => (format!("4{}", letters(random, 3)), 3),
            1 => (format!("8{{{}}}4{}", letters(random, 4), letters(random, 2)), 6),
            2 => (format!("4.{}8{}4{}", letters(random, 1), letters(random, 1), letters(random, 2)), 4),
            3 => (format!("2{}4-", letters(random, 1)), 2),
            4 => (format!("6{{{}}}{{{}}}", letters(random, 4), letters(random, 4)), 8),
            _ => (format!("4x{}''{}'{}", letters(random, 1), letters(random, 1), letters(random, 1)), 3),
        };
        line += &part;
        notes += stored;
        line += "/";
    }
    line
}

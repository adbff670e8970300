//! All short texts, over all of ASCII and over alphabets whose letters act on each other.

/// Calls `each` with all texts over the alphabet of at most this length, the empty one first.
pub fn all(alphabet: &[u8], longest: usize, each: &mut impl FnMut(&[u8])) {
    let letters: Vec<&[u8]> = alphabet.chunks(1).collect();
    all_of(&letters, longest, each);
}

/// Calls `each` with all texts of at most so many of the parts, the empty one first.
pub fn all_of(parts: &[&[u8]], most: usize, each: &mut impl FnMut(&[u8])) {
    extended(parts, most, &mut Vec::new(), each);
}

fn extended(parts: &[&[u8]], most: usize, text: &mut Vec<u8>, each: &mut impl FnMut(&[u8])) {
    each(text);
    if most == 0 {
        return;
    }
    let size = text.len();
    for part in parts {
        text.extend_from_slice(part);
        extended(parts, most - 1, text, each);
        text.truncate(size);
    }
}

pub fn ascii() -> Vec<u8> {
    (0..128).collect()
}

/// Alphabets for all texts of up to six letters, and what they bring together.
pub const ALPHABETS: [(&str, &[u8]); 15] = [
    ("figures, letters, rests, bars", b"!fiC-/+t"),
    ("figures, chords, graces, groups", b"!fC^g/()"),
    ("accidentals, letters, octaves, bars", b"CFxbn'/"),
    ("accidentals, octaves, figures, keys", b"Cx,/!f$ "),
    ("chords, rests, graces", b"CE^-gqr/"),
    ("graces, patterns, rests", b"C-gqr84.^"),
    ("groups, counts, bars", b"C-();3/q"),
    ("groups, counts, figures", b"C(;25)!f"),
    ("beams, graces, bars", b"C-{}gq/i"),
    ("ties, rests, copies", b"C-+^/!fi"),
    ("trills, fermatas, copies", b"C-t()/fi!"),
    ("patterns, dots", b"C-8.64q/"),
    ("keys, letters, bars", b"$xbFCB/n["),
    ("clefs, meters, bars", b"%G-2@c/3 "),
    ("fields, lines, barlines", b"@a:/C\n "),
];

/// Alphabets with rests of whole bars, for the same.
pub const REST_ALPHABETS: [(&str, &[u8]); 9] = [
    ("figures, copies, bars", b"=4C/!fi"),
    ("beams, groups, bars", b"=4C(){}/"),
    ("groups, counts, trills", b"=C();3t/"),
    ("chords, accidentals, graces", b"=4C^xgq/"),
    ("accidentals, keys, figures", b"=4F$x/!f"),
    ("ties, rests, copies", b"=4C+-/^i"),
    ("barlines of all kinds", b"=2C/: i-"),
    ("counts", b"=0124C/ "),
    ("fields, clefs, meters", b"=%G@c:/\n"),
];

/// Parts with rests of whole bars, for all texts of up to six of them.
pub const REST_PARTS: [(&str, [&str; 8]); 2] = [
    (
        "waiting marks, copies",
        ["!C!", "^", "=", "=2", "f", "D", "x", "g"],
    ),
    (
        "ties, patterns, bars",
        ["86", "C+", "=", "=3", "/", "D", "-", "q"],
    ),
];

/// Alphabets for groups, beams and figures over barlines: for all texts of up to so many letters.
pub const GROUP_ALPHABETS: [(&str, &[u8], usize); 7] = [
    ("groups, figures, bars", b"C/()!f", 7),
    ("groups, beams, bars", b"C/(){}", 7),
    ("figures, copies, bars", b"C/!fi", 8),
    ("groups, beams, figures", b"C/(){}!f", 6),
    ("groups, counts, rests", b"C-/();3 ", 6),
    ("beams, graces, copies", b"C-/{}gqi", 6),
    ("barlines of all kinds", b"C/:(!){}", 6),
];

/// Parts for the same.
pub const GROUP_PARTS: [(&str, [&str; 8], usize); 5] = [
    (
        "counts, good and bad",
        ["(", ")", "/", "C", ";", ";2", ";0255", ";256"],
        6,
    ),
    (
        "chords, ties, copies",
        ["!", "C^E", "/", "f", "^", "D+", "(", ")"],
        6,
    ),
    (
        "marks up to the limit",
        ["(", "Cttttttt", "/", "t", ")", "!", "f", "i"],
        6,
    ),
    (
        "fields, lines, characters",
        ["@data:", "(", "!", "{é", "C/", ")", "\n", "@a:"],
        6,
    ),
    (
        "attributes, accidentals, bars",
        ["(", ")", "!", "xC", "$xF ", "//:", "f", "%F-4"],
        6,
    ),
];

/// Parts with rests of whole bars, for the same.
pub const GROUP_REST_PARTS: [(&str, [&str; 8], usize); 3] = [
    (
        "groups, figures, bars",
        ["=", "=2", "C", "(", ")", "!", "/", "f"],
        6,
    ),
    (
        "groups, beams, bars",
        ["=", "=2", "C", "(", ")", "{", "}", "/"],
        6,
    ),
    (
        "groups, counts, trills",
        ["=", "=3", "=0", "(", ";5", "t", ")", "/"],
        6,
    ),
];

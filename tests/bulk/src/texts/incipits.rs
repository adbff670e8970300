//! Plausible incipits, by hand and by a seed.

use crate::random::Random;

pub const INCIPITS: [&str; 15] = [
    "%G-2$xFC@3/4 '4C8DE/4F+F^A/{8CDEF}(CDE)/",
    "%C-1$bBEA@c ,4G'C/8.6DEFG/4-G/2C-//",
    "%F-4@c/ 2,,C,G/4.E8F4GA/1C://:2D/",
    "$xFCG@6/8 8''E'A''C/4.E{8DC'B}/",
    "@2/4 {6CDEF}{8G''C}/!8{CDEC}!f/i/",
    "''4C+8C{6DE}/(8CDE)(4F)tG/",
    "%g-2$bB@3/8 8F/A^''C'F/qqDErC/gB4A/",
    "'4C//:D/E://F//",
    "%C-3@4/4 4(CDE;3){8FG}(6FGABC;5)/",
    "4.'C8q6D8E/n4FxFbF/xxGbbG/G",
    "8.6{CD}{EF}/t4G(-)/2.C/",
    "$bBEAD 4C^E^G^''C/'x4FF,F/F",
    "!4CDE!ff/!8{CD}{EF}!/f/i/",
    "4C+/C+-C/+C/C^E+C^E",
    "gC8qqDEr4F-/qGg^AB",
];

pub const FORMS: [&str; 4] = [
    "@clef:G-2\n@keysig:xFC\n@timesig:3/4\n@data:'4C8DE/4F+FA/",
    "@data:4CDE\n@clef:C-3\n@keysig:bB\n@timesig:c/\n",
    "@clef:F-4\r\n@key:x\r\n@data: ,4C/D \r\n",
    "@title: x\n\n@clef:C+3\nodd\n@timesig:0/4\n@data:C\n\t@data: 8.6{CD}\n",
];

/// Records as libraries paste them, with accents in the fields that aren't read.
pub const RECORDS: [&str; 4] = [
    "@composer:Dvořák, Antonín\n@title:Šárka: Předehra\n@clef:G-2\n@keysig:xFC\n@timesig:3/4\n@data:'4C8DE/4F+FA/",
    "@title:Grüße aus Köln\u{a0}\r\n@clef:F-4\r\nfür Baß\r\n@timesig:c/\r\n@data:\u{a0},4C/D\u{2003}\r\n",
    "@titre:Noël\u{202f}: « Où s’en vont »\n@data:4C\u{a0}D\u{2009}E/%é+üF\n@clef:C+3\n",
    "@title:六段の調\n\u{3000}@clef:G-2\u{3000}\n\u{2028}\n@keysig:b\u{a0}B\n@data:8.6\u{3000}{CD}𝄐!EF!f/i",
];

/// Incipits with rests of whole bars; the pattern has one length there.
pub const REST_INCIPITS: [&str; 8] = [
    "%G-2@c '2C(D)/4=3/C",
    "%F-4$bBE@c =12/'4C8DE/4FG/",
    "@3/4 =4/{8CDE}4F/=2/xF/F//",
    "%C-3@c/ 4=//:xCD/=2/C://:=/G/",
    "!4C=D!f/=2/i/",
    "4C^E=^G/(=)t/(C=D)/{=E}/",
    "gC4=qD/qqEF=r4G/=0C",
    "@clef:G-2\n@keysig:xFC\n@title:Für Flöte\n@data:=8/'4F8GA/4=/F\n@timesig:3/4",
];

/// Incipits with groups, beams and figures over a barline.
pub const GROUP_INCIPITS: [&str; 8] = [
    "%G-2@c '4C(8DE/FG)4A/{8CD/EF}4G/",
    "$xFC@3/4 4C!DE/F!G/f/i/",
    "@2/4 (8CDE;3)4F(/8CDE;3)4F/(C/;5D)/",
    "4C{8DE//:FG}!C!f/!D://E!f/(F)",
    "(4C(D/E)F)/{G{A/B}C}D/",
    "!4C(D!E/!F)G!f/{f}/(i)",
    "gC(qqDErF/gG)t/{-D/-}(-/)",
    "@clef:G-2\n@title:Für Flöte\n@data:(4C/D)E{8F/G}!A/B!f\n@timesig:3/4",
];

const LETTERS: &[u8] = b"ABCDEFG";

/// A line as a catalogue has it: clef, key and meter, then bars of about so many bytes in all.
pub fn plausible(random: &mut Random, size: usize) -> Vec<u8> {
    let mut text = Vec::new();
    let mut put = |part: &str| text.extend_from_slice(part.as_bytes());
    put(random.pick(&["%G-2", "%G-2", "%C-1", "%F-4", "%C-3", "%g-2"]));
    put(random.pick(&["$xF", "$xFC", "$bB", "$bBE", "$xFCG", ""]));
    put(random.pick(&["@c", "@3/4", "@2/4", "@6/8", "@c/", "@4/4"]));
    put(random.pick(&[" ", "", " "]));
    put(random.pick(&["'", "''", ",", "'"]));
    put(random.pick(&["4", "8", "2", "8.6"]));
    while text.len() + 12 < size {
        bar(random, &mut text);
    }
    text.resize(size.max(text.len()), b'C');
    text
}

/// A bar of plausible music and the line behind it.
fn bar(random: &mut Random, text: &mut Vec<u8>) {
    for _ in 0..1 + random.below(3) {
        motif(random, text);
    }
    text.extend_from_slice(
        random
            .pick(&["/", "/", "/", "/", "/", "//", "://:"])
            .as_bytes(),
    );
}

fn letters(random: &mut Random, count: usize, text: &mut Vec<u8>) {
    text.extend((0..count).map(|_| random.byte(LETTERS)));
}

fn motif(random: &mut Random, text: &mut Vec<u8>) {
    match random.below(20) {
        0..5 => letters(random, 2, text),
        5..8 => {
            text.push(random.byte(b"4282468"));
            letters(random, 1, text);
        }
        8..11 => {
            text.extend_from_slice(b"{8");
            letters(random, 2, text);
            text.push(b'}');
        }
        11 => {
            text.extend_from_slice(b"{6");
            letters(random, 4, text);
            text.push(b'}');
        }
        12 => {
            text.extend_from_slice(b"8.6");
            letters(random, 2, text);
        }
        13 => {
            text.extend_from_slice(random.pick(&["''", "'", ","]).as_bytes());
            letters(random, 2, text);
        }
        14 => {
            text.push(random.byte(b"xbn"));
            letters(random, 1, text);
        }
        15 => text.extend_from_slice(b"4-"),
        16 => {
            letters(random, 1, text);
            text.extend_from_slice(random.pick(&["+", "t", "+", "^E"]).as_bytes());
            letters(random, 1, text);
        }
        17 => {
            text.push(random.byte(b"gq"));
            letters(random, 2, text);
        }
        18 => {
            text.extend_from_slice(b"(8");
            letters(random, 3, text);
            text.push(b')');
        }
        _ => {
            text.extend_from_slice(b"4.");
            letters(random, 1, text);
            text.push(b'8');
            letters(random, 1, text);
        }
    }
}

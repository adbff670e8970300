//! The example `group`: openings joined by their pitches.

#[path = "../examples/group.rs"]
#[expect(dead_code, reason = "the example's `main`")]
mod group;
mod numbers;

use group::{joined, melody_text};
use numbers::Random;
use std::collections::{HashMap, HashSet};

/// A letter with its octave and alteration.
type Letter = (char, i32, i32);

/// The letters of each note.
type Opening = Vec<Vec<Letter>>;

/// How an opening is typed.
#[derive(Default)]
struct Way {
    /// What stands at its beginning.
    front: &'static str,
    /// The letters that the key in `front` alters, and by how much.
    key: (&'static str, i32),
    /// Whether octaves and accidentals are typed at every letter, not only where they change.
    redundant: bool,
    /// The notes of a bar; 0 for no barlines.
    bar: usize,
    /// What stands before each note: rests and graces, which are no part of the melody.
    before: &'static str,
    /// What stands after each sign.
    after: &'static str,
}

const WAYS: usize = 10;

fn ways() -> [Way; WAYS] {
    let plain = Way::default;
    [
        plain(),
        Way {
            redundant: true,
            ..plain()
        },
        Way {
            after: " ",
            ..plain()
        },
        Way {
            after: "\u{a0}",
            redundant: true,
            ..plain()
        },
        Way {
            front: "%C-1$xFC @c",
            key: ("FC", 1),
            ..plain()
        },
        Way {
            front: "$bBEA 8.6",
            key: ("BEA", -1),
            bar: 3,
            ..plain()
        },
        Way {
            front: "@3/4 =12/",
            bar: 1,
            ..plain()
        },
        Way {
            before: "8-4-",
            redundant: true,
            bar: 2,
            ..plain()
        },
        Way {
            before: "gDqqEFr6",
            bar: 4,
            ..plain()
        },
        Way {
            front: "@data:%F-4 2",
            after: "  ",
            redundant: true,
            bar: 2,
            ..plain()
        },
    ]
}

fn octave_sign(octave: i32) -> String {
    let count = |octave| usize::try_from(octave).unwrap();
    match octave {
        4.. => "'".repeat(count(octave - 3)),
        _ => ",".repeat(count(4 - octave)),
    }
}

fn accidental(alter: i32) -> &'static str {
    ["bb", "b", "n", "x", "xx"][usize::try_from(alter + 2).unwrap()]
}

fn typed(opening: &Opening, way: &Way) -> String {
    let mut text = way.front.to_string();
    let mut octave = 4;
    let mut held = HashMap::new();
    for (chord, number) in opening.iter().zip(1..) {
        text += way.before;
        for (nth, &(letter, at, alter)) in chord.iter().enumerate() {
            let mut signs = vec![];
            if nth > 0 {
                signs.push("^".to_string());
            }
            if way.redundant || at != octave {
                octave = at;
                signs.push(octave_sign(at));
            }
            let in_key = if way.key.0.contains(letter) {
                way.key.1
            } else {
                0
            };
            if way.redundant || alter != *held.get(&(letter, at)).unwrap_or(&in_key) {
                held.insert((letter, at), alter);
                signs.push(accidental(alter).to_string());
            }
            signs.push(letter.to_string());
            for sign in signs {
                text = text + &sign + way.after;
            }
        }
        if way.bar != 0 && number % way.bar == 0 {
            text.push('/');
            held.clear();
        }
    }
    text
}

/// As the example shows it.
fn name(&(letter, octave, alter): &Letter) -> String {
    let sign = ["bb", "b", "", "#", "##"][usize::try_from(alter + 2).unwrap()];
    format!("{letter}{sign}{octave}")
}

fn opening_text(opening: &Opening) -> String {
    let chord = |chord: &Vec<Letter>| chord.iter().map(name).collect::<Vec<_>>().join("^");
    opening.iter().map(chord).collect::<Vec<_>>().join(" ")
}

fn any_letter(random: &mut Random) -> Letter {
    let letter = ['C', 'D', 'E', 'F', 'G', 'A', 'B'][random.below(7)];
    let octave = i32::try_from(random.below(3)).unwrap() + 3;
    let alter = [0, 0, 0, 1, -1, 2, -2][random.below(7)];
    (letter, octave, alter)
}

/// Six to ten notes, the second a chord.
fn any_opening(random: &mut Random) -> Opening {
    let count = 6 + random.below(5);
    let mut opening: Opening = (0..count).map(|_| vec![any_letter(random)]).collect();
    opening[1].push(any_letter(random));
    opening
}

/// An opening and others that are almost the same.
fn near(opening: &Opening) -> [Opening; 5] {
    let changed = |change: &dyn Fn(&mut Opening)| {
        let mut other = opening.clone();
        change(&mut other);
        other
    };
    [
        opening.clone(),
        changed(&|other| {
            let alter = &mut other[4][0].2;
            *alter = if *alter == 2 { 1 } else { *alter + 1 };
        }),
        changed(&|other| other[2][0].1 += 1),
        changed(&|other| {
            other.pop();
        }),
        changed(&|other| {
            let last = other[1].split_off(1);
            other.insert(2, last);
        }),
    ]
}

#[test]
fn a_thousand_openings() {
    let mut random = Random(0xc0ac_29b7_c97c_50dd);
    let works: Vec<Opening> = (0..20)
        .flat_map(|_| near(&any_opening(&mut random)))
        .collect();
    let distinct: HashSet<&Opening> = works.iter().collect();
    assert_eq!(distinct.len(), works.len());

    let ways = ways();
    let lines: Vec<String> = ways
        .iter()
        .flat_map(|way| works.iter().map(move |work| typed(work, way)))
        .collect();
    assert_eq!(lines.len(), 1_000);
    assert_eq!(lines.iter().collect::<HashSet<_>>().len(), 1_000);

    let joined = joined(&lines);
    assert!(joined.remarks.is_empty(), "{:?}", joined.remarks[0]);
    assert_eq!(joined.groups.len(), works.len());
    for ((work, (melody, numbers)), first) in works.iter().zip(&joined.groups).zip(1..) {
        assert_eq!(melody_text(melody), opening_text(work));
        let expected: Vec<usize> = (0..WAYS).map(|way| way * works.len() + first).collect();
        assert_eq!(*numbers, expected, "{}", lines[first - 1]);
    }
}

#[test]
fn as_printed() {
    let lines = [
        "xC''C/'D^F",
        "CDE",
        "4xC-''nC q'EnD^F",
        "=12",
        "@c:C",
        "C D)E",
        "xC''C/'F^D",
        "qC-",
        "",
    ];
    let expected = "lines 1, 3: C#4 C5 D4^F4\n\
        lines 2, 6: C4 D4 E4\n\
        line 7: C#4 C5 F4^D4\n\
        line 4: no melody\n\
        line 5: refused 5: the text has fields, but none is @data:\n\
        line 6: pae.unsupported-token at /data/4: unmatched ')' (\")\")\n\
        line 8: no melody\n\
        line 9: refused 4: the text is blank\n";
    assert_eq!(joined(lines).to_string(), expected);
    assert_eq!(joined([""; 0]).to_string(), "");
}

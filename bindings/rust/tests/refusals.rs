//! Every refusal with its message.

use urthmoli::words::{BAR_WORDS, DiagnosticCell, NOTE_WORDS};
use urthmoli::{
    Buffers, DIAGNOSTIC_CELLS, MAX_MARKS, MAX_NOTES, MAX_PITCHES, MAX_TEXT_BYTES, MAX_WHOLE_BARS,
    Refusal, read, read_into,
};

/// The refusal and its message from `read`.
fn refused(text: impl AsRef<[u8]>) -> (Refusal, String) {
    let refusal = read(text).unwrap_err();
    (refusal, refusal.to_string())
}

/// The refusal's message, where the buffers have so many notes, bars, figure records and diagnostic cells.
fn refused_with(text: &str, [notes, bars, figure, cells]: [usize; 4]) -> String {
    let buffers = Buffers {
        notes: &mut vec![[7; NOTE_WORDS]; notes],
        bars: &mut vec![[7; BAR_WORDS]; bars],
        figure: &mut vec![[7; NOTE_WORDS]; figure],
        diagnostics: &mut vec![DiagnosticCell::default(); cells],
    };
    read_into(text.as_bytes(), buffers).unwrap_err().to_string()
}

#[test]
fn too_long_texts() {
    let mut text = format!("C{}", " ".repeat(MAX_TEXT_BYTES - 1));
    assert_eq!(read(&text).unwrap().notes.len(), 1);
    text.push(' ');
    let length = MAX_TEXT_BYTES + 1;
    let message = format!("refused 1: the text has {length} bytes, over {MAX_TEXT_BYTES}");
    assert_eq!(refused(text), (Refusal::TooLarge { length }, message));
}

#[test]
fn malformed_utf8() {
    let message = "refused 3: the text is malformed UTF-8 from byte offset 1 on".to_string();
    let expected = (Refusal::MalformedUtf8 { offset: 1 }, message);
    for malformed in MALFORMED {
        assert_eq!(refused([b"C", malformed].concat()), expected);
        assert_eq!(refused([b"C", malformed, b"C"].concat()), expected);
    }
    let behind = [b"@t:\xc3\xa9\n@data:C\n", MALFORMED[0]].concat();
    let (refusal, _) = refused(&behind);
    let offset = str::from_utf8(&behind).unwrap_err().valid_up_to();
    assert_eq!((refusal, offset), (Refusal::MalformedUtf8 { offset }, 14));
}

/// A byte that never stands, one that only continues, `é` cut off, `/` and NUL in overlong forms, the
/// first surrogate, the first value above U+10FFFF, a clef sign in four bytes cut off.
const MALFORMED: [&[u8]; 8] = [
    b"\xff",
    b"\xa9",
    b"\xc3",
    b"\xc0\xaf",
    b"\xe0\x80\x80",
    b"\xed\xa0\x80",
    b"\xf4\x90\x80\x80",
    b"\xf0\x9d\x84",
];

#[test]
fn malformed_before_blank_and_behind_too_large() {
    let (refusal, _) = refused(b" \xc2");
    assert_eq!(refusal, Refusal::MalformedUtf8 { offset: 1 });
    let length = MAX_TEXT_BYTES + 1;
    let (refusal, _) = refused(vec![0xff; length]);
    assert_eq!(refusal, Refusal::TooLarge { length });
}

#[test]
fn texts_without_notes() {
    for blank in [
        "",
        " \t\n\u{b}\u{c}\r",
        "\u{a0}",
        "\u{3000}\u{85}\n\u{2028}",
    ] {
        let expected = (Refusal::Blank, "refused 4: the text is blank".to_string());
        assert_eq!(refused(blank), expected);
    }
    let message = "refused 5: the text has fields, but none is @data:".to_string();
    assert_eq!(refused("@c:C"), (Refusal::NoData, message));
    let message = "refused 13: the data hold no note and no rest".to_string();
    assert_eq!(refused("x"), (Refusal::NoNotes, message));
}

/// Figures of figures: 54,612 notes.
const FIGURES: &str = "!CCCC!!ffff!!ffff!!ffff!!ffff!!ffff!!ffff!ff";

#[test]
fn too_many_notes() {
    assert_eq!(read(FIGURES).unwrap().notes.len(), 54_612);
    let message = "refused 7 at data place 46: the notes pass 100000".to_string();
    let expected = (Refusal::TooManyNotes { place: 46 }, message);
    assert_eq!(refused(format!("{FIGURES}/i")), expected);

    let rests = format!("={MAX_WHOLE_BARS}/").repeat(MAX_NOTES / MAX_WHOLE_BARS);
    assert_eq!(read(&rests).unwrap().notes.len(), MAX_NOTES);
    let (refusal, _) = refused(format!("{rests}="));
    assert_eq!(refusal, Refusal::TooManyNotes { place: 601 });
}

#[test]
fn too_many_pitches_and_marks() {
    let chord = "^C".repeat(MAX_PITCHES);
    let full = read(&chord[1..]).unwrap().notes[0];
    assert_eq!(full.pitches.len(), MAX_PITCHES);
    let (refusal, message) = refused(format!("C{chord}"));
    let place = 2 * u32::try_from(MAX_PITCHES).unwrap() + 1;
    assert_eq!(refusal, Refusal::TooManyPitches { place });
    let expected =
        format!("refused 9 at data place {place}: the chord passes {MAX_PITCHES} pitches");
    assert_eq!(message, expected);

    let trills = "t".repeat(MAX_MARKS);
    let full = read(format!("C{trills}")).unwrap().notes[0];
    assert_eq!(full.articulations.len(), MAX_MARKS);
    let message = "refused 10 at data place 10: the note's marks pass 8".to_string();
    let expected = (Refusal::TooManyMarks { place: 10 }, message);
    assert_eq!(refused(format!("C{trills}t")), expected);
    let (refusal, _) = refused(format!("(C{trills})"));
    assert_eq!(refusal, Refusal::TooManyMarks { place: 11 });
}

#[test]
fn too_little_room() {
    let cells = DIAGNOSTIC_CELLS;
    assert_eq!(
        refused_with("C", [1, 1, 1, cells - 1]),
        "refused 2: the buffer has 1023 diagnostic cells, under 1024"
    );
    assert_eq!(
        refused_with("CD", [1, 1, 1, cells]),
        "refused 8 at data place 2: the notes don't fit their buffer"
    );
    assert_eq!(
        refused_with("!C!", [1, 1, 0, cells]),
        "refused 11 at data place 3: the figure doesn't fit its buffer"
    );
    assert_eq!(
        refused_with("C/D/", [2, 1, 0, cells]),
        "refused 12 at data place 4: the bars don't fit their buffer"
    );
    assert_eq!(
        refused_with("C ", [1, 0, 0, cells]),
        "refused 12 at data place 3: the bars don't fit their buffer"
    );
    assert_eq!(
        refused_with("éC", [1, 0, 0, cells]),
        "refused 12 at data place 3: the bars don't fit their buffer"
    );
}

/// The records and barlines of a rest of whole bars are checked in turn, all at its place.
#[test]
fn too_little_room_for_whole_bars() {
    let cells = DIAGNOSTIC_CELLS;
    let notes = "refused 8 at data place 3: the notes don't fit their buffer";
    let bars = "refused 12 at data place 3: the bars don't fit their buffer";
    assert_eq!(refused_with("é/=3", [0, 3, 0, cells]), notes);
    assert_eq!(refused_with("é/=3", [1, 0, 0, cells]), bars);
    assert_eq!(refused_with("é/=3", [1, 1, 0, cells]), notes);
    assert_eq!(refused_with("é/=3", [2, 1, 0, cells]), bars);
    assert_eq!(
        refused_with("é/=3", [3, 2, 0, cells]),
        "refused 12 at data place 5: the bars don't fit their buffer"
    );
}

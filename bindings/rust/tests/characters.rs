//! Characters beyond ASCII: places count them, spans count their bytes.

use urthmoli::{Clef, Diagnostic, Reading, Refusal, read};

/// Unicode's `White_Space`.
const BLANKS: &str = "\t\n\u{b}\u{c}\r \u{85}\u{a0}\u{1680}\u{2000}\u{2001}\u{2002}\u{2003}\u{2004}\
    \u{2005}\u{2006}\u{2007}\u{2008}\u{2009}\u{200a}\u{2028}\u{2029}\u{202f}\u{205f}\u{3000}";

/// Number, location, value and span of each diagnostic.
fn found(reading: &Reading) -> Vec<(i32, String, &str, (usize, usize))> {
    let told = |found: &Diagnostic| found.span.as_ref().map_or((0, 0), |s| (s.start, s.end));
    let each = reading.diagnostics.iter().map(|found| {
        let location = found.position.to_string();
        (
            found.kind.word(),
            location,
            found.value.as_str(),
            told(found),
        )
    });
    each.collect()
}

fn data(place: u32) -> String {
    format!("/data/{place}")
}

#[test]
fn an_accent_is_one_token() {
    let reading = read("éC").unwrap();
    assert_eq!(found(&reading), [(15, data(1), "é", (0, 2))]);
    assert_eq!((reading.notes.len(), reading.notes[0].place), (1, 2));
    assert_eq!(reading.notes[0].pitch_places[0], 2);
}

#[test]
fn a_character_is_no_grapheme() {
    let reading = read("e\u{301}C").unwrap();
    let expected = [(15, data(1), "e", (0, 1)), (15, data(2), "\u{301}", (1, 3))];
    assert_eq!(found(&reading), expected);
    assert_eq!(reading.notes[0].place, 3);
}

#[test]
fn every_white_space_is_blank() {
    assert_eq!(BLANKS.chars().count(), 25);
    for blank in BLANKS.chars() {
        assert_eq!(read(blank.to_string()), Err(Refusal::Blank));
        let reading = read(format!("{blank}C{blank}D")).unwrap();
        assert!(reading.diagnostics.is_empty(), "{blank:?}");
        let places: Vec<_> = reading.notes.iter().map(|note| note.place).collect();
        assert_eq!(places, [2, 4]);
    }
    for other in "\u{1c}\u{1f}\u{180e}\u{200b}\u{2060}\u{feff}".chars() {
        let reading = read(format!("{other}C")).unwrap();
        assert_eq!(reading.diagnostics.len(), 1, "{other:?}");
    }
}

#[test]
fn a_clef_takes_three_characters() {
    let reading = read("%é+üC").unwrap();
    let expected = [(4, data(1), "é+ü", (1, 6)), (5, data(1), "é+ü", (1, 6))];
    assert_eq!(found(&reading), expected);
    assert_eq!(reading.notes[0].place, 5);

    let reading = read("%漢字𝄞C/%F-4D").unwrap();
    assert_eq!(found(&reading), [(5, data(1), "漢字𝄞", (1, 11))]);
    assert_eq!(reading.notes[1].place, 11);
    assert_eq!(reading.bars[1].clef, Some(Clef::Bass));
}

#[test]
fn keys_of_fields_are_ascii() {
    let reading = read("@tïtle:x\n@data:C").unwrap();
    let expected = [(1, "/line/1".to_string(), "@tïtle:x", (0, 9))];
    assert_eq!(found(&reading), expected);
}

#[test]
fn lines_are_trimmed_of_every_blank() {
    let reading =
        read("\u{3000}@title:\u{a0}é \u{2003}\r\n\u{85}@data:\u{a0}C?\u{2028}\n").unwrap();
    let expected = [
        (2, "/line/1/field/title".to_string(), "é", (12, 14)),
        (15, data(2), "?", (31, 32)),
    ];
    assert_eq!(found(&reading), expected);
    assert_eq!(reading.notes[0].place, 1);
}

#[test]
fn lines_end_at_line_feeds_alone() {
    assert_eq!(read("@x:\u{2028}@data:C"), Err(Refusal::NoData));
    assert_eq!(read("@x:\u{85}@data:C"), Err(Refusal::NoData));
}

#[test]
fn only_a_space_stands_in_a_key() {
    let key = |blank: &str| read(format!("@keysig:x{blank}F\n@data:F")).unwrap();
    assert!(key(" ").diagnostics.is_empty());
    let reading = key("\u{a0}");
    assert_eq!(reading.diagnostics[0].kind.word(), 6);
    assert_eq!(reading.notes[0].pitches[0].alter, 1);
}

#[test]
fn a_pasted_record() {
    let text = "@composer:Schütz, Heinrich\n@title:Fröhlich zu singen\u{a0}\n@clef:C-1\n\
        @keysig:bB\n@timesig:c\n@data:4C8DE/ß2B\nAbschrift für Köln";
    let reading = read(text).unwrap();
    let names: Vec<_> = reading
        .notes
        .iter()
        .map(|n| n.pitches[0].to_string())
        .collect();
    assert_eq!(names, ["C4", "D4", "E4", "Bb4"]);
    assert_eq!(reading.bars[0].clef, Some(Clef::Soprano));
    let told: Vec<_> = reading
        .diagnostics
        .iter()
        .map(|found| (found.position.to_string(), found.value.as_str()))
        .collect();
    let expected = [
        ("/line/1/field/composer".to_string(), "Schütz, Heinrich"),
        ("/line/2/field/title".to_string(), "Fröhlich zu singen"),
        ("/line/7".to_string(), "Abschrift für Köln"),
        (data(7), "ß"),
    ];
    assert_eq!(told, expected);
    for found in &reading.diagnostics {
        assert_eq!(&text[found.span.clone().unwrap()], found.value);
    }
}

//! Cards: written, read back, and refused.

mod exact;
mod laid_out;

use laid_out::comes_back;
use urthmoli::words::{BAR_WORDS, BarWords, NOTE_WORDS, NoteWords, note};
use urthmoli::{
    Bar, CardError, Duration, KeySignature, MAX_NOTES, Note, NoteKind, Reading, TimeSignature,
    TimeSymbol, TupletInfo, max_card_bytes, read, read_card_into, write_card_into,
};

const DOCUMENT: &str = include_str!("../CARD.md");

/// The line of docs/CARD.md.
const LINE: &str = "%F-4$bB@3/4 ,2.B+/4B-";

/// Its card, a row for the front, each bar and each note.
#[rustfmt::skip]
const CARD: [u8; 45] = [
    1, 2, 0, 0, 0,
    0b111, 1, 0, 0, 0, 3, 6, 3, 4, 0,
    0b10_0010, 16, 0, 13, 1, 1, 16, 0, 27, 1,
    0, 2, 0, 0, 0,
    0b10_0010, 20, 0, 16, 2, 1, 20, 0, 27, 1,
    0b1, 21, 0, 16, 1,
];

const POISON: i32 = -1_515_870_811;

/// The card of what the line reads to, with bytes changed.
fn changed(changes: &[(usize, u8)]) -> Vec<u8> {
    let mut card = CARD.to_vec();
    for (at, byte) in changes {
        card[*at] = *byte;
    }
    card
}

/// What the line reads to, changed.
fn remade(change: impl FnOnce(&mut Reading)) -> Reading {
    let mut reading = read(LINE).unwrap();
    change(&mut reading);
    reading
}

#[test]
fn the_worked_example() {
    assert_eq!(comes_back(&read(LINE).unwrap()), CARD);
}

/// The bytes in the rows of a table: those in backquotes in the second column.
fn bytes_of(row: &str) -> Vec<u8> {
    let column = row.split('|').nth(2).unwrap_or_default();
    let digits = column
        .split(['`', ',', ' '])
        .filter(|part| !part.is_empty());
    digits
        .filter_map(|byte| u8::from_str_radix(byte, 16).ok())
        .collect()
}

#[test]
fn the_document_has_it() {
    let (_, example) = DOCUMENT.split_once("## An example").unwrap();
    let (example, _) = example.split_once("\n## ").unwrap();
    assert!(example.contains(&format!("`{LINE}`")));
    let rows = example.lines().filter(|line| line.contains("| `"));
    let bytes: Vec<u8> = rows.clone().flat_map(bytes_of).collect();
    assert_eq!(bytes, CARD);
    let mut from = 0;
    for row in rows {
        assert!(row.starts_with(&format!("| {from} |")), "{row}");
        from += bytes_of(row).len();
    }
}

#[test]
fn sizes() {
    for (text, length) in [
        ("C", 5 + 7 + 9),
        ("-", 5 + 7 + 5),
        ("xC/C", 5 + 7 + 9 + 5 + 9),
        ("//:C://", 5 + 9 + 9),
        ("@3/4 =2/!C^E!f)", 5 + 10 + 5 + 5 + 5 + 5 + 13 + 13),
        ("C^D^E^F^G^A^B^'Ctttttttt", 5 + 7 + 39),
    ] {
        assert_eq!(comes_back(&read(text).unwrap()).len(), length, "{text}");
    }
}

#[test]
fn low_bytes_come_first() {
    let place = |card: &[u8]| Reading::from_card(card).unwrap().notes[0].place;
    assert_eq!(place(&CARD), 16);
    assert_eq!(place(&changed(&[(16, 0), (17, 16)])), 4_096);
    assert_eq!(place(&changed(&[(16, 255), (17, 255)])), 65_535);
    for high_first in [changed(&[(1, 0), (4, 2)]), changed(&[(6, 0), (9, 1)])] {
        assert_eq!(Reading::from_card(high_first), Err(CardError::NotACard));
    }
}

#[test]
fn bytes_of_no_card() {
    for length in 0..CARD.len() {
        let cut = Reading::from_card(&CARD[..length]);
        assert_eq!(cut, Err(CardError::NotACard));
    }
    let longer = [&CARD[..], &[0]].concat();
    assert_eq!(Reading::from_card(longer), Err(CardError::NotACard));
    for (at, byte, what) in [
        (0, 0, "another first byte"),
        (1, 1, "a bar fewer"),
        (1, 3, "a bar more"),
        (5, 0b10_0111, "an unused bit of a bar"),
        (6, 0, "a bar without notes"),
        (10, 0, "a clef's bit over 0"),
        (10, 9, "clef 9"),
        (11, 15, "eight sharps"),
        (12, 0, "a meter's bit over 0"),
        (13, 6, "a denominator of 6"),
        (14, 3, "symbol 3"),
        (15, 0b110_0010, "an unused bit of a note"),
        (16, 0, "place 0"),
        (18, 40, "duration 10"),
        (19, 0, "a tie's bit over 0"),
        (19, 4, "ties 4"),
        (20, 0, "a pitch's bit over 0"),
        (20, 9, "nine pitches"),
        (21, 0, "a pitch's place 0"),
        (23, 70, "octave 10"),
        (24, 5, "alteration 3"),
        (44, 0, "a kind's bit over 0"),
        (44, 2, "a grace without a pitch"),
        (44, 5, "kind 5"),
    ] {
        let card = changed(&[(at, byte)]);
        assert_eq!(Reading::from_card(card), Err(CardError::NotACard), "{what}");
    }
}

fn meter(numerator: u8, denominator: u8) -> TimeSignature {
    TimeSignature {
        numerator,
        denominator,
    }
}

fn tuplet(actual_notes: u8, normal_notes: u8) -> TupletInfo {
    TupletInfo {
        actual_notes,
        normal_notes,
    }
}

/// Readings put together by hand that no card holds.
#[test]
fn records_of_no_card() {
    let changes: [fn(&mut Reading); 27] = [
        |made| made.bars.clear(),
        |made| made.notes.clear(),
        |made| made.notes.truncate(2),
        |made| made.bars.truncate(1),
        |made| made.notes[0].place = 0,
        |made| made.notes[0].place = 65_536,
        |made| made.notes[0].place = u32::MAX,
        |made| made.notes[0].kind = NoteKind::Rest,
        |made| made.notes[2].kind = NoteKind::Grace,
        |made| made.notes[0].duration = None,
        |made| made.notes[0].dot_count = 4,
        |made| made.notes[0].tuplet = Some(tuplet(0, 0)),
        |made| made.notes[0].tuplet = Some(tuplet(2, 1)),
        |made| made.notes[0].tuplet = Some(tuplet(3, 3)),
        |made| made.notes[0].pitch_places = made.notes[2].pitch_places,
        |made| made.notes[2].pitch_places = made.notes[1].pitch_places,
        |made| made.notes[0].pitches = read("C^C").unwrap().notes[0].pitches,
        |made| made.notes[0].bar = 2,
        |made| made.bars[1].first_note = 0,
        |made| made.bars[1].first_note = usize::MAX,
        |made| made.bars[1].note_count = 0,
        |made| made.bars[1].note_count = usize::MAX,
        |made| made.bars[0].key_sig = Some(KeySignature { fifths: 8 }),
        |made| made.bars[0].time_sig = Some(meter(0, 0)),
        |made| made.bars[0].time_sig = Some(meter(3, 0)),
        |made| made.bars[0].time_sig = Some(meter(3, 6)),
        |made| made.bars[1].time_symbol = Some(TimeSymbol::Cut),
    ];
    for (change, number) in changes.into_iter().zip(1..) {
        let card = remade(change).to_card();
        assert_eq!(card, Err(CardError::NotRecords), "change {number}");
    }
}

#[test]
fn a_whole_bar_rest_with_a_length() {
    let with = |duration| {
        remade(|made| {
            made.notes[2].kind = NoteKind::WholeBarRest;
            made.notes[2].duration = duration;
        })
    };
    assert_eq!(comes_back(&with(None))[43], 0);
    assert_eq!(comes_back(&with(Some(Duration::Quarter)))[43], 16);
    let as_if_none = with(Some(Duration::Longa));
    assert_eq!(as_if_none.to_card(), Err(CardError::NotRecords));
}

#[test]
fn little_room() {
    let reading = read(LINE).unwrap();
    let notes: Vec<NoteWords> = reading.notes.iter().filter_map(Note::to_words).collect();
    let bars: Vec<BarWords> = reading.bars.iter().filter_map(Bar::to_words).collect();
    let mut bytes = [0xa5; CARD.len()];
    assert_eq!(write_card_into(&notes, &bars, &mut bytes), Ok(&CARD[..]));
    let short = write_card_into(&notes, &bars, &mut bytes[1..]);
    assert_eq!(short, Err(CardError::CardRoom));
    assert!(bytes[1..].iter().all(|byte| *byte == 0));
    let none = write_card_into(&notes, &bars, &mut []);
    assert_eq!(none, Err(CardError::CardRoom));
    let unlike = write_card_into(&notes, &[], &mut []);
    assert_eq!(unlike, Err(CardError::NotRecords));

    for (note_records, bar_records) in [(2, 2), (3, 1), (0, 0)] {
        for (card, error) in [
            (&CARD[..], CardError::RecordRoom),
            (&CARD[1..], CardError::NotACard),
        ] {
            let mut notes = vec![[POISON; NOTE_WORDS]; note_records];
            let mut bars = vec![[POISON; BAR_WORDS]; bar_records];
            assert_eq!(read_card_into(card, &mut notes, &mut bars), Err(error));
            assert!(notes.as_flattened().iter().all(|word| *word == 0));
            assert!(bars.as_flattened().iter().all(|word| *word == 0));
        }
    }
}

#[test]
fn messages() {
    for (error, number, reason) in [
        (
            CardError::NotRecords,
            14,
            "the notes and bars are not such as a card holds",
        ),
        (CardError::NotACard, 14, "the bytes are not those of a card"),
        (CardError::CardRoom, 15, "the card doesn't fit its buffer"),
        (
            CardError::RecordRoom,
            15,
            "the card's notes or bars don't fit their buffers",
        ),
    ] {
        assert_eq!(error.number(), Some(number));
        assert_eq!(error.to_string(), format!("refused {number}: {reason}"));
    }
}

/// The most notes, each in a bar of its own: with the fewest bytes each, and with the most.
#[test]
fn the_most_notes() {
    let rests = read("=1000/".repeat(100)).unwrap();
    assert_eq!(rests.bars.len(), MAX_NOTES);
    assert_eq!(comes_back(&rests).len(), 5 + 2 + 10 * MAX_NOTES);

    let mut note = [0; NOTE_WORDS];
    note[note::PLACE..note::BAR].copy_from_slice(&[65_535, 3, 9, 3, 3, 3, 255, 128, 8, 255, 8]);
    note[note::PITCHES..].copy_from_slice(&[65_535, 6, 9, 2].repeat(8));
    let bars = (0..).map(|first| [first, 1, 8, 1, 7, 255, 128, 2, 3, 3]);
    let bars: Vec<BarWords> = bars.take(MAX_NOTES + 1).collect();
    let notes = (1..).map(|number| {
        note[note::BAR] = number;
        note
    });
    let notes: Vec<NoteWords> = notes.take(MAX_NOTES + 1).collect();
    let mut bytes = vec![0; max_card_bytes(MAX_NOTES, MAX_NOTES)];
    let card = write_card_into(&notes[..MAX_NOTES], &bars[..MAX_NOTES], &mut bytes).unwrap();
    assert_eq!(card.len(), 5_500_005);
    let reading = Reading::from_card(card).unwrap();
    assert_eq!(reading.notes.len(), MAX_NOTES);
    assert_eq!(reading.to_card().as_deref(), Ok(card));
    let over = write_card_into(&notes, &bars, &mut []);
    assert_eq!(over, Err(CardError::NotRecords));
}

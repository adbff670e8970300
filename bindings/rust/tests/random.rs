//! Random texts: none panics, what is read hangs together, and 3 is refused exactly what `from_utf8` refuses.

mod common;
mod numbers;

use common::{SIGNS, accented};
use numbers::Random;
use urthmoli::{NoteKind, Position, Reading, Refusal, read};

const TEXTS: usize = 20_000;

/// The characters that places count.
fn data_of(text: &str) -> Vec<char> {
    let mut fields = text.lines().rev().map(str::trim);
    let value = fields.find_map(|line| line.strip_prefix("@data:"));
    value.map_or(text, str::trim).chars().collect()
}

/// Bars follow each other without gaps, each note and pitch has its sign in the data, and each span
/// is its value.
fn is_whole(reading: &Reading, text: &[u8]) {
    let text = str::from_utf8(text).unwrap();
    let data = data_of(text);
    let sign = |place: u32| data[usize::try_from(place).unwrap() - 1];
    for found in &reading.diagnostics {
        let span = found.span.clone();
        assert!(span.is_none_or(|span| text[span] == found.value));
        if let Position::Data(place) = found.position {
            let mark = sign(place);
            assert!(mark != ' ' && (mark.is_ascii() || found.value == mark.to_string()));
        }
    }
    let mut next = 0;
    for (bar, number) in reading.bars.iter().zip(1..) {
        assert_eq!(bar.first_note, next);
        assert!(bar.note_count > 0);
        next += bar.note_count;
        for note in reading.notes_of(bar) {
            assert_eq!(note.bar, number);
            assert_eq!(note.kind.is_rest(), note.pitches.is_empty());
            let whole_bar = note.kind == NoteKind::WholeBarRest;
            assert_eq!(whole_bar, note.duration.is_none());
            assert!(!whole_bar || note.dot_count == 0);
            assert!(matches!(
                sign(note.place),
                'A'..='G' | '-' | '=' | 'f' | 'i'
            ));
            assert_eq!(note.pitches.len(), note.pitch_places.len());
            for (pitch, place) in note.pitches.iter().zip(&note.pitch_places) {
                assert_eq!(sign(*place).to_string(), format!("{:?}", pitch.step));
            }
        }
    }
    assert_eq!(next, reading.notes.len());
}

/// Nothing is refused for want of room, or by a number that isn't known.
fn is_the_texts_fault(refusal: Refusal) {
    let number = refusal.number();
    assert!(!matches!(number, None | Some(2 | 8 | 11 | 12)), "{refusal}");
}

/// Whether the text is accepted.
fn check(text: &[u8]) -> bool {
    let malformed = str::from_utf8(text).map_err(|error| error.valid_up_to());
    let refused = malformed.map_err(|offset| Refusal::MalformedUtf8 { offset });
    match read(text) {
        Err(refusal) if refusal.number() == Some(3) => {
            assert_eq!(refused, Err(refusal));
            false
        }
        _ if refused.is_err() => panic!("{}", text.escape_ascii()),
        Ok(reading) => {
            is_whole(&reading, text);
            true
        }
        Err(refusal) => {
            is_the_texts_fault(refusal);
            false
        }
    }
}

#[test]
fn any_bytes() {
    let mut random = Random(0x9e37_79b9_7f4a_7c15);
    for _ in 0..TEXTS {
        check(&random.text(|random| random.next().to_le_bytes()[0]));
    }
}

#[test]
fn any_ascii() {
    let mut random = Random(0xd1b5_4a32_d192_ed03);
    for _ in 0..TEXTS {
        check(&random.text(|random| random.next().to_le_bytes()[0] & 0x7f));
    }
}

#[test]
fn any_signs() {
    let mut random = Random(0x2545_f491_4f6c_dd1d);
    let accepted = (0..TEXTS)
        .filter(|_| check(&random.text(|random| SIGNS[random.below(SIGNS.len())])))
        .count();
    assert!(accepted > TEXTS / 4, "{accepted}");
}

#[test]
fn any_characters() {
    let mut random = Random(0x6c62_272e_07bb_0142);
    let accepted = (0..TEXTS).filter(|_| check(&accented(&mut random))).count();
    assert!(accepted > TEXTS / 4, "{accepted}");
}

#[test]
fn any_cut_characters() {
    let mut random = Random(0x0142_6c62_272e_07bb);
    let malformed = (0..TEXTS).filter(|_| {
        let mut text = accented(&mut random);
        text.truncate(random.below(text.len() + 1));
        check(&text);
        if text.is_empty() {
            return false;
        }
        let at = random.below(text.len());
        text[at] ^= 1 << random.below(8);
        check(&text);
        str::from_utf8(&text).is_err()
    });
    assert!(malformed.count() > TEXTS / 4);
}

//! Accepted readings, written as cards and read back.

use crate::check::Check;
use crate::library::Texts;
use crate::lines;
use crate::model::NOTE_WORDS;
use crate::random::Random;
use crate::sizes::most_bytes;

pub fn run(check: &mut Check, random: &mut Random, count: u64) {
    let mut texts = Texts::new(400);
    let (mut accepted, mut notes) = (0_u64, 0);
    for case in 0..count {
        check.case = case;
        let text = lines::line(random);
        let Some(records) = texts.read(text.as_bytes()) else { continue };
        accepted += 1;
        notes += records.notes.len() / NOTE_WORDS;
        let card = check.and_back(&records, most_bytes(&records));
        check.both_ways(&card);
    }
    println!("  {count} texts, {accepted} accepted, with {notes} notes");
}

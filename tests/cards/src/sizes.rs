//! Random such records, written and read with lent sizes about the need.

use crate::check::Check;
use crate::model::{BAR_WORDS, NOTE_WORDS, Records};
use crate::random::Random;
use crate::records::{SMALL, TINY, records, wide_records};

/// A card of these records takes at most so many bytes: 12 for a bar, 43 for a note.
pub fn most_bytes(records: &Records) -> usize {
    5 + records.bars.len() / BAR_WORDS * 12 + records.notes.len() / NOTE_WORDS * 43
}

/// A word less, exact, a word more, a record less, a record more, none.
pub fn about(need: usize, record: usize) -> [usize; 6] {
    [need - 1, need, need + 1, need - record, need + record, 0]
}

pub fn run(check: &mut Check, random: &mut Random, count: u64) {
    for case in 0..count {
        check.case = case;
        let records = match random.below(100) {
            0 => wide_records(random),
            1..30 => records(random, TINY),
            _ => records(random, SMALL),
        };
        let card = check.and_back(&records, most_bytes(&records));
        let need = card.len();
        for lent in [0, need - 1, need, need + 1, need + 2 + random.below(60)] {
            let written = check.write(&records.notes, &records.bars, lent);
            if (written.number == 0) != (lent >= need) {
                check.stop("a card is written or refused against its need", &card);
            }
        }
        read_sizes(check, &card, &records);
    }
}

/// Every two sizes about the need; with enough lent the records stand there.
fn read_sizes(check: &mut Check, card: &[u8], records: &Records) {
    let (need_notes, need_bars) = (records.notes.len(), records.bars.len());
    for notes in about(need_notes, NOTE_WORDS) {
        for bars in about(need_bars, BAR_WORDS) {
            let read = check.read(card, notes, bars);
            let enough = notes >= need_notes && bars >= need_bars;
            if (read.number == 0) != enough {
                check.stop("a card is read or refused against its need", card);
            }
            if enough
                && (read.cells.notes[..need_notes] != records.notes || read.cells.bars[..need_bars] != records.bars)
            {
                check.stop("a card doesn't give its records", card);
            }
        }
    }
}

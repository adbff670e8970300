//! A second writer and reader of catalogue cards, written from the request for them and the words of the records alone;
//! sections 13 and 15 of docs/SPECIFICATION.md say the same. The quoted sentences are the request's. It is plain on purpose: the reader takes the bytes from front to back and
//! judges each where it stands; the writer judges all records first.

pub const NOTE_WORDS: usize = 44;
pub const BAR_WORDS: usize = 10;
pub const MAX_NOTES: usize = 100_000;
pub const MAX_PITCHES: usize = 8;

/// "14 not such a card, or for the writer not such records"
pub const NOT_SUCH: u32 = 14;
/// "15 records or card don't fit"
pub const NO_ROOM: u32 = 15;

// the words of a note
pub const PLACE: usize = 0;
pub const KIND: usize = 1;
pub const DURATION: usize = 2;
pub const DOTS: usize = 3;
pub const TIES: usize = 4;
pub const BEAM: usize = 5;
pub const ACTUAL: usize = 6;
pub const NORMAL: usize = 7;
pub const MARK_COUNT: usize = 8;
pub const MARKS: usize = 9;
pub const PITCH_COUNT: usize = 10;
pub const BAR: usize = 11;
pub const PITCHES: usize = 12;

// the words of a pitch
pub const PITCH_WORDS: usize = 4;
pub const STEP: usize = 1;
pub const OCTAVE: usize = 2;
pub const ALTERATION: usize = 3;

// the words of a bar
pub const FIRST_NOTE: usize = 0;
pub const NOTE_COUNT: usize = 1;
pub const CLEF: usize = 2;
pub const KEY_SET: usize = 3;
pub const FIFTHS: usize = 4;
pub const NUMERATOR: usize = 5;
pub const DENOMINATOR: usize = 6;
pub const SYMBOL: usize = 7;
pub const LEFT: usize = 8;
pub const RIGHT: usize = 9;

/// Words of notes and of bars.
#[derive(Clone, Debug, Default, PartialEq)]
pub struct Records {
    pub notes: Vec<i32>,
    pub bars: Vec<i32>,
}

/// The answer of a writer, with every lent cell.
#[derive(Clone, Debug, PartialEq)]
pub struct Written {
    pub number: u32,
    pub length: u32,
    pub cells: Vec<u8>,
}

/// The answer of a reader, with every lent cell.
#[derive(Clone, Debug, PartialEq)]
pub struct Read {
    pub number: u32,
    pub notes: u32,
    pub bars: u32,
    pub cells: Records,
}

/// Writes the records. "Cells behind what is written are 0, and after a refusal every cell to be written."
pub fn write(notes: &[i32], bars: &[i32], lent: usize) -> Written {
    let mut written = Written { number: 0, length: 0, cells: vec![0; lent] };
    if !such_records(notes, bars) {
        written.number = NOT_SUCH;
        return written;
    }
    let card = put_card(notes, bars);
    if card.len() > lent {
        written.number = NO_ROOM;
        return written;
    }
    written.length = card.len() as u32;
    written.cells[..card.len()].copy_from_slice(&card);
    written
}

/// Reads the card. "15 is checked only after 14."
pub fn read(card: &[u8], notes: usize, bars: usize) -> Read {
    let cells = Records { notes: vec![0; notes], bars: vec![0; bars] };
    let mut read = Read { number: 0, notes: 0, bars: 0, cells };
    let Some(records) = get_card(card) else {
        read.number = NOT_SUCH;
        return read;
    };
    if records.notes.len() > notes || records.bars.len() > bars {
        read.number = NO_ROOM;
        return read;
    }
    read.notes = (records.notes.len() / NOTE_WORDS) as u32;
    read.bars = (records.bars.len() / BAR_WORDS) as u32;
    read.cells.notes[..records.notes.len()].copy_from_slice(&records.notes);
    read.cells.bars[..records.bars.len()].copy_from_slice(&records.bars);
    read
}

// ---- what both judge

/// "normal is the largest power of two not above actual less one"; 0, 0: no tuplet
pub fn normal_of(actual: i32) -> i32 {
    if actual == 0 {
        return 0;
    }
    let most = actual - 1;
    let mut normal = 1;
    while normal * 2 <= most {
        normal *= 2;
    }
    normal
}

/// "a power of two from 1 to 128"
fn is_denominator(word: i32) -> bool {
    [1, 2, 4, 8, 16, 32, 64, 128].contains(&word)
}

/// "mark bits at and beyond the count are 0"
fn are_marks(marks: i32, count: i32) -> bool {
    (0..32).all(|bit| bit < count || marks >> bit & 1 == 0)
}

/// "a rest of either kind with no pitch and other notes with one or more"
fn is_pitched(kind: i32, pitches: i32) -> bool {
    let rest = kind == 1 || kind == 4;
    if rest { pitches == 0 } else { pitches >= 1 }
}

// ---- the writer

/// "with at least one bar, at most 100,000 notes, every bar with a note"; "First notes and bar numbers run on without
/// gaps"
fn such_records(notes: &[i32], bars: &[i32]) -> bool {
    if !notes.len().is_multiple_of(NOTE_WORDS) || !bars.len().is_multiple_of(BAR_WORDS) {
        return false;
    }
    let count = notes.len() / NOTE_WORDS;
    if bars.is_empty() || count > MAX_NOTES {
        return false;
    }
    let mut next = 0;
    for (index, bar) in bars.chunks_exact(BAR_WORDS).enumerate() {
        if bar[FIRST_NOTE] as i64 != next as i64 || !such_bar(bar) {
            return false;
        }
        if bar[NOTE_COUNT] < 1 || bar[NOTE_COUNT] as usize > count - next {
            return false;
        }
        let behind = next + bar[NOTE_COUNT] as usize;
        for note in notes[next * NOTE_WORDS..behind * NOTE_WORDS].chunks_exact(NOTE_WORDS) {
            if note[BAR] as i64 != index as i64 + 1 || !such_note(note) {
                return false;
            }
        }
        next = behind;
    }
    next == count
}

/// A bar without its first note and note count.
fn such_bar(bar: &[i32]) -> bool {
    let ranges = (0..=8).contains(&bar[CLEF])
        && (0..=1).contains(&bar[KEY_SET])
        && (-7..=7).contains(&bar[FIFTHS])
        && (0..=255).contains(&bar[NUMERATOR])
        && (0..=2).contains(&bar[SYMBOL])
        && (0..=3).contains(&bar[LEFT])
        && (0..=3).contains(&bar[RIGHT]);
    let key = bar[KEY_SET] == 1 || bar[FIFTHS] == 0;
    let meter =
        if bar[NUMERATOR] == 0 { bar[DENOMINATOR] == 0 && bar[SYMBOL] == 0 } else { is_denominator(bar[DENOMINATOR]) };
    ranges && key && meter
}

/// A note without its bar number.
fn such_note(note: &[i32]) -> bool {
    let ranges = (1..=65_535).contains(&note[PLACE])
        && (0..=4).contains(&note[KIND])
        && (0..=9).contains(&note[DURATION])
        && (0..=3).contains(&note[DOTS])
        && (0..=3).contains(&note[TIES])
        && (0..=3).contains(&note[BEAM])
        && (note[ACTUAL] == 0 || (3..=255).contains(&note[ACTUAL]))
        && (0..=8).contains(&note[MARK_COUNT])
        && (0..=8).contains(&note[PITCH_COUNT]);
    ranges
        && note[NORMAL] == normal_of(note[ACTUAL])
        && are_marks(note[MARKS], note[MARK_COUNT])
        && is_pitched(note[KIND], note[PITCH_COUNT])
        && such_pitches(&note[PITCHES..], note[PITCH_COUNT] as usize)
}

/// "unused pitches are 0"
fn such_pitches(words: &[i32], count: usize) -> bool {
    words.chunks_exact(PITCH_WORDS).enumerate().all(|(index, pitch)| {
        if index >= count {
            return pitch == [0; PITCH_WORDS];
        }
        (1..=65_535).contains(&pitch[PLACE])
            && (0..=6).contains(&pitch[STEP])
            && (0..=9).contains(&pitch[OCTAVE])
            && (-2..=2).contains(&pitch[ALTERATION])
    })
}

/// "A card is byte 1, a bar count of four bytes, then the bars"
fn put_card(notes: &[i32], bars: &[i32]) -> Vec<u8> {
    let mut card = vec![1];
    put_four(&mut card, bars.len() / BAR_WORDS);
    let mut next = 0;
    for bar in bars.chunks_exact(BAR_WORDS) {
        put_bar(&mut card, bar);
        for _ in 0..bar[NOTE_COUNT] {
            put_note(&mut card, &notes[next * NOTE_WORDS..(next + 1) * NOTE_WORDS]);
            next += 1;
        }
    }
    card
}

/// "low bytes come first"
fn put_two(card: &mut Vec<u8>, word: i32) {
    card.push((word % 256) as u8);
    card.push((word / 256) as u8);
}

fn put_four(card: &mut Vec<u8>, count: usize) {
    for power in 0..4 {
        card.push((count / 256_usize.pow(power) % 256) as u8);
    }
}

/// "A bar is a bit map (from bit 0: clef, key, meter, left, right), a four-byte note count, then only the fields whose
/// bit stands: clef; fifths plus 7; numerator, denominator, symbol; left; right."
fn put_bar(card: &mut Vec<u8>, bar: &[i32]) {
    let stands = [bar[CLEF] != 0, bar[KEY_SET] == 1, bar[NUMERATOR] != 0, bar[LEFT] != 0, bar[RIGHT] != 0];
    card.push(map_of(&stands));
    put_four(card, bar[NOTE_COUNT] as usize);
    if stands[0] {
        card.push(bar[CLEF] as u8);
    }
    if stands[1] {
        card.push((bar[FIFTHS] + 7) as u8);
    }
    if stands[2] {
        card.push(bar[NUMERATOR] as u8);
        card.push(bar[DENOMINATOR] as u8);
        card.push(bar[SYMBOL] as u8);
    }
    if stands[3] {
        card.push(bar[LEFT] as u8);
    }
    if stands[4] {
        card.push(bar[RIGHT] as u8);
    }
}

fn map_of(stands: &[bool]) -> u8 {
    stands.iter().enumerate().map(|(bit, stands)| (*stands as u8) << bit).sum()
}

/// "A note is likewise a bit map (kind, ties, beam, tuplet, marks, pitches), a two-byte place, duration times 4 plus
/// dots, then kind; ties; beam; tuplet actual; mark count and marks; pitch count and for each a two-byte place, step
/// plus 7 times octave, alteration plus 2."
fn put_note(card: &mut Vec<u8>, note: &[i32]) {
    let firsts = [KIND, TIES, BEAM, ACTUAL, MARK_COUNT, PITCH_COUNT];
    card.push(map_of(&firsts.map(|word| note[word] != 0)));
    put_two(card, note[PLACE]);
    card.push((note[DURATION] * 4 + note[DOTS]) as u8);
    for word in [KIND, TIES, BEAM, ACTUAL] {
        if note[word] != 0 {
            card.push(note[word] as u8);
        }
    }
    if note[MARK_COUNT] != 0 {
        card.push(note[MARK_COUNT] as u8);
        card.push(note[MARKS] as u8);
    }
    if note[PITCH_COUNT] != 0 {
        card.push(note[PITCH_COUNT] as u8);
        for pitch in note[PITCHES..].chunks_exact(PITCH_WORDS).take(note[PITCH_COUNT] as usize) {
            put_two(card, pitch[PLACE]);
            card.push((pitch[STEP] + 7 * pitch[OCTAVE]) as u8);
            card.push((pitch[ALTERATION] + 2) as u8);
        }
    }
}

// ---- the reader

/// "read front to back, a field at a time"; None where the card ends too early.
struct Bytes<'a> {
    card: &'a [u8],
    at: usize,
}

impl Bytes<'_> {
    fn one(&mut self) -> Option<i32> {
        let byte = *self.card.get(self.at)?;
        self.at += 1;
        Some(byte as i32)
    }

    fn two(&mut self) -> Option<i32> {
        let low = self.one()?;
        let high = self.one()?;
        Some(low + 256 * high)
    }

    fn four(&mut self) -> Option<u64> {
        let low = self.two()? as u64;
        let high = self.two()? as u64;
        Some(low + 65_536 * high)
    }

    /// A byte from low to high.
    fn within(&mut self, low: i32, high: i32) -> Option<i32> {
        self.one().filter(|byte| (low..=high).contains(byte))
    }

    /// "places run from 1 to 65,535"
    fn place(&mut self) -> Option<i32> {
        self.two().filter(|place| *place >= 1)
    }

    /// A bit map; "Unused bits [..] are 0".
    fn map<const BITS: usize>(&mut self) -> Option<[bool; BITS]> {
        let map = self.within(0, (1 << BITS) - 1)?;
        Some(std::array::from_fn(|bit| map >> bit & 1 == 1))
    }
}

/// The records of a card; None if it is no such card.
fn get_card(card: &[u8]) -> Option<Records> {
    let mut bytes = Bytes { card, at: 0 };
    let mut records = Records::default();
    bytes.within(1, 1)?;
    let bars = bytes.four()?;
    if bars == 0 {
        return None;
    }
    for number in 1..=bars {
        let first = records.notes.len() / NOTE_WORDS;
        let bar = get_bar(&mut bytes, first)?;
        records.bars.extend(bar);
        for _ in 0..bar[NOTE_COUNT] {
            records.notes.extend(get_note(&mut bytes, number)?);
        }
    }
    // nothing stands behind the last note
    if bytes.at != card.len() {
        return None;
    }
    Some(records)
}

/// The head of a bar. A bit that stands over a first word of 0 is no such card's.
fn get_bar(bytes: &mut Bytes, first: usize) -> Option<[i32; BAR_WORDS]> {
    let mut bar = [0; BAR_WORDS];
    let [clef, key, meter, left, right] = bytes.map()?;
    let count = bytes.four()?;
    if count == 0 || count > (MAX_NOTES - first) as u64 {
        return None;
    }
    bar[FIRST_NOTE] = first as i32;
    bar[NOTE_COUNT] = count as i32;
    if clef {
        bar[CLEF] = bytes.within(1, 8)?;
    }
    if key {
        bar[KEY_SET] = 1;
        bar[FIFTHS] = bytes.within(0, 14)? - 7;
    }
    if meter {
        bar[NUMERATOR] = bytes.within(1, 255)?;
        bar[DENOMINATOR] = bytes.one().filter(|word| is_denominator(*word))?;
        bar[SYMBOL] = bytes.within(0, 2)?;
    }
    if left {
        bar[LEFT] = bytes.within(1, 3)?;
    }
    if right {
        bar[RIGHT] = bytes.within(1, 3)?;
    }
    Some(bar)
}

fn get_note(bytes: &mut Bytes, number: u64) -> Option<[i32; NOTE_WORDS]> {
    let mut note = [0; NOTE_WORDS];
    let [kind, ties, beam, tuplet, marks, pitches] = bytes.map()?;
    note[BAR] = number as i32;
    note[PLACE] = bytes.place()?;
    let length = bytes.within(0, 9 * 4 + 3)?;
    note[DURATION] = length / 4;
    note[DOTS] = length % 4;
    if kind {
        note[KIND] = bytes.within(1, 4)?;
    }
    if ties {
        note[TIES] = bytes.within(1, 3)?;
    }
    if beam {
        note[BEAM] = bytes.within(1, 3)?;
    }
    if tuplet {
        note[ACTUAL] = bytes.within(3, 255)?;
        note[NORMAL] = normal_of(note[ACTUAL]);
    }
    if marks {
        note[MARK_COUNT] = bytes.within(1, 8)?;
        note[MARKS] = bytes.one().filter(|marks| are_marks(*marks, note[MARK_COUNT]))?;
    }
    if pitches {
        let count = bytes.within(1, 8)?;
        note[PITCH_COUNT] = count;
        for pitch in note[PITCHES..].chunks_exact_mut(PITCH_WORDS).take(count as usize) {
            get_pitch(bytes, pitch)?;
        }
    }
    is_pitched(note[KIND], note[PITCH_COUNT]).then_some(note)
}

fn get_pitch(bytes: &mut Bytes, pitch: &mut [i32]) -> Option<()> {
    pitch[PLACE] = bytes.place()?;
    let height = bytes.within(0, 6 + 7 * 9)?;
    pitch[STEP] = height % 7;
    pitch[OCTAVE] = height / 7;
    pitch[ALTERATION] = bytes.within(0, 4)? - 2;
    Some(())
}

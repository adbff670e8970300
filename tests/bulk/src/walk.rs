//! Places and refusals, which the original doesn't have, worked out from the text: where each record comes
//! from, and where a reading stops. Held against the original's counts on every text that both read to the end. And what
//! is closed in a later bar, which the original reads otherwise (S-10.2).

use crate::library::{BAR, DIAGNOSTICS, Lent, NOTE};
use crate::original::ROOM;
use std::ops::Range;

/// The longest text, and the most notes.
pub const TEXT: usize = 65_535;
pub const NOTES: usize = 100_000;

/// Where a reading stops, and why.
#[derive(Clone, Copy, Debug, Default, PartialEq, Eq, PartialOrd, Ord)]
pub struct Refusal {
    pub place: u32,
    pub number: u32,
}

/// A stored note or rest.
#[derive(Clone, Copy, Default)]
pub struct Record {
    pub place: u32,
    /// Its place where it is no copy, else that of the record that was copied first.
    pub origin: u32,
    pub letters: [u32; ROOM],
    pub pitches: usize,
    pub marks: usize,
    grace: bool,
}

/// How many records of each buffer a text needs.
#[derive(Clone, Copy, Debug, Default)]
pub struct Needs {
    pub notes: usize,
    pub bars: usize,
    pub figure: usize,
}

/// A token of ASCII: its place, and how many characters it has.
#[derive(Clone, Copy)]
pub struct Sign {
    pub place: u32,
    pub size: usize,
}

/// An open group, beam or figure.
struct Opened {
    /// How many bars were stored before its own, and how long that was at its start.
    bar: usize,
    from: usize,
    /// Whether it has a count.
    counted: bool,
    /// The signs that opened it and those that it replaced, and their good counts.
    signs: Vec<Sign>,
}

/// The signs of groups, beams and figures that are closed in a later bar, also in one that is still empty. A barline in
/// an empty bar starts no later one.
#[derive(Default)]
pub struct Later {
    /// Those that open them, or count in them.
    pub opening: Vec<Sign>,
    /// The place of each `)` and second `!`, from the left, and the number of the diagnostic that is due there.
    pub closing: Vec<(u32, i32)>,
}

impl Later {
    /// Whether none is closed so. A beam has no diagnostic, but was opened.
    pub fn is_empty(&self) -> bool {
        self.opening.is_empty()
    }
}

#[derive(Default)]
pub struct Walk {
    /// The stored records; more than 100,000 never stand here.
    pub records: Vec<Record>,
    /// Where each character of the data starts in the text.
    pub starts: Vec<usize>,
    /// The stop that no lent size helps.
    pub stop: Option<Refusal>,
    /// The places of rests that cancel a tie, or step a pattern of more than one length.
    pub felt: Vec<u32>,
    /// The places of rests in a bar that has a note or rest already, graces aside.
    pub behind: Vec<u32>,
    /// What is closed in a later bar. A closing behind the stop isn't read, and isn't here: such a text is refused by what
    /// stands before, which the original reads alike. One that only few lent cells stop earlier is here.
    pub later: Later,
    bars: Vec<u32>,
    figures: Vec<(u32, usize)>,
    figure: Vec<Record>,
    first: usize,
    last_bar: (usize, usize),
    mark: Option<Opened>,
    group: Option<Opened>,
    beam: Option<Opened>,
    chord: bool,
    grace: bool,
    grace_group: bool,
    tie: bool,
    /// Whether the pattern has more than one length.
    patterned: bool,
    /// Whether the open bar has a note or rest, graces aside.
    timed: bool,
}

impl Walk {
    /// Follows a text as far as it can be read with ample cells.
    pub fn follow(&mut self, text: &[u8]) {
        match data_in(text) {
            Ok(data) => self.follow_in(data),
            Err(number) => {
                self.forget();
                self.stop = Some(Refusal { place: 0, number });
            }
        }
    }

    /// Follows the data of a text, however long.
    pub fn follow_in(&mut self, data: Data) {
        self.forget();
        self.starts.extend(data.starts());
        self.follow_data(data.read());
    }

    fn forget(&mut self) {
        let mut fresh = Walk::default();
        std::mem::swap(&mut fresh.records, &mut self.records);
        std::mem::swap(&mut fresh.bars, &mut self.bars);
        std::mem::swap(&mut fresh.figures, &mut self.figures);
        std::mem::swap(&mut fresh.figure, &mut self.figure);
        std::mem::swap(&mut fresh.starts, &mut self.starts);
        std::mem::swap(&mut fresh.felt, &mut self.felt);
        std::mem::swap(&mut fresh.behind, &mut self.behind);
        std::mem::swap(&mut fresh.later, &mut self.later);
        fresh.later.opening.clear();
        fresh.later.closing.clear();
        fresh.starts.clear();
        fresh.felt.clear();
        fresh.behind.clear();
        fresh.records.clear();
        fresh.bars.clear();
        fresh.figures.clear();
        fresh.figure.clear();
        *self = fresh;
    }

    pub fn needs(&self) -> Needs {
        Needs {
            notes: self.records.len(),
            bars: self.bars.len(),
            figure: self
                .figures
                .iter()
                .map(|(_, size)| *size)
                .max()
                .unwrap_or(0),
        }
    }

    /// The refusal that is due with these cells lent, if any.
    pub fn refusal(&self, lent: Lent) -> Option<Refusal> {
        if self.stop.is_some_and(|stop| stop.number == 1) {
            return self.stop;
        }
        if lent.diagnostics < DIAGNOSTICS {
            return Some(Refusal {
                place: 0,
                number: 2,
            });
        }
        if self.stop.is_some_and(|stop| stop.place == 0) {
            return self.stop;
        }
        let at = |place: u32, number| Refusal { place, number };
        let note = self
            .records
            .get(lent.notes / NOTE)
            .map(|record| at(record.place, 8));
        let bar = self.bars.get(lent.bars / BAR).map(|place| at(*place, 12));
        let mut figures = self.figures.iter();
        let figure = figures
            .find(|(_, size)| *size > lent.figure / NOTE)
            .map(|(place, _)| at(*place, 11));
        let none_stored = self.records.is_empty().then_some(at(0, 13));
        [self.stop, note, bar, figure]
            .into_iter()
            .flatten()
            .min()
            .or(none_stored)
    }

    fn follow_data(&mut self, data: &str) {
        let mut place = 1;
        for token in tokens(data) {
            if let Err(number) = self.take(token.as_bytes(), place) {
                self.stop = Some(Refusal { place, number });
                return;
            }
            place += token.chars().count() as u32;
        }
        self.close(place);
    }

    /// The records of the open bar.
    fn open(&self) -> usize {
        self.records.len() - self.first
    }

    fn take(&mut self, token: &[u8], place: u32) -> Result<(), u32> {
        match token {
            [b'A'..=b'G'] => return self.letter(place),
            b"-" => return self.rest(place),
            [b'0'..=b'9', more @ ..] => self.patterned = more.iter().any(u8::is_ascii_digit),
            b"+" if self.open() > 0 => {
                self.tie |= self.records.last().is_some_and(|last| last.pitches > 0)
            }
            b"^" => self.chord = true,
            b"g" | b"q" => self.grace = true,
            b"qq" => self.grace_group = true,
            b"r" => self.grace_group = false,
            b"t" if self.open() > 0 => return self.mark_at(self.records.len() - 1),
            b"/" | b"//" | b"//:" | b"://" | b"://:" => self.close(place),
            b"{" => {
                let replaced = self.beam.take();
                self.beam = Some(self.opened(replaced, place));
            }
            b"}" => self.close_beam(),
            b"(" => {
                let replaced = self.group.take();
                self.group = Some(self.opened(replaced, place));
            }
            [b';', digits @ ..] => self.count(digits, place),
            b")" => return self.close_group(place),
            b"!" => self.mark_figure(place),
            b"f" => return self.append_figure(place),
            b"i" if self.open() == 0 && !self.bars.is_empty() => return self.repeat_bar(place),
            _ => {}
        }
        Ok(())
    }

    fn store(&mut self, record: Record) -> Result<(), u32> {
        if self.records.len() == NOTES {
            return Err(7);
        }
        self.records.push(record);
        self.timed |= !record.grace;
        Ok(())
    }

    fn rest(&mut self, place: u32) -> Result<(), u32> {
        if std::mem::take(&mut self.tie) || self.patterned {
            self.felt.push(place);
        }
        if self.timed {
            self.behind.push(place);
        }
        self.store(Record {
            place,
            origin: place,
            ..Record::default()
        })
    }

    fn letter(&mut self, place: u32) -> Result<(), u32> {
        let open = self.open();
        let joins = std::mem::take(&mut self.chord) && open > 0;
        if let Some(last) = self
            .records
            .last_mut()
            .filter(|last| joins && last.pitches > 0)
        {
            if last.pitches == ROOM {
                return Err(9);
            }
            last.letters[last.pitches] = place;
            last.pitches += 1;
            return Ok(());
        }
        let grace = std::mem::take(&mut self.grace) || self.grace_group;
        self.tie = false;
        let mut record = Record {
            place,
            origin: place,
            pitches: 1,
            grace,
            ..Record::default()
        };
        record.letters[0] = place;
        self.store(record)
    }

    fn mark_at(&mut self, index: usize) -> Result<(), u32> {
        if self.records[index].marks == ROOM {
            return Err(10);
        }
        self.records[index].marks += 1;
        Ok(())
    }

    fn close(&mut self, place: u32) {
        if self.open() > 0 {
            self.bars.push(place);
            self.last_bar = (self.first, self.records.len());
            self.first = self.records.len();
            self.timed = false;
        }
    }

    /// A group, beam or figure that starts here, in place of an open one.
    fn opened(&self, replaced: Option<Opened>, place: u32) -> Opened {
        let mut signs = replaced.map_or_else(Vec::new, |replaced| replaced.signs);
        signs.push(Sign { place, size: 1 });
        Opened {
            bar: self.bars.len(),
            from: self.open(),
            counted: false,
            signs,
        }
    }

    /// The records of one that is closed here; none in a later bar.
    fn closed(&mut self, opened: Opened) -> Option<Range<usize>> {
        if opened.bar == self.bars.len() {
            return Some(self.first + opened.from..self.records.len());
        }
        self.later.opening.extend(opened.signs);
        None
    }

    fn count(&mut self, digits: &[u8], place: u32) {
        let value = digits.iter().fold(0_u32, |value, digit| {
            (value * 10 + u32::from(digit - b'0')).min(256)
        });
        if let Some(group) = &mut self.group
            && !digits.is_empty()
            && value < 256
        {
            group.counted = true;
            let size = 1 + digits.len();
            group.signs.push(Sign { place, size });
        }
    }

    fn close_beam(&mut self) {
        if let Some(beam) = self.beam.take() {
            self.closed(beam);
        }
    }

    /// A group of one record without a count is a fermata.
    fn close_group(&mut self, place: u32) -> Result<(), u32> {
        let Some(group) = self.group.take() else {
            return Ok(());
        };
        let counted = group.counted;
        let Some(records) = self.closed(group) else {
            self.later.closing.push((place, 10));
            return Ok(());
        };
        let mut timed = records.filter(|index| !self.records[*index].grace);
        match (timed.next(), timed.next()) {
            (Some(single), None) if !counted => self.mark_at(single),
            _ => Ok(()),
        }
    }

    fn mark_figure(&mut self, place: u32) {
        let Some(figure) = self.mark.take() else {
            self.mark = Some(self.opened(None, place));
            return;
        };
        let Some(records) = self.closed(figure) else {
            self.later.closing.push((place, 17));
            return;
        };
        self.figure.clear();
        self.figure.extend_from_slice(&self.records[records]);
        self.figures.push((place, self.figure.len()));
    }

    fn append_figure(&mut self, place: u32) -> Result<(), u32> {
        if self.records.len() + self.figure.len() > NOTES {
            return Err(7);
        }
        for record in &self.figure {
            self.records.push(Record { place, ..*record });
            self.timed |= !record.grace;
        }
        Ok(())
    }

    fn repeat_bar(&mut self, place: u32) -> Result<(), u32> {
        let (from, to) = self.last_bar;
        if self.records.len() + to - from > NOTES {
            return Err(7);
        }
        for index in from..to {
            let record = self.records[index];
            self.records.push(Record { place, ..record });
            self.timed |= !record.grace;
        }
        Ok(())
    }
}

/// The 25 characters of Unicode's White_Space.
pub fn is_blank(character: char) -> bool {
    matches!(
        character,
        '\t'..='\r'
            | ' '
            | '\u{85}'
            | '\u{a0}'
            | '\u{1680}'
            | '\u{2000}'..='\u{200a}'
            | '\u{2028}'
            | '\u{2029}'
            | '\u{202f}'
            | '\u{205f}'
            | '\u{3000}'
    )
}

/// The part of `text` between `start` and `end` without the blanks about it.
pub fn trimmed(text: &str, start: usize, end: usize) -> (usize, usize) {
    let kept = text[start..end].trim_end_matches(is_blank);
    let end = start + kept.len();
    (end - kept.trim_start_matches(is_blank).len(), end)
}

/// A field line's key and value, as parts of the text.
pub struct Field {
    pub key: (usize, usize),
    pub value: (usize, usize),
}

/// The field that stands in a trimmed line.
pub fn field_in(text: &str, (start, end): (usize, usize)) -> Option<Field> {
    let line = text[start..end].strip_prefix('@')?;
    let key = start + 1;
    let letters = line.bytes().take_while(u8::is_ascii_alphabetic).count();
    let colon = key + letters;
    (letters > 0 && line[letters..].starts_with(':')).then(|| Field {
        key: (key, colon),
        value: trimmed(text, colon + 1, end),
    })
}

/// A text and where its data stands in it.
#[derive(Clone, Copy)]
pub struct Data<'a> {
    pub text: &'a str,
    pub start: usize,
    pub end: usize,
}

impl<'a> Data<'a> {
    /// The characters that are read.
    pub fn read(self) -> &'a str {
        &self.text[self.start..self.end]
    }

    /// Where each of them starts in the text.
    pub fn starts(self) -> impl Iterator<Item = usize> {
        let offsets = self.read().char_indices();
        offsets.map(move |(at, _)| self.start + at)
    }
}

/// The data that is read, or the number of the refusal that comes before.
pub fn data_in(text: &[u8]) -> Result<Data<'_>, u32> {
    if text.len() > TEXT {
        return Err(1);
    }
    let text = str::from_utf8(text).map_err(|_| 3_u32)?;
    if text.chars().all(is_blank) {
        return Err(4);
    }
    let (start, end) = data_of(text).ok_or(5_u32)?;
    Ok(Data { text, start, end })
}

/// Where the data stands; none in field form without a data field.
pub fn data_of(text: &str) -> Option<(usize, usize)> {
    if !text.contains('@') {
        return Some((0, text.len()));
    }
    let (mut form, mut data, mut start) = (false, None, 0);
    for line in text.split('\n') {
        let end = start + line.len();
        if let Some(field) = field_in(text, trimmed(text, start, end)) {
            form = true;
            if &text[field.key.0..field.key.1] == "data" {
                data = Some(field.value);
            }
        }
        start = end + 1;
    }
    if form { data } else { Some((0, text.len())) }
}

/// The tokens, cut from the left.
pub fn tokens(mut data: &str) -> impl Iterator<Item = &str> {
    std::iter::from_fn(move || {
        let first = data.chars().next()?;
        let (token, behind) = data.split_at(token_size(first, data));
        data = behind;
        Some(token)
    })
}

/// How many bytes the token has that starts with the character `first` of `data`.
fn token_size(first: char, data: &str) -> usize {
    let rest = &data[first.len_utf8()..];
    let run = |accept: fn(u8) -> bool| rest.bytes().take_while(|byte| accept(*byte)).count();
    let more = match first {
        '\'' => run(|byte| byte == b'\''),
        ',' => run(|byte| byte == b','),
        'x' => run(|byte| byte == b'x'),
        'b' => run(|byte| byte == b'b'),
        '0'..='9' => run(|byte| byte.is_ascii_digit() || byte == b'.'),
        ';' | '=' => run(|byte| byte.is_ascii_digit()),
        '%' => rest
            .chars()
            .take(3)
            .take_while(|character| !is_blank(*character))
            .map(char::len_utf8)
            .sum(),
        '$' => run(|byte| matches!(byte, b'x' | b'b' | b'n' | b'A'..=b'G' | b'[' | b']')),
        '@' => run(|byte| matches!(byte, b'0'..=b'9' | b'/' | b'c' | b'.' | b'+')),
        ':' if rest.starts_with("//:") => 3,
        ':' if rest.starts_with("//") => 2,
        '/' if rest.starts_with("/:") => 2,
        '/' if rest.starts_with('/') => 1,
        'q' if rest.starts_with('q') => 1,
        _ => 0,
    };
    first.len_utf8() + more
}

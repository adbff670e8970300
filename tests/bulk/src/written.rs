//! Rests of whole bars written out, `=3` as `-/-/-`: so the original can be asked about a line that has them.

use crate::walk::{Data, data_in, tokens};
use std::iter::repeat_n;

/// The most bars of one rest.
const BARS: usize = 1_000;

/// A line written out, and where its characters come from.
pub struct Written {
    text: String,
    start: usize,
    end: usize,
    /// Of each character of the written-out data, and of its end: the place in the line, and whether the token there
    /// was written out.
    from: Vec<(u32, bool)>,
    /// Where each character of the line's data starts in the line.
    pub starts: Vec<usize>,
    /// Whether a meter may be set in the line.
    pub metered: bool,
}

impl Written {
    /// None where no data is read, or no token of it is an `=` token. One with a bad count stays as it is.
    pub fn of(line: &[u8]) -> Option<Self> {
        if !line.contains(&b'=') {
            return None;
        }
        let data = data_in(line).ok()?;
        let whole_bars = tokens(data.read()).any(|token| token.starts_with('='));
        whole_bars.then(|| Self::of_data(data))
    }

    fn of_data(data: Data) -> Self {
        let mut text = data.text[..data.start].to_string();
        let mut from = Vec::new();
        let mut place = 1;
        let mut metered = data.text.contains("@timesig:");
        for token in tokens(data.read()) {
            metered |= token.starts_with('@');
            let behind = place + token.chars().count() as u32;
            if let Some(bars) = bars_of(token) {
                text += "-";
                text += &"/-".repeat(bars - 1);
                from.extend(repeat_n((place, true), 2 * bars - 1));
            } else {
                text += token;
                from.extend((place..behind).map(|place| (place, false)));
            }
            place = behind;
        }
        from.push((place, false));
        let end = text.len();
        text += &data.text[data.end..];
        Self {
            text,
            start: data.start,
            end,
            from,
            starts: data.starts().collect(),
            metered,
        }
    }

    pub fn data(&self) -> Data<'_> {
        Data {
            text: &self.text,
            start: self.start,
            end: self.end,
        }
    }

    /// The place in the line from which this place in the written-out data comes; 0 for 0.
    pub fn place(&self, place: u32) -> u32 {
        let before = (place as usize).checked_sub(1);
        before.map_or(0, |before| self.from[before].0)
    }

    /// Whether a rest of whole bars gave the character at this place of the written-out data.
    pub fn is_whole_bars(&self, place: u32) -> bool {
        self.from[place as usize - 1].1
    }
}

/// The bars of an `=` token with a count of 1 to 1,000.
fn bars_of(token: &str) -> Option<usize> {
    let digits = token.strip_prefix('=')?;
    if digits.is_empty() {
        return Some(1);
    }
    let count = digits.parse().ok();
    count.filter(|count| (1..=BARS).contains(count))
}

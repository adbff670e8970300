//! Groups, beams and figures that are closed in a later bar, taken out of a line: so the original can be asked about what
//! is left of it. The signs that open them, with the counts of groups, become blanks, a closing `)` or `!` becomes a `?`:
//! the original's d15 there stands for the d10 or d17 that is due. A `}` stays, since it does nothing without a `{`. Each
//! byte has one in its place, and a blank ends a token as the sign did, so that all else stands where it stood.

use crate::original::Found;
use crate::walk::{Data, Later, data_of};

/// The line for the original. None where a line of a bare text would become a field by it: `C` and `(@a:/D)` below it.
pub fn taken_out(data: Data, later: &Later, place: impl Fn(u32) -> u32) -> Option<String> {
    let starts: Vec<usize> = data.starts().collect();
    let offset = |sign: u32| starts[place(sign) as usize - 1];
    let mut text = data.text.as_bytes().to_vec();
    for sign in &later.opening {
        let at = offset(sign.place);
        text[at..at + sign.size].fill(b' ');
        // A blank at the data's start would be trimmed in field form; no beam is open there.
        if at == data.start {
            text[at] = b'}';
        }
    }
    for (closing, _) in &later.closing {
        text[offset(*closing)] = b'?';
    }
    let text = String::from_utf8(text).ok()?;
    (data_of(&text) == Some((data.start, data.end))).then_some(text)
}

/// The diagnostic that is due for the original's at a closing `?`.
pub fn due_at_closing(number: i32, found: Found) -> Found {
    assert_eq!(found.number, 15, "the original's diagnostic at a `?`");
    let (value_kind, value) = if number == 10 { (2, "()") } else { (1, "!") };
    Found {
        number,
        value_kind,
        value,
        ..found
    }
}

//! Random texts.

use crate::numbers::Random;

/// Signs that mean something, those of fields among them.
pub const SIGNS: &[u8] =
    b"ABCDEFG''',,xxbbn^^--//::(){};;!!ffi++ttgqqr%G-2$xF@c/3/4.0124568.7 \n@data:@clef:@x:z=";

/// Characters beyond ASCII, of two, three and four bytes, blanks among them.
const WIDE: [&str; 12] = [
    "é", "ü", "ß", "\u{301}", "漢", "…", "𝄞", "\u{a0}", "\u{85}", "\u{2003}", "\u{3000}",
    "\u{feff}",
];

impl Random {
    pub fn text(&mut self, mut byte: impl FnMut(&mut Self) -> u8) -> Vec<u8> {
        let length = self.below(80);
        (0..length).map(|_| byte(self)).collect()
    }
}

/// Signs, one in four followed by a wide character.
pub fn accented(random: &mut Random) -> Vec<u8> {
    let signs = random.text(|random| SIGNS[random.below(SIGNS.len())]);
    let mut text = Vec::new();
    for sign in signs {
        text.push(sign);
        if random.below(4) == 0 {
            text.extend_from_slice(WIDE[random.below(WIDE.len())].as_bytes());
        }
    }
    text
}

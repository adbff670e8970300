//! Reads an incipit from standard input, prints its card in hexadecimal and what the card reads to:
//! `echo '%F-4$bB@3/4 ,2.B+/4B-' | cargo run --example card`

use std::error::Error;
use std::io::{self, Read, Write};
use urthmoli::{Reading, read};

fn main() -> io::Result<()> {
    let mut text = Vec::new();
    io::stdin().lock().read_to_end(&mut text)?;
    let mut out = io::stdout().lock();
    match card_and_back(&text) {
        Ok(lines) => writeln!(out, "{lines}"),
        Err(error) => writeln!(out, "{error}"),
    }
}

fn card_and_back(text: &[u8]) -> Result<String, Box<dyn Error>> {
    let card = read(text)?.to_card()?;
    let back = Reading::from_card(&card)?;
    let (bytes, notes, bars) = (card.len(), back.notes.len(), back.bars.len());
    let digits: Vec<String> = card.iter().map(|byte| format!("{byte:02x}")).collect();
    Ok(format!(
        "{}\n{bytes} bytes, notes: {notes}, bars: {bars}",
        digits.concat()
    ))
}

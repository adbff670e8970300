//! Holds libpae.a against the second reader in model.rs. `run` builds and starts it.

mod library;
mod lines;
mod model;

use library::{Library, model_answer};
use lines::{Lines, Random};
use model::{Answer, BAR_WORDS, CELLS, Closings, Lent, NOTE_WORDS, Needs, read};

/// Sizes that no reading needs more of.
const AMPLE: Lent = Lent { notes: usize::MAX, bars: usize::MAX, figure: usize::MAX, diagnostics: CELLS };

#[derive(Default)]
struct Counts {
    lines: u64,
    accepted: u64,
    /// By number: of the lines with ample buffers, and of all calls.
    refused: [u64; 14],
    refused_calls: [u64; 14],
    diagnostics: [u64; 21],
    bar_rests: u64,
    with_bar_rests: u64,
    closings: Closings,
    /// Lines with a closing in a later bar, and with one in the same bar behind a barline.
    with_later: u64,
    with_same: u64,
}

impl Counts {
    fn line(&mut self, answer: &Answer) {
        self.lines += 1;
        if answer.number == 0 {
            self.accepted += 1;
        } else {
            self.refused[answer.number as usize] += 1;
        }
        for cell in &answer.diagnostics {
            self.diagnostics[cell[0] as usize] += 1;
        }
        let rests = answer.notes.iter().filter(|note| note[1] == 4).count() as u64;
        self.bar_rests += rests;
        self.with_bar_rests += (rests > 0) as u64;
        for i in 0..3 {
            self.closings.later[i] += answer.closings.later[i];
            self.closings.same[i] += answer.closings.same[i];
        }
        self.with_later += (answer.closings.later != [0; 3]) as u64;
        self.with_same += (answer.closings.same != [0; 3]) as u64;
    }

    fn print(&self, calls: u64) {
        let list = |name: &str, numbers: &[u64]| {
            let parts = numbers.iter().enumerate().skip(1).map(|(i, n)| format!("{name}{i}: {n}"));
            parts.collect::<Vec<_>>().join(", ")
        };
        println!(
            "{} lines, {} accepted, {} of them with records of kind 4",
            self.lines, self.accepted, self.with_bar_rests
        );
        println!("lines refused: {}", list("", &self.refused));
        println!("calls refused: {}", list("", &self.refused_calls));
        println!("diagnostics: {}", list("d", &self.diagnostics));
        let closings = |counts: [u64; 3], lines: u64| {
            format!("{} of ), {} of }}, {} of !; {lines} lines with at least one", counts[0], counts[1], counts[2])
        };
        println!("closed in a later bar: {}", closings(self.closings.later, self.with_later));
        println!("closed in the same bar behind a barline: {}", closings(self.closings.same, self.with_same));
        println!("{} records of kind 4, {calls} calls", self.bar_rests);
    }
}

fn show(text: &[u8]) -> String {
    let shown: String = String::from_utf8_lossy(text).chars().take(400).flat_map(char::escape_debug).collect();
    format!("\"{shown}\" ({} bytes)", text.len())
}

/// Prints both answers, with long ones cut.
fn print_both(library: &mut Library, text: &[u8], lent: Lent) {
    let cut = |answer: String| answer.lines().take(60).map(|line| line.to_string() + "\n").collect::<String>();
    println!("text {}", show(text));
    println!("lent {lent:?}");
    let model = read(text, lent);
    for difference in library.compare(text, lent, &model) {
        println!("  {difference}");
    }
    print!("library\n{}", cut(library.answer(text, lent)));
    print!("model\n{}", cut(model_answer(&model)));
}

/// Deletes parts of the text, at last single bytes, while library and model still differ.
fn shrink(library: &mut Library, text: &[u8], lent: Lent) -> Vec<u8> {
    let mut text = text.to_vec();
    let mut width = (text.len() / 2).max(1);
    loop {
        let mut deleted = false;
        let mut at = 0;
        while at < text.len() {
            let mut shorter = text.clone();
            shorter.drain(at..(at + width).min(text.len()));
            if library.differs(&shorter, lent) {
                text = shorter;
                deleted = true;
            } else {
                at += width;
            }
        }
        if width == 1 && !deleted {
            return text;
        }
        width = (width / 2).max(1);
    }
}

/// Compares one call; on a difference prints it and ends the program.
fn check(library: &mut Library, text: &[u8], lent: Lent, answer: &Answer) {
    if library.compare(text, lent, answer).is_empty() {
        return;
    }
    println!("DIFFERENT");
    print_both(library, text, lent);
    let text = shrink(library, text, lent);
    println!("SHRUNK");
    print_both(library, &text, lent);
    std::process::exit(1);
}

/// Room for all that is needed, and some words more.
fn enough(needs: Needs, random: &mut Random) -> Lent {
    Lent {
        notes: (needs.notes + 2) * NOTE_WORDS + random.below(50),
        bars: (needs.bars + 2) * BAR_WORDS + random.below(20),
        figure: (needs.figure + 1) * NOTE_WORDS + random.below(50),
        diagnostics: CELLS,
    }
}

/// A size about a need: 0, one less, exact, one more, any below; or some words more, or one word less.
fn about(need: usize, words: usize, random: &mut Random) -> usize {
    let records = match random.below(8) {
        0 => 0,
        1 | 2 => need.saturating_sub(1),
        3 | 4 => need,
        5 => need + 1,
        _ => random.below(need + 1),
    };
    match random.below(4) {
        0 => (records * words).saturating_sub(1),
        1 => records * words + random.below(words),
        _ => records * words,
    }
}

fn random_lines(library: &mut Library, lines: Lines, count: u64, seed: u64) {
    println!("seed {seed}");
    let mut random = Random::new(seed);
    let mut counts = Counts::default();
    let before = library.calls;
    for _ in 0..count {
        let text = lines::line(&mut random, lines);
        let answer = read(&text, AMPLE);
        counts.line(&answer);
        let needs = answer.needs;
        let mut lent = enough(needs, &mut random);
        // 7 comes before 8 only where more than 100,000 records are lent or missing in one step
        if answer.number == 7 {
            lent.notes = (model::MAX_NOTES + 1) * NOTE_WORDS;
        }
        let sized = read(&text, lent);
        counts.refused_calls[sized.number as usize] += 1;
        check(library, &text, lent, &sized);
        for _ in 0..4 {
            let full = enough(needs, &mut random);
            // mostly two of three sizes are short
            let short = Lent {
                notes: if random.one_in(3) { full.notes } else { about(needs.notes, NOTE_WORDS, &mut random) },
                bars: if random.one_in(3) { full.bars } else { about(needs.bars, BAR_WORDS, &mut random) },
                figure: if random.one_in(3) { full.figure } else { about(needs.figure, NOTE_WORDS, &mut random) },
                diagnostics: [CELLS, CELLS, CELLS, CELLS, CELLS + 1, CELLS - 1, 0]
                    [if random.one_in(8) { random.below(7) } else { 0 }],
            };
            let answer = read(&text, short);
            counts.refused_calls[answer.number as usize] += 1;
            check(library, &text, short, &answer);
        }
    }
    counts.print(library.calls - before);
    println!("0 different");
}

const TURN: [&str; 40] = [
    "=3",
    "C=2D",
    "/=4/",
    "!=2!f",
    "(=3)=2",
    "=2i",
    "x=3C",
    "=2/i",
    "=",
    "C=",
    "=0C",
    "=1001-",
    "{C=2D=2}",
    "C+=2D",
    "!C=3!ff/i",
    "CD(E=2)F",
    "=2=2",
    "//:=3://",
    "C!D=2!f",
    "=2;3",
    "xC=C/C",
    "xC=2C",
    "$xF=2$bB=2",
    "=03",
    "@data:=3\n@clef:F-4",
    "86=CD",
    "=2^C",
    "C^=/E",
    "=2+C",
    "g=2C",
    "qq=2Cr",
    "{=2-}",
    "!CD/E!",
    "!C!/!D/E!f",
    "!C/D!EF!f",
    "/!/CD!f",
    "C(D/EFG)",
    "(/C/D)",
    "{CD/EF}",
    "!=2!!C!f",
];

/// Every lent size of notes and bars about the need, in whole records and one word less; and of the figure. They show
/// that records and barlines are checked in turn.
fn turn(library: &mut Library) {
    let before = library.calls;
    let sizes = |need: usize, words: usize| {
        (0..=need + 2).flat_map(move |records| [records * words, (records * words).saturating_sub(1)])
    };
    for text in TURN {
        let text = text.as_bytes();
        let needs = read(text, AMPLE).needs;
        for notes in sizes(needs.notes, NOTE_WORDS) {
            for bars in sizes(needs.bars, BAR_WORDS) {
                for figure in sizes(needs.figure, NOTE_WORDS) {
                    let lent = Lent { notes, bars, figure, diagnostics: CELLS };
                    check(library, text, lent, &read(text, lent));
                }
            }
        }
    }
    // about the limit of 100,000 notes, which is passed inside a token
    let text = "=1000".repeat(99) + "C=500=1000";
    let needs = read(text.as_bytes(), AMPLE).needs;
    for notes in [99_501, 99_502, 99_600, 99_999, 100_000, 100_001] {
        for bars in [needs.bars - 400, needs.bars - 1, needs.bars, needs.bars + 1] {
            let lent = Lent { notes: notes * NOTE_WORDS, bars: bars * BAR_WORDS, figure: 0, diagnostics: CELLS };
            check(library, text.as_bytes(), lent, &read(text.as_bytes(), lent));
        }
    }
    println!("{} texts, {} calls, 0 different", TURN.len() + 1, library.calls - before);
}

const PIECES: [&str; 27] = [
    "C", "-", "=", "=2", "=0", "/", "//:", "://", "x", "n", "'", "^", "+", "t", "(", ")", ";3", "{", "}", "!", "f",
    "i", "g", "qq", "r", "84", "$xC",
];

/// Pieces for groups, beams and figures over barlines.
const OVER: [&str; 13] = ["C", "/", "(", ")", "{", "}", "!", "f", "i", "=2", ";5", "gD", "-"];

/// Every line of up to so many of some pieces, with enough lent.
fn short(library: &mut Library, words: &[&str], pieces: u32) {
    let mut random = Random::new(1);
    let mut counts = Counts::default();
    let before = library.calls;
    for length in 1..=pieces {
        for mut chosen in 0..words.len().pow(length) {
            let mut text = Vec::new();
            for _ in 0..length {
                text.extend_from_slice(words[chosen % words.len()].as_bytes());
                chosen /= words.len();
            }
            let needs = read(&text, AMPLE).needs;
            let lent = enough(needs, &mut random);
            let answer = read(&text, lent);
            counts.line(&answer);
            counts.refused_calls[answer.number as usize] += 1;
            check(library, &text, lent, &answer);
        }
    }
    counts.print(library.calls - before);
    println!("0 different");
}

fn fail(message: &str) -> ! {
    eprintln!("second: {message}");
    std::process::exit(2)
}

fn main() {
    let mut sections = Vec::new();
    let (mut count, mut seed, mut pieces) = (100_000, 1, None);
    let mut arguments = std::env::args().skip(1);
    let mut library = Library::default();
    while let Some(argument) = arguments.next() {
        let mut number = || match arguments.next().and_then(|n| n.parse().ok()) {
            Some(n) => n,
            None => fail(&format!("{argument} needs a number")),
        };
        match argument.as_str() {
            "--count" => count = number(),
            "--seed" => seed = number(),
            "--pieces" => pieces = Some(number() as u32),
            "turn" | "random" | "plain" | "short" | "groups" | "over" => sections.push(argument),
            "show" => {
                for text in arguments.by_ref() {
                    let text = text.as_bytes();
                    let lent = enough(read(text, AMPLE).needs, &mut Random::new(1));
                    print_both(&mut library, text, lent);
                }
                return;
            }
            _ => fail(&format!("unknown argument {argument}")),
        }
    }
    if sections.is_empty() {
        sections = ["turn", "random", "groups"].map(str::to_string).to_vec();
    }
    for section in sections {
        println!("{section}");
        match section.as_str() {
            "turn" => turn(&mut library),
            "short" => short(&mut library, &PIECES, pieces.unwrap_or(4)),
            "over" => short(&mut library, &OVER, pieces.unwrap_or(6)),
            "groups" => random_lines(&mut library, Lines::Groups, count, seed),
            "plain" => random_lines(&mut library, Lines::Plain, count, seed),
            _ => random_lines(&mut library, Lines::Rests, count, seed),
        }
    }
}

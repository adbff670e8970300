//! The library against the original Rust, in one process: `tests/bulk/run` builds and starts it.

mod compare;
mod library;
mod original;
mod random;
mod run;
mod speed;
mod taken_out;
mod texts;
mod walk;
mod written;

use compare::{LaterBars, WholeBars};
use library::Cells;
use random::Random;
use run::Run;
use std::process::ExitCode;
use std::time::{Duration, Instant};
use texts::{characters, limits, lines, short};

/// How long the random lines of a section run.
#[derive(Clone, Copy)]
enum Until {
    Count(u64),
    Time(Duration),
}

struct Options {
    sections: Vec<String>,
    until: Until,
    seed: u64,
}

/// The sections that run where none is named, and those that run only then.
const SECTIONS: [&str; 7] = [
    "ascii",
    "alphabets",
    "utf8",
    "limits",
    "random",
    "rests",
    "groups",
];
const NAMED: [&str; 3] = ["scalars", "speed", "beside"];

fn options() -> Result<Options, String> {
    let mut options = Options {
        sections: Vec::new(),
        until: Until::Count(1_000_000),
        seed: 1,
    };
    let mut arguments = std::env::args().skip(1);
    while let Some(argument) = arguments.next() {
        let mut number = || {
            let value = arguments.next().and_then(|value| value.parse().ok());
            value.ok_or_else(|| format!("{argument} needs a number"))
        };
        match argument.as_str() {
            "--count" => options.until = Until::Count(number()?),
            "--seconds" => options.until = Until::Time(Duration::from_secs(number()?)),
            "--seed" => options.seed = number()?,
            name if SECTIONS.contains(&name) || NAMED.contains(&name) => {
                options.sections.push(argument)
            }
            _ => return Err(format!("unknown argument {argument}")),
        }
    }
    if options.sections.is_empty() {
        options.sections = SECTIONS.map(String::from).to_vec();
    }
    Ok(options)
}

fn main() -> ExitCode {
    let options = match options() {
        Ok(options) => options,
        Err(message) => {
            eprintln!("bulk: {message}");
            return ExitCode::from(2);
        }
    };
    let mut faults = 0;
    for section in &options.sections {
        match section.as_str() {
            "ascii" => faults += ascii(),
            "alphabets" => faults += alphabets(),
            "utf8" => faults += characters(false) + sequences() + parts() + runs(),
            "scalars" => faults += characters(true),
            "limits" => faults += at_limits(),
            "random" => faults += random_lines(options.until, options.seed),
            "rests" => faults += rests(options.until, options.seed),
            "groups" => faults += groups(options.until, options.seed),
            "beside" => speed::beside(),
            _ => speed::table(),
        }
    }
    if faults > 0 {
        ExitCode::FAILURE
    } else {
        ExitCode::SUCCESS
    }
}

fn ascii() -> u64 {
    section("all ASCII texts of up to 3 bytes", Run::new(1), |run| {
        short::all(&short::ascii(), 3, &mut |text| {
            if !run.full() {
                run.text(text)
            }
        });
    })
}

fn alphabets() -> u64 {
    let mut faults = 0;
    for (name, alphabet) in short::ALPHABETS {
        let letters = alphabet.escape_ascii();
        let title = format!("all texts of up to 6 of `{letters}` ({name})");
        faults += section(&title, Run::new(1), |run| {
            short::all(alphabet, 6, &mut |text| {
                if !run.full() {
                    run.text(text)
                }
            });
        });
    }
    faults
}

fn characters(all: bool) -> u64 {
    let which = if all {
        "every scalar value"
    } else {
        "scalar values below U+3100, edges and every 61st"
    };
    section(&format!("{which}, each at 20 places"), Run::new(1), |run| {
        for character in characters::scalars(all) {
            characters::around(character, &mut |text| {
                if !run.full() {
                    run.text(text)
                }
            });
        }
    })
}

fn sequences() -> u64 {
    section(
        "up to 4 bytes at UTF-8's edges, alone and behind C",
        Run::new(1),
        |run| {
            characters::sequences(&mut |text| {
                if !run.full() {
                    run.text(text)
                }
            });
        },
    )
}

fn parts() -> u64 {
    let mut faults = 0;
    for (name, parts) in characters::PARTS {
        let title = format!("all texts of up to 6 of {parts:?} ({name})");
        faults += section(&title, Run::new(1), |run| {
            short::all_of(&parts.map(str::as_bytes), 6, &mut |text| {
                if !run.full() {
                    run.text(text)
                }
            });
        });
    }
    faults
}

fn runs() -> u64 {
    section(
        "runs of up to 130 before and behind characters and malformed bytes",
        Run::new(1),
        |run| {
            characters::runs(130, &mut |text| {
                if !run.full() {
                    run.text(text)
                }
            });
        },
    )
}

fn at_limits() -> u64 {
    type Sizes = fn(walk::Needs) -> Vec<library::Lent>;
    let each = |title, run, texts: Vec<Vec<u8>>, sizes: Sizes| {
        section(title, run, |run| {
            for text in texts {
                if !run.full() {
                    run.text_with(&text, sizes);
                }
            }
        })
    };
    each(
        "all lent sizes around the needs",
        Run::new(1),
        limits::sized_texts(),
        limits::sizes,
    ) + each(
        "65,533 to 65,537 bytes",
        Run::new(1),
        limits::long_texts(),
        limits::few_sizes,
    ) + each(
        "65,534 to 65,536 bytes, of two to four a character",
        Run::new(1),
        limits::long_wide_texts(),
        limits::few_sizes,
    ) + each(
        "31 to 2,000 diagnostics",
        Run::new(1),
        limits::many_diagnostics(),
        limits::few_sizes,
    ) + each(
        "patterns of 254 to 513 elements",
        Run::new(1),
        limits::long_patterns(),
        limits::few_sizes,
    ) + each(
        "about 100,000 notes",
        Run::new(1),
        limits::many_notes(),
        limits::few_sizes,
    ) + each(
        "rests of whole bars, written out: all lent sizes around the needs",
        Run::with(WholeBars::WrittenOut, LaterBars::LeftOut, 1),
        limits::sized_rests(),
        limits::sizes,
    ) + each(
        "rests of whole bars, written out: 65,533 to 65,537 bytes, about 100,000 notes",
        Run::with(WholeBars::WrittenOut, LaterBars::LeftOut, 1),
        limits::many_rests(),
        limits::few_sizes,
    ) + each(
        "closings in a later bar, taken out: all lent sizes around the needs",
        Run::with(WholeBars::LeftOut, LaterBars::TakenOut, 1),
        limits::sized_later(),
        limits::sizes,
    ) + each(
        "the same with rests of whole bars, written out",
        Run::with(WholeBars::WrittenOut, LaterBars::TakenOut, 1),
        limits::sized_later_rests(),
        limits::sizes,
    ) + each(
        "closings in a later bar, taken out: 65,533 to 65,537 bytes, 31 and more diagnostics, about 100,000 notes",
        Run::with(WholeBars::LeftOut, LaterBars::TakenOut, 1),
        limits::many_later(),
        limits::few_sizes,
    ) + each(
        "closings in a later bar, taken out, `=` written out: 65,535 to 65,537 bars between",
        Run::with(WholeBars::WrittenOut, LaterBars::TakenOut, 1),
        limits::many_later_rests(),
        limits::few_sizes,
    ) + stated()
        + stated_later()
}

/// Texts with rests of whole bars whose answers are stated by hand.
fn stated() -> u64 {
    let mut cells = Cells::default();
    let texts = limits::stated();
    let mut faults = 0;
    for (text, lent, due) in &texts {
        let read = cells.read(text, *lent);
        if read != *due {
            faults += 1;
            println!("FAULT \"{}\"", compare::shortened(text));
            println!("  lent {lent:?}\n  library: {read:?}\n  due:     {due:?}");
        }
    }
    println!("rests of whole bars, stated by hand");
    println!("  {} texts, {faults} faults", texts.len());
    faults
}

/// Texts with groups, beams and figures over barlines whose answers are stated by hand.
fn stated_later() -> u64 {
    let mut cells = Cells::default();
    let mut faults = 0;
    for (text, figure, due) in limits::STATED_LATER {
        let needs = walk::Needs {
            notes: 100,
            bars: 100,
            figure,
        };
        let reading = cells.read(text.as_bytes(), compare::ample(needs));
        let told = compare::told(reading, &cells);
        if told != due {
            faults += 1;
            println!("FAULT \"{text}\"");
            println!("  library: {told}\n  due:     {due}");
        }
    }
    println!("groups, beams and figures over barlines, stated by hand");
    println!("  {} texts, {faults} faults", limits::STATED_LATER.len());
    faults
}

fn random_lines(until: Until, seed: u64) -> u64 {
    let title = format!("random lines, field forms and slips, seed {seed}");
    drawn(&title, Run::new(seed), until, seed, lines::random_text)
}

/// The ways in which the original can be asked about rests of whole bars.
const WAYS: [(&str, WholeBars); 2] = [
    ("`=` written out", WholeBars::WrittenOut),
    ("`=` in empty bars, no meter", WholeBars::Filled),
];

/// Texts with rests of whole bars, in both ways.
fn rests(until: Until, seed: u64) -> u64 {
    let mut faults = 0;
    for (way, whole_bars) in WAYS {
        let mut all = |texts: &str, name, parts: &[&[u8]]| {
            let title = format!("all texts of up to 6 of {texts} ({name}), {way}");
            faults += section(
                &title,
                Run::with(whole_bars, LaterBars::LeftOut, 1),
                |run| {
                    short::all_of(parts, 6, &mut |text| {
                        if !run.full() {
                            run.text(text)
                        }
                    });
                },
            );
        };
        for (name, alphabet) in short::REST_ALPHABETS {
            let parts: Vec<&[u8]> = alphabet.chunks(1).collect();
            all(&format!("`{}`", alphabet.escape_ascii()), name, &parts);
        }
        for (name, parts) in short::REST_PARTS {
            all(&format!("{parts:?}"), name, &parts.map(str::as_bytes));
        }
        let title = format!("random lines with rests of whole bars, {way}, seed {seed}");
        let run = Run::with(whole_bars, LaterBars::LeftOut, seed);
        faults += drawn(&title, run, until, seed, lines::random_rests);
    }
    faults
}

/// Texts with groups, beams and figures; what is closed in a later bar is taken out for the original.
fn groups(until: Until, seed: u64) -> u64 {
    let mut faults = 0;
    let plain = ("no `=`", WholeBars::LeftOut);
    let mut all = |(way, whole_bars), texts: String, name, parts: &[&[u8]], most| {
        let title = format!(
            "all texts of up to {most} of {texts} ({name}), closings in a later bar taken out, {way}"
        );
        let run = Run::with(whole_bars, LaterBars::TakenOut, 1);
        faults += section(&title, run, |run| {
            short::all_of(parts, most, &mut |text| {
                if !run.full() {
                    run.text(text)
                }
            });
        });
    };
    for (name, alphabet, most) in short::GROUP_ALPHABETS {
        let parts: Vec<&[u8]> = alphabet.chunks(1).collect();
        let texts = format!("`{}`", alphabet.escape_ascii());
        all(plain, texts, name, &parts, most);
    }
    for (name, parts, most) in short::GROUP_PARTS {
        let texts = format!("{parts:?}");
        all(plain, texts, name, &parts.map(str::as_bytes), most);
    }
    for way in WAYS {
        for (name, parts, most) in short::GROUP_REST_PARTS {
            let texts = format!("{parts:?}");
            all(way, texts, name, &parts.map(str::as_bytes), most);
        }
    }
    for (way, whole_bars) in [plain].into_iter().chain(WAYS) {
        let title = format!(
            "random lines with groups, closings in a later bar taken out, {way}, seed {seed}"
        );
        let run = Run::with(whole_bars, LaterBars::TakenOut, seed);
        let draw = match whole_bars {
            WholeBars::LeftOut => lines::random_groups,
            _ => lines::random_rest_groups,
        };
        faults += drawn(&title, run, until, seed, draw);
    }
    faults
}

/// Runs texts that `draw` puts in place of the one before.
fn drawn(
    title: &str,
    run: Run,
    until: Until,
    seed: u64,
    draw: fn(&mut Random, &mut Vec<u8>),
) -> u64 {
    section(title, run, |run| {
        let mut random = Random::new(seed);
        let mut text = Vec::new();
        let begun = Instant::now();
        let due = |done: u64| match until {
            Until::Count(count) => done < count,
            Until::Time(time) => !done.is_multiple_of(1_000) || begun.elapsed() < time,
        };
        let mut done = 0;
        while due(done) && !run.full() {
            draw(&mut random, &mut text);
            run.text(&text);
            done += 1;
        }
    })
}

/// Runs a section, prints what was compared, and tells the faults.
fn section(title: &str, mut run: Run, body: impl FnOnce(&mut Run)) -> u64 {
    let begun = Instant::now();
    body(&mut run);
    let tally = run.tally();
    let numbered = |counts: &[u64], first: usize, mark: &str| {
        let seen = counts.iter().enumerate().skip(first);
        let seen = seen.filter(|(_, count)| **count > 0);
        seen.map(|(number, count)| format!(" {mark}{number}: {count}"))
            .collect::<String>()
    };
    let whole_bars = match tally.whole_bars {
        0 => String::new(),
        count => format!(" ({count} of them rests of whole bars)"),
    };
    println!("{title}");
    let later = match tally.later {
        0 => String::new(),
        count => format!(" ({count} of them closing in a later bar)"),
    };
    println!(
        "  {} texts{later}, left out {} for `=` and {} for a closing in a later bar, {} calls, {} faults, {:.1} s",
        tally.texts,
        tally.left_out_whole_bars,
        tally.left_out_later,
        tally.calls,
        tally.faults,
        begun.elapsed().as_secs_f64()
    );
    println!(
        "  accepted: {}, with {} notes{whole_bars}, {} bars; diagnostics{}",
        tally.numbers[0],
        tally.notes,
        tally.bars,
        numbered(&tally.diagnostics, 1, "d")
    );
    println!("  refused{}", numbered(&tally.numbers, 1, ""));
    tally.faults
}

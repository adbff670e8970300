//! Holds the catalogue cards of libpae.a against the second writer and reader in model.rs. `run` builds and starts it.

mod cards;
mod check;
mod library;
mod limits;
mod lines;
mod loose;
mod model;
mod random;
mod readings;
mod records;
mod sizes;
mod speed;
mod words;

use check::Check;
use random::Random;

/// The sections, each with the cases that are run by default.
const SECTIONS: [(&str, u64); 6] =
    [("records", 2000), ("words", 100), ("cards", 2000), ("readings", 20_000), ("limits", 1), ("speed", 1)];

fn fail(message: &str) -> ! {
    eprintln!("cards: {message}");
    std::process::exit(2)
}

fn run(section: &str, count: u64, seed: u64) {
    let mut check = Check::new(section, seed);
    let mut random = Random::new(seed);
    match section {
        "records" => sizes::run(&mut check, &mut random, count),
        "words" => words::run(&mut check, &mut random, count),
        "cards" => cards::run(&mut check, &mut random, count),
        "readings" => readings::run(&mut check, &mut random, count),
        "limits" => limits::run(&mut check, &mut random),
        _ => return speed::run(&mut random),
    }
    check.print();
}

fn main() {
    let mut sections = Vec::new();
    let (mut count, mut seed) = (None, 1);
    let mut arguments = std::env::args().skip(1);
    while let Some(argument) = arguments.next() {
        let mut number = || match arguments.next().and_then(|n| n.parse().ok()) {
            Some(n) => n,
            None => fail(&format!("{argument} needs a number")),
        };
        match argument.as_str() {
            "--count" => count = Some(number()),
            "--seed" => seed = number(),
            name => match SECTIONS.iter().find(|section| section.0 == name) {
                Some(section) => sections.push(*section),
                None => fail(&format!("unknown argument {name}")),
            },
        }
    }
    if sections.is_empty() {
        sections = SECTIONS.to_vec();
    }
    for (section, cases) in sections {
        println!("{section}, seed {seed}");
        run(section, count.unwrap_or(cases), seed);
    }
}

//! Time per byte of the original and of the library, in one process.

use crate::compare::ample;
use crate::library::{BAR, BESIDE, Cells, DIAGNOSTICS, Lent, NOTE, Read};
use crate::random::Random;
use crate::texts::incipits::plausible;
use crate::texts::limits::{framed, framed_whole};
use crate::walk::Walk;
use acorde_io::parse_pae_with_report;
use std::hint::black_box;

const SMALL: usize = 4_096;
const LARGE: usize = 65_535;
const SEED: u64 = 20;
/// The best of so many runs counts, each of at least so many nanoseconds.
const RUNS: usize = 15;
const RUN: u64 = 15_000_000;

/// Nanoseconds a byte: the original, the library with exactly the cells needed, and with ample ones.
#[derive(Clone, Copy)]
struct Times {
    original: f64,
    exact: f64,
    ample: f64,
}

/// Prints the Markdown tables.
pub fn table() {
    println!(
        "| text | bytes | Rust | library, exact cells | times | library, ample cells | times |"
    );
    println!("|---|---|---|---|---|---|---|");
    row("(a) 400 incipits", &incipits());
    let small = row("(b) music", &[music(SMALL)]);
    let large = row("(c) music", &[music(LARGE)]);
    let mut growth = vec![("music", small, large)];
    let made = ADVERSARIAL.map(|row| ("(d)", row));
    for (mark, (name, text)) in made.into_iter().chain(WIDE.map(|row| ("(e)", row))) {
        let small = row(&format!("{mark} {name}"), &[text(SMALL)]);
        let large = row(&format!("{mark} {name}"), &[text(LARGE)]);
        growth.push((name, small, large));
    }
    println!();
    println!(
        "| time per byte, 64 KB to 4 KB | Rust | library, exact cells | library, ample cells |"
    );
    println!("|---|---|---|---|");
    for (name, small, large) in growth {
        println!(
            "| {name} | {:.2} | {:.2} | {:.2} |",
            large.original / small.original,
            large.exact / small.exact,
            large.ample / small.ample
        );
    }
}

/// Prints nanoseconds a byte of the library and of the one beside it, both with exact cells, and how many times faster
/// the library is, where both accept the text.
pub fn beside() {
    let Some(read) = BESIDE else {
        println!("no library is named by --beside");
        return;
    };
    println!("| text | bytes | library | beside | times |");
    println!("|---|---|---|---|---|");
    beside_row("400 incipits", &incipits(), read);
    let music: (&str, Made) = ("music", music);
    for (name, text) in [music].into_iter().chain(ADVERSARIAL).chain(WIDE) {
        beside_row(name, &[text(SMALL)], read);
        beside_row(name, &[text(LARGE)], read);
    }
}

fn beside_row(name: &str, texts: &[Vec<u8>], read: Read) {
    let bytes: usize = texts.iter().map(Vec::len).sum();
    let (exact, _) = lents(texts);
    let library = reader(Cells::default(), texts, &exact);
    let other = reader(Cells::of(read), texts, &exact);
    let (Some(mut library), Some(mut other)) = (library, other) else {
        println!("| {name} | {bytes} | refused by one | | |");
        return;
    };
    let [library, other] = best([&mut library, &mut other], bytes);
    let times = other / library;
    println!("| {name} | {bytes} | {library:.2} | {other:.2} | {times:.2} |");
}

fn row(name: &str, texts: &[Vec<u8>]) -> Times {
    let bytes: usize = texts.iter().map(Vec::len).sum();
    let times = timed(texts, bytes);
    println!(
        "| {name} | {bytes} | {:.1} | {:.1} | {:.1} | {:.1} | {:.1} |",
        times.original,
        times.exact,
        times.original / times.exact,
        times.ample,
        times.original / times.ample
    );
    times
}

fn incipits() -> Vec<Vec<u8>> {
    let mut random = Random::new(SEED);
    let mut incipit = || {
        let size = 40 + random.below(81);
        plausible(&mut random, size)
    };
    (0..400).map(|_| incipit()).collect()
}

fn music(size: usize) -> Vec<u8> {
    plausible(&mut Random::new(SEED), size)
}

type Made = fn(usize) -> Vec<u8>;

/// Texts with characters of two and three bytes.
const WIDE: [(&str, Made); 9] = [
    ("a record with umlauts", record),
    ("notes, `é` between them", |size| {
        framed_whole("", "CéDEFé", "", size)
    }),
    ("notes, `漢` between them", |size| {
        framed_whole("", "C漢DEF漢", "", size)
    }),
    ("notes, U+00A0 between them", |size| {
        framed_whole("", "CD\u{a0}EF\u{a0}", "", size)
    }),
    ("U+00A0", |size| framed_whole("", "\u{a0}", "C", size)),
    ("U+3000", |size| framed_whole("", "\u{3000}", "C", size)),
    ("`%` before `é`s", |size| framed_whole("%", "é", "C", size)),
    ("`%` before `漢`s", |size| {
        framed_whole("%", "漢", "C", size)
    }),
    ("`%é漢𝄞` runs", |size| {
        framed_whole("", "%é漢𝄞", " C", size)
    }),
];

/// A record as a library pastes it: a few fields with umlauts, one of them half of the text, then music.
fn record(size: usize) -> Vec<u8> {
    let head = "@composer:Schütz\n@title:Fröhlich zu singen, für Köln\n@note:";
    let part = "Überschrift von späterer Hand, ß und ä getilgt. ";
    let fields = framed_whole(head, part, "\n@clef:G-2\n@data:", size / 2);
    [fields, music(size - size / 2)].concat()
}

/// Lines that ask much of a reader.
const ADVERSARIAL: [(&str, Made); 16] = [
    ("letters alone", |size| framed("", "C", "", size)),
    ("one pattern, as many notes", |size| {
        pattern(size, size / 2 - 1, 0)
    }),
    (
        "two elements with thousands of dots, as many notes",
        |size| pattern(size, 2, size / 4),
    ),
    ("300 elements with dots, as many notes", |size| {
        pattern(size, 300, size / 600 - 1)
    }),
    (
        "257 elements, thousands of dots at the last, as many notes",
        |size| framed(&dotted_last(size), "C", "", size),
    ),
    (
        "257 elements, thousands of dots at the last, as many graces on it",
        |size| {
            framed(
                &(dotted_last(size) + &"C".repeat(256) + "qq"),
                "C",
                "",
                size,
            )
        },
    ),
    ("`f/` after a figure", |size| framed("!CD!", "f/", "", size)),
    ("`i/` after a bar", |size| framed("CD/", "i/", "", size)),
    ("`%abc` runs", |size| framed("", "%abc", " C", size)),
    ("unknown bytes", |size| framed("C", "?", "", size)),
    ("chords", |size| framed("", "C^E^G^C", "", size)),
    ("groups of three", |size| framed("", "(CDE)", "", size)),
    ("one group over all", |size| framed("{(", "C", ";5)}", size)),
    ("fields", |size| framed("@data:C", "\n@a:", "", size)),
    ("bare lines", |size| framed("", "C\n", "", size)),
    ("blanks", |size| framed("", " ", "C", size)),
];

/// A pattern of so many elements, each with so many dots, and letters up to the size.
fn pattern(size: usize, elements: usize, dots: usize) -> Vec<u8> {
    let element = "8".to_string() + &".".repeat(dots);
    framed(&element.repeat(elements), "C", "", size)
}

/// A pattern of 257 elements, the last with dots that fill half the size.
fn dotted_last(size: usize) -> String {
    "8".repeat(257) + &".".repeat(size / 2)
}

/// What each text needs exactly, and what a caller lends who doesn't know.
fn lents(texts: &[Vec<u8>]) -> (Vec<Lent>, Vec<Lent>) {
    let mut walk = Walk::default();
    let both = texts.iter().map(|text| {
        walk.follow(text);
        let needs = walk.needs();
        let size = text.len();
        let unknowing = Lent {
            notes: size.max(needs.notes) * NOTE,
            bars: size * BAR,
            figure: size * NOTE,
            diagnostics: DIAGNOSTICS,
        };
        (ample(needs), unknowing)
    });
    both.unzip()
}

/// The original and the library read all texts.
fn timed(texts: &[Vec<u8>], bytes: usize) -> Times {
    let (exact, ample) = lents(texts);
    let strings: Vec<&str> = texts
        .iter()
        .map(|text| str::from_utf8(text).unwrap_or(""))
        .collect();
    let mut original = || {
        for text in &strings {
            drop(black_box(parse_pae_with_report(black_box(text))));
        }
    };
    let accepted = "a text of the table is refused";
    let mut with_exact = reader(Cells::default(), texts, &exact).expect(accepted);
    let mut with_ample = reader(Cells::default(), texts, &ample).expect(accepted);
    let [original, exact, ample] = best([&mut original, &mut with_exact, &mut with_ample], bytes);
    Times {
        original,
        exact,
        ample,
    }
}

/// Nanoseconds a byte of each work, done in turns; the best run of each counts.
fn best<const N: usize>(mut works: [&mut dyn FnMut(); N], bytes: usize) -> [f64; N] {
    let mut best = [f64::INFINITY; N];
    for _ in 0..RUNS {
        for (best, work) in best.iter_mut().zip(&mut works) {
            *best = best.min(once(work) / bytes as f64);
        }
    }
    best
}

/// Reads all texts into the cells, which are its own; none if a text is refused.
fn reader<'a>(
    mut cells: Cells,
    texts: &'a [Vec<u8>],
    lents: &'a [Lent],
) -> Option<impl FnMut() + 'a> {
    let most = |words: fn(&Lent) -> usize| lents.iter().map(words).max().unwrap_or(0);
    let widest = Lent {
        notes: most(|lent| lent.notes),
        bars: most(|lent| lent.bars),
        figure: most(|lent| lent.figure),
        diagnostics: DIAGNOSTICS,
    };
    cells.read(b"C", widest);
    let mut each = texts.iter().zip(lents);
    let accepted = each.all(|(text, lent)| cells.reread(text, *lent).number == 0);
    accepted.then_some(move || {
        for (text, lent) in texts.iter().zip(lents) {
            black_box(cells.reread(black_box(text), *lent));
        }
    })
}

/// Nanoseconds that the work takes, done again and again for a run.
fn once(work: &mut dyn FnMut()) -> f64 {
    let begun = thread_time();
    let mut times = 0;
    while thread_time() - begun < RUN {
        work();
        times += 1;
    }
    (thread_time() - begun) as f64 / f64::from(times)
}

#[repr(C)]
struct Clock {
    seconds: i64,
    nanoseconds: i64,
}

const CLOCK_THREAD_CPUTIME_ID: i32 = 3;

unsafe extern "C" {
    fn clock_gettime(clock: i32, time: *mut Clock) -> i32;
}

/// Nanoseconds that this thread has worked, so that other programs on the machine matter less.
fn thread_time() -> u64 {
    let mut time = Clock {
        seconds: 0,
        nanoseconds: 0,
    };
    // The system fills in the time.
    let failed = unsafe { clock_gettime(CLOCK_THREAD_CPUTIME_ID, &mut time) };
    assert_eq!(failed, 0, "no clock of the thread's own time");
    time.seconds as u64 * 1_000_000_000 + time.nanoseconds as u64
}

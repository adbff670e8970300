//! Texts at the specification's limits, and lent sizes around what a text needs.

use super::characters::WIDE_BLANKS;
use super::incipits::{FORMS, GROUP_INCIPITS, INCIPITS, RECORDS, REST_INCIPITS};
use crate::compare::ample;
use crate::library::{BAR, DIAGNOSTICS, Lent, NOTE, Reading};
use crate::walk::Needs;

/// The part again and again, cut at `size` bytes.
pub fn filled(part: &str, size: usize) -> Vec<u8> {
    part.bytes().cycle().take(size).collect()
}

/// A text of this size: `head`, then `part` as often as there is room, then `tail`.
pub fn framed(head: &str, part: &str, tail: &str, size: usize) -> Vec<u8> {
    let room = size - head.len() - tail.len();
    [head.as_bytes(), &filled(part, room), tail.as_bytes()].concat()
}

/// As `framed`, but of whole parts, with spaces before the tail where another doesn't fit.
pub fn framed_whole(head: &str, part: &str, tail: &str, size: usize) -> Vec<u8> {
    let room = size - head.len() - tail.len();
    let (parts, left) = (room / part.len(), room % part.len());
    let text = head.to_string() + &part.repeat(parts) + &" ".repeat(left) + tail;
    text.into_bytes()
}

/// Texts about 65,535 bytes long.
pub fn long_texts() -> Vec<Vec<u8>> {
    let frames = [
        ("", "C", ""),
        ("", " ", ""),
        ("", " ", "C"),
        ("", "C/", ""),
        ("", "8", "C"),
        ("8", ".", "C"),
        ("", "'", "C"),
        ("", "x", "C"),
        ("", "%abc", " C"),
        ("C", "?", ""),
        ("", "-", ""),
        ("", "C^C^C^C-", ""),
        ("", "{CD}", ""),
        ("", "(CDE)", ""),
        ("", "(CD;2)", ""),
        ("", "!C!f", ""),
        ("", "C/i/", ""),
        ("", "gCqDqqEr", ""),
        ("", "C+", ""),
        ("", "Ct", ""),
        ("", "$xF C/", ""),
        ("", "@c C/", ""),
        ("", "@3/4 C/", ""),
        ("", "C\n", ""),
        ("@data:", "C", ""),
        ("@data:", " ", "C"),
        ("", "@a:\n", "@data:C"),
        ("", "@a:b\n", ""),
        ("@data:C\n", "x\n", ""),
        ("@data:C\n", "@clef:G-2\n", ""),
        ("@data:C\n", "@keysig:xF\n", ""),
        ("", "\n", "@data:C"),
        ("", "@", "C"),
        ("", ";9", "C"),
        ("(CC;", "0", "5)"),
        ("@timesig:", "0", "3/4\n@data:C"),
        ("@keysig:x", " ", "F\n@data:C"),
        ("@clef:", "G", "\n@data:C"),
        ("", "\x7f", "C"),
        ("", "C'D,,E8.F", ""),
        ("8.6", "CD", ""),
    ];
    let mut texts = Vec::new();
    for size in 65_533..=65_537 {
        texts.extend(frames.map(|(head, part, tail)| framed(head, part, tail, size)));
        texts.push([&filled("C", size - 1)[..], b"\x80"].concat());
    }
    texts
}

/// Texts about 65,535 bytes long with characters of two to four bytes, whole and cut at the text's end.
pub fn long_wide_texts() -> Vec<Vec<u8>> {
    let blanks: String = WIDE_BLANKS.iter().collect();
    let frames = [
        ("", "é", ""),
        ("", "é", "C"),
        ("C", "漢", ""),
        ("", "Cé", ""),
        ("", "漢C/", ""),
        ("", "𝄞", "C"),
        ("", "\u{a0}", ""),
        ("", "\u{a0}", "C"),
        ("", "\u{3000}", ""),
        ("", "\u{3000}", "C"),
        ("C", "\u{3000}", ""),
        ("", &blanks, ""),
        ("", &blanks, "C"),
        ("%", "é", "C"),
        ("%", "漢", " C"),
        ("", "%é", " C"),
        ("", "%é+ü", " C"),
        ("", "%𝄞漢é", " C"),
        ("", "$é", "C"),
        ("", "@é", "C"),
        ("8", "\u{a0}.", "C"),
        ("(C", ";é", ")"),
        ("@data:", "é", "C"),
        ("@data:", &blanks, "C"),
        ("@data:C", &blanks, ""),
        ("@data:C\u{a0}", "é\u{a0}", ""),
        ("", &blanks, "@data:C"),
        ("", "\u{a0}\n", "@data:C"),
        ("", "é\n", "@data:C"),
        ("", "@a:é\n", "@data:C"),
        ("", "@é:\n", "@data:C"),
        ("@title:", "é", "\n@data:C"),
        ("@title:", "\u{3000}", "\n@data:C"),
        ("@clef:", "é", "\n@data:C"),
        ("@clef:é+", "\u{301}", "\n@data:C"),
        ("@keysig:x", "\u{a0}", "F\n@data:F"),
        ("@timesig:", "é", "3/4\n@data:C"),
        ("@data:é", "C", "é\n@data:é"),
        ("!é", "C\u{a0}", "!f"),
    ];
    let mut texts = Vec::new();
    for size in 65_534..=65_536 {
        texts.extend(frames.map(|(head, part, tail)| framed_whole(head, part, tail, size)));
        texts.extend(["é", "漢", "𝄞", "\u{3000}"].map(|part| filled(part, size)));
        texts.push([&filled("C", size - 2)[..], "é".as_bytes()].concat());
        texts.push([&filled("\u{a0}", size - 1)[..], b"\xc2"].concat());
    }
    texts
}

/// Texts with about 64 diagnostics, for which the scratch tried first has room, about 1,024, and more.
pub fn many_diagnostics() -> Vec<Vec<u8>> {
    let mut texts = Vec::new();
    let near = (31..=33).chain(62..=67).chain([127, 128, 129]);
    for count in near.chain(1_022..=1_026).chain([1_500, 2_000]) {
        for (head, part, tail) in [
            ("C", "?", ""),
            ("C", ")", ""),
            ("", "%x+y ", "C"),
            ("C", "%", ""),
            ("(CC", ";", ")"),
            ("", "t", "C"),
            ("", "+", "C"),
            ("", "f", "C"),
            ("", "i", "C"),
            ("C", ",,,,,:", ""),
            ("@data:C", "\nx", ""),
            ("@data:C", "\n@a:b", ""),
            ("@data:C:", "\n@clef:+++", ""),
            ("", "(CC;1)", ""),
            ("C", "é", ""),
            ("C", "\u{3000}漢", ""),
            ("", "%é+𝄞 ", "C"),
            ("@data:é", "\né", "C"),
            ("@data:C", "\n\u{a0}@a:é\u{a0}", ""),
        ] {
            let text = head.to_string() + &part.repeat(count) + tail;
            texts.push(text.into_bytes());
        }
        let lines = "@data:C???)\n".to_string() + &"@z:y\n".repeat(count - 3);
        texts.push(lines.into_bytes());
    }
    texts
}

/// Patterns of about 256 elements, which are kept, and more, with few and many dots behind some of them, taken by notes, rests and graces.
pub fn long_patterns() -> Vec<Vec<u8>> {
    let takers = [
        "C".repeat(600),
        "C-".repeat(400),
        "CqDqEC".repeat(150),
        "C".repeat(254) + "qqCDr" + &"CgDqE^F".repeat(90),
        "C".repeat(256) + "qqCDE/FGr" + &"qC-/C".repeat(130),
        "C".repeat(257) + &"qCqDE".repeat(130),
        "C".repeat(258) + "/iqCC",
    ];
    let mut texts = Vec::new();
    for elements in (254..=259).chain([300, 512, 513]) {
        for dots in [
            0, 1, 2, 3, 4, 5, 7, 8, 9, 95, 96, 97, 103, 104, 105, 200, 500,
        ] {
            let last = "8".repeat(elements - 1) + "6" + &".".repeat(dots);
            let two = "8".repeat(elements - 2) + "4" + &".".repeat(dots) + "6.";
            let middle = "8".repeat(elements - 5) + "2" + &".".repeat(dots) + "8645";
            for pattern in [last, two, middle] {
                texts.extend(takers.iter().map(|taker| pattern.clone() + taker));
            }
        }
    }
    texts.into_iter().map(String::into_bytes).collect()
}

/// Texts with 100,000 notes, one less, one more, and many more: by `i`, by `f`, by doubling figures.
pub fn many_notes() -> Vec<Vec<u8>> {
    let bars = "C".repeat(1_000) + &"/i".repeat(99);
    let figure = format!("!{}!{}", "C".repeat(1_000), "f".repeat(99));
    let doubling = format!("C{}/", "/!i!f".repeat(15));
    let fill = |count: usize| "C".repeat(count);
    let texts = [
        bars.clone(),
        format!("{bars}/C"),
        format!("{bars}/-"),
        format!("{bars}/i"),
        format!("{bars}^C"),
        format!("{bars}t/"),
        format!("-{bars}"),
        figure.clone(),
        format!("{figure}C"),
        format!("{figure}-"),
        format!("{figure}f"),
        format!("{figure}^C"),
        format!("{figure}/i"),
        format!("C{figure}"),
        format!("{doubling}{}", fill(34_464)),
        format!("{doubling}{}", fill(34_465)),
        format!("{doubling}{}", fill(34_466)),
        format!("{doubling}!i!f"),
        format!("{doubling}{}/", fill(34_465)),
        format!("@data:{doubling}{}", fill(34_466)),
        "!CCCC!!ffff!!ffff!!ffff!!ffff!!ffff!!ffff!ff/i".to_string(),
    ];
    texts.map(String::into_bytes).to_vec()
}

/// Texts for which all lent sizes around their needs are tried.
pub fn sized_texts() -> Vec<Vec<u8>> {
    let more = [
        "",
        " ",
        "C",
        "-",
        "C/D",
        "!C!",
        "!CD!f",
        "!CDE!!C!ff/i",
        "C/i/i",
        "x",
        "@a:",
        "C^E",
        "C^C^C^C^C^C^C^C",
        "C^C^C^C^C^C^C^C^C",
        "Ctttttttt",
        "Cttttttttt",
        "(Ctttttttt)",
        "(-)",
        "(CDE;3)",
        "!!f",
        "!/!",
        "!/C!f",
        "C/(/D)",
        "(/Ctttttttt)",
        "C\x7f",
        "!CC!f!f!/!CCC!",
        "CDEFGABCDEFG",
        "C/C/C/C/C",
        "//://:C",
        "@data:",
        "@data:C/D\n@clef:G-2",
        "!CD!/i",
        "!C!/i/i/i!",
        "C!f!f",
        "!CDEFG!/!C!",
        "éC",
        "é\u{a0}C/漢D𝄞",
        "\u{a0}",
        "\u{200b}",
        "é!C漢!ü",
        "!é!f",
        "%é+üC/é",
        "@data:\u{3000}éC\u{a0}D\u{2028}\n@tïtle:x",
        "éC^éC^C^C^C^C^C^C^C",
        "éC\u{2009}ttttttttét",
    ];
    let all = INCIPITS.iter().chain(&FORMS).chain(&RECORDS).chain(&more);
    all.map(|text| text.as_bytes().to_vec())
        .chain([b"C\x80".to_vec(), b"C\xed\xa0\x80".to_vec()])
        .collect()
}

/// Texts with rests of whole bars, for the same.
pub fn sized_rests() -> Vec<Vec<u8>> {
    let more = [
        "=",
        "=1",
        "=2",
        "=3",
        "=02",
        "C=",
        "C=2D",
        "/=4/",
        "=/=",
        "==",
        "=2=2",
        "= 2C",
        "=2t",
        "=0",
        "=00",
        "C=0",
        "C=1001",
        "=0=2",
        "!==!f",
        "!C=D!ff",
        "!=!=2f",
        "=2!=D!f",
        "=2/!/=!f",
        "=2/i",
        "=2/i/i",
        "=2i",
        "C=2/i=",
        "(=)",
        "(=",
        "(==;3)",
        "(=)=2",
        "=2(=D)",
        "(=2(=)",
        "=(C=;5)",
        "(=tttttttt)",
        "=tttttttt",
        "=ttttttttt",
        "{==}",
        "{=2{=C}",
        "C{=D}",
        "x=C",
        "x=3C",
        "xC=C",
        "xC=2C",
        "C^=D",
        "C^E=2^G",
        "g=C",
        "q=2C",
        "qq=2Cr=",
        "C+D=2E",
        "=+",
        "//:=2://",
        "=3//:=2//",
        "C://:=",
        "=%F-4C",
        "=2%F-4/C",
        "%F-4=2",
        "$xF =2F",
        "@3/4 =2@c/C",
        "é=2é",
        "%é+üC/é=",
        "=é2C",
        "@data: =2 \n@title:x",
        "@data:=3?\n@keysig:xF",
        "@a:=2\n@data:C=2",
        "C^C^C^C^C^C^C^C^C=2",
    ];
    let all = REST_INCIPITS.iter().chain(&more);
    all.map(|text| text.as_bytes().to_vec()).collect()
}

/// Texts that close a group, beam or figure in a later bar, for the same.
pub fn sized_later() -> Vec<Vec<u8>> {
    let more = [
        "(C/)",
        "(C/D)",
        "(C/DE)F)",
        "C(D/EFG)",
        "C(D/;5)",
        "(C/D;2)",
        "(C;5/DE;)",
        "(C(D/E)F)G",
        "(C/)(D)(E/F)",
        "(/C/D)",
        "(C//:D)",
        "(C://://:D)",
        "(C/i)",
        "(C/i/i)",
        "!C!(/f)",
        "(Ctttttttt/D)",
        "(C/Dtttttttt)",
        "(C/Dttttttttt)",
        "(C/D)(Etttttttt)",
        "(C/D^D^D^D^D^D^D^D^D)",
        "!C/!",
        "!C/D!",
        "!C/D!f",
        "!C/DEFG!",
        "C!D/E!f",
        "!C!!D/E!f",
        "!CDE!!F/G!ff",
        "!CD!f!/!f",
        "!C/!!D!f",
        "!C/!D!f!f",
        "!C/i!f",
        "!C/D!!E/F!!G!f",
        "!C/D!i/i",
        "!CC!f!f/!CCC!",
        "{C/}",
        "{C/D}",
        "{C/DE}",
        "{C/DE}FG}",
        "{C{D/EF}GA}",
        "{CD/EF}{GA}",
        "{(C/D)E}",
        "{(C!D/E}F)G!f",
        "({!C/D!}f)",
        "éC(é/漢D)",
        "!é/C/é!f",
        "(C/?D)?",
        "@data:(C/D)",
        "@data: (C/D){E/F} \n@title:x",
        "@data:!C/D!\n@a:(",
        "@a:(\n@data:{C/D}é",
        "(@a:C/D)",
        " {\n(@a:C/D)}",
    ];
    let all = GROUP_INCIPITS.iter().chain(&more);
    all.map(|text| text.as_bytes().to_vec()).collect()
}

/// Such texts with rests of whole bars.
pub fn sized_later_rests() -> Vec<Vec<u8>> {
    let texts = [
        "(=2)",
        "(=2C)",
        "(=2;3)",
        "(=C=2)",
        "(=/=)",
        "C(=3D)E)",
        "(=2tttttttt)",
        "(=3)=2",
        "C(=2D)",
        "!=2!",
        "!=2!f",
        "C!=2D!f",
        "!=!!=2!f",
        "!C=3D!ff",
        "!=2/i!f",
        "{=2}",
        "{=2C}",
        "{=2CD}",
        "{=C=2D}E}",
        "({!=2)}!",
        "=2(=/=2)",
        "é(=2é)",
        "@data:(=2)\n@a:é",
    ];
    texts.map(|text| text.as_bytes().to_vec()).to_vec()
}

/// Texts with such closings about 65,535 bytes long, with about 1,024 diagnostics, and about 100,000 notes.
pub fn many_later() -> Vec<Vec<u8>> {
    let frames = [
        ("", "(C/)", ""),
        ("", "!C/!", ""),
        ("", "{C/D}", ""),
        ("", "(C/D;5)", ""),
        ("", "({!C/)}!f", ""),
        ("!C!", "!/!f", ""),
        ("(", "C/", ")"),
        ("{(!", "C", "/)}!"),
        ("", "(", "C/)"),
        ("(C/", ";5", ")D"),
        ("@data:", "(C/)", ""),
        ("", "é(C/)", ""),
    ];
    let mut texts = Vec::new();
    for size in 65_533..=65_537 {
        texts.extend(frames.map(|(head, part, tail)| framed_whole(head, part, tail, size)));
    }
    let near = (31..=33).chain(62..=67).chain([127, 128, 129]);
    for count in near.chain(1_022..=1_026).chain([1_500, 2_000]) {
        for (head, part, tail) in [
            ("C", "(/)C", ""),
            ("C", "!/!C", ""),
            ("C", "(!/)!C", ""),
            ("(C/", "?", ")!D/!"),
            ("(C/", "(/)!C/!(D/", ")"),
            ("@data:C", "(/)C", "\n?"),
        ] {
            let text = head.to_string() + &part.repeat(count) + tail;
            texts.push(text.into_bytes());
        }
    }
    let bars = "C".repeat(1_000) + &"/i".repeat(99);
    let notes = [
        format!("{bars}!/!"),
        format!("({bars})"),
        format!("({bars})C"),
        format!("!{bars}!f"),
        format!("{{{bars}}}/)"),
        format!("!C!({bars}/)f"),
        format!("!{bars}/C!"),
    ];
    texts.extend(notes.map(String::into_bytes));
    // 255 to 257 bars between a start and its end
    for count in 255..=257 {
        let bars = "C/".repeat(count);
        let more = ["(", "{", "!"].map(|sign| format!("{sign}{bars}DE)}}!f"));
        texts.extend(more.map(String::into_bytes));
    }
    texts
}

/// Texts with 65,535 to 65,537 bars between a start and its end, by rests of whole bars.
pub fn many_later_rests() -> Vec<Vec<u8>> {
    let mut texts = Vec::new();
    for count in 536..=538 {
        let bars = "=1000/".repeat(65) + &format!("={count}");
        let more = ["(", "{", "!"].map(|sign| format!("{sign}{bars}DE)}}!f"));
        texts.extend(more.map(String::into_bytes));
    }
    texts
}

/// Texts with rests of whole bars about 65,535 bytes long, and about 100,000 notes.
pub fn many_rests() -> Vec<Vec<u8>> {
    let frames = [
        ("", "=", ""),
        ("", "=2", ""),
        ("", "=/", ""),
        ("", "=é", ""),
        ("", "=0", "C"),
        ("=", "0", "2C"),
        ("=", "0", "C"),
        ("=", "9", "C"),
        ("", "=i", ""),
        ("", "!=!f", ""),
        ("@data:", "=2 ", "\n"),
    ];
    let mut texts = Vec::new();
    for size in 65_533..=65_537 {
        texts.extend(frames.map(|(head, part, tail)| framed_whole(head, part, tail, size)));
    }
    let thousands = |count: usize| "=1000".repeat(count);
    let doubling = format!("C{}/", "/!i!f".repeat(15));
    let notes = [
        thousands(99) + "=999",
        thousands(100),
        thousands(100) + "=",
        thousands(100) + "=1001",
        thousands(99) + "C=1000",
        thousands(99) + "=999/i",
        thousands(99) + "=999/ii",
        thousands(99) + "!=!" + &"f".repeat(999),
        thousands(99) + "!=!" + &"f".repeat(1_000),
        "=1000/".repeat(100),
        "=1000/".repeat(100) + "=2",
        format!("{doubling}{}=", "C".repeat(34_464)),
        format!("{doubling}{}=", "C".repeat(34_465)),
        format!("{doubling}{}=2", "C".repeat(34_464)),
        format!("{doubling}{}C=", "C".repeat(34_465)),
    ];
    texts.extend(notes.map(String::into_bytes));
    texts
}

/// Texts with rests of whole bars, the words and cells that are lent, and the answers by the specification (8).
pub fn stated() -> Vec<(Vec<u8>, Lent, Reading)> {
    let thousands = |count: usize| "=1000".repeat(count);
    let accepted = |notes, bars, diagnostics| Reading {
        notes,
        bars,
        diagnostics,
        ..Reading::default()
    };
    let refused = |number, place| Reading {
        number,
        place,
        ..Reading::default()
    };
    let ample = [
        ("=12/C".to_string(), accepted(13, 13, 0)),
        ("C=".to_string(), accepted(2, 1, 0)),
        ("C+=2D".to_string(), accepted(4, 2, 0)),
        ("8=2C".to_string(), accepted(3, 2, 0)),
        ("C=0".to_string(), accepted(1, 1, 1)),
        ("C=1001D".to_string(), accepted(2, 1, 1)),
        ("=0".to_string(), refused(13, 0)),
        ("=".repeat(65_535), accepted(65_535, 1, 0)),
        ("=".repeat(65_536), refused(1, 0)),
        (thousands(100), accepted(100_000, 99_901, 0)),
        (thousands(100) + "=", refused(7, 501)),
        (thousands(100) + "C", refused(7, 501)),
        (thousands(100) + "^C=0", refused(7, 502)),
        (thousands(99) + "C=1000", refused(7, 497)),
        (thousands(99) + "=999/C", accepted(100_000, 99_901, 0)),
        (thousands(99) + "=999/CC", refused(7, 502)),
        ("=1000/".repeat(100), accepted(100_000, 100_000, 0)),
        ("=1000/".repeat(100) + "=1", refused(7, 601)),
        (
            "=1000/".repeat(100) + "=1001",
            accepted(100_000, 100_000, 1),
        ),
    ];
    let few = [
        ("=3", 0, 3, refused(8, 1)),
        ("=3", 1, 0, refused(12, 1)),
        ("=3", 1, 1, refused(8, 1)),
        ("=3", 2, 1, refused(12, 1)),
        ("=3", 3, 2, refused(12, 3)),
        ("=3", 3, 3, accepted(3, 3, 0)),
        ("C=", 2, 0, refused(12, 3)),
        ("C=2D", 2, 0, refused(12, 2)),
        ("C=2D", 3, 1, refused(8, 4)),
        ("é/=2", 1, 0, refused(12, 3)),
    ];
    let lent = |notes, bars| Lent {
        notes: notes * NOTE,
        bars: bars * BAR,
        figure: 0,
        diagnostics: DIAGNOSTICS,
    };
    let ample = ample.map(|(text, due)| (text.into_bytes(), lent(100_000, 100_000), due));
    let few = few.map(|(text, notes, bars, due)| (text.into(), lent(notes, bars), due));
    ample.into_iter().chain(few).collect()
}

/// Texts with groups, beams and figures over barlines, how many records of a figure are lent, and the answers by
/// S-10.2 in the words of `told`.
pub const STATED_LATER: [(&str, usize, &str); 60] = [
    // closed in a later bar
    ("C(D/EFG)", 0, "C D / E F G; d10 at 8"),
    ("(C/D)", 0, "C / D; d10 at 5"),
    ("(C/)", 0, "C; d10 at 4"),
    ("(C/DEF;5)", 0, "C / D E F; d10 at 9"),
    ("{C/DE}", 0, "C / D E"),
    ("{C/D}", 0, "C / D"),
    ("{C/}", 0, "C"),
    ("C{D/EFG}", 0, "C D / E F G"),
    ("!C/!", 0, "C; d17 at 4"),
    ("!C/D!", 0, "C / D; d17 at 5"),
    ("C!/!", 0, "C; d17 at 4"),
    ("(C/i)", 0, "C / C; d10 at 5"),
    ("(C/D/E/)", 0, "C / D / E; d10 at 8"),
    ("(C//:D)", 0, "C / D; d10 at 7"),
    ("(C://D)", 0, "C / D; d10 at 7"),
    ("(C:D)", 0, "C(3) D(3); d9 at 3"),
    ("é(C/é)", 0, "C; d15 at 1; d15 at 5; d10 at 6"),
    ("@data: (C/D)", 0, "C / D; d10 at 5"),
    // a barline in an empty bar starts no later one
    ("(/CDE)", 0, "C(3) D(3) E(3)"),
    ("(/)C", 0, "C"),
    ("(///C)", 0, "C*"),
    ("(//:C)", 0, "C*"),
    ("C/(/D)", 0, "C / D*"),
    ("C/(/D/E)", 0, "C / D / E; d10 at 8"),
    ("{/CD}", 0, "C{ D}"),
    ("C/{//DE}", 0, "C / D{ E}"),
    ("!/C!f", 1, "C C"),
    ("C/!/D!f", 1, "C / D D"),
    ("C(%/)", 0, "C; d3 at 3"),
    // the start is used up, the old figure is kept
    ("(C/D)E)", 0, "C / D E; d10 at 5; d13 at 7"),
    ("(C/D)(E)", 0, "C / D E*; d10 at 5"),
    ("{C/D}EF}", 0, "C / D E F"),
    ("{C/D}{EF}", 0, "C / D E{ F}"),
    ("!C!!D/E!f", 1, "C D / E C; d17 at 8"),
    ("!C/D!f", 0, "C / D; d17 at 5; d18 at 6"),
    ("!C/D!E!f", 0, "C / D E; d17 at 5; d18 at 8"),
    ("!C/!D!E!f", 1, "C / D E E; d17 at 4"),
    ("!C!/f", 1, "C / C"),
    ("!C!/f/f", 1, "C / C / C"),
    ("(C/(DEF)", 0, "C / D(3) E(3) F(3)"),
    ("(C(D/E)F)", 0, "C D / E F; d10 at 7; d13 at 9"),
    ("{C/{DE}", 0, "C / D{ E}"),
    // counts in a later bar
    ("C(D/;5)", 0, "C D; d10 at 7"),
    ("(C/D;2)", 0, "C / D; d10 at 7"),
    ("(C/D;)E", 0, "C / D E; d12 at 5; d10 at 6"),
    ("(C/D);5", 0, "C / D; d10 at 5; d12 at 6"),
    ("(C;5/D)(EF)", 0, "C / D E(3) F(3); d10 at 7"),
    // rests of whole bars
    ("(=2)", 0, "= / =; d10 at 4"),
    ("!=2!", 0, "= / =; d17 at 4"),
    ("{=2CD}", 0, "= / = C D"),
    ("{=C}", 0, "={ C}"),
    ("=2(=)", 0, "= / = =*"),
    ("(=/=)", 0, "= / =; d10 at 5"),
    // 10 and 11 are checked where it is closed in its own bar, and only there
    ("(C/Dtttttttt)", 0, "C / D********; d10 at 13"),
    ("(Ctttttttt/D)", 0, "C******** / D; d10 at 13"),
    ("C/(/Dtttttttt)", 0, "refused 10 at 14"),
    ("(C/Dttttttttt)", 0, "refused 10 at 13"),
    ("!C/DE!", 0, "C / D E; d17 at 6"),
    ("!/C!", 0, "refused 11 at 4"),
    ("!C!!D/E!!F!", 0, "refused 11 at 3"),
];

/// Word counts around `need` records.
fn around(need: usize, size: usize) -> Vec<usize> {
    let exact = need * size;
    let mut words = vec![
        0,
        1,
        exact + 1,
        exact,
        exact + size - 1,
        exact + size,
        exact + 3 * size,
    ];
    words.extend(
        [1, size - 1, size, size + 1, 2 * size]
            .iter()
            .filter_map(|less| exact.checked_sub(*less)),
    );
    words.sort_unstable();
    words.dedup();
    words
}

/// Every lent size around the needs.
pub fn sizes(needs: Needs) -> Vec<Lent> {
    let mut lents = Vec::new();
    for notes in around(needs.notes, NOTE) {
        for bars in around(needs.bars, BAR) {
            for figure in around(needs.figure, NOTE) {
                lents.push(Lent {
                    notes,
                    bars,
                    figure,
                    diagnostics: DIAGNOSTICS,
                });
            }
        }
    }
    for diagnostics in [0, 1, 1_022, 1_023, 1_024, 1_025, 2_000] {
        lents.push(Lent {
            diagnostics,
            ..ample(needs)
        });
        lents.push(Lent {
            notes: 0,
            bars: 0,
            figure: 0,
            diagnostics,
        });
    }
    lents
}

/// Few lent sizes, for texts that need many records.
pub fn few_sizes(needs: Needs) -> Vec<Lent> {
    let exact = ample(needs);
    let mut lents = vec![
        exact,
        Lent {
            notes: exact.notes + NOTE - 1,
            bars: exact.bars + BAR - 1,
            ..exact
        },
        Lent {
            figure: exact.figure + NOTE + 1,
            diagnostics: 1_025,
            ..exact
        },
        Lent {
            diagnostics: 1_023,
            ..exact
        },
    ];
    if needs.notes > 0 {
        lents.push(Lent {
            notes: exact.notes - 1,
            ..exact
        });
    }
    if needs.bars > 0 {
        lents.push(Lent {
            bars: exact.bars - 1,
            ..exact
        });
    }
    if needs.figure > 0 {
        lents.push(Lent {
            figure: exact.figure - 1,
            ..exact
        });
    }
    lents
}

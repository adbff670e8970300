//! Every diagnostic with its code, position and value.

use urthmoli::{DIAGNOSTIC_CELLS, Diagnostic, DiagnosticKind, read};

/// For d1 and on: the smallest text that gives it, its code, location and value.
const EACH: [(&str, &str, &str, &str); 20] = [
    ("x\n@data:C", "line", "/line/1", "x"),
    ("@x:\n@data:C", "field", "/line/1/field/x", ""),
    ("C%", "mid-measure-change", "/data/2", ""),
    ("%G+2C", "clef", "/data/1", "G+2"),
    ("% C", "clef", "/data/1", ""),
    ("$C-", "key", "/data/1", "C"),
    ("@C", "time", "/data/1", ""),
    (",,,,,C", "octave", "/data/1", ",,,,,"),
    ("C:", "barline", "/data/2", ":"),
    ("C(/)", "tuplet", "/data/4", "()"),
    ("(C;02)", "tuplet", "/data/6", "2"),
    ("C;", "tuplet", "/data/2", ""),
    ("C)", "token", "/data/2", ")"),
    ("tC", "token", "/data/1", "t"),
    ("Cr", "token", "/data/2", "r"),
    ("+C", "tie", "/data/1", "+"),
    ("C!/!", "repeat", "/data/4", "!"),
    ("Cf", "repeat", "/data/2", "f"),
    ("Ci", "repeat", "/data/2", "i"),
    ("C=0", "measure-rest", "/data/2", "0"),
];

fn diagnostics(text: &str) -> Vec<Diagnostic> {
    read(text).unwrap().diagnostics
}

#[test]
fn each_kind() {
    for (number, (text, code, location, value)) in (1..).zip(EACH) {
        let found = &diagnostics(text)[..];
        assert_eq!(found.len(), 1, "{text:?}");
        assert_eq!(found[0].kind.word(), number, "{text:?}");
        assert_eq!(found[0].kind.code(), format!("pae.unsupported-{code}"));
        assert_eq!(found[0].position.to_string(), location, "{text:?}");
        assert_eq!(found[0].value, value, "{text:?}");
    }
    let kinds = (1..).take_while(|word| DiagnosticKind::from_word(*word).is_ok());
    assert_eq!(kinds.count(), EACH.len());
}

#[test]
fn reasons_are_told_apart() {
    let reasons = EACH.map(|(text, ..)| diagnostics(text)[0].kind.reason());
    for (index, reason) in reasons.iter().enumerate() {
        assert!(!reasons[..index].contains(reason), "{reason}");
    }
}

#[test]
fn the_span_is_the_value_in_the_text() {
    for (text, ..) in EACH {
        let found = &diagnostics(text)[0];
        match found.span.clone() {
            Some(span) => assert_eq!(text[span], found.value),
            None => assert!(matches!(
                found.kind,
                DiagnosticKind::GroupOverBarline | DiagnosticKind::SmallTuplet
            )),
        }
    }
    let found = &diagnostics("@clef:G-2\n@data: C)")[0];
    assert_eq!(found.position.to_string(), "/data/2");
    assert_eq!(found.span, Some(18..19));
}

#[test]
fn unsupported_fields_have_a_key() {
    let text = "@data:C\n\u{b} @title: an @a:b \r\n\n@composer:\nplain @line:\n";
    let found = diagnostics(text);
    let expected = [
        ("/line/2/field/title", "an @a:b"),
        ("/line/4/field/composer", ""),
        ("/line/5", "plain @line:"),
    ];
    assert_eq!(found.len(), expected.len());
    for (found, (location, value)) in found.iter().zip(expected) {
        assert_eq!(found.position.to_string(), location);
        assert_eq!(found.value, value);
    }
}

#[test]
fn one_as_a_line() {
    assert_eq!(
        diagnostics("C)")[0].to_string(),
        "pae.unsupported-token at /data/2: unmatched ')' (\")\")"
    );
}

#[test]
fn later_ones_are_dropped() {
    let text = format!("C{}", "z".repeat(DIAGNOSTIC_CELLS + 1));
    assert_eq!(diagnostics(&text).len(), DIAGNOSTIC_CELLS);
}

#[test]
fn many_are_in_order() {
    for count in [63, 64, 65, 66, 500] {
        let text = format!("@title:x\n@data:C{}", "z".repeat(count - 1));
        let found = diagnostics(&text);
        assert_eq!(found.len(), count);
        assert_eq!(found[0].position.to_string(), "/line/1/field/title");
        for (place, found) in (2..).zip(&found[1..]) {
            assert_eq!(found.position.to_string(), format!("/data/{place}"));
            assert_eq!(found.value, "z");
        }
    }
}

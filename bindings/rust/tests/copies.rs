//! The package's own copies of pages that stand at the top of the repository or in its docs.

use std::fs::read;
use std::path::Path;

/// A copy, and its original as seen from the package.
const COPIES: [(&str, &str); 4] = [
    ("CARD.md", "../../docs/CARD.md"),
    ("LICENSE-APACHE", "../../LICENSE-APACHE"),
    ("LICENSE-MIT", "../../LICENSE-MIT"),
    ("NOTICE", "../../NOTICE"),
];

/// In a package that stands alone there are no originals.
#[test]
fn the_copies_are_their_originals() {
    let package = Path::new(env!("CARGO_MANIFEST_DIR"));
    if !package.join("../../include/pae.h").exists() {
        return;
    }
    for (copy, original) in COPIES {
        let same = read(package.join(copy)).unwrap() == read(package.join(original)).unwrap();
        assert!(same, "bindings/rust/{copy} is not a copy of {original}");
    }
}

//! The example of the READMEs: this package's is run as a documentation test, the repository's is the same.

use std::fs;
use std::path::Path;

fn example(readme: &str) -> &str {
    let (_, block) = readme.split_once("```rust\n").unwrap();
    block.split_once("```").unwrap().0
}

#[test]
fn both_have_the_same_example() {
    let repository = Path::new(env!("CARGO_MANIFEST_DIR")).join("../..");
    if repository.join("include/pae.h").exists() {
        let readme = fs::read_to_string(repository.join("README.md")).unwrap();
        assert_eq!(example(&readme), example(include_str!("../README.md")));
    }
}

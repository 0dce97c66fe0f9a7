//! The sample of docs/CLIENTS.md is the one of the crate's documentation, which runs as a test.
use std::fs;

#[test]
fn the_sample_of_the_document_is_tested() {
    let source = fs::read_to_string("src/lib.rs").unwrap();
    let sample = source.split("//! ```\n").nth(1).expect("a sample");
    let lines = sample
        .lines()
        .map(|it| it.replacen("//! ", "    ", 1).replacen("//!", "", 1));
    let wanted = lines.collect::<Vec<String>>().join("\n");
    let document = fs::read_to_string("../../docs/CLIENTS.md").unwrap();
    assert!(document.contains(&wanted), "{wanted}");
}

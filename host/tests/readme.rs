//! The README's examples are those of the crate's first page, which run with the documentation's tests.

const README: &str = include_str!("../../README.md");
const CRATE: &str = include_str!("../src/lib.rs");

/// What stands between fences that open with that line.
fn fenced<'a>(text: &'a str, opening: &'a str) -> impl Iterator<Item = &'a str> {
    text.split(opening).skip(1).map(|rest| rest.split("```").next().expect("a first part"))
}

#[test]
fn every_example_is_one_that_runs() {
    let page = CRATE.lines().map_while(|line| line.strip_prefix("//!"));
    let page: String =
        page.map(|line| format!("{}\n", line.strip_prefix(' ').unwrap_or(line))).collect();
    // A fence closes with the line that it opens with, so every other text is an example.
    let run: Vec<&str> = fenced(&page, "```\n").step_by(2).collect();
    let examples: Vec<&str> = fenced(README, "```rust\n").collect();
    assert!(!examples.is_empty(), "the README has no example in Rust");
    for example in examples {
        let runs = run.iter().any(|text| text.contains(example));
        assert!(runs, "does not stand in host/src/lib.rs:\n{example}");
    }
}

//! The two programs of the README are the files that are compiled and run.

const README: &str = include_str!("../../../README.md");
const LEAST_C: &str = include_str!("../../c/least.c");
const LEAST_RUST: &str = include_str!("../examples/least.rs");
const PRINTED: &str = include_str!("../../least.txt");

#[test]
fn the_readme_has_the_programs_as_they_are() {
    assert!(README.contains(&format!("\n```c\n{LEAST_C}```\n")), "the C program differs from bindings/c/least.c");
    assert!(
        README.contains(&format!("\n```rust\n{LEAST_RUST}```\n")),
        "the Rust program differs from examples/least.rs"
    );
    assert!(README.contains(&format!("\n```\n{PRINTED}```\n")), "what they print differs from bindings/least.txt");
}

#[test]
fn the_programs_are_short() {
    for program in [LEAST_C, LEAST_RUST] {
        assert!(program.lines().count() < 40);
    }
}

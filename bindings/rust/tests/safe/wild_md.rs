//! The code in docs/WILD.md is the example's, which compiles.

const WILD_MD: &str = include_str!("../../../../docs/WILD.md");
const EXAMPLE: &str = include_str!("../../examples/wild_arch.rs");

/// A text without its indentation.
fn flat(text: &str) -> String {
    let lines = text.lines().map(|line| line.trim_start().to_owned() + "\n");
    lines.collect()
}

#[test]
fn code_is_the_examples() {
    let example = flat(EXAMPLE);
    let blocks: Vec<&str> = WILD_MD.split("```rust\n").skip(1).collect();
    for block in &blocks {
        let (code, _) = block.split_once("```").unwrap();
        assert!(
            example.contains(&flat(code)),
            "not in wild_arch.rs:\n{code}"
        );
    }
    assert_eq!(blocks.len(), 11);
}

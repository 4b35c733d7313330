//! One version: of the crate, the header and the change log.

const HEADER: &str = include_str!("../../../../include/jitamoro.h");
const CHANGELOG: &str = include_str!("../../../../CHANGELOG.md");

/// What follows a text on the first line that starts with it.
fn after<'a>(text: &'a str, start: &str) -> &'a str {
    let found = text.lines().find_map(|line| line.strip_prefix(start));
    found.unwrap_or_else(|| panic!("no line {start}"))
}

#[test]
fn one_version() {
    let quoted = format!("\"{}\"", jitamoro::VERSION);
    assert_eq!(after(HEADER, "#define JITAMORO_VERSION "), quoted);
    let numbers = ["MAJOR", "MINOR", "PATCH"]
        .map(|n| after(HEADER, &format!("#define JITAMORO_VERSION_{n} ")));
    assert_eq!(numbers.join("."), jitamoro::VERSION);
    assert_eq!(after(CHANGELOG, "## "), jitamoro::VERSION);
}

//! The crate's numbers and texts are those of include/jitamoro.h, row by row.

use jitamoro::DynamicRelocationKind;
use jitamoro::OutputKind;
use jitamoro::Refusal;
use jitamoro::RelaxationKind;
use jitamoro::RelocationKind;
use jitamoro::Tally;
use jitamoro::ValueFlags;
use jitamoro::elf;
use std::error::Error;
use std::fmt::Debug;

const HEADER: &str = include_str!("../../../../include/jitamoro.h");

/// A number and its text.
type Row = (u8, String);

/// The lines of the header after one that starts with a text, to the first that satisfies a test.
fn lines_after(start: &str, end: impl Fn(&str) -> bool) -> Vec<&'static str> {
    let found = HEADER.lines().skip_while(|line| !line.starts_with(start));
    let mut lines = vec![];
    for line in found.skip(1) {
        lines.push(line);
        if end(line) {
            return lines;
        }
    }
    panic!("no end of {start}")
}

/// The rows X(NAME, number, "text") of a table, each a line of its own.
fn table(name: &str) -> Vec<Row> {
    let start = format!("#define {name}(X)");
    let lines = lines_after(&start, |line| !line.ends_with('\\'));
    let row = |line: &&str| {
        let (_, row) = line.split_once("X(").unwrap();
        let (before, after) = row.split_once(", \"").unwrap();
        let (text, _) = after.split_once("\")").unwrap();
        let (_, number) = before.split_once(", ").unwrap();
        (number.parse().unwrap(), text.to_owned())
    };
    lines.iter().map(row).collect()
}

/// The rows NAME = number of an enum, the names without their prefix.
fn enumerators(name: &str, prefix: &str) -> Vec<Row> {
    let lines = lines_after(&format!("enum {name} {{"), |line| line == "};");
    let row = |line: &&str| {
        let (name, number) = line.trim_start().split_once(" = ").unwrap();
        let digits = number.split(|c: char| !c.is_ascii_digit()).next();
        let name = name.strip_prefix(prefix).unwrap().to_owned();
        (digits.unwrap().parse().unwrap(), name)
    };
    lines[..lines.len() - 1].iter().map(row).collect()
}

/// The rows that the crate has, by what it gives for each number.
fn crates(text: impl Fn(u8) -> Option<String>) -> Vec<Row> {
    let row = |number| Some((number, text(number)?));
    (0..=255).filter_map(row).collect()
}

/// A variant's name as an enumerator has it: SYM_REL_GOT_BASE of SymRelGotBase.
fn upper_snake(variant: impl Debug) -> String {
    let mut name = String::new();
    for c in format!("{variant:?}").chars() {
        if c.is_uppercase() && !name.is_empty() {
            name.push('_');
        }
        name.push(c.to_ascii_uppercase());
    }
    name
}

#[test]
fn refusals() {
    let mut rows = table("JITAMORO_REFUSALS");
    // No refusal, and the case program's, which the library never answers.
    rows.retain(|row| row.0 != 0 && !(10..=13).contains(&row.0));
    assert_eq!(rows.len(), 15);
    let text = |number| {
        let refusal = Refusal::from_number(number)?;
        assert_eq!(refusal.number(), number);
        let error: &dyn Error = &refusal;
        assert_eq!(error.to_string(), refusal.text());
        Some(refusal.text().to_owned())
    };
    assert_eq!(crates(text), rows);
}

#[test]
fn relaxation_kinds() {
    let rows = table("JITAMORO_KINDS");
    assert_eq!(rows.len(), 19);
    let text = |number| Some(RelaxationKind::from_number(number, 3)?.name().to_owned());
    assert_eq!(crates(text), rows);
    for (number, name) in rows {
        for inst_offset in [0, 3, 255] {
            let kind = RelaxationKind::from_number(number, inst_offset).unwrap();
            let holds = [2, 3, 4, 5, 6, 16].contains(&number);
            let offset = if holds {
                format!("({inst_offset})")
            } else {
                String::new()
            };
            assert_eq!(
                format!("{kind} {kind:#}"),
                format!("{name}{offset} {name}{offset}")
            );
            assert_eq!(kind.to_string(), format!("{kind:?}"));
        }
    }
}

/// The header's figures are the kinds' rows and three more, and the crate's.
#[test]
fn tally_figures() {
    let rows = table("JITAMORO_TALLY_FIGURES");
    assert_eq!(rows[..19], table("JITAMORO_KINDS"));
    let figures = Tally::fresh().figures();
    let figures: Vec<Row> = (0..).zip(figures.map(|it| it.0.to_owned())).collect();
    assert_eq!(figures, rows);
    let length = format!("#define JITAMORO_TALLY_LENGTH {}u", rows.len());
    assert!(HEADER.lines().any(|line| line == length), "{length}");
}

#[test]
fn output_kinds() {
    let rows = table("JITAMORO_OUTPUTS");
    assert_eq!(rows.len(), 6);
    let text = |number| {
        let kind = OutputKind::from_number(number).ok()?;
        assert_eq!(kind.to_string(), kind.name());
        Some(kind.to_string())
    };
    assert_eq!(crates(text), rows);
}

#[test]
fn value_flags() {
    let rows = table("JITAMORO_FLAGS");
    assert_eq!(rows.len(), 4);
    let single = |number: u8| {
        let flags = ValueFlags::from_number(number).ok()?;
        number.is_power_of_two().then(|| flags.to_string())
    };
    assert_eq!(crates(single), rows);
    for number in 1..16 {
        let named = rows.iter().filter(|row| number & row.0 != 0);
        let names: Vec<&str> = named.map(|row| row.1.as_str()).collect();
        let flags = ValueFlags::from_number(number).unwrap();
        assert_eq!(flags.to_string(), names.join(" + "));
    }
    assert_eq!(ValueFlags::default().to_string(), "none");
    let others = ValueFlags::from_bits_retain(0x30);
    assert_eq!(others.to_string(), "0x30");
    let both = ValueFlags::ABSOLUTE | others;
    assert_eq!(both.to_string(), "absolute + 0x30");
}

#[test]
fn relocation_types() {
    let tables = ["", "DYNAMIC_", "OTHER_"].map(|t| table(&format!("JITAMORO_{t}R_TYPES")));
    assert_eq!(tables.each_ref().map(Vec::len), [39, 8, 3]);
    let mut rows = tables.concat();
    rows.sort();
    let text = |number| Some(elf::x86_64_rel_type_name(u32::from(number))?.to_owned());
    assert_eq!(crates(text), rows);
    for (number, name) in rows {
        assert_eq!(
            elf::x86_64_rel_type_to_string(number.into()).to_string(),
            name
        );
    }
    for (number, text) in [
        (40, "Unknown x86_64 relocation type 0x28"),
        (256, "Unknown x86_64 relocation type 0x100"),
        (u32::MAX, "Unknown x86_64 relocation type 0xffffffff"),
    ] {
        assert_eq!(elf::x86_64_rel_type_name(number), None);
        assert_eq!(elf::x86_64_rel_type_to_string(number).to_string(), text);
    }
    assert_eq!(elf::R_X86_64_CODE_6_GOTPC32_TLSDESC, 51);
}

#[test]
fn relocation_kinds() {
    let rows = enumerators("jitamoro_relocation_kind", "JITAMORO_RELOCATION_");
    assert_eq!(rows.len(), 16);
    assert_eq!(
        crates(|n| RelocationKind::from_number(n).map(upper_snake)),
        rows
    );
    let rows = enumerators("jitamoro_dynamic_kind", "JITAMORO_DYNAMIC_");
    assert_eq!(rows.len(), 10);
    assert_eq!(
        crates(|n| DynamicRelocationKind::from_number(n).map(upper_snake)),
        rows
    );
}

#[test]
fn records() {
    let tls_gd = crate::record(elf::R_X86_64_TLSGD, 4, 0, 0);
    assert_eq!(tls_gd.to_string(), "R_X86_64_TLSGD at offset 0x4");
    let no_name = crate::record(52, u64::MAX, 0, 0);
    assert_eq!(no_name.to_string(), "type 52 at offset 0xffffffffffffffff");
}

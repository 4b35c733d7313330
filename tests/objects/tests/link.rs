//! The model of a link: flags and addresses of symbols in the fixed set.

use objects::Object;
use std::path::Path;

const NON_INTERPOSABLE: u8 = 1;
const ABSOLUTE: u8 = 2;
const DYNAMIC: u8 = 4;
const IFUNC: u8 = 8;
const FIXED: u8 = NON_INTERPOSABLE | ABSOLUTE;

fn read(names: &[&str]) -> Vec<Object> {
    let folder = Path::new(env!("CARGO_MANIFEST_DIR")).join("data");
    let read = |name| objects::read_file(&folder.join(name)).expect("a file of the fixed set");
    names.iter().flat_map(read).collect()
}

/// The flags and address of each relocation against a symbol, which must be the same for all.
fn resolved(objects: &[Object], name: &str, output_kind: u8) -> (u8, u64) {
    let mut found = Vec::new();
    for linked in objects::link(objects, output_kind) {
        for relocation in &linked.section.relocations {
            let symbol = &linked.object.symbols[relocation.symbol as usize];
            let is_its =
                |offset, r_type| (offset, r_type) == (relocation.offset, relocation.r_type);
            let mut records = linked.records.iter();
            let record = records.find(|it| is_its(it.offset, it.r_type)).unwrap();
            if symbol.name == name {
                found.push((record.flags, record.address));
            }
        }
    }
    found.dedup();
    assert_eq!(found.len(), 1, "{name}");
    found[0]
}

/// The flags for output kinds 0 to 5.
fn flags(objects: &[Object], name: &str) -> [u8; 6] {
    [0, 1, 2, 3, 4, 5].map(|output_kind| resolved(objects, name, output_kind).0)
}

#[test]
fn defined_symbols() {
    let objects = read(&["code-gcc-pic.o", "ifunc-gcc-pic.o"]);
    let executables = |flags| {
        [
            flags,
            flags,
            flags,
            flags,
            flags & !NON_INTERPOSABLE,
            flags & !NON_INTERPOSABLE,
        ]
    };
    assert_eq!(flags(&objects, "global"), executables(NON_INTERPOSABLE));
    assert_eq!(flags(&objects, "protected_one"), [NON_INTERPOSABLE; 6]);
    assert_eq!(flags(&objects, "hidden"), [NON_INTERPOSABLE; 6]);
    assert_eq!(
        flags(&objects, "indirect"),
        executables(NON_INTERPOSABLE | IFUNC)
    );
    assert_eq!(
        flags(&objects, "local_indirect"),
        [NON_INTERPOSABLE | IFUNC; 6]
    );
}

#[test]
fn undefined_symbols() {
    let objects = read(&["sequences.o"]);
    let expected = [FIXED, FIXED, DYNAMIC, DYNAMIC, DYNAMIC, 0];
    assert_eq!(flags(&objects, "nowhere"), expected);
    assert_eq!(flags(&objects, "elsewhere"), expected);
    assert_eq!(
        flags(&objects, "hidden_nowhere"),
        [FIXED, FIXED, FIXED, FIXED, FIXED, 0]
    );
}

#[test]
fn absolute_symbols() {
    let objects = read(&["sequences.o", "absolute.o"]);
    let expected = [FIXED, FIXED, FIXED, FIXED, ABSOLUTE, ABSOLUTE];
    assert_eq!(flags(&objects, "far_absolute"), expected);
    assert_eq!(resolved(&objects, "far_absolute", 0), (FIXED, 1 << 32));
    assert_eq!(
        resolved(&objects, "negative_absolute", 1),
        (FIXED, 2u64.wrapping_neg())
    );
}

#[test]
fn addresses() {
    let objects = read(&["sequences.o"]);
    let [fixed, position_independent] = [0, 1].map(|kind| resolved(&objects, "start", kind).1);
    assert_eq!((fixed, position_independent), (0x400000, 0));
}

/// The sections' sizes, by readelf, added up; .tdata is the last, and the thread pointer its end.
#[test]
fn places_of_sections() {
    let objects = read(&["sequences.o"]);
    let expected = [0, 0x30f, 0x38d, 0x404, 0x406, 0x408];
    for (kind, base) in [(0, 0x400000), (1, 0)] {
        let linked = objects::link(&objects, kind);
        let found: Vec<u64> = linked.iter().map(|it| it.address - base).collect();
        assert_eq!(found, expected);
        assert!(linked.iter().all(|it| it.thread_pointer - base == 0x41c));
    }
}

#[test]
fn the_first_definition_wins_and_a_strong_one_a_common_one() {
    let common = read(&["code-gcc-pic-common.o"]);
    let alone = resolved(&common, "common_or_bss", 0);
    let both = read(&["code-gcc-pic-common.o", "code-gcc-pic.o"]);
    let strong = read(&["code-gcc-pic.o"]);
    let bss = |objects: &[Object], place: usize| {
        let symbols = &objects[place].symbols;
        symbols
            .iter()
            .find(|it| it.name == "common_or_bss")
            .unwrap()
            .place
    };
    assert_eq!(bss(&common, 0), objects::Place::Common);
    assert_eq!(bss(&strong, 0), bss(&both, 1));
    assert_ne!(resolved(&both, "common_or_bss", 0), alone);
    assert_eq!(resolved(&both, "global", 0), resolved(&common, "global", 0));
}

#[test]
fn records_are_in_the_order_of_their_offsets() {
    let mut objects = read(&["code-gcc-pic.o"]);
    for section in &mut objects[0].sections {
        section.relocations.reverse();
    }
    for (_, records) in objects::records(&objects, 0) {
        assert!(records.is_sorted_by_key(|record| record.offset));
    }
}

//! Filling a field: document 02's numbers, the order of the refusals, and what relaxing and a step leave to fill.

use crate::bytes;
use crate::record;
use jitamoro::Field;
use jitamoro::Fill;
use jitamoro::Pass;
use jitamoro::Record;
use jitamoro::Refusal;
use jitamoro::fill;
use jitamoro::relax;
use jitamoro::relocation_from_raw;

/// A field at an offset, with place and addend 0.
fn field(relocation_kind: u32, offset_in_section: u64, value: i64) -> Field {
    Field {
        relocation_kind,
        offset_in_section,
        place: 0,
        value: value as u64,
        addend: 0,
    }
}

/// Fills a field among bytes A5 and compares the answer and every byte: `written` stands at the offset.
#[track_caller]
fn check(field: Field, length: usize, answer: Result<Fill, Refusal>, written: &[u8]) {
    let mut section = vec![0xa5; length];
    let mut expected = section.clone();
    assert_eq!(fill(&field, &mut section), answer, "{field:?}");
    if answer == Ok(Fill::Filled) {
        let at = field.offset_in_section as usize;
        expected[at..at + written.len()].copy_from_slice(written);
    }
    assert_eq!(section, expected, "{field:?}");
}

#[test]
fn ends_of_the_ranges() {
    let far = Err(Refusal::ValueOutOfRange);
    let filled = |r_type, value: i64| {
        let low = &value.to_le_bytes()[..4];
        check(field(r_type, 3, value), 8, Ok(Fill::Filled), low);
    };
    for r_type in [2, 11, 23] {
        for value in [i64::from(i32::MIN), -1, 0, i64::from(i32::MAX)] {
            filled(r_type, value);
        }
        for value in [1 << 31, -(1 << 31) - 1, 1 << 32, i64::MIN, i64::MAX] {
            check(field(r_type, 3, value), 8, far, &[]);
        }
    }
    for value in [0, i64::from(u32::MAX)] {
        filled(10, value);
    }
    for value in [-1, 1 << 32, i64::MIN, i64::MAX] {
        check(field(10, 3, value), 8, far, &[]);
    }
}

/// The types that are filled; one that isn't known, and one that is left alone.
const FILLED: [u32; 4] = [2, 10, 11, 23];
const UNKNOWN: [u32; 1] = [52];
const ALL: [u32; 6] = [2, 10, 11, 23, 52, 4];

/// Each refusal with all that come after it.
#[test]
fn order() {
    let mut long = vec![0; 268_435_457];
    for r_type in ALL {
        let refused = fill(&field(r_type, u64::MAX, i64::MIN), &mut long);
        assert_eq!(refused, Err(Refusal::SectionTooLong));
    }
    assert!(long.iter().all(|&byte| byte == 0));
    for (r_types, offset, refusal) in [
        (&ALL[..], u64::MAX, Refusal::OffsetAboveLength),
        (&ALL, 9, Refusal::OffsetAboveLength),
        (&UNKNOWN, 8, Refusal::UnknownType),
        (&FILLED, 8, Refusal::FieldNotInside),
        (&FILLED, 5, Refusal::FieldNotInside),
        (&FILLED, 4, Refusal::ValueOutOfRange),
    ] {
        for &r_type in r_types {
            check(field(r_type, offset, i64::MIN), 8, Err(refusal), &[]);
        }
    }
    for r_type in FILLED {
        check(field(r_type, 4, 0), 8, Ok(Fill::Filled), &[0; 4]);
    }
}

/// Types that are known and not filled, with no test of field or value.
#[test]
fn other_types() {
    let known = (0..64).filter(|&r_type| relocation_from_raw(r_type).is_ok());
    let others: Vec<u32> = known.filter(|r_type| !FILLED.contains(r_type)).collect();
    assert_eq!(others.len(), 35);
    for r_type in others {
        for (offset, length, value) in [(0, 0, i64::MIN), (5, 8, 0), (4, 8, i64::MIN), (4, 8, 0)] {
            check(field(r_type, offset, value), length, Ok(Fill::Nothing), &[]);
        }
    }
}

/// The sum may wrap on the way; the place counts for type 2 alone.
#[test]
fn sums() {
    let at = |relocation_kind, place, value, addend| Field {
        relocation_kind,
        offset_in_section: 0,
        place,
        value,
        addend,
    };
    check(at(10, 7, u64::MAX, 5), 4, Ok(Fill::Filled), &[4, 0, 0, 0]);
    check(at(11, u64::MAX, 3, -4), 4, Ok(Fill::Filled), &[0xff; 4]);
    check(
        at(2, 7, 3, -4),
        4,
        Ok(Fill::Filled),
        &[0xf8, 0xff, 0xff, 0xff],
    );
    check(at(2, u64::MAX, 0, 0), 4, Ok(Fill::Filled), &[1, 0, 0, 0]);
    check(
        at(23, 7, 0, i64::MIN),
        4,
        Err(Refusal::ValueOutOfRange),
        &[],
    );
}

/// Relaxed and filled, in a section that is loaded at 0x401000.
#[track_caller]
fn check_relaxed(record: Record, value: u64, section: &str, expected: &str) {
    let mut section = bytes(section);
    let relaxed = relax(&record, &mut section).unwrap().unwrap();
    let field = relaxed.field_in(0x401000, value);
    assert_eq!(fill(&field, &mut section), Ok(Fill::Filled));
    assert_eq!(section, bytes(expected), "{record:?}");
}

/// The worked instances of same meaning: plant one, plant two, a variable of a thread, a call, a jmp.
#[test]
fn relaxed_records() {
    let (mov, branch) = (record(42, 3, 1, 0), record(41, 2, 1, 1));
    check_relaxed(
        mov,
        0x402000,
        "48 8B 2D 10 00 00 00",
        "48 C7 C5 00 20 40 00",
    );
    check_relaxed(
        mov,
        0x402000,
        "4C 8B 2D 10 00 00 00",
        "49 C7 C5 00 20 40 00",
    );
    let add = record(22, 3, 1, 2);
    check_relaxed(
        add,
        -8i64 as u64,
        "4C 03 25 10 00 00 00",
        "49 81 C4 F8 FF FF FF",
    );
    check_relaxed(branch, 0x402000, "FF 15 10 00 00 00", "67 E8 FA 0F 00 00");
    check_relaxed(branch, 0x402000, "FF 25 10 00 00 00", "E9 FB 0F 00 00 90");
}

/// The fields that a pass's steps leave: relaxing's, none of the call that is skipped, and a record's own, in a section
/// at 0x401000.
#[test]
fn steps() {
    let mut section = bytes("66 48 8D 3D 00 00 00 00 66 66 48 E8 00 00 00 00 00 00 00 00");
    let own = Record {
        rel_addend: 8,
        ..record(2, 16, 1, 0)
    };
    let (sequence, call) = (record(19, 4, 1, 0), record(2, 12, 1, 0));
    let mut pass = Pass::fresh();
    let walk = [
        (
            sequence,
            -16i64 as u64,
            Some("R_X86_64_TPOFF32 at offset 0xc"),
        ),
        (call, 0x402000, None),
        (own, 0x402000, Some("R_X86_64_PC32 at offset 0x10")),
    ];
    for (record, value, expected) in walk {
        let step = pass.step(&record, &mut section).unwrap();
        let field = step.field_in(&record, 0x401000, value);
        assert_eq!(field.map(|it| it.to_string()).as_deref(), expected);
        if let Some(field) = field {
            assert_eq!(fill(&field, &mut section), Ok(Fill::Filled));
        }
    }
    let expected = "64 48 8B 04 25 00 00 00 00 48 8D 80 F0 FF FF FF F8 0F 00 00";
    assert_eq!(section, bytes(expected));
}

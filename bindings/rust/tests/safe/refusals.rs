//! Every refusal, with nothing changed that was lent. Those of a pass stand in `pass`; 9 in `worked`.

use crate::choose;
use crate::record;
use jitamoro::OutputKind;
use jitamoro::Pass;
use jitamoro::Record;
use jitamoro::Refusal;
use jitamoro::RelaxationKind;
use jitamoro::Step;
use jitamoro::ValueFlags;
use jitamoro::relax;
use jitamoro::write_plt_entry;

const MOST: usize = 268_435_456;

/// Rewriting alone, of which a refusal must leave offset and addend as they are.
fn apply(kind: RelaxationKind, section: &mut [u8], offset: u64) -> Result<(), Refusal> {
    let (mut offset_after, mut addend) = (offset, -4);
    let answer = kind.apply(section, &mut offset_after, &mut addend);
    if answer.is_err() {
        assert_eq!((offset_after, addend), (offset, -4));
    }
    answer
}

/// The answers of choosing, relaxing, a step and rewriting, less what was done.
fn answers(record: &Record, section: &mut [u8]) -> [Result<(), Refusal>; 4] {
    [
        choose(record, section).map(drop),
        relax(record, section).map(drop),
        Pass::fresh().step(record, section).map(drop),
        apply(RelaxationKind::NoOp, section, record.offset_in_section),
    ]
}

#[test]
fn section_too_long() {
    let mut section = vec![0; MOST + 1];
    let record = record(35, 0, 0, 0);
    let refused = Err(Refusal::SectionTooLong);
    assert_eq!(answers(&record, &mut section), [refused; 4]);
    // Refusal 1 comes before 2.
    let past = crate::record(35, u64::MAX, 0, 0);
    assert_eq!(answers(&past, &mut section), [refused; 4]);
    let zeros = [0; 4096];
    assert!(
        section
            .chunks(4096)
            .all(|chunk| chunk == &zeros[..chunk.len()])
    );
    assert_eq!(answers(&record, &mut section[..MOST]), [Ok(()); 4]);
}

#[test]
fn offset_above_the_length() {
    let mut section = *b"\xff\x10\0";
    let refused = Err(Refusal::OffsetAboveLength);
    assert_eq!(answers(&record(4, 4, 1, 0), &mut section), [refused; 4]);
    assert_eq!(
        answers(&record(4, u64::MAX, 1, 0), &mut section),
        [refused; 4]
    );
    assert_eq!(answers(&record(4, 3, 1, 0), &mut section), [Ok(()); 4]);
    assert_eq!(section, *b"\xff\x10\0");
}

#[test]
fn numbers_of_no_flags_and_no_output_kind() {
    assert_eq!(ValueFlags::from_number(16), Err(Refusal::FlagNumber));
    assert_eq!(ValueFlags::from_number(255), Err(Refusal::FlagNumber));
    assert_eq!(OutputKind::from_number(6), Err(Refusal::OutputKindNumber));
    assert_eq!(OutputKind::from_number(255), Err(Refusal::OutputKindNumber));
}

#[test]
fn instruction_offsets() {
    let allowed = |number, inst_offset| match number {
        3 => [3, 4, 6].contains(&inst_offset),
        4 => inst_offset == 3,
        2 | 5 | 6 | 16 => [3, 4].contains(&inst_offset),
        _ => true,
    };
    let before = [0x48, 0x8b, 0x2d, 0x48, 0x8b, 0x2d, 0, 0];
    for (number, inst_offset) in (0..19).flat_map(|n| (0..=255).map(move |i| (n, i))) {
        // Long enough for each kind's window around offset 8.
        let mut section = [before, before, before, before].concat();
        let untouched = section.clone();
        let kind = RelaxationKind::from_number(number, inst_offset).unwrap();
        let answer = apply(kind, &mut section, 8);
        if allowed(number, inst_offset) {
            assert_eq!(answer, Ok(()), "{kind:?}");
        } else {
            assert_eq!(answer, Err(Refusal::InstructionOffset), "{kind:?}");
            assert_eq!(section, untouched, "{kind:?}");
        }
    }
}

#[test]
fn window_not_inside() {
    let refused = Err(Refusal::WindowNotInside);
    let record = record(35, 1, 0, 0);
    let mut section = *b"\xff\x10";
    assert_eq!(relax(&record, &mut section), Err(Refusal::WindowNotInside));
    assert_eq!(
        apply(RelaxationKind::SkipTlsDescCall, &mut section, 1),
        refused
    );
    assert_eq!(
        apply(RelaxationKind::MovIndirectToLea, &mut section, 1),
        refused
    );
    let mut pass = Pass::fresh();
    let step = pass.step(&record, &mut section);
    assert_eq!(step, Err(Refusal::WindowNotInside));
    assert_eq!(pass, Pass::fresh());
    assert_eq!(section, *b"\xff\x10");
    let step = pass.step(&crate::record(35, 0, 0, 0), &mut section);
    assert!(matches!(step, Ok(Step::Relaxed(_))));
    assert_eq!(section, *b"\x66\x90");
}

#[test]
fn plt_buffer_of_another_size() {
    for length in [0, 15, 17] {
        let mut entry = vec![0xaa; length];
        let answer = write_plt_entry(&mut entry, 0x404000, 0x401020);
        assert_eq!(answer, Err(Refusal::PltEntrySize));
        assert_eq!(entry, vec![0xaa; length]);
    }
}

//! Document 01's worked records, and its sample of a case file. An answer is typed as a line of the case
//! program: kind, instruction offset, offset, addend, new type, skip, mandatory, section.

use crate::bytes;
use crate::choose;
use crate::record;
use jitamoro::AllowedRange;
use jitamoro::Record;
use jitamoro::Refusal;
use jitamoro::Relaxation;
use jitamoro::RelocationKind;
use jitamoro::RelocationModifier;
use jitamoro::RelocationSize;
use jitamoro::fill_section_padding;
use jitamoro::relax;
use jitamoro::relocation_from_raw;
use jitamoro::write_plt_entry;

type Answer = Result<Option<(Relaxation, u64, i64)>, Refusal>;

fn line(answer: Answer, section: &[u8]) -> String {
    let hex: String = section.iter().map(|byte| format!("{byte:02x}")).collect();
    match answer {
        Err(refusal) => format!("refused {} {hex}", refusal.number()),
        Ok(None) => format!("none {hex}"),
        Ok(Some((relaxation, offset, addend))) => {
            let kind = relaxation.kind();
            let skip = relaxation.next_modifier() == RelocationModifier::SkipNextRelocation;
            format!(
                "{} {} {offset} {addend} {} {} {} {hex}",
                kind.number(),
                kind.inst_offset(),
                relaxation.new_type(),
                u8::from(skip),
                u8::from(relaxation.is_mandatory()),
            )
        }
    }
}

/// Relaxing in one call.
fn relaxed(record: &Record, section: &mut [u8]) -> Answer {
    let relaxed = relax(record, section)?;
    Ok(relaxed.map(|r| (r.relaxation, r.offset_in_section, r.addend)))
}

/// Choosing, then rewriting.
fn chosen_and_applied(record: &Record, section: &mut [u8]) -> Answer {
    let Some(relaxation) = choose(record, section)? else {
        return Ok(None);
    };
    let (mut offset, mut addend) = (record.offset_in_section, record.rel_addend);
    relaxation.apply(section, &mut offset, &mut addend)?;
    Ok(Some((relaxation, offset, addend)))
}

#[track_caller]
fn check(record: Record, section: &str, expected: &str) {
    for relaxing in [relaxed, chosen_and_applied] {
        let mut section = bytes(section);
        let answer = relaxing(&record, &mut section);
        assert_eq!(line(answer, &section), expected, "{record:?}");
    }
}

fn with_address(record: Record, sym_addr: u64) -> Record {
    Record { sym_addr, ..record }
}

#[test]
fn got_loads() {
    check(record(42, 3, 1, 1), "48 8B 2D", "0 0 3 -4 2 0 1 488d2d");
    check(record(42, 3, 3, 1), "48 8B 2D", "2 3 3 0 11 0 1 48c7c5");
    for flags in [1, 3] {
        let record = Record {
            rel_addend: -3,
            ..record(42, 3, flags, 1)
        };
        check(record, "48 8B 2D", "none 488b2d");
    }
    check(
        record(43, 4, 3, 1),
        "D5 48 8B 2D",
        "2 4 4 0 11 0 1 d518c7c5",
    );
    check(
        record(43, 4, 3, 1),
        "90 48 8B 2D",
        "2 4 4 0 11 0 1 9018c7c5",
    );
}

#[test]
fn ends_of_the_ranges() {
    let rex = |address| with_address(record(42, 3, 3, 1), address);
    check(rex(2_147_483_647), "48 8B 2D", "2 3 3 0 11 0 1 48c7c5");
    check(rex(2_147_483_648), "48 8B 2D", "none 488b2d");
    let plain = |address| with_address(record(41, 2, 3, 1), address);
    check(plain(4_294_967_295), "8B 2D", "1 0 2 0 10 0 1 c7c5");
    check(plain(4_294_967_296), "8B 2D", "none 8b2d");
}

#[test]
fn jumps_descriptors_and_adds() {
    check(
        record(41, 2, 1, 1),
        "FF 25 00 00 00 00",
        "8 0 1 -4 2 0 1 e90000000090",
    );
    check(
        record(41, 2, 1, 1),
        "FF 25 00 00 00",
        "refused 6 ff25000000",
    );
    check(record(35, 0, 0, 3), "FF 10", "18 0 0 -4 0 0 0 6690");
    check(record(35, 0, 0, 3), "FF", "refused 6 ff");
    check(record(22, 3, 1, 2), "4C 03 25", "3 3 3 0 23 0 0 4981c4");
    check(
        record(50, 6, 1, 0),
        "62 74 FC 10 03 25",
        "3 6 6 0 23 0 1 62d4fc1081c4",
    );
}

#[test]
fn case_file_sample() {
    let plant_two = with_address(record(42, 3, 1, 0), 0x401000);
    check(
        plant_two,
        "4C 8B 2D 00 00 00 00",
        "2 3 3 0 11 0 0 49c7c500000000",
    );
    let ifunc = Record {
        executable: false,
        ..record(2, 0, 8, 4)
    };
    check(ifunc, "", "9 0 0 -4 4 0 1 ");
}

/// But for ifuncs, as in the sample, which are asked first.
#[test]
fn not_executable() {
    let data = |record| Record {
        executable: false,
        ..record
    };
    check(data(record(42, 3, 1, 1)), "48 8B 2D", "none 488b2d");
    check(data(record(4, 0, 1, 0)), "", "none ");
    check(record(4, 0, 1, 0), "", "9 0 0 -4 2 0 1 ");
}

const TEMPLATE: &str = "F3 0F 1E FA FF 25 00 00 00 00 66 0F 1F 44 00 00";

#[track_caller]
fn check_plt(got: u64, plt: u64, answer: Result<(), Refusal>, field: &str) {
    let mut entry = [0xaa; 16];
    assert_eq!(write_plt_entry(&mut entry, got, plt), answer);
    let mut expected = bytes(TEMPLATE);
    expected[6..10].copy_from_slice(&bytes(field));
    assert_eq!(entry[..], expected);
}

#[test]
fn plt_entries() {
    check_plt(0x404000, 0x401020, Ok(()), "D6 2F 00 00");
    let next = 0x401020 + 10;
    check_plt(next + 2_147_483_647, 0x401020, Ok(()), "FF FF FF 7F");
    check_plt(
        next + 2_147_483_648,
        0x401020,
        Err(Refusal::PltOutOfReach),
        "00 00 00 00",
    );
}

#[test]
fn lookups() {
    let got64 = relocation_from_raw(27).unwrap();
    assert_eq!(got64.kind, RelocationKind::GotRelGotBase);
    assert_eq!(got64.size, RelocationSize::ByteSize(8));
    assert_eq!(got64.range, AllowedRange::no_check());
    assert!(got64.range.contains(i64::MIN) && got64.range.contains(i64::MAX));
    for unknown in [28, 52, u32::MAX] {
        assert_eq!(relocation_from_raw(unknown), Err(Refusal::UnknownType));
    }
    let known = (0..64).filter(|&r_type| relocation_from_raw(r_type).is_ok());
    let types = [0..=4, 9..=15, 17..=17, 19..=27, 29..=29, 31..=35, 41..=51];
    assert!(known.eq(types.into_iter().flatten()));
}

#[test]
fn ranges_of_document_01() {
    for r_type in [2, 11, 23] {
        let range = relocation_from_raw(r_type).unwrap().range;
        assert_eq!(range, AllowedRange::new(-2_147_483_648, 2_147_483_648));
    }
    let range = relocation_from_raw(10).unwrap().range;
    assert_eq!(range, AllowedRange::new(0, 4_294_967_296));
    for (value, inside) in [
        (-1, false),
        (0, true),
        (4_294_967_295, true),
        (4_294_967_296, false),
    ] {
        assert_eq!(range.contains(value), inside, "{value}");
    }
}

#[test]
fn padding() {
    for (executable, byte) in [(true, 0xcc), (false, 0)] {
        let mut buf = [0xaa; 5];
        fill_section_padding(&mut buf[1..4], executable);
        assert_eq!(buf, [0xaa, byte, byte, byte, 0xaa]);
    }
}

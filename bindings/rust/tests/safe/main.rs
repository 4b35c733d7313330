//! The safe layer against document 01: its worked records, refusals and numbers, walks of a pass and their tally, and
//! fields filled. Declarations, numbers and texts against the header; the build script.

#![forbid(unsafe_code)]

mod build_script;
mod fill;
mod header_texts;
mod header_types;
mod kinds;
mod numbers;
mod pass;
mod refusals;
mod tally;
mod version;
mod wild_md;
mod worked;

use jitamoro::OutputKind;
use jitamoro::Record;
use jitamoro::ValueFlags;

/// A record with document 01's numbers: executable, addend −4, address 0.
fn record(relocation_kind: u32, offset_in_section: u64, flags: u8, output_kind: u8) -> Record {
    Record {
        relocation_kind,
        offset_in_section,
        flags: ValueFlags::from_number(flags).unwrap(),
        output_kind: OutputKind::from_number(output_kind).unwrap(),
        executable: true,
        sym_addr: 0,
        rel_addend: -4,
    }
}

/// The bytes of hexadecimal digits, with or without spaces.
fn bytes(hex: &str) -> Vec<u8> {
    let digits: Vec<u32> = hex.chars().filter_map(|c| c.to_digit(16)).collect();
    let byte = |pair: &[u32]| u8::try_from(pair[0] * 16 + pair[1]).unwrap();
    digits.chunks(2).map(byte).collect()
}

/// Choosing alone, by the loose arguments.
fn choose(
    record: &Record,
    section: &[u8],
) -> Result<Option<jitamoro::Relaxation>, jitamoro::Refusal> {
    jitamoro::new_relaxation(
        record.relocation_kind,
        section,
        record.offset_in_section,
        record.flags,
        record.output_kind,
        record.executable,
        record.sym_addr,
        record.rel_addend,
    )
}

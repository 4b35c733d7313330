//! Relaxes `mov x@GOTPCREL(%rip), %r13`, where the linker knows the address of x, and fills the field; then the same
//! with an addend that nothing is chosen for, and in a section that was cut, as a linker would report it.

use jitamoro::Fill;
use jitamoro::OutputKind;
use jitamoro::Record;
use jitamoro::Refusal;
use jitamoro::RelocationModel;
use jitamoro::ValueFlags;
use jitamoro::elf;
use jitamoro::fill;
use jitamoro::relax;

/// Where the section is loaded.
const SECTION: u64 = 0x400000;

/// Relaxes a record, tells what was done, and fills the field with a symbol's value.
fn relax_and_fill(record: &Record, value: u64, section: &mut [u8]) -> Result<Fill, Refusal> {
    let (what, field) = match relax(record, section)? {
        Some(relaxed) => {
            let kind = relaxed.relaxation.kind();
            (kind.to_string(), relaxed.field_in(SECTION, value))
        }
        None => ("none".to_string(), record.field_in(SECTION, value)),
    };
    println!("{what}: {section:02x?}, {field}, addend {}", field.addend);
    fill(&field, section)
}

fn main() {
    let record = Record {
        relocation_kind: elf::R_X86_64_REX_GOTPCRELX,
        offset_in_section: 3,
        flags: ValueFlags::NON_INTERPOSABLE,
        output_kind: OutputKind::StaticExecutable(RelocationModel::Fixed),
        executable: true,
        sym_addr: 0x401000,
        rel_addend: -4,
    };
    let other = Record {
        rel_addend: -3,
        ..record
    };
    let whole = [0x4c, 0x8b, 0x2d, 0, 0, 0, 0];
    // The value is the symbol's address: such a load becomes R_X86_64_PC32 or 32S. R_X86_64_TPOFF32 takes the offset from
    // the thread pointer.
    for (record, length) in [(record, 7), (other, 7), (record, 2)] {
        let mut section = whole[..length].to_vec();
        match relax_and_fill(&record, record.sym_addr, &mut section) {
            Ok(Fill::Filled) => println!("filled: {section:02x?}"),
            Ok(Fill::Nothing) => println!("not filled here"),
            Err(refusal) => println!("error: plant.o: .text: relocation {record}: {refusal}"),
        }
    }
}

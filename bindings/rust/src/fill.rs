//! elf.rs: `RelocationKindInfo::write_to_buffer`, with what its callers do around it: a field's value and its place.

use crate::elf_x86_64::Record;
use crate::elf_x86_64::Relaxed;
use crate::elf_x86_64::write_place;
use crate::pass::Step;
use crate::refusal::Refusal;
use crate::refusal::check;
use crate::sys;
use core::fmt;

/// A field to fill. [`Step::field_in`], [`Relaxed::field_in`] and [`Record::field_in`] make one of what a step or
/// relaxing answered.
#[derive(Debug, Clone, Copy, PartialEq, Eq)]
pub struct Field {
    /// The relocation type that fills it.
    pub relocation_kind: u32,
    /// Where it lies in the section.
    pub offset_in_section: u64,
    /// Its address in the program, which counts for [`R_X86_64_PC32`](crate::elf::R_X86_64_PC32) alone. It is taken as
    /// given, and not computed from the offset.
    pub place: u64,
    /// The symbol's address; for [`R_X86_64_TPOFF32`](crate::elf::R_X86_64_TPOFF32) its offset from the thread pointer,
    /// modulo 2^64.
    pub value: u64,
    /// What is added to the value.
    pub addend: i64,
}

/// Which field, for messages: "R_X86_64_TPOFF32 at offset 0xc".
impl fmt::Display for Field {
    fn fmt(&self, f: &mut fmt::Formatter<'_>) -> fmt::Result {
        write_place(f, self.relocation_kind, self.offset_in_section)
    }
}

/// What filling did.
#[derive(Debug, Clone, Copy, PartialEq, Eq)]
#[must_use]
pub enum Fill {
    /// The field's four bytes were written.
    Filled,
    /// The type is none of the four that are filled, and nothing was written: the field is the linker's to fill.
    Nothing,
}

impl Field {
    /// In a section at an address.
    const fn new(now: (u32, u64, i64), section_address: u64, value: u64) -> Self {
        let (relocation_kind, offset_in_section, addend) = now;
        Self {
            relocation_kind,
            offset_in_section,
            place: section_address.wrapping_add(offset_in_section),
            value,
            addend,
        }
    }
}

impl Relaxed {
    /// The field that is to be filled now, by the address of the section in the program and the symbol's value
    /// ([`Field::value`]).
    #[must_use]
    pub const fn field_in(&self, section_address: u64, value: u64) -> Field {
        let now = (
            self.relaxation.new_type(),
            self.offset_in_section,
            self.addend,
        );
        Field::new(now, section_address, value)
    }
}

impl Record {
    /// The field that is to be filled where nothing was relaxed, as [`Relaxed::field_in`]. Not of a record that a pass
    /// skipped: its call is gone, and its field may lie in another's ([`Step::field_in`]).
    #[must_use]
    pub const fn field_in(&self, section_address: u64, value: u64) -> Field {
        let now = (
            self.relocation_kind,
            self.offset_in_section,
            self.rel_addend,
        );
        Field::new(now, section_address, value)
    }
}

impl Step {
    /// The field that is to be filled after a record's step, as [`Relaxed::field_in`]; none where the record was
    /// skipped.
    #[must_use]
    pub const fn field_in(
        &self,
        record: &Record,
        section_address: u64,
        value: u64,
    ) -> Option<Field> {
        match self {
            Self::Nothing => Some(record.field_in(section_address, value)),
            Self::Relaxed(relaxed) => Some(relaxed.field_in(section_address, value)),
            Self::Skipped => None,
        }
    }
}

/// Fills a field of type R_X86_64_PC32, 32, 32S or TPOFF32: the value plus the addend, for PC32 less the place, both
/// wrapping; four bytes, low byte first. Other types that [`relocation_from_raw`](crate::relocation_from_raw) knows are
/// [`Fill::Nothing`], with no look at field or value.
///
/// ```
/// # use jitamoro::{Fill, OutputKind, Record, RelocationModel, ValueFlags, elf, fill, relax};
/// let mut section = [0xff, 0x15, 0, 0, 0, 0]; // call *x@GOTPCREL(%rip), loaded at 0x401000
/// let record = Record {
///     relocation_kind: elf::R_X86_64_GOTPCRELX,
///     offset_in_section: 2,
///     flags: ValueFlags::NON_INTERPOSABLE,
///     output_kind: OutputKind::StaticExecutable(RelocationModel::Fixed),
///     executable: true,
///     sym_addr: 0x402000,
///     rel_addend: -4,
/// };
/// let relaxed = relax(&record, &mut section)?.expect("a relaxation");
/// let field = relaxed.field_in(0x401000, record.sym_addr); // R_X86_64_PC32 takes the symbol's address
/// assert_eq!(fill(&field, &mut section)?, Fill::Filled);
/// assert_eq!(section, [0x67, 0xe8, 0xfa, 0x0f, 0, 0]); // addr32 call x
/// # Ok::<(), jitamoro::Refusal>(())
/// ```
///
/// # Errors
/// [`Refusal::SectionTooLong`], [`Refusal::OffsetAboveLength`], [`Refusal::UnknownType`], [`Refusal::FieldNotInside`],
/// [`Refusal::ValueOutOfRange`]; nothing is changed then.
#[inline]
pub fn fill(field: &Field, section_bytes: &mut [u8]) -> Result<Fill, Refusal> {
    let answer = sys::fill(
        field.relocation_kind,
        section_bytes,
        field.offset_in_section,
        field.place,
        field.value,
        field.addend,
    );
    check(answer.refusal)?;
    Ok(match answer.filled {
        true => Fill::Filled,
        false => Fill::Nothing,
    })
}

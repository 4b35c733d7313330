//! elf_x86_64.rs: choosing and carrying out a relaxation, PLT entries and padding.

use crate::elf::x86_64_rel_type_name;
use crate::numbered::answered;
use crate::output_kind::OutputKind;
use crate::refusal::Refusal;
use crate::refusal::check;
use crate::relocation::RelocationKindInfo;
use crate::sys;
use crate::value_flags::ValueFlags;
use crate::x86_64::RelaxationKind;
use crate::x86_64::RelocationModifier;
use crate::x86_64::relocation_from_raw;
use core::fmt;

/// A relocation record, with what relaxing asks of its symbol, section and output.
#[derive(Debug, Clone, Copy, PartialEq, Eq)]
pub struct Record {
    /// The relocation type, as [`R_X86_64_PC32`](crate::elf::R_X86_64_PC32).
    pub relocation_kind: u32,
    /// Where the field lies in the section.
    pub offset_in_section: u64,
    /// The symbol's flags.
    pub flags: ValueFlags,
    /// What is being linked.
    pub output_kind: OutputKind,
    /// Whether the section is executable.
    pub executable: bool,
    /// The symbol's address.
    pub sym_addr: u64,
    /// The record's addend.
    pub rel_addend: i64,
}

/// Which record, for messages: "R_X86_64_TLSGD at offset 0x4", or "type 52 at offset 0x4" where the type has no
/// name.
impl fmt::Display for Record {
    fn fmt(&self, f: &mut fmt::Formatter<'_>) -> fmt::Result {
        write_place(f, self.relocation_kind, self.offset_in_section)
    }
}

/// A relocation's type and where it lies.
pub(crate) fn write_place(f: &mut fmt::Formatter<'_>, r_type: u32, offset: u64) -> fmt::Result {
    match x86_64_rel_type_name(r_type) {
        Some(name) => f.write_str(name)?,
        None => write!(f, "type {r_type}")?,
    }
    write!(f, " at offset {offset:#x}")
}

/// Calls a function of `sys` with what else is lent, a record's numbers and a section.
macro_rules! ask {
    ($function:path, $record:expr, $section:expr $(, $lent:expr)*) => {
        $function(
            $($lent,)*
            $record.relocation_kind,
            $section,
            $record.offset_in_section,
            $record.flags.number(),
            $record.output_kind.number(),
            $record.executable,
            $record.sym_addr,
            $record.rel_addend,
        )
    };
}
pub(crate) use ask;

/// A relaxation that was chosen.
#[derive(Debug, Clone, Copy, PartialEq, Eq)]
pub struct Relaxation {
    kind: RelaxationKind,
    new_type: u32,
    mandatory: bool,
    skip_next: bool,
    needs_got_fallback: bool,
}

impl Relaxation {
    /// The relaxation of a choice, or none.
    fn from_answer(answer: &sys::ChoiceAnswer) -> Result<Option<Self>, Refusal> {
        check(answer.refusal)?;
        if !answer.chosen {
            return Ok(None);
        }
        let kind = RelaxationKind::from_number(answer.kind, answer.inst_offset);
        Ok(Some(Self {
            kind: answered(kind, "relaxation kind", answer.kind),
            new_type: answer.new_type,
            mandatory: answer.mandatory,
            skip_next: answer.skip_next,
            needs_got_fallback: answer.needs_got_fallback,
        }))
    }

    /// How the instruction is rewritten.
    #[must_use]
    pub const fn kind(&self) -> RelaxationKind {
        self.kind
    }

    /// The relocation type that fills the field afterwards.
    #[must_use]
    pub const fn new_type(&self) -> u32 {
        self.new_type
    }

    /// The row of [`Relaxation::new_type`].
    ///
    /// # Panics
    /// Never by the library's contract: every new type is among the 39.
    #[must_use]
    pub fn rel_info(&self) -> RelocationKindInfo {
        relocation_from_raw(self.new_type).expect("the new type should be among the 39")
    }

    /// The kind, for messages.
    #[must_use]
    pub fn debug_kind(&self) -> impl fmt::Debug {
        &self.kind
    }

    /// What becomes of the next relocation.
    #[must_use]
    pub const fn next_modifier(&self) -> RelocationModifier {
        RelocationModifier::from_skip(self.skip_next)
    }

    /// Whether the relaxation has to be carried out.
    #[must_use]
    pub const fn is_mandatory(&self) -> bool {
        self.mandatory
    }

    /// Whether a GOT entry is to be reserved in case the final symbol address prevents this relaxation.
    #[must_use]
    pub const fn needs_got_fallback(&self) -> bool {
        self.needs_got_fallback
    }

    /// Carries the relaxation out, as [`RelaxationKind::apply`] does.
    ///
    /// # Errors
    /// Those of [`RelaxationKind::apply`].
    #[inline]
    pub fn apply(
        &self,
        section_bytes: &mut [u8],
        offset_in_section: &mut u64,
        addend: &mut i64,
    ) -> Result<(), Refusal> {
        self.kind.apply(section_bytes, offset_in_section, addend)
    }
}

/// A relaxation that was carried out, and where the field lies now.
#[derive(Debug, Clone, Copy, PartialEq, Eq)]
pub struct Relaxed {
    /// What was carried out.
    pub relaxation: Relaxation,
    /// Where the field lies now.
    pub offset_in_section: u64,
    /// The field's addend now.
    pub addend: i64,
}

impl Relaxed {
    /// What was carried out, or none.
    pub(crate) fn from_answer(answer: &sys::RelaxedAnswer) -> Result<Option<Self>, Refusal> {
        let relaxation = Relaxation::from_answer(&answer.choice)?;
        Ok(relaxation.map(|relaxation| Self {
            relaxation,
            offset_in_section: answer.offset,
            addend: answer.addend,
        }))
    }
}

/// Chooses a relaxation, or none. The arguments are wild's, less those that x86-64 doesn't ask.
///
/// # Errors
/// [`Refusal::SectionTooLong`], [`Refusal::OffsetAboveLength`].
#[allow(clippy::too_many_arguments)]
#[inline]
pub fn new_relaxation(
    relocation_kind: u32,
    section_bytes: &[u8],
    offset_in_section: u64,
    flags: ValueFlags,
    output_kind: OutputKind,
    executable: bool,
    sym_addr: u64,
    rel_addend: i64,
) -> Result<Option<Relaxation>, Refusal> {
    let record = Record {
        relocation_kind,
        offset_in_section,
        flags,
        output_kind,
        executable,
        sym_addr,
        rel_addend,
    };
    Relaxation::from_answer(&ask!(sys::choose, record, section_bytes))
}

/// Chooses a relaxation and carries it out.
///
/// # Errors
/// [`Refusal::SectionTooLong`], [`Refusal::OffsetAboveLength`], [`Refusal::WindowNotInside`]; nothing
/// is changed then.
#[inline]
pub fn relax(record: &Record, section_bytes: &mut [u8]) -> Result<Option<Relaxed>, Refusal> {
    Relaxed::from_answer(&ask!(sys::relax, record, section_bytes))
}

/// Writes a PLT entry.
///
/// # Errors
/// [`Refusal::PltEntrySize`], nothing changed; [`Refusal::PltOutOfReach`], which leaves the template
/// with an empty field.
#[inline]
pub fn write_plt_entry(
    plt_entry: &mut [u8],
    got_address: u64,
    plt_address: u64,
) -> Result<(), Refusal> {
    check(sys::write_plt_entry(plt_entry, got_address, plt_address))
}

/// Pads with CC in executable sections, 00 elsewhere.
#[inline]
pub fn fill_section_padding(buf: &mut [u8], executable: bool) {
    sys::fill_section_padding(buf, executable);
}

//! What may be asked of wild: its own functions under its own names, with document 01's numbers
//! for output kinds and flags, since wild's types are private to its crate.

use crate::args::RelocationModel::Fixed;
use crate::args::RelocationModel::PositionIndependent;
use crate::elf_x86_64;
use crate::elf_x86_64::ElfX86_64;
use crate::output_kind;
use crate::platform::Arch;
use crate::platform::Relaxation as _;
use crate::value_flags;
use object::elf::RelocationType;
use object::elf::SHF_EXECINSTR;
use object::elf::SectionFlags;
use std::any::type_name;
use std::any::type_name_of_val;
use std::fmt::Debug;
use std::mem::transmute_copy;

pub use crate::error::Result;
pub use linker_utils::elf::AllowedRange;
pub use linker_utils::elf::DynamicRelocationKind;
pub use linker_utils::elf::RelocationKind;
pub use linker_utils::elf::RelocationKindInfo;
pub use linker_utils::elf::RelocationSize;
pub use linker_utils::elf::Sign;
pub use linker_utils::relaxation::RelocationModifier;
pub use linker_utils::x86_64::RelaxationKind;

#[inline]
pub const fn relocation_from_raw(r_type: u32) -> Option<RelocationKindInfo> {
    linker_utils::x86_64::relocation_from_raw(RelocationType(r_type))
}

pub fn x86_64_r_type(kind: DynamicRelocationKind) -> u32 {
    kind.x86_64_r_type().0
}

#[inline]
pub fn write_plt_entry(plt_entry: &mut [u8], got_address: u64, plt_address: u64) -> Result {
    ElfX86_64::write_plt_entry(plt_entry, got_address, plt_address)
}

#[inline]
pub fn fill_section_padding(buf: &mut [u8], executable: bool) {
    ElfX86_64::fill_section_padding(buf, section_flags(executable));
}

/// Wild's choice. The arguments left out are those that it doesn't look at on x86-64.
#[allow(clippy::too_many_arguments)]
#[inline]
pub fn new_relaxation(
    r_type: u32,
    section_bytes: &[u8],
    offset_in_section: u64,
    flags: ValueFlags,
    output_kind: OutputKind,
    executable: bool,
    sym_addr: u64,
    rel_addend: i64,
) -> Option<Relaxation> {
    let choice = ElfX86_64::new_relaxation(
        RelocationType(r_type),
        section_bytes,
        offset_in_section,
        flags.0,
        output_kind.0,
        section_flags(executable),
        None,
        sym_addr,
        0,
        rel_addend,
        None,
    );
    choice.map(Relaxation)
}

pub struct Relaxation(elf_x86_64::Relaxation);

impl Relaxation {
    /// Wild's own kind, which it hands out only as something to print.
    #[inline]
    pub fn kind(&self) -> RelaxationKind {
        let kind = self.0.debug_kind();
        assert!(type_name_of_val(&kind) == type_name::<&RelaxationKind>());
        // SAFETY: the name says that it is a reference to the kind.
        *unsafe { transmute_copy::<_, &RelaxationKind>(&kind) }
    }

    pub fn debug_kind(&self) -> impl Debug {
        self.0.debug_kind()
    }

    #[inline]
    pub fn rel_info(&self) -> RelocationKindInfo {
        self.0.rel_info()
    }

    #[inline]
    pub fn next_modifier(&self) -> RelocationModifier {
        self.0.next_modifier()
    }

    #[inline]
    pub fn is_mandatory(&self) -> bool {
        self.0.is_mandatory()
    }

    #[inline]
    pub fn needs_got_fallback(&self) -> bool {
        self.0.needs_got_fallback()
    }

    #[inline]
    pub fn apply(&self, section_bytes: &mut [u8], offset_in_section: &mut u64, addend: &mut i64) {
        self.0.apply(section_bytes, offset_in_section, addend);
    }
}

fn section_flags(executable: bool) -> SectionFlags {
    if executable {
        SHF_EXECINSTR
    } else {
        SectionFlags(0)
    }
}

/// A public wrapper of one of wild's types, with the predicates named.
macro_rules! wrapper {
    ($name:ident($inner:ty) { $($predicate:ident,)* }) => {
        #[derive(Clone, Copy)]
        pub struct $name($inner);

        impl $name {
            $(pub fn $predicate(self) -> bool {
                self.0.$predicate()
            })*
        }
    };
}

wrapper!(OutputKind(output_kind::OutputKind) {
    is_executable,
    is_static_executable,
    is_position_independent,
    has_fixed_load_address,
});

impl OutputKind {
    /// The output kind that has this number in document 01.
    pub fn from_number(number: u8) -> Option<Self> {
        use output_kind::OutputKind::*;
        let kind = match number {
            0 => StaticExecutable(Fixed),
            1 => StaticExecutable(PositionIndependent),
            2 => DynamicExecutable(Fixed),
            3 => DynamicExecutable(PositionIndependent),
            4 => SharedObject,
            5 => PartialLink,
            _ => return None,
        };
        Some(Self(kind))
    }
}

wrapper!(ValueFlags(value_flags::ValueFlags) {
    is_dynamic,
    is_ifunc,
    has_link_time_address,
    is_absolute,
    is_interposable,
});

impl ValueFlags {
    /// The flags that have this number in document 01, whose bits aren't wild's.
    pub fn from_number(number: u8) -> Option<Self> {
        use value_flags::ValueFlags;
        let flags = [
            (1, ValueFlags::NON_INTERPOSABLE),
            (2, ValueFlags::ABSOLUTE),
            (4, ValueFlags::DYNAMIC),
            (8, ValueFlags::IFUNC),
        ];
        let given = flags.into_iter().filter(|(bit, _)| number & bit != 0);
        (number < 16).then(|| Self(given.fold(ValueFlags::empty(), |sum, (_, flag)| sum | flag)))
    }
}

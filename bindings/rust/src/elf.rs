//! Relocation types by the psABI's names, as `object::elf` has them, and the names of their numbers, as elf.rs gives
//! them.

use core::fmt;

/// Constants in groups, each with its documentation, and the function that gives their names.
macro_rules! relocation_types {
    ($($group:literal: $($name:ident = $number:literal)*;)*) => {
        $($(
            #[doc = concat!("Type ", $number, ". ", $group)]
            pub const $name: u32 = $number;
        )*)*

        /// The psABI's name of a relocation type. 39 and 40, which are no longer in use, have none here.
        #[must_use]
        pub const fn x86_64_rel_type_name(r_type: u32) -> Option<&'static str> {
            match r_type {
                $($($name => Some(stringify!($name)),)*)*
                _ => None,
            }
        }
    };
}

relocation_types! {
    "Has a row in [`relocation_from_raw`](crate::relocation_from_raw).":
        R_X86_64_NONE = 0
        R_X86_64_64 = 1
        R_X86_64_PC32 = 2
        R_X86_64_GOT32 = 3
        R_X86_64_PLT32 = 4
        R_X86_64_GOTPCREL = 9
        R_X86_64_32 = 10
        R_X86_64_32S = 11
        R_X86_64_16 = 12
        R_X86_64_PC16 = 13
        R_X86_64_8 = 14
        R_X86_64_PC8 = 15
        R_X86_64_DTPOFF64 = 17
        R_X86_64_TLSGD = 19
        R_X86_64_TLSLD = 20
        R_X86_64_DTPOFF32 = 21
        R_X86_64_GOTTPOFF = 22
        R_X86_64_TPOFF32 = 23
        R_X86_64_PC64 = 24
        R_X86_64_GOTOFF64 = 25
        R_X86_64_GOTPC32 = 26
        R_X86_64_GOT64 = 27
        R_X86_64_GOTPC64 = 29
        R_X86_64_PLTOFF64 = 31
        R_X86_64_SIZE32 = 32
        R_X86_64_SIZE64 = 33
        R_X86_64_GOTPC32_TLSDESC = 34
        R_X86_64_TLSDESC_CALL = 35
        R_X86_64_GOTPCRELX = 41
        R_X86_64_REX_GOTPCRELX = 42
        R_X86_64_CODE_4_GOTPCRELX = 43
        R_X86_64_CODE_4_GOTTPOFF = 44
        R_X86_64_CODE_4_GOTPC32_TLSDESC = 45
        R_X86_64_CODE_5_GOTPCRELX = 46
        R_X86_64_CODE_5_GOTTPOFF = 47
        R_X86_64_CODE_5_GOTPC32_TLSDESC = 48
        R_X86_64_CODE_6_GOTPCRELX = 49
        R_X86_64_CODE_6_GOTTPOFF = 50
        R_X86_64_CODE_6_GOTPC32_TLSDESC = 51;

    "For a dynamic linker, as [`x86_64_r_type`](crate::DynamicRelocationKind::x86_64_r_type) answers it.":
        R_X86_64_COPY = 5
        R_X86_64_GLOB_DAT = 6
        R_X86_64_JUMP_SLOT = 7
        R_X86_64_RELATIVE = 8
        R_X86_64_DTPMOD64 = 16
        R_X86_64_TPOFF64 = 18
        R_X86_64_TLSDESC = 36
        R_X86_64_IRELATIVE = 37;

    "Nothing is chosen for it, and the lookup refuses it: named for messages.":
        R_X86_64_GOTPCREL64 = 28
        R_X86_64_GOTPLT64 = 30
        R_X86_64_RELATIVE64 = 38;
}

/// A relocation type for messages, in wild's words: its name, or "Unknown x86_64 relocation type 0x34".
///
/// Wild's function of this name answers a `Cow<str>`, which only `alloc` has.
#[must_use]
pub fn x86_64_rel_type_to_string(r_type: u32) -> impl fmt::Display {
    RelType(r_type)
}

struct RelType(u32);

impl fmt::Display for RelType {
    fn fmt(&self, f: &mut fmt::Formatter<'_>) -> fmt::Result {
        match x86_64_rel_type_name(self.0) {
            Some(name) => f.pad(name),
            None => write!(f, "Unknown x86_64 relocation type {:#x}", self.0),
        }
    }
}

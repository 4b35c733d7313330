//! Stands in for `object`: the newtypes and constants of `object::elf` that wild's files name.
//! Numbers are those of the ELF gABI, the x86-64 psABI and `elf.h`.

pub mod elf {
    use std::fmt;

    /// A newtype and its constants.
    macro_rules! newtype {
        ($name:ident($inner:ty) { $($constant:ident = $value:expr,)* }) => {
            #[derive(Debug, Clone, Copy, PartialEq, Eq)]
            pub struct $name(pub $inner);

            $(#[allow(non_upper_case_globals)]
            pub const $constant: $name = $name($value);)*
        };
    }

    newtype!(RelocationType(u32) {
        R_X86_64_NONE = 0,
        R_X86_64_64 = 1,
        R_X86_64_PC32 = 2,
        R_X86_64_GOT32 = 3,
        R_X86_64_PLT32 = 4,
        R_X86_64_COPY = 5,
        R_X86_64_GLOB_DAT = 6,
        R_X86_64_JUMP_SLOT = 7,
        R_X86_64_RELATIVE = 8,
        R_X86_64_GOTPCREL = 9,
        R_X86_64_32 = 10,
        R_X86_64_32S = 11,
        R_X86_64_16 = 12,
        R_X86_64_PC16 = 13,
        R_X86_64_8 = 14,
        R_X86_64_PC8 = 15,
        R_X86_64_DTPMOD64 = 16,
        R_X86_64_DTPOFF64 = 17,
        R_X86_64_TPOFF64 = 18,
        R_X86_64_TLSGD = 19,
        R_X86_64_TLSLD = 20,
        R_X86_64_DTPOFF32 = 21,
        R_X86_64_GOTTPOFF = 22,
        R_X86_64_TPOFF32 = 23,
        R_X86_64_PC64 = 24,
        R_X86_64_GOTOFF64 = 25,
        R_X86_64_GOTPC32 = 26,
        R_X86_64_GOT64 = 27,
        R_X86_64_GOTPC64 = 29,
        R_X86_64_PLTOFF64 = 31,
        R_X86_64_SIZE32 = 32,
        R_X86_64_SIZE64 = 33,
        R_X86_64_GOTPC32_TLSDESC = 34,
        R_X86_64_TLSDESC_CALL = 35,
        R_X86_64_TLSDESC = 36,
        R_X86_64_IRELATIVE = 37,
        R_X86_64_GOTPCRELX = 41,
        R_X86_64_REX_GOTPCRELX = 42,
        // The APX types: in the psABI, not yet in every elf.h.
        R_X86_64_CODE_4_GOTPCRELX = 43,
        R_X86_64_CODE_4_GOTTPOFF = 44,
        R_X86_64_CODE_4_GOTPC32_TLSDESC = 45,
        R_X86_64_CODE_5_GOTPCRELX = 46,
        R_X86_64_CODE_5_GOTTPOFF = 47,
        R_X86_64_CODE_5_GOTPC32_TLSDESC = 48,
        R_X86_64_CODE_6_GOTPCRELX = 49,
        R_X86_64_CODE_6_GOTTPOFF = 50,
        R_X86_64_CODE_6_GOTPC32_TLSDESC = 51,

        // Other architectures: only there so that elf.rs compiles.
        R_AARCH64_ABS64 = 257,
        R_AARCH64_COPY = 1024,
        R_AARCH64_GLOB_DAT = 1025,
        R_AARCH64_JUMP_SLOT = 1026,
        R_AARCH64_RELATIVE = 1027,
        R_AARCH64_TLS_DTPMOD = 1028,
        R_AARCH64_TLS_DTPREL = 1029,
        R_AARCH64_TLS_TPREL = 1030,
        R_AARCH64_TLSDESC = 1031,
        R_AARCH64_IRELATIVE = 1032,

        R_RISCV_64 = 2,
        R_RISCV_RELATIVE = 3,
        R_RISCV_COPY = 4,
        R_RISCV_JUMP_SLOT = 5,
        R_RISCV_TLS_DTPMOD64 = 7,
        R_RISCV_TLS_DTPREL64 = 9,
        R_RISCV_TLS_TPREL64 = 11,
        R_RISCV_TLSDESC = 12, // a placeholder: not in elf.h
        R_RISCV_IRELATIVE = 58,

        R_LARCH_64 = 2,
        R_LARCH_RELATIVE = 3,
        R_LARCH_COPY = 4,
        R_LARCH_JUMP_SLOT = 5,
        R_LARCH_TLS_DTPMOD64 = 7,
        R_LARCH_TLS_DTPREL64 = 9,
        R_LARCH_TLS_TPREL64 = 11,
        R_LARCH_IRELATIVE = 12,
        R_LARCH_TLS_DESC64 = 14, // a placeholder: not in elf.h

        R_PPC64_COPY = 19,
        R_PPC64_GLOB_DAT = 20,
        R_PPC64_JMP_SLOT = 21,
        R_PPC64_RELATIVE = 22,
        R_PPC64_ADDR64 = 38,
        R_PPC64_DTPMOD64 = 68,
        R_PPC64_TPREL64 = 73,
        R_PPC64_DTPREL64 = 78,
        R_PPC64_IRELATIVE = 248,
    });

    impl fmt::LowerHex for RelocationType {
        fn fmt(&self, f: &mut fmt::Formatter<'_>) -> fmt::Result {
            self.0.fmt(f)
        }
    }

    /// Names for messages; the stand-in knows none.
    pub struct Names;

    impl Names {
        pub fn name(&self, _r_type: RelocationType) -> Option<&'static str> {
            None
        }
    }

    pub const NAMES_R_X86_64: Names = Names;
    pub const NAMES_R_AARCH64: Names = Names;
    pub const NAMES_R_RISCV: Names = Names;
    pub const NAMES_R_LARCH: Names = Names;
    pub const NAMES_R_PPC64: Names = Names;

    newtype!(SectionFlags(u64) {
        SHF_WRITE = 1 << 0,
        SHF_ALLOC = 1 << 1,
        SHF_EXECINSTR = 1 << 2,
        SHF_MERGE = 1 << 4,
        SHF_STRINGS = 1 << 5,
        SHF_INFO_LINK = 1 << 6,
        SHF_LINK_ORDER = 1 << 7,
        SHF_OS_NONCONFORMING = 1 << 8,
        SHF_GROUP = 1 << 9,
        SHF_TLS = 1 << 10,
        SHF_COMPRESSED = 1 << 11,
        SHF_GNU_RETAIN = 1 << 21,
        SHF_EXCLUDE = 1 << 31,
    });

    impl SectionFlags {
        pub fn contains(self, flag: Self) -> bool {
            self.0 & flag.0 == flag.0
        }
    }

    newtype!(ProgramFlags(u32) {
        PF_X = 1 << 0,
        PF_W = 1 << 1,
        PF_R = 1 << 2,
    });

    impl ProgramFlags {
        pub fn contains(self, flag: Self) -> bool {
            self.0 & flag.0 == flag.0
        }
    }

    newtype!(ProgramType(u32) {
        PT_NULL = 0,
        PT_LOAD = 1,
        PT_DYNAMIC = 2,
        PT_INTERP = 3,
        PT_NOTE = 4,
        PT_SHLIB = 5,
        PT_PHDR = 6,
        PT_TLS = 7,
        PT_GNU_EH_FRAME = 0x6474_e550,
        PT_GNU_STACK = 0x6474_e551,
        PT_GNU_RELRO = 0x6474_e552,
        PT_GNU_PROPERTY = 0x6474_e553,
        PT_GNU_SFRAME = 0x6474_e554, // a placeholder: not in elf.h
        PT_RISCV_ATTRIBUTES = 0x7000_0003,
    });

    newtype!(SectionType(u32) {
        SHT_NULL = 0,
        SHT_PROGBITS = 1,
        SHT_SYMTAB = 2,
        SHT_STRTAB = 3,
        SHT_RELA = 4,
        SHT_HASH = 5,
        SHT_DYNAMIC = 6,
        SHT_NOTE = 7,
        SHT_NOBITS = 8,
        SHT_REL = 9,
        SHT_SHLIB = 10,
        SHT_DYNSYM = 11,
        SHT_INIT_ARRAY = 14,
        SHT_FINI_ARRAY = 15,
        SHT_PREINIT_ARRAY = 16,
        SHT_GROUP = 17,
        SHT_SYMTAB_SHNDX = 18,
        SHT_RELR = 19,
        SHT_GNU_SFRAME = 0x6fff_fff4, // a placeholder: not in elf.h
        SHT_GNU_ATTRIBUTES = 0x6fff_fff5,
        SHT_GNU_HASH = 0x6fff_fff6,
        SHT_GNU_LIBLIST = 0x6fff_fff7,
        SHT_CHECKSUM = 0x6fff_fff8,
        SHT_SUNW_COMDAT = 0x6fff_fffb,
        SHT_SUNW_syminfo = 0x6fff_fffc,
        SHT_GNU_VERDEF = 0x6fff_fffd,
        SHT_GNU_VERNEED = 0x6fff_fffe,
        SHT_GNU_VERSYM = 0x6fff_ffff,
        SHT_RISCV_ATTRIBUTES = 0x7000_0003,
    });

    newtype!(SymbolType(u8) {
        STT_NOTYPE = 0,
        STT_TLS = 6,
    });

    newtype!(Machine(u16) {
        EM_X86_64 = 62,
    });

    newtype!(DynamicTag(u64) {});

    newtype!(FileFlags(u32) {});

    // The ranges of GNU property types; those of x86 stand in the psABI.
    pub const GNU_PROPERTY_UINT32_AND_LO: u32 = 0xb000_0000;
    pub const GNU_PROPERTY_UINT32_AND_HI: u32 = 0xb000_7fff;
    pub const GNU_PROPERTY_UINT32_OR_LO: u32 = 0xb000_8000;
    pub const GNU_PROPERTY_UINT32_OR_HI: u32 = 0xb000_ffff;
    pub const GNU_PROPERTY_X86_UINT32_AND_LO: u32 = 0xc000_0002;
    pub const GNU_PROPERTY_X86_UINT32_AND_HI: u32 = 0xc000_7fff;
    pub const GNU_PROPERTY_X86_UINT32_OR_LO: u32 = 0xc000_8000;
    pub const GNU_PROPERTY_X86_UINT32_OR_HI: u32 = 0xc000_ffff;
    pub const GNU_PROPERTY_X86_UINT32_OR_AND_LO: u32 = 0xc001_0000;
    pub const GNU_PROPERTY_X86_UINT32_OR_AND_HI: u32 = 0xc001_7fff;
}

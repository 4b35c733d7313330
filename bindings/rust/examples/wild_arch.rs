//! Wild's `impl Arch for ElfX86_64` over the bindings. `docs/WILD.md` quotes it.
//!
//! The modules at the end stand in for wild's: cut down to what this file names, with wild's names and
//! shapes at commit 89828cc098. In wild they are its own, and only the code before them is written.

#![forbid(unsafe_code)]
#![allow(dead_code)] // wild calls what this file only defines

use error::Context as _;
use error::Result;
use linker_utils::elf::AllowedRange;
use linker_utils::elf::DynamicRelocationKind;
use linker_utils::elf::RelocationKind;
use linker_utils::elf::RelocationKindInfo;
use linker_utils::elf::RelocationSize;
use linker_utils::relaxation::RelocationModifier;
use linker_utils::relaxation::SectionRelaxDeltas;
use object::elf::SectionFlags;
use output_kind::OutputKind;
use output_kind::RelocationModel;
use platform::PreviousRelocationInfo;
use value_flags::ValueFlags;

pub(crate) struct ElfX86_64;

impl platform::Arch for ElfX86_64 {
    type Relaxation = jitamoro::Relaxation;

    fn relocation_from_raw(r_type: object::elf::RelocationType) -> Result<RelocationKindInfo> {
        jitamoro::relocation_from_raw(r_type.0)
            .map(rel_info)
            .with_context(|| {
                format!(
                    "Unsupported relocation type {}",
                    Self::rel_type_to_string(r_type)
                )
            })
    }

    fn get_dynamic_relocation_type(
        relocation: DynamicRelocationKind,
    ) -> object::elf::RelocationType {
        object::elf::RelocationType(dynamic_kind(relocation).x86_64_r_type())
    }

    fn write_plt_entry(plt_entry: &mut [u8], got_address: u64, plt_address: u64) -> Result {
        jitamoro::write_plt_entry(plt_entry, got_address, plt_address)
            .context("Failed to write PLT entry")
    }

    fn new_relaxation(
        relocation_kind: object::elf::RelocationType,
        section_bytes: &[u8],
        offset_in_section: u64,
        flags: ValueFlags,
        output_kind: OutputKind,
        section_flags: SectionFlags,
        _relax_deltas: Option<&SectionRelaxDeltas>,
        sym_addr: u64,
        _section_address: u64,
        rel_addend: i64,
        _previous_relocation: Option<PreviousRelocationInfo<object::elf::RelocationType>>,
    ) -> Result<Option<Self::Relaxation>> {
        let relaxation = jitamoro::new_relaxation(
            relocation_kind.0,
            section_bytes,
            offset_in_section,
            jitamoro::ValueFlags::from_bits_retain(flags.bits()),
            jitamoro_output_kind(output_kind),
            section_flags.contains(object::elf::SHF_EXECINSTR),
            sym_addr,
            rel_addend,
        )
        .with_context(|| {
            format!(
                "Failed to relax {} at {offset_in_section:#x}",
                Self::rel_type_to_string(relocation_kind)
            )
        })?;
        Ok(relaxation.filter(|relaxation| !is_malfunction(relaxation.kind())))
    }

    fn write_value(
        rel_info: RelocationKindInfo,
        value: u64,
        section_bytes: &mut [u8],
        offset_in_section: u64,
    ) -> Result {
        // The value is finished, so of the type only width and range count.
        let relocation_kind = match rel_info.size {
            RelocationSize::ByteSize(4) if rel_info.range.min == 0 => jitamoro::elf::R_X86_64_32,
            RelocationSize::ByteSize(4) => jitamoro::elf::R_X86_64_32S,
            _ => jitamoro::elf::R_X86_64_NONE,
        };
        let field = jitamoro::Field {
            relocation_kind,
            offset_in_section,
            place: 0,
            value,
            addend: 0,
        };
        let fill = jitamoro::fill(&field, section_bytes)
            .with_context(|| format!("Failed to write the field at {offset_in_section:#x}"))?;
        if fill == jitamoro::Fill::Nothing {
            rel_info.write_to_buffer(value, &mut section_bytes[offset_in_section as usize..])?;
        }
        Ok(())
    }

    fn fill_nop_padding(buf: &mut [u8]) {
        jitamoro::fill_section_padding(buf, true);
    }

    fn fill_section_padding(buf: &mut [u8], section_flags: SectionFlags) {
        jitamoro::fill_section_padding(buf, section_flags.contains(object::elf::SHF_EXECINSTR));
    }

    fn rel_type_to_string(r_type: object::elf::RelocationType) -> std::borrow::Cow<'static, str> {
        // Wild's own, unchanged: linker_utils::elf::x86_64_rel_type_to_string(r_type).
        let text = jitamoro::elf::x86_64_rel_type_to_string(r_type.0);
        text.to_string().into()
    }
}

impl platform::Relaxation for jitamoro::Relaxation {
    fn apply(
        &self,
        section_bytes: &mut [u8],
        offset_in_section: &mut u64,
        addend: &mut i64,
    ) -> Result {
        self.kind()
            .apply(section_bytes, offset_in_section, addend)
            .with_context(|| format!("Failed to apply {:?}", self.kind()))
    }

    fn rel_info(&self) -> RelocationKindInfo {
        rel_info(self.rel_info())
    }

    fn debug_kind(&self) -> impl std::fmt::Debug {
        self.debug_kind()
    }

    fn next_modifier(&self) -> RelocationModifier {
        match self.next_modifier() {
            jitamoro::RelocationModifier::Normal => RelocationModifier::Normal,
            jitamoro::RelocationModifier::SkipNextRelocation => {
                RelocationModifier::SkipNextRelocation
            }
        }
    }

    fn is_mandatory(&self) -> bool {
        self.is_mandatory()
    }

    fn needs_got_fallback(&self) -> bool {
        self.needs_got_fallback()
    }
}

/// Wild's malfunction points for x86-64: each drops one kind.
fn is_malfunction(kind: jitamoro::RelaxationKind) -> bool {
    use jitamoro::RelaxationKind;
    match kind {
        RelaxationKind::MovIndirectToAbsolute => {
            malfunction::malfunction_point("no-mov-indirect-to-absolute")
        }
        RelaxationKind::JmpIndirectToRelative => {
            malfunction::malfunction_point("no-jmp-indirect-to-relative")
        }
        RelaxationKind::TlsGdToLocalExecLarge => {
            malfunction::malfunction_point("no-identify-tls-gd-large")
        }
        _ => false,
    }
}

fn jitamoro_output_kind(output_kind: OutputKind) -> jitamoro::OutputKind {
    let model = |model| match model {
        RelocationModel::Fixed => jitamoro::RelocationModel::Fixed,
        RelocationModel::PositionIndependent => jitamoro::RelocationModel::PositionIndependent,
    };
    match output_kind {
        OutputKind::StaticExecutable(m) => jitamoro::OutputKind::StaticExecutable(model(m)),
        OutputKind::DynamicExecutable(m) => jitamoro::OutputKind::DynamicExecutable(model(m)),
        OutputKind::SharedObject => jitamoro::OutputKind::SharedObject,
        OutputKind::PartialLink => jitamoro::OutputKind::PartialLink,
    }
}

/// A match from one enum to the variants of the same names of another.
macro_rules! by_name {
    ($value:expr, $from:ty => $to:ty: $($variant:ident)*) => {
        match $value {
            $(<$from>::$variant => <$to>::$variant,)*
        }
    };
}

fn dynamic_kind(kind: DynamicRelocationKind) -> jitamoro::DynamicRelocationKind {
    by_name!(kind, DynamicRelocationKind => jitamoro::DynamicRelocationKind:
        Copy Irelative DtpMod DtpOff TlsDesc TpOff Relative Absolute GotEntry JumpSlot)
}

/// Wild's row from the bindings'. x86-64 has neither masks nor biases.
fn rel_info(info: jitamoro::RelocationKindInfo) -> RelocationKindInfo {
    let jitamoro::RelocationSize::ByteSize(size) = info.size;
    RelocationKindInfo {
        kind: by_name!(info.kind, jitamoro::RelocationKind => RelocationKind:
            Absolute SymbolSize Relative SymRelGotBase GotRelGotBase PltRelGotBase PltRelative GotRelative
            TlsGd TlsLd DtpOff GotTpOff TpOff TlsDesc TlsDescCall None),
        size: RelocationSize::ByteSize(size),
        mask: None,
        range: if info.range.checked {
            AllowedRange::new(info.range.min, info.range.max)
        } else {
            AllowedRange::no_check()
        },
        alignment: info.alignment,
        bias: None,
        thunkable: info.thunkable,
        implicit_addend: info.implicit_addend,
    }
}

fn main() {
    use jitamoro::elf::*;
    use platform::Arch as _;
    for r_type in [R_X86_64_PC32, R_X86_64_GOTPCREL64] {
        println!(
            "{:?}",
            ElfX86_64::relocation_from_raw(object::elf::RelocationType(r_type))
        );
    }
}

#[cfg(test)]
mod tests {
    use super::*;
    use jitamoro::elf::*;
    use object::elf::RelocationType;
    use object::elf::SHF_EXECINSTR;
    use platform::Arch as _;

    /// The choice for bytes that end where the field begins, as in wild's `test_relaxation`.
    fn choose(
        r_type: u32,
        bytes: &[u8],
        flags: ValueFlags,
        section_flags: SectionFlags,
    ) -> Option<jitamoro::Relaxation> {
        let output_kind = OutputKind::StaticExecutable(RelocationModel::PositionIndependent);
        let (kind, offset) = (RelocationType(r_type), bytes.len() as u64);
        ElfX86_64::new_relaxation(
            kind,
            bytes,
            offset,
            flags,
            output_kind,
            section_flags,
            None,
            0,
            0,
            -4,
            None,
        )
        .unwrap()
    }

    fn relaxation(r_type: u32, bytes: &[u8], flags: ValueFlags) -> jitamoro::Relaxation {
        choose(r_type, bytes, flags, SHF_EXECINSTR).expect("a relaxation")
    }

    /// `test_relaxation` of elf_x86_64.rs.
    #[test]
    fn test_relaxation() {
        let check = |r_type, bytes_in: &[u8], address: &[u8], absolute: &[u8]| {
            let known = ValueFlags::NON_INTERPOSABLE;
            for (flags, expected) in [(known, address), (ValueFlags::ABSOLUTE | known, absolute)] {
                let (mut out, mut offset) = (bytes_in.to_owned(), bytes_in.len() as u64);
                let r = relaxation(r_type, bytes_in, flags);
                platform::Relaxation::apply(&r, &mut out, &mut offset, &mut -4).unwrap();
                assert_eq!(out, expected);
            }
        };
        check(
            R_X86_64_REX_GOTPCRELX,
            &[0x48, 0x8b, 0x2d],
            &[0x48, 0x8d, 0x2d],
            &[0x48, 0xc7, 0xc5],
        );
        check(
            R_X86_64_CODE_4_GOTPCRELX,
            &[0xd5, 0x48, 0x8b, 0x2d],
            &[0xd5, 0x48, 0x8d, 0x2d],
            &[0xd5, 0x18, 0xc7, 0xc5],
        );
        check(
            R_X86_64_GOTPCRELX,
            &[0x8b, 0x2d],
            &[0x8d, 0x2d],
            &[0xc7, 0xc5],
        );
    }

    #[test]
    fn rows_and_errors() {
        let plt32 = ElfX86_64::relocation_from_raw(RelocationType(R_X86_64_PLT32)).unwrap();
        assert_eq!(plt32.kind, RelocationKind::PltRelative);
        assert_eq!(plt32.range, AllowedRange::new(-(1 << 31), 1 << 31));
        let wide = RelocationType(R_X86_64_GOTPCREL64);
        let error = ElfX86_64::relocation_from_raw(wide).unwrap_err();
        let expected = [
            "the relocation type isn't among the 39 that are known",
            "Unsupported relocation type R_X86_64_GOTPCREL64",
        ];
        assert_eq!(error.0, expected);
        let load = [0x48, 0x8b, 0x2d];
        let r = relaxation(R_X86_64_REX_GOTPCRELX, &load, ValueFlags::NON_INTERPOSABLE);
        assert_eq!(
            platform::Relaxation::rel_info(&r).kind,
            RelocationKind::Relative
        );
        let short = platform::Relaxation::apply(&r, &mut [0x2d], &mut 1, &mut -4);
        let expected = [
            "the bytes to rewrite don't lie wholly in the section",
            "Failed to apply MovIndirectToLea",
        ];
        assert_eq!(short.unwrap_err().0, expected);
    }

    /// A row of four bytes has the range of the type that `write_value` takes for it.
    #[test]
    fn rows_of_four_bytes() {
        let row = |r_type| ElfX86_64::relocation_from_raw(RelocationType(r_type));
        let rows = (0..64).filter_map(|r_type| row(r_type).ok());
        let of_four: Vec<_> = rows
            .filter(|row| matches!(row.size, RelocationSize::ByteSize(4)))
            .collect();
        for four in &of_four {
            let unsigned = four.range.min == 0;
            let like = row(if unsigned { R_X86_64_32 } else { R_X86_64_32S });
            assert_eq!(four.range, like.unwrap().range);
        }
        assert_eq!(of_four.len(), 25);
    }

    /// Fields of four bytes, signed and unsigned, by `fill`, and one of eight by wild's own.
    #[test]
    fn values() {
        let write = |r_type, value: i64, section: &mut [u8]| {
            let rel_info = ElfX86_64::relocation_from_raw(RelocationType(r_type)).unwrap();
            ElfX86_64::write_value(rel_info, value as u64, section, 1)
        };
        for (r_type, value, size) in [
            (R_X86_64_32S, -2, 4),
            (R_X86_64_32, u32::MAX.into(), 4),
            (R_X86_64_PLT32, i32::MIN.into(), 4),
            (R_X86_64_64, i64::MAX, 8),
        ] {
            let mut section = [0xaa; 10];
            write(r_type, value, &mut section).unwrap();
            let mut expected = [0xaa; 10];
            expected[1..=size].copy_from_slice(&value.to_le_bytes()[..size]);
            assert_eq!(section, expected);
        }
        let [far, cut] = [
            "the value lies outside the field's range",
            "the field's four bytes don't lie wholly in the section",
        ];
        let context = "Failed to write the field at 0x1";
        for (r_type, value, length, expected) in [
            (R_X86_64_PC32, 1 << 31, 5, far),
            (R_X86_64_32, -1, 5, far),
            (R_X86_64_32, 0, 4, cut),
        ] {
            let error = write(r_type, value, &mut [0; 5][..length]).unwrap_err();
            assert_eq!(error.0, [expected, context]);
        }
    }

    #[test]
    fn section_flags_and_dynamic_types() {
        let (none, known) = (SectionFlags(0), ValueFlags::NON_INTERPOSABLE);
        let load = [0x48, 0x8b, 0x2d];
        assert!(choose(R_X86_64_REX_GOTPCRELX, &load, known, none).is_none());
        for (section_flags, byte) in [(none, 0), (SHF_EXECINSTR, 0xcc)] {
            let mut buf = [0xaa; 3];
            ElfX86_64::fill_section_padding(&mut buf, section_flags);
            assert_eq!(buf, [byte; 3]);
        }
        let mut buf = [0xaa; 3];
        ElfX86_64::fill_nop_padding(&mut buf);
        assert_eq!(buf, [0xcc; 3]);
        let r_type = ElfX86_64::get_dynamic_relocation_type(DynamicRelocationKind::JumpSlot);
        assert_eq!(r_type.0, R_X86_64_JUMP_SLOT);
    }
}

// ---- Stand-ins for wild's modules and for `object`

mod platform {
    use super::*;

    pub(crate) trait Arch: Send + Sync + 'static {
        type Relaxation: Relaxation;

        fn relocation_from_raw(r_type: object::elf::RelocationType) -> Result<RelocationKindInfo>;
        fn get_dynamic_relocation_type(
            relocation: DynamicRelocationKind,
        ) -> object::elf::RelocationType;
        fn write_plt_entry(plt_entry: &mut [u8], got_address: u64, plt_address: u64) -> Result;
        #[allow(clippy::too_many_arguments)]
        fn new_relaxation(
            relocation_kind: object::elf::RelocationType,
            section_bytes: &[u8],
            offset_in_section: u64,
            flags: ValueFlags,
            output_kind: OutputKind,
            section_flags: SectionFlags,
            relax_deltas: Option<&SectionRelaxDeltas>,
            sym_addr: u64,
            section_address: u64,
            rel_addend: i64,
            previous_relocation: Option<PreviousRelocationInfo<object::elf::RelocationType>>,
        ) -> Result<Option<Self::Relaxation>>;
        /// Writes a relocation's finished value. Architectures may test and write it themselves.
        fn write_value(
            rel_info: RelocationKindInfo,
            value: u64,
            section_bytes: &mut [u8],
            offset_in_section: u64,
        ) -> Result {
            rel_info.write_to_buffer(value, &mut section_bytes[offset_in_section as usize..])?;
            Ok(())
        }
        fn fill_nop_padding(buf: &mut [u8]);
        fn fill_section_padding(buf: &mut [u8], section_flags: SectionFlags);
        fn rel_type_to_string(
            r_type: object::elf::RelocationType,
        ) -> std::borrow::Cow<'static, str>;
    }

    pub(crate) trait Relaxation: Send + Sync + 'static {
        fn apply(
            &self,
            section_bytes: &mut [u8],
            offset_in_section: &mut u64,
            addend: &mut i64,
        ) -> Result;
        fn rel_info(&self) -> RelocationKindInfo;
        fn debug_kind(&self) -> impl std::fmt::Debug;
        fn next_modifier(&self) -> RelocationModifier;
        fn is_mandatory(&self) -> bool;
        fn needs_got_fallback(&self) -> bool;
    }

    pub(crate) struct PreviousRelocationInfo<RelInfo>(pub(crate) RelInfo);
}

mod error {
    pub(crate) type Result<T = (), E = Error> = core::result::Result<T, E>;

    #[derive(Debug)]
    pub(crate) struct Error(pub(super) Vec<String>);

    impl<E: std::fmt::Display> From<E> for Error {
        fn from(value: E) -> Self {
            Self(vec![value.to_string()])
        }
    }

    pub(crate) trait Context<T> {
        fn with_context(self, callback: impl FnOnce() -> String) -> Result<T>;
        fn context(self, message: &'static str) -> Result<T>;
    }

    impl<T, E: Into<Error>> Context<T> for Result<T, E> {
        fn with_context(self, callback: impl FnOnce() -> String) -> Result<T> {
            self.map_err(|error| {
                let mut error = error.into();
                error.0.push(callback());
                error
            })
        }

        fn context(self, message: &'static str) -> Result<T> {
            self.with_context(|| message.to_owned())
        }
    }
}

mod malfunction {
    pub(crate) fn malfunction_point(name: &str) -> bool {
        cfg!(debug_assertions) && std::env::var("WILD_MALFUNCTION").is_ok_and(|v| v == name)
    }
}

mod output_kind {
    pub(crate) enum RelocationModel {
        Fixed,
        PositionIndependent,
    }

    pub(crate) enum OutputKind {
        StaticExecutable(RelocationModel),
        DynamicExecutable(RelocationModel),
        SharedObject,
        PartialLink,
    }
}

mod value_flags {
    #[derive(Clone, Copy)]
    pub(crate) struct ValueFlags(u32);

    impl ValueFlags {
        pub(crate) const ABSOLUTE: Self = Self(1 << 0);
        pub(crate) const NON_INTERPOSABLE: Self = Self(1 << 3);

        pub(crate) fn bits(self) -> u32 {
            self.0
        }
    }

    impl std::ops::BitOr for ValueFlags {
        type Output = Self;

        fn bitor(self, other: Self) -> Self {
            Self(self.0 | other.0)
        }
    }
}

mod object {
    pub(crate) mod elf {
        #[derive(Debug, Clone, Copy)]
        pub(crate) struct RelocationType(pub(crate) u32);

        #[derive(Clone, Copy)]
        pub(crate) struct SectionFlags(pub(crate) u64);
        pub(crate) const SHF_EXECINSTR: SectionFlags = SectionFlags(1 << 2);

        impl SectionFlags {
            pub(crate) fn contains(self, other: Self) -> bool {
                self.0 & other.0 == other.0
            }
        }
    }
}

mod linker_utils {
    pub(crate) mod relaxation {
        pub(crate) enum RelocationModifier {
            Normal,
            SkipNextRelocation,
        }

        pub(crate) struct SectionRelaxDeltas;
    }

    pub(crate) mod elf {
        /// Wild has 42: the sixteen of x86-64 are among them.
        #[rustfmt::skip]
        #[derive(Debug, PartialEq)]
        pub(crate) enum RelocationKind {
            Absolute, SymbolSize, Relative, SymRelGotBase, GotRelGotBase, Got, PltRelGotBase, PltRelative,
            GotRelative, TlsGd, TlsLd, DtpOff, GotTpOff, TpOff, TlsDesc, TlsDescCall, None,
        }

        #[rustfmt::skip]
        pub(crate) enum DynamicRelocationKind {
            Copy, Irelative, DtpMod, DtpOff, TlsDesc, TpOff, Relative, Absolute, GotEntry, JumpSlot,
        }

        #[derive(Debug)]
        pub(crate) enum RelocationSize {
            ByteSize(u8),
            BitMasking,
        }

        #[derive(Debug)]
        pub(crate) struct PageMask;

        #[derive(Debug)]
        pub(crate) struct Bias;

        #[derive(Debug, PartialEq)]
        pub(crate) struct AllowedRange {
            pub(crate) min: i64,
            pub(crate) max: i64,
        }

        impl AllowedRange {
            pub(crate) const fn new(min: i64, max: i64) -> Self {
                Self { min, max }
            }

            pub(crate) const fn no_check() -> Self {
                Self::new(i64::MIN, i64::MAX)
            }
        }

        #[derive(Debug)]
        pub(crate) struct RelocationKindInfo {
            pub(crate) kind: RelocationKind,
            pub(crate) size: RelocationSize,
            pub(crate) mask: Option<PageMask>,
            pub(crate) range: AllowedRange,
            pub(crate) alignment: u8,
            pub(crate) bias: Option<Bias>,
            pub(crate) thunkable: bool,
            pub(crate) implicit_addend: bool,
        }

        impl RelocationKindInfo {
            /// Wild's answers an `anyhow::Error`, and tests range and room: here any error that is `Display` will do.
            pub(crate) fn write_to_buffer(
                self,
                value: u64,
                output: &mut [u8],
            ) -> Result<(), String> {
                let RelocationSize::ByteSize(byte_size) = self.size else {
                    return Ok(());
                };
                let byte_size = usize::from(byte_size);
                output[..byte_size].copy_from_slice(&value.to_le_bytes()[..byte_size]);
                Ok(())
            }
        }
    }
}

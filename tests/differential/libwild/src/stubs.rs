//! Stubs of wild's other modules: just enough for its unchanged files to compile. Of these only
//! `RelocationModel` gets into an answer that is compared.

pub(crate) trait FileSystem {}

pub(crate) mod args {
    #[derive(Debug, Clone, Copy, PartialEq, Eq)]
    pub(crate) enum RelocationModel {
        Fixed,
        PositionIndependent,
    }
}

pub(crate) mod dwarf_address_info {
    use crate::error::Result;
    use crate::platform::Arch;
    use crate::platform::Platform;
    use crate::platform::SourceInfo;

    #[allow(clippy::extra_unused_type_parameters)]
    pub(crate) fn get_source_info<C, A: Arch>(
        _object: &<A::Platform as Platform>::File<'_>,
        _relocations: &<A::Platform as Platform>::RelocationSections,
        _section: &<A::Platform as Platform>::SectionHeader,
        _offset_in_section: u64,
    ) -> Result<SourceInfo> {
        unimplemented!()
    }
}

pub(crate) mod elf {
    pub(crate) const PLT_ENTRY_SIZE: u64 = 16;

    pub(crate) struct Class64;

    pub(crate) struct Elf64;

    impl crate::platform::Platform for Elf64 {
        type ArchIdentifier = object::elf::Machine;
        type File<'data> = ();
        type RelocationSections = ();
        type SectionHeader = ();
    }

    pub(crate) enum PropertyClass {
        And,
        Or,
        AndOr,
    }
}

pub(crate) mod input_data {
    pub(crate) struct FileLoader<'data, F> {
        pub(crate) has_dynamic: bool,
        _file_system: &'data F,
    }
}

pub(crate) mod layout {
    use std::marker::PhantomData;

    pub(crate) struct Layout<P>(PhantomData<P>);

    impl<P> Layout<P> {
        pub(crate) fn tls_end_address(&self) -> u64 {
            unimplemented!()
        }
    }
}

/// The traits, with the methods that elf_x86_64.rs, output_kind.rs and value_flags.rs give or use.
pub(crate) mod platform {
    use crate::OutputKind;
    use crate::args::RelocationModel;
    use crate::elf::PropertyClass;
    use crate::error::Result;
    use crate::layout::Layout;
    use crate::value_flags::ValueFlags;
    use linker_utils::elf::DynamicRelocationKind;
    use linker_utils::elf::RelocationKindInfo;
    use linker_utils::relaxation::RelocationModifier;
    use linker_utils::relaxation::SectionRelaxDeltas;
    use object::elf::FileFlags;
    use object::elf::RelocationType;
    use object::elf::SectionFlags;
    use std::borrow::Cow;

    pub(crate) trait Arch {
        type Relaxation: Relaxation;
        type Platform: Platform;

        fn arch_identifier() -> <Self::Platform as Platform>::ArchIdentifier;
        fn ifunc_address_uses_plt(output_kind: OutputKind) -> bool;
        fn relocation_from_raw(r_type: RelocationType) -> Result<RelocationKindInfo>;
        fn is_disallowed_for_interposable_symbols(r_type: RelocationType) -> bool;
        fn is_disallowed_in_shared_object(r_type: RelocationType) -> bool;
        fn get_dynamic_relocation_type(relocation: DynamicRelocationKind) -> RelocationType;
        fn write_plt_entry(plt_entry: &mut [u8], got_address: u64, plt_address: u64) -> Result;
        fn rel_type_to_string(r_type: RelocationType) -> Cow<'static, str>;
        fn tp_offset_start(layout: &Layout<Self::Platform>) -> u64;
        fn get_property_class(property_type: u32) -> Option<PropertyClass>;
        fn merge_eflags(eflags: impl Iterator<Item = FileFlags>) -> Result<FileFlags>;
        fn high_part_relocations() -> &'static [RelocationType];
        #[allow(clippy::too_many_arguments)]
        fn new_relaxation(
            relocation_kind: RelocationType,
            section_bytes: &[u8],
            offset_in_section: u64,
            flags: ValueFlags,
            output_kind: OutputKind,
            section_flags: SectionFlags,
            relax_deltas: Option<&SectionRelaxDeltas>,
            sym_addr: u64,
            section_address: u64,
            rel_addend: i64,
            previous_relocation: Option<PreviousRelocationInfo<RelocationType>>,
        ) -> Option<Self::Relaxation>;
        fn get_source_info<'data>(
            object: &<Self::Platform as Platform>::File<'data>,
            relocations: &<Self::Platform as Platform>::RelocationSections,
            section: &<Self::Platform as Platform>::SectionHeader,
            offset_in_section: u64,
        ) -> Result<SourceInfo>;
        fn fill_nop_padding(buf: &mut [u8]);
        fn fill_section_padding(buf: &mut [u8], section_flags: SectionFlags);
    }

    pub(crate) trait Relaxation {
        fn apply(&self, section_bytes: &mut [u8], offset_in_section: &mut u64, addend: &mut i64);
        fn rel_info(&self) -> RelocationKindInfo;
        fn debug_kind(&self) -> impl std::fmt::Debug;
        fn next_modifier(&self) -> RelocationModifier;
        fn is_mandatory(&self) -> bool;
        fn needs_got_fallback(&self) -> bool;
    }

    pub(crate) trait Platform {
        type ArchIdentifier;
        type File<'data>;
        type RelocationSections;
        type SectionHeader;
    }

    pub(crate) trait Args {
        fn relocation_model(&self) -> RelocationModel;
        fn should_output_executable(&self) -> bool;
        fn should_output_partial_object(&self) -> bool;
        fn dynamic_linker(&self) -> Option<&str>;
    }

    pub(crate) trait Symbol {
        fn is_local(&self) -> bool;
    }

    pub(crate) struct PreviousRelocationInfo<R> {
        pub(crate) kind: R,
    }

    pub(crate) struct SourceInfo;
}

pub(crate) mod symbol_db {
    use std::ops::Range;

    #[derive(Clone, Copy)]
    pub(crate) struct SymbolId(u32);

    impl SymbolId {
        pub(crate) fn as_usize(self) -> usize {
            self.0 as usize
        }
    }

    pub(crate) struct SymbolIdRange(Range<u32>);

    impl SymbolIdRange {
        pub(crate) fn as_usize(&self) -> Range<usize> {
            self.0.start as usize..self.0.end as usize
        }
    }
}

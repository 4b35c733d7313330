//! linker-utils' elf.rs, as far as x86-64 uses it.

use crate::numbered::answered;
use crate::numbered::numbered;
use crate::sys;

numbered! {
    /// What is to be written into a relocation's field: the sixteen of wild's kinds that x86-64 uses,
    /// in wild's order.
    pub enum RelocationKind {
        /// The absolute address of a symbol or section.
        Absolute = 0,
        /// The size of a symbol rather than its address.
        SymbolSize = 1,
        /// The address of the symbol, relative to the place of the relocation.
        Relative = 2,
        /// The address of the symbol, relative to the base address of the GOT.
        SymRelGotBase = 3,
        /// The offset of the symbol's GOT entry, relative to the start of the GOT.
        GotRelGotBase = 4,
        /// The address of the symbol's PLT entry, relative to the base address of the GOT.
        PltRelGotBase = 5,
        /// The address of the symbol's PLT entry, relative to the place of the relocation.
        PltRelative = 6,
        /// The address of the symbol's GOT entry, relative to the place of the relocation.
        GotRelative = 7,
        /// The address of a TLSGD structure, relative to the place of the relocation.
        TlsGd = 8,
        /// The address of the TLS module ID, relative to the place of the relocation.
        TlsLd = 9,
        /// The offset of a thread-local within the TLS storage of the DSO that defines it.
        DtpOff = 10,
        /// The address of a GOT entry with a TLS offset, relative to the place of the relocation.
        GotTpOff = 11,
        /// The offset of a TLS variable within the executable's TLS storage.
        TpOff = 12,
        /// The address of a TLS descriptor structure, relative to the place of the relocation.
        TlsDesc = 13,
        /// Call to the TLS descriptor trampoline.
        TlsDescCall = 14,
        /// No relocation needs to be applied.
        None = 15,
    }
}

numbered! {
    /// Relocations for the dynamic linker, in wild's order.
    pub enum DynamicRelocationKind {
        /// Copies a symbol's value out of a shared object.
        Copy = 0,
        /// The result of an ifunc's resolver.
        Irelative = 1,
        /// The number of a TLS module.
        DtpMod = 2,
        /// The offset of a variable within its module's TLS storage.
        DtpOff = 3,
        /// A TLS descriptor.
        TlsDesc = 4,
        /// The offset of a TLS variable from the thread pointer.
        TpOff = 5,
        /// The load address plus an addend.
        Relative = 6,
        /// The absolute address of a symbol.
        Absolute = 7,
        /// The address of a symbol, in the GOT.
        GotEntry = 8,
        /// The address of a function, in the GOT of the PLT.
        JumpSlot = 9,
    }
}

impl DynamicRelocationKind {
    /// The relocation type on x86-64.
    #[must_use]
    pub fn x86_64_r_type(self) -> u32 {
        sys::jitamoro_x86_64_r_type(u32::from(self.number()))
    }
}

/// The size of a relocation's field. x86-64 has no bit masks.
#[derive(Debug, Clone, Copy, PartialEq, Eq)]
pub enum RelocationSize {
    /// So many bytes.
    ByteSize(u8),
}

/// Wild's page masks, of which x86-64 has none.
#[derive(Debug, Clone, Copy, PartialEq, Eq)]
pub enum PageMask {}

/// Wild's biases, of which x86-64 has none.
#[derive(Debug, Clone, Copy, PartialEq, Eq)]
pub enum Bias {}

/// Allowed range (half-open) of a computed value of a relocation.
#[derive(Debug, Clone, Copy, PartialEq, Eq)]
pub struct AllowedRange {
    /// False: every value is allowed, i64::MAX too, and the ends are 0.
    pub checked: bool,
    /// The least value.
    pub min: i64,
    /// The end, which isn't allowed itself.
    pub max: i64,
}

impl AllowedRange {
    /// The values from `min` on that are below `max`.
    #[must_use]
    pub const fn new(min: i64, max: i64) -> Self {
        Self {
            checked: true,
            min,
            max,
        }
    }

    /// Every value.
    #[must_use]
    pub const fn no_check() -> Self {
        Self {
            checked: false,
            min: 0,
            max: 0,
        }
    }

    /// Whether the value is allowed.
    #[must_use]
    pub fn contains(&self, value: i64) -> bool {
        sys::jitamoro_allowed_range_contains(self.checked, self.min, self.max, value)
    }
}

/// The row of a relocation type.
#[derive(Debug, Clone, Copy, PartialEq, Eq)]
pub struct RelocationKindInfo {
    /// What is to be written.
    pub kind: RelocationKind,
    /// How large the field is.
    pub size: RelocationSize,
    /// Always none.
    pub mask: Option<PageMask>,
    /// The values that may be written.
    pub range: AllowedRange,
    /// What the value must be a multiple of.
    pub alignment: u8,
    /// Always none.
    pub bias: Option<Bias>,
    /// Whether this relocation type supports range-extension thunks.
    pub thunkable: bool,
    /// Whether this relocation assumes an implicit addend at the place of the relocation.
    pub implicit_addend: bool,
}

impl RelocationKindInfo {
    /// The row of an answer that is no refusal.
    pub(crate) fn from_answer(answer: &sys::RelocationAnswer) -> Self {
        let sys::RelocationAnswer { mask, bias, .. } = *answer;
        assert!(
            !mask && !bias,
            "libjitamoro.a answered a mask or a bias, against its contract"
        );
        let kind = RelocationKind::from_number(answer.kind);
        Self {
            kind: answered(kind, "relocation kind", answer.kind),
            size: RelocationSize::ByteSize(answer.size),
            mask: None,
            range: AllowedRange {
                checked: answer.checked,
                min: answer.min,
                max: answer.max,
            },
            alignment: answer.alignment,
            bias: None,
            thunkable: answer.thunkable,
            implicit_addend: answer.implicit_addend,
        }
    }
}

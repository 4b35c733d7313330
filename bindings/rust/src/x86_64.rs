//! x86_64.rs: kinds of relaxation, and the table of the relocation types.

use crate::refusal::Refusal;
use crate::refusal::check;
use crate::relocation::RelocationKindInfo;
use crate::sys;
use core::fmt;

/// What becomes of the next relocation.
#[derive(Debug, Clone, Copy, PartialEq, Eq, Hash)]
pub enum RelocationModifier {
    /// It is processed.
    Normal,
    /// It is skipped: its instruction was rewritten with this one.
    SkipNextRelocation,
}

impl RelocationModifier {
    pub(crate) const fn from_skip(skip: bool) -> Self {
        if skip {
            Self::SkipNextRelocation
        } else {
            Self::Normal
        }
    }
}

/// The kinds with their numbers. `$inst_offset` names the instruction offset.
macro_rules! relaxation_kinds {
    ($inst_offset:ident;
     $($(#[$doc:meta])* $variant:ident $(($offset:ident: $offset_type:ty))? = $number:literal;)*
    ) => {
        /// How an instruction is rewritten. The number that some kinds hold is the instruction offset:
        /// how far before the field the instruction starts.
        #[derive(Debug, Clone, Copy, PartialEq, Eq, Hash)]
        pub enum RelaxationKind {
            $($(#[$doc])* $variant $(($offset_type))?,)*
        }

        impl RelaxationKind {
            /// The kind's number, 0 to 18 in this order.
            #[must_use]
            pub const fn number(self) -> u8 {
                match self {
                    $(Self::$variant { .. } => $number,)*
                }
            }

            /// The kind's name without its instruction offset, as "RexMovIndirectToAbsolute".
            #[must_use]
            pub const fn name(self) -> &'static str {
                match self {
                    $(Self::$variant { .. } => stringify!($variant),)*
                }
            }

            /// The instruction offset, or 0 where the kind has none.
            #[must_use]
            pub const fn inst_offset(self) -> u8 {
                match self {
                    $(Self::$variant $(($offset))? => 0 $(+ $offset)?,)*
                }
            }

            /// The kind with this number, if there is one. The instruction offset goes with the kinds
            /// that have one; whether it is allowed is tested by [`RelaxationKind::apply`].
            #[must_use]
            pub const fn from_number(number: u8, $inst_offset: u8) -> Option<Self> {
                match number {
                    $($number => Some(Self::$variant $(($offset))?),)*
                    _ => None,
                }
            }
        }
    };
}

relaxation_kinds! { inst_offset;
    /// `mov *x(%rip), reg` -> `lea x(%rip), reg`.
    MovIndirectToLea = 0;
    /// `mov *x(%rip), reg` -> `mov x, reg`.
    MovIndirectToAbsolute = 1;
    /// The same with a prefix.
    RexMovIndirectToAbsolute(inst_offset: u8) = 2;
    /// An indirect add becomes an absolute add.
    RexAddIndirectToAbsolute(inst_offset: u8) = 3;
    /// `add x(%rip), reg` -> `lea x(reg), reg`. Never chosen; GNU ld does it.
    RexAddIndirectToLea(inst_offset: u8) = 4;
    /// An indirect sub becomes an absolute sub.
    RexSubIndirectToAbsolute(inst_offset: u8) = 5;
    /// An indirect cmp becomes an absolute cmp.
    RexCmpIndirectToAbsolute(inst_offset: u8) = 6;
    /// `call *x(%rip)` -> `call x(%rip)`.
    CallIndirectToRelative = 7;
    /// `jmp *x(%rip)` -> `jmp x(%rip)`.
    JmpIndirectToRelative = 8;
    /// The instruction is left alone, and only the relocation changes.
    NoOp = 9;
    /// General dynamic (GD) to local exec.
    TlsGdToLocalExec = 10;
    /// The same for the large-model form.
    TlsGdToLocalExecLarge = 11;
    /// Local dynamic (LD) to local exec.
    TlsLdToLocalExec = 12;
    /// The same where an indirect call follows.
    TlsLdToLocalExecNoPlt = 13;
    /// The same for the large-model sequence.
    TlsLdToLocalExec64 = 14;
    /// General dynamic (GD) to initial exec.
    TlsGdToInitialExec = 15;
    /// TLSDESC to local exec.
    TlsDescToLocalExec(inst_offset: u8) = 16;
    /// TLSDESC to initial exec.
    TlsDescToInitialExec = 17;
    /// A TLSDESC_CALL becomes a no-op.
    SkipTlsDescCall = 18;
}

impl RelaxationKind {
    /// What becomes of the relocation after one that was relaxed so.
    #[must_use]
    #[inline]
    pub fn next_modifier(self) -> RelocationModifier {
        RelocationModifier::from_skip(sys::jitamoro_next_modifier(self.number()))
    }

    /// Rewrites the instruction whose field lies at `offset_in_section`, and sets offset and addend to
    /// those of the field afterwards.
    ///
    /// # Errors
    /// [`Refusal::SectionTooLong`], [`Refusal::OffsetAboveLength`], [`Refusal::InstructionOffset`],
    /// [`Refusal::WindowNotInside`]; nothing is changed then.
    #[inline]
    pub fn apply(
        self,
        section_bytes: &mut [u8],
        offset_in_section: &mut u64,
        addend: &mut i64,
    ) -> Result<(), Refusal> {
        let (kind, inst_offset) = (self.number(), self.inst_offset());
        let moved = sys::apply(
            kind,
            inst_offset,
            section_bytes,
            *offset_in_section,
            *addend,
        );
        check(moved.refusal)?;
        *offset_in_section = moved.offset;
        *addend = moved.addend;
        Ok(())
    }
}

/// As wild prints it: "NoOp", "RexMovIndirectToAbsolute(3)".
impl fmt::Display for RelaxationKind {
    fn fmt(&self, f: &mut fmt::Formatter<'_>) -> fmt::Result {
        write!(f, "{self:?}")
    }
}

/// The row of a relocation type.
///
/// # Errors
/// [`Refusal::UnknownType`].
#[inline]
pub fn relocation_from_raw(r_type: u32) -> Result<RelocationKindInfo, Refusal> {
    let answer = sys::jitamoro_relocation_from_raw(r_type);
    check(answer.refusal)?;
    Ok(RelocationKindInfo::from_answer(&answer))
}

//! The tally of what a pass did.

use crate::sys;
use crate::x86_64::RelaxationKind;
use core::fmt;

/// Where the figures that belong to no kind stand: after the 19 kinds, each at its number.
const NONE: usize = 19;
const SKIPPED: usize = 20;
const BYTES: usize = 21;

/// The figures' names, as the header has them.
const NAMES: [&str; 22] = {
    let mut names = [""; 22];
    let mut number = 0;
    while let Some(kind) = RelaxationKind::from_number(number, 0) {
        names[number as usize] = kind.name();
        number += 1;
    }
    assert!(number as usize == NONE);
    names[NONE] = "none";
    names[SKIPPED] = "skipped";
    names[BYTES] = "bytes in rewritten windows";
    names
};

/// What the steps of a walk did, counted by [`Pass::step_tallied`](crate::Pass::step_tallied), each figure modulo 2^64.
/// A step that is refused counts nowhere.
///
/// ```
/// # use jitamoro::{OutputKind, Pass, Record, RelaxationKind, RelocationModel, Tally, ValueFlags, elf};
/// # let mut record = Record {
/// #     relocation_kind: elf::R_X86_64_REX_GOTPCRELX,
/// #     offset_in_section: 3,
/// #     flags: ValueFlags::NON_INTERPOSABLE,
/// #     output_kind: OutputKind::StaticExecutable(RelocationModel::Fixed),
/// #     executable: true,
/// #     sym_addr: 0x401000,
/// #     rel_addend: -4,
/// # };
/// let mut section = [0x4c, 0x8b, 0x2d, 0, 0, 0, 0];
/// let (mut pass, mut tally) = (Pass::fresh(), Tally::fresh());
/// pass.step_tallied(&mut tally, &record, &mut section)?;
/// record.relocation_kind = elf::R_X86_64_32S;
/// pass.step_tallied(&mut tally, &record, &mut section)?;
/// assert_eq!(tally.relaxed(RelaxationKind::RexMovIndirectToAbsolute(3)), 1);
/// assert_eq!((tally.none(), tally.skipped(), tally.bytes()), (1, 0, 3));
/// assert_eq!(
///     tally.to_string(),
///     "RexMovIndirectToAbsolute 1, none 1, bytes in rewritten windows 3",
/// );
/// # Ok::<(), jitamoro::Refusal>(())
/// ```
#[derive(Debug, Clone, PartialEq, Eq)]
pub struct Tally(pub(crate) sys::Tally);

impl Tally {
    /// A tally before the first record: every figure is 0.
    #[must_use]
    pub fn fresh() -> Self {
        Self(sys::jitamoro_tally_fresh())
    }

    /// The records relaxed by a kind, whatever its instruction offset.
    #[must_use]
    pub fn relaxed(&self, kind: RelaxationKind) -> u64 {
        self.0.figures[usize::from(kind.number())]
    }

    /// The records that nothing was to be done for, empty ones met while a skip is pending among them.
    #[must_use]
    pub fn none(&self) -> u64 {
        self.0.figures[NONE]
    }

    /// The records skipped.
    #[must_use]
    pub fn skipped(&self) -> u64 {
        self.0.figures[SKIPPED]
    }

    /// The bytes of the relaxed records' windows, whether or not they changed.
    #[must_use]
    pub fn bytes(&self) -> u64 {
        self.0.figures[BYTES]
    }

    /// Every figure with its name: the kinds in the order of their numbers, then none, skipped, bytes.
    pub fn figures(&self) -> impl Iterator<Item = (&'static str, u64)> + use<> {
        NAMES.into_iter().zip(self.0.figures)
    }
}

/// [`Tally::fresh`].
impl Default for Tally {
    fn default() -> Self {
        Self::fresh()
    }
}

/// The figures that aren't 0, as "NoOp 2, none 1"; "no records" where all are.
impl fmt::Display for Tally {
    fn fmt(&self, f: &mut fmt::Formatter<'_>) -> fmt::Result {
        let mut separator = "";
        for (name, figure) in self.figures().filter(|&(_, figure)| figure != 0) {
            write!(f, "{separator}{name} {figure}")?;
            separator = ", ";
        }
        match separator {
            "" => f.write_str("no records"),
            _ => Ok(()),
        }
    }
}

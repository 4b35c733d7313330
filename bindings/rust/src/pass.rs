//! The pass over a section's records, which wild doesn't have as a function of its own, with or without a tally.

use crate::elf_x86_64::Record;
use crate::elf_x86_64::Relaxed;
use crate::elf_x86_64::ask;
use crate::refusal::Refusal;
use crate::refusal::check;
use crate::sys;
use crate::tally::Tally;

/// A walk over a section's records in the order of their offsets.
///
/// ```
/// # use jitamoro::{OutputKind, Pass, Record, RelocationModel, Step, ValueFlags, elf};
/// let mut section = [0xff, 0x10];
/// let record = Record {
///     relocation_kind: elf::R_X86_64_TLSDESC_CALL,
///     offset_in_section: 0,
///     flags: ValueFlags::default(),
///     output_kind: OutputKind::DynamicExecutable(RelocationModel::PositionIndependent),
///     executable: true,
///     sym_addr: 0,
///     rel_addend: 0,
/// };
/// let mut pass = Pass::fresh();
/// assert!(matches!(pass.step(&record, &mut section)?, Step::Relaxed(_)));
/// assert_eq!(section, [0x66, 0x90]);
/// pass.end()?;
/// # Ok::<(), jitamoro::Refusal>(())
/// ```
#[derive(Debug, Clone, PartialEq, Eq)]
pub struct Pass(sys::Pass);

/// What a step did.
#[derive(Debug, Clone, Copy, PartialEq, Eq)]
pub enum Step {
    /// Nothing is to be done for the record.
    Nothing,
    /// The record was relaxed.
    Relaxed(Relaxed),
    /// The record was skipped, as one that was relaxed before it asked.
    Skipped,
}

impl Step {
    fn from_answer(answer: &sys::StepAnswer) -> Result<Self, Refusal> {
        Ok(match Relaxed::from_answer(&answer.relaxed)? {
            Some(relaxed) => Self::Relaxed(relaxed),
            None if answer.skipped => Self::Skipped,
            None => Self::Nothing,
        })
    }
}

impl Pass {
    /// A pass before its first record.
    #[must_use]
    pub fn fresh() -> Self {
        Self(sys::jitamoro_pass_fresh())
    }

    /// Takes one record. While a skip is pending, an empty one, of type [`elf::R_X86_64_NONE`](crate::elf::R_X86_64_NONE),
    /// is [`Step::Nothing`], and the skip waits for the next of another type.
    ///
    /// # Errors
    /// [`Refusal::PassEnded`], those of [`relax`](crate::relax()), [`Refusal::OffsetBelowLast`],
    /// [`Refusal::WindowOverlap`]; pass and section are unchanged then.
    #[inline]
    pub fn step(&mut self, record: &Record, section_bytes: &mut [u8]) -> Result<Step, Refusal> {
        Step::from_answer(&ask!(sys::pass_step, record, section_bytes, &mut self.0))
    }

    /// As [`Pass::step`], and the tally counts what the step did.
    ///
    /// # Errors
    /// Those of [`Pass::step`]; the tally is unchanged then too.
    #[inline]
    pub fn step_tallied(
        &mut self,
        tally: &mut Tally,
        record: &Record,
        section_bytes: &mut [u8],
    ) -> Result<Step, Refusal> {
        let (pass, tally) = (&mut self.0, &mut tally.0);
        Step::from_answer(&ask!(sys::tally_step, record, section_bytes, pass, tally))
    }

    /// Ends the pass, which takes no more records then.
    ///
    /// # Errors
    /// [`Refusal::PassEnded`], [`Refusal::SkipPending`]; the pass is unchanged then.
    pub fn end(&mut self) -> Result<(), Refusal> {
        check(sys::jitamoro_pass_end(&mut self.0))
    }
}

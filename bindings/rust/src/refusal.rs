//! The refusals that can come out of the library.

use crate::numbered::answered;
use crate::numbered::numbered;
use core::fmt;

/// The refusals with document 01's numbers and the header's sentences.
macro_rules! refusals {
    ($($variant:ident = $number:literal, $sentence:literal;)*) => {
        numbered! {
            /// Why the library refused. A refusal changes nothing that was lent, but for the buffer of a
            /// PLT entry under [`Refusal::PltOutOfReach`].
            ///
            /// Displayed, it is a sentence that a linker can show its user after the record
            /// ([`Record`](crate::Record) is displayed too) and the names of file and section:
            ///
            /// ```
            /// # use jitamoro::{OutputKind, Record, RelocationModel, ValueFlags, elf, relax};
            /// # let mut section = [0xff, 0x25, 0];
            /// # let record = Record {
            /// #     relocation_kind: elf::R_X86_64_GOTPCRELX,
            /// #     offset_in_section: 2,
            /// #     flags: ValueFlags::NON_INTERPOSABLE,
            /// #     output_kind: OutputKind::StaticExecutable(RelocationModel::Fixed),
            /// #     executable: true,
            /// #     sym_addr: 0x401000,
            /// #     rel_addend: -4,
            /// # };
            /// let refusal = relax(&record, &mut section).unwrap_err();
            /// assert_eq!(
            ///     format!("a.o: .text: relocation {record}: {refusal}"),
            ///     "a.o: .text: relocation R_X86_64_GOTPCRELX at offset 0x2: \
            ///      the bytes to rewrite don't lie wholly in the section",
            /// );
            /// ```
            ///
            /// Later versions may have more of them.
            #[non_exhaustive]
            pub enum Refusal {
                $(#[doc = concat!($number, ": ", $sentence, ".")] $variant = $number,)*
            }
        }

        impl Refusal {
            /// The refusal as a sentence without its full stop.
            #[must_use]
            pub const fn text(self) -> &'static str {
                match self {
                    $(Self::$variant => $sentence,)*
                }
            }
        }
    };
}

refusals! {
    SectionTooLong = 1, "the section is longer than 268,435,456 bytes";
    OffsetAboveLength = 2, "the offset lies past the section's end";
    FlagNumber = 3, "the flag number is above 15";
    OutputKindNumber = 4, "the output kind is above 5";
    InstructionOffset = 5, "the kind has no such instruction offset, or there is no such kind";
    WindowNotInside = 6, "the bytes to rewrite don't lie wholly in the section";
    UnknownType = 7, "the relocation type isn't among the 39 that are known";
    PltEntrySize = 8, "the buffer for a PLT entry isn't 16 bytes long";
    PltOutOfReach = 9, "the GOT entry is out of reach of the PLT entry";
    ValueOutOfRange = 15, "the value lies outside the field's range";
    FieldNotInside = 16, "the field's four bytes don't lie wholly in the section";
    PassEnded = 21, "the pass has ended";
    OffsetBelowLast = 22, "the offset lies below the last record's";
    WindowOverlap = 23, "the bytes to rewrite begin before the end of those rewritten last";
    SkipPending = 24, "the end is asked while a record is still to be skipped";
}

impl fmt::Display for Refusal {
    fn fmt(&self, f: &mut fmt::Formatter<'_>) -> fmt::Result {
        f.pad(self.text())
    }
}

impl core::error::Error for Refusal {}

/// 0 is no refusal.
#[inline]
pub(crate) fn check(number: u8) -> Result<(), Refusal> {
    match number {
        0 => Ok(()),
        _ => Err(answered(Refusal::from_number(number), "refusal", number)),
    }
}

#[cfg(test)]
mod tests {
    use super::check;

    #[test]
    #[should_panic(expected = "libjitamoro.a answered refusal 10, against its contract")]
    fn a_number_of_no_refusal_panics() {
        let _ = check(10);
    }
}

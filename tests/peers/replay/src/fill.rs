//! Fills the fields of a section: those of types 2, 10, 11 and 23 by the port's own `fill`, the others as the psABI says.

use crate::case::Case;
use crate::case::Record;
use jitamoro::sys;

/// The types that the port fills.
pub const FILLED_TYPES: [u32; 4] = [2, 10, 11, 23];

/// A relocation that is left to fill.
pub struct Left<'a> {
    pub record: &'a Record,
    pub r_type: u32,
    pub offset: u64,
    pub addend: i64,
}

impl<'a> Left<'a> {
    pub fn unchanged(record: &'a Record) -> Self {
        let (r_type, offset, addend) = (record.r_type, record.offset, record.addend);
        Left {
            record,
            r_type,
            offset,
            addend,
        }
    }

    fn width(&self) -> usize {
        match self.r_type {
            0 | 35 => 0,
            25 | 31 => 8,
            _ => 4,
        }
    }

    /// The port's answer for a field of a type that it fills; None where the peer has no value.
    fn by_port(&self, section: &mut [u8], case: &Case) -> Option<sys::FilledAnswer> {
        let place = case.place.wrapping_add(self.offset);
        let value = match self.r_type {
            23 => self.record.tp? as u64,
            _ => self.record.address,
        };
        let (r_type, offset, addend) = (self.r_type, self.offset, self.addend);
        let answer = sys::fill(r_type, section, offset, place, value, addend);
        assert!([0, 15].contains(&answer.refusal), "{answer:?}");
        Some(answer)
    }

    /// What the addend is added to, in a field that the port doesn't fill; None where the peer has no such entry.
    fn base(&self, case: &Case) -> Option<u64> {
        let place = case.place.wrapping_add(self.offset);
        let Record { address, slot, .. } = *self.record;
        match self.r_type {
            4 => Some(slot.unwrap_or(address).wrapping_sub(place)),
            25 => case.got.map(|got| address.wrapping_sub(got)),
            31 => case
                .got
                .map(|got| slot.unwrap_or(address).wrapping_sub(got)),
            _ => slot.map(|slot| slot.wrapping_sub(place)),
        }
    }

    /// Writes the field; not where its value isn't known, or the port says that the field can't hold it.
    fn fill(&self, section: &mut [u8], case: &Case) -> bool {
        if FILLED_TYPES.contains(&self.r_type) {
            return self.by_port(section, case).is_some_and(|it| it.filled);
        }
        let Some(base) = self.base(case) else {
            return false;
        };
        let value = base.wrapping_add(self.addend as u64).to_le_bytes();
        section[self.range()].copy_from_slice(&value[..self.width()]);
        true
    }

    /// Whether the value is known and the field can't hold it.
    pub fn overflows(&self, section: &[u8], case: &Case) -> bool {
        if FILLED_TYPES.contains(&self.r_type) {
            let answer = self.by_port(&mut section.to_owned(), case);
            return answer.is_some_and(|it| it.refusal == 15);
        }
        let value = self
            .base(case)
            .map(|it| it.wrapping_add(self.addend as u64));
        self.width() == 4 && value.is_some_and(|it| i32::try_from(it as i64).is_err())
    }

    fn range(&self) -> std::ops::Range<usize> {
        let start = self.offset as usize;
        start..start + self.width()
    }
}

/// The section with its fields filled, or None where one can't be.
pub fn filled(section: &[u8], left: &[Left], case: &Case) -> Option<Vec<u8>> {
    let mut section = section.to_owned();
    let mut left = left.iter().filter(|one| one.width() > 0);
    left.all(|one| one.fill(&mut section, case))
        .then_some(section)
}

/// How many fields are of each of `FILLED_TYPES`.
pub fn by_type(left: &[Left]) -> [usize; 4] {
    FILLED_TYPES.map(|r_type| left.iter().filter(|it| it.r_type == r_type).count())
}

/// The section with its fields zero.
pub fn blank(section: &[u8], left: &[Left]) -> Vec<u8> {
    let mut section = section.to_owned();
    for one in left {
        section[one.range()].fill(0);
    }
    section
}

//! Filling a field: document 02's order over wild's lookup and its `write_to_buffer`, which is given the value. Its callers
//! in wild aren't among the sources.

use crate::relaxation::SECTION_LIMIT;
use jitamoro::sys;
use jitamoro::sys::FilledAnswer;
use libwild::oracle;
use libwild::oracle::RelocationKind;
use libwild::oracle::RelocationKindInfo;

/// The types that the port fills. Wild writes a field of any type: a listed difference.
pub const FILLED_TYPES: [u32; 4] = [2, 10, 11, 23];

/// A field in document 02's numbers.
#[derive(Debug, Clone, Copy)]
pub struct Field {
    pub r_type: u32,
    pub offset: u64,
    /// The field's own address.
    pub place: u64,
    pub value: u64,
    pub addend: i64,
}

/// Which of its two errors wild's `write_to_buffer` gives; it tests the range first.
#[derive(Debug, Clone, Copy, PartialEq, Eq)]
pub enum Unwritten {
    Range,
    Bounds,
}

/// Wild's `write_to_buffer`. An error is told by its words, and writes nothing.
pub fn write_to_buffer(
    info: RelocationKindInfo,
    value: u64,
    output: &mut [u8],
) -> Result<(), Unwritten> {
    info.write_to_buffer(value, output).map_err(|error| {
        let text = error.to_string();
        if text == "Relocation outside of bounds of section" {
            return Unwritten::Bounds;
        }
        let range = format!("Relocation {} outside of bounds [", value as i64);
        assert!(text.starts_with(&range), "wild has other errors: {text}");
        Unwritten::Range
    })
}

impl Field {
    /// The field whose sum is `sum`.
    pub fn of_sum(r_type: u32, offset: u64, sum: u64, place: u64, addend: i64) -> Self {
        let less = if r_type == 2 { place } else { 0 };
        let value = sum.wrapping_sub(addend as u64).wrapping_add(less);
        Self {
            r_type,
            offset,
            place,
            value,
            addend,
        }
    }

    /// What `write_to_buffer` is handed: the place is taken away where the type's row is relative.
    pub fn written(&self, info: RelocationKindInfo) -> u64 {
        let sum = self.value.wrapping_add(self.addend as u64);
        match info.kind {
            RelocationKind::Relative => sum.wrapping_sub(self.place),
            _ => sum,
        }
    }

    pub fn port_fill(&self, section: &mut [u8]) -> FilledAnswer {
        let (place, value, addend) = (self.place, self.value, self.addend);
        sys::fill(self.r_type, section, self.offset, place, value, addend)
    }
}

/// What filling gives over wild's functions, and wild's own error where it has one.
pub struct Filled {
    pub answer: FilledAnswer,
    pub unwritten: Option<Unwritten>,
}

impl Filled {
    fn refused(refusal: u8, unwritten: Option<Unwritten>) -> Self {
        let filled = false;
        Self {
            answer: FilledAnswer { refusal, filled },
            unwritten,
        }
    }
}

/// Refusals 1, 2, 7, 16, 15: the last two are wild's own, and 16 comes first where both hold.
pub fn fill(field: &Field, section: &mut [u8]) -> Filled {
    if section.len() > SECTION_LIMIT {
        return Filled::refused(1, None);
    }
    if field.offset > section.len() as u64 {
        return Filled::refused(2, None);
    }
    let Some(info) = oracle::relocation_from_raw(field.r_type) else {
        return Filled::refused(7, None);
    };
    if !FILLED_TYPES.contains(&field.r_type) {
        return Filled::refused(0, None);
    }
    let output = &mut section[field.offset as usize..];
    match write_to_buffer(info, field.written(info), output) {
        Ok(()) => Filled {
            answer: FilledAnswer {
                refusal: 0,
                filled: true,
            },
            unwritten: None,
        },
        Err(unwritten) => Filled::refused(refusal(info, output.len()), Some(unwritten)),
    }
}

/// The refusal of what wild doesn't write: 16 where it finds no room for 0 either, which is in every range, else 15.
pub fn refusal(info: RelocationKindInfo, length: usize) -> u8 {
    let mut output = [0; 8];
    let length = length.min(output.len());
    match write_to_buffer(info, 0, &mut output[..length]) {
        Err(Unwritten::Bounds) => 16,
        _ => 15,
    }
}

#[cfg(test)]
mod tests {
    use super::*;
    use libwild::oracle::RelocationSize;

    /// docs/DIFFERENCES.md's smallest input for 16 before 15, and its neighbours with one of the two alone at fault.
    #[test]
    fn both_refusals() {
        let asked = |value, length| {
            let field = Field::of_sum(2, 0, value, 0, 0);
            let (mut port, mut rust) = (vec![0xa5; length], vec![0xa5; length]);
            let (answer, filled) = (field.port_fill(&mut port), fill(&field, &mut rust));
            assert_eq!((answer, &port), (filled.answer, &rust));
            (answer.refusal, filled.unwritten)
        };
        let (edge, range, bounds) = (1 << 31, Some(Unwritten::Range), Some(Unwritten::Bounds));
        assert_eq!(asked(edge, 0), (16, range));
        assert_eq!(asked(edge - 1, 0), (16, bounds));
        assert_eq!(asked(edge, 4), (15, range));
        assert_eq!(asked(edge - 1, 4), (0, None));
    }

    /// docs/DIFFERENCES.md's row of more than 8 bytes.
    #[test]
    #[should_panic(expected = "range end index 9 out of range for slice of length 8")]
    fn a_row_of_nine_bytes() {
        let row = oracle::relocation_from_raw(1).unwrap();
        let size = RelocationSize::ByteSize(9);
        let _ = write_to_buffer(RelocationKindInfo { size, ..row }, 0, &mut [0; 9]);
    }
}

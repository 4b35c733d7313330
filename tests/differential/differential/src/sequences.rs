//! Instruction sequences that can be relaxed.

use crate::relaxation::Record;

/// A relocation type with the bytes around its offset.
#[derive(Debug, Clone, Copy)]
pub struct Sequence {
    pub r_type: u32,
    /// The bytes up to the offset.
    pub before: &'static [u8],
    /// The bytes from the offset on.
    pub after: &'static [u8],
}

const FIELD: &[u8] = &[0; 4];
const WIDE: &[u8] = &[0; 8];

const fn short(r_type: u32, before: &'static [u8]) -> Sequence {
    around(r_type, before, FIELD)
}

const fn around(r_type: u32, before: &'static [u8], after: &'static [u8]) -> Sequence {
    Sequence {
        r_type,
        before,
        after,
    }
}

/// The tails after a thread-local lea.
const CALL: &[u8] = &[0, 0, 0, 0, 0xe8, 0, 0, 0, 0];
const CALL_NO_PLT: &[u8] = &[0, 0, 0, 0, 0xff, 0x15, 0, 0, 0, 0];
const CALL_PADDED: &[u8] = &[0, 0, 0, 0, 0x66, 0x66, 0x48, 0xe8, 0, 0, 0, 0];
const CALL_PADDED_NO_PLT: &[u8] = &[0, 0, 0, 0, 0x66, 0x48, 0xff, 0x15, 0, 0, 0, 0];
const CALL_LARGE: &[u8] = &[
    0, 0, 0, 0, 0x48, 0xb8, 0, 0, 0, 0, 0, 0, 0, 0, 0x48, 0x01, 0xd8, 0xff, 0xd0,
];

pub const SEQUENCES: [Sequence; 46] = [
    short(42, &[0x48, 0x8b, 0x2d]),
    short(42, &[0x4c, 0x8b, 0x05]),
    short(42, &[0x48, 0x2b, 0x35]),
    short(42, &[0x4c, 0x2b, 0x3d]),
    short(42, &[0x48, 0x3b, 0x1d]),
    short(42, &[0x4c, 0x3b, 0x25]),
    short(43, &[0xd5, 0x48, 0x8b, 0x2d]),
    short(43, &[0xd5, 0x4c, 0x8b, 0x05]),
    short(43, &[0xd5, 0x48, 0x2b, 0x35]),
    short(43, &[0xd5, 0x4c, 0x3b, 0x3d]),
    short(43, &[0x90, 0x48, 0x8b, 0x2d]),
    short(41, &[0x8b, 0x2d]),
    short(41, &[0x8b, 0x05]),
    short(41, &[0xff, 0x15]),
    short(41, &[0xff, 0x25]),
    short(9, &[0x48, 0x8b, 0x3d]),
    short(9, &[0x4c, 0x8b, 0x05]),
    short(22, &[0x48, 0x8b, 0x05]),
    short(22, &[0x4c, 0x8b, 0x2d]),
    short(22, &[0x48, 0x03, 0x1d]),
    short(22, &[0x4c, 0x03, 0x25]),
    short(44, &[0xd5, 0x48, 0x8b, 0x05]),
    short(44, &[0xd5, 0x4c, 0x8b, 0x2d]),
    short(44, &[0xd5, 0x48, 0x03, 0x1d]),
    short(44, &[0xd5, 0x4c, 0x03, 0x25]),
    short(50, &[0x62, 0x74, 0xfc, 0x10, 0x03, 0x25]),
    short(50, &[0x62, 0xf4, 0xfc, 0x18, 0x01, 0x05]),
    short(50, &[0x62, 0xe4, 0xfc, 0x14, 0x03, 0x2d]),
    short(50, &[0x62, 0x64, 0x84, 0x04, 0x01, 0x3d]),
    short(4, &[0xe8]),
    short(2, &[0xe8]),
    around(31, &[0x48, 0xb8], WIDE),
    around(19, &[0x66, 0x48, 0x8d, 0x3d], CALL_PADDED),
    around(19, &[0x66, 0x48, 0x8d, 0x3d], CALL_PADDED_NO_PLT),
    around(19, &[0x48, 0x8d, 0x3d], CALL_LARGE),
    around(20, &[0x48, 0x8d, 0x3d], CALL),
    around(20, &[0x48, 0x8d, 0x3d], CALL_NO_PLT),
    around(20, &[0x48, 0x8d, 0x3d], CALL_LARGE),
    short(34, &[0x48, 0x8d, 0x05]),
    short(34, &[0x4c, 0x8d, 0x3d]),
    short(45, &[0xd5, 0x08, 0x8d, 0x05]),
    short(45, &[0xd5, 0x0c, 0x8d, 0x2d]),
    short(45, &[0xd5, 0x48, 0x8d, 0x05]),
    short(45, &[0xd5, 0x4c, 0x8d, 0x3d]),
    around(35, &[], &[0xff, 0x10]),
    // A type that is never relaxed.
    short(1, &[0x48, 0x8b, 0x2d]),
];

impl Sequence {
    /// A record of this sequence with flags 0, output kind 0, address 0.
    pub fn record(&self, offset: usize) -> Record {
        Record {
            r_type: self.r_type,
            offset: offset as u64,
            flags: 0,
            output_kind: 0,
            executable: true,
            address: 0,
            addend: -4,
        }
    }

    /// How far past the offset the call's field lies, where this is the first half of a thread-local pair: behind the
    /// lea's field and an opcode.
    pub fn call(&self) -> Option<u64> {
        let rest = self.after.get(FIELD.len()..)?;
        let opcode = rest.iter().position(|&byte| byte == 0)?;
        matches!(self.r_type, 19 | 20).then_some((FIELD.len() + opcode) as u64)
    }

    /// Writes the bytes into a section so that they meet at the offset; what lies outside is cut.
    pub fn write(&self, section: &mut [u8], offset: usize) {
        for (place, &byte) in self.before.iter().chain(self.after).enumerate() {
            let place = offset.checked_add(place);
            let place = place.and_then(|place| place.checked_sub(self.before.len()));
            if let Some(there) = place.and_then(|place| section.get_mut(place)) {
                *there = byte;
            }
        }
    }
}

#[cfg(test)]
mod tests {
    use super::*;

    #[test]
    fn where_calls_lie() {
        let calls: Vec<_> = SEQUENCES.iter().filter_map(Sequence::call).collect();
        assert_eq!(calls, [8, 8, 6, 5, 6, 6]);
    }
}

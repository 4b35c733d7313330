//! A record's numbers and bytes at random.

use crate::Random;
use crate::relaxation::Record;

/// Small numbers out of one word at random.
pub struct Dice(u64);

impl Dice {
    pub fn new(random: &mut Random) -> Self {
        Self(random.word())
    }

    pub fn roll(&mut self, sides: u64) -> u64 {
        let side = self.0 % sides;
        self.0 /= sides;
        side
    }

    pub fn one_in(&mut self, sides: u64) -> bool {
        self.roll(sides) == 0
    }
}

/// Flags, output kind, address and the like for a record; few are refused.
pub fn numbers(random: &mut Random, record: &mut Record) {
    let mut dice = Dice::new(random);
    record.flags = dice.roll(16) as u8;
    if !dice.one_in(8) {
        record.flags &= 7;
    }
    if !dice.one_in(4) {
        record.flags |= 1;
    }
    record.output_kind = [0, 1, 2, 3, 4, 5, 0, 3][dice.roll(8) as usize];
    record.executable = !dice.one_in(16);
    let near = dice.roll(3) as i64 - 1;
    if dice.one_in(16) {
        record.addend += near;
    }
    record.address = match dice.roll(8) {
        0 => random.signed(64),
        1..3 => [1 << 31, 1 << 32, -1 << 31, 0][dice.roll(4) as usize] + near,
        _ => random.signed(31),
    } as u64;
    match dice.roll(128) {
        0 => record.flags = dice.roll(256) as u8,
        1 => record.output_kind = dice.roll(256) as u8,
        2 => record.offset = random.signed(64) as u64,
        3 => record.addend = random.signed(64),
        4 => record.r_type = random.word() as u32,
        _ => {}
    }
}

/// Changes one byte about the offset: to another of the sequences' bytes, by a bit, or to any.
pub fn change(section: &mut [u8], offset: usize, dice: &mut Dice) {
    const BYTES: [u8; 16] = [
        0x48, 0x4c, 0x8b, 0x2b, 0x3b, 0x03, 0x01, 0x8d, 0xff, 0x15, 0x25, 0xd5, 0x66, 0xe8, 0xb8,
        0x05,
    ];
    // Every second time one of the six before the offset.
    let place = if dice.one_in(2) {
        dice.roll(6)
    } else {
        dice.roll(26)
    };
    let Some(byte) = section.get_mut((offset + place as usize).wrapping_sub(6)) else {
        return;
    };
    *byte = match dice.roll(3) {
        0 => BYTES[dice.roll(16) as usize],
        1 => *byte ^ (1 << dice.roll(8)),
        _ => dice.roll(256) as u8,
    };
}

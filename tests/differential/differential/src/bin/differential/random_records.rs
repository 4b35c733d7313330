//! Records at random: mostly whole sequences, some changed, some cut.

use crate::Comparison;
use crate::relaxing::SHORT;
use crate::relaxing::Section;
use differential::at_random;
use differential::at_random::Dice;
use differential::relaxation;
use differential::relaxation::KIND_NAMES;
use differential::relaxation::Record;
use differential::sequences::SEQUENCES;

impl Comparison {
    pub fn random_records(&mut self) {
        for _ in 0..self.records {
            let (record, section) = self.random_record();
            self.choose(&record, &section);
            self.relax(&record, &section);
            let kind = self.random_kind();
            self.rewrite(kind, record.offset, record.addend, &section);
        }
    }

    pub fn random_record(&mut self) -> (Record, Section) {
        let mut dice = Dice::new(&mut self.random);
        let sequence = &SEQUENCES[dice.roll(SEQUENCES.len() as u64) as usize];
        // Few windows reach past the ends: a panic of wild's takes long.
        let offset = if dice.one_in(32) {
            dice.roll(6)
        } else {
            6 + dice.roll(24)
        };
        let length = if dice.one_in(32) {
            dice.roll(SHORT as u64 + 1) as usize
        } else {
            SHORT
        };
        let (mut record, mut section) = self.record_of(sequence, offset as usize, length);
        if dice.one_in(4) {
            at_random::change(section.lent_mut(), offset as usize, &mut dice);
        }
        if dice.one_in(16) {
            record.r_type = dice.roll(64) as u32;
        }
        at_random::numbers(&mut self.random, &mut record);
        (record, section)
    }

    /// Mostly a kind with an instruction offset that it allows.
    fn random_kind(&mut self) -> (u8, u8) {
        let mut dice = Dice::new(&mut self.random);
        let kind = dice.roll(KIND_NAMES.len() as u64) as u8;
        let allowed = relaxation::inst_offsets(kind);
        let inst_offset = allowed[dice.roll(6) as usize % allowed.len()];
        match dice.roll(64) {
            0 => (dice.roll(256) as u8, inst_offset),
            1..4 => (kind, dice.roll(256) as u8),
            4 => (kind, dice.roll(8) as u8),
            _ => (kind, inst_offset),
        }
    }
}

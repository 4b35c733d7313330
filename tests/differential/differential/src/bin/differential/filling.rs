//! Filling a field in short sections: every type, place and length, every edge of the ranges and of the sums.

use crate::Comparison;
use crate::fill_tally::Part;
use crate::relaxing::SHORT;
use crate::relaxing::Section;
use crate::relaxing::addend_edges;
use crate::relaxing::address_edges;
use crate::relaxing::far_offsets;
use differential::at_random::Dice;
use differential::fill;
use differential::fill::FILLED_TYPES;
use differential::fill::Field;

/// Fields at random, for so many records at random.
const RECORDS_A_FIELD: u64 = 5;

impl Comparison {
    pub fn filling(&mut self) {
        for r_type in types() {
            self.every_length(r_type);
        }
        for r_type in FILLED_TYPES {
            self.every_sum(r_type);
        }
        for _ in 0..self.records / RECORDS_A_FIELD {
            let (field, section) = self.random_field();
            self.fill(Part::Random, &field, &section);
        }
    }

    fn fill(&mut self, part: Part, field: &Field, section: &Section) {
        let mut expected = *section;
        let rust = fill::fill(field, expected.lent_mut());
        self.tally.filling.count(part, field, section.length, &rust);
        if !rust.answer.filled {
            assert_eq!(expected, *section, "the Rust writes nothing");
        }
        let mut after = *section;
        let port = field.port_fill(after.lent_mut());
        self.compare((port, &after.bytes), (rust.answer, &expected.bytes), || {
            format!("filling, {field:x?}, {:x?}", section.lent())
        });
    }

    /// Every offset in sections of every length, with a value in every range and one in none.
    fn every_length(&mut self, r_type: u32) {
        for length in 0..=SHORT {
            let section = self.random_section(length);
            for offset in (0..length as u64 + 3).chain(far_offsets()) {
                for value in [0x1234_5678, 1 << 40] {
                    let field = Field::of_sum(r_type, offset, value, 0, 0);
                    self.fill(Part::Edges, &field, &section);
                }
            }
        }
    }

    /// Values, addends and places at the ends of every range and of 64 bits, in a section that has room and in one
    /// that hasn't.
    fn every_sum(&mut self, r_type: u32) {
        for (length, offset) in [
            (SHORT, 8),
            (SHORT, SHORT as u64 - 4),
            (SHORT, SHORT as u64 - 3),
        ] {
            let section = self.random_section(length);
            for value in address_edges() {
                for addend in addend_edges() {
                    for place in address_edges() {
                        let field = Field {
                            r_type,
                            offset,
                            place,
                            value,
                            addend,
                        };
                        self.fill(Part::Edges, &field, &section);
                    }
                }
            }
        }
    }

    /// Mostly one that is filled. What must be seen of them is counted apart.
    fn random_field(&mut self) -> (Field, Section) {
        let mut dice = Dice::new(&mut self.random);
        let length = if dice.one_in(16) {
            dice.roll(SHORT as u64 + 1) as usize
        } else {
            SHORT
        };
        let r_type = match dice.roll(32) {
            0 => self.random.word() as u32,
            1..5 => dice.roll(64) as u32,
            _ => FILLED_TYPES[dice.roll(4) as usize],
        };
        let offset = match dice.roll(32) {
            0 => self.random.word(),
            1 => (length as u64).wrapping_add_signed(dice.roll(9) as i64 - 5),
            _ => dice.roll(SHORT as u64 - 3),
        };
        // A sum near the range's ends or anywhere, taken apart into three.
        let sum = if dice.one_in(8) {
            self.random.signed(64)
        } else {
            self.random.signed(33)
        };
        let wide = if dice.one_in(2) { 64 } else { 31 };
        let addend = self.random.signed(wide);
        let mut place = self.random.signed(wide) as u64;
        // About 2^63, if it was about 0.
        if dice.one_in(8) {
            place ^= 1 << 63;
        }
        let field = Field::of_sum(r_type, offset, sum as u64, place, addend);
        (field, self.random_section(length))
    }
}

/// Every small number, and such as are known in their low bits alone.
fn types() -> impl Iterator<Item = u32> {
    let far = (8..32).flat_map(|bit| FILLED_TYPES.map(|r_type| r_type | 1 << bit));
    (0..=255).chain(far).chain([u32::MAX])
}

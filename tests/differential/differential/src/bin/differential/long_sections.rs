//! Sections of the greatest length and of one byte more. All zeros but about the offset, where the
//! bytes are compared after each call; all others are looked at once for each offset, and in the
//! longer section once in all.

use crate::Comparison;
use crate::GUARD;
use crate::fill_tally::Part;
use crate::pass::EMPTY;
use crate::relaxing;
use crate::tally::Run;
use differential::around;
use differential::fill;
use differential::fill::Field;
use differential::pass;
use differential::pass::Step;
use differential::pass::port_step;
use differential::pass::port_tally_step;
use differential::relaxation;
use differential::relaxation::Record;
use differential::relaxation::SECTION_LIMIT;
use differential::sequences::SEQUENCES;
use jitamoro::sys::Pass;
use jitamoro::sys::StepAnswer;
use jitamoro::sys::Tally;
use std::fmt::Debug;
use std::ops::Range;

/// Bytes on each side of an offset that are compared after each call.
const NEAR: usize = 32;
pub const FLAGS_AND_KINDS: [(u8, u8); 8] = [
    (0, 3),
    (1, 0),
    (1, 4),
    (3, 1),
    (9, 0),
    (16, 0),
    (1, 6),
    (255, 255),
];

/// With a skip pending, but for that as a fresh one.
const PENDING: Pass = Pass {
    last: 0,
    window: 0,
    pending: 1,
    ended: 0,
};

/// A step from a pass and a fresh tally, and both then.
fn stepped(
    step: Step,
    mut pass: Pass,
    record: &Record,
    section: &mut [u8],
) -> (StepAnswer, Pass, Tally) {
    let mut tally = Tally::default();
    (step(&mut pass, &mut tally, record, section), pass, tally)
}

struct Long {
    bytes: Vec<u8>,
    length: usize,
    near: Range<usize>,
}

impl Long {
    fn lent_mut(&mut self) -> &mut [u8] {
        &mut self.bytes[GUARD..GUARD + self.length]
    }

    /// Stands at an offset, or at the end where it is past.
    fn stand_at(&mut self, offset: u64) {
        let place = GUARD + self.length.min(usize::try_from(offset).unwrap());
        let end = (place + NEAR).min(self.bytes.len());
        self.near = place.saturating_sub(NEAR)..end;
    }

    /// What a call answers, and the bytes that it leaves, which are then as they were.
    fn ask<T>(&mut self, call: impl FnOnce(&mut [u8]) -> T) -> (T, [u8; 2 * NEAR]) {
        let before = self.near();
        let answer = call(self.lent_mut());
        let after = self.near();
        let near = self.near.clone();
        let length = near.len();
        self.bytes[near].copy_from_slice(&before[..length]);
        (answer, after)
    }

    fn near(&self) -> [u8; 2 * NEAR] {
        let mut near = [0; 2 * NEAR];
        near[..self.near.len()].copy_from_slice(&self.bytes[self.near.clone()]);
        near
    }

    fn clear(&mut self) {
        self.bytes[self.near.clone()].fill(0);
    }

    /// Where something else than 0 stands.
    fn written(&self) -> Option<usize> {
        let mut parts = self.bytes.chunks(4096);
        let part = parts.position(|part| *part != [0; 4096][..part.len()])?;
        let bytes = &self.bytes[part * 4096..];
        let place = bytes.iter().position(|&byte| byte != 0).unwrap();
        Some(part * 4096 + place)
    }
}

impl Comparison {
    pub fn long_sections(&mut self) {
        let mut long = Long {
            bytes: vec![0; GUARD + SECTION_LIMIT + 1 + GUARD],
            length: 0,
            near: 0..0,
        };
        for length in [SECTION_LIMIT, SECTION_LIMIT + 1] {
            long.length = length;
            for offset in offsets(length as u64) {
                long.stand_at(offset);
                self.long_records(&mut long, offset);
                self.long_rewriting(&mut long, offset);
                self.long_filling(&mut long, offset);
                if length == SECTION_LIMIT || offset == u64::MAX {
                    self.compare(long.written(), None, || {
                        format!("a byte far from {offset:#x} in a section of {length}")
                    });
                }
            }
        }
    }

    fn long_records(&mut self, long: &mut Long, offset: u64) {
        let place = offset as usize;
        for sequence in &SEQUENCES {
            sequence.write(long.lent_mut(), place);
            for (flags, output_kind) in FLAGS_AND_KINDS {
                let mut record = sequence.record(place);
                record.flags = flags;
                record.output_kind = output_kind;
                self.long_record(long, &record);
            }
            long.clear();
        }
        for (flags, output_kind) in FLAGS_AND_KINDS {
            let mut record = EMPTY.record(place);
            record.flags = flags;
            record.output_kind = output_kind;
            self.long_step(long, PENDING, &record);
        }
    }

    fn long_record(&mut self, long: &mut Long, record: &Record) {
        let rust = long.ask(|section| relaxation::choose(record, section));
        self.tally.choosing.count_choice(&rust.0);
        let port = long.ask(|section| relaxing::port_choose(record, section));
        self.compare_long(long, port, rust, record);
        let rust = long.ask(|section| relaxation::relax(record, section));
        self.tally.relaxing.count_choice(&rust.0.choice);
        let port = long.ask(|section| relaxing::port_relax(record, section));
        self.compare_long(long, port, rust, record);
        self.long_step(long, Pass::default(), record);
    }

    fn long_step(&mut self, long: &mut Long, pass: Pass, record: &Record) {
        let (mut rust, bytes) = long.ask(|it| stepped(pass::tally_step, pass, record, it));
        self.tally.pass.count_step(&rust.0);
        if pass.pending != 0 {
            let (choice, _) = long.ask(|section| relaxation::choose(record, section));
            let pending = &mut self.tally.pending;
            pending.count_step(&mut Run::default(), &pass, record, &choice, &rust.0);
        }
        let port = long.ask(|section| stepped(port_tally_step, pass, record, section));
        self.compare_long(long, port, (rust, bytes), record);
        rust.2 = Tally::default();
        let port = long.ask(|section| stepped(port_step, pass, record, section));
        self.compare_long(long, port, (rust, bytes), record);
    }

    fn long_rewriting(&mut self, long: &mut Long, offset: u64) {
        for kind in 0..=19 {
            for inst_offset in 0..8 {
                let rust =
                    long.ask(|it| relaxation::rewrite(kind, inst_offset, it, offset, i64::MIN));
                let answers = &mut self.tally.rewriting;
                answers.count_rewriting(rust.0.refusal, kind, inst_offset);
                let port =
                    long.ask(|it| jitamoro::sys::apply(kind, inst_offset, it, offset, i64::MIN));
                let input = format!("kind {kind}({inst_offset}), offset {offset:#x}");
                self.compare_long(long, port, rust, &input);
            }
        }
    }

    fn long_filling(&mut self, long: &mut Long, offset: u64) {
        for r_type in [0, 2, 4, 10, 11, 23, 52] {
            for value in [0x1234_5678, -1i64 as u64] {
                let field = Field::of_sum(r_type, offset, value, 0, 0);
                let (rust, bytes) = long.ask(|section| fill::fill(&field, section));
                let tally = &mut self.tally.filling;
                tally.count(Part::Long, &field, long.length, &rust);
                let port = long.ask(|section| field.port_fill(section));
                self.compare_long(long, port, (rust.answer, bytes), &field);
            }
        }
    }

    fn compare_long<T: PartialEq + Debug>(
        &mut self,
        long: &Long,
        port: T,
        rust: T,
        input: &impl Debug,
    ) {
        self.compare(port, rust, || {
            let near = &long.bytes[long.near.clone()];
            format!("section of {}, {input:x?}, near {near:x?}", long.length)
        });
    }
}

/// About both ends, in the midst and past the end.
fn offsets(length: u64) -> impl Iterator<Item = u64> {
    let low = 0..24;
    let midst = [8, 16, 24, 27].into_iter();
    let midst = midst.flat_map(|bit| around(1 << bit, 1).map(|place| place as u64));
    let high = length - 24..length + 3;
    let past = [1 << 31, (1 << 32) + 8, 1 << 63, u64::MAX - 1, u64::MAX];
    low.chain(midst).chain(high).chain(past)
}

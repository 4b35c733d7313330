//! Choosing, rewriting and relaxing in short sections: every number, every byte looked at, every
//! edge.

use crate::Comparison;
use crate::GUARD;
use differential::around;
use differential::ask_port;
use differential::relaxation;
use differential::relaxation::KIND_NAMES;
use differential::relaxation::MOD_RM_KINDS;
use differential::relaxation::Record;
use differential::sequences::SEQUENCES;
use differential::sequences::Sequence;
use jitamoro::sys::ChoiceAnswer;
use jitamoro::sys::MovedAnswer;
use jitamoro::sys::RelaxedAnswer;

/// The longest of the short sections.
pub const SHORT: usize = 48;
/// Where the offset stands in a section with all places that are looked at: 6 before it, 19 after.
pub const OFFSET: usize = 8;
pub const WHOLE: usize = OFFSET + 20;

/// A short section between guard bytes.
#[derive(Debug, Clone, Copy, PartialEq, Eq)]
pub struct Section {
    pub length: usize,
    pub bytes: [u8; GUARD + SHORT + GUARD],
}

impl Section {
    pub fn lent(&self) -> &[u8] {
        &self.bytes[GUARD..GUARD + self.length]
    }

    pub fn lent_mut(&mut self) -> &mut [u8] {
        &mut self.bytes[GUARD..GUARD + self.length]
    }
}

/// Either comparison that takes a record.
type Ask = fn(&mut Comparison, &Record, &Section);

pub fn port_choose(record: &Record, section: &mut [u8]) -> ChoiceAnswer {
    ask_port!(new_relaxation, record, section)
}

pub fn port_relax(record: &Record, section: &mut [u8]) -> RelaxedAnswer {
    ask_port!(relax, record, section)
}

// One input.
impl Comparison {
    pub fn choose(&mut self, record: &Record, section: &Section) {
        let rust = relaxation::choose(record, section.lent());
        self.tally.choosing.count_choice(&rust);
        let mut after = *section;
        let port = port_choose(record, after.lent_mut());
        self.compare((port, &after.bytes), (rust, &section.bytes), || {
            format!("choosing, {record:x?}, {:x?}", section.lent())
        });
    }

    pub fn relax(&mut self, record: &Record, section: &Section) {
        let mut expected = *section;
        let rust = relaxation::relax(record, expected.lent_mut());
        self.tally.relaxing.count_choice(&rust.choice);
        if !rust.choice.chosen {
            assert_eq!(expected, *section, "the Rust writes nothing");
        }
        let mut after = *section;
        let port = port_relax(record, after.lent_mut());
        self.compare((port, &after.bytes), (rust, &expected.bytes), || {
            format!("relaxing, {record:x?}, {:x?}", section.lent())
        });
    }

    pub fn rewrite(&mut self, kind: (u8, u8), offset: u64, addend: i64, section: &Section) {
        let expected = expected_rewriting(kind, offset, addend, section);
        self.compare_rewriting(kind, offset, addend, section, &expected);
    }

    fn compare_rewriting(
        &mut self,
        (kind, inst_offset): (u8, u8),
        offset: u64,
        addend: i64,
        section: &Section,
        (rust, expected): &(MovedAnswer, Section),
    ) {
        let answers = &mut self.tally.rewriting;
        answers.count_rewriting(rust.refusal, kind, inst_offset);
        if rust.refusal == 0 && MOD_RM_KINDS.contains(&kind) {
            self.tally
                .mod_rm
                .count(kind, section.lent()[offset as usize - 1]);
        }
        let mut after = *section;
        let port = jitamoro::sys::apply(kind, inst_offset, after.lent_mut(), offset, addend);
        self.compare((port, &after.bytes), (*rust, &expected.bytes), || {
            let lent = section.lent();
            format!("rewriting, kind {kind}({inst_offset}), {offset:#x}, {addend:#x}, {lent:x?}")
        });
    }
}

/// What wild does, with the difference of refusal 5 looked at too.
fn expected_rewriting(
    (kind, inst_offset): (u8, u8),
    offset: u64,
    addend: i64,
    section: &Section,
) -> (MovedAnswer, Section) {
    let mut expected = *section;
    let rust = relaxation::rewrite(kind, inst_offset, expected.lent_mut(), offset, addend);
    if rust.refusal != 0 {
        assert_eq!(expected, *section, "the Rust writes nothing");
    }
    if rust.refusal == 5 && usize::from(kind) < KIND_NAMES.len() {
        relaxation::assert_goes_on(kind, inst_offset, section.lent(), offset);
    }
    (rust, expected)
}

// Choosing and relaxing.
impl Comparison {
    pub fn choosing(&mut self) {
        assert!(relaxation::rows_tell_new_types());
        self.every_record(Self::choose);
        self.printed_kinds();
    }

    pub fn relaxing(&mut self) {
        self.every_record(Self::relax);
    }

    fn every_record(&mut self, ask: Ask) {
        for sequence in &SEQUENCES {
            self.every_type(sequence, ask);
            self.every_byte(sequence, ask);
            self.every_edge(sequence, ask);
            self.every_place(sequence, ask);
        }
        self.every_number(ask);
    }

    pub fn random_section(&mut self, length: usize) -> Section {
        let mut bytes = [0; GUARD + SHORT + GUARD];
        self.random.fill(&mut bytes);
        Section { length, bytes }
    }

    /// A sequence in a section of random bytes, and its record.
    pub fn record_of(
        &mut self,
        sequence: &Sequence,
        offset: usize,
        length: usize,
    ) -> (Record, Section) {
        let mut section = self.random_section(length);
        sequence.write(section.lent_mut(), offset);
        (sequence.record(offset), section)
    }

    /// With every flag number and output kind that there is.
    fn every_flag_and_kind(&mut self, mut record: Record, section: &Section, ask: Ask) {
        for flags in 0..16 {
            for output_kind in 0..6 {
                record.flags = flags;
                record.output_kind = output_kind;
                ask(self, &record, section);
            }
        }
    }

    fn every_type(&mut self, sequence: &Sequence, ask: Ask) {
        let far = (8..32).map(|bit| sequence.r_type | 1 << bit);
        for r_type in (0..=255).chain(far).chain([u32::MAX]) {
            for executable in [false, true] {
                let (mut record, section) = self.record_of(sequence, OFFSET, WHOLE);
                record.r_type = r_type;
                record.executable = executable;
                self.every_flag_and_kind(record, &section, ask);
            }
        }
    }

    /// Every value of each byte, from 6 before the offset to the section's end.
    fn every_byte(&mut self, sequence: &Sequence, ask: Ask) {
        let (record, section) = self.record_of(sequence, OFFSET, WHOLE);
        for place in OFFSET - 6..WHOLE {
            let mut section = section;
            for value in 0..=255 {
                section.lent_mut()[place] = value;
                self.every_flag_and_kind(record, &section, ask);
            }
        }
    }

    fn every_edge(&mut self, sequence: &Sequence, ask: Ask) {
        let (mut record, section) = self.record_of(sequence, OFFSET, WHOLE);
        for address in address_edges() {
            for addend in addend_edges() {
                record.address = address;
                record.addend = addend;
                self.every_flag_and_kind(record, &section, ask);
            }
        }
    }

    /// Every offset in short sections, with the sequence cut at their ends; and offsets far past.
    fn every_place(&mut self, sequence: &Sequence, ask: Ask) {
        for length in 0..=SHORT {
            for offset in 0..length + 3 {
                let (mut record, section) = self.record_of(sequence, offset, length);
                for (flags, output_kind) in [(0, 3), (1, 0), (1, 4), (3, 1), (9, 0)] {
                    record.flags = flags;
                    record.output_kind = output_kind;
                    ask(self, &record, &section);
                }
            }
        }
        let (mut record, section) = self.record_of(sequence, OFFSET, WHOLE);
        for offset in far_offsets() {
            record.offset = offset;
            self.every_flag_and_kind(record, &section, ask);
        }
    }

    /// Every flag number with every output kind, with the offset inside and past the end.
    fn every_number(&mut self, ask: Ask) {
        let looks_at_no_byte = |it: &&Sequence| matches!(it.r_type, 2 | 4 | 35);
        for sequence in SEQUENCES.iter().filter(looks_at_no_byte) {
            let (mut record, section) = self.record_of(sequence, OFFSET, WHOLE);
            for (flags, output_kind) in (0..=255).flat_map(|f| (0..=255).map(move |k| (f, k))) {
                for offset in [OFFSET, WHOLE + 1] {
                    record.offset = offset as u64;
                    record.flags = flags;
                    record.output_kind = output_kind;
                    ask(self, &record, &section);
                }
            }
        }
    }

    /// The kinds' numbers by the names that wild prints.
    fn printed_kinds(&mut self) {
        for sequence in &SEQUENCES {
            for (flags, output_kind) in [(0, 3), (1, 1), (1, 4), (3, 1), (9, 0)] {
                let (mut record, section) = self.record_of(sequence, OFFSET, WHOLE);
                record.flags = flags;
                record.output_kind = output_kind;
                if let Some((printed, named)) = relaxation::printed_kind(&record, section.lent()) {
                    assert_eq!(printed, named);
                }
            }
        }
    }
}

// Rewriting.
impl Comparison {
    pub fn rewriting(&mut self) {
        for kind in 0..=255 {
            if usize::from(kind) < KIND_NAMES.len() {
                self.every_offset(kind, 0..=SHORT);
                self.every_byte_rewritten(kind);
                if MOD_RM_KINDS.contains(&kind) {
                    self.every_mod_rm(kind);
                }
            } else {
                for length in [0, 3, SHORT] {
                    self.every_offset(kind, length..=length);
                }
            }
        }
    }

    /// Every instruction offset at every offset.
    fn every_offset(&mut self, kind: u8, lengths: std::ops::RangeInclusive<usize>) {
        for length in lengths {
            for offset in (0..length as u64 + 3).chain(far_offsets()) {
                let section = self.random_section(length);
                let addend = self.random.signed(64);
                // A kind that has no instruction offset answers alike for each.
                let same = !relaxation::has_inst_offset(kind);
                let first = expected_rewriting((kind, 0), offset, addend, &section);
                for inst_offset in 0..=255 {
                    let kind = (kind, inst_offset);
                    if same {
                        self.compare_rewriting(kind, offset, addend, &section, &first);
                    } else {
                        self.rewrite(kind, offset, addend, &section);
                    }
                }
            }
        }
    }

    /// Every value of each byte about the offset, with the addends at their edges.
    fn every_byte_rewritten(&mut self, kind: u8) {
        let mut section = self.random_section(WHOLE);
        for &inst_offset in relaxation::inst_offsets(kind) {
            for place in OFFSET - 6..WHOLE {
                for value in 0..=255 {
                    section.lent_mut()[place] = value;
                    self.rewrite((kind, inst_offset), OFFSET as u64, -4, &section);
                }
            }
            for addend in addend_edges() {
                self.rewrite((kind, inst_offset), OFFSET as u64, addend, &section);
            }
        }
    }
}

// Rewriting, by ModRM byte.
impl Comparison {
    /// Every ModRM byte with every byte at the prefix's place: -5 of EVEX, -3 of the others.
    fn every_mod_rm(&mut self, kind: u8) {
        let mut section = self.random_section(WHOLE);
        for &inst_offset in relaxation::inst_offsets(kind) {
            let prefix = OFFSET - if inst_offset == 6 { 5 } else { 3 };
            for (byte, mod_rm) in (0..=255).flat_map(|b| (0..=255).map(move |m| (b, m))) {
                section.lent_mut()[prefix] = byte;
                section.lent_mut()[OFFSET - 1] = mod_rm;
                self.rewrite((kind, inst_offset), OFFSET as u64, -4, &section);
            }
        }
    }
}

/// About the ends of the ranges of types 10 and 11, of 64 bits, and of 0.
pub fn address_edges() -> impl Iterator<Item = u64> {
    let edges = [0, 1 << 31, 1 << 32, -1 << 31, -1 << 32, i64::MIN, i64::MAX];
    let edges = edges.into_iter().flat_map(|edge| around(edge, 1));
    edges.map(|address| address as u64)
}

/// About -4, also where only its low bits are kept, about 0, and the ends.
pub fn addend_edges() -> impl Iterator<Item = i64> {
    let alike = [8, 16, 32, 63].map(|bit| (1i64 << bit).wrapping_sub(4));
    let edges = [-4, 0, -4 - (1 << 32), i64::MIN, i64::MAX];
    let edges = edges.into_iter().flat_map(|edge| around(edge, 1));
    edges.chain(alike)
}

/// Past the end of every short section, also where only the low bits are kept.
pub fn far_offsets() -> impl Iterator<Item = u64> {
    let low_bits = [8, 16, 31, 32, 63].map(|bit| (1 << bit) + OFFSET as u64);
    low_bits.into_iter().chain(u64::MAX - 6..=u64::MAX)
}

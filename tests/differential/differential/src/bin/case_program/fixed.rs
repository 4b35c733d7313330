//! Case files whose shape is fixed: every way to be torn, every refusal, every edge.

use crate::files::CaseFile;
use crate::files::DECIDING;
use crate::files::good_file;
use crate::files::of_type;
use crate::files::section_of;
use differential::Random;
use differential::case_file;
use differential::case_file::EXECUTABLE;
use differential::case_file::FILE_LIMIT;
use differential::case_file::HEAD;
use differential::case_file::LENGTH;
use differential::case_file::SAMPLE;
use differential::case_file::SECTION_LIMIT;
use differential::relaxation::Record;
use differential::sequences::SEQUENCES;
use differential::sequences::Sequence;

/// Where the offset stands in a section with room for every sequence.
const OFFSET: usize = 8;
const WHOLE: usize = OFFSET + 20;
const ADDRESSES: [u64; 10] = [
    0,
    1,
    (1 << 31) - 1,
    1 << 31,
    (1 << 32) - 1,
    1 << 32,
    i64::MAX as u64,
    1 << 63,
    -(1i64 << 31) as u64,
    u64::MAX,
];
const ADDENDS: [i64; 8] = [-4, -5, -3, 0, i64::MIN, i64::MAX, (1 << 32) - 4, 252];

/// Lengths of sections; the last two are refused.
const LENGTHS: [usize; 8] = [
    0,
    1,
    255,
    256,
    SECTION_LIMIT - 1,
    SECTION_LIMIT,
    SECTION_LIMIT + 1,
    0xffff,
];

/// The files, document 01's sample first.
pub fn files(random: &mut Random) -> Vec<CaseFile> {
    let mut files = Files(Vec::new());
    files.add("document 01's sample", SAMPLE.to_vec());
    files.add("an empty file", Vec::new());
    files.torn(random);
    files.one_byte(random);
    files.orders(random);
    files.lengths(random);
    files.limit(random);
    files.full(random);
    files.numbers(random);
    for sequence in &SEQUENCES {
        files.edges(random, sequence);
        files.places(random, sequence);
    }
    files.0
}

struct Files(Vec<CaseFile>);

impl Files {
    fn add(&mut self, name: impl Into<String>, bytes: Vec<u8>) {
        let name = name.into();
        self.0.push(CaseFile { name, bytes });
    }

    /// Three records, cut at every place.
    fn torn(&mut self, random: &mut Random) {
        let file = three_records(random);
        for length in 0..=file.len() {
            self.add(format!("torn after {length}"), file[..length].to_vec());
        }
    }

    /// One byte of a record changed, in the first of three and in the last.
    fn one_byte(&mut self, random: &mut Random) {
        let file = three_records(random);
        for start in [0, 2 * HEAD + 7] {
            for place in DECIDING.map(|place| start + place) {
                let flips = (0..8).map(|bit| file[place] ^ 1 << bit);
                for value in flips.chain([0, 1, 2, 0xff]) {
                    let mut file = file.clone();
                    file[place] = value;
                    self.add(format!("byte {place} is {value}"), file);
                }
            }
        }
    }

    /// Every set of a wrong mark, a wrong executable byte and a wrong length, in a record that is
    /// whole, whose section is short and whose head is; a good record is before it and after.
    fn orders(&mut self, random: &mut Random) {
        let good = good_file(random, HEAD + WHOLE);
        for set in 0..8 {
            let mut wrong = good_file(random, HEAD + WHOLE);
            if set & 1 != 0 {
                wrong[..2].reverse();
            }
            if set & 2 != 0 {
                wrong[EXECUTABLE] = 2;
            }
            if set & 4 != 0 {
                wrong[LENGTH..LENGTH + 2].copy_from_slice(&[1, 16]);
            }
            for cut in [0, 1, WHOLE, WHOLE + 1, HEAD + WHOLE - 1] {
                let short = [&good, &wrong[..wrong.len() - cut]].concat();
                self.add(format!("wrong in ways {set}, cut by {cut}"), short);
            }
            let file = [&good[..], &wrong, &good].concat();
            self.add(format!("wrong in ways {set}, then a good one"), file);
        }
    }

    /// Sections about the longest, whole and a byte short.
    fn lengths(&mut self, random: &mut Random) {
        let sequence = of_type(42);
        for length in LENGTHS {
            let section = section_of(random, sequence, OFFSET, length);
            let record = good_record(sequence, OFFSET.min(length));
            let mut file = Vec::new();
            case_file::write(&mut file, &record, &section);
            let cut = file[..file.len() - 1].to_vec();
            let more = [file.clone(), three_records(random)].concat();
            self.add(format!("a section of {length}"), file);
            self.add(format!("a section of {length}, cut"), cut);
            self.add(format!("a section of {length}, then others"), more);
        }
    }

    /// Records that end at the most bytes that are read, before them and past them.
    fn limit(&mut self, random: &mut Random) {
        for before in (0..=HEAD + 2).chain([HEAD + WHOLE - 1, HEAD + WHOLE, HEAD + WHOLE + 1]) {
            let file = good_file(random, FILE_LIMIT - before);
            let mut more = file.clone();
            more.extend(good_file(random, HEAD + WHOLE));
            let mut wrong = more.clone();
            wrong[FILE_LIMIT - before] = 0;
            let mut empty = file.clone();
            case_file::write(&mut empty, &good_record(of_type(4), 0), &[]);
            self.add(format!("{before} bytes below the limit"), file);
            self.add(format!("a record {before} below the limit"), more);
            self.add(format!("a wrong mark {before} below the limit"), wrong);
            self.add(format!("an empty section {before} below the limit"), empty);
        }
        for past in [1, 2, HEAD - 1, HEAD, 100, FILE_LIMIT, 16 * FILE_LIMIT] {
            let good = good_file(random, FILE_LIMIT + past);
            self.add(format!("{past} bytes past the limit"), good);
            let mut other = good_file(random, FILE_LIMIT);
            other.extend(vec![0xff; past]);
            self.add(format!("{past} other bytes past the limit"), other);
        }
    }

    /// As many records as there can be, and as many of the longest.
    fn full(&mut self, random: &mut Random) {
        let mut record = good_record(of_type(4), 0);
        record.addend = i64::MIN;
        for length in [0, SECTION_LIMIT] {
            let section = section_of(random, of_type(4), 0, length);
            let mut file = Vec::new();
            while file.len() < FILE_LIMIT {
                case_file::write(&mut file, &record, &section);
            }
            self.add(format!("full of sections of {length}"), file);
        }
    }

    /// Every type, flag number and output kind.
    fn numbers(&mut self, random: &mut Random) {
        let sequence = of_type(42);
        let section = section_of(random, sequence, OFFSET, WHOLE);
        let mut files = [const { Vec::new() }; 3];
        for number in 0..=255 {
            let mut records = [good_record(sequence, OFFSET); 3];
            records[0].r_type = number.into();
            records[1].flags = number;
            records[2].output_kind = number;
            for (file, record) in files.iter_mut().zip(&records) {
                case_file::write(file, record, &section);
            }
        }
        let names = ["every type", "every flag number", "every output kind"];
        for (name, file) in names.into_iter().zip(files) {
            self.add(name, file);
        }
    }

    /// A sequence with addresses and addends at their edges.
    fn edges(&mut self, random: &mut Random, sequence: &Sequence) {
        let section = section_of(random, sequence, OFFSET, WHOLE);
        let mut file = Vec::new();
        for (flags, output_kind) in [(1, 0), (3, 1), (0, 3), (8, 4)] {
            for (address, addend) in ADDRESSES.iter().flat_map(|a| ADDENDS.map(|it| (*a, it))) {
                let mut record = good_record(sequence, OFFSET);
                (record.flags, record.output_kind) = (flags, output_kind);
                (record.address, record.addend) = (address, addend);
                case_file::write(&mut file, &record, &section);
            }
        }
        self.add(format!("edges of {sequence:x?}"), file);
    }

    /// A sequence at every offset of short sections, and at offsets past the end.
    fn places(&mut self, random: &mut Random, sequence: &Sequence) {
        let mut file = Vec::new();
        for length in [0, 1, 2, 3, 4, 6, 7, 12, WHOLE] {
            for offset in (0..length + 3).chain([255, 256, 0x8000, 0xffff]) {
                let section = section_of(random, sequence, offset, length);
                case_file::write(&mut file, &good_record(sequence, offset), &section);
            }
        }
        self.add(format!("places of {sequence:x?}"), file);
    }
}

fn good_record(sequence: &Sequence, offset: usize) -> Record {
    let mut record = sequence.record(offset);
    record.flags = 1;
    record
}

/// Sections of 7 bytes, of none and of 12.
fn three_records(random: &mut Random) -> Vec<u8> {
    let mut file = Vec::new();
    let sequences = [42, 4, 20].map(of_type);
    for (sequence, (offset, length)) in sequences.into_iter().zip([(3, 7), (0, 0), (3, 12)]) {
        let section = section_of(random, sequence, offset, length);
        case_file::write(&mut file, &good_record(sequence, offset), &section);
    }
    file
}

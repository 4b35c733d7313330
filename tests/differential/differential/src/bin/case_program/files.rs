//! Case files at random, and good ones.

use differential::Random;
use differential::at_random;
use differential::at_random::Dice;
use differential::case_file;
use differential::case_file::EXECUTABLE;
use differential::case_file::FILE_LIMIT;
use differential::case_file::FLAGS;
use differential::case_file::HEAD;
use differential::case_file::LENGTH;
use differential::case_file::OUTPUT_KIND;
use differential::case_file::SECTION_LIMIT;
use differential::relaxation::Record;
use differential::sequences::SEQUENCES;
use differential::sequences::Sequence;

pub struct CaseFile {
    pub name: String,
    pub bytes: Vec<u8>,
}

/// Places in a record whose bytes decide a refusal.
pub const DECIDING: [usize; 7] = [0, 1, EXECUTABLE, LENGTH, LENGTH + 1, FLAGS, OUTPUT_KIND];
/// The longest record of a good file but its last.
const GOOD_RECORD: usize = HEAD + 64;

/// A file in which no record is refused, of just so many bytes; of none below a record's head.
pub fn good_file(random: &mut Random, size: usize) -> Vec<u8> {
    let mut file = Vec::new();
    while size - file.len() > 2 * GOOD_RECORD {
        let length = 32 + random.word() as usize % 33;
        append_good(&mut file, random, length);
    }
    if size >= HEAD {
        let length = size - file.len() - HEAD;
        append_good(&mut file, random, length);
    }
    file
}

/// A whole sequence; where there is no room for it, a call, which is relaxed whatever the bytes are.
fn append_good(file: &mut Vec<u8>, random: &mut Random, length: usize) {
    let mut dice = Dice::new(random);
    let mut sequence = any_sequence(&mut dice);
    let room = length.checked_sub(sequence.before.len() + sequence.after.len());
    if room.is_none() {
        sequence = of_type(4);
    }
    let begin = dice.roll(room.unwrap_or(0) as u64 + 1) as usize;
    let offset = (begin + sequence.before.len()).min(length);
    let section = section_of(random, sequence, offset, length);
    let mut record = sequence.record(offset);
    record.flags = [1, 3, 1, 0][dice.roll(4) as usize];
    record.output_kind = dice.roll(4) as u8;
    case_file::write(file, &record, &section);
}

fn any_sequence(dice: &mut Dice) -> &'static Sequence {
    &SEQUENCES[dice.roll(SEQUENCES.len() as u64) as usize]
}

/// The first sequence of a type.
pub fn of_type(r_type: u32) -> &'static Sequence {
    let mut sequences = SEQUENCES.iter();
    sequences.find(|it| it.r_type == r_type).unwrap()
}

/// A sequence in a section of random bytes.
pub fn section_of(
    random: &mut Random,
    sequence: &Sequence,
    offset: usize,
    length: usize,
) -> Vec<u8> {
    let mut section = vec![0; length];
    random.fill(&mut section);
    sequence.write(&mut section, offset);
    section
}

pub fn random_file(random: &mut Random, number: u64) -> CaseFile {
    let mut dice = Dice::new(random);
    let mut bytes = Vec::new();
    let mut starts = Vec::new();
    let size = match dice.roll(16) {
        0 => FILE_LIMIT + dice.roll(8_000) as usize - 4_000,
        1 => dice.roll(FILE_LIMIT as u64) as usize,
        _ => dice.roll(2_000) as usize,
    };
    while bytes.len() < size {
        starts.push(bytes.len());
        let (record, section) = random_record(random);
        case_file::write(&mut bytes, &record, &section);
    }
    let name = format!("file {number} at random");
    if starts.is_empty() || dice.one_in(2) {
        return CaseFile { name, bytes };
    }
    spoiled(bytes, &starts, &mut dice, name)
}

fn random_record(random: &mut Random) -> (Record, Vec<u8>) {
    let mut dice = Dice::new(random);
    let sequence = any_sequence(&mut dice);
    let length = match dice.roll(32) {
        0 => SECTION_LIMIT as u64 - dice.roll(3),
        1 => dice.roll(600),
        2..6 => dice.roll(32),
        _ => 24 + dice.roll(40),
    } as usize;
    let offset = match dice.roll(8) {
        0 => dice.roll(8) as usize,
        1 => length.saturating_sub(dice.roll(24) as usize),
        _ => dice.roll(length as u64 + 1) as usize,
    };
    let mut section = section_of(random, sequence, offset, length);
    if dice.one_in(8) {
        at_random::change(&mut section, offset, &mut dice);
    }
    let mut record = sequence.record(offset);
    at_random::numbers(random, &mut record);
    (record, section)
}

/// One byte changed, the end cut off, or bytes appended.
fn spoiled(mut bytes: Vec<u8>, starts: &[usize], dice: &mut Dice, name: String) -> CaseFile {
    let start = starts[dice.roll(starts.len() as u64) as usize];
    let any_place = dice.roll(bytes.len() as u64) as usize;
    let what = match dice.roll(6) {
        0..3 => {
            let place = start + DECIDING[dice.roll(DECIDING.len() as u64) as usize];
            bytes[place] = bytes[place].wrapping_add(1 + dice.roll(255) as u8);
            format!("byte {place} changed")
        }
        3 => {
            bytes[any_place] ^= 1 << dice.roll(8);
            format!("byte {any_place} changed")
        }
        4 => {
            bytes.truncate(any_place);
            "cut".to_string()
        }
        _ => {
            let more = 1 + dice.roll(40) as usize;
            bytes.extend_from_within(..more.min(bytes.len()));
            format!("{more} bytes more")
        }
    };
    let name = format!("{name}, {what}");
    CaseFile { name, bytes }
}

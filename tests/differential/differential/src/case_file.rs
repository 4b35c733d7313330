//! Document 01's case file, and what the case program prints for it, by wild's choosing and
//! rewriting.

use crate::relaxation;
use crate::relaxation::Record;
use jitamoro::sys::RelaxedAnswer;

pub const MARK: [u8; 2] = [0x52, 0x58];
/// The bytes of a record before its section, and where some of them stand.
pub const HEAD: usize = 26;
pub const FLAGS: usize = 3;
pub const OUTPUT_KIND: usize = 4;
pub const EXECUTABLE: usize = 5;
pub const LENGTH: usize = 8;
/// The longest section of a record.
pub const SECTION_LIMIT: usize = 4_096;
/// The most bytes that are read.
pub const FILE_LIMIT: usize = 65_536;

/// Document 01's sample.
pub const SAMPLE: [u8; 59] = [
    0x52, 0x58, 0x2a, 0x01, 0x00, 0x01, 0x03, 0x00, 0x07, 0x00, 0x00, 0x10, 0x40, 0x00, 0x00, 0x00,
    0x00, 0x00, 0xfc, 0xff, 0xff, 0xff, 0xff, 0xff, 0xff, 0xff, 0x4c, 0x8b, 0x2d, 0x00, 0x00, 0x00,
    0x00, 0x52, 0x58, 0x02, 0x08, 0x04, 0x00, 0x00, 0x00, 0x00, 0x00, 0x00, 0x00, 0x00, 0x00, 0x00,
    0x00, 0x00, 0x00, 0xfc, 0xff, 0xff, 0xff, 0xff, 0xff, 0xff, 0xff,
];
pub const SAMPLE_LINES: &str = "\
1 2 3 3 0 11 0 0 49c7c500000000
2 9 0 0 -4 4 0 1 -
";

/// A record's answer and the section after it, which is empty where the record wasn't read.
#[derive(Default)]
pub struct Line {
    pub relaxed: RelaxedAnswer,
    pub section: Vec<u8>,
}

/// Appends a record; of its type and offset the low bits.
pub fn write(file: &mut Vec<u8>, record: &Record, section: &[u8]) {
    file.extend(MARK);
    file.extend([record.r_type as u8, record.flags, record.output_kind]);
    file.push(record.executable.into());
    file.extend((record.offset as u16).to_le_bytes());
    file.extend((section.len() as u16).to_le_bytes());
    file.extend(record.address.to_le_bytes());
    file.extend(record.addend.to_le_bytes());
    file.extend(section);
}

/// What the case program says of a file, line by line.
pub fn lines(file: &[u8]) -> Vec<Line> {
    let mut rest = &file[..file.len().min(FILE_LIMIT)];
    let mut lines = Vec::new();
    while !rest.is_empty() {
        let mut line = Line::default();
        match read(&mut rest) {
            Ok((record, section)) => {
                line.section = section.to_vec();
                line.relaxed = relaxation::relax(&record, &mut line.section);
            }
            Err(refusal) => {
                line.relaxed.choice.refusal = refusal;
                rest = &[];
            }
        }
        lines.push(line);
    }
    lines
}

/// One record and its section, or refusals 10 to 13.
fn read<'file>(rest: &mut &'file [u8]) -> Result<(Record, &'file [u8]), u8> {
    let (head, after) = rest.split_first_chunk::<HEAD>().ok_or(11)?;
    if !head.starts_with(&MARK) {
        return Err(10);
    }
    if head[EXECUTABLE] > 1 {
        return Err(12);
    }
    let number = |place| u16::from_le_bytes([head[place], head[place + 1]]);
    let wide = |place| u64::from_le_bytes(head[place..place + 8].try_into().unwrap());
    let length = usize::from(number(LENGTH));
    if length > SECTION_LIMIT {
        return Err(13);
    }
    let (section, after) = after.split_at_checked(length).ok_or(11)?;
    *rest = after;
    let record = Record {
        r_type: head[2].into(),
        flags: head[FLAGS],
        output_kind: head[OUTPUT_KIND],
        executable: head[EXECUTABLE] == 1,
        offset: number(6).into(),
        address: wide(10),
        addend: wide(18) as i64,
    };
    Ok((record, section))
}

/// The lines as they are printed.
pub fn text(lines: &[Line]) -> String {
    let numbered = lines.iter().zip(1..);
    let printed = numbered.map(|(line, number)| format!("{number} {}\n", words(line)));
    printed.collect()
}

fn words(line: &Line) -> String {
    let RelaxedAnswer {
        choice,
        offset,
        addend,
    } = &line.relaxed;
    let hex = hex(&line.section);
    if choice.refusal != 0 {
        return format!("refused {} {hex}", choice.refusal);
    }
    if !choice.chosen {
        return format!("none {hex}");
    }
    let (kind, inst_offset, new_type) = (choice.kind, choice.inst_offset, choice.new_type);
    let [skip, mandatory] = [choice.skip_next, choice.mandatory].map(u8::from);
    format!("{kind} {inst_offset} {offset} {addend} {new_type} {skip} {mandatory} {hex}")
}

/// Small letters, or "-" where there is no byte.
pub fn hex(bytes: &[u8]) -> String {
    if bytes.is_empty() {
        return "-".to_string();
    }
    bytes.iter().map(|byte| format!("{byte:02x}")).collect()
}

#[cfg(test)]
mod tests {
    use super::*;

    #[test]
    fn sample() {
        assert_eq!(text(&lines(&SAMPLE)), SAMPLE_LINES);
    }

    #[test]
    fn written_records_are_read() {
        let lines = lines(&SAMPLE);
        let mut rest = &SAMPLE[..];
        let mut file = Vec::new();
        for _ in &lines {
            let (record, section) = read(&mut rest).unwrap();
            write(&mut file, &record, section);
        }
        assert_eq!(file, SAMPLE);
    }
}

//! The list of choosing, rewriting and relaxing: a line for each record of 140 bytes in hex,
//! numbers low byte first. Zeros fill what a record does not have.
//!
//! | Bytes | Asked |
//! |---|---|
//! | 0 | 1 choosing, 2 rewriting, 3 relaxing, 6 what a relaxation of any new type tells |
//! | 1 to 4 | type; for rewriting kind, instruction offset, 0, 0; for 6 the new type |
//! | 5, 6, 7 | flags, output kind, executable; for 6 kind, instruction offset, mandatory |
//! | 8 to 31 | offset, address, addend, of 8 bytes each |
//! | 32, 33 to 72 | the section's length, its bytes |
//!
//! | Bytes | Answered |
//! |---|---|
//! | 73 | refusal or 0 |
//! | 74 | 1 if chosen or done |
//! | 75, 76, 77 to 80 | kind, instruction offset, new type |
//! | 81, 82, 83 | mandatory, skip next, needs GOT fallback |
//! | 84 to 99 | offset, addend, of 8 bytes each |
//! | 100 to 139 | the section's bytes |

use differential::Random;
use differential::around;
use differential::relaxation;
use differential::relaxation::KIND_NAMES;
use differential::relaxation::MOD_RM_KINDS;
use differential::relaxation::Record;
use differential::sequences::SEQUENCES;
use differential::sequences::Sequence;
use jitamoro::sys::ChoiceAnswer;
use jitamoro::sys::RelaxedAnswer;
use libwild::oracle;
use libwild::oracle::RelocationKind;
use libwild::oracle::RelocationModifier;

const SEED: u64 = 1;
const LINE_LENGTH: usize = 140;
/// The most bytes that a section has.
const LONGEST: usize = 40;
const OFFSET: usize = 8;
const CHOOSING: u8 = 1;
const REWRITING: u8 = 2;
const RELAXING: u8 = 3;
const TELLING: u8 = 6;

pub fn write() {
    let mut random = Random::new(SEED);
    for sequence in &SEQUENCES {
        flags_and_kinds(sequence, &mut random);
        changed_bytes(sequence, &mut random);
        cut(sequence, &mut random);
    }
    (0..64)
        .chain(far_types())
        .for_each(|r_type| type_number(r_type, &mut random));
    ifunc(&mut random);
    edges(&mut random);
    refusals(&mut random);
    (0..19).for_each(|kind| rewritings(kind, &mut random));
    inst_offsets(&mut random);
    mod_rm_bytes(&mut random);
    (0..64).chain(far_types()).for_each(tells);
}

fn section_of(sequence: &Sequence, random: &mut Random) -> [u8; LONGEST] {
    let mut section = [0; LONGEST];
    random.fill(&mut section);
    sequence.write(&mut section, OFFSET);
    section
}

fn record_of(sequence: &Sequence, flags: u8, output_kind: u8) -> Record {
    Record {
        flags,
        output_kind,
        ..sequence.record(OFFSET)
    }
}

fn flags_and_kinds(sequence: &Sequence, random: &mut Random) {
    let section = section_of(sequence, random);
    for output_kind in 0..6 {
        relax(&record_of(sequence, 1, output_kind), &section);
    }
    relax(&record_of(sequence, 0, 3), &section);
    relax(&record_of(sequence, 11, 2), &section);
    for flags in [0, 2, 3, 4, 5, 7, 8, 9] {
        choose(&record_of(sequence, flags, 1), &section);
    }
    let mut record = record_of(sequence, 1, 1);
    record.executable = false;
    choose(&record, &section);
}

/// Each byte that is looked at with a bit turned; of the first record of type 50, with each bit.
fn changed_bytes(sequence: &Sequence, random: &mut Random) {
    let section = section_of(sequence, random);
    let start = OFFSET - sequence.before.len();
    let looked_at = sequence.before.iter().chain(sequence.after).enumerate();
    for (place, _) in looked_at.filter(|(_, byte)| **byte != 0) {
        let bit = random.word() % 8;
        let bits = if sequence.before.starts_with(&[0x62, 0x74]) {
            0..8
        } else {
            bit..bit + 1
        };
        for bit in bits {
            let mut section = section;
            section[start + place] ^= 1 << bit;
            choose(&record_of(sequence, 1, 1), &section);
        }
    }
}

/// The sequence alone, then with a byte less at its front, then at its end; a thread-local one also
/// about the end of what is looked at.
fn cut(sequence: &Sequence, random: &mut Random) {
    let section = section_of(sequence, random);
    let start = OFFSET - sequence.before.len();
    let end = OFFSET + sequence.after.len();
    for (start, end) in [(start, end), (start + 1, end), (start, end - 1)] {
        let mut record = record_of(sequence, 1, 1);
        record.offset = (OFFSET - start.min(OFFSET)) as u64;
        relax(&record, &section[start..end]);
    }
    if matches!(sequence.r_type, 19 | 20) {
        for end in OFFSET + 5..OFFSET + 9 {
            choose(&record_of(sequence, 1, 1), &section[..end]);
        }
    }
}

/// Powers of two, and types that are relaxed in all but their high bytes.
fn far_types() -> impl Iterator<Item = u32> {
    let alike = [8, 16, 24]
        .into_iter()
        .flat_map(|shift| [4, 35, 42].map(|r_type| r_type | 1 << shift));
    let powers = [6, 7, 8, 16, 31].map(|bit| 1 << bit);
    powers.into_iter().chain(alike).chain([u32::MAX])
}

/// A type with its own bytes, or where it has none with those of type 42.
fn type_number(r_type: u32, random: &mut Random) {
    let own = SEQUENCES.iter().find(|it| it.r_type == r_type);
    let sequence = own.unwrap_or(&SEQUENCES[0]);
    let section = section_of(sequence, random);
    let mut record = record_of(sequence, 1, 0);
    record.r_type = r_type;
    choose(&record, &section);
}

/// Type 2 with an ifunc, which is relaxed in sections of both sorts.
fn ifunc(random: &mut Random) {
    let sequence = SEQUENCES.iter().find(|it| it.r_type == 2).unwrap();
    let section = section_of(sequence, random);
    for (output_kind, executable) in (0..6).flat_map(|k| [(k, false), (k, true)]) {
        let mut record = record_of(sequence, 8, output_kind);
        record.executable = executable;
        relax(&record, &section);
    }
}

/// Addresses at the ends of the ranges of types 10 and 11; addends about -4 and at the ends.
fn edges(random: &mut Random) {
    let first = |r_type| SEQUENCES.iter().find(move |it| it.r_type == r_type);
    let ends = [0, 1 << 31, 1 << 32, -1 << 31, i64::MAX];
    for sequence in [41, 42, 43].into_iter().filter_map(first) {
        let section = section_of(sequence, random);
        for (flags, output_kind) in [(1, 0), (3, 1), (1, 1)] {
            for address in ends.into_iter().flat_map(|end| around(end, 1)) {
                let mut record = record_of(sequence, flags, output_kind);
                record.address = address as u64;
                choose(&record, &section);
            }
        }
    }
    for sequence in (0..64).filter_map(first) {
        let section = section_of(sequence, random);
        for addend in [-5, -3, 0, i64::MIN, i64::MAX, (1 << 32) - 4] {
            let mut record = record_of(sequence, 1, 0);
            record.addend = addend;
            relax(&record, &section);
        }
    }
}

/// Refusals 2, 3 and 4, each also before those that come after it.
fn refusals(random: &mut Random) {
    let sequence = &SEQUENCES[0];
    let section = section_of(sequence, random);
    let past = LONGEST as u64 + 1;
    for (offset, flags, output_kind) in [
        (past, 1, 0),
        (past, 16, 0),
        (past, 1, 6),
        (past, 255, 255),
        (u64::MAX, 1, 0),
        (1 << 63, 1, 0),
        ((1 << 32) + OFFSET as u64, 1, 0),
        (LONGEST as u64, 1, 0),
        (OFFSET as u64, 16, 0),
        (OFFSET as u64, 17, 6),
        (OFFSET as u64, 255, 5),
        (OFFSET as u64, 15, 6),
        (OFFSET as u64, 15, 255),
        (OFFSET as u64, 15, 5),
    ] {
        let mut record = record_of(sequence, flags, output_kind);
        record.offset = offset;
        choose(&record, &section);
        relax(&record, &section);
    }
}

/// A kind with other bytes each time, at both ends of its window, and past the section's end.
fn rewritings(kind: u8, random: &mut Random) {
    let mut section = [0; LONGEST];
    for &inst_offset in relaxation::inst_offsets(kind) {
        for _ in 0..6 {
            random.fill(&mut section);
            let addend = random.signed(64);
            rewrite((kind, inst_offset), OFFSET as u64, addend, &section);
        }
        let (before, after) = relaxation::window(kind, inst_offset);
        for offset in around(before, 1).filter(|&offset| offset >= 0) {
            rewrite((kind, inst_offset), offset as u64, -4, &section);
            let end = (offset + after.max(0)) as usize;
            rewrite((kind, inst_offset), offset as u64, -4, &section[..end]);
            let short = end.saturating_sub(1);
            rewrite((kind, inst_offset), offset as u64, -4, &section[..short]);
        }
        for offset in [LONGEST as u64 + 1, (1 << 32) + OFFSET as u64, u64::MAX] {
            rewrite((kind, inst_offset), offset, -4, &section);
        }
    }
}

/// The low instruction offsets with each kind and some numbers of none, every one with the kinds by
/// turns; also where the window isn't inside.
fn inst_offsets(random: &mut Random) {
    let mut section = [0; LONGEST];
    random.fill(&mut section);
    let kinds = (0..=KIND_NAMES.len() as u8).chain([20, 32, 128, 255]);
    for kind in kinds {
        for inst_offset in (0..8).chain([255]) {
            rewrite((kind, inst_offset), OFFSET as u64, -4, &section);
        }
        rewrite((kind, 5), 0, -4, &section);
        rewrite((kind, 5), 1, -4, &[]);
    }
    for inst_offset in 0..=255 {
        let kind = [2, 3, 4, 5, 6, 16][usize::from(inst_offset) % 6];
        rewrite((kind, inst_offset), OFFSET as u64, -4, &section);
    }
}

/// Each ModRM byte once, with the kinds that read one by turns.
fn mod_rm_bytes(random: &mut Random) {
    let mut section = [0; LONGEST];
    for mod_rm in 0..=255 {
        let kind = MOD_RM_KINDS[usize::from(mod_rm) % MOD_RM_KINDS.len()];
        random.fill(&mut section);
        section[OFFSET - 1] = mod_rm;
        let inst_offset = relaxation::inst_offsets(kind)[0];
        rewrite((kind, inst_offset), OFFSET as u64, -4, &section);
    }
}

fn choose(record: &Record, section: &[u8]) {
    let answer = RelaxedAnswer {
        choice: relaxation::choose(record, section),
        ..Default::default()
    };
    line(CHOOSING, record, section, &answer, section);
}

fn relax(record: &Record, section: &[u8]) {
    let mut after = section.to_vec();
    let answer = relaxation::relax(record, &mut after);
    line(RELAXING, record, section, &answer, &after);
}

fn rewrite((kind, inst_offset): (u8, u8), offset: u64, addend: i64, section: &[u8]) {
    let mut after = section.to_vec();
    let moved = relaxation::rewrite(kind, inst_offset, &mut after, offset, addend);
    let record = Record {
        r_type: u32::from_le_bytes([kind, inst_offset, 0, 0]),
        offset,
        flags: 0,
        output_kind: 0,
        executable: false,
        address: 0,
        addend,
    };
    let answer = RelaxedAnswer {
        choice: ChoiceAnswer {
            refusal: moved.refusal,
            chosen: moved.refusal == 0,
            ..Default::default()
        },
        offset: moved.offset,
        addend: moved.addend,
    };
    line(REWRITING, &record, section, &answer, &after);
}

/// A relaxation to any type, by the kinds in turn. Wild's holds the row of a known type; where there is none,
/// nothing needs a GOT entry to fall back on.
fn tells(new_type: u32) {
    let kind = (new_type % 19) as u8;
    let inst_offset = *relaxation::inst_offsets(kind).last().unwrap();
    let modifier = relaxation::relaxation_kind(kind, inst_offset)
        .unwrap()
        .next_modifier();
    let mandatory = new_type % 2 == 1;
    let row = oracle::relocation_from_raw(new_type);
    let answer = RelaxedAnswer {
        choice: ChoiceAnswer {
            chosen: true,
            kind,
            inst_offset,
            mandatory,
            skip_next: modifier == RelocationModifier::SkipNextRelocation,
            needs_got_fallback: row.is_some_and(|row| row.kind == RelocationKind::Absolute),
            new_type,
            ..Default::default()
        },
        ..Default::default()
    };
    let record = Record {
        r_type: new_type,
        offset: 0,
        flags: kind,
        output_kind: inst_offset,
        executable: mandatory,
        address: 0,
        addend: 0,
    };
    line(TELLING, &record, &[], &answer, &[]);
}

fn line(function: u8, record: &Record, before: &[u8], answer: &RelaxedAnswer, after: &[u8]) {
    let choice = &answer.choice;
    if !choice.chosen {
        assert_eq!(before, after, "the Rust writes nothing");
    }
    let bytes = [
        &[function][..],
        &record.r_type.to_le_bytes(),
        &[record.flags, record.output_kind, record.executable.into()],
        &record.offset.to_le_bytes(),
        &record.address.to_le_bytes(),
        &record.addend.to_le_bytes(),
        &[before.len() as u8],
        &padded(before),
        &[choice.refusal, choice.chosen.into()],
        &[choice.kind, choice.inst_offset],
        &choice.new_type.to_le_bytes(),
        &[choice.mandatory.into(), choice.skip_next.into()],
        &[choice.needs_got_fallback.into()],
        &answer.offset.to_le_bytes(),
        &answer.addend.to_le_bytes(),
        &padded(after),
    ]
    .concat();
    assert_eq!(bytes.len(), LINE_LENGTH);
    let hex: String = bytes.iter().map(|byte| format!("{byte:02x}")).collect();
    println!("{hex}");
}

fn padded(section: &[u8]) -> [u8; LONGEST] {
    let mut bytes = [0; LONGEST];
    bytes[..section.len()].copy_from_slice(section);
    bytes
}

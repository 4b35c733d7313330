//! Writes a sample of wild's answers, for the port's replay program to check where the Rust isn't
//! at hand: a line for each record of 40 bytes in hex. A record's first byte says what it is, its
//! fields follow without gaps, numbers low byte first, and zeros fill the rest. Where wild differs as
//! docs/DIFFERENCES.md says, its own answer is seen to be that, and the line has the port's. With the
//! word `relax` it writes the other list, of choosing, rewriting and relaxing.

mod relax;

use differential::DYNAMIC_KINDS;
use differential::KNOWN_TYPES;
use differential::Random;
use differential::around;
use differential::byte_size;
use differential::fill;
use differential::fill::Field;
use differential::fill::Unwritten;
use differential::kind_number;
use libwild::oracle;
use libwild::oracle::AllowedRange;
use libwild::oracle::Sign;
use std::collections::BTreeSet;
use std::process::ExitCode;

const SEED: u64 = 1;
const RECORD_LENGTH: usize = 40;
/// What a buffer holds before a call.
const BEFORE: u8 = 0xa5;

fn main() -> ExitCode {
    differential::silence_wild_panics();
    let words: Vec<String> = std::env::args().skip(1).collect();
    match words.iter().map(String::as_str).collect::<Vec<_>>()[..] {
        [] => below(),
        ["relax"] => relax::write(),
        _ => {
            eprintln!("replay_list: no word, or `relax`");
            return ExitCode::from(2);
        }
    }
    ExitCode::SUCCESS
}

fn below() {
    let mut random = Random::new(SEED);
    (0..6).for_each(output_kind);
    (0..16).for_each(value_flags);
    (0..64).chain(far_types()).for_each(lookup);
    (0..10).for_each(dynamic_type);
    plt_entries(&mut random);
    for executable in [false, true] {
        (0..=16).for_each(|length| padding(executable, length));
    }
    KNOWN_TYPES
        .into_iter()
        .for_each(|r_type| contains(r_type, &mut random));
    [1, 2, 4, 8].into_iter().for_each(byte_sizes);
    KNOWN_TYPES.into_iter().for_each(writes);
    fills();
}

fn record(fields: &[&[u8]]) {
    let mut bytes = fields.concat();
    assert!(bytes.len() <= RECORD_LENGTH);
    bytes.resize(RECORD_LENGTH, 0);
    let hex: String = bytes.iter().map(|byte| format!("{byte:02x}")).collect();
    println!("{hex}");
}

fn output_kind(number: u8) {
    let kind = oracle::OutputKind::from_number(number).unwrap();
    record(&[&[
        1,
        number,
        kind.is_executable().into(),
        kind.is_static_executable().into(),
        kind.is_position_independent().into(),
        kind.has_fixed_load_address().into(),
    ]]);
}

fn value_flags(number: u8) {
    let flags = oracle::ValueFlags::from_number(number).unwrap();
    record(&[&[
        2,
        number,
        flags.is_dynamic().into(),
        flags.is_ifunc().into(),
        flags.has_link_time_address().into(),
        flags.is_absolute().into(),
        flags.is_interposable().into(),
    ]]);
}

/// Types above 63: powers of two, and known types in all but their high bytes.
fn far_types() -> impl Iterator<Item = u32> {
    let powers = (6..32).map(|bit| 1 << bit);
    let alike = [8, 16, 24]
        .into_iter()
        .flat_map(|shift| [2, 11, 42, 51].map(|t| t | 1 << shift));
    powers.chain(alike).chain([u32::MAX - 1, u32::MAX])
}

fn lookup(r_type: u32) {
    let asked = r_type.to_le_bytes();
    let Some(info) = oracle::relocation_from_raw(r_type) else {
        return record(&[&[3], &asked, &[7]]);
    };
    record(&[
        &[3],
        &asked,
        &[0, kind_number(info.kind), byte_size(info.size)],
        &info.range.min.to_le_bytes(),
        &info.range.max.to_le_bytes(),
        &[
            info.alignment,
            info.mask.is_some().into(),
            info.bias.is_some().into(),
            info.thunkable.into(),
            info.implicit_addend.into(),
        ],
    ]);
}

/// The ranges of a field, signed and unsigned.
fn byte_sizes(bytes: u8) {
    for (number, sign) in [(0, Sign::Signed), (1, Sign::Unsigned)] {
        let range = AllowedRange::from_byte_size(bytes.into(), sign);
        let ends = [range.min, range.max].map(i64::to_le_bytes);
        record(&[&[8, bytes, number], &ends.concat()]);
    }
}

fn dynamic_type(number: u8) {
    let r_type = oracle::x86_64_r_type(DYNAMIC_KINDS[usize::from(number)]);
    record(&[&[4, number], &r_type.to_le_bytes()]);
}

fn plt_entries(random: &mut Random) {
    plt_entry(16, 0x40_4000, 0x40_1020);
    for plt in [
        0,
        0x40_1020,
        1 << 31,
        1 << 32,
        i64::MAX as u64,
        1 << 63,
        u64::MAX - 9,
        u64::MAX,
    ] {
        for distance in differential::plt_reach_edges() {
            plt_entry(16, plt.wrapping_add(distance), plt);
        }
    }
    let ends = || {
        around(0, 1)
            .chain(around(-10, 1))
            .chain(around(10, 1))
            .map(|end| end as u64)
    };
    for got in ends() {
        ends().for_each(|plt| plt_entry(16, got, plt));
    }
    for length in (0..=64).filter(|&length| length != 16) {
        plt_entry(length, 0x40_4000, 0x40_1020);
    }
    for _ in 0..170 {
        let (got, plt) = (random.word(), random.word());
        plt_entry(16, got, plt);
        plt_entry(16, plt.wrapping_add_signed(random.signed(33)), plt);
    }
}

fn plt_entry(length: u8, got: u64, plt: u64) {
    let mut buffer = [BEFORE; 64];
    let lent = &mut buffer[..usize::from(length)];
    let answer = differential::write_plt_entry(lent, got, plt);
    record(&[
        &[5, length],
        &got.to_le_bytes(),
        &plt.to_le_bytes(),
        &[answer],
        &buffer[..16],
    ]);
}

fn padding(executable: bool, length: u8) {
    let mut buffer = [BEFORE; 16];
    oracle::fill_section_padding(&mut buffer[..usize::from(length)], executable);
    record(&[&[6, executable.into(), length], &buffer]);
}

fn contains(r_type: u32, random: &mut Random) {
    let range = oracle::relocation_from_raw(r_type).unwrap().range;
    let edges = [range.min, range.max, 0]
        .into_iter()
        .flat_map(|edge| around(edge, 1));
    for value in edges.chain((0..9).map(|_| random.signed(64))) {
        let mut answer = range.contains(value);
        if is_listed_difference(range, value) {
            assert!(!answer, "the Rust leaves it out");
            answer = true;
        }
        record(&[
            &[7],
            &r_type.to_le_bytes(),
            &value.to_le_bytes(),
            &[answer.into()],
        ]);
    }
}

/// i64::MAX in an unchecked range: the Rust's answer is asserted to be the one in docs/DIFFERENCES.md, and the list has the
/// port's.
fn is_listed_difference(range: AllowedRange, value: i64) -> bool {
    range == AllowedRange::no_check() && value == i64::MAX
}

/// Wild's `write_to_buffer` of a type's row, in buffers of every length: about both ends of its range and of 64 bits, and
/// values of different bytes.
fn writes(r_type: u32) {
    let info = oracle::relocation_from_raw(r_type).unwrap();
    let ends = [info.range.min, info.range.max];
    let about = ends.into_iter().flat_map(|end| around(end, 1));
    let wide = [0, -1, i64::MIN, i64::MAX];
    let inside = [0x12, 0x1234_5678, 0x0123_4567_89ab_cdef];
    let values: BTreeSet<i64> = about.chain(wide).chain(inside).collect();
    for value in values {
        (0..=9).for_each(|length| write(r_type, value, length));
    }
}

fn write(r_type: u32, value: i64, length: u8) {
    let info = oracle::relocation_from_raw(r_type).unwrap();
    let mut buffer = [BEFORE; 10];
    let lent = &mut buffer[..usize::from(length)];
    let mut written = fill::write_to_buffer(info, value as u64, lent);
    let outside = !info.range.contains(value);
    let range_first = written == Err(Unwritten::Range);
    assert_eq!(range_first, outside, "the Rust tests the range first");
    if is_listed_difference(info.range, value) {
        assert!(outside, "the Rust leaves it out");
        let size = usize::from(byte_size(info.size));
        let field = lent.get_mut(..size).ok_or(Unwritten::Bounds);
        written = field.map(|field| field.copy_from_slice(&value.to_le_bytes()[..size]));
    }
    let answer = match written {
        Ok(()) => 255,
        Err(_) => fill::refusal(info, usize::from(length)),
    };
    let asked = r_type.to_le_bytes();
    record(&[
        &[9],
        &asked,
        &value.to_le_bytes(),
        &[length, answer],
        &buffer,
    ]);
}

/// Fields of every sort of type at the edges of the ranges and of the section, with sums that wrap.
fn fills() {
    let places = [
        (0, 0),
        (3, 0),
        (4, 0),
        (4, 1),
        (9, 5),
        (9, 6),
        (10, 3),
        (9, 10),
    ];
    let values = [
        0,
        0x1234_5678,
        (1 << 31) - 1,
        1 << 31,
        -1 << 31,
        (-1 << 31) - 1,
        u32::MAX.into(),
        1 << 32,
        -1,
        i64::MAX,
        i64::MIN,
    ];
    for (length, offset) in places {
        for r_type in [0, 2, 4, 10, 11, 23, 52] {
            for value in values {
                fill_of(r_type, length, offset, (0x40_1000, value, 0));
                fill_of(r_type, length, offset, (u64::MAX - 2, value, i64::MIN));
            }
        }
    }
}

/// A field whose sum is `sum`, with an addend and a place of its own.
fn fill_of(r_type: u32, length: u8, offset: u8, (place, sum, addend): (u64, i64, i64)) {
    let field = Field::of_sum(r_type, offset.into(), sum as u64, place, addend);
    let mut buffer = [BEFORE; 10];
    let answer = fill::fill(&field, &mut buffer[..usize::from(length)]).answer;
    record(&[
        &[10, r_type as u8, length, offset],
        &place.to_le_bytes(),
        &field.value.to_le_bytes(),
        &addend.to_le_bytes(),
        &[if answer.filled { 255 } else { answer.refusal }],
        &buffer,
    ]);
}

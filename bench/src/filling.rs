//! Times filling a field: by itself, and after relaxing, over the records of real sections. The Rust looks the row up,
//! computes the value and hands it to wild's `write_to_buffer`; after relaxing it has the row already, as wild does. Both
//! must leave the same bytes; over real sections both fill the same types and refuse the same records, so that any archive
//! will do.

use crate::SEED;
use crate::driver::Driver;
use crate::driver::Inputs;
use crate::driver::elapsed;
use crate::relaxing::Input;
use crate::relaxing::Pool;
use crate::relaxing::RUNS;
use crate::relaxing::numbers;
use crate::relaxing::types;
use differential::KNOWN_TYPES;
use differential::Random;
use differential::fill::FILLED_TYPES;
use differential::fill::Field;
use differential::relaxation::SECTION_LIMIT;
use differential::relaxation::is_inside;
use differential::relaxation::kind_number;
use differential::relaxation::window;
use jitamoro::sys;
use jitamoro::sys::FilledAnswer;
use libwild::oracle;
use libwild::oracle::OutputKind;
use libwild::oracle::RelocationKind;
use libwild::oracle::RelocationKindInfo;
use libwild::oracle::RelocationSize;
use libwild::oracle::ValueFlags;
use std::hint::black_box;
use std::slice;

/// Fields of a run, and the bytes that each has.
const FIELDS: usize = 1 << 13;
const SHARE: usize = 64;
/// Where the first section is loaded.
const BASE: u64 = 0x40_0000;

type Fill = unsafe extern "C" fn(u32, *mut u8, usize, u64, u64, u64, i64) -> FilledAnswer;

const NONE: FilledAnswer = FilledAnswer {
    refusal: 0,
    filled: false,
};

fn refused(refusal: u8) -> FilledAnswer {
    FilledAnswer {
        refusal,
        filled: false,
    }
}

/// Whether a relaxation's new type is one that the port fills: its row tells, as the eight rows differ.
#[inline(always)]
fn is_filled(info: &RelocationKindInfo) -> bool {
    let four = matches!(info.size, RelocationSize::ByteSize(4));
    let kinds = [
        RelocationKind::Relative,
        RelocationKind::Absolute,
        RelocationKind::TpOff,
    ];
    four && kinds.contains(&info.kind)
}

/// The section is sliced for wild as its signature asks, without a panic.
#[inline(always)]
fn write(info: RelocationKindInfo, section: &mut [u8], field: &Field) -> FilledAnswer {
    let Some(output) = section.get_mut(field.offset as usize..) else {
        return refused(2);
    };
    match info.write_to_buffer(field.written(info), output) {
        Ok(()) => FilledAnswer {
            refusal: 0,
            filled: true,
        },
        Err(_) => refused(15),
    }
}

#[inline(never)]
unsafe extern "C" fn rust_fill(
    r_type: u32,
    start: *mut u8,
    len: usize,
    offset: u64,
    place: u64,
    value: u64,
    addend: i64,
) -> FilledAnswer {
    // SAFETY: the driver lends a whole section.
    let section = unsafe { slice::from_raw_parts_mut(start, len) };
    let field = Field {
        r_type,
        offset,
        place,
        value,
        addend,
    };
    match row_of(r_type) {
        Ok(Some(info)) => write(info, section, &field),
        Ok(None) => NONE,
        Err(refusal) => refused(refusal),
    }
}

/// Fields, each in bytes of its own.
struct Fields {
    bytes: Vec<u8>,
    fields: Vec<Field>,
}

impl Inputs for Fields {
    fn calls(&self) -> usize {
        self.fields.len()
    }
}

/// Fields of these types in any order, all in range.
fn fields(from: &[u32]) -> Fields {
    let mut random = Random::new(SEED);
    let field = |_| {
        let r_type = from[random.word() as usize % from.len()];
        let (addend, place) = (random.signed(8), random.word() >> 20);
        let sum = random.word() >> 34;
        let offset = random.word() % (SHARE as u64 - 7);
        Field::of_sum(r_type, offset, sum, place, addend)
    };
    Fields {
        bytes: vec![0; FIELDS * SHARE],
        fields: (0..FIELDS).map(field).collect(),
    }
}

fn fill_each(function: Fill, it: &mut Fields, calls: usize) {
    let function = black_box(function);
    for (field, share) in it.fields[..calls].iter().zip(it.bytes.chunks_mut(SHARE)) {
        // SAFETY: a whole section, by its pointer and length.
        black_box(&unsafe {
            function(
                field.r_type,
                share.as_mut_ptr(),
                SHARE,
                field.offset,
                field.place,
                field.value,
                field.addend,
            )
        });
    }
    black_box(&mut it.bytes);
}

fn same_fields(from: &[u32]) -> Fields {
    let (mut port, mut rust) = (fields(from), fields(from));
    fill_each(sys::jitamoro_fill, &mut port, FIELDS);
    fill_each(rust_fill, &mut rust, FIELDS);
    assert!(port.bytes == rust.bytes, "filling leaves other bytes");
    fields(from)
}

pub fn time_fields(driver: &Driver) {
    let time = |name: &str, from: &[u32]| {
        driver.case(
            &format!("fill, {name}"),
            RUNS,
            || same_fields(from),
            |it, calls| elapsed(|| fill_each(sys::jitamoro_fill, it, calls)),
            |it, calls| elapsed(|| fill_each(rust_fill, it, calls)),
        );
    };
    for (r_type, name) in FILLED_TYPES
        .into_iter()
        .zip(["PC32", "32", "32S", "TPOFF32"])
    {
        time(name, &[r_type]);
    }
    time("the four types", &FILLED_TYPES);
    time("the 39 types", &KNOWN_TYPES);
}

/// The field of a record, or of what relaxing made of it.
#[inline(always)]
fn field_of(input: &Input, now: (u32, u64, i64)) -> Field {
    let (r_type, offset, addend) = now;
    Field {
        r_type,
        offset,
        place: BASE.wrapping_add(input.start as u64).wrapping_add(offset),
        value: input.record.address,
        addend,
    }
}

type Relax<F, K> =
    unsafe extern "C" fn(u32, *mut u8, usize, u64, F, K, bool, u64, i64) -> sys::RelaxedAnswer;

/// Two calls a record.
#[inline(always)]
fn port_record(relax: Relax<u8, u8>, fill: Fill, input: &Input, section: *mut u8) {
    let it = &input.record;
    let (flags, output_kind) = numbers(input);
    let (executable, address) = (it.executable, it.address);
    // SAFETY: a whole section, by its pointer and length.
    unsafe {
        let relaxed = relax(
            it.r_type,
            section,
            input.length,
            it.offset,
            flags,
            output_kind,
            executable,
            address,
            it.addend,
        );
        if relaxed.choice.refusal != 0 {
            return;
        }
        let now = match relaxed.choice.chosen {
            true => (relaxed.choice.new_type, relaxed.offset, relaxed.addend),
            false => (it.r_type, it.offset, it.addend),
        };
        let f = field_of(input, now);
        let (place, value, addend) = (f.place, f.value, f.addend);
        black_box(&fill(
            f.r_type,
            section,
            input.length,
            f.offset,
            place,
            value,
            addend,
        ));
    }
}

/// One call a record: the row is the relaxation's, or is looked up.
#[inline(never)]
extern "C" fn rust_record(input: &Input, section: *mut u8) -> FilledAnswer {
    // SAFETY: a whole section, by its pointer and length.
    let section = unsafe { slice::from_raw_parts_mut(section, input.length) };
    let it = &input.record;
    if section.len() > SECTION_LIMIT {
        return refused(1);
    }
    if it.offset > section.len() as u64 {
        return refused(2);
    }
    let (flags, output_kind): (ValueFlags, OutputKind) = types(input);
    let relaxation = oracle::new_relaxation(
        it.r_type,
        section,
        it.offset,
        flags,
        output_kind,
        it.executable,
        it.address,
        it.addend,
    );
    let (mut offset, mut addend) = (it.offset, it.addend);
    let row = match relaxation {
        Some(relaxation) => row_after(&relaxation, section, &mut offset, &mut addend),
        None => row_of(it.r_type),
    };
    match row {
        Ok(Some(info)) => write(info, section, &field_of(input, (it.r_type, offset, addend))),
        Ok(None) => NONE,
        Err(refusal) => refused(refusal),
    }
}

/// Applies a relaxation, and gives its row if the port fills such a field.
#[inline(always)]
fn row_after(
    relaxation: &oracle::Relaxation,
    section: &mut [u8],
    offset: &mut u64,
    addend: &mut i64,
) -> Result<Option<RelocationKindInfo>, u8> {
    let (kind, inst_offset) = kind_number(relaxation.kind());
    if !is_inside(window(kind, inst_offset), section.len(), *offset) {
        return Err(6);
    }
    relaxation.apply(section, offset, addend);
    Ok(Some(relaxation.rel_info()).filter(is_filled))
}

/// Looks a type's row up, and gives it if the port fills fields of the type.
#[inline(always)]
fn row_of(r_type: u32) -> Result<Option<RelocationKindInfo>, u8> {
    let info = oracle::relocation_from_raw(r_type).ok_or(7)?;
    Ok(Some(info).filter(|_| FILLED_TYPES.contains(&r_type)))
}

fn port_walk(inputs: &[Input], bytes: &mut [u8]) {
    let relax = black_box(sys::jitamoro_relax as Relax<u8, u8>);
    let fill = black_box(sys::jitamoro_fill);
    let bytes = bytes.as_mut_ptr();
    for input in inputs {
        // SAFETY: the section starts inside the bytes.
        port_record(relax, fill, input, unsafe { bytes.add(input.start) });
    }
}

fn rust_walk(inputs: &[Input], bytes: &mut [u8]) {
    let record = black_box(rust_record as extern "C" fn(&Input, *mut u8) -> FilledAnswer);
    let bytes = bytes.as_mut_ptr();
    for input in inputs {
        // SAFETY: the section starts inside the bytes.
        black_box(&record(input, unsafe { bytes.add(input.start) }));
    }
}

/// Each record relaxed and its field filled, in the order of the records; both must leave the same bytes.
pub fn time_records(driver: &Driver, name: &str, make: impl FnOnce() -> Pool) {
    let make = || {
        let mut pool = make();
        let (port, rust) = (pool.walked(port_walk), pool.walked(rust_walk));
        assert!(port == rust, "relaxing and filling leave other bytes");
        pool
    };
    driver.case(
        name,
        RUNS,
        make,
        |pool, calls| pool.run_all(calls, port_walk),
        |pool, calls| pool.run_all(calls, rust_walk),
    );
}

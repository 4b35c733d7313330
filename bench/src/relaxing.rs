//! Times choosing, rewriting and relaxing. Every record has bytes of its own, or those of its real
//! section; all are put back before each run, outside the time. The port is given document 01's
//! numbers, wild its own types, made of them before.

use crate::SEED;
use crate::driver::Driver;
use crate::driver::Inputs;
use crate::driver::Side;
use crate::driver::elapsed;
use crate::driver::versions;
use differential::Random;
use differential::relaxation;
use differential::relaxation::KIND_NAMES;
use differential::relaxation::REX_ADD_TO_LEA;
use differential::relaxation::Record;
use differential::relaxation::SECTION_LIMIT;
use differential::sequences::SEQUENCES;
use differential::sequences::Sequence;
use jitamoro::sys;
use libwild::oracle;
use libwild::oracle::OutputKind;
use libwild::oracle::Relaxation;
use libwild::oracle::RelaxationKind;
use libwild::oracle::RelocationKind;
use libwild::oracle::RelocationModifier;
use libwild::oracle::ValueFlags;
use std::ffi::CStr;
use std::hint::black_box;
use std::slice;
use std::time::Duration;

/// Records of a run: too many for a CPU to learn their order, few enough for its cache.
const RECORDS: usize = 1 << 13;
/// Runs of a round.
pub const RUNS: usize = 16;
/// The bytes of a record, and where its offset stands in them.
const SHARE: usize = 64;
const OFFSET: usize = 24;

/// Choosing, where `P` is `*const u8`, or relaxing, where it is `*mut u8`. `F` and `K` are how flags
/// and output kinds are given.
type Ask<P, F, K, T> = unsafe extern "C" fn(u32, P, usize, u64, F, K, bool, u64, i64) -> T;
/// Rewriting, by the port's numbers and by wild's type.
type PortApply<T> = unsafe extern "C" fn(u8, u8, *mut u8, usize, u64, i64) -> T;
#[allow(improper_ctypes_definitions)]
type RustApply<T> = unsafe extern "C" fn(RelaxationKind, *mut u8, usize, u64, i64) -> T;

/// The port's fields from wild. Two stay as wild has them: the kind with its instruction offset,
/// and for the new type the kind of its row.
#[repr(C)]
struct RustChoice {
    chosen: bool,
    kind: RelaxationKind,
    mandatory: bool,
    skip_next: bool,
    needs_got_fallback: bool,
    row: RelocationKind,
}

#[repr(C)]
struct RustRelaxed {
    choice: RustChoice,
    offset: u64,
    addend: i64,
}

/// As the port's, with room for a refusal, which wild hasn't.
#[repr(C)]
struct RustMoved {
    refusal: u8,
    offset: u64,
    addend: i64,
}

const NONE: RustChoice = RustChoice {
    chosen: false,
    kind: RelaxationKind::NoOp,
    mandatory: false,
    skip_next: false,
    needs_got_fallback: false,
    row: RelocationKind::None,
};

impl From<&Relaxation> for RustChoice {
    #[inline(always)]
    fn from(it: &Relaxation) -> Self {
        Self {
            chosen: true,
            kind: it.kind(),
            mandatory: it.is_mandatory(),
            skip_next: it.next_modifier() == RelocationModifier::SkipNextRelocation,
            needs_got_fallback: it.needs_got_fallback(),
            row: it.rel_info().kind,
        }
    }
}

// Wild's functions behind the port's calls.

#[allow(improper_ctypes_definitions)]
#[inline(never)]
unsafe extern "C" fn rust_new_relaxation(
    r_type: u32,
    start: *const u8,
    len: usize,
    offset: u64,
    flags: ValueFlags,
    output_kind: OutputKind,
    executable: bool,
    address: u64,
    addend: i64,
) -> RustChoice {
    // SAFETY: the driver lends a whole section.
    let section = unsafe { slice::from_raw_parts(start, len) };
    oracle::new_relaxation(
        r_type,
        section,
        offset,
        flags,
        output_kind,
        executable,
        address,
        addend,
    )
    .map_or(NONE, |relaxation| RustChoice::from(&relaxation))
}

#[allow(improper_ctypes_definitions)]
#[inline(never)]
unsafe extern "C" fn rust_relax(
    r_type: u32,
    start: *mut u8,
    len: usize,
    mut offset: u64,
    flags: ValueFlags,
    output_kind: OutputKind,
    executable: bool,
    address: u64,
    mut addend: i64,
) -> RustRelaxed {
    // SAFETY: the driver lends a whole section.
    let section = unsafe { slice::from_raw_parts_mut(start, len) };
    let relaxation = oracle::new_relaxation(
        r_type,
        section,
        offset,
        flags,
        output_kind,
        executable,
        address,
        addend,
    );
    let Some(relaxation) = relaxation else {
        return RustRelaxed {
            choice: NONE,
            offset: 0,
            addend: 0,
        };
    };
    relaxation.apply(section, &mut offset, &mut addend);
    RustRelaxed {
        choice: RustChoice::from(&relaxation),
        offset,
        addend,
    }
}

#[allow(improper_ctypes_definitions)]
#[inline(never)]
unsafe extern "C" fn rust_apply(
    kind: RelaxationKind,
    start: *mut u8,
    len: usize,
    mut offset: u64,
    mut addend: i64,
) -> RustMoved {
    // SAFETY: the driver lends a whole section.
    let section = unsafe { slice::from_raw_parts_mut(start, len) };
    kind.apply(section, &mut offset, &mut addend);
    RustMoved {
        refusal: 0,
        offset,
        addend,
    }
}

/// A sequence, a record of it, and the kind with the instruction offset that wild chooses for it.
#[derive(Clone, Copy)]
struct Case {
    sequence: &'static Sequence,
    record: Record,
    chosen: Option<(u8, u8)>,
}

/// Every sequence with every flag number and output kind.
fn cases() -> Vec<Case> {
    let mut cases = Vec::new();
    for sequence in &SEQUENCES {
        let mut section = [0; SHARE];
        sequence.write(&mut section, OFFSET);
        for (flags, output_kind) in (0..16).flat_map(|f| (0..6).map(move |k| (f, k))) {
            let mut record = sequence.record(OFFSET);
            record.flags = flags;
            record.output_kind = output_kind;
            let answer = relaxation::choose(&record, &section);
            let chosen = answer.chosen.then_some((answer.kind, answer.inst_offset));
            cases.push(Case {
                sequence,
                record,
                chosen,
            });
        }
    }
    cases
}

/// Records with their sections: each in a short one of its own, all in one of the greatest length, or
/// as they lie in real objects.
pub struct Pool {
    bytes: Vec<u8>,
    /// Where the records' bytes begin, and what they hold before a run.
    first: usize,
    before: Vec<u8>,
    inputs: Vec<Input>,
}

pub struct Input {
    pub start: usize,
    pub length: usize,
    pub record: Record,
    kind: (u8, u8),
    pub wild: Wild,
}

/// What of a record wild is given in types of its own.
pub struct Wild {
    pub flags: ValueFlags,
    pub output_kind: OutputKind,
    kind: RelaxationKind,
}

impl Input {
    fn new(start: usize, length: usize, record: Record, kind: (u8, u8)) -> Self {
        Self {
            start,
            length,
            record,
            kind,
            wild: Wild {
                flags: ValueFlags::from_number(record.flags).unwrap(),
                output_kind: OutputKind::from_number(record.output_kind).unwrap(),
                kind: relaxation::relaxation_kind(kind.0, kind.1).unwrap(),
            },
        }
    }
}

impl Pool {
    fn short(cases: &[Case]) -> Self {
        let place = |record: usize| (record * SHARE, SHARE, OFFSET);
        Self::new(cases, cases.len() * SHARE, 0, place)
    }

    fn long(cases: &[Case]) -> Self {
        let first = SECTION_LIMIT / 2;
        let place = |record: usize| (0, SECTION_LIMIT, first + record * SHARE + OFFSET);
        Self::new(cases, SECTION_LIMIT, first, place)
    }

    /// Sections with their records, one section after the other.
    pub fn real(sections: &[(&[u8], Vec<Record>)]) -> Self {
        let mut before = Vec::new();
        let mut inputs = Vec::new();
        for (bytes, records) in sections {
            let (start, length) = (before.len(), bytes.len());
            before.extend_from_slice(bytes);
            let input = |&record| Input::new(start, length, record, (0, 0));
            inputs.extend(records.iter().map(input));
        }
        Self {
            bytes: vec![0; before.len()],
            first: 0,
            before,
            inputs,
        }
    }

    /// `place` gives a record's section, by its start and length, and the offset in it.
    fn new(
        cases: &[Case],
        length: usize,
        first: usize,
        place: impl Fn(usize) -> (usize, usize, usize),
    ) -> Self {
        let mut before = vec![0; cases.len() * SHARE];
        let mut inputs = Vec::new();
        for (share, case) in before.chunks_mut(SHARE).zip(cases) {
            case.sequence.write(share, OFFSET);
            let (start, length, offset) = place(inputs.len());
            let mut record = case.record;
            record.offset = offset as u64;
            let kind = case.chosen.unwrap_or_default();
            inputs.push(Input::new(start, length, record, kind));
        }
        Self {
            bytes: vec![0; length],
            first,
            before,
            inputs,
        }
    }

    /// The time of the calls alone.
    fn run(&mut self, calls: usize, call: impl Fn(&Input, *mut u8)) -> Duration {
        self.run_all(calls, |inputs, bytes| {
            let bytes = bytes.as_mut_ptr();
            for input in inputs {
                // SAFETY: the section starts inside the bytes.
                call(input, unsafe { bytes.add(input.start) });
            }
        })
    }

    /// The time of a walk alone, over the first inputs and all bytes.
    pub fn run_all(&mut self, calls: usize, walk: impl Fn(&[Input], &mut [u8])) -> Duration {
        self.put_back();
        let time = elapsed(|| walk(&self.inputs[..calls], &mut self.bytes));
        black_box(&mut self.bytes);
        time
    }

    /// The bytes after a walk over all inputs.
    pub fn walked(&mut self, mut walk: impl FnMut(&[Input], &mut [u8])) -> Vec<u8> {
        self.put_back();
        walk(&self.inputs, &mut self.bytes);
        self.bytes.clone()
    }

    fn put_back(&mut self) {
        self.bytes[self.first..][..self.before.len()].copy_from_slice(&self.before);
    }
}

impl Inputs for Pool {
    fn calls(&self) -> usize {
        self.inputs.len()
    }
}

fn ask_all<P, F, K, T>(
    function: Ask<P, F, K, T>,
    pointer: impl Fn(*mut u8) -> P,
    given: impl Fn(&Input) -> (F, K),
    pool: &mut Pool,
    calls: usize,
) -> Duration {
    let function = black_box(function);
    pool.run(calls, |input, section| {
        let it = &input.record;
        let (flags, output_kind) = given(input);
        // SAFETY: a whole section, by its pointer and length.
        black_box(&unsafe {
            function(
                it.r_type,
                pointer(section),
                input.length,
                it.offset,
                flags,
                output_kind,
                it.executable,
                it.address,
                it.addend,
            )
        });
    })
}

/// How the port is given a record's flags and output kind.
pub fn numbers(input: &Input) -> (u8, u8) {
    (input.record.flags, input.record.output_kind)
}

/// How wild is.
pub fn types(input: &Input) -> (ValueFlags, OutputKind) {
    (input.wild.flags, input.wild.output_kind)
}

fn port_relax(
    function: Ask<*mut u8, u8, u8, sys::RelaxedAnswer>,
    pool: &mut Pool,
    calls: usize,
) -> Duration {
    ask_all(function, |section| section, numbers, pool, calls)
}

fn rust_relax_all(pool: &mut Pool, calls: usize) -> Duration {
    ask_all(rust_relax, |section| section, types, pool, calls)
}

fn port_choose(
    function: Ask<*const u8, u8, u8, sys::ChoiceAnswer>,
    pool: &mut Pool,
    calls: usize,
) -> Duration {
    let pointer = |section: *mut u8| section.cast_const();
    ask_all(function, pointer, numbers, pool, calls)
}

fn rust_choose_all(pool: &mut Pool, calls: usize) -> Duration {
    let pointer = |section: *mut u8| section.cast_const();
    ask_all(rust_new_relaxation, pointer, types, pool, calls)
}

fn port_apply(function: PortApply<sys::MovedAnswer>, pool: &mut Pool, calls: usize) -> Duration {
    let function = black_box(function);
    pool.run(calls, |input, section| {
        let (kind, inst_offset) = input.kind;
        let (offset, addend) = (input.record.offset, input.record.addend);
        // SAFETY: a whole section, by its pointer and length.
        black_box(&unsafe { function(kind, inst_offset, section, input.length, offset, addend) });
    })
}

fn rust_apply_all(pool: &mut Pool, calls: usize) -> Duration {
    let function = black_box(rust_apply as RustApply<_>);
    pool.run(calls, |input, section| {
        let (offset, addend) = (input.record.offset, input.record.addend);
        // SAFETY: a whole section, by its pointer and length.
        black_box(&unsafe { function(input.wild.kind, section, input.length, offset, addend) });
    })
}

/// The port's function, by its name too, and the Rust's side; with another version, that one's
/// function between them.
fn time<F: Copy>(
    driver: &Driver,
    name: &str,
    make: impl FnOnce() -> Pool,
    (symbol, function): (&CStr, F),
    port: fn(F, &mut Pool, usize) -> Duration,
    rust: fn(&mut Pool, usize) -> Duration,
) {
    // SAFETY: these functions have had one declaration since version 0.1.0.
    let Some([now, before]) = (unsafe { versions(symbol) }) else {
        let port = |pool: &mut Pool, calls| port(function, pool, calls);
        return driver.case(name, RUNS, make, port, rust);
    };
    let sides: [Side<Pool>; 3] = [
        ("port", &|pool, calls| port(now, pool, calls)),
        ("before", &|pool, calls| port(before, pool, calls)),
        ("Rust", &rust),
    ];
    driver.sides(name, RUNS, make, sides);
}

pub fn time_relax(driver: &Driver, name: &str, make: impl FnOnce() -> Pool) {
    let function: (_, Ask<_, _, _, _>) = (c"jitamoro_relax", sys::jitamoro_relax);
    time(driver, name, make, function, port_relax, rust_relax_all);
}

pub fn time_choose(driver: &Driver, name: &str, make: impl FnOnce() -> Pool) {
    let function: (_, Ask<_, _, _, _>) = (c"jitamoro_new_relaxation", sys::jitamoro_new_relaxation);
    time(driver, name, make, function, port_choose, rust_choose_all);
}

fn time_apply(driver: &Driver, name: &str, make: impl FnOnce() -> Pool) {
    let function: (_, PortApply<_>) = (c"jitamoro_apply", sys::jitamoro_apply);
    time(driver, name, make, function, port_apply, rust_apply_all);
}

/// The kinds that can be chosen.
fn kinds() -> impl Iterator<Item = u8> {
    (0..KIND_NAMES.len() as u8).filter(|&kind| kind != REX_ADD_TO_LEA)
}

/// Those of the cases that have this kind, or none.
fn with_kind(kind: Option<u8>) -> Vec<Case> {
    let mut cases = cases();
    cases.retain(|case| case.chosen.map(|(chosen, _)| chosen) == kind);
    cases
}

fn pick(from: &[Case], random: &mut Random) -> Case {
    from[random.word() as usize % from.len()]
}

fn picked(kind: Option<u8>) -> Pool {
    let from = with_kind(kind);
    let mut random = Random::new(SEED);
    let records: Vec<Case> = (0..RECORDS).map(|_| pick(&from, &mut random)).collect();
    Pool::short(&records)
}

/// As many of each kind, in any order.
fn mix() -> Vec<Case> {
    let kinds: Vec<Vec<Case>> = kinds().map(|kind| with_kind(Some(kind))).collect();
    let mut random = Random::new(SEED);
    let mut mix: Vec<Case> = (0..RECORDS)
        .map(|place| pick(&kinds[place % kinds.len()], &mut random))
        .collect();
    for end in (1..mix.len()).rev() {
        mix.swap(end, random.word() as usize % (end + 1));
    }
    mix
}

pub fn time_all(driver: &Driver) {
    for kind in kinds() {
        let name = format!("relax, {}", KIND_NAMES[usize::from(kind)]);
        time_relax(driver, &name, || picked(Some(kind)));
    }
    time_relax(driver, "relax, none", || picked(None));

    let short = || Pool::short(&mix());
    time_relax(driver, "relax, mix of kinds", short);
    time_choose(driver, "choose, mix of kinds", short);
    time_apply(driver, "apply, mix of kinds", short);
    let long = || Pool::long(&mix());
    time_relax(driver, "relax, mix, 256 MiB section", long);
    driver.sides(
        "relax, mix, port alone",
        RUNS,
        || LongAndShort(long(), short()),
        [
            ("256 MiB", &|it: &mut LongAndShort, calls| {
                port_relax(sys::jitamoro_relax, &mut it.0, calls)
            }),
            ("64 B", &|it: &mut LongAndShort, calls| {
                port_relax(sys::jitamoro_relax, &mut it.1, calls)
            }),
        ],
    );
}

struct LongAndShort(Pool, Pool);

impl Inputs for LongAndShort {
    fn calls(&self) -> usize {
        self.0.calls()
    }
}

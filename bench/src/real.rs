//! Times relaxing, with fields filled and without, choosing and the pass, with a tally and without, over the records of an
//! archive, in its own sections and order, as each output kind would have them; and steps over pairs with empty records.

use crate::driver::Driver;
use crate::driver::Inputs;
use crate::driver::Side;
use crate::filling;
use crate::relaxing::Input;
use crate::relaxing::Pool;
use crate::relaxing::RUNS;
use crate::relaxing::numbers;
use crate::relaxing::time_choose;
use crate::relaxing::time_relax;
use crate::relaxing::types;
use differential::ask_port;
use differential::pass::BYTES;
use differential::pass::NONE;
use differential::pass::SKIPPED;
use differential::relaxation::Record;
use differential::relaxation::SECTION_LIMIT;
use differential::relaxation::is_inside;
use differential::relaxation::kind_number;
use differential::relaxation::window;
use differential::sequences::SEQUENCES;
use jitamoro::elf::R_X86_64_NONE;
use jitamoro::sys;
use jitamoro::sys::Pass;
use jitamoro::sys::StepAnswer;
use jitamoro::sys::Tally;
use libwild::oracle;
use libwild::oracle::OutputKind;
use libwild::oracle::RelocationModifier;
use libwild::oracle::ValueFlags;
use objects::Object;
use std::cell::LazyCell;
use std::hint::black_box;
use std::path::Path;
use std::slice;
use std::time::Duration;

const PAIRS: usize = 1024;

/// Short names of document 01's output kinds.
const OUTPUT_KINDS: [&str; 6] = [
    "static",
    "static PIE",
    "dynamic",
    "PIE",
    "shared",
    "partial",
];

/// A step. `P` is the pass, `F` and `K` are how flags and output kinds are given.
type TakeStep<P, F, K, T> =
    unsafe extern "C" fn(&mut P, u32, *mut u8, usize, u64, F, K, bool, u64, i64) -> T;
/// A step with a tally, which is `C`.
type TakeTallyStep<P, C, F, K, T> =
    unsafe extern "C" fn(&mut P, &mut C, u32, *mut u8, usize, u64, F, K, bool, u64, i64) -> T;

pub fn time_archive(driver: &Driver, path: &str) {
    let path = Path::new(path);
    let name = path.file_name().unwrap().to_string_lossy();
    let objects =
        LazyCell::new(|| objects::read_file(path).unwrap_or_else(|error| panic!("{error}")));
    for (number, kind) in OUTPUT_KINDS.iter().enumerate() {
        let of_kind = || pool(&objects, &[number as u8]);
        time_relax(driver, &format!("relax, {name}, {kind}"), of_kind);
    }
    let all = || pool(&objects, &[0, 1, 2, 3, 4, 5]);
    time_relax(driver, &format!("relax, {name}, all six"), all);
    time_choose(driver, &format!("choose, {name}, all six"), all);
    let filled = format!("relax and fill, {name}, all six");
    filling::time_records(driver, &filled, all);
    let steps = || Steps::new(all());
    let step = format!("step, {name}, all six");
    driver.case(&step, RUNS, steps, port_step_all, rust_step_all);
    let pass = format!("pass, {name}, all six");
    driver.case(&pass, RUNS, || both_walk(all()), port_pass, rust_pass);
    let tally_step = format!("tally step, {name}, all six");
    let sides: [Side<Steps>; 3] = [
        ("port", &port_tally_step_all),
        ("Rust", &rust_tally_step_all),
        ("untallied", &port_step_all),
    ];
    driver.sides(&tally_step, RUNS, steps, sides);
    let tally_pass = format!("tally pass, {name}, all six");
    let sides: [Side<Pool>; 3] = [
        ("port", &port_tally_pass),
        ("Rust", &rust_tally_pass),
        ("untallied", &port_pass),
    ];
    driver.sides(&tally_pass, RUNS, || both_tally(all()), sides);
}

/// Steps over general dynamic sequences in one section, each with two empty records before its call.
pub fn time_pairs(driver: &Driver) {
    let sequence = SEQUENCES.iter().find(|it| it.r_type == 19).unwrap();
    let length = sequence.before.len() + sequence.after.len();
    let mut section = vec![0; PAIRS * length];
    let mut records = Vec::new();
    for begin in (0..section.len()).step_by(length) {
        let offset = begin + sequence.before.len();
        sequence.write(&mut section, offset);
        let of_pair = [(19, 0), (R_X86_64_NONE, 4), (R_X86_64_NONE, 8), (4, 8)];
        records.extend(of_pair.map(|(r_type, past)| Record {
            r_type,
            flags: 1,
            ..sequence.record(offset + past)
        }));
    }
    let steps = || Steps::new(Pool::real(&[(&section, records.clone())]));
    driver.case(
        "step, pairs with empty records",
        RUNS,
        steps,
        port_step_all,
        rust_step_all,
    );
}

/// The records of these output kinds, one kind after the other.
fn pool(objects: &[Object], output_kinds: &[u8]) -> Pool {
    let records = |&kind| objects::records(objects, kind);
    let sections: Vec<_> = output_kinds.iter().flat_map(records).collect();
    Pool::real(&sections)
}

fn port_pass(pool: &mut Pool, calls: usize) -> Duration {
    pool.run_all(calls, port_walk)
}

fn rust_pass(pool: &mut Pool, calls: usize) -> Duration {
    pool.run_all(calls, rust_walk)
}

/// The same pool, after it was seen that both passes leave the same bytes.
fn both_walk(mut pool: Pool) -> Pool {
    let by_port = pool.walked(port_walk);
    let by_rust = pool.walked(rust_walk);
    assert!(by_port == by_rust, "the passes leave other bytes");
    pool
}

fn port_tally_pass(pool: &mut Pool, calls: usize) -> Duration {
    let done = |tally: &Tally| _ = black_box(tally);
    pool.run_all(calls, |inputs, bytes| port_tally_walk(inputs, bytes, done))
}

fn rust_tally_pass(pool: &mut Pool, calls: usize) -> Duration {
    let done = |tally: &RustTally| _ = black_box(tally);
    pool.run_all(calls, |inputs, bytes| rust_tally_walk(inputs, bytes, done))
}

/// The same pool, after it was seen that both passes leave the same bytes and tallies.
fn both_tally(mut pool: Pool) -> Pool {
    let (mut port, mut rust) = (Vec::new(), Vec::new());
    let by_port =
        pool.walked(|inputs, bytes| port_tally_walk(inputs, bytes, |it| port.push(it.figures)));
    let by_rust =
        pool.walked(|inputs, bytes| rust_tally_walk(inputs, bytes, |it| rust.push(it.figures)));
    assert!(by_port == by_rust, "the passes leave other bytes");
    assert!(port == rust, "the passes leave other tallies");
    pool
}

/// Records, and the pass before each, as either has it.
struct Steps {
    pool: Pool,
    port: Vec<Pass>,
    rust: Vec<RustPass>,
}

impl Inputs for Steps {
    fn calls(&self) -> usize {
        self.pool.calls()
    }
}

impl Steps {
    fn new(mut pool: Pool) -> Self {
        let (mut port, mut rust) = (Vec::new(), Vec::new());
        let by_port = pool.walked(|inputs, bytes| {
            by_section(inputs, bytes, |inputs, section| {
                let mut pass = sys::jitamoro_pass_fresh();
                for input in inputs {
                    port.push(pass);
                    black_box(&ask_port!(pass_step, input.record, section, &mut pass));
                }
            });
        });
        let by_rust = pool.walked(|inputs, bytes| {
            by_section(inputs, bytes, |inputs, section| {
                let mut pass = RustPass::default();
                for input in inputs {
                    rust.push(pass);
                    rust_step(&mut pass, &mut (), &RustRecord::from(input), section);
                }
            });
        });
        assert!(by_port == by_rust, "the steps leave other bytes");
        Self { pool, port, rust }
    }
}

/// Each step by itself, with a copy of the pass before it; all with one tally.
fn step_all<P: Copy, C: Default, T>(
    passes: &[P],
    pool: &mut Pool,
    calls: usize,
    step: impl Fn(&mut P, &mut C, &Input, *mut u8) -> T,
) -> Duration {
    pool.run_all(calls, |inputs, bytes| {
        let bytes = bytes.as_mut_ptr();
        let mut tally = C::default();
        for (input, pass) in inputs.iter().zip(passes) {
            let mut pass = *pass;
            // SAFETY: the section starts inside the bytes.
            let section = unsafe { bytes.add(input.start) };
            black_box(&step(&mut pass, &mut tally, input, section));
            black_box(&pass);
        }
        black_box(&tally);
    })
}

/// Calls a step through its pointer, with what it is lent, a record and its section.
macro_rules! take_step {
    ($function:ident, $given:ident, $input:expr, $section:expr $(, $lent:expr)+) => {{
        let it = &$input.record;
        let (flags, output_kind) = $given($input);
        // SAFETY: a whole section, by its pointer and length.
        unsafe {
            $function(
                $($lent,)+
                it.r_type,
                $section,
                $input.length,
                it.offset,
                flags,
                output_kind,
                it.executable,
                it.address,
                it.addend,
            )
        }
    }};
}

fn port_step_all(steps: &mut Steps, calls: usize) -> Duration {
    let Steps { pool, port, .. } = steps;
    let step = black_box(sys::jitamoro_pass_step as TakeStep<Pass, u8, u8, StepAnswer>);
    step_all(
        port,
        pool,
        calls,
        move |pass, _: &mut (), input, section| take_step!(step, numbers, input, section, pass),
    )
}

fn rust_step_all(steps: &mut Steps, calls: usize) -> Duration {
    let Steps { pool, rust, .. } = steps;
    let step = black_box(rust_pass_step as TakeStep<RustPass, ValueFlags, OutputKind, Step>);
    step_all(
        rust,
        pool,
        calls,
        move |pass, _: &mut (), input, section| take_step!(step, types, input, section, pass),
    )
}

fn port_tally_step_all(steps: &mut Steps, calls: usize) -> Duration {
    let Steps { pool, port, .. } = steps;
    let step =
        black_box(sys::jitamoro_tally_step as TakeTallyStep<Pass, Tally, u8, u8, StepAnswer>);
    step_all(port, pool, calls, move |pass, tally, input, section| {
        take_step!(step, numbers, input, section, pass, tally)
    })
}

fn rust_tally_step_all(steps: &mut Steps, calls: usize) -> Duration {
    let Steps { pool, rust, .. } = steps;
    let step = black_box(
        rust_tally_step as TakeTallyStep<RustPass, RustTally, ValueFlags, OutputKind, Step>,
    );
    step_all(rust, pool, calls, move |pass, tally, input, section| {
        take_step!(step, types, input, section, pass, tally)
    })
}

/// Each section's inputs, and its bytes.
fn by_section<'a>(
    inputs: &'a [Input],
    bytes: &mut [u8],
    mut walk: impl FnMut(&'a [Input], &mut [u8]),
) {
    for section in inputs.chunk_by(|a, b| (a.start, a.length) == (b.start, b.length)) {
        let Input { start, length, .. } = section[0];
        walk(section, &mut bytes[start..start + length]);
    }
}

fn port_walk(inputs: &[Input], bytes: &mut [u8]) {
    by_section(inputs, bytes, |inputs, section| {
        let mut pass = sys::jitamoro_pass_fresh();
        for input in inputs {
            black_box(&ask_port!(pass_step, input.record, section, &mut pass));
        }
        black_box(sys::jitamoro_pass_end(&mut pass));
    });
}

/// With a tally a section, which is given to `done`.
fn port_tally_walk(inputs: &[Input], bytes: &mut [u8], mut done: impl FnMut(&Tally)) {
    by_section(inputs, bytes, |inputs, section| {
        let mut pass = sys::jitamoro_pass_fresh();
        let mut tally = sys::jitamoro_tally_fresh();
        for input in inputs {
            black_box(&ask_port!(
                tally_step,
                input.record,
                section,
                &mut pass,
                &mut tally
            ));
        }
        black_box(sys::jitamoro_pass_end(&mut pass));
        done(&tally);
    });
}

/// Document 01's pass as a Rust program would have it, over wild's functions: one choice a record,
/// nothing copied, the state in place, no call across a C boundary. Refusals 3 and 4 are left out,
/// since wild's types hold no such values.
fn rust_walk(inputs: &[Input], bytes: &mut [u8]) {
    by_section(inputs, bytes, |inputs, section| {
        let mut pass = RustPass::default();
        for input in inputs {
            let record = RustRecord::from(input);
            black_box(&rust_step(&mut pass, &mut (), &record, section));
        }
        black_box(rust_end(&mut pass));
    });
}

/// The same, counted in the same loop: with a tally a section, which is given to `done`.
fn rust_tally_walk(inputs: &[Input], bytes: &mut [u8], mut done: impl FnMut(&RustTally)) {
    by_section(inputs, bytes, |inputs, section| {
        let mut pass = RustPass::default();
        let mut tally = RustTally::default();
        for input in inputs {
            let record = RustRecord::from(input);
            black_box(&rust_step(&mut pass, &mut tally, &record, section));
        }
        black_box(rust_end(&mut pass));
        done(&tally);
    });
}

#[derive(Clone, Copy, Default)]
struct RustPass {
    last: u64,
    window: u64,
    skip: bool,
    ended: bool,
}

/// What is counted of the records that aren't refused: nothing, or a tally's figures.
trait Count {
    /// A record of this figure, and the bytes of its window.
    fn count(&mut self, figure: usize, bytes: u64);
}

impl Count for () {
    #[inline(always)]
    fn count(&mut self, _: usize, _: u64) {}
}

#[derive(Default)]
struct RustTally {
    figures: [u64; 22],
}

impl Count for RustTally {
    #[inline(always)]
    fn count(&mut self, figure: usize, bytes: u64) {
        let figures = &mut self.figures;
        figures[figure] = figures[figure].wrapping_add(1);
        figures[BYTES] = figures[BYTES].wrapping_add(bytes);
    }
}

/// A record as wild is given it.
struct RustRecord {
    r_type: u32,
    offset: u64,
    flags: ValueFlags,
    output_kind: OutputKind,
    executable: bool,
    address: u64,
    addend: i64,
}

impl From<&Input> for RustRecord {
    #[inline(always)]
    fn from(input: &Input) -> Self {
        let it = &input.record;
        Self {
            r_type: it.r_type,
            offset: it.offset,
            flags: input.wild.flags,
            output_kind: input.wild.output_kind,
            executable: it.executable,
            address: it.address,
            addend: it.addend,
        }
    }
}

/// What a step did, for `black_box` alone: wild's relaxation, and the field's offset and addend.
#[allow(dead_code)]
enum Step {
    Nothing,
    Skipped,
    Relaxed(oracle::Relaxation, u64, i64),
    Refused(u8),
}

/// Steps behind the port's kind of call, with a tally or without.
macro_rules! rust_steps {
    ($($name:ident($($tally:ident: $tally_type:ty)?) counts $counts:expr;)*) => {$(
        #[allow(improper_ctypes_definitions)]
        #[inline(never)]
        unsafe extern "C" fn $name(
            pass: &mut RustPass,
            $($tally: $tally_type,)?
            r_type: u32,
            start: *mut u8,
            len: usize,
            offset: u64,
            flags: ValueFlags,
            output_kind: OutputKind,
            executable: bool,
            address: u64,
            addend: i64,
        ) -> Step {
            // SAFETY: the driver lends a whole section.
            let section = unsafe { slice::from_raw_parts_mut(start, len) };
            let record = RustRecord {
                r_type,
                offset,
                flags,
                output_kind,
                executable,
                address,
                addend,
            };
            rust_step(pass, $counts, &record, section)
        }
    )*};
}

rust_steps! {
    rust_pass_step() counts &mut ();
    rust_tally_step(tally: &mut RustTally) counts tally;
}

#[inline(always)]
fn rust_step(
    pass: &mut RustPass,
    counts: &mut impl Count,
    it: &RustRecord,
    section: &mut [u8],
) -> Step {
    if pass.ended {
        return Step::Refused(21);
    }
    if section.len() > SECTION_LIMIT {
        return Step::Refused(1);
    }
    if it.offset > section.len() as u64 {
        return Step::Refused(2);
    }
    if it.offset < pass.last {
        return Step::Refused(22);
    }
    if pass.skip && it.r_type != R_X86_64_NONE {
        pass.skip = false;
        pass.last = it.offset;
        counts.count(SKIPPED, 0);
        return Step::Skipped;
    }
    match wild_choice(it, section) {
        Some(relaxation) => rust_relax(pass, counts, relaxation, it, section),
        None => {
            pass.last = it.offset;
            counts.count(NONE, 0);
            Step::Nothing
        }
    }
}

fn rust_end(pass: &mut RustPass) -> u8 {
    if pass.ended {
        return 21;
    }
    if pass.skip {
        return 24;
    }
    pass.ended = true;
    0
}

#[inline]
fn wild_choice(it: &RustRecord, section: &[u8]) -> Option<oracle::Relaxation> {
    oracle::new_relaxation(
        it.r_type,
        section,
        it.offset,
        it.flags,
        it.output_kind,
        it.executable,
        it.address,
        it.addend,
    )
}

#[inline]
fn rust_relax(
    pass: &mut RustPass,
    counts: &mut impl Count,
    relaxation: oracle::Relaxation,
    it: &RustRecord,
    section: &mut [u8],
) -> Step {
    let (mut offset, mut addend) = (it.offset, it.addend);
    let (kind, inst_offset) = kind_number(relaxation.kind());
    let (before, after) = window(kind, inst_offset);
    if !is_inside((before, after), section.len(), offset) {
        return Step::Refused(6);
    }
    if before + after != 0 {
        if offset - (before as u64) < pass.window {
            return Step::Refused(23);
        }
        pass.window = offset.wrapping_add_signed(after);
    }
    counts.count(usize::from(kind), (before + after) as u64);
    pass.last = offset;
    pass.skip = relaxation.next_modifier() == RelocationModifier::SkipNextRelocation;
    relaxation.apply(section, &mut offset, &mut addend);
    Step::Relaxed(relaxation, offset, addend)
}

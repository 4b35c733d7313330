//! Times the port against wild's Rust: one driver, the same inputs, both called through a pointer
//! to an `extern "C"` function, but for the pass over whole sections (`real.rs`). Buffers aren't
//! cleared between calls. No figure passes or fails.
//!
//! - `bench [--counts] [ARCHIVE ..]` times every case, and with `--counts` has valgrind count the
//!   instructions too. The archives are those whose records are walked.
//! - `bench --case NAME SIDE CALLS [ARCHIVE ..]` makes one case's inputs and does so many of one
//!   side's calls, inside `measured` and once. This is what valgrind is given.

mod driver;
mod filling;
mod real;
mod relaxing;

use differential::KNOWN_TYPES;
use differential::Random;
use driver::Driver;
use driver::Inputs;
use driver::elapsed;
use libwild::oracle;
use libwild::oracle::RelocationKindInfo;
use std::hint::black_box;
use std::slice;
use std::time::Duration;

const SEED: u64 = 1;
/// Inputs of a lookup or PLT round.
const INPUTS: usize = 1 << 18;
/// The longest padding.
const LONGEST: usize = 4096;

type WritePltEntry = unsafe extern "C" fn(*mut u8, usize, u64, u64) -> u8;
type FillSectionPadding = unsafe extern "C" fn(*mut u8, usize, bool);

// Wild's functions behind the port's kind of call. A lookup's answer stays in its own Rust type.

#[allow(improper_ctypes_definitions)]
#[inline(never)]
extern "C" fn rust_relocation_from_raw(r_type: u32) -> Option<RelocationKindInfo> {
    oracle::relocation_from_raw(r_type)
}

#[inline(never)]
unsafe extern "C" fn rust_write_plt_entry(start: *mut u8, len: usize, got: u64, plt: u64) -> u8 {
    // SAFETY: the driver lends a whole buffer.
    let plt_entry = unsafe { slice::from_raw_parts_mut(start, len) };
    match oracle::write_plt_entry(plt_entry, got, plt) {
        Ok(()) => 0,
        Err(_) => 9,
    }
}

#[inline(never)]
unsafe extern "C" fn rust_fill_section_padding(start: *mut u8, len: usize, executable: bool) {
    // SAFETY: the driver lends a whole buffer.
    let buf = unsafe { slice::from_raw_parts_mut(start, len) };
    oracle::fill_section_padding(buf, executable);
}

fn main() {
    let driver = Driver::from_arguments();
    time_lookup(&driver, "lookup, the 39 types", |word| {
        KNOWN_TYPES[word as usize % 39]
    });
    time_lookup(&driver, "lookup, types 0 to 63", |word| (word % 64) as u32);
    time_plt(&driver, "PLT, in reach", |word| word as i32 as i64 / 2);
    // Here the Rust makes an error with a message.
    time_plt(&driver, "PLT, out of reach", |word| {
        i64::MAX - word as i32 as i64
    });
    for length in [0, 1, 7, 16, 64, LONGEST] {
        time_padding(&driver, length);
    }
    filling::time_fields(&driver);
    relaxing::time_all(&driver);
    real::time_pairs(&driver);
    for archive in driver.archives() {
        real::time_archive(&driver, archive);
    }
    driver.finish();
}

fn time_lookup(driver: &Driver, name: &str, r_type: impl Fn(u64) -> u32) {
    let make = || -> Vec<u32> {
        let mut random = Random::new(SEED);
        (0..INPUTS).map(|_| r_type(random.word())).collect()
    };
    driver.case(
        name,
        1,
        make,
        |types, calls| look_up(jitamoro::sys::jitamoro_relocation_from_raw, &types[..calls]),
        |types, calls| look_up(rust_relocation_from_raw, &types[..calls]),
    );
}

fn look_up<T>(function: extern "C" fn(u32) -> T, types: &[u32]) -> Duration {
    let function = black_box(function);
    elapsed(|| {
        for &r_type in types {
            black_box(&function(r_type));
        }
    })
}

/// `distance` is that of a GOT entry from a PLT entry that lies anywhere.
fn time_plt(driver: &Driver, name: &str, distance: impl Fn(u64) -> i64) {
    let make = || -> Vec<(u64, u64)> {
        let mut random = Random::new(SEED);
        let pair = |_| {
            let plt = random.word();
            (plt.wrapping_add_signed(distance(random.word())), plt)
        };
        (0..INPUTS).map(pair).collect()
    };
    driver.case(
        name,
        1,
        make,
        |pairs, calls| write_entries(jitamoro::sys::jitamoro_write_plt_entry, &pairs[..calls]),
        |pairs, calls| write_entries(rust_write_plt_entry, &pairs[..calls]),
    );
}

fn write_entries(function: WritePltEntry, pairs: &[(u64, u64)]) -> Duration {
    let function = black_box(function);
    let mut entry = [0; 16];
    elapsed(|| {
        for &(got, plt) in pairs {
            // SAFETY: a whole buffer, by its pointer and length.
            black_box(unsafe { function(entry.as_mut_ptr(), entry.len(), got, plt) });
            black_box(&mut entry);
        }
    })
}

/// A padding's length. There are fewer calls where it is great.
struct Padding(usize);

impl Inputs for Padding {
    fn calls(&self) -> usize {
        INPUTS / (1 + self.0 / 64)
    }
}

fn time_padding(driver: &Driver, length: usize) {
    driver.case(
        &format!("padding, {length} bytes"),
        1,
        || Padding(length),
        |it, calls| fill(jitamoro::sys::jitamoro_fill_section_padding, it, calls),
        |it, calls| fill(rust_fill_section_padding, it, calls),
    );
}

/// Fills as for an executable section and for another by turns.
fn fill(
    function: FillSectionPadding,
    &mut Padding(length): &mut Padding,
    calls: usize,
) -> Duration {
    let function = black_box(function);
    // Real memory also where the length is 0: `memset` is slow at the pointer of an empty `Vec`.
    let mut buffer = [0; LONGEST];
    elapsed(|| {
        for call in 0..calls {
            // SAFETY: the first `length` bytes of a buffer that is no shorter.
            unsafe { function(buffer.as_mut_ptr(), length, call % 2 == 0) };
            black_box(&mut buffer);
        }
    })
}

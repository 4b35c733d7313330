//! Compares every answer and every byte of the port with those of wild's Rust:
//! `differential [SEED [RECORDS]]`, with as many relocation records at random.
//! A comparison is one input with all of its answer.

mod fill_tally;
mod filling;
mod long_sections;
mod pass;
mod random_records;
mod relaxing;
mod tally;

use differential::DYNAMIC_KINDS;
use differential::KNOWN_TYPES;
use differential::Random;
use differential::around;
use differential::relaxation;
use jitamoro::sys::OutputKindAnswer;
use jitamoro::sys::ValueFlagsAnswer;
use libwild::oracle;
use libwild::oracle::AllowedRange;
use libwild::oracle::RelaxationKind;
use libwild::oracle::RelocationModifier;
use std::fmt::Debug;
use std::process::ExitCode;
use tally::Tally;

const DEFAULT_SEED: u64 = 1;
const DEFAULT_RECORDS: u64 = 50_000_000;
/// Differences that are printed; the others are only counted.
const PRINTED: u64 = 10;
/// Bytes before and after a lent part, which no call may change.
const GUARD: usize = 16;

fn main() -> ExitCode {
    let words: Result<Vec<u64>, _> = std::env::args().skip(1).map(|word| word.parse()).collect();
    let (seed, records) = match words.as_deref() {
        Ok([]) => (DEFAULT_SEED, DEFAULT_RECORDS),
        Ok(&[seed]) => (seed, DEFAULT_RECORDS),
        Ok(&[seed, records]) => (seed, records),
        _ => {
            eprintln!("differential: at most two decimal numbers of 64 bits: SEED and RECORDS");
            return ExitCode::from(2);
        }
    };
    println!("differential: seed {seed}, {records} records at random");
    differential::silence_wild_panics();
    let mut comparison = Comparison {
        random: Random::new(seed),
        records,
        count: 0,
        differences: 0,
        tally: Tally::default(),
    };
    comparison.run_parts();
    let unseen = comparison.tally.print();
    println!(
        "differential: {} comparisons, {} differences",
        comparison.count, comparison.differences
    );
    if comparison.differences == 0 && unseen == 0 {
        ExitCode::SUCCESS
    } else {
        ExitCode::FAILURE
    }
}

struct Comparison {
    random: Random,
    /// How many records are made at random.
    records: u64,
    count: u64,
    differences: u64,
    tally: Tally,
}

impl Comparison {
    fn run_parts(&mut self) {
        type Part = fn(&mut Comparison);
        let parts: [(&str, Part); 15] = [
            ("lookup", Self::lookup),
            ("contains", Self::contains),
            ("dynamic types", Self::dynamic_types),
            ("modifiers", Self::modifiers),
            ("output kinds", Self::output_kinds),
            ("value flags", Self::value_flags),
            ("PLT", Self::plt),
            ("padding", Self::padding),
            ("choosing", Self::choosing),
            ("rewriting", Self::rewriting),
            ("relaxing", Self::relaxing),
            ("filling", Self::filling),
            ("long sections", Self::long_sections),
            ("records at random", Self::random_records),
            ("pass", Self::pass),
        ];
        for (name, part) in parts {
            let before = self.count;
            part(self);
            println!("{name}: {} comparisons", self.count - before);
        }
    }

    fn compare<T: PartialEq + Debug>(&mut self, port: T, rust: T, input: impl FnOnce() -> String) {
        self.count += 1;
        if port != rust {
            self.differences += 1;
            if self.differences <= PRINTED {
                println!(
                    "difference: {}\n  port {port:x?}\n  Rust {rust:x?}",
                    input()
                );
            }
        }
    }

    fn lookup(&mut self) {
        let edges = (0..32).flat_map(|bit| around(1 << bit, 1));
        for r_type in (0..=65_535).chain(edges.map(|edge| edge as u32)) {
            self.lookup_of(r_type);
        }
        self.lookup_of(u32::MAX);
        for _ in 0..300_000 {
            let r_type = self.random.word() as u32;
            self.lookup_of(r_type);
        }
    }

    fn lookup_of(&mut self, r_type: u32) {
        let port = jitamoro::sys::jitamoro_relocation_from_raw(r_type);
        self.compare(port, differential::lookup(r_type), || {
            format!("lookup of {r_type}")
        });
    }

    fn contains(&mut self) {
        let powers = [7, 8, 15, 16, 31, 32, 63].map(|bit| 1i64 << bit);
        let mut listed = 0;
        for r_type in KNOWN_TYPES {
            let row = jitamoro::sys::jitamoro_relocation_from_raw(r_type);
            let range = oracle::relocation_from_raw(r_type).unwrap().range;
            let centres = [0, range.min, range.max].into_iter();
            let centres = centres.chain(powers.into_iter().flat_map(|p| [p, p.wrapping_neg()]));
            let edges: Vec<i64> = centres.flat_map(|centre| around(centre, 1)).collect();
            for index in 0..edges.len() + 100_000 {
                let random = || self.random.signed(64);
                let value = edges.get(index).copied().unwrap_or_else(random);
                let port = jitamoro::sys::jitamoro_allowed_range_contains(
                    row.checked,
                    row.min,
                    row.max,
                    value,
                );
                let mut rust = range.contains(value);
                // The one listed difference: the Rust's unchecked range ends before i64::MAX.
                if range == AllowedRange::no_check() && value == i64::MAX {
                    assert!(!rust);
                    rust = true;
                    listed += 1;
                }
                self.compare(port, rust, || format!("contains, type {r_type}, {value}"));
            }
        }
        println!("contains: i64::MAX in an unchecked range (a listed difference) {listed} times");
    }

    /// The modifier of every kind by its number; a number of no kind skips nothing.
    fn modifiers(&mut self) {
        for number in 0..=u8::MAX {
            let port = jitamoro::sys::jitamoro_next_modifier(number);
            let kind = relaxation::relaxation_kind(number, 3);
            let skips = |kind: RelaxationKind| {
                kind.next_modifier() == RelocationModifier::SkipNextRelocation
            };
            let rust = kind.is_some_and(skips);
            self.compare(port, rust, || format!("modifier of kind {number}"));
        }
    }

    fn dynamic_types(&mut self) {
        for number in (0..=300).chain([1 << 8, 1 << 16, 1 << 31, u32::MAX]) {
            let port = jitamoro::sys::jitamoro_x86_64_r_type(number);
            let kind = DYNAMIC_KINDS.get(number as usize);
            let rust = kind.map_or(0, |&kind| oracle::x86_64_r_type(kind));
            self.compare(port, rust, || format!("dynamic type of kind {number}"));
        }
    }

    fn output_kinds(&mut self) {
        for number in 0..=255 {
            let port = jitamoro::sys::jitamoro_output_kind(number);
            self.compare(port, rust_output_kind(number), || {
                format!("output kind {number}")
            });
        }
    }

    fn value_flags(&mut self) {
        for number in 0..=255 {
            let port = jitamoro::sys::jitamoro_value_flags(number);
            self.compare(port, rust_value_flags(number), || {
                format!("value flags {number}")
            });
        }
    }

    fn plt(&mut self) {
        for _ in 0..1_000_000 {
            // Anywhere, near each other, and on both sides of address 0.
            let (got, plt) = (self.random.word(), self.random.word());
            self.plt_entry(16, got, plt);
            let near = plt.wrapping_add_signed(self.random.signed(34));
            self.plt_entry(16, near, plt);
            let [got, plt] = [(); 2].map(|()| self.random.signed(33) as u64);
            self.plt_entry(16, got, plt);
        }
        for _ in 0..70_000 {
            let plt = self.random.word();
            for distance in differential::plt_reach_edges() {
                self.plt_entry(16, plt.wrapping_add(distance), plt);
            }
        }
        for length in (0..=64).filter(|&length| length != 16) {
            for _ in 0..100 {
                let plt = self.random.word();
                let got = plt.wrapping_add_signed(self.random.signed(34));
                self.plt_entry(length, got, plt);
            }
        }
    }

    fn plt_entry(&mut self, length: usize, got: u64, plt: u64) {
        let mut before = [0; 64 + 2 * GUARD];
        self.random.fill(&mut before);
        let lent = GUARD..GUARD + length;
        let (mut port, mut rust) = (before, before);
        let port_answer = jitamoro::sys::write_plt_entry(&mut port[lent.clone()], got, plt);
        let rust_answer = differential::write_plt_entry(&mut rust[lent], got, plt);
        if length != 16 {
            assert_eq!(
                (rust_answer, rust),
                (8, before),
                "the Rust panics and writes nothing"
            );
        }
        self.compare((port_answer, port), (rust_answer, rust), || {
            format!("PLT of {length} bytes, GOT {got:#x}, PLT {plt:#x}, bytes {before:x?}")
        });
    }

    fn padding(&mut self) {
        let mut port = [0; 4096 + 3 * GUARD];
        for length in 0..=4096 {
            for executable in [false, true] {
                self.random.fill(&mut port);
                let mut rust = port;
                let start = GUARD + self.random.word() as usize % GUARD;
                let lent = start..start + length;
                jitamoro::sys::fill_section_padding(&mut port[lent.clone()], executable);
                oracle::fill_section_padding(&mut rust[lent], executable);
                let at = (0..port.len()).find(|&i| port[i] != rust[i]);
                self.compare(at.map(|i| port[i]), at.map(|i| rust[i]), || {
                    let place = at.unwrap() as isize - start as isize;
                    format!("padding of {length} bytes, executable {executable}, byte {place}")
                });
            }
        }
    }
}

fn rust_output_kind(number: u8) -> OutputKindAnswer {
    match oracle::OutputKind::from_number(number) {
        Some(kind) => OutputKindAnswer {
            refusal: 0,
            is_executable: kind.is_executable(),
            is_static_executable: kind.is_static_executable(),
            is_position_independent: kind.is_position_independent(),
            has_fixed_load_address: kind.has_fixed_load_address(),
        },
        None => OutputKindAnswer {
            refusal: 4,
            ..Default::default()
        },
    }
}

fn rust_value_flags(number: u8) -> ValueFlagsAnswer {
    match oracle::ValueFlags::from_number(number) {
        Some(flags) => ValueFlagsAnswer {
            refusal: 0,
            is_dynamic: flags.is_dynamic(),
            is_ifunc: flags.is_ifunc(),
            has_link_time_address: flags.has_link_time_address(),
            is_absolute: flags.is_absolute(),
            is_interposable: flags.is_interposable(),
        },
        None => ValueFlagsAnswer {
            refusal: 3,
            ..Default::default()
        },
    }
}

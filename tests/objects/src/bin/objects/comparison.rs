//! What is counted and printed of comparisons, and the work shared out among the cores.

use crate::tally::Tally;
use differential::relaxation::Record;
use objects::Object;
use objects::Section;
use std::fmt;
use std::fmt::Debug;
use std::sync::atomic::AtomicUsize;
use std::sync::atomic::Ordering;
use std::thread;

/// Differences that are printed; the others are only counted.
const PRINTED: usize = 20;
/// The bytes that choosing and rewriting may reach, and some more: before the offset and after it.
pub const BEFORE: usize = 8;
pub const AFTER: usize = 24;

#[derive(Default)]
pub struct Comparison {
    pub count: u64,
    pub differences: u64,
    printed: Vec<String>,
    pub tally: Tally,
}

impl Comparison {
    pub fn compare<T: PartialEq + Debug>(
        &mut self,
        port: T,
        rust: T,
        input: impl FnOnce() -> String,
    ) {
        self.count += 1;
        if port == rust {
            return;
        }
        self.differences += 1;
        if self.printed.len() < PRINTED {
            let input = input();
            self.printed.push(format!(
                "difference: {input}\n  port {port:?}\n  Rust {rust:?}"
            ));
        }
    }

    pub fn add(&mut self, other: Comparison) {
        self.count += other.count;
        self.differences += other.differences;
        self.printed.extend(other.printed);
        self.tally.add(other.tally);
    }

    pub fn print_differences(&self) {
        for difference in self.printed.iter().take(PRINTED) {
            println!("{difference}");
        }
    }

    pub fn lookup(&mut self, r_type: u32) {
        let port = jitamoro::sys::jitamoro_relocation_from_raw(r_type);
        self.compare(port, differential::lookup(r_type), || {
            format!("lookup of {r_type}")
        });
    }
}

/// A record for a message: where it stands, its numbers, and the bytes near it.
pub fn describe(what: &str, object: &Object, section: &Section, record: &Record) -> String {
    let place = place(object, section, record.offset);
    format!("{what}, type {}, {place}, {record:?}", record.r_type)
}

pub fn place(object: &Object, section: &Section, offset: u64) -> String {
    let bytes = Hex(&section.bytes[near(offset, section.bytes.len())]);
    let name = &section.name;
    format!("{object}, {name}, offset {offset:#x}, bytes near {bytes:?}")
}

/// Bytes that are shown in hexadecimal.
#[derive(PartialEq)]
pub struct Hex<'a>(pub &'a [u8]);

impl Debug for Hex<'_> {
    fn fmt(&self, f: &mut fmt::Formatter<'_>) -> fmt::Result {
        self.0.iter().try_for_each(|byte| write!(f, "{byte:02x}"))
    }
}

/// The bytes near an offset that lie in a section of that length.
pub fn near(offset: u64, length: usize) -> std::ops::Range<usize> {
    let offset = usize::try_from(offset).unwrap_or(usize::MAX);
    let end = offset.saturating_add(AFTER).min(length);
    offset.saturating_sub(BEFORE).min(end)..end
}

/// Does every job, on all cores; the outcomes are added up in the order of the jobs.
pub fn in_parallel<Job: Sync>(
    jobs: &[Job],
    work: impl Fn(&Job) -> Comparison + Sync,
) -> Comparison {
    let next = AtomicUsize::new(0);
    let take = || {
        let number = next.fetch_add(1, Ordering::Relaxed);
        jobs.get(number).map(|job| (number, job))
    };
    let work_on = || {
        let jobs = std::iter::from_fn(take);
        jobs.map(|(number, job)| (number, work(job)))
            .collect::<Vec<_>>()
    };
    let cores = thread::available_parallelism().map_or(1, usize::from);
    let mut done = thread::scope(|scope| {
        let workers: Vec<_> = (0..cores).map(|_| scope.spawn(work_on)).collect();
        let done = workers.into_iter().map(|worker| worker.join());
        done.flat_map(|done| done.expect("no panic but wild's"))
            .collect::<Vec<_>>()
    });
    done.sort_by_key(|&(number, _)| number);
    done.into_iter()
        .fold(Comparison::default(), |mut sum, (_, outcome)| {
            sum.add(outcome);
            sum
        })
}

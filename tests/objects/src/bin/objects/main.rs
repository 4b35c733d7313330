//! Feeds every relocation of real objects through the port and through wild's Rust, and compares:
//! `objects [--table] FILE..`, where a file is an object or an archive.
//! A comparison is one input with all of its answer.

mod comparison;
mod every_combination;
mod linked;
mod tally;

use comparison::Comparison;
use comparison::in_parallel;
use objects::Input;
use objects::Object;
use std::collections::BTreeSet;
use std::process::ExitCode;

/// The archive over whose records filling must meet each answer that they can lead to.
const LIBC: &str = "libc.a";

fn main() -> ExitCode {
    let mut words: Vec<String> = std::env::args().skip(1).collect();
    let table = words.first().is_some_and(|word| word == "--table");
    let files = words.split_off(usize::from(table));
    if files.is_empty() {
        eprintln!("usage: objects [--table] FILE..");
        return ExitCode::from(2);
    }
    differential::silence_wild_panics();
    let (all, unread) = read(&files);
    let comparison = compare(&all.objects);
    comparison.print_differences();
    if table {
        comparison.tally.print();
    }
    print_counts(files.len() - unread, &all, &comparison);
    if comparison.differences == 0 && unread == 0 && all_seen(&all.objects, &comparison) {
        ExitCode::SUCCESS
    } else {
        ExitCode::FAILURE
    }
}

/// Where libc.a is among the files, whether filling met all that its records lead to.
fn all_seen(objects: &[Object], comparison: &Comparison) -> bool {
    if !objects.iter().any(|object| object.file == LIBC) {
        return true;
    }
    let unseen = comparison.tally.unseen();
    for answer in &unseen {
        println!("objects: {LIBC} is here, and filling never met: {answer}");
    }
    unseen.is_empty()
}

/// The files as one, and how many couldn't be read.
fn read(files: &[String]) -> (Input, usize) {
    let mut all = Input::default();
    let mut unread = 0;
    for file in files {
        match objects::read_input(file.as_ref()) {
            Ok(input) => {
                all.objects.extend(input.objects);
                all.other_members += input.other_members;
            }
            Err(error) => {
                eprintln!("not read: {error}");
                unread += 1;
            }
        }
    }
    (all, unread)
}

fn compare(objects: &[Object]) -> Comparison {
    let mut comparison = in_parallel(&[0, 1, 2, 3, 4, 5], |&output_kind| {
        let mut comparison = Comparison::default();
        comparison.as_linked(objects, output_kind);
        comparison
    });
    let records = every_combination::distinct(objects);
    let parts: Vec<_> = records.chunks(4096).collect();
    comparison.add(in_parallel(&parts, |records| {
        let mut comparison = Comparison::default();
        for record in *records {
            comparison.every_combination(record);
        }
        comparison
    }));
    for r_type in types(objects) {
        comparison.lookup(r_type);
    }
    comparison
}

fn types(objects: &[Object]) -> BTreeSet<u32> {
    let sections = objects.iter().flat_map(|object| &object.sections);
    let relocations = sections.flat_map(|section| &section.relocations);
    relocations.map(|relocation| relocation.r_type).collect()
}

fn print_counts(files: usize, all: &Input, comparison: &Comparison) {
    let sum = |count: fn(&Object) -> u64| all.objects.iter().map(count).sum::<u64>();
    println!(
        "passed over: {} members that are no objects, {} compressed sections with {} records, \
         {} SHT_REL records",
        all.other_members,
        sum(|object| object.compressed_sections),
        sum(|object| object.compressed_records),
        sum(|object| object.rel_records),
    );
    let sections = all.objects.iter().flat_map(|object| &object.sections);
    let records = sections.map(|section| section.relocations.len());
    println!(
        "objects: {files} files, {} objects, {} sections, {} records, {} comparisons, \
         {} differences",
        all.objects.len(),
        records.clone().filter(|&records| records > 0).count(),
        records.sum::<usize>(),
        comparison.count,
        comparison.differences,
    );
}

//! Compares the case program with wild's Rust: `case_program PROGRAM [SEED [FILES]]` feeds PROGRAM
//! fixed case files and as many at random, and compares all that it prints and its exit status.
//! `case_program write SIZE [SEED]` writes a good case file of SIZE bytes, for timing.

mod files;
mod fixed;
mod tally;

use differential::Random;
use differential::case_file;
use differential::case_file::SAMPLE;
use differential::case_file::SAMPLE_LINES;
use files::CaseFile;
use std::io;
use std::io::Write;
use std::process::ChildStdin;
use std::process::Command;
use std::process::ExitCode;
use std::process::Output;
use std::process::Stdio;
use std::thread;
use std::time::Duration;
use tally::Tally;

const DEFAULT_SEED: u64 = 1;
const DEFAULT_FILES: u64 = 5_000;
/// Differences that are printed; the others are only counted.
const PRINTED: u64 = 10;
/// The most bytes of a file that are printed with a difference.
const SHOWN: usize = 256;

fn main() -> ExitCode {
    differential::silence_wild_panics();
    let words: Vec<String> = std::env::args().skip(1).collect();
    let numbers = words.iter().skip(1).map(|word| word.parse()).collect();
    let numbers: Result<Vec<u64>, _> = numbers;
    let done = match (words.first().map(String::as_str), numbers.as_deref()) {
        (Some("write"), Ok(&[size])) => write_file(size, DEFAULT_SEED),
        (Some("write"), Ok(&[size, seed])) => write_file(size, seed),
        (Some("write") | None, _) => return usage(),
        (Some(program), Ok([])) => compare(program, DEFAULT_SEED, DEFAULT_FILES),
        (Some(program), Ok(&[seed])) => compare(program, seed, DEFAULT_FILES),
        (Some(program), Ok(&[seed, files])) => compare(program, seed, files),
        _ => return usage(),
    };
    match done {
        Ok(true) => ExitCode::SUCCESS,
        Ok(false) => ExitCode::FAILURE,
        Err(error) => {
            eprintln!("case_program: {error}");
            ExitCode::FAILURE
        }
    }
}

fn usage() -> ExitCode {
    eprintln!("case_program: PROGRAM [SEED [FILES]], or write SIZE [SEED]; decimal numbers");
    ExitCode::from(2)
}

fn write_file(size: u64, seed: u64) -> io::Result<bool> {
    let file = files::good_file(&mut Random::new(seed), size as usize);
    io::stdout().lock().write_all(&file)?;
    Ok(true)
}

/// Whether all is alike and each answer was seen.
fn compare(program: &str, seed: u64, files: u64) -> io::Result<bool> {
    println!("case program: seed {seed}, {files} files at random");
    let sample = case_file::text(&case_file::lines(&SAMPLE));
    assert_eq!(sample, SAMPLE_LINES, "document 01's sample");
    let mut random = Random::new(seed);
    let mut comparison = Comparison {
        program,
        files: 0,
        differences: 0,
        tally: Tally::default(),
    };
    for file in fixed::files(&mut random) {
        comparison.file(&file, random.word())?;
    }
    for number in 1..=files {
        let file = files::random_file(&mut random, number);
        comparison.file(&file, random.word())?;
    }
    let unseen = comparison.tally.print();
    println!(
        "case program: {} files, {} lines, {} differences",
        comparison.files, comparison.tally.lines, comparison.differences
    );
    Ok(comparison.differences == 0 && unseen == 0)
}

struct Comparison<'a> {
    program: &'a str,
    files: u64,
    differences: u64,
    tally: Tally,
}

impl Comparison<'_> {
    fn file(&mut self, file: &CaseFile, dice: u64) -> io::Result<()> {
        let lines = case_file::lines(&file.bytes);
        let expected = case_file::text(&lines);
        lines.iter().for_each(|line| self.tally.count(line));
        let output = ask(self.program, &file.bytes, dice)?;
        self.files += 1;
        if !output.status.success() || output.stdout != expected.as_bytes() {
            self.differences += 1;
            if self.differences <= PRINTED {
                print_difference(file, &output, &expected);
            }
        }
        Ok(())
    }
}

/// What the program does with a file on its standard input.
fn ask(program: &str, file: &[u8], dice: u64) -> io::Result<Output> {
    let child = Command::new(program)
        .stdin(Stdio::piped())
        .stdout(Stdio::piped())
        .spawn();
    let explained = |error| io::Error::other(format!("{program} doesn't start: {error}"));
    let mut child = child.map_err(explained)?;
    let stdin = child.stdin.take().expect("a pipe");
    thread::scope(|scope| {
        let feeder = scope.spawn(move || feed(stdin, file, dice));
        let output = child.wait_with_output();
        feeder.join().expect("the feeder doesn't panic")?;
        output
    })
}

/// Feeds a file, one in 16 in two parts with a pause between. A program may stop reading.
fn feed(mut stdin: ChildStdin, file: &[u8], dice: u64) -> io::Result<()> {
    let place = (dice >> 8) as usize % (file.len() + 1);
    let paused = dice.is_multiple_of(16);
    let (first, second) = file.split_at(if paused { place } else { 0 });
    let fed = stdin.write_all(first).and_then(|()| {
        if paused {
            thread::sleep(Duration::from_millis(2));
        }
        stdin.write_all(second)
    });
    match fed {
        Err(error) if error.kind() == io::ErrorKind::BrokenPipe => Ok(()),
        fed => fed,
    }
}

fn print_difference(file: &CaseFile, output: &Output, expected: &str) {
    let bytes = &file.bytes;
    let shown = case_file::hex(&bytes[..bytes.len().min(SHOWN)]);
    println!("difference: {}, {} bytes: {shown}", file.name, bytes.len());
    println!("  {}", output.status);
    let printed = String::from_utf8_lossy(&output.stdout);
    let (mut program, mut rust) = (printed.split('\n'), expected.split('\n'));
    loop {
        let lines = (program.next(), rust.next());
        if lines == (None, None) {
            return;
        }
        if lines.0 != lines.1 {
            println!("  program {:?}\n  Rust    {:?}", lines.0, lines.1);
            return;
        }
    }
}

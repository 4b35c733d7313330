//! What is done with every case: its sides timed by turns, or one side run for valgrind.

use std::cell::Cell;
use std::env;
use std::ffi::CStr;
use std::ffi::CString;
use std::ffi::c_char;
use std::ffi::c_int;
use std::ffi::c_void;
use std::fmt::Write;
use std::mem::transmute_copy;
use std::process;
use std::process::Command;
use std::time::Duration;

/// Rounds in which all sides are timed, by turns. An odd number, so that there is a middle one.
const ROUNDS: usize = 31;
const USAGE: &str = "usage: bench [--counts] [ARCHIVE ..]
       bench --case NAME SIDE CALLS [ARCHIVE ..]";

/// What a case's calls are made with.
pub trait Inputs {
    /// The calls of one run over all of them.
    fn calls(&self) -> usize;
}

impl<T> Inputs for Vec<T> {
    fn calls(&self) -> usize {
        self.len()
    }
}

/// A side's name, and what does so many calls with the first inputs and gives the time.
pub type Side<'a, I> = (&'a str, &'a dyn Fn(&mut I, usize) -> Duration);

enum Task {
    Time { counts: bool },
    Run(One),
}

/// One side of one case, and the calls to do.
struct One {
    name: String,
    side: String,
    calls: usize,
    done: Cell<bool>,
}

pub struct Driver {
    task: Task,
    archives: Vec<String>,
}

impl Driver {
    pub fn from_arguments() -> Self {
        let mut arguments: Vec<String> = env::args().skip(1).collect();
        let task = match arguments.first().map(String::as_str) {
            Some("--case") if arguments.len() >= 4 => {
                let mut one = arguments.drain(..4).skip(1);
                let mut next = || one.next().unwrap();
                Task::Run(One {
                    name: next(),
                    side: next(),
                    calls: next().parse().unwrap_or_else(|_| fail(USAGE)),
                    done: Cell::new(false),
                })
            }
            Some("--counts") => {
                arguments.remove(0);
                Task::Time { counts: true }
            }
            Some(option) if option.starts_with("--") => fail(USAGE),
            _ => Task::Time { counts: false },
        };
        if let Task::Time { counts } = task {
            let and = if counts { "; instructions a call" } else { "" };
            println!(
                "ns a call of the thread's CPU time, median (min..max) of {ROUNDS} rounds{and}"
            );
        }
        Self {
            task,
            archives: arguments,
        }
    }

    pub fn archives(&self) -> &[String] {
        &self.archives
    }

    /// A case of the port and the Rust. `make` makes the inputs, where they are needed. `port` and
    /// `rust` do so many calls, with the first inputs, and give the time; a round has `runs` of
    /// them over all inputs.
    pub fn case<I: Inputs>(
        &self,
        name: &str,
        runs: usize,
        make: impl FnOnce() -> I,
        port: impl Fn(&mut I, usize) -> Duration,
        rust: impl Fn(&mut I, usize) -> Duration,
    ) {
        self.sides(name, runs, make, [("port", &port), ("Rust", &rust)]);
    }

    /// The same of any sides; the first is held against each of the others.
    pub fn sides<I: Inputs, const N: usize>(
        &self,
        name: &str,
        runs: usize,
        make: impl FnOnce() -> I,
        sides: [Side<I>; N],
    ) {
        let names = sides.map(|side| side.0);
        match &self.task {
            Task::Run(one) if one.name == name => {
                let Some((_, run)) = sides.iter().find(|side| side.0 == one.side) else {
                    fail(&format!("{name}: the sides are {names:?}"));
                };
                let mut inputs = make();
                if one.calls > inputs.calls() {
                    fail(&format!("{name}: there are {} calls", inputs.calls()));
                }
                run(&mut inputs, one.calls);
                one.done.set(true);
            }
            Task::Run(_) => {}
            Task::Time { counts } => {
                let mut inputs = make();
                let calls = inputs.calls();
                let times = time(&mut inputs, runs, &sides);
                drop(inputs);
                let counts = counts.then(|| names.map(|side| self.count(name, side, calls)));
                print(name, names, &times, counts);
            }
        }
    }

    /// The instructions of a call, as callgrind counts them inside `measured`.
    fn count(&self, name: &str, side: &str, calls: usize) -> f64 {
        let output = Command::new("valgrind")
            .args(["--tool=callgrind", "--callgrind-out-file=/dev/null"])
            .arg("--toggle-collect=bench::driver::measured*")
            .arg(env::current_exe().unwrap())
            .args(["--case", name, side, &calls.to_string()])
            .args(&self.archives)
            .output()
            .unwrap_or_else(|error| fail(&format!("valgrind: {error}")));
        let text = String::from_utf8_lossy(&output.stderr);
        let mut lines = text.lines();
        let count = lines.find_map(|line| line.split_once("Collected : "));
        match count.map(|(_, count)| count.parse::<u64>()) {
            Some(Ok(count)) if output.status.success() => count as f64 / calls as f64,
            _ => fail(&format!("{name}, {side}: valgrind gave no count\n{text}")),
        }
    }

    /// After all cases.
    pub fn finish(&self) {
        if let Task::Run(one) = &self.task
            && !one.done.get()
        {
            fail(&format!("there is no case {:?}", one.name));
        }
    }
}

fn fail(message: &str) -> ! {
    eprintln!("{message}");
    process::exit(2)
}

/// The ns a call of each side, for each round.
fn time<I: Inputs, const N: usize>(
    inputs: &mut I,
    runs: usize,
    sides: &[Side<I>; N],
) -> [[f64; N]; ROUNDS] {
    let calls = inputs.calls();
    let mut times = [[0.0; N]; ROUNDS];
    for (round, times) in times.iter_mut().enumerate() {
        // Each goes first in its turn.
        for side in (0..N).map(|place| (round + place) % N) {
            let time: Duration = (0..runs).map(|_| sides[side].1(inputs, calls)).sum();
            times[side] = time.as_nanos() as f64 / (calls * runs) as f64;
        }
    }
    times
}

/// Prints the ns a call of every side, the first's ratio to each other one, and the instructions if they were counted.
fn print<const N: usize>(
    name: &str,
    sides: [&str; N],
    times: &[[f64; N]],
    counts: Option<[f64; N]>,
) {
    let mut line = format!("{name:<31}");
    for (place, side) in sides.iter().enumerate() {
        let figure = middle(times.iter().map(|it| it[place]));
        write!(line, " {side} {figure:<24}").unwrap();
    }
    for (place, side) in sides.iter().enumerate().skip(1) {
        let ratio = middle(times.iter().map(|it| it[0] / it[place]));
        write!(line, " {}/{side} {ratio:<18}", sides[0]).unwrap();
    }
    if let Some(counts) = counts {
        line.push_str(" instructions");
        for (side, count) in sides.iter().zip(counts) {
            write!(line, " {side} {count:.1}").unwrap();
        }
        for (side, count) in sides.iter().zip(counts).skip(1) {
            write!(line, " {}/{side} {:.2}", sides[0], counts[0] / count).unwrap();
        }
    }
    println!("{}", line.trim_end());
}

/// The median of a figure of all rounds, with the least and the greatest.
fn middle(figures: impl Iterator<Item = f64>) -> String {
    let mut column: Vec<f64> = figures.collect();
    column.sort_by(f64::total_cmp);
    let [low, middle, high] = [0, ROUNDS / 2, ROUNDS - 1].map(|place| column[place]);
    format!("{middle:.2} ({low:.2}..{high:.2})")
}

unsafe extern "C" {
    /// The C library's; a `timespec` is two words.
    fn clock_gettime(clock: i32, time: *mut [i64; 2]) -> i32;
    fn dlopen(path: *const c_char, mode: c_int) -> *mut c_void;
    fn dlsym(library: *mut c_void, name: *const c_char) -> *mut c_void;
}

const RTLD_NOW: c_int = 2;

/// A function of this version and of another, from the shared objects that `JITAMORO_VERSIONS`
/// names, if it does: both are loaded alike, since where code lies counts.
///
/// # Safety
///
/// `F` is the function's type, a pointer.
pub unsafe fn versions<F>(name: &CStr) -> Option<[F; 2]> {
    let paths = env::var("JITAMORO_VERSIONS").ok()?;
    let mut functions = paths.split(':').map(|path| {
        let path = CString::new(path).unwrap();
        // SAFETY: a string of C; the library has no code that runs as it is loaded.
        let library = unsafe { dlopen(path.as_ptr(), RTLD_NOW) };
        if library.is_null() {
            fail(&format!("{path:?} can't be loaded"));
        }
        // SAFETY: a library that was loaded, and a string of C.
        let function = unsafe { dlsym(library, name.as_ptr()) };
        if function.is_null() {
            fail(&format!("{path:?} has no function {name:?}"));
        }
        assert_eq!(size_of::<F>(), size_of_val(&function));
        // SAFETY: a pointer of this type, as the caller says.
        unsafe { transmute_copy(&function) }
    });
    Some([functions.next()?, functions.next()?])
}

const CLOCK_THREAD_CPUTIME_ID: i32 = 3;

/// The CPU time of this thread.
fn thread_time() -> Duration {
    let mut time = [0; 2];
    // SAFETY: there is room for a `timespec`.
    let error = unsafe { clock_gettime(CLOCK_THREAD_CPUTIME_ID, &mut time) };
    assert!(error == 0, "the thread's CPU time can't be had");
    Duration::new(time[0] as u64, time[1] as u32)
}

/// The time of a loop of calls.
pub fn elapsed(mut calls: impl FnMut()) -> Duration {
    let start = thread_time();
    measured(&mut calls);
    thread_time() - start
}

/// All that is timed or counted; valgrind is given this function's name.
#[inline(never)]
fn measured(calls: &mut dyn FnMut()) {
    calls();
}

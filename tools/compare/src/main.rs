//! Runs the short cases, then random ones, then random jobs, stops at the first difference, and prints what was met.

use compare::case::{Call, Case};
use compare::job::program::{Printed, Program};
use compare::job::{self, Found};
use compare::shrink::shrink;
use compare::tally::Tally;
use compare::{Comparison, Difference, compare, paper, random, short};
use std::process::ExitCode;
use std::sync::atomic::{AtomicU64, Ordering};
use std::time::Instant;

const USAGE: &str = "compare [--part short|random|jobs|all] [--seed S] [--cases N] [--jobs N] [--only K]";
const PARTS: [&str; 4] = ["short", "random", "jobs", "all"];

struct Options {
    part: String,
    seed: u64,
    cases: u64,
    jobs: u64,
    only: Option<u64>,
}

fn options() -> Result<Options, String> {
    let mut options = Options { part: "all".into(), seed: 1, cases: 1_000_000, jobs: 60_000, only: None };
    let mut words = std::env::args().skip(1);
    while let Some(name) = words.next() {
        let value = words.next().ok_or(USAGE)?;
        let number = || value.parse::<u64>().map_err(|_| format!("{name} {value}: {USAGE}"));
        match name.as_str() {
            "--part" if PARTS.contains(&value.as_str()) => options.part.clone_from(&value),
            "--seed" => options.seed = number()?,
            "--cases" => options.cases = number()?,
            "--jobs" => options.jobs = number()?,
            "--only" => options.only = Some(number()?),
            _ => return Err(format!("{name} {value}: {USAGE}")),
        }
    }
    // A number alone is a random case's.
    if options.only.is_some() && options.part == "all" {
        options.part = "random".into();
    }
    Ok(options)
}

/// The number of the case under way, for the message of a signal.
static CURRENT: AtomicU64 = AtomicU64::new(0);

struct Run {
    part: &'static str,
    only: Option<u64>,
    tally: Tally,
    /// The first difference, with its case's number.
    found: Option<(u64, Case, Difference)>,
}

impl Run {
    fn new(part: &'static str, only: Option<u64>) -> Self {
        Self { part, only, tally: Tally::default(), found: None }
    }

    fn take(&mut self, number: u64, case: Case) {
        if self.found.is_some() || self.only.is_some_and(|only| only != number) {
            return;
        }
        CURRENT.store(number, Ordering::Relaxed);
        if self.only.is_some() {
            print_case(&case);
        }
        signals::wait_at_most(60);
        let Comparison { expected, other_first, difference } = compare(&case);
        signals::wait_at_most(0);
        self.tally.count(&case, &expected, other_first);
        if self.only.is_some() {
            println!("expected {expected}");
        }
        if let Some(difference) = difference {
            self.found = Some((number, case, difference));
        }
    }

    /// True if every answer was the expected one.
    fn end(self, start: Instant, seed: u64) -> bool {
        println!("\n## {} cases, seed {seed}\n\n{}", self.part, self.tally.text(start.elapsed()));
        let Some((number, case, difference)) = self.found else { return true };
        println!("DIFFERENCE in {} case {number} of seed {seed}", self.part);
        print(&case, &difference);
        let smallest = shrink(&case, &|c| compare(c).difference.is_some());
        if let Some(difference) = compare(&smallest).difference {
            println!("the smallest found:");
            print(&smallest, &difference);
        }
        false
    }
}

fn print_case(case: &Case) {
    println!("{case}");
    if paper::runs(case) {
        println!("in short: {}", case.brief());
    }
    if case.call == Call::List {
        println!("the points' length {}", case.points);
    }
}

fn print(case: &Case, difference: &Difference) {
    print_case(case);
    println!("  expected {}\n  the port {}", difference.expected, difference.port);
    for remark in &difference.remarks {
        println!("  {remark}");
    }
}

fn short_part(options: &Options) -> bool {
    let (mut run, start, mut number) = (Run::new("short", options.only), Instant::now(), 0);
    short::cases(&mut |case| {
        run.take(number, case);
        number += 1;
    });
    run.end(start, options.seed)
}

fn random_part(options: &Options) -> bool {
    let (mut run, start) = (Run::new("random", options.only), Instant::now());
    let numbers = options.only.map_or(0..options.cases, |k| k..k + 1);
    for number in numbers {
        if run.found.is_some() {
            break;
        }
        run.take(number, random::case(options.seed, number));
    }
    run.end(start, options.seed)
}

// ---- the jobs

fn jobs_part(options: &Options, program: &Program) -> bool {
    let start = Instant::now();
    let numbers = options.only.map_or(0..options.jobs, |k| k..k + 1);
    if let Some(number) = options.only {
        let bytes = job::random::bytes(options.seed, number);
        println!("{}\nexpected {}", hexadecimal(&bytes), Printed::expected(oracle::job_text(&bytes)));
    }
    let met = job::run(program, options.seed, numbers);
    println!("\n## jobs, seed {}\n\n{}", options.seed, met.tally.text(start.elapsed()));
    let Some(Found { number, bytes, comparison }) = met.found else { return true };
    println!("DIFFERENCE in job {number} of seed {}", options.seed);
    print_job(&bytes, &comparison);
    let smallest = job::shrink::shrink(&bytes, &|bytes| job::compare(program, bytes).differs());
    println!("the smallest found:");
    print_job(&smallest, &job::compare(program, &smallest));
    false
}

fn hexadecimal(bytes: &[u8]) -> String {
    bytes.iter().map(|byte| format!("{byte:02x}")).collect()
}

fn print_job(bytes: &[u8], comparison: &job::Comparison) {
    let job::Comparison { expected, printed } = comparison;
    println!("{}\n  expected {expected}\n  the program {printed}", hexadecimal(bytes));
    let (ours, theirs) = (&expected.text, &printed.text);
    let shared = ours.iter().zip(theirs).take_while(|(a, b)| a == b).count();
    println!("  the first {shared} bytes of the texts are the same");
}

// ---- the command

/// True if every answer was the expected one.
fn run() -> Result<bool, String> {
    let options = options()?;
    let wanted = |part: &str| [part, "all"].contains(&options.part.as_str());
    // Before any case is run it is known whether the program is there.
    let program = if wanted("jobs") { Some(Program::find()?) } else { None };
    signals::name_the_case();
    Ok((!wanted("short") || short_part(&options))
        && (!wanted("random") || random_part(&options))
        && program.is_none_or(|program| jobs_part(&options, &program)))
}

fn main() -> ExitCode {
    match run() {
        Ok(true) => ExitCode::SUCCESS,
        Ok(false) => ExitCode::FAILURE,
        Err(message) => {
            eprintln!("{message}");
            ExitCode::from(2)
        }
    }
}

/// A port that stops the process must not hide the case in which it did.
mod signals {
    use super::{CURRENT, Ordering};

    unsafe extern "C" {
        fn signal(number: i32, handler: extern "C" fn(i32)) -> usize;
        fn alarm(seconds: u32) -> u32;
        fn write(file: i32, text: *const u8, len: usize) -> isize;
        fn _exit(status: i32) -> !;
    }

    extern "C" fn stop(number: i32) {
        let mut text = *b"signal 00 in case 00000000000000000000\n";
        let mut digits = |end: usize, mut value: u64| {
            let mut place = end;
            while value > 0 {
                text[place] = b'0' + (value % 10) as u8;
                value /= 10;
                place -= 1;
            }
        };
        digits(8, number.unsigned_abs().into());
        digits(37, CURRENT.load(Ordering::Relaxed));
        // SAFETY: both may be called in a handler, and the text is as long as it says.
        unsafe {
            write(1, text.as_ptr(), text.len());
            _exit(1)
        }
    }

    /// A call that runs on is stopped by signal 14.
    pub fn wait_at_most(seconds: u32) {
        // SAFETY: it sets a timer.
        unsafe { alarm(seconds) };
    }

    pub fn name_the_case() {
        // Illegal instruction, trap, abort, bus error, arithmetic, segment, alarm: what a stray port ends with.
        for number in [4, 5, 6, 7, 8, 11, 14] {
            // SAFETY: the handler only reads an atomic, writes and exits.
            unsafe { signal(number, stop) };
        }
    }
}

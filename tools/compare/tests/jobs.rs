//! The part `jobs`: its random jobs, programs that differ in one thing, the command, and the job program if it is there.

use compare::job::layout::Job;
use compare::job::program::{Printed, Program};
use compare::job::shrink::shrink;
use compare::job::tally::Tally;
use compare::job::{compare, random, run};
use std::fs;
use std::os::unix::fs::PermissionsExt;
use std::path::{Path, PathBuf};
use std::process::{Command, Output};
use std::sync::OnceLock;
use std::time::Duration;

// ---- the random jobs

const JOBS: u64 = 4_000;

/// The row of a text's table that begins with this word.
fn row<'a>(text: &'a str, first: &str) -> &'a str {
    text.lines().find(|line| line.starts_with(&format!("| {first} |"))).unwrap()
}

#[test]
fn every_answer_and_dimension() {
    let mut tally = Tally::default();
    for number in 0..JOBS {
        let bytes = random::bytes(3, number);
        tally.count(&bytes, &Printed::expected(oracle::job_text(&bytes)));
    }
    let text = tally.text(Duration::from_secs(1));
    println!("{text}");
    let refused = |numbers: &[u32]| numbers.iter().map(|k| format!("refused {k}")).collect::<Vec<_>>();
    let nearest = [vec!["found".into()], refused(&[3, 4, 5, 7, 8, 9, 15, 16])].concat();
    let list = [vec!["listed".into()], refused(&[3, 4, 5, 7, 8, 9, 15, 18])].concat();
    let ratio = ["holds", "fails", "open", "none"].map(String::from).to_vec();
    for (line, answers) in [("job", refused(&[1, 21])), ("nearest", nearest), ("list", list), ("ratio", ratio)] {
        for answer in answers {
            assert!(row(&text, line).contains(&format!(" {answer}: ")), "{line} {answer}\n{text}");
        }
    }
    for line in ["jobs", "lists found"] {
        let (dimensions, _) = row(&text, line).split_at(row(&text, line).trim_end_matches(" |").rfind('|').unwrap());
        assert!(!dimensions.contains("| 0 "), "{text}");
    }
}

/// Of its seed and number alone, and a job that is read has the same bytes again.
#[test]
fn bytes_of_a_number() {
    let mut read = 0;
    for number in 0..JOBS {
        let bytes = random::bytes(5, number);
        assert_eq!(random::bytes(5, number), bytes);
        if let Some(job) = Job::read(&bytes) {
            assert_eq!(job.bytes(), bytes);
            read += 1;
        }
    }
    assert!((1..JOBS).contains(&read));
    assert_ne!(random::bytes(5, 0), random::bytes(6, 0));
}

// ---- programs in the place of the job program

/// Seconds that such a program may take.
const SECONDS: u32 = 20;

const REFUSED: &str = "printf 'job refused 1 layout\\n'";

/// Shell scripts by their names: a wrong text, a text that is right for every input that is no job, and that text with
/// something amiss.
fn scripts() -> Vec<(&'static str, String)> {
    vec![
        ("wrong", "cat > /dev/null; echo nearest 0".into()),
        ("right", REFUSED.into()),
        ("status", format!("{REFUSED}; exit 3")),
        ("signal", format!("{REFUSED}; kill -KILL $$")),
        ("cut", "printf 'job refused 1 layout'".into()),
        ("longer", format!("{REFUSED}; echo")),
        ("silent", "cat > /dev/null".into()),
        ("endless", format!("{REFUSED}; exec sleep 300")),
    ]
}

/// The folder with the scripts. Every test that starts a process asks for it first: none may be forked while a script is
/// open for writing, or the script could not be run.
fn folder() -> &'static Path {
    static FOLDER: OnceLock<PathBuf> = OnceLock::new();
    FOLDER.get_or_init(|| {
        let folder = Path::new(env!("CARGO_TARGET_TMPDIR")).join("jobs");
        fs::create_dir_all(&folder).unwrap();
        for (name, commands) in scripts() {
            let file = folder.join(name);
            fs::write(&file, format!("#!/bin/sh\n{commands}\n")).unwrap();
            fs::set_permissions(&file, fs::Permissions::from_mode(0o755)).unwrap();
        }
        folder
    })
}

fn stand_in(name: &str) -> Program {
    Program::new(&folder().join(name), SECONDS)
}

/// A program need not read its input, as long as its text is right.
#[test]
fn text_and_status() {
    let broken = vec![255; 8192];
    for bytes in [&[], &broken[..]] {
        assert!(!compare(&stand_in("right"), bytes).differs());
        for name in ["wrong", "status", "signal", "cut", "longer", "silent", "missing"] {
            let comparison = compare(&stand_in(name), bytes);
            assert!(comparison.differs(), "{name}: {}", comparison.printed);
        }
    }
}

/// Its text is right.
#[test]
fn a_program_that_runs_on() {
    let comparison = compare(&Program::new(&folder().join("endless"), 1), &[]);
    assert!(comparison.differs());
    assert_eq!(comparison.printed.text, comparison.expected.text);
    assert!(comparison.printed.ending.contains("14"), "{}", comparison.printed.ending);
}

/// A run ends at the smallest number that differs.
#[test]
fn the_first_difference() {
    let program = stand_in("right");
    let found = run(&program, 9, 0..1_000).found.unwrap();
    let is_no_job = |number| Job::read(&random::bytes(9, number)).is_none();
    assert!(!is_no_job(found.number) && (0..found.number).all(is_no_job));
    assert_eq!(found.bytes, random::bytes(9, found.number));
    let tally = run(&program, 9, 0..found.number).tally.text(Duration::from_secs(1));
    assert!(tally.contains(&format!("\n{} jobs, ", found.number)), "{tally}");
}

/// The smallest job has no dimension; of bytes that are no job nothing is left.
#[test]
fn the_smallest_bytes() {
    let dimension = |bytes: &[u8]| Job::read(bytes).map(|job| job.case.weights.len());
    for number in 0..100 {
        let bytes = random::bytes(11, number);
        let n = dimension(&bytes);
        let kept = |bytes: &[u8]| dimension(bytes).is_some() == n.is_some();
        assert_eq!(shrink(&bytes, &kept).len(), if n.is_some() { 36 } else { 0 });
        let two = |bytes: &[u8]| dimension(bytes).is_some_and(|n| n >= 2);
        if two(&bytes) {
            assert_eq!(shrink(&bytes, &two).len(), 76);
        }
    }
}

// ---- the command

fn command(program: &Path, words: &[&str]) -> Output {
    let mut command = Command::new(env!("CARGO_BIN_EXE_compare"));
    command.env("SNOWGIMMER_JOB", program).args(words).output().unwrap()
}

#[test]
fn a_missing_program() {
    for words in [&["--part", "jobs"][..], &[]] {
        let output = command(&folder().join("missing"), words);
        assert_eq!((output.status.code(), output.stdout.len()), (Some(2), 0));
        assert!(String::from_utf8(output.stderr).unwrap().contains("`tools/build job`"));
    }
}

#[test]
fn a_wrong_program() {
    let output = command(&folder().join("wrong"), &["--part", "jobs", "--seed", "9", "--jobs", "10"]);
    let text = String::from_utf8(output.stdout).unwrap();
    assert_eq!(output.status.code(), Some(1), "{text}");
    let bytes: String = random::bytes(9, 0).iter().map(|byte| format!("{byte:02x}")).collect();
    assert!(text.contains(&format!("DIFFERENCE in job 0 of seed 9\n{bytes}\n  expected exit status: 0")), "{text}");
    assert!(text.contains("the program exit status: 0, 10 bytes of text\n    nearest 0\n"), "{text}");
    assert!(text.contains("the smallest found:\n"), "{text}");
}

// ---- the job program

#[test]
fn the_job_program() {
    folder();
    match Program::find() {
        Err(reason) => println!("not compared: {reason}"),
        Ok(program) => {
            let met = run(&program, 2, 0..400);
            println!("{}", met.tally.text(Duration::from_secs(1)));
            assert!(met.found.is_none(), "{}", met.found.unwrap().comparison.printed);
        }
    }
}

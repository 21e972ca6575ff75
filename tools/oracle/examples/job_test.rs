//! What the run test `job_test` must print: for each file that crates/job_test/args names, in that order, a line with
//! the file's name and a colon, then what the job program prints for the file's bytes. With an argument, only what it
//! prints for the file that the argument names.

use oracle::job_text;
use std::io::Write;
use std::path::Path;

fn main() {
    let mut out = std::io::stdout().lock();
    if let Some(file) = std::env::args_os().nth(1) {
        out.write_all(job_text(&std::fs::read(file).unwrap()).as_bytes()).unwrap();
        return;
    }
    let folder = Path::new(env!("CARGO_MANIFEST_DIR")).join("../../crates/job_test");
    for file in std::fs::read_to_string(folder.join("args")).unwrap().lines() {
        let text = job_text(&std::fs::read(folder.join("data").join(file)).unwrap());
        write!(out, "{file}:\n{text}").unwrap();
    }
}

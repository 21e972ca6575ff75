//! Takes the original's files from a folder that is no part of this project, and writes them to OUT_DIR: `enumerate.rs`
//! and `babai.rs` whole, each line as it stands, and `round_away` and `COORD_LIMIT` out of `lib.rs`.
//!
//! The folder is ORACLE_SOURCE, or ../shared/docs/src seen from the repository's root. Behind `enumerate.rs` goes
//! `src/appended.rs`: constructors from a table and from matrices, and functions that call what is private there.
//!
//! For the run tests as Rust it writes them, the crate `refusals` and the crate `printing`, as one file, since Rust does not
//! look for its module in a `.rt` file: all without what the proofs are for, which is a line each time.

use std::path::{Path, PathBuf};
use std::{env, fs};

/// Those that an example of the same name includes.
const RUN_TESTS: [&str; 7] =
    ["children_test", "enumerate_test", "kept_test", "listing_test", "prepared_test", "seeded_test", "turns_test"];

fn read(path: &Path) -> String {
    println!("cargo:rerun-if-changed={}", path.display());
    fs::read_to_string(path).unwrap_or_else(|error| {
        panic!(
            "{}: {error}; ORACLE_SOURCE must name the folder that holds src/enumerate.rs, src/babai.rs and src/lib.rs",
            path.display()
        )
    })
}

/// The lines from the one that starts with `first` to the first one after it that starts with `last`.
fn item(text: &str, first: &str, last: &str) -> String {
    let start = text.find(first).unwrap_or_else(|| panic!("lib.rs has no `{first}`"));
    let mut item = String::new();
    for line in text[start..].lines() {
        item.push_str(line);
        item.push('\n');
        if line.starts_with(last) {
            return item;
        }
    }
    panic!("lib.rs has no end of `{first}`");
}

/// The code of a file without the lines that are for its proofs: those of contracts and ghost members, what they import, and the tactic.
fn code(path: &Path) -> String {
    let proof = |line: &&str| {
        let line = line.trim_start();
        ["ghost ", "requires ", "ensures ", "#![tactic("].iter().any(|start| line.starts_with(start))
    };
    read(path).lines().filter(|line| !proof(line)).map(|line| format!("{line}\n")).collect()
}

fn main() {
    println!("cargo:rerun-if-env-changed=ORACLE_SOURCE");
    let project = PathBuf::from(env::var("CARGO_MANIFEST_DIR").unwrap());
    let source = match env::var_os("ORACLE_SOURCE") {
        Some(folder) => env::current_dir().unwrap().join(folder),
        None => project.join("../../../shared/docs/src"),
    }
    .join("src");
    let out = PathBuf::from(env::var("OUT_DIR").unwrap());

    let appended = read(&project.join("src/appended.rs"));
    let enumerate = read(&source.join("enumerate.rs"));
    fs::write(out.join("enumerate.rs"), format!("{enumerate}\n{appended}")).unwrap();
    fs::write(out.join("babai.rs"), read(&source.join("babai.rs"))).unwrap();

    let lib = read(&source.join("lib.rs"));
    let limit = item(&lib, "pub const COORD_LIMIT", "pub const COORD_LIMIT");
    let round_away = item(&lib, "pub(crate) fn round_away", "}");
    // Modules whose files are elsewhere need the path as a literal, so it is written here.
    let mut root = format!("{limit}\n{round_away}\n");
    for name in ["enumerate", "babai"] {
        root.push_str(&format!("#[path = {:?}]\npub mod {name};\n", out.join(format!("{name}.rs"))));
    }
    fs::write(out.join("root.rs"), root).unwrap();

    let crates = project.join("../../crates");
    let values = format!("pub mod values {{\n{}}}", code(&crates.join("printing/src/values.rt")));
    let text = code(&crates.join("printing/src/lib.rt")).replacen("pub mod values;", &values, 1);
    fs::write(out.join("printing.rs"), text).unwrap();
    fs::write(out.join("refusals.rs"), code(&crates.join("refusals/src/lib.rt"))).unwrap();
    for name in RUN_TESTS {
        fs::write(out.join(format!("{name}.rs")), code(&crates.join(name).join("src/main.rt"))).unwrap();
    }
}

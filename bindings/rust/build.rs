//! Links libsnowgimmer.a. The variable SNOWGIMMER_LIB names the folder that holds it, or the file; a relative path is
//! taken from the folder in which cargo was started. Without the variable it is the repository's, which `tools/build
//! library` writes to target/staticlib.

use std::env;
use std::fs::{self, File};
use std::io::Read;
use std::path::{Path, PathBuf};

const NAME: &str = "libsnowgimmer.a";
const ADVICE: &str = "let the variable SNOWGIMMER_LIB name the folder that holds libsnowgimmer.a, or the file itself; \
    in the repository `tools/build library` makes it";

fn main() {
    println!("cargo::rerun-if-env-changed=SNOWGIMMER_LIB");
    match archive() {
        Ok(archive) => link(&archive),
        Err(fault) => println!("cargo::error={fault}"),
    }
}

/// A folder of an environment variable that cargo sets.
fn folder(variable: &str) -> PathBuf {
    PathBuf::from(env::var_os(variable).expect("cargo sets it"))
}

/// The archive to link, or why there is none.
fn archive() -> Result<PathBuf, String> {
    let named = match env::var_os("SNOWGIMMER_LIB").filter(|name| !name.is_empty()) {
        Some(name) => from_start(Path::new(&name))?,
        None => folder("CARGO_MANIFEST_DIR").join("../../target/staticlib"),
    };
    let file = if named.is_dir() { named.join(NAME) } else { named };
    println!("cargo::rerun-if-changed={}", file.display());
    let mut magic = [0; 8];
    match File::open(&file).and_then(|mut open| open.read_exact(&mut magic)) {
        Ok(()) if &magic == b"!<arch>\n" => Ok(file),
        Ok(()) => Err(format!("{} is no static library: {ADVICE}", file.display())),
        Err(fault) => Err(format!("{} can't be read ({fault}): {ADVICE}", file.display())),
    }
}

/// A path as seen from where cargo was started: this program itself runs in the bindings' own folder.
fn from_start(path: &Path) -> Result<PathBuf, String> {
    if path.is_absolute() {
        return Ok(path.to_path_buf());
    }
    println!("cargo::rerun-if-env-changed=PWD");
    match env::var_os("PWD") {
        Some(start) => Ok(Path::new(&start).join(path)),
        None => Err(format!("SNOWGIMMER_LIB is the relative path {}: give a whole one", path.display())),
    }
}

/// Links a copy under the name that the linker looks for, whatever the file's own.
fn link(archive: &Path) {
    let out = folder("OUT_DIR");
    match fs::copy(archive, out.join(NAME)) {
        Ok(_) => {
            println!("cargo::rustc-link-search=native={}", out.display());
            println!("cargo::rustc-link-lib=static=snowgimmer");
        }
        Err(fault) => println!("cargo::error={} can't be copied to {}: {fault}", archive.display(), out.display()),
    }
}

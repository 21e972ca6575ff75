//! The job program, a process for each job.

use std::env;
use std::fmt;
use std::io::{self, Write};
use std::os::unix::process::CommandExt;
use std::path::{Path, PathBuf};
use std::process::{Command, ExitStatus, Stdio};

/// The seconds that a process may take.
const SECONDS: u32 = 10;

unsafe extern "C" {
    fn alarm(seconds: u32) -> u32;
}

pub struct Program {
    path: PathBuf,
    seconds: u32,
}

/// What the program did.
#[derive(Clone, PartialEq, Eq, Debug)]
pub struct Printed {
    /// The exit status or the signal in words, or why the program did not start.
    pub ending: String,
    /// All of standard output.
    pub text: Vec<u8>,
}

impl Printed {
    /// The text with an exit status of 0.
    #[must_use]
    pub fn expected(text: String) -> Self {
        Self { ending: ExitStatus::default().to_string(), text: text.into_bytes() }
    }
}

/// The ending, and the text indented on lines of its own.
impl fmt::Display for Printed {
    fn fmt(&self, out: &mut fmt::Formatter<'_>) -> fmt::Result {
        write!(out, "{}, {} bytes of text", self.ending, self.text.len())?;
        String::from_utf8_lossy(&self.text).lines().try_for_each(|line| write!(out, "\n    {line}"))
    }
}

impl Program {
    /// The file that SNOWGIMMER_JOB names, else the repository's; or why there is none.
    ///
    /// # Errors
    ///
    /// The file is not there.
    pub fn find() -> Result<Self, String> {
        let built = || Path::new(env!("CARGO_MANIFEST_DIR")).join("../../target/bin/job");
        let path = env::var_os("SNOWGIMMER_JOB").filter(|name| !name.is_empty()).map_or_else(built, PathBuf::from);
        if !path.is_file() {
            let advice = "`tools/build job` in the repository's root builds it, or SNOWGIMMER_JOB names another file";
            return Err(format!("the job program {} is not there: {advice}", path.display()));
        }
        Ok(Self::new(&path, SECONDS))
    }

    /// The program in this file, with the seconds that a process of it may take.
    ///
    /// # Panics
    ///
    /// A relative path has no current folder to be seen from.
    #[must_use]
    pub fn new(path: &Path, seconds: u32) -> Self {
        // A name without a folder would be looked for on the path.
        Self { path: std::path::absolute(path).unwrap(), seconds }
    }

    /// What the program does if its standard input is a pipe with these bytes.
    #[must_use]
    pub fn run(&self, input: &[u8]) -> Printed {
        self.started(input).unwrap_or_else(|fault| Printed { ending: format!("not run: {fault}"), text: Vec::new() })
    }

    fn started(&self, input: &[u8]) -> io::Result<Printed> {
        let seconds = self.seconds;
        let mut command = Command::new(&self.path);
        command.stdin(Stdio::piped()).stdout(Stdio::piped()).stderr(Stdio::null());
        // The alarm stays set in the program, which has no handler: one that runs on ends by signal 14.
        let set_alarm = move || {
            // SAFETY: it sets a timer.
            unsafe { alarm(seconds) };
            Ok(())
        };
        // SAFETY: what is called between fork and exec allocates nothing and takes no lock.
        let mut process = unsafe { command.pre_exec(set_alarm) }.spawn()?;
        // A pipe holds every input of a run, so this waits for nobody. A program need not read all of it.
        let _ = process.stdin.take().map(|mut pipe| pipe.write_all(input));
        let output = process.wait_with_output()?;
        Ok(Printed { ending: output.status.to_string(), text: output.stdout })
    }
}

//! Instructions, counted by `valgrind --tool=callgrind`. Where there is no valgrind, nothing is counted.

use std::ffi::OsStr;
use std::fs::{self, File};
use std::io;
use std::path::{Path, PathBuf};
use std::process::{Command, Stdio};

use bench::work::{Call, Side};

/// A folder for what callgrind writes and for the printer's input, there until this is dropped.
pub struct Counter {
    folder: PathBuf,
    repeat: PathBuf,
}

impl Counter {
    /// Makes the folder. The program `repeat` was built beside this one.
    pub fn new() -> io::Result<Counter> {
        let folder = std::env::temp_dir().join(format!("sagivelume-measure-{}", std::process::id()));
        fs::create_dir_all(&folder)?;
        Ok(Counter { folder, repeat: beside("repeat")? })
    }

    /// A file of the folder.
    pub fn file(&self, name: &str) -> PathBuf {
        self.folder.join(name)
    }

    /// Instructions of one run of a call: the difference of two programs that make it once and more often, so that
    /// start, set-up and the first run are left out.
    pub fn of_call(&self, side: Side, call: Call) -> io::Result<Option<f64>> {
        let more = if call.is_of_drawn_windows() { 1 } else { 10 };
        let count = |times: u32| {
            let numbers = [side as u32, call as u32, times].map(|number| number.to_string());
            self.of_run(&self.repeat, &numbers, Stdio::null())
        };
        let (Some(once), Some(more_often)) = (count(1)?, count(1 + more)?) else {
            return Ok(None);
        };
        Ok(Some((more_often - once) / f64::from(more)))
    }

    /// Instructions of a whole run of a program that reads a file.
    pub fn of_program(&self, program: &Path, input: &Path) -> io::Result<Option<f64>> {
        self.of_run(program, &[] as &[&str], File::open(input)?.into())
    }

    fn of_run(&self, program: &Path, arguments: &[impl AsRef<OsStr>], input: Stdio) -> io::Result<Option<f64>> {
        let mut valgrind = Command::new("valgrind");
        valgrind.arg("--tool=callgrind");
        valgrind.arg(format!("--callgrind-out-file={}", self.file("callgrind").display()));
        valgrind.arg(program).args(arguments).stdin(input);
        let run = match valgrind.output() {
            Err(error) if error.kind() == io::ErrorKind::NotFound => return Ok(None),
            run => run?,
        };
        let told = String::from_utf8_lossy(&run.stderr);
        let counted = told.lines().rev().find_map(|line| line.split_once("Collected : ")?.1.trim().parse().ok());
        match counted {
            Some(counted) if run.status.success() => Ok(Some(counted)),
            _ => Err(io::Error::other(format!("{} under callgrind: {told}", program.display()))),
        }
    }
}

impl Drop for Counter {
    fn drop(&mut self) {
        // Nothing depends on it any longer.
        let _ = fs::remove_dir_all(&self.folder);
    }
}

/// A program that was built beside this one.
pub fn beside(name: &str) -> io::Result<PathBuf> {
    Ok(std::env::current_exe()?.with_file_name(name))
}

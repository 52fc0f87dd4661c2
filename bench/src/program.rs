//! Runs of the two programs `explain` over a million lines.

use std::fs::{self, File};
use std::io::{BufRead, BufReader, BufWriter, Write};
use std::path::{Path, PathBuf};
use std::process::{Command, ExitStatus, Stdio};

/// What a run took.
#[derive(Clone, Copy)]
pub struct Run {
    /// Seconds of the processor, in the program and for it in the system.
    pub seconds: f64,
    /// The most memory that it had at one time.
    pub kilobytes: i64,
}

#[repr(C)]
#[derive(Default)]
struct Time {
    seconds: i64,
    microseconds: i64,
}

impl Time {
    fn seconds(&self) -> f64 {
        self.seconds as f64 + self.microseconds as f64 / 1e6
    }
}

#[repr(C)]
#[derive(Default)]
struct Usage {
    user: Time,
    system: Time,
    most_kilobytes: i64,
    others: [i64; 13],
}

unsafe extern "C" {
    fn wait4(process: i32, status: *mut i32, options: i32, usage: *mut Usage) -> i32;
}

/// Runs a program on an input; the output goes to a file, or nowhere.
pub fn run(program: &Path, words: &[&str], input: &Path, output: Option<&Path>) -> (Run, i32) {
    let output = match output {
        Some(path) => Stdio::from(File::create(path).expect("an output file")),
        None => Stdio::null(),
    };
    let input = File::open(input).expect("an input file");
    let child = Command::new(program).args(words).stdin(input).stdout(output).stderr(Stdio::null()).spawn();
    let child = child.expect("a program");
    let (mut status, mut usage) = (0, Usage::default());
    let ended = unsafe { wait4(child.id() as i32, &mut status, 0, &mut usage) };
    assert_eq!(ended, child.id() as i32, "no end of {}", program.display());
    let seconds = usage.user.seconds() + usage.system.seconds();
    let status: ExitStatus = std::os::unix::process::ExitStatusExt::from_raw(status);
    (Run { seconds, kilobytes: usage.most_kilobytes }, status.code().unwrap_or(-1))
}

/// Whether two files are the same. It holds little of them, since a child's peak of memory begins with this process's.
pub fn same(one: &Path, other: &Path) -> bool {
    let open = |path| BufReader::with_capacity(1 << 16, File::open(path).expect("an output file"));
    let (mut one, mut other) = (open(one), open(other));
    loop {
        let (left, right) = (one.fill_buf().expect("an output"), other.fill_buf().expect("an output"));
        let len = left.len().min(right.len());
        if left[..len] != right[..len] {
            return false;
        }
        if len == 0 {
            return left.len() == right.len();
        }
        one.consume(len);
        other.consume(len);
    }
}

/// A folder for inputs and outputs, which is emptied at the end.
pub struct Folder(PathBuf);

impl Folder {
    pub fn new() -> Folder {
        let path = std::env::temp_dir().join(format!("beside-{}", std::process::id()));
        fs::create_dir_all(&path).expect("a folder");
        Folder(path)
    }

    pub fn path(&self, name: &str) -> PathBuf {
        self.0.join(name)
    }

    pub fn write(&self, name: &str, lines: impl Iterator<Item = String>) -> PathBuf {
        let path = self.path(name);
        let mut file = BufWriter::new(File::create(&path).expect("an input file"));
        for line in lines {
            writeln!(file, "{line}").expect("room for an input file");
        }
        file.flush().expect("room for an input file");
        path
    }
}

impl Drop for Folder {
    fn drop(&mut self) {
        let _ = fs::remove_dir_all(&self.0);
    }
}

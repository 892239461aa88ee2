//! Runs the programs `route` and `bad_line`, and holds what they do to what they must do.

use naive::program::Printed;
use std::fs::File;
use std::io::{Read, Write};
use std::path::{Path, PathBuf};
use std::process::{Child, ChildStdin, Command, Stdio};
use std::sync::mpsc::{self, RecvTimeoutError};
use std::thread;
use std::time::Duration;

/// How long one run may take.
const PATIENCE: Duration = Duration::from_secs(10);

/// How long a slow feeder waits before the second half: long enough for a program to have read the first.
const PAUSE: Duration = Duration::from_millis(4);

/// How an input reaches a program.
#[derive(Clone, Copy)]
pub enum Fed<'a> {
    /// As a file.
    File(&'a Path),
    /// Through a pipe.
    Pipe(&'a [u8]),
    /// Through a pipe in two halves, so that one read gets a part of it only.
    Slowly(&'a [u8]),
}

/// A program to run, with the words given to it.
#[derive(Clone, Debug)]
pub struct Program {
    path: PathBuf,
    words: Vec<String>,
}

/// What a run did.
struct Ran {
    printed: Vec<u8>,
    complaint: Vec<u8>,
    /// The exit status, none if it was ended from outside.
    status: Option<i32>,
}

impl Program {
    /// The program of a path, which must be there.
    pub fn at(path: impl Into<PathBuf>, words: &[&str]) -> Result<Program, String> {
        let path = path.into();
        match path.is_file() {
            true => Ok(Program {
                path,
                words: words.iter().map(|word| word.to_string()).collect(),
            }),
            false => Err(format!("{} is not there", path.display())),
        }
    }

    /// What is wrong with a run, if anything: it prints what is expected, complains of nothing and ends with status 0.
    fn wrong(&self, fed: Fed, expected: &str) -> Option<String> {
        let ran = match self.run(fed) {
            Ok(ran) => ran,
            Err(error) => return Some(error),
        };
        match ran.status {
            Some(0) => {}
            Some(status) => return Some(format!("ends with status {status}")),
            None => return Some(format!("crashes, or has no end after {PATIENCE:?}")),
        }
        if !ran.complaint.is_empty() {
            let said = String::from_utf8_lossy(&ran.complaint);
            return Some(format!("writes to standard error: {said}"));
        }
        (ran.printed != expected.as_bytes()).then(|| difference(&ran.printed, expected.as_bytes()))
    }

    fn run(&self, fed: Fed) -> Result<Ran, String> {
        let told = |error: std::io::Error| format!("{}: {error}", self.path.display());
        let input = match fed {
            Fed::File(path) => Stdio::from(File::open(path).map_err(told)?),
            Fed::Pipe(_) | Fed::Slowly(_) => Stdio::piped(),
        };
        let mut child = Command::new(&self.path)
            .args(&self.words)
            .stdin(input)
            .stdout(Stdio::piped())
            .stderr(Stdio::piped())
            .spawn()
            .map_err(told)?;
        let stdin = child.stdin.take();
        let (stdout, stderr) = (child.stdout.take(), child.stderr.take());
        let (ended, end) = mpsc::channel::<()>();
        let (printed, complaint) = thread::scope(|scope| {
            scope.spawn(move || stdin.map(|stdin| feed(stdin, fed)));
            scope.spawn(|| kill_late(&mut child, end));
            let complaint = scope.spawn(move || all(stderr));
            let printed = all(stdout);
            drop(ended);
            (printed, complaint.join().unwrap_or_default())
        });
        let status = child.wait().map_err(told)?.code();
        Ok(Ran {
            printed,
            complaint,
            status,
        })
    }
}

/// Ends a run that lasts too long, so that all reads from it come to their end.
fn kill_late(child: &mut Child, end: mpsc::Receiver<()>) {
    if end.recv_timeout(PATIENCE) == Err(RecvTimeoutError::Timeout) {
        // it may have ended by itself
        let _ = child.kill();
    }
}

/// Hands the input over. A program that has seen enough may close the pipe: its answer is judged, not its reading.
fn feed(mut stdin: ChildStdin, fed: Fed) {
    let _ = match fed {
        Fed::File(_) => Ok(()),
        Fed::Pipe(input) => stdin.write_all(input),
        Fed::Slowly(input) => {
            let (start, rest) = input.split_at(input.len() / 2);
            let begun = stdin.write_all(start);
            thread::sleep(PAUSE);
            begun.and_then(|()| stdin.write_all(rest))
        }
    };
}

/// All that comes until the end.
fn all(from: Option<impl Read>) -> Vec<u8> {
    let mut bytes = Vec::new();
    if let Some(mut from) = from {
        // what came before an error is judged
        let _ = from.read_to_end(&mut bytes);
    }
    bytes
}

/// The first line in which two outputs differ.
fn difference(printed: &[u8], expected: &[u8]) -> String {
    let lines = |bytes: &[u8]| -> Vec<String> {
        let ended = bytes.split_inclusive(|&byte| byte == b'\n');
        ended.map(shown).collect()
    };
    let (printed, expected) = (lines(printed), lines(expected));
    let at = (0..)
        .find(|&at| printed.get(at) != expected.get(at))
        .unwrap_or(0);
    let line = |lines: &[String]| lines.get(at).cloned().unwrap_or("nothing".to_string());
    format!(
        "prints in line {}: {}, not {}",
        at + 1,
        line(&printed),
        line(&expected)
    )
}

/// Bytes as a string literal, the middle of long ones left out.
pub fn shown(bytes: &[u8]) -> String {
    let short = bytes.len() <= 240;
    let literal = |bytes: &[u8]| format!("\"{}\"", bytes.escape_ascii());
    match short {
        true => literal(bytes),
        false => {
            let (start, end) = (&bytes[..100], &bytes[bytes.len() - 100..]);
            let between = bytes.len() - 200;
            format!("{} .. {between} bytes .. {}", literal(start), literal(end))
        }
    }
}

/// The two programs.
#[derive(Clone, Debug)]
pub struct Programs {
    /// It prints the answers.
    pub route: Program,
    /// It prints what is wrong with a text, and where.
    pub bad_line: Program,
}

impl Programs {
    /// What is wrong with either, if anything.
    pub fn wrong(&self, fed: Fed, expected: &Printed) -> Option<String> {
        let of = |name: &str, said: String| format!("{name} {said}");
        let route = self.route.wrong(fed, &expected.route);
        route.map(|said| of("route", said)).or_else(|| {
            let bad_line = self.bad_line.wrong(fed, &expected.bad_line);
            bad_line.map(|said| of("bad_line", said))
        })
    }
}

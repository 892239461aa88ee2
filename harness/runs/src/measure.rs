//! Times by the clock, and instructions by callgrind.

use crate::lists::Call;
use crate::ready::{Job, Ready, JOBS};
use std::fs;
use std::hint::black_box;
use std::path::{Path, PathBuf};
use std::process::{Command, Stdio};
use std::time::{Duration, Instant};

/// A number for each of the jobs.
pub type PerJob<T> = [T; JOBS.len()];

/// Which calls are measured. What is told of others is no number.
pub type Wanted = fn(Call) -> bool;

/// The median time of each job in microseconds. The jobs take turns, forward and backward, so that what disturbs one
/// disturbs all; each is run once before its time is taken, so that none pays for what the one before it left.
pub fn times(ready: &mut Ready, samples: usize, wanted: Wanted) -> PerJob<f64> {
    let is_wanted = |(call, _): Job| wanted(call);
    let batches = JOBS.map(|job| match is_wanted(job) {
        true => batch(ready, job),
        false => 0,
    });
    let mut taken: PerJob<Vec<f64>> = JOBS.map(|_| Vec::new());
    for sample in 0..samples {
        for turn in 0..JOBS.len() {
            let at = match sample % 2 {
                0 => turn,
                _ => JOBS.len() - 1 - turn,
            };
            if !is_wanted(JOBS[at]) {
                continue;
            }
            time_of(ready, JOBS[at], Ready::calls(JOBS[at].0));
            let time = time_of(ready, JOBS[at], batches[at]);
            taken[at].push(time.as_secs_f64() * 1e6 / batches[at] as f64);
        }
    }
    taken.map(|mut times| {
        times.sort_by(f64::total_cmp);
        times.get(times.len() / 2).copied().unwrap_or(f64::NAN)
    })
}

/// How many calls to time at once, so that the clock counts for little: all pairs, and at least a fifth of a millisecond.
fn batch(ready: &mut Ready, job: Job) -> usize {
    let mut calls = Ready::calls(job.0);
    while time_of(ready, job, calls) < Duration::from_micros(200) {
        calls *= 2;
    }
    calls
}

fn time_of(ready: &mut Ready, job: Job, calls: usize) -> Duration {
    let start = Instant::now();
    for turn in 0..calls {
        black_box(ready.run(job, turn));
    }
    start.elapsed()
}

/// Runs a job once through all of its pairs, or through its changes, each told apart.
pub fn under_callgrind(ready: &mut Ready, job: usize) {
    let calls = Ready::calls(JOBS[job].0);
    match JOBS[job].0 {
        Call::Change => (0..calls).for_each(|turn| griezmuld_measured(ready, job, turn, turn + 1)),
        _ => griezmuld_measured(ready, job, 0, calls),
    }
}

/// What callgrind counts. The name is there to be found.
#[allow(unsafe_code)]
#[no_mangle]
#[inline(never)]
pub extern "C" fn griezmuld_measured(ready: &mut Ready, job: usize, from: usize, to: usize) {
    for turn in from..to {
        black_box(ready.run(JOBS[job], turn));
    }
}

/// The C library clears and copies long lists by one repeated instruction, which callgrind counts once for each byte.
/// This has it use its loops, whose instructions are counted as they are.
const NO_REPEATS: &str =
    "glibc.cpu.x86_rep_stosb_threshold=1000000000:glibc.cpu.x86_rep_movsb_threshold=1000000000";

/// The instructions of each job's calls.
#[derive(Clone, Copy)]
pub struct Counts {
    /// On average.
    pub mean: PerJob<f64>,
    /// The most of what is told apart: of one change.
    pub worst: PerJob<f64>,
}

/// The instructions by callgrind; none where valgrind isn't installed.
pub fn instructions(net: &str, folder: &Path, wanted: Wanted) -> Result<Option<Counts>, String> {
    let installed = Command::new("valgrind")
        .arg("--version")
        .stdout(Stdio::null())
        .stderr(Stdio::null())
        .status();
    if installed.is_err() {
        return Ok(None);
    }
    let mut counts = Counts {
        mean: [f64::NAN; JOBS.len()],
        worst: [f64::NAN; JOBS.len()],
    };
    for (at, (call, _)) in JOBS.into_iter().enumerate() {
        if wanted(call) {
            let room = Scratch::new()?;
            count(net, folder, at, &room)?;
            let told = totals(&room, call)?;
            counts.mean[at] = told.iter().sum::<f64>() / Ready::calls(call) as f64;
            counts.worst[at] = told.into_iter().fold(0.0, f64::max);
        }
    }
    Ok(Some(counts))
}

/// All that callgrind tells of a call.
fn totals(room: &Scratch, call: Call) -> Result<Vec<f64>, String> {
    let files = match call {
        Call::Change => Ready::calls(call),
        _ => 1,
    };
    (1..=files)
        .map(|file| total(&room.file(&format!("counts.{file}"))))
        .collect()
}

/// Has callgrind count one job. Each has a run of its own: on some processors callgrind takes the calls of a function
/// one after the other for calls inside each other, and tells them together.
fn count(net: &str, folder: &Path, job: usize, room: &Scratch) -> Result<(), String> {
    let program = std::env::current_exe().map_err(|error| error.to_string())?;
    let counts = room.file("counts");
    let status = Command::new("valgrind")
        .env("GLIBC_TUNABLES", NO_REPEATS)
        .arg("--tool=callgrind")
        .arg(format!("--callgrind-out-file={}", counts.display()))
        .arg("--toggle-collect=griezmuld_measured")
        .arg("--dump-after=griezmuld_measured")
        .arg(program)
        .arg("--nets")
        .arg(folder)
        .args(["--under-callgrind", net, &job.to_string()])
        .stdout(Stdio::null())
        .stderr(Stdio::null())
        .status()
        .map_err(|error| error.to_string())?;
    match status.success() {
        true => Ok(()),
        false => Err(format!("the run under callgrind ended with {status}")),
    }
}

/// The total that a file of callgrind's tells.
fn total(file: &Path) -> Result<f64, String> {
    let text = fs::read_to_string(file).map_err(|error| format!("callgrind: {error}"))?;
    let told = text.lines().find_map(|line| line.strip_prefix("totals: "));
    let told = told.or_else(|| text.lines().find_map(|line| line.strip_prefix("summary: ")));
    told.and_then(|told| told.trim().parse().ok())
        .ok_or_else(|| "callgrind tells no total".to_string())
}

/// A folder for callgrind's files, gone afterwards.
struct Scratch(PathBuf);

impl Scratch {
    fn new() -> Result<Scratch, String> {
        let path = std::env::temp_dir().join(format!("griezmuld-bench-{}", std::process::id()));
        fs::create_dir_all(&path).map_err(|error| error.to_string())?;
        Ok(Scratch(path))
    }

    fn file(&self, name: &str) -> PathBuf {
        self.0.join(name)
    }
}

impl Drop for Scratch {
    fn drop(&mut self) {
        // nothing depends on it
        let _ = fs::remove_dir_all(&self.0);
    }
}

/// Which of the jobs it is.
pub fn at(job: Job) -> usize {
    let found = JOBS.iter().position(|&other| other == job);
    found.expect("a job that is measured")
}

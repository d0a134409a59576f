//! Runs another `mlrun` and this program on the same streams and compares every byte.

use super::{generate, special};
use crate::reached::{self, Counts};
use crate::register::program;
use std::fs::{self, File};
use std::io::Write;
use std::path::{Path, PathBuf};
use std::process::{Child, Command, Stdio};
use std::sync::atomic::{AtomicUsize, Ordering};
use std::sync::Mutex;
use std::time::{Duration, Instant};

/// How long another program may take for one stream: for one that hangs.
const PATIENCE: Duration = Duration::from_secs(300);

/// What is compared: the special streams, then those of a seed.
pub struct Trial {
    pub program: Vec<String>,
    pub seed: u64,
    pub streams: usize,
    pub folder: PathBuf,
    /// After so many differences no further stream is tried.
    pub most_differences: usize,
    /// Whether the special streams are left out, but for 01's sample.
    pub short: bool,
}

/// What came of it. `differences` says where each difference is kept.
pub struct Findings {
    pub compared: usize,
    pub differences: Vec<String>,
    pub reached: Counts,
}

/// A stream by its name, and what 01 prints for it where 01 says so.
pub struct Stream {
    pub name: String,
    pub bytes: Vec<u8>,
    pub printed: Option<&'static str>,
    /// Whether the other program is given it through a pipe, a few bytes at a time.
    pub in_pieces: bool,
}

pub fn run(trial: &Trial) -> Findings {
    let specials = if trial.short { vec![special::sample()] } else { special::streams(trial.seed) };
    let next = AtomicUsize::new(0);
    let result = Mutex::new(Findings { compared: 0, differences: Vec::new(), reached: Counts::new() });
    std::thread::scope(|scope| {
        for worker in 0..2 {
            let (specials, next, result) = (&specials, &next, &result);
            scope.spawn(move || work(trial, worker, specials, next, result));
        }
    });
    result.into_inner().unwrap()
}

/// What one of two threads does: it takes the next stream, tries it and adds what came of it.
fn work(trial: &Trial, worker: usize, specials: &[Stream], next: &AtomicUsize, result: &Mutex<Findings>) {
    loop {
        let place = next.fetch_add(1, Ordering::Relaxed);
        let enough = result.lock().unwrap().differences.len() >= trial.most_differences;
        if enough || place >= specials.len() + trial.streams {
            return;
        }
        let (reached, difference) = match specials.get(place) {
            Some(special) => try_one(trial, worker, special),
            None => try_one(trial, worker, &seeded(trial.seed, place - specials.len())),
        };
        add(&mut result.lock().unwrap(), reached, difference);
    }
}

fn seeded(seed: u64, number: usize) -> Stream {
    Stream { name: format!("seed-{seed}-stream-{number}"), bytes: generate::stream(seed, number as u64), printed: None, in_pieces: false }
}

fn add(result: &mut Findings, reached: Counts, difference: Option<String>) {
    result.compared += 1;
    result.differences.extend(difference);
    for (name, count) in reached {
        *result.reached.entry(name).or_insert(0) += count;
    }
}

/// Runs both on one stream. Where they differ, the stream and both outputs are kept.
fn try_one(trial: &Trial, worker: usize, stream: &Stream) -> (Counts, Option<String>) {
    reached::begin();
    let ours = program::run(&stream.bytes);
    let reached = reached::end();
    let theirs = other(trial, worker, stream);
    let as_printed = stream.printed.map_or(true, |printed| printed == ours);
    let difference = match &theirs {
        Ok(theirs) if theirs == ours.as_bytes() && as_printed => return (reached, None),
        Ok(_) if !as_printed => "the peer does not print what 01 prints".to_string(),
        Ok(theirs) => format!("line {} of the output differs", first_difference(ours.as_bytes(), theirs)),
        Err(reason) => reason.clone(),
    };
    let kept = trial.folder.join(&stream.name);
    let with = |ending: &str| PathBuf::from(format!("{}.{ending}", kept.display()));
    let written = fs::write(with("bin"), &stream.bytes)
        .and_then(|()| fs::write(with("peer"), &ours))
        .and_then(|()| fs::write(with("mlrun"), theirs.unwrap_or_default()));
    let place = match written {
        Ok(()) => format!("kept as {}.bin, with .peer and .mlrun", kept.display()),
        Err(error) => format!("could not be kept: {error}"),
    };
    (reached, Some(format!("{}: {difference}; {place}", stream.name)))
}

/// The number, from 1, of the first line that differs.
fn first_difference(ours: &[u8], theirs: &[u8]) -> usize {
    let same = ours.iter().zip(theirs).take_while(|(a, b)| a == b).count();
    1 + ours[..same].iter().filter(|&&byte| byte == b'\n').count()
}

/// What the other program prints. Files stand for its input and output, so that no pipe can fill up, but for a stream in pieces.
fn other(trial: &Trial, worker: usize, stream: &Stream) -> Result<Vec<u8>, String> {
    let (input, output) = (trial.folder.join(format!("input{worker}")), trial.folder.join(format!("output{worker}")));
    let say = |what: &str, error: std::io::Error| format!("{what}: {error}");
    fs::write(&input, &stream.bytes).map_err(|error| say("the stream can't be written", error))?;
    let from = File::open(&input).map_err(|error| say("the stream can't be read", error))?;
    let to = File::create(&output).map_err(|error| say("the output can't be written", error))?;
    let status = if stream.in_pieces {
        let mut child = start(&trial.program, Stdio::piped(), to)?;
        write_pieces(&mut child, &stream.bytes);
        finish(child)?
    } else {
        finish(start(&trial.program, Stdio::from(from), to)?)?
    };
    let printed = fs::read(&output).map_err(|error| say("the output can't be read", error))?;
    match status {
        0 => Ok(printed),
        status => Err(format!("the program ended with status {status}")),
    }
}

fn start(program: &[String], from: Stdio, to: File) -> Result<Child, String> {
    let mut command = Command::new(&program[0]);
    command.args(&program[1..]).stdin(from).stdout(Stdio::from(to)).stderr(Stdio::null());
    command.spawn().map_err(|error| format!("{} can't be started: {error}", program[0]))
}

/// Writes three bytes at a time, with a pause, so that the program reads records in pieces. It may end before it has read everything.
fn write_pieces(child: &mut Child, bytes: &[u8]) {
    if let Some(mut pipe) = child.stdin.take() {
        for piece in bytes.chunks(3) {
            if pipe.write_all(piece).is_err() {
                return;
            }
            std::thread::sleep(Duration::from_micros(200));
        }
    }
}

/// Waits for the program's end and gives its status; one that takes too long is ended.
fn finish(mut child: Child) -> Result<i32, String> {
    let begun = Instant::now();
    loop {
        match child.try_wait() {
            Ok(Some(status)) => return Ok(status.code().unwrap_or(-1)),
            Ok(None) if begun.elapsed() < PATIENCE => std::thread::sleep(Duration::from_micros(150)),
            Ok(None) => {
                let _ = child.kill();
                let _ = child.wait();
                return Err(format!("the program took over {} seconds", PATIENCE.as_secs()));
            }
            Err(error) => return Err(format!("the program can't be waited for: {error}")),
        }
    }
}

/// What a program does wrong where the system refuses a read or a write: it must end with status 0, and have written nothing after a read.
pub fn refused_by_the_system(trial: &Trial) -> Vec<String> {
    let (input, output) = (trial.folder.join("input"), trial.folder.join("output"));
    let status = |from: &Path, to: &Path| -> Result<i32, String> {
        let open = |path: &Path, file: std::io::Result<File>| file.map_err(|error| format!("{}: {error}", path.display()));
        let (from, to) = (open(from, File::open(from))?, open(to, File::create(to))?);
        finish(start(&trial.program, Stdio::from(from), to)?)
    };
    let mut wrong = Vec::new();
    match status(Path::new("/"), &output) {
        Ok(0) if fs::read(&output).map_or(false, |printed| printed.is_empty()) => {}
        other => wrong.push(format!("input that can't be read: status {other:?}, or something was written")),
    }
    let _ = fs::write(&input, special::sample().bytes);
    match status(&input, Path::new("/dev/full")) {
        Ok(0) => {}
        other => wrong.push(format!("output that can't be written: status {other:?}")),
    }
    wrong
}

/// What the streams of a seed reach.
pub fn reach(seed: u64, streams: usize) -> Counts {
    let mut made = (0..streams).map(|number| seeded(seed, number)).collect::<Vec<_>>();
    reached::begin();
    for stream in made.drain(..) {
        program::run(&stream.bytes);
    }
    reached::end()
}

/// Writes the streams of a seed into a folder, with what this program prints for each.
pub fn make(seed: u64, streams: usize, folder: &Path) -> std::io::Result<()> {
    fs::create_dir_all(folder)?;
    for number in 0..streams {
        let stream = seeded(seed, number);
        fs::write(folder.join(format!("{number}.bin")), &stream.bytes)?;
        fs::write(folder.join(format!("{number}.out")), program::run(&stream.bytes))?;
    }
    Ok(())
}

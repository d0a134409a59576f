// Runs a program on a stream that comes in pieces, and prints what the program writes. Its exit status is the program's.
//     feed SIZE FILE PROGRAM           FILE in pieces of SIZE bytes, through a pipe
//     feed waiting SIZE FILE PROGRAM   the same, with both of the program's ends non-blocking; nothing comes at first, nor after the first
//                                      piece, and what the program writes is left lying at first, in a pipe of 4,096 bytes
//     feed socket SIZE FILE PROGRAM    as waiting, through one socket in place of two pipes
//     feed asking SIZE FILE PROGRAM    after each piece but the first, a line is waited for before the next piece is sent
//     feed broken SIZE FILE PROGRAM    behind FILE the input doesn't end, but can't be read: it is a socket that is closed with a byte left in it
use std::fs::File;
use std::io::{Read, Write};
use std::net::Shutdown;
use std::os::unix::io::{AsRawFd, FromRawFd, OwnedFd};
use std::os::unix::net::UnixStream;
use std::process::{exit, Child, Command, Stdio};
use std::sync::mpsc::{channel, Receiver};
use std::thread::{sleep, spawn};
use std::time::Duration;

extern "C" {
    fn pipe2(ends: *mut i32, flags: i32) -> i32;
    fn fcntl(descriptor: i32, command: i32, ...) -> i32;
}

const F_GETFL: i32 = 3;
const F_SETFL: i32 = 4;
const F_SETPIPE_SZ: i32 = 1031;
const O_NONBLOCK: i32 = 0o4000;
const O_CLOEXEC: i32 = 0o2000000;

// A pipe's two ends, the first for reading.
fn pipe() -> (OwnedFd, OwnedFd) {
    let mut ends = [0; 2];
    assert_eq!(unsafe { pipe2(ends.as_mut_ptr(), O_CLOEXEC) }, 0);
    unsafe { (OwnedFd::from_raw_fd(ends[0]), OwnedFd::from_raw_fd(ends[1])) }
}

fn never_blocks(end: &OwnedFd) {
    unsafe {
        let flags = fcntl(end.as_raw_fd(), F_GETFL);
        assert!(flags >= 0 && fcntl(end.as_raw_fd(), F_SETFL, flags | O_NONBLOCK) >= 0);
    }
}

fn start(program: &[String], input: OwnedFd, output: OwnedFd) -> Child {
    Command::new(&program[0]).args(&program[1..]).stdin(Stdio::from(input)).stdout(Stdio::from(output)).spawn().expect("the program")
}

// Sends the pieces. A program that has ended takes no more.
fn send(mut to: impl Write, stream: &[u8], size: usize, waits: bool, answers: Option<Receiver<()>>) {
    for (at, piece) in stream.chunks(size).enumerate() {
        if waits && at < 2 {
            sleep(Duration::from_millis(300));
        }
        if to.write_all(piece).is_err() {
            return;
        }
        if let (Some(lines), true) = (&answers, at > 0) {
            if lines.recv_timeout(Duration::from_secs(10)).is_err() {
                println!("no answer to piece {}", at + 1);
                return;
            }
        }
    }
}

fn main() {
    let mut words: Vec<String> = std::env::args().skip(1).collect();
    let kind = if words[0].parse::<usize>().is_ok() { String::from("plain") } else { words.remove(0) };
    let size: usize = words.remove(0).parse().expect("a number");
    let mut stream = Vec::new();
    File::open(words.remove(0)).expect("the stream").read_to_end(&mut stream).expect("the stream");
    let waits = kind == "waiting" || kind == "socket";
    let (said, lines) = channel();
    let lines = if kind == "asking" { Some(lines) } else { None };

    let (mut child, mut from): (Child, Box<dyn Read>);
    let sender;
    if kind == "socket" {
        let (ours, theirs) = UnixStream::pair().expect("a socket");
        let theirs = OwnedFd::from(theirs);
        never_blocks(&theirs);
        child = start(&words, theirs.try_clone().expect("a copy"), theirs);
        from = Box::new(ours.try_clone().expect("a copy"));
        sender = spawn(move || {
            send(&ours, &stream, size, waits, lines);
            let _ = ours.shutdown(Shutdown::Write);
        });
    } else if kind == "broken" {
        let (ours, mut theirs) = UnixStream::pair().expect("a socket");
        let (back, output) = pipe();
        theirs.write_all(b".").expect("a byte");
        child = start(&words, OwnedFd::from(theirs), output);
        from = Box::new(File::from(back));
        sender = spawn(move || send(ours, &stream, size, waits, lines));
    } else {
        let (input, to) = pipe();
        let (back, output) = pipe();
        if waits {
            never_blocks(&input);
            never_blocks(&output);
            assert!(unsafe { fcntl(output.as_raw_fd(), F_SETPIPE_SZ, 4096) } >= 0);
        }
        child = start(&words, input, output);
        from = Box::new(File::from(back));
        sender = spawn(move || send(File::from(to), &stream, size, waits, lines));
    }
    if waits {
        sleep(Duration::from_millis(1500));
    }
    let mut room = [0; 4096];
    loop {
        let count = from.read(&mut room).unwrap_or(0);
        if count == 0 {
            break;
        }
        std::io::stdout().write_all(&room[..count]).expect("standard output");
        for _ in room[..count].iter().filter(|byte| **byte == b'\n') {
            let _ = said.send(());
        }
    }
    let status = child.wait().expect("the program's end");
    let _ = sender.join();
    exit(status.code().unwrap_or(125));
}

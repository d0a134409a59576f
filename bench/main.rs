// Times the proved judge, the proved statements and `mlrun` beside Rust programs that do the same, in one run and on the same tables.
// `bench/run` builds it and calls it with the program `tried`, which does a thing as often as its input says, and with `mlrun`; the time of
// one call is the difference of two runs.

mod judge;
mod statements;
mod stream;
mod tables;

use statements::{Kind, Statement};
use std::io::Write;
use std::process::{Command, Stdio};
use std::time::Instant;
use tables::{case, full, Lending, Order, Tables};

const SET: [u32; 14] = [2, 5, 3, 5, 4, 5, 5, 5, 6, 5, 7, 5, 8, 5];
const FROM: [u32; 14] = [2, 0, 3, 0, 4, 0, 5, 0, 6, 0, 7, 0, 8, 0];
const AT: [u32; 16] = [15, 14, 13, 12, 11, 10, 9, 8, 7, 6, 5, 4, 3, 2, 1, 0];
const CONDITIONS: [u32; 16] = [1, 0, 2, 1, 1, 1, 4, 15, 2, 0, 3, 4_000_000_000, 3, 0, 2, 7];

// A value that the compiler can't see through. `std::hint::black_box` asks for rustc 1.66.
fn black_box<T: Copy>(value: T) -> T {
    // SAFETY: a reference to a live value is read, and the value may be copied.
    unsafe { std::ptr::read_volatile(&value) }
}

// What is timed: 0 the judge, 1 to 4 a statement, with its name and how many rows it counts in a relation of `rows` rows.
const WHAT: [&str; 5] = ["judge", "DELETE of all rows of the lowest level", "UPDATE of 7 columns of all rows of it", "UPLEVEL of 7 columns at the highest", "SELECT of all levels under 4 conditions"];

fn counted(what: usize, rows: usize) -> usize {
    [0, rows, rows, 1, 16 * rows][what]
}

fn statement(what: usize) -> Statement<'static> {
    match what {
        1 => Statement { kind: Kind::Delete, level: 0, key: 0, list: &[], conditions: &[] },
        2 => Statement { kind: Kind::Update, level: 0, key: 0, list: &SET, conditions: &[] },
        3 => Statement { kind: Kind::Uplevel, level: 15, key: 1001, list: &FROM, conditions: &[] },
        _ => Statement { kind: Kind::Select, level: 15, key: 0, list: &AT, conditions: &CONDITIONS },
    }
}

// What the proved program is given.
fn input(t: &Tables, times: u32, what: usize) -> String {
    if what == 0 {
        case(t, times, None)
    } else {
        case(t, times, Some(&statement(what)))
    }
}

fn proved_seconds(program: &[String], t: &Tables, times: u32, what: usize) -> f64 {
    let input = input(t, times, what);
    let began = Instant::now();
    let mut child = Command::new(&program[0]).args(&program[1..]).stdin(Stdio::piped()).stdout(Stdio::piped()).spawn().expect("the program");
    child.stdin.take().unwrap().write_all(input.as_bytes()).expect("its input");
    let out = child.wait_with_output().expect("its output");
    let took = began.elapsed().as_secs_f64();
    let wanted = (100 * counted(what, t.d.rows[1])).to_string();
    assert_eq!(String::from_utf8_lossy(&out.stdout).trim(), wanted, "the proved program's answer: {}", WHAT[what]);
    took
}

fn judge_seconds(t: &Tables, times: u32) -> f64 {
    let mut room = judge::Room::new(&t.d);
    let began = Instant::now();
    let mut yes = 0;
    for _ in 0..times {
        yes += judge::judge(black_box(&t.d), black_box(&t.values), black_box(&t.classes), &mut room) as u32;
    }
    let took = began.elapsed().as_secs_f64();
    assert_eq!(yes, times, "the Rust judge says the tables are legal");
    took
}

// Each statement on the tables as they came, as the proved program does it.
fn statement_seconds(t: &Tables, times: u32, what: usize) -> f64 {
    let mut room = judge::Room::new(&t.d);
    let (mut values, mut classes) = (t.values.clone(), t.classes.clone());
    let (mut shown, mut owners) = (Vec::with_capacity(8192), Vec::with_capacity(9216));
    let began = Instant::now();
    let mut counts = 0;
    for _ in 0..times {
        values.copy_from_slice(black_box(&t.values));
        classes.copy_from_slice(black_box(&t.classes));
        shown.clear();
        owners.clear();
        let mut tables = statements::Tables { d: black_box(&t.d), values: &mut values, classes: &mut classes };
        counts += statements::run(&mut tables, &mut room, black_box(&statement(what)), &mut shown, &mut owners).expect("done");
        black_box((&shown, &owners));
    }
    let took = began.elapsed().as_secs_f64();
    assert_eq!(counts, counted(what, t.d.rows[1]) * times as usize, "the Rust program's count: {}", WHAT[what]);
    took
}

fn rust_seconds(t: &Tables, times: u32, what: usize) -> f64 {
    if what == 0 {
        judge_seconds(t, times)
    } else {
        statement_seconds(t, times, what)
    }
}

// Microseconds of one call, of both, over alternating rounds: the least of each, since whatever else the machine does can only add to it.
fn compare(program: &[String], t: &Tables, what: usize) -> (f64, f64) {
    let (few, many) = (100, 2100);
    let (mut base, mut whole, mut rust) = (f64::MAX, f64::MAX, f64::MAX);
    for _ in 0..25 {
        base = base.min(proved_seconds(program, t, few, what));
        whole = whole.min(proved_seconds(program, t, many, what));
        rust = rust.min(rust_seconds(t, many - few, what));
    }
    let calls = (many - few) as f64;
    ((whole - base) / calls * 1e6, rust / calls * 1e6)
}

// Small cases, to see without a clock that the program reads what it is given: legal tables, the same with one borrowed value changed, and
// each statement. It must answer as it does at the end of its own `stdout`.
fn sample() {
    let mut t = full(Order::Sets, 2, 2, true, Lending::Lowest);
    print!("{}", input(&t, 2, 0));
    t.values[17] += 1;
    print!("{}", input(&t, 3, 0));
    let t = full(Order::Ranks, 1, 4, false, Lending::Lowest);
    for what in 1..5 {
        print!("{}", input(&t, 2, what));
    }
}

fn report(program: &[String], t: &Tables, what: usize) {
    let (proved, rust) = compare(program, t, what);
    println!("{:>6}  {:>9.1}  {:>9.1}  {:>6.2}  {}: {}", t.values.len(), proved, rust, proved / rust, WHAT[what], t.name);
}

// `mlrun` on the tables and then a statement so often: how long it took, and what it printed.
fn mlrun_seconds(mlrun: &str, t: &Tables, times: usize, what: usize) -> (f64, String) {
    let mut input = stream::opening(t);
    input.extend(stream::statement(&statement(what)).repeat(times));
    let file = std::env::temp_dir().join(format!("bench-{}.records", std::process::id()));
    std::fs::write(&file, &input).expect("a file for the stream");
    let began = Instant::now();
    let out = Command::new(mlrun).stdin(std::fs::File::open(&file).expect("the stream")).output().expect("mlrun");
    let took = began.elapsed().as_secs_f64();
    std::fs::remove_file(&file).expect("the stream");
    (took, String::from_utf8(out.stdout).expect("text"))
}

// The Rust program on the same statements.
fn serve_seconds(t: &Tables, times: usize, what: usize) -> (f64, String) {
    let records = stream::statement(&statement(what)).repeat(times);
    let mut room = judge::Room::new(&t.d);
    let mut tables = t.clone();
    let mut text = String::new();
    let began = Instant::now();
    stream::serve(&mut tables, &mut room, black_box(&records), &mut text);
    (began.elapsed().as_secs_f64(), text)
}

// Microseconds of one statement through `mlrun` and through the Rust program, least of several rounds, as above.
fn report_mlrun(mlrun: &str, t: &Tables, what: usize) {
    let (few, many) = (50, 1050);
    let (mut base, mut whole, mut rust) = (f64::MAX, f64::MAX, f64::MAX);
    for _ in 0..15 {
        base = base.min(mlrun_seconds(mlrun, t, few, what).0);
        let (took, printed) = mlrun_seconds(mlrun, t, many, what);
        whole = whole.min(took);
        let (took, wanted) = serve_seconds(t, many, what);
        rust = rust.min(took);
        assert_eq!(printed, wanted, "both print the same: {}", WHAT[what]);
    }
    let (proved, rust) = ((whole - base) / (many - few) as f64 * 1e6, rust / many as f64 * 1e6);
    println!("{:>6}  {:>9.1}  {:>9.1}  {:>6.2}  through mlrun, {}", t.values.len(), proved, rust, proved / rust, WHAT[what]);
}

fn main() {
    let arguments: Vec<String> = std::env::args().skip(1).collect();
    if arguments.is_empty() {
        return sample();
    }
    let (mlrun, program) = (arguments[0].clone(), arguments[1..].to_vec());
    println!("{:>6}  {:>9}  {:>9}  {:>6}  what: tables", "cells", "proved us", "Rust us", "ratio");
    for lending in [Lending::Lowest, Lending::Shuffled, Lending::Many] {
        report(&program, &full(Order::Sets, 8, 8, true, lending), 0);
        report(&program, &full(Order::Ranks, 1, 64, false, lending), 0);
    }
    for (order, relations, rows) in [(Order::Sets, 8, 2), (Order::Sets, 2, 2), (Order::Ranks, 1, 16), (Order::Ranks, 1, 4)] {
        report(&program, &full(order, relations, rows, order == Order::Sets, Lending::Lowest), 0);
    }
    for what in 1..5 {
        report(&program, &full(Order::Ranks, 1, 64, false, Lending::Lowest), what);
    }
    for what in 2..5 {
        report_mlrun(&mlrun, &full(Order::Ranks, 1, 64, false, Lending::Lowest), what);
    }
}

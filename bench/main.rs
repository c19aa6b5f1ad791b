//! The proved machine against one in plain Rust, in one process: first that they agree on random runs, then how long each takes.
//! With the argument `time` it times one round of each program and compares nothing, for bench/compare.py.

mod plain;
mod processor;
mod programs;
mod random;

use plain::{Clock, Machine, Outcome, Report, Request};
use programs::Program;
use std::time::Duration;

const RUNS: u32 = 200;
const ASKED: Request = Request { budget: 1_000_000, cooperative: 15 };
const ROUNDS: usize = 5;

/// How many numbers each slice has.
const MACHINE: usize = 9;
const CLOCK: usize = 17;
const REQUEST: usize = 2;
const REPORT: usize = 3;

extern "C" {
    fn machine_run(
        image: *mut u16,
        image_length: usize,
        machine: *mut u32,
        machine_length: usize,
        clock: *mut u32,
        clock_length: usize,
        request: *const u32,
        request_length: usize,
        report: *mut u32,
        report_length: usize,
    ) -> bool;
    fn machine_due(clock: u32, deadline: u32) -> bool;
}

fn call(image: &mut [u16], machine: &mut [u32], clock: &mut [u32], request: &[u32], report: &mut [u32]) -> bool {
    unsafe {
        machine_run(
            image.as_mut_ptr(),
            image.len(),
            machine.as_mut_ptr(),
            machine.len(),
            clock.as_mut_ptr(),
            clock.len(),
            request.as_ptr(),
            request.len(),
            report.as_mut_ptr(),
            report.len(),
        )
    }
}

/// The proved run, in the plain one's types.
fn proved(image: &mut [u16], m: &mut Machine, clock: &mut Clock, request: Request) -> Report {
    let mut machine = [0; MACHINE];
    machine[..4].copy_from_slice(&[m.a.into(), m.b.into(), m.c.into(), m.p.into()]);
    machine[4..8].copy_from_slice(&m.switches.map(u32::from));
    machine[8] = m.halted.into();
    let mut record = [0; CLOCK];
    record[0] = clock.common;
    record[1..].copy_from_slice(&clock.counts);
    let mut report = [0; REPORT];
    let numbers: [u32; REQUEST] = [request.budget, request.cooperative];
    assert!(call(image, &mut machine, &mut record, &numbers, &mut report));
    *m = Machine {
        a: machine[0] as u16,
        b: machine[1] as u16,
        c: machine[2] != 0,
        p: machine[3] as u16,
        switches: std::array::from_fn(|i| machine[4 + i] != 0),
        halted: machine[8] != 0,
    };
    *clock = Clock { common: record[0], counts: std::array::from_fn(|i| record[1 + i]) };
    let outcome = match report[0] {
        0 => Outcome::Halted,
        1 => Outcome::Spent,
        _ => Outcome::Failed(report[1]),
    };
    Report { outcome, steps: report[2] }
}

/// Numbers that are no call's are refused, and nothing changes.
fn refusals() {
    let refused = |machine: &[u32], clock: usize, request: usize, report: usize| {
        let (mut image, mut after) = (vec![0o3000; plain::WORDS], machine.to_vec());
        let (mut record, mut answer) = (vec![7; clock], vec![8; report]);
        assert!(!call(&mut image, &mut after, &mut record, &vec![9; request], &mut answer));
        assert!(after == machine && image.iter().all(|&w| w == 0o3000));
        assert!(record.iter().all(|&n| n == 7) && answer.iter().all(|&n| n == 8));
    };
    for slice in 0..4 {
        let right = [MACHINE, CLOCK, REQUEST, REPORT];
        for length in [0, right[slice] - 1, right[slice] + 1] {
            let mut lengths = right;
            lengths[slice] = length;
            refused(&vec![0; lengths[0]], lengths[1], lengths[2], lengths[3]);
        }
    }
    let words = [0, 1, 3].map(|place| (place, 65_536));
    let flags = [2, 4, 5, 6, 7, 8].map(|place| (place, 2));
    for (place, number) in words.into_iter().chain(flags) {
        let mut machine = [0; MACHINE];
        machine[place] = number;
        refused(&machine, CLOCK, REQUEST, REPORT);
    }
}

fn agreement() {
    refusals();
    let mut random = random::Random::new();
    let mut counts = std::collections::BTreeMap::new();
    for _ in 0..random::IMAGES {
        let mut image = random.image();
        for _ in 0..random::RUNS {
            let (length, start, clock, request) = random.run();
            let (mut m, mut n) = (start, start);
            let (mut k, mut l) = (clock, clock);
            let mut copy = image.clone();
            let report = proved(&mut image[..length], &mut m, &mut k, request);
            assert_eq!(report, plain::run(&mut copy[..length], &mut n, &mut l, request));
            assert_eq!((m, k), (n, l));
            assert!(image == copy);
            for (now, deadline) in [(k.common, clock.common), (clock.common, request.budget)] {
                assert_eq!(unsafe { machine_due(now, deadline) }, plain::due(now, deadline));
            }
            *counts.entry(format!("{:?}", report.outcome)).or_insert(0) += 1;
        }
    }
    println!("{} random runs agree: {counts:?}", random::IMAGES * random::RUNS);
}

type Run = fn(&mut [u16], &mut Machine, &mut Clock, Request) -> Report;

/// A program under way, and the time that its runs took.
struct Timed {
    run: Run,
    image: Vec<u16>,
    machine: Machine,
    clock: Clock,
    time: Duration,
}

impl Timed {
    fn new(program: &Program, run: Run) -> Timed {
        let p = program.entry;
        let machine = Machine { a: 0, b: 0, c: false, p, switches: [false; 4], halted: false };
        let clock = Clock { common: 0, counts: [0; 16] };
        Timed { run, image: program.image.clone(), machine, clock, time: Duration::ZERO }
    }

    fn go_on(&mut self) {
        let start = processor::time();
        let report = (self.run)(&mut self.image, &mut self.machine, &mut self.clock, ASKED);
        self.time += processor::time() - start;
        assert_eq!(report, Report { outcome: Outcome::Spent, steps: ASKED.budget });
    }

    fn nanoseconds(&self) -> f64 {
        self.time.as_secs_f64() * 1e9 / f64::from(RUNS * ASKED.budget)
    }
}

/// The two take turns run by run, so that what else the processor does falls on both.
fn round(program: &Program) -> (f64, f64) {
    let mut ours = Timed::new(program, proved);
    let mut theirs = Timed::new(program, plain::run);
    for _ in 0..RUNS {
        ours.go_on();
        theirs.go_on();
    }
    assert_eq!((ours.machine, ours.clock), (theirs.machine, theirs.clock));
    assert!(ours.image == theirs.image);
    (ours.nanoseconds(), theirs.nanoseconds())
}

fn median(mut figures: Vec<f64>) -> f64 {
    figures.sort_by(f64::total_cmp);
    figures[figures.len() / 2]
}

fn speed(program: &Program, rounds: usize) {
    let (ours, theirs): (Vec<f64>, Vec<f64>) = (0..rounds).map(|_| round(program)).unzip();
    let (ours, theirs) = (median(ours), median(theirs));
    println!("{:16} proved {ours:.2} ns a step, plain {theirs:.2} ns a step, ratio {:.2}", program.name, ours / theirs);
}

fn main() {
    let only_time = std::env::args().nth(1).is_some_and(|word| word == "time");
    if !only_time {
        agreement();
    }
    let rounds = if only_time { 1 } else { ROUNDS };
    programs::all().iter().for_each(|program| speed(program, rounds));
}

//! Rust and Rattle on the same traces in one run: the time a retirement of single steps, of a batch and of a trace run,
//! and their ratio; and of the plain batch, by a program of its own.
//!
//! bench SEED PROGRAM         measures all; PROGRAM is crates/plain_batch
//! bench count WHAT TRACE SIDE RETIREMENTS TIMES SEED
//!                            runs one thing, single, batch or trace of rust or port, for bench/run, which has its
//!                            instructions counted
//! bench nothing              ends at once: what it takes to start a process
//!
//! The Rust has neither batch nor trace run: for a batch it steps over the records, for a trace run it reads each
//! record's bytes and steps. Nor does it say what its branch cache predicted: that the port alone writes, a byte a
//! retirement.
#![allow(dead_code, unexpected_cfgs)]

mod core060 {
    pub mod cpu;
    pub mod timing_060;
}
mod counts;
mod library;
mod plain;
mod rust;
mod traces;

use std::hint::black_box;
use std::io::Write;
use std::time::Instant;
use traces::Trace;

const ROUNDS: usize = 25;

/// A way to run a trace, which gives the total of its clocks.
type Run<'a> = &'a mut dyn FnMut() -> u64;

fn timed(repeats: usize, run: Run) -> (u128, u64) {
    let start = Instant::now();
    let mut total = 0;
    for _ in 0..repeats {
        total = black_box(run());
    }
    (start.elapsed().as_nanos(), total)
}

/// The least time a retirement of each, in ns, over rounds in turn: what disturbs a round only adds to it.
fn least(retirements: usize, first: Run, second: Run) -> (f64, f64) {
    let repeats = (200_000 / retirements).max(1);
    let (mut a, mut b) = (u128::MAX, u128::MAX);
    for _ in 0..ROUNDS {
        let (time, total) = timed(repeats, first);
        a = a.min(time);
        let (time, other) = timed(repeats, second);
        b = b.min(time);
        assert_eq!(total, other, "the totals differ");
    }
    let each = (retirements * repeats) as f64;
    (a as f64 / each, b as f64 / each)
}

/// Writes a line to standard output; a reader that has enough ends the run.
fn line(text: &str) {
    if writeln!(std::io::stdout(), "{text}").is_err() {
        std::process::exit(1);
    }
}

fn row(what: &str, trace: &Trace, (rust, port): (f64, f64)) {
    line(&format!("{what} {} {} {rust:.2} {port:.2} {:.2}", trace.name, trace.records.len(), port / rust));
}

fn measure(trace: &Trace) {
    let n = trace.records.len();
    eprintln!("bench/run: measures the trace {}, {n} retirements", trace.name);
    let (mut costs, mut others) = (vec![0u32; n], vec![0u32; n]);
    let (mut bytes, mut more) = (vec![0u8; 4 * n], vec![0u8; 4 * n]);
    // 9 is no answer: a byte that is not written shows
    let [mut stepped, mut in_batch, mut in_run] = [(); 3].map(|_| vec![9u8; n]);
    let single = least(n, &mut || rust::single(&trace.records, &mut costs), &mut || library::single(&trace.records, &mut others, &mut stepped));
    row("single", trace, single);
    assert!(costs == others, "single steps: the costs differ");
    assert!(stepped.iter().all(|answer| *answer <= 3), "single steps: an answer is none");
    let batch = least(n, &mut || rust::single(&trace.records, &mut costs), &mut || library::batch(&trace.records, &mut others, &mut in_batch));
    row("batch", trace, batch);
    assert!(costs == others, "batch: the costs differ");
    assert!(stepped == in_batch, "batch: the answers differ");
    let run = least(n, &mut || rust::trace(&trace.bytes, &mut bytes), &mut || library::trace(&trace.bytes, &mut more, &mut in_run));
    row("trace", trace, run);
    assert!(bytes == more, "trace run: the costs differ");
    assert!(stepped == in_run, "trace run: the answers differ");
    line(&format!("batch-to-trace {} {n} {:.2} {:.2} {:.2}", trace.name, run.1, batch.1, batch.1 / run.1));
}

/// The time of the port is that of a whole process, less that of one which does nothing.
fn measure_plain(trace: &Trace, program: &str) {
    let (n, retirements) = (trace.records.len(), trace.records.len() * plain::TIMES);
    eprintln!("bench/run: measures the plain batch, {} times {n} retirements", plain::TIMES);
    let (mut costs, mut last) = (vec![0u32; n], u32::MAX);
    let (rust, whole) = least(retirements, &mut || rust::again(&trace.records, &mut costs, plain::TIMES), &mut || plain::run(program, &mut last));
    assert!(costs[n - 1] == last, "plain batch: the last costs differ");
    let (start, _) = least(retirements, &mut plain::nothing, &mut || 0);
    row("plain", trace, (rust, whole - start));
}

fn measure_all(seed: u64, program: &str) {
    line(&format!("# what trace retirements rust-ns port-ns ratio (batch-to-trace: trace-ns batch-ns ratio), seed {seed}"));
    for make in [traces::random, traces::looped, traces::mixed] {
        measure(&make(seed, 100_000));
    }
    measure_plain(&traces::looped(seed, plain::SIZE), program);
    line("# growth");
    for n in [1_000, 10_000, 100_000, 800_000] {
        measure(&traces::mixed(seed, n));
    }
}

/// Whether it is known what is to be run.
fn count(what: &str, trace: &str, side: &str, numbers: [&str; 3]) -> bool {
    let [Ok(retirements), Ok(times), Ok(seed)] = numbers.map(|word| word.parse::<usize>()) else { return false };
    let make = match trace {
        "random" => traces::random,
        "loop" => traces::looped,
        "mixed" => traces::mixed,
        _ => return false,
    };
    counts::run(what, side, &make(seed as u64, retirements), times)
}

fn main() {
    let words: Vec<String> = std::env::args().skip(1).collect();
    let words: Vec<&str> = words.iter().map(String::as_str).collect();
    let known = match words[..] {
        ["nothing"] => true,
        ["count", what, trace, side, retirements, times, seed] => count(what, trace, side, [retirements, times, seed]),
        [seed, program] => seed.parse().map(|seed| measure_all(seed, program)).is_ok(),
        _ => false,
    };
    if !known {
        eprintln!("bench: usage: bench SEED PROGRAM | bench count WHAT TRACE SIDE RETIREMENTS TIMES SEED | bench nothing");
        std::process::exit(2);
    }
}

//! What was stepped, and what differed, over all threads; a part run on all cores.
use crate::pair::Pair;
use crate::parts::Part;
use std::io::Write;
use std::sync::atomic::{AtomicBool, AtomicU64, AtomicUsize, Ordering::Relaxed};
use std::sync::Mutex;
use std::time::{Duration, Instant};

/// So many differences are printed; then no more is stepped.
const ENOUGH: u64 = 10;
const EVERY: Duration = Duration::from_secs(3);

#[derive(Default)]
pub struct Tally {
    steps: AtomicU64,
    differences: AtomicU64,
    printing: Mutex<()>,
}

impl Tally {
    #[cold]
    pub fn differs(&self, what: &str, rust: &str, library: &str) {
        let _one_at_a_time = self.printing.lock();
        if self.differences.fetch_add(1, Relaxed) < ENOUGH {
            line(&format!("DIFFERS: {what}\n    the Rust: {rust}\n    the library: {library}"));
        }
    }

    fn enough(&self) -> bool {
        self.differences.load(Relaxed) >= ENOUGH
    }
}

/// Writes a line to standard output; there is nobody to tell where it cannot be written.
pub fn line(text: &str) {
    if writeln!(std::io::stdout(), "{text}").is_err() {
        std::process::exit(1);
    }
}

/// A number with commas.
fn grouped(n: u64) -> String {
    let digits = n.to_string();
    let mut text = String::new();
    for (i, d) in digits.chars().enumerate() {
        if i > 0 && (digits.len() - i) % 3 == 0 {
            text.push(',');
        }
        text.push(d);
    }
    text
}

fn say_how_far(part: &Part, steps: u64) {
    eprintln!("tests/factors: {}, {} %, {} steps", part.name, steps * 100 / part.product(), grouped(steps));
}

// One thread: takes the next of the part's first factor until there is none, or enough has differed.
fn work(part: &Part, tally: &Tally, next: &AtomicUsize) {
    let mut pair = Pair::new(tally);
    loop {
        let i = next.fetch_add(1, Relaxed);
        if i >= part.factors[0].0 || tally.enough() {
            return;
        }
        (part.each)(&mut pair, i);
        tally.steps.fetch_add(pair.counted(), Relaxed);
    }
}

// A thread that breaks off counts as a difference.
fn on_all_cores(part: &Part, tally: &Tally) {
    let threads = std::thread::available_parallelism().map_or(1, |n| n.get());
    let (next, done) = (AtomicUsize::new(0), AtomicBool::new(false));
    std::thread::scope(|scope| {
        let teller = scope.spawn(|| {
            while !done.load(Relaxed) {
                std::thread::park_timeout(EVERY);
                if !done.load(Relaxed) {
                    say_how_far(part, tally.steps.load(Relaxed));
                }
            }
        });
        let workers: Vec<_> = (0..threads).map(|_| scope.spawn(|| work(part, tally, &next))).collect();
        let broken = workers.into_iter().map(|w| w.join()).filter(Result::is_err).count();
        tally.differences.fetch_add(broken as u64, Relaxed);
        done.store(true, Relaxed);
        teller.thread().unpark();
    });
}

/// Runs a part, prints its line, and gives how many steps passed and how many differences there were.
pub fn run(part: &Part) -> (u64, u64) {
    let (tally, start) = (Tally::default(), Instant::now());
    on_all_cores(part, &tally);
    let (steps, differences) = (tally.steps.into_inner(), tally.differences.into_inner());
    let factors: Vec<String> = part.factors.iter().map(|(n, name)| format!("{} {name}", grouped(*n as u64))).collect();
    let seconds = start.elapsed().as_secs_f64();
    line(&format!("{}: {}", part.name, factors.join(" x ")));
    let stopped = if steps < part.product() { ", stopped before the end" } else { "" };
    line(&format!("    {} steps, {} differences, {seconds:.1} s{stopped}", grouped(steps), grouped(differences)));
    // without a difference no step may be left out
    let failed = if differences == 0 && steps != part.product() { 1 } else { differences };
    (steps.saturating_sub(failed), failed)
}

//! The plain batch, `batch::run_batch_of_64`: structs by value. The library does not export it, and so a program runs
//! it, crates/plain_batch: the first retirements of the trace `loop` again and again, each time from the state that the
//! last time left. It prints the total of its clocks, and the clocks and the answer that it stored last.
use std::process::{Command, Stdio};

/// The retirements of a batch, and how often the program runs it.
pub const SIZE: usize = 64;
pub const TIMES: usize = 4_000;

fn printed(command: &mut Command) -> String {
    let output = command.stdin(Stdio::null()).stderr(Stdio::inherit()).output().expect("a program does not start");
    assert!(output.status.success(), "a program failed: {}", output.status);
    String::from_utf8(output.stdout).expect("a program prints no text")
}

/// The total; `last` gets the clocks of the last retirement. Its answer the Rust does not give.
pub fn run(program: &str, last: &mut u32) -> u64 {
    let text = printed(&mut Command::new(program));
    let numbers: Vec<u64> = text.split_whitespace().map_while(|word| word.parse().ok()).collect();
    let [total, cost, _] = numbers[..] else { panic!("{program} prints no total, clocks and answer: {text}") };
    *last = cost as u32;
    total
}

/// A process that does nothing, of this program: what it takes to start and end one.
pub fn nothing() -> u64 {
    let own = std::env::current_exe().expect("this program does not know its path");
    printed(Command::new(own).arg("nothing")).len() as u64
}

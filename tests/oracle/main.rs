//! The Rust module itself, asked from the command line.
//!
//! oracle all_opcodes   OPCODE WORD USE DEF of all 65,536 opcodes, a line each, in upper-case hex
//! oracle profile_differences          OPCODE WORD USE DEF WORD USE DEF, the crate's and the mended profile's, of each
//!                                     opcode of which these differ, and then how many there are
//! oracle rule_page DEFINITION         the page of the rules, whose names are read from the file DEFINITION
//! oracle worked        the worked instructions of document 01 that are run: the fallback, and RTS that flowed
//! oracle cases_input, oracle cases    the cases that the gate replays, and what the port must answer
//! oracle lister_limit                 what the lister must print of 65,536 and of 65,537 bytes of breaks
//! oracle plain_batch                  what `plain_batch` must print
//! oracle cost_lister [crate|mended], oracle replay [crate|mended], oracle show_trace, oracle why [full] [crate|mended]
//!                                     what these programs must print of standard input; `full` may stand last
//! oracle show_trace_input, oracle why_input   the traces that the gate shows and explains
//! oracle random_trace SEED            a trace of up to some 3,000 records, one in two damaged
//! oracle random_why SEED              one to be asked why, one in four damaged
//! oracle random_replay SEED           an image of either kind, one in three damaged, and such a trace
//! oracle examples DIR                 writes the examples and what the programs must print of them
//! oracle differential SEED SCALE RUNNER..   the port's program `cases`, run by RUNNER, against this module
#![allow(dead_code, unexpected_cfgs)]

mod differential;
mod format;
mod listing;
mod page;
mod tries;
mod core060 {
    pub mod cpu;
    pub mod reasons;
    pub mod timing_060;
}

use core060::cpu::{CRATE, CpuCore, MENDED};
use core060::timing_060::{classify_060_opcode, info_060, mended};
use std::io::{BufWriter, Error, Read, Result, Write};

const RTS: u32 = 0x4E75;

fn class_word(op: u16) -> u16 {
    let word = classify_060_opcode(op).0;
    assert_eq!(word, info_060(op).0);
    word
}

fn shown((word, uses, defs): mended::Answer) -> String {
    format!("{word:04X} {uses:04X} {defs:04X}")
}

fn all_opcodes(out: &mut impl Write) -> Result<()> {
    for op in 0..=0xFFFF {
        assert_eq!(class_word(op), mended::of_crate(op).0);
        writeln!(out, "{op:04X} {}", shown(mended::of_crate(op)))?;
    }
    Ok(())
}

fn profile_differences(out: &mut impl Write) -> Result<()> {
    let mut differ = 0;
    for op in 0..=0xFFFF {
        let (of_crate, answer) = (mended::of_crate(op), mended::answer(op));
        if of_crate != answer {
            differ += 1;
            writeln!(out, "{op:04X} {} {}", shown(of_crate), shown(answer))?;
        }
    }
    writeln!(out, "differ {differ}")
}

// Nothing is written unless all of the page is right.
fn rule_page(definition: &str, out: &mut impl Write) -> Result<()> {
    let text = std::fs::read_to_string(definition).map_err(|why| Error::other(format!("{definition}: {why}")))?;
    out.write_all(page::rule_page(&text).map_err(Error::other)?.as_bytes())
}

// One retirement of RTS from a fresh state, its fetch not cached.
fn rts(flowed: bool, raw: i32) -> i32 {
    let mut cpu = CpuCore { ir: RTS, change_of_flow: flowed, ..CpuCore::default() };
    cpu.cycles_060(raw, false)
}

fn worked(out: &mut impl Write) -> Result<()> {
    // RTS is VARIABLE and not indexed, so that where the flow is kept its cost is the fallback's.
    for raw in [i32::MIN, -1, 7, 8, 11, 12, i32::MAX] {
        writeln!(out, "fallback {raw} {}", rts(false, raw))?;
    }
    for raw in [20, 24] {
        writeln!(out, "flowed {raw} {}", rts(true, raw))?;
    }
    Ok(())
}

fn differential(words: &[String]) -> ! {
    let (Some(Ok(seed)), Some(Ok(scale))) = (words.first().map(|w| w.parse()), words.get(1).map(|w| w.parse())) else {
        eprintln!("usage: oracle differential SEED SCALE RUNNER..");
        std::process::exit(2);
    };
    match differential::run(&words[2..], seed, scale) {
        Ok((passed, failed)) => {
            println!("{passed} passed, {failed} failed");
            std::process::exit(if failed == 0 { 0 } else { 1 });
        }
        Err(why) => {
            eprintln!("oracle: {why}");
            std::process::exit(1);
        }
    }
}

const USAGE: &str = "oracle all_opcodes | profile_differences | rule_page DEFINITION | worked | cases_input | cases \
    | lister_limit | plain_batch | cost_lister [crate|mended] | replay [crate|mended] | show_trace \
    | show_trace_input | why [full] [crate|mended] | why_input | random_trace SEED | random_why SEED | random_replay SEED \
    | examples DIR | differential SEED SCALE RUNNER..";

fn usage() -> ! {
    eprintln!("usage: {USAGE}");
    std::process::exit(2);
}

// What the words behind `why` say: the profile, and whether all is told.
fn why_words(words: &[&str]) -> Option<(u32, bool)> {
    match *words {
        [] | ["crate"] => Some((CRATE, false)),
        ["mended"] => Some((MENDED, false)),
        ["full"] | ["full", "crate"] | ["crate", "full"] => Some((CRATE, true)),
        ["full", "mended"] | ["mended", "full"] => Some((MENDED, true)),
        _ => None,
    }
}

fn main() {
    let words: Vec<String> = std::env::args().skip(1).collect();
    if words.first().is_some_and(|word| word == "differential") {
        differential(&words[1..]);
    }
    // Longer input than this is refused whatever it holds, so that an endless one need not be read.
    let input = || -> Result<Vec<u8>> {
        let mut bytes = Vec::new();
        std::io::stdin().take(1 << 20).read_to_end(&mut bytes)?;
        Ok(bytes)
    };
    let mut out = BufWriter::new(std::io::stdout().lock());
    let mut print = |text: String| out.write_all(text.as_bytes());
    let words: Vec<&str> = words.iter().map(String::as_str).collect();
    let done = match words[..] {
        ["all_opcodes"] => all_opcodes(&mut out),
        ["profile_differences"] => profile_differences(&mut out),
        ["rule_page", definition] => rule_page(definition, &mut out),
        ["worked"] => worked(&mut out),
        ["cases_input"] => out.write_all(&differential::input(&differential::sample())),
        ["cases"] => print(differential::expected(&differential::sample())),
        ["lister_limit"] => print(listing::lister_limit()),
        ["plain_batch"] => print(listing::plain_batch()),
        ["cost_lister"] | ["cost_lister", "crate"] => input().and_then(|s| print(listing::cost_lister(CRATE, &s))),
        ["cost_lister", "mended"] => input().and_then(|s| print(listing::cost_lister(MENDED, &s))),
        ["replay"] | ["replay", "crate"] => input().and_then(|s| print(listing::replay(CRATE, &s))),
        ["replay", "mended"] => input().and_then(|s| print(listing::replay(MENDED, &s))),
        ["show_trace"] => input().and_then(|s| print(listing::show_trace(&s))),
        ["show_trace_input"] => out.write_all(&listing::show_trace_input()),
        ["why", ref rest @ ..] => {
            let (profile, full) = why_words(rest).unwrap_or_else(|| usage());
            input().and_then(|s| print(listing::why(profile, full, &s)))
        }
        ["why_input"] => out.write_all(&listing::why_input()),
        ["random_replay", seed] => out.write_all(&differential::random_replay(seed.parse().unwrap_or(0))),
        ["random_why", seed] => out.write_all(&differential::random_why(seed.parse().unwrap_or(0))),
        ["random_trace", seed] => out.write_all(&differential::random_trace(seed.parse().unwrap_or(0))),
        ["examples", folder] => listing::examples(std::path::Path::new(folder)),
        _ => usage(),
    };
    if let Err(why) = done.and_then(|()| out.flush()) {
        eprintln!("oracle: {why}");
        std::process::exit(1);
    }
}

//! The Rust module and the proved library, stepped side by side through all that one step can tell apart.
//!
//! factors [--all-raw]    prints a line or two for each part, and at the end how many steps passed and how many failed
#![allow(dead_code, unexpected_cfgs)]

mod core060 {
    pub mod cpu;
    pub mod reasons;
    pub mod timing_060;
}
mod pair;
mod parts;
mod sides;
mod tally;

use core060::cpu::{CRATE, MENDED};

fn main() {
    let mut all = vec![parts::no_branches(CRATE), parts::raw_edges(CRATE), parts::branches(), parts::branch_windows()];
    all.extend([parts::clears(), parts::breaks(), parts::other_numbers()]);
    all.extend([parts::no_branches(MENDED), parts::raw_edges(MENDED), parts::unmended()]);
    if std::env::args().nth(1).as_deref() == Some("--all-raw") {
        all.push(parts::all_raws());
    }
    let (mut passed, mut failed) = ([0, 0], 0);
    for part in &all {
        let (good, bad) = tally::run(part);
        passed[part.profile as usize] += good;
        failed += bad;
    }
    let [of_crate, mended] = passed;
    tally::line(&format!("by the crate's profile {of_crate} steps passed, by the mended one {mended}"));
    tally::line(&format!("{} passed, {failed} failed", of_crate + mended));
    std::process::exit(if failed == 0 { 0 } else { 1 });
}

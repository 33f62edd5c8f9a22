//! One thing run a number of times over a trace, for whoever counts the instructions: what one time more adds is the
//! thing itself, and nothing of the start and of the making of the trace.
use crate::traces::Trace;
use crate::{library, rust};
use std::hint::black_box;

/// Whether there is such a thing, by its name and its side.
pub fn run(what: &str, side: &str, trace: &Trace, times: usize) -> bool {
    let (records, bytes, n) = (&trace.records, &trace.bytes, trace.records.len());
    let (mut costs, mut cost_bytes, mut answers) = (vec![0u32; n], vec![0u8; 4 * n], vec![0u8; n]);
    let mut once: Box<dyn FnMut() -> u64> = match (what, side) {
        ("single" | "batch", "rust") => Box::new(|| rust::single(records, &mut costs)),
        ("trace", "rust") => Box::new(|| rust::trace(bytes, &mut cost_bytes)),
        ("single", "port") => Box::new(|| library::single(records, &mut costs, &mut answers)),
        ("batch", "port") => Box::new(|| library::batch(records, &mut costs, &mut answers)),
        ("trace", "port") => Box::new(|| library::trace(bytes, &mut cost_bytes, &mut answers)),
        _ => return false,
    };
    for _ in 0..times {
        black_box(once());
    }
    true
}

//! The proved library, through its exported functions.
use crate::traces::Record;

#[repr(C)]
struct Ran {
    refusal: u64,
    place: u64,
    count: u64,
    total: u64,
}

// As the exported functions take them: what is lent is where it starts and how many there are, and what a run gives
// goes where the first says.
unsafe extern "C" {
    fn timing_060_retire_at(tags: *mut u32, state: *mut u8, window: *mut u16, profile: u32, op: u16, flags: u16, ppc: u32, pc: u32, raw: i32) -> u64;
    fn timing_060_run_trace_at(ran: *mut Ran, trace: *const u8, bytes: u64, costs: *mut u8, room: u64, tags: *mut u32, state: *mut u8, window: *mut u16, profile: u32, answers: *mut u8, answers_room: u64);
    fn timing_060_run_batch_at(ran: *mut Ran, records: *const u32, words: u64, costs: *mut u32, places: u64, tags: *mut u32, state: *mut u8, window: *mut u16, profile: u32, answers: *mut u8, answers_room: u64);
}

// The profile that the Rust has.
const CRATE: u32 = 0;

struct State {
    tags: [u32; 256],
    state: [u8; 256],
    window: [u16; 8],
}

const NOTHING: Ran = Ran { refusal: 0, place: 0, count: 0, total: 0 };

const FRESH: State = State { tags: [0; 256], state: [0; 256], window: [0; 8] };

pub fn single(records: &[Record], costs: &mut [u32], answers: &mut [u8]) -> u64 {
    let mut s = FRESH;
    let mut total = 0;
    for ((r, cost), answer) in records.iter().zip(costs).zip(answers) {
        let both = unsafe { timing_060_retire_at(s.tags.as_mut_ptr(), s.state.as_mut_ptr(), s.window.as_mut_ptr(), CRATE, r.op, r.flags, r.ppc, r.pc, r.raw) };
        *cost = both as u32;
        *answer = (both >> 32) as u8;
        total += *cost as u64;
    }
    total
}

pub fn batch(records: &[Record], costs: &mut [u32], answers: &mut [u8]) -> u64 {
    let (mut s, mut ran) = (FRESH, NOTHING);
    let (at, words) = (records.as_ptr() as *const u32, 4 * records.len() as u64);
    unsafe { timing_060_run_batch_at(&mut ran, at, words, costs.as_mut_ptr(), costs.len() as u64, s.tags.as_mut_ptr(), s.state.as_mut_ptr(), s.window.as_mut_ptr(), CRATE, answers.as_mut_ptr(), answers.len() as u64) };
    assert!(ran.refusal == 0 && ran.place == 0 && ran.count == records.len() as u64);
    ran.total
}

pub fn trace(bytes: &[u8], costs: &mut [u8], answers: &mut [u8]) -> u64 {
    let (mut s, mut ran) = (FRESH, NOTHING);
    let (at, size) = (bytes.as_ptr(), bytes.len() as u64);
    unsafe { timing_060_run_trace_at(&mut ran, at, size, costs.as_mut_ptr(), costs.len() as u64, s.tags.as_mut_ptr(), s.state.as_mut_ptr(), s.window.as_mut_ptr(), CRATE, answers.as_mut_ptr(), answers.len() as u64) };
    assert!(ran.refusal == 0 && ran.place == 0 && ran.count == bytes.len() as u64 / 20);
    ran.total
}

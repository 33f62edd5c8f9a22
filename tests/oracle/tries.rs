//! Retirements that show every reason, written out: each set of the dispatch rules broken, branches in each way, and
//! flow.
use crate::core060::cpu::{CRATE, MENDED};
use crate::core060::reasons::REASONS;
use crate::format::*;

// Flags of a retirement: all but flowed, and each of them.
const PLAIN: u16 = 0x1E;
const FLOWED: u16 = 0x01;
const CACHED: u16 = 0x02;
const ESS: u16 = 0x04;
const EBC: u16 = 0x08;

// Sets the CCR, uses memory, and writes D0 and A0, so that any rule can be broken behind it: MOVE.W (A0)+,D0.
const HEAD: u16 = 0x3018;

// Others: MOVEQ #0,D0 uses no memory, SNE (A0)+ sets no CCR, LEA (A1),A0 neither; MOVEM.W ..,(A0) is of class 2, and
// ADDI.W #,D0 is taken to write all registers.
const OTHER_HEADS: [u16; 5] = [0x7000, 0x56D8, 0x41D1, 0x48D0, 0x0640];

// Followers, by the rules that they break behind HEAD: bit 0 not simple, 1 a register, 2 the CCR, 3 memory.
const FOLLOWERS: [u16; 16] = [
    0x7200, // MOVEQ #0,D1
    0xC6C2, // MULU.W D2,D3
    0x3200, // MOVE.W D0,D1
    0x4E71, // NOP, taken to touch all registers
    0x56C1, // SNE D1
    0xD742, // ADDX.W D2,D3
    0x56C0, // SNE D0
    0xD340, // ADDX.W D0,D1
    0x3211, // MOVE.W (A1),D1
    0x323B, // MOVE.W (d8,PC,Xn),D1
    0x3210, // MOVE.W (A0),D1
    0x3230, // MOVE.W (d8,A0,Xn),D1
    0x56D1, // SNE (A1)
    0x56FB, // TRAPNE.L, taken for SNE (d8,PC,Xn)
    0x56D0, // SNE (A0)
    0x56F0, // SNE (d8,A0,Xn)
];

fn retired(op: u16, flags: u16, ppc: u32, pc: u32) -> Event {
    Event::Retired(Retirement { op, flags, ppc, pc, raw: 24 })
}

// A break, a head and a follower.
fn one_try(head: (u16, u16), follower: (u16, u16)) -> [Event; 3] {
    [Event::Break, retired(head.0, head.1, 0x1000, 0x1002), retired(follower.0, follower.1, 0x1002, 0x1004)]
}

// The reason of the last of the events, which retires, by a profile and from a fresh state.
fn last_reason(profile: u32, events: &[Event]) -> usize {
    let mut state = State::default();
    let paid = events.iter().filter_map(|e| step(profile, &mut state, e)).last();
    paid.expect("no event retires").why.reason as usize
}

// Every set of the six rules broken behind HEAD: the first of them is the reason, whatever else is broken. That the
// reference says so, too, is seen to here.
fn rules() -> Vec<Event> {
    let mut events = Vec::new();
    for (broken, head_flags, flags) in [
        (0, PLAIN, PLAIN),
        (1, PLAIN & !ESS, PLAIN & !ESS),
        (1, PLAIN, PLAIN & !ESS),
        (2, PLAIN & !CACHED, PLAIN),
        (2, PLAIN, PLAIN & !CACHED),
        (3, PLAIN & !CACHED & !ESS, PLAIN & !ESS),
        (3, PLAIN, PLAIN & !CACHED & !ESS),
    ] {
        for (more, op) in FOLLOWERS.into_iter().enumerate() {
            let tried = one_try((HEAD, head_flags), (op, flags));
            let broken = broken | more << 2;
            let reason = if broken == 0 { 0 } else { 2 + broken.trailing_zeros() as usize };
            for profile in [CRATE, MENDED] {
                let told = last_reason(profile, &tried);
                assert_eq!(REASONS[told], REASONS[reason], "{op:04X} behind {HEAD:04X}, flags {flags:04X}");
            }
            events.extend(tried);
        }
    }
    events
}

// The followers behind the other heads.
fn others() -> Vec<Event> {
    let followers = |head| FOLLOWERS.into_iter().flat_map(move |op| one_try((head, PLAIN), (op, PLAIN)));
    OTHER_HEADS.into_iter().flat_map(followers).collect()
}

// Behind a shut window every rule is broken, and none is the reason.
fn shut() -> Vec<Event> {
    let all = FOLLOWERS.into_iter().chain([HEAD]).flat_map(|op| [PLAIN, 0].map(|flags| (op, flags)));
    all.flat_map(|(op, flags)| [Event::Break, retired(op, flags, 0x1000, 0x1002)]).collect()
}

// BNE and DBRA, with the window shut and open: static, missed, and predicted rightly and wrongly.
fn branches() -> Vec<Event> {
    let mut events = vec![Event::Break];
    let mut ppc = 0x2000;
    for (op, open) in [(0x66F0, false), (0x66F0, true), (0x51C8, false), (0x51C8, true)] {
        for (flags, taken) in [
            (PLAIN & !EBC, false), // EBC off
            (PLAIN & !EBC, true),
            (PLAIN & !CACHED, false), // not cached
            (PLAIN & !CACHED, true),
            (PLAIN, false), // a miss, not taken
            (PLAIN, true),  // a miss, taken: it is allocated
            (PLAIN, true),  // predicted taken, rightly
            (PLAIN, false), // and wrongly, twice
            (PLAIN, false),
            (PLAIN, false), // predicted not taken, rightly
            (PLAIN, true),  // and wrongly
        ] {
            if open {
                events.push(retired(0x7000, PLAIN, ppc - 2, ppc));
            }
            // of DBcc only pc tells whether it was taken
            let flowed = if (op == 0x66F0) == taken { FLOWED } else { 0 };
            events.push(retired(op, flags | flowed, ppc, if taken { 0x1000 } else { ppc + 4 }));
        }
        ppc += 0x10;
    }
    events
}

// RTS, and MOVEQ as if it had changed the flow, with the window shut and open, whatever rules are broken.
fn flow() -> Vec<Event> {
    let mut events = vec![Event::Break];
    for (op, flags) in [(0x4E75, PLAIN), (0x4E75, 0), (0x7200, PLAIN), (0x7000, 0)] {
        for open in [false, true] {
            if open {
                events.push(retired(0x7000, PLAIN, 0x3000, 0x3002));
            }
            events.push(retired(op, flags | FLOWED, 0x3002, 0x1000));
        }
    }
    events
}

pub fn all() -> Vec<Event> {
    [rules(), others(), shut(), branches(), flow()].concat()
}

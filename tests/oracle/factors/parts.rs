//! The parts of the product: what one retirement, a clear and a break can tell apart.
use crate::core060::cpu::{CRATE, MENDED};
use crate::core060::timing_060::{F_BRANCH, info_060, mended};
use crate::pair::{Pair, slots_from};
use crate::sides::*;

pub struct Part {
    pub name: &'static str,
    /// By which the Rust steps, and for which its steps count.
    pub profile: u32,
    /// How many there are of each factor: the product is the number of steps.
    pub factors: Vec<(usize, &'static str)>,
    /// Steps through all that goes with one of the first factor, which the threads share out.
    pub each: Box<dyn Fn(&mut Pair, usize) + Sync>,
}

impl Part {
    pub fn product(&self) -> u64 {
        self.factors.iter().map(|(n, _)| *n as u64).product()
    }
}

const FLAGS: usize = 32;

/// Opcodes that are branches, or that are none.
fn opcodes(branches: bool) -> Vec<u16> {
    (0..=0xFFFF).filter(|&op| info_060(op).has(F_BRANCH) == branches).collect()
}

/// Opcodes of which the mended profile has another class word or other masks, or of which it has the crate's. The
/// first are no branches by either profile, so that the parts of branches need not go by the mended one.
fn opcodes_mended(differ: bool) -> Vec<u16> {
    let all: Vec<u16> = (0..=0xFFFF).filter(|&op| (mended::answer(op) != mended::of_crate(op)) == differ).collect();
    let is_branch = |&op: &u16| info_060(op).has(F_BRANCH) || mended::info_060(op).has(F_BRANCH);
    assert!(!(differ && all.iter().any(is_branch)), "the mended profile mends a branch");
    all
}

/// What is no branch: by the crate's profile all, and by the mended one those that it mends.
fn opcodes_by(profile: u32) -> Vec<u16> {
    if profile == MENDED { opcodes_mended(true) } else { opcodes(false) }
}

const ALL_FIELDS: Window = [1, 0xFFFF, 1, 1, 1, 0xFFFF, 0xFFFF, 0xFFFF];
const NO_FIELDS: Window = [1, 0, 0, 0, 0, 0, 0, 0];
/// Any simple follower joins this one.
const JOINED: Window = [1, 0, 0, 0, 1, 0x7000, 0x2000, 0x0001];
/// A shut window with its other fields set, and an open one whose yes is not 1.
const SHUT_WITH_FIELDS: Window = [0, 0xFFFF, 1, 1, 1, 0xFFFF, 0xFFFF, 0xFFFF];
const OTHER_YES: Window = [2, 0, 0x0100, 0x8000, 0xFFFF, 0x0001, 0x8000, 0x0100];

/// Of a window both sides tell apart whether it is open, whether the follower touches a register of its def mask, and
/// CCR, memory, cached. Which registers a follower touches is told by the masks of a single register. Neither tells
/// heads apart by opcode and address: each window has others.
fn windows() -> Vec<Window> {
    let mut all = vec![SHUT];
    for defs in [0, 0xFFFF].into_iter().chain((0..16).map(|r| 1 << r)) {
        all.extend((0..8).map(|bits| open_window(defs, bits)));
    }
    all.extend([SHUT_WITH_FIELDS, OTHER_YES]);
    all
}

fn open_window(defs: u16, bits: u16) -> Window {
    [1, defs, bits & 1, bits >> 1 & 1, bits >> 2 & 1, 0x7000 | bits, defs, !defs]
}

/// A step that is no branch meets a slot which any update would change, and which would answer any question: valid, its
/// tag equal, its counter 2. Neither half of its address is its opcode, but for 0000, 0040 and 8000, so that a head's
/// numbers are told apart.
fn plain_step(profile: u32, op: u16) -> Step {
    let ppc = 0x0040_0000 + 7 * op as u32;
    Step { profile, op, flags: 0, raw: 0, ppc, pc: ppc.wrapping_add(2), window: SHUT, byte: 0x06, tag: ppc }
}

/// Every opcode that is no branch. The cost has the raw count only through what the fallback makes of it: here 1, which
/// is under the floor of a change of flow, and 11, which is over it. All other sides of it are `raw_edges`.
pub fn no_branches(profile: u32) -> Part {
    let (ops, windows, raws) = (opcodes_by(profile), windows(), [4, 44]);
    Part {
        name: if profile == MENDED { "mended" } else { "no branch" },
        profile,
        factors: vec![(ops.len(), "opcodes"), (FLAGS, "flags"), (windows.len(), "windows"), (raws.len(), "raw counts")],
        each: Box::new(move |pair, i| {
            let mut s = plain_step(profile, ops[i]);
            for flags in 0..FLAGS as u16 {
                s.flags = flags;
                for &window in &windows {
                    s.window = window;
                    for raw in raws {
                        s.raw = raw;
                        pair.compare(&s);
                    }
                }
                pair.look_at_other_slots(&s);
            }
        }),
    }
}

/// Raw counts on both sides of each place where the fallback's rule, or the maximum with the floor of a change of flow,
/// goes over: the multiples of 4 about 0 with their neighbours, 5 and 6 times 4, and both ends of i32.
fn edges() -> Vec<i32> {
    let low_end = [0, 1, 3, 4].map(|n| i32::MIN + n);
    let high_end = [7, 4, 3, 1, 0].map(|n| i32::MAX - n);
    (-9..=13).chain([16, 19, 20, 21, 23, 24, 25, 27, 28]).chain(low_end).chain(high_end).collect()
}

/// The raw counts at the fallback's edges. The window takes part in the cost only by the dispatch test, which reads no
/// raw count, so that a shut window and one that is joined are enough.
pub fn raw_edges(profile: u32) -> Part {
    let (ops, windows, raws) = (opcodes_by(profile), [SHUT, JOINED], edges());
    Part {
        name: if profile == MENDED { "mended, raw counts at the edges" } else { "raw counts at the edges" },
        profile,
        factors: vec![(ops.len(), "opcodes"), (FLAGS, "flags"), (windows.len(), "windows"), (raws.len(), "raw counts")],
        each: Box::new(move |pair, i| {
            let mut s = plain_step(profile, ops[i]);
            for flags in 0..FLAGS as u16 {
                s.flags = flags;
                for window in windows {
                    s.window = window;
                    for &raw in &raws {
                        s.raw = raw;
                        pair.compare(&s);
                    }
                }
                pair.look_at_other_slots(&s);
            }
        }),
    }
}

/// Cached, ESS, EBC and supervisor, the flow kept: what the class word and the masks change shows in some window.
const PAIRING: u16 = CACHED | ESS | EBC | SUPERVISOR;

/// Every opcode that the mended profile leaves as it is, by the mended one: that no more is mended.
pub fn unmended() -> Part {
    let (ops, windows) = (opcodes_mended(false), windows());
    Part {
        name: "not mended",
        profile: MENDED,
        factors: vec![(ops.len(), "opcodes"), (windows.len(), "windows")],
        each: Box::new(move |pair, i| {
            let s = Step { flags: PAIRING, raw: 44, ..plain_step(MENDED, ops[i]) };
            for &window in &windows {
                pair.compare(&Step { window, ..s });
            }
            pair.look_at_other_slots(&s);
        }),
    }
}

/// Numbers of no profile, most of them 1 in their lower bits: by these what the mended profile mends is the crate's.
pub fn other_numbers() -> Part {
    let (ops, windows) = (opcodes_mended(true), windows());
    let numbers = [2, 0x0000_0101, 0x0001_0001, 0x8000_0001, u32::MAX];
    Part {
        name: "numbers of no profile",
        profile: CRATE,
        factors: vec![(ops.len(), "opcodes"), (numbers.len(), "numbers"), (windows.len(), "windows")],
        each: Box::new(move |pair, i| {
            for number in numbers {
                let s = Step { flags: PAIRING, raw: 44, ..plain_step(number, ops[i]) };
                for &window in &windows {
                    pair.compare(&Step { window, ..s });
                }
                pair.look_at_other_slots(&s);
            }
        }),
    }
}

/// Where a branch stands: in the middle, in any slot and at odd addresses too; and at the edge of 2^32.
fn places(op: u16) -> [u32; 4] {
    [0x0040_0000 + op as u32, 0xFFFF_FFFC, 0xFFFF_FFFE, 0]
}

/// Where it goes: on to ppc + 4; elsewhere, one bit beside that, another bit for each eight bytes; to itself; to
/// ppc + 2.
fn next_places(ppc: u32, byte: u8) -> [u32; 4] {
    let through = ppc.wrapping_add(4);
    [through, through ^ 1 << (byte >> 3), ppc, ppc.wrapping_add(2)]
}

/// The slot's tag: equal; or not, by one bit, another one for each eight bytes, so that each goes with all counters.
fn tags(ppc: u32, byte: u8) -> [u32; 2] {
    [ppc, ppc ^ 1 << (byte >> 3)]
}

/// Every branch opcode in every slot. A branch reads of the window whether it is open, and no raw count: that it reads
/// nothing else is `branch_windows`.
pub fn branches() -> Part {
    let (ops, windows) = (opcodes(true), [SHUT, ALL_FIELDS, NO_FIELDS]);
    Part {
        name: "branches",
        profile: CRATE,
        factors: vec![
            (ops.len(), "opcodes"),
            (FLAGS, "flags"),
            (256, "slot bytes"),
            (2, "tags"),
            (windows.len(), "windows"),
            (4, "pc"),
            (4, "ppc"),
        ],
        each: Box::new(move |pair, i| {
            for ppc in places(ops[i]) {
                for flags in 0..FLAGS as u16 {
                    let s = Step { ppc, flags, ..plain_step(CRATE, ops[i]) };
                    for window in windows {
                        step_slots(pair, Step { window, ..s });
                    }
                    pair.look_at_other_slots(&s);
                }
            }
        }),
    }
}

/// Every byte and both tags of the slot, to each next place.
fn step_slots(pair: &mut Pair, mut s: Step) {
    for byte in 0..=255 {
        s.byte = byte;
        for tag in tags(s.ppc, byte) {
            s.tag = tag;
            for pc in next_places(s.ppc, byte) {
                s.pc = pc;
                pair.compare(&s);
            }
        }
    }
}

/// Every branch opcode in every window, with raw counts at both ends and in between: a slot that misses, and those that
/// predict not taken and taken.
pub fn branch_windows() -> Part {
    let (ops, windows, raws, bytes) = (opcodes(true), windows(), [4, 44, i32::MIN, i32::MAX], [0x00, 0x05, 0x07]);
    Part {
        name: "branches in every window",
        profile: CRATE,
        factors: vec![
            (ops.len(), "opcodes"),
            (FLAGS, "flags"),
            (windows.len(), "windows"),
            (raws.len(), "raw counts"),
            (bytes.len(), "slot bytes"),
            (2, "pc"),
        ],
        each: Box::new(move |pair, i| {
            let mut s = plain_step(CRATE, ops[i]);
            for flags in 0..FLAGS as u16 {
                s.flags = flags;
                for &window in &windows {
                    s.window = window;
                    for raw in raws {
                        s.raw = raw;
                        for byte in bytes {
                            s.byte = byte;
                            for pc in [s.ppc.wrapping_add(4), s.ppc] {
                                s.pc = pc;
                                pair.compare(&s);
                            }
                        }
                    }
                }
                pair.look_at_other_slots(&s);
            }
        }),
    }
}

/// Every byte in every slot, all slots at once, through both clears.
pub fn clears() -> Part {
    let windows = windows();
    Part {
        name: "clears",
        profile: CRATE,
        factors: vec![(256, "slot bytes in 256 slots"), (windows.len(), "windows"), (2, "clears")],
        each: Box::new(move |pair, shift| {
            let slots = slots_from(shift);
            for &window in &windows {
                for all in [true, false] {
                    pair.compare_clear(all, &slots, window);
                }
            }
            pair.put_slots_back();
        }),
    }
}

/// Every window, open or shut, through the break.
pub fn breaks() -> Part {
    Part {
        name: "breaks",
        profile: CRATE,
        factors: vec![(0x1_0000, "def masks"), (8, "fields"), (3, "open or shut")],
        each: Box::new(|pair, defs| {
            for bits in 0..8 {
                let mut window = open_window(defs as u16, bits);
                for open in [1, 0, 0xFFFF] {
                    window[0] = open;
                    pair.compare_break(window);
                }
            }
        }),
    }
}

/// RTS is VARIABLE and not indexed: where it keeps the flow its cost is the fallback's, else at least the floor's.
const RTS: u16 = 0x4E75;

/// All 2^32 raw counts.
pub fn all_raws() -> Part {
    Part {
        name: "all raw counts",
        profile: CRATE,
        factors: vec![(0x1_0000, "upper halves"), (0x1_0000, "lower halves of a raw count"), (2, "flows")],
        each: Box::new(|pair, high| {
            let mut s = plain_step(CRATE, RTS);
            for flags in [0, FLOWED] {
                s.flags = flags;
                for low in 0..=0xFFFF {
                    s.raw = ((high as u32) << 16 | low) as i32;
                    pair.compare(&s);
                }
            }
            pair.look_at_other_slots(&s);
        }),
    }
}

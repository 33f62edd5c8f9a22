//! Records, traces and images, read and written from documents 01 and 02 alone: the independent reader that the port is
//! held against. The head's opcode and address are kept here too: the Rust has neither. What its branch cache predicts
//! is asked of the Rust before each step, and why a retirement costs what it costs is found from its state then.
use crate::core060::cpu::{CACR_060_EBC, CpuCore, PCR_ESS};
use crate::core060::reasons::Why;
use crate::core060::timing_060::{BranchCache060, Oep060Timing, PendingHead060};

/// An image as it is written, of kind 17, and one of kind 16, which has no head fields and is only read.
pub const IMAGE: usize = 1294;
pub const OLD_IMAGE: usize = 1288;

#[derive(Clone, Copy, Debug, PartialEq)]
pub struct Retirement {
    pub op: u16,
    pub flags: u16,
    pub ppc: u32,
    pub pc: u32,
    pub raw: i32,
}

#[derive(Clone, Copy, Debug, PartialEq)]
pub enum Event {
    Retired(Retirement),
    Break,
    ClearAll,
    ClearUser,
}

/// The head of the window: zeros where the window is shut, or came from an image of kind 16.
#[derive(Clone, Copy, Debug, Default, PartialEq)]
pub struct Head {
    pub op: u16,
    pub address: u32,
}

/// The Rust's own state, and the head beside it.
#[derive(Clone, Debug, Default, PartialEq)]
pub struct State {
    pub timing: Oep060Timing,
    pub head: Head,
}

/// What a retirement gives: its cost, the number of what the branch cache answered, and why it costs that.
#[derive(Clone, Copy, Debug, PartialEq)]
pub struct Paid {
    pub cost: i32,
    pub answer: u8,
    pub why: Why,
}

/// What is lent: for costs so many bytes, or places of a batch, or for an image so many bytes; and so many for answers
/// and for reasons.
#[derive(Clone, Copy, Debug, PartialEq)]
pub struct Room {
    pub costs: usize,
    pub answers: usize,
    pub reasons: usize,
}

/// Enough for any run.
pub const AMPLE: Room = Room { costs: usize::MAX, answers: usize::MAX, reasons: usize::MAX };

/// A refusal: its number and place.
pub type Refused = (u32, usize);

/// The 16 bytes of a retirement.
pub fn payload(r: &Retirement) -> Vec<u8> {
    let mut p = Vec::new();
    p.extend(r.op.to_le_bytes());
    p.extend(r.flags.to_le_bytes());
    p.extend(r.ppc.to_le_bytes());
    p.extend(r.pc.to_le_bytes());
    p.extend(r.raw.to_le_bytes());
    p
}

pub fn record(e: &Event) -> Vec<u8> {
    let (kind, payload) = match e {
        Event::Retired(r) => (1u16, payload(r)),
        Event::Break => (2, Vec::new()),
        Event::ClearAll => (3, Vec::new()),
        Event::ClearUser => (4, Vec::new()),
    };
    let mut bytes = Vec::new();
    bytes.extend((payload.len() as u16).to_le_bytes());
    bytes.extend(kind.to_le_bytes());
    bytes.extend(payload);
    bytes
}

fn u16_at(s: &[u8], at: usize) -> u16 {
    u16::from_le_bytes([s[at], s[at + 1]])
}

fn u32_at(s: &[u8], at: usize) -> u32 {
    u32::from_le_bytes([s[at], s[at + 1], s[at + 2], s[at + 3]])
}

fn retirement(p: &[u8]) -> Retirement {
    Retirement { op: u16_at(p, 0), flags: u16_at(p, 2), ppc: u32_at(p, 4), pc: u32_at(p, 8), raw: u32_at(p, 12) as i32 }
}

/// How many of the events retire an instruction.
pub fn retirements(events: &[Event]) -> usize {
    events.iter().filter(|e| matches!(e, Event::Retired(_))).count()
}

/// The events of a trace, or the first refusal: 1; record by record 2 to 6; 7 after all records, where costs or answers
/// are short. A trace run is lent no reasons.
pub fn read_trace(s: &[u8], room: Room) -> Result<Vec<Event>, Refused> {
    if s.len() > 16_777_216 {
        return Err((1, 0));
    }
    let mut events = Vec::new();
    let mut at = 0;
    while at < s.len() {
        let left = s.len() - at;
        if left < 4 {
            return Err((2, at));
        }
        let (length, kind) = (u16_at(s, at) as usize, u16_at(s, at + 2));
        let expected = match kind {
            1 => 16,
            2..=4 => 0,
            _ => return Err((3, at)),
        };
        if length != expected {
            return Err((4, at));
        }
        if left < 4 + expected {
            return Err((5, at));
        }
        events.push(match kind {
            1 => {
                let r = retirement(&s[at + 4..at + 20]);
                if r.flags > 31 {
                    return Err((6, at));
                }
                Event::Retired(r)
            }
            2 => Event::Break,
            3 => Event::ClearAll,
            _ => Event::ClearUser,
        });
        at += 4 + expected;
    }
    let n = retirements(&events);
    if room.costs < 4 * n || room.answers < n {
        return Err((7, s.len()));
    }
    Ok(events)
}

/// The same of a run that says why, which is lent reasons: 7 also where these are short.
pub fn read_why(s: &[u8], room: Room) -> Result<Vec<Event>, Refused> {
    let events = read_trace(s, room)?;
    if room.reasons < retirements(&events) {
        return Err((7, s.len()));
    }
    Ok(events)
}

/// The retirements of a batch, 16 bytes each, or its refusal: 1, then 7. Bytes beyond the last whole record are none of
/// it.
pub fn read_batch(s: &[u8], room: Room) -> Result<Vec<Event>, Refused> {
    let events: Vec<Event> = s.chunks_exact(16).map(|p| Event::Retired(retirement(p))).collect();
    if events.len() > 1_048_576 {
        return Err((1, 0));
    }
    if room.costs < events.len() || room.answers < events.len() {
        return Err((7, 0));
    }
    Ok(events)
}

pub fn write_image(s: &State) -> Vec<u8> {
    let (tags, state) = s.timing.branch_cache.oracle_parts();
    let mut bytes = vec![0x0A, 0x05, 17, 0];
    for tag in tags {
        bytes.extend(tag.to_le_bytes());
    }
    bytes.extend(state);
    match &s.timing.pending_head {
        None => bytes.extend([0, 0, 0, 0]),
        Some(h) => {
            bytes.push(1);
            bytes.extend(h.def_mask.to_le_bytes());
            bytes.push(h.defines_ccr as u8 | (h.accessed_mem as u8) << 1 | (h.head_cached as u8) << 2);
        }
    }
    bytes.extend(s.head.address.to_le_bytes());
    bytes.extend(s.head.op.to_le_bytes());
    bytes
}

/// The image of kind 16 of the state whose image of kind 17 this is: another header, and no head fields.
pub fn old_image(s: &[u8]) -> Vec<u8> {
    [&[0x04, 0x05, 16, 0], &s[4..OLD_IMAGE]].concat()
}

pub fn read_image(s: &[u8]) -> Result<State, Refused> {
    let header = match s.len() {
        IMAGE => (1290, 17),
        OLD_IMAGE => (1284, 16),
        _ => return Err((8, 0)),
    };
    if (u16_at(s, 0), u16_at(s, 2)) != header {
        return Err((9, 0));
    }
    let (open, defs, bits) = (s[1284], u16_at(s, 1285), s[1287]);
    let head = match s.len() {
        IMAGE => Head { address: u32_at(s, 1288), op: u16_at(s, 1292) },
        _ => Head::default(),
    };
    let zeros = defs == 0 && bits == 0 && head == Head::default();
    if open > 1 || bits > 7 || (open == 0 && !zeros) {
        return Err((10, 1284));
    }
    let tags = (0..256).map(|i| u32_at(s, 4 + 4 * i)).collect();
    let state = s[4 + 1024..4 + 1024 + 256].to_vec();
    let timing = Oep060Timing {
        branch_cache: BranchCache060::oracle_of(tags, state),
        pending_head: (open == 1).then(|| PendingHead060 {
            def_mask: defs,
            defines_ccr: bits & 1 != 0,
            accessed_mem: bits & 2 != 0,
            head_cached: bits & 4 != 0,
        }),
    };
    Ok(State { timing, head })
}

/// One event, by the profile of a number: what a retirement gives. Where a retirement leaves the Rust a head, the head
/// is that retirement; where the Rust has none there is none; clears keep it.
pub fn step(profile: u32, s: &mut State, e: &Event) -> Option<Paid> {
    let paid = step_rust(profile, &mut s.timing, e);
    s.head = match (&s.timing.pending_head, e) {
        (None, _) => Head::default(),
        (Some(_), Event::Retired(r)) => Head { op: r.op, address: r.ppc },
        (Some(_), _) => s.head,
    };
    paid
}

// The event on the Rust module itself.
fn step_rust(profile: u32, t: &mut Oep060Timing, e: &Event) -> Option<Paid> {
    match e {
        Event::Retired(r) => {
            let mut cpu = CpuCore {
                ir: r.op as u32,
                pc: r.pc,
                ppc: r.ppc,
                change_of_flow: r.flags & 1 != 0,
                pcr: if r.flags & 4 != 0 { PCR_ESS } else { 0 },
                cacr: if r.flags & 8 != 0 { CACR_060_EBC } else { 0 },
                supervisor: r.flags & 16 != 0,
                oep060: std::mem::take(t),
            };
            let cached = r.flags & 2 != 0;
            let answer = cpu.answer_by(profile, cached);
            let why = cpu.why_by(profile, cached, answer);
            let cost = cpu.cycles_by(profile, r.raw, cached);
            why.holds_at(r.op, cost);
            *t = cpu.oep060;
            Some(Paid { cost, answer, why })
        }
        Event::Break => {
            let mut cpu = CpuCore { oep060: std::mem::take(t), ..CpuCore::default() };
            cpu.break_060_pipeline();
            *t = cpu.oep060;
            None
        }
        Event::ClearAll => {
            t.branch_cache.clear_all();
            None
        }
        Event::ClearUser => {
            t.branch_cache.clear_user();
            None
        }
    }
}

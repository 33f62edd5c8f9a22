//! What the cost lister, `replay`, `show_trace` and `why` must print, from the independent reader and the Rust module;
//! and the examples.
use crate::core060::cpu::{CRATE, MENDED};
use crate::core060::reasons::REASONS;
use crate::format::*;
use std::fmt::Write as _;
use std::path::Path;

const LISTED: usize = 65_536;

// The events of a trace that the tools take, or the line of its refusal.
fn short(trace: &[u8]) -> Result<Vec<Event>, String> {
    let read = if trace.len() > LISTED { Err((1, 0)) } else { read_trace(trace, AMPLE) };
    read.map_err(|(n, p)| format!("refused {n} at {p}\n"))
}

// The lister's lines by a profile, and the next state.
fn listing(profile: u32, trace: &[u8], mut state: State) -> (String, Option<State>) {
    let events = match short(trace) {
        Ok(events) => events,
        Err(line) => return (line, None),
    };
    let mut text = "index opcode clocks\n".to_string();
    let (mut count, mut total) = (0u64, 0u64);
    for e in &events {
        if let (Some(Paid { cost, .. }), Event::Retired(r)) = (step(profile, &mut state, e), e) {
            writeln!(text, "{count} {:04X} {cost}", r.op).unwrap();
            count += 1;
            total += cost as u64;
        }
    }
    writeln!(text, "total {count} {total}").unwrap();
    (text, Some(state))
}

pub fn cost_lister(profile: u32, input: &[u8]) -> String {
    listing(profile, input, State::default()).0
}

pub fn lister_limit() -> String {
    let breaks: Vec<u8> = (0..=LISTED).map(|i| if i % 4 == 2 { 2 } else { 0 }).collect();
    cost_lister(CRATE, &breaks[..LISTED]) + &cost_lister(CRATE, &breaks)
}

/// The first 64 retirements of the loop that bench/run measures, 4,000 times: the total, and what the last one told.
pub fn plain_batch() -> String {
    const TURN: [u16; 10] = [0x2018, 0xD081, 0x5282, 0xB083, 0x2140, 0xE588, 0x7007, 0xC041, 0x41E8, 0x66EE];
    let turn = |i: u32| match (TURN[i as usize], 0x1000 + 2 * i) {
        (op, ppc) if i == 9 => retired(op, 0x1F, ppc, 0x1000, 10),
        (op, ppc) => retired(op, 0x1E, ppc, ppc + 2, 8),
    };
    let (mut state, mut total, mut text) = (State::default(), 0u64, String::new());
    for i in (0..4000).flat_map(|_| 0..64) {
        let Paid { cost, answer, .. } = step(CRATE, &mut state, &turn(i % 10)).expect("a retirement costs");
        total += cost as u64;
        text = format!("{total} {cost} {answer}\n");
    }
    text
}

pub fn replay(profile: u32, input: &[u8]) -> String {
    let size = if input.get(2..4) == Some(&[17, 0]) { IMAGE } else { OLD_IMAGE };
    let (image, trace) = input.split_at(input.len().min(size));
    let state = match read_image(image) {
        Ok(state) => state,
        Err((n, p)) => return format!("image refused {n} at {p}\n"),
    };
    let (mut text, next) = listing(profile, trace, state);
    if let Some(next) = next {
        match next.timing.pending_head {
            Some(_) => writeln!(text, "head {:04X} at {:08X}", next.head.op, next.head.address).unwrap(),
            None => text.push_str("head none\n"),
        }
        for line in write_image(&next).chunks(32) {
            for b in line {
                write!(text, "{b:02X}").unwrap();
            }
            text.push('\n');
        }
    }
    text
}

// What the branch cache predicted, by its number.
const PREDICTED: [&str; 4] = ["not-consulted", "miss", "predicted-not-taken", "predicted-taken"];

// The registers of a mask, in rising order.
fn registers(mask: u16) -> String {
    let name = |bit: usize| format!("{}{}", if bit < 8 { 'D' } else { 'A' }, bit % 8);
    let named: Vec<String> = (0..16).filter(|bit| mask >> bit & 1 != 0).map(name).collect();
    if named.is_empty() { "-".into() } else { named.join(",") }
}

/// The reasons of a trace, by a profile; in full with the head, the registers that stand in the way, and how often each
/// reason is given.
pub fn why(profile: u32, full: bool, trace: &[u8]) -> String {
    let events = match short(trace) {
        Ok(events) => events,
        Err(line) => return line,
    };
    let mut text = "index opcode clocks reason predicted".to_string();
    text.push_str(if full { " head at registers\n" } else { "\n" });
    let mut state = State::default();
    let (mut count, mut total, mut given) = (0u64, 0u64, [0u64; REASONS.len()]);
    for e in &events {
        // the window as this retirement meets it
        let head = match state.timing.pending_head {
            Some(_) => format!("{:04X} {:08X}", state.head.op, state.head.address),
            None => "- -".into(),
        };
        let (Some(Paid { cost, answer, why }), Event::Retired(r)) = (step(profile, &mut state, e), e) else { continue };
        write!(text, "{count} {:04X} {cost} {} {}", r.op, why.reason.word(), PREDICTED[answer as usize]).unwrap();
        if full {
            write!(text, " {head} {}", registers(why.registers)).unwrap();
        }
        text.push('\n');
        count += 1;
        total += cost as u64;
        given[why.reason as usize] += 1;
    }
    writeln!(text, "total {count} {total}").unwrap();
    if full {
        REASONS.iter().zip(given).for_each(|(word, n)| writeln!(text, "{word} {n}").unwrap());
    }
    text
}

pub fn show_trace(trace: &[u8]) -> String {
    let events = match short(trace) {
        Ok(events) => events,
        Err(line) => return line,
    };
    let mut text = "place record opcode flags ppc pc raw\n".to_string();
    let mut at = 0;
    for e in &events {
        let said = match e {
            Event::Retired(r) => {
                let letter = |(bit, letter): (usize, char)| if r.flags & 1 << bit != 0 { letter } else { '-' };
                let flags: String = "fcebs".chars().enumerate().map(letter).collect();
                format!("retirement {:04X} {flags} {:08X} {:08X} {}", r.op, r.ppc, r.pc, r.raw)
            }
            Event::Break => "break".into(),
            Event::ClearAll => "clear-all".into(),
            Event::ClearUser => "clear-user".into(),
        };
        writeln!(text, "{at} {said}").unwrap();
        at += record(e).len();
    }
    writeln!(text, "end {}", trace.len()).unwrap();
    text
}

/// A trace for `show_trace`: every kind, each flag alone, none and all, and raw counts of every length and both signs.
pub fn show_trace_input() -> Vec<u8> {
    let mut events = vec![retired(0x7000, 0x1E, 0x1000, 0x1002, 4), Event::Break, Event::ClearAll, Event::ClearUser];
    let raws = [i32::MIN, i32::MAX, -1, 0, -3, 9, -10, 1_000_000_000];
    for (flags, raw) in [0, 1, 2, 4, 8, 16, 31, 0x15].into_iter().zip(raws) {
        events.push(retired(0x0BAD << flags % 5, flags, raw as u32, 0xFFFF_FFFF >> flags, raw));
        events.push(if raw < 0 { Event::ClearUser } else { Event::Break });
    }
    bytes(&events)
}

/// A trace for `why`: every reason, and then pairs that only the crate makes.
pub fn why_input() -> Vec<u8> {
    let mut events = crate::tries::all();
    events.push(Event::Break);
    events.extend(over_pairing());
    bytes(&events)
}

fn retired(op: u16, flags: u16, ppc: u32, pc: u32, raw: i32) -> Event {
    Event::Retired(Retirement { op, flags, ppc, pc, raw })
}

fn bytes(events: &[Event]) -> Vec<u8> {
    events.iter().flat_map(record).collect()
}

// Document 01's worked trace.
fn worked() -> Vec<Event> {
    vec![
        retired(0x7000, 0x1E, 0x1000, 0x1002, 4),
        retired(0x7200, 0x1E, 0x1002, 0x1004, 4),
        retired(0x60FE, 0x1F, 0x1004, 0x1004, 10),
        retired(0x60FE, 0x1F, 0x1004, 0x1004, 10),
    ]
}

// Two instructions in a row, the second of which joins the first or is kept from it by one dispatch rule, and a break
// between two tries.
fn pairs() -> Vec<Event> {
    let mut events = Vec::new();
    let mut at = 0x1000;
    for (head, follower, flags, follower_flags) in [
        (0x7000, 0x7200, 0x1E, 0x1E), // joins: D0, then D1
        (0x7000, 0x7200, 0x1A, 0x1A), // ESS off
        (0x7000, 0x7200, 0x1C, 0x1E), // the head not cached
        (0x7000, 0x7200, 0x1E, 0x1C), // the follower not cached
        (0x7000, 0x4E71, 0x1E, 0x1E), // NOP: not class 0
        (0x7000, 0x3230, 0x1E, 0x1E), // an indexed operand
        (0x7000, 0xD200, 0x1E, 0x1E), // ADD D0,D1 uses what the head defines
        (0x7000, 0x57C1, 0x1E, 0x1E), // SEQ D1 uses the CCR late, behind a definer
        (0x3010, 0x3211, 0x1E, 0x1E), // memory behind memory
    ] {
        events.push(retired(head, flags, at, at + 2, 4));
        events.push(retired(follower, follower_flags, at + 2, at + 4, 4));
        events.push(Event::Break);
        at += 4;
    }
    events
}

// A head and a follower that reads what it writes, which the crate's profile pairs and the mended one does not, and a
// break between two tries.
fn over_pairing() -> Vec<Event> {
    let mut events = Vec::new();
    let mut at = 0x1000;
    for (head, head_raw, follower) in [
        (0xB141, 4, 0x3401),  // EOR.W D0,D1, then MOVE.W D1,D2
        (0x49C0, 4, 0x2400),  // EXTB.L D0, then MOVE.L D0,D2
        (0xB308, 12, 0x2449), // CMPM.B (A0)+,(A1)+, then MOVEA.L A1,A2
    ] {
        if !events.is_empty() {
            events.push(Event::Break);
        }
        events.push(retired(head, 0x1E, at, at + 2, head_raw));
        events.push(retired(follower, 0x1E, at + 2, at + 4, 4));
        at += 4;
    }
    events
}

// A branch that is static, misses, is predicted rightly and wrongly, alone and onto an open window; then DBcc.
fn branches() -> Vec<Event> {
    let head = |at| retired(0x7000, 0x1E, at, at + 2, 4);
    let bne = |flags, pc| retired(0x66FC, flags, 0x2002, pc, 10);
    vec![
        bne(0x17, 0x2000), // EBC off: static, taken
        bne(0x16, 0x2004), // static, not taken
        bne(0x1E, 0x2004), // a miss, not taken: nothing is allocated
        bne(0x1F, 0x2000), // a miss, taken
        bne(0x1F, 0x2000), // predicted, and no window to fold onto
        head(0x2000),
        bne(0x1F, 0x2000), // predicted, folded
        head(0x2000),
        bne(0x1E, 0x2004), // predicted taken, and it was not
        Event::ClearUser,
        bne(0x1F, 0x2000), // a supervisor's entry stays
        Event::ClearAll,
        bne(0x1F, 0x2000), // a miss again
        retired(0x51C8, 0x16, 0x3000, 0x2FF0, 10), // DBcc, static, taken
        retired(0x51C8, 0x16, 0x3000, 0x3004, 14), // DBcc, static, expired
        retired(0x4E75, 0x1F, 0x3004, 0x2000, 24), // RTS: a refill
    ]
}

// The state behind the worked trace and MOVEQ #0,D2, which is a head that MOVEQ #0,D0 joins.
fn with_head() -> State {
    let mut state = State::default();
    for e in worked().iter().chain(&[retired(0x7400, 0x1E, 0x2000, 0x2002, 4)]) {
        step(CRATE, &mut state, e);
    }
    state
}

fn damaged(change: impl Fn(&mut Vec<u8>)) -> Vec<u8> {
    let mut s = bytes(&worked());
    change(&mut s);
    s
}

pub fn examples(to: &Path) -> std::io::Result<()> {
    let all: Vec<(&str, Vec<u8>)> = vec![
        ("worked", bytes(&worked())),
        ("empty", Vec::new()),
        ("pairs", bytes(&pairs())),
        ("over-pairing", bytes(&over_pairing())),
        ("branches", bytes(&branches())),
        ("refused-2", damaged(|s| s.extend([0, 0, 2]))),
        ("refused-3", damaged(|s| s[42] = 5)),
        ("refused-4", damaged(|s| s[20] = 15)),
        ("refused-5", damaged(|s| s.truncate(79))),
        ("refused-6", damaged(|s| s[26] = 0x3E)),
    ];
    let write = |name: String, bytes: &[u8]| std::fs::write(to.join(name), bytes);
    for (name, trace) in all {
        write(format!("{name}.txt"), cost_lister(CRATE, &trace).as_bytes())?;
        write(format!("{name}.show.txt"), show_trace(&trace).as_bytes())?;
        write(format!("{name}.why.txt"), why(CRATE, false, &trace).as_bytes())?;
        write(format!("{name}.why-full.txt"), why(CRATE, true, &trace).as_bytes())?;
        write(format!("{name}.trace"), &trace)?;
    }
    let replayed = |profile, image: &[u8], events: &[Event]| replay(profile, &[image, &bytes(events)].concat());
    let (fresh, head) = (write_image(&State::default()), write_image(&with_head()));
    let old = old_image(&head);
    write("fresh.image".into(), &fresh)?;
    write("head.image".into(), &head)?;
    write("old.image".into(), &old)?;
    write("worked.replay.txt".into(), replayed(CRATE, &fresh, &worked()).as_bytes())?;
    write("head.replay.txt".into(), replayed(CRATE, &head, &[]).as_bytes())?;
    write("old.replay.txt".into(), replayed(CRATE, &old, &[]).as_bytes())?;
    // no clock goes by the head's opcode or address
    let later = replayed(CRATE, &head, &worked());
    assert_eq!(later, replayed(CRATE, &old, &worked()));
    write("worked.later.replay.txt".into(), later.as_bytes())?;
    let mended = bytes(&over_pairing());
    write("over-pairing.mended.txt".into(), cost_lister(MENDED, &mended).as_bytes())?;
    write("over-pairing.mended.why.txt".into(), why(MENDED, false, &mended).as_bytes())?;
    write("over-pairing.mended.why-full.txt".into(), why(MENDED, true, &mended).as_bytes())?;
    write("over-pairing.mended.replay.txt".into(), replayed(MENDED, &fresh, &over_pairing()).as_bytes())
}

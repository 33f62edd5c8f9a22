//! The port against the Rust module, case by case, through the program `cases`.
//!
//! A case is 12 bytes (what, profile number and dirty, room for costs 2, image length 2, length 2, room for answers 2,
//! room for reasons 2), a state image or nothing, and bytes; it gives a line: WHAT VERDICT NUMBER PLACE COUNT TOTAL
//! LENT ANSWERS REASONS STATE. Each lent run holds a pattern beforehand, so that a byte written or not shows.
use crate::core060::cpu::{ANSWERS, CRATE, MENDED};
use crate::core060::reasons::REASONS;
use crate::format::*;
use crate::tries;
use std::fmt::Write as _;
use std::io::{Read, Write};
use std::process::{Command, Stdio};
use std::time::Instant;

pub struct Random(u64);

impl Random {
    pub fn new(seed: u64) -> Self {
        Random(seed.wrapping_mul(0x9E37_79B9_7F4A_7C15) | 1)
    }

    pub fn next(&mut self) -> u64 {
        self.0 ^= self.0 << 13;
        self.0 ^= self.0 >> 7;
        self.0 ^= self.0 << 17;
        self.0.wrapping_mul(0x2545_F491_4F6C_DD1D) >> 16
    }

    fn below(&mut self, n: u64) -> u64 {
        self.next() % n
    }

    fn one_in(&mut self, n: u64) -> bool {
        self.below(n) == 0
    }

    fn pick<T: Copy>(&mut self, from: &[T]) -> T {
        from[self.below(from.len() as u64) as usize]
    }
}

#[derive(Clone)]
pub struct Case {
    what: u8,
    /// Of the profile, 0 to 127.
    number: u8,
    dirty: bool,
    room: Room,
    image: Vec<u8>,
    bytes: Vec<u8>,
}

const TRACE: u8 = 1;
const READ: u8 = 2;
const WRITE: u8 = 3;
const BATCH: u8 = 4;
const SLICE: u8 = 5;
const BREAK: u8 = 6;
const WHY: u8 = 7;

const NO_ROOM: Room = Room { costs: 0, answers: 0, reasons: 0 };

// A run of a trace, and not of a batch's records.
fn of_trace(what: u8) -> bool {
    what == TRACE || what == WHY
}

// What of a run's room is for the cost of one retirement.
fn each_cost(what: u8) -> usize {
    if of_trace(what) { 4 } else { 1 }
}

// The bytes that are lent to a case.
struct Lent {
    costs: Vec<u8>,
    answers: Vec<u8>,
    reasons: Vec<u8>,
}

// What a lent run holds beforehand.
fn pattern(bytes: usize) -> Vec<u8> {
    (0..bytes).map(|i| (i * 7 + 3) as u8).collect()
}

impl Case {
    // A run of events, of a batch only those that retire, which is lent just enough.
    fn run(what: u8, number: u8, dirty: bool, image: &[u8], events: &[Event]) -> Self {
        let header = if of_trace(what) { 0 } else { 4 };
        let read = events.iter().filter(|e| of_trace(what) || matches!(e, Event::Retired(_)));
        let bytes = read.flat_map(|e| record(e)[header..].to_vec()).collect();
        let n = retirements(events);
        let room = Room { costs: each_cost(what) * n, answers: n, reasons: n };
        Case { what, number, dirty, room, image: image.to_vec(), bytes }
    }

    // The same, lent so much more or less.
    fn lent(mut self, costs: isize, answers: isize) -> Self {
        self.room.costs = self.room.costs.saturating_add_signed(costs);
        self.room.answers = self.room.answers.saturating_add_signed(answers);
        self
    }

    // The same of the reasons.
    fn told(mut self, reasons: isize) -> Self {
        self.room.reasons = self.room.reasons.saturating_add_signed(reasons);
        self
    }

    fn encode(&self, out: &mut Vec<u8>) {
        out.push(self.what);
        out.push(self.number << 1 | self.dirty as u8);
        for n in [self.room.costs, self.image.len(), self.bytes.len(), self.room.answers, self.room.reasons] {
            out.extend((n as u16).to_le_bytes());
        }
        out.extend(&self.image);
        out.extend(&self.bytes);
    }

    fn batch(&self) -> bool {
        self.what == BATCH || self.what == SLICE
    }

    fn runs(&self) -> bool {
        of_trace(self.what) || self.batch()
    }

    // The profile that the number means, as a host passes it.
    fn profile(&self) -> u32 {
        self.number.into()
    }

    // What a run reads; nothing where it is no run.
    fn events(&self) -> Result<Vec<Event>, Refused> {
        match self.what {
            TRACE => read_trace(&self.bytes, self.room),
            WHY => read_why(&self.bytes, self.room),
            BATCH | SLICE => read_batch(&self.bytes, self.room),
            _ => Ok(Vec::new()),
        }
    }

    // The state that it starts from. A dirty one is a shut window with its other fields set: it is no head.
    fn start(&self) -> State {
        let mut state = read_image(&self.image).unwrap_or_default();
        if self.dirty {
            state.timing.pending_head = None;
            state.head = Head::default();
        }
        state
    }

    // Of a run by a profile what its retirements give, nothing where it is refused, and the state that it leaves.
    fn stepped(&self, profile: u32) -> (Vec<Paid>, State) {
        let mut state = self.start();
        let paid = self.events().unwrap_or_default().iter().filter_map(|e| step(profile, &mut state, e)).collect();
        (paid, state)
    }

    fn paid(&self, profile: u32) -> Vec<Paid> {
        self.stepped(profile).0
    }

    // What is lent to a run, before it. Reasons are lent to `why` alone, whatever the case says.
    fn lends(&self) -> Lent {
        let reasons = if self.what == WHY { self.room.reasons } else { 0 };
        let costs = if self.batch() { 4 * self.room.costs } else { self.room.costs };
        Lent { costs: pattern(costs), answers: pattern(self.room.answers), reasons: pattern(reasons) }
    }

    // What a run gives: the verdict, the count and the total. Costs, answers and reasons go into what is lent for them.
    fn ran(&self, lent: &mut Lent, state: &mut State) -> String {
        let events = match self.events() {
            Err((n, p)) => return format!("refused {n} {p} 0 0"),
            Ok(events) => events,
        };
        let (mut count, mut total) = (0, 0u64);
        for Paid { cost, answer, why } in events.iter().filter_map(|e| step(self.profile(), state, e)) {
            lent.costs[4 * count..4 * count + 4].copy_from_slice(&(cost as u32).to_le_bytes());
            lent.answers[count] = answer;
            if self.what == WHY {
                lent.reasons[count] = why.reason as u8;
            }
            count += 1;
            total += cost as u64;
        }
        format!("accepted 0 0 {count} {total}")
    }

    // The line that the port must print. Answers and reasons are lent to runs alone, whatever the case says.
    fn expected(&self) -> String {
        let mut state = self.start();
        match self.what {
            TRACE | BATCH | SLICE | WHY => {
                let what = match self.what {
                    TRACE => "trace",
                    BATCH => "batch",
                    SLICE => "slice",
                    _ => "why",
                };
                let mut lent = self.lends();
                let gave = self.ran(&mut lent, &mut state);
                let [costs, answers, reasons] = [lent.costs, lent.answers, lent.reasons].map(|bytes| hex(&bytes));
                format!("{what} {gave} {costs} {answers} {reasons} {}", shown(&state))
            }
            BREAK => {
                step(self.profile(), &mut state, &Event::Break);
                format!("break accepted 0 0 0 0 - - - {}", shown(&state))
            }
            READ => match read_image(&self.bytes) {
                Err((n, p)) => format!("read refused {n} {p} 0 0 - - - {}", shown(&State::default())),
                Ok(state) => format!("read accepted 0 0 0 0 - - - {}", shown(&state)),
            },
            _ => {
                let mut lent = pattern(self.room.costs);
                if lent.len() < IMAGE {
                    format!("write refused 7 0 0 0 {} - - -", hex(&lent))
                } else {
                    lent[..IMAGE].copy_from_slice(&write_image(&state));
                    format!("write accepted 0 0 {IMAGE} 0 {} - - -", hex(&lent))
                }
            }
        }
    }
}

fn hex(bytes: &[u8]) -> String {
    if bytes.is_empty() {
        return "-".into();
    }
    bytes.iter().fold(String::new(), |mut s, b| {
        write!(s, "{b:02X}").unwrap();
        s
    })
}

fn shown(state: &State) -> String {
    if *state == State::default() { "fresh".into() } else { hex(&write_image(state)) }
}

// ---- generators

// The number of a profile: mostly the crate's or the mended one's, and now and then another, which means the crate's.
fn any_number(rng: &mut Random) -> u8 {
    match rng.below(16) {
        0..=6 => 0,
        7..=14 => 1,
        _ => 2 + rng.below(126) as u8,
    }
}

// The rows of the mended profile, and one that is beside them.
const ROWS: u64 = 8;

// An opcode of a row, or one near it.
fn row_opcode(rng: &mut Random, row: u64) -> u16 {
    let (x, size, y) = ((rng.below(8) << 9) as u16, (rng.below(4) << 6) as u16, rng.below(8) as u16);
    let operand = rng.below(0x40) as u16;
    match row {
        0 => 0xB100 | x | size | y,                                                   // EOR, and CMPA
        1 => 0x49C0 | y,                                                              // EXTB.L
        2 => 0xB108 | x | size | y,                                                   // CMPM, and CMPA
        3 => 0x0E00 | size | operand,                                                 // MOVES, and CAS
        4 => rng.pick(&[0x8180, 0x8180, 0x8140, 0x8100, 0x8190]) | x | operand & 15,  // UNPK, PACK, SBCD, OR
        5 => rng.pick(&[0x4900, 0x4980, 0x4940]) | operand,                           // CHK on D4, and between
        6 => 0x49C0 | operand,                                                        // LEA into A4, and EXTB.L
        _ => 0x4100 | x | size | operand,                                             // CHK and LEA on any register
    }
}

// What may join and be joined, and touches a register that the opcode names, or register 4.
fn partner(rng: &mut Random, op: u16) -> u16 {
    let (r, other) = (rng.pick(&[op & 7, op >> 9 & 7, 4]), (rng.below(8) << 9) as u16);
    rng.pick(&[
        0x3000 | other | r,       // MOVE.W Dr,Dn
        0x3008 | other | r,       // MOVE.W Ar,Dn
        0x3010 | other | r,       // MOVE.W (Ar),Dn
        0x3040 | r << 9 | op & 7, // MOVEA.W Dn,Ar
        0x5240 | r,               // ADDQ.W #1,Dr
        0x5248 | r,               // ADDQ.W #1,Ar
        0x7000 | r << 9,          // MOVEQ #0,Dr
        0x56C0 | r,               // SNE Dr, which uses the CCR late
    ])
}

// An opcode of a row and its partner, one behind the other, often with NOP before them, which shuts the window.
fn pair(rng: &mut Random, events: &mut Vec<Event>, row: u64) {
    let op = row_opcode(rng, row);
    let partner = partner(rng, op);
    let mut all = if rng.one_in(3) { vec![partner, op] } else { vec![op, partner] };
    if rng.one_in(2) {
        all.insert(0, 0x4E71);
    }
    let mut ppc = 0x1000 + 2 * rng.below(0x400) as u32;
    for op in all {
        let flags = if rng.one_in(16) { rng.below(32) as u16 } else { 0x1E };
        events.push(Event::Retired(Retirement { op, flags, ppc, pc: ppc + 2, raw: raw(rng) }));
        ppc += 2;
    }
}

fn opcode(rng: &mut Random, number: u8) -> u16 {
    if number != 0 && rng.one_in(2) {
        let row = rng.below(ROWS);
        return row_opcode(rng, row);
    }
    match rng.below(8) {
        0 => rng.pick(&[0x60FE, 0x6000, 0x6100, 0x66F0, 0x51C8, 0x57C9, 0x4E75, 0x4EB9]),
        1 => 0x7000 | (rng.below(8) << 9) as u16 | rng.below(256) as u16,
        2 => 0x6000 | rng.below(0x1000) as u16,
        3 => 0x5000 | rng.below(0x1000) as u16,
        4 => rng.pick(&[
            0x2040, 0x2030, 0x41D0, 0x49D0, 0x49C0, 0xB141, 0xD1C0, 0xE0F0, 0x0E10, 0xD081, 0x1018, 0x3140,
        ]),
        _ => rng.next() as u16,
    }
}

fn raw(rng: &mut Random) -> i32 {
    match rng.below(6) {
        0 => rng.pick(&[i32::MIN, -1, 0, 1, 3, 4, 7, 8, 11, 12, 20, 24, i32::MAX, i32::MIN + 1, i32::MAX - 3]),
        1 => rng.next() as i32,
        _ => rng.below(64) as i32,
    }
}

// An instruction on few registers, so that two often share one: what can join a head and what cannot, on memory and
// not, with the CCR set, used late and neither.
fn instruction(rng: &mut Random) -> u16 {
    let (x, y) = ((rng.below(4) << 9) as u16, rng.below(4) as u16);
    rng.pick(&[
        0x7000 | x,     // MOVEQ #0,Dx
        0x3000 | x | y, // MOVE.W Dy,Dx
        0x3010 | x | y, // MOVE.W (Ay),Dx
        0x3018 | x | y, // MOVE.W (Ay)+,Dx
        0x3080 | x | y, // MOVE.W Dy,(Ax)
        0x3040 | x | y, // MOVEA.W Dy,Ax
        0x41D0 | x | y, // LEA (Ay),Ax
        0x56C0 | y,     // SNE Dy
        0x56D0 | y,     // SNE (Ay)
        0x5248 | y,     // ADDQ.W #1,Ay
        0xB140 | x | y, // EOR.W Dx,Dy
        0x0640 | y,     // ADDI.W #,Dy, which is taken to touch all registers
        0x48D0 | y,     // MOVEM.W ..,(Ay)
        0x3030 | x | y, // MOVE.W (d8,Ay,Xn),Dx
        0x4E71,         // NOP
    ])
}

// Of the styles of a run, by its addresses, the last has branches for the most part.
const STYLES: u64 = 5;
const BRANCHES: u64 = 4;

// A branch in one of four slots, now and then under another tag, the odd address among them. Each slot is mostly taken
// or mostly not, so that counters go from end to end.
fn branch(rng: &mut Random) -> Retirement {
    let even = 0x2000 + 2 * rng.below(4) as u32;
    let ppc = even + rng.pick(&[0, 0, 0, 0, 0, 0, 0, 0, 0, 1, 512, 1024]);
    let taken = (even & 2 == 0) != rng.one_in(3);
    let dbcc = rng.one_in(3);
    let op = match dbcc {
        true => 0x50C8 | (rng.below(16) << 8) as u16 | rng.below(8) as u16,
        false => 0x6000 | rng.below(0x1000) as u16,
    };
    let flowed = if dbcc { rng.below(2) } else { taken as u64 };
    let flags = flowed | if rng.one_in(4) { rng.below(16) << 1 } else { 0x0E | rng.below(2) << 4 };
    let pc = if taken { ppc - 2 * rng.below(16) as u32 } else { ppc + 4 };
    Retirement { op, flags: flags as u16, ppc, pc, raw: raw(rng) }
}

fn random_retirement(rng: &mut Random, number: u8, style: u64) -> Retirement {
    if style == BRANCHES && !rng.one_in(4) {
        return branch(rng);
    }
    let ppc = match style {
        // all of the address space
        0 => rng.next() as u32,
        // a few branches, so that the cache is trained
        1 => 0x1000 + 2 * rng.below(12) as u32,
        // slots that alias: the same low bits under different tags
        2 | BRANCHES => 0x2000 + 512 * rng.below(6) as u32 + 2 * rng.below(3) as u32,
        // near the end of the address space, where ppc + 4 wraps
        _ => 0xFFFF_FFF0u32.wrapping_add(2 * rng.below(12) as u32),
    };
    let pc = if rng.one_in(3) { rng.next() as u32 } else { ppc.wrapping_add(2 * rng.below(4) as u32) };
    let flags = if rng.one_in(4) { rng.below(32) } else { 0x0E | rng.below(2) | rng.below(2) << 4 };
    Retirement { op: opcode(rng, number), flags: flags as u16, ppc, pc, raw: raw(rng) }
}

// A loop as programs have them: a body of plain instructions and a branch back that is taken but for the last time.
fn realistic(rng: &mut Random, number: u8, events: &mut Vec<Event>, turns: u64) {
    let start = 0x4000 + 2 * rng.below(0x400) as u32;
    let body: Vec<u16> = (0..1 + rng.below(6)).map(|_| opcode(rng, number)).collect();
    let end = if rng.one_in(2) { 0x51C8 } else { 0x66F0 };
    for turn in 0..turns {
        let mut ppc = start;
        for &op in &body {
            events.push(Event::Retired(Retirement { op, flags: 0x1E, ppc, pc: ppc + 2, raw: 4 }));
            ppc += 2;
        }
        let last = turn + 1 == turns;
        let flowed = !last && end != 0x51C8;
        let pc = if last { ppc + if end == 0x51C8 { 4 } else { 2 } } else { start };
        events.push(Event::Retired(Retirement { op: end, flags: 0x1E | flowed as u16, ppc, pc, raw: 10 }));
    }
}

fn events(rng: &mut Random, number: u8, size: u64) -> Vec<Event> {
    let mut events = Vec::new();
    let style = rng.below(STYLES);
    while (events.len() as u64) < size {
        match rng.below(40) {
            0 => events.push(Event::Break),
            1 if rng.one_in(4) => events.push(Event::ClearAll),
            2 | 3 if style != BRANCHES || rng.one_in(4) => events.push(Event::ClearUser),
            4 => {
                let turns = 1 + rng.below(9);
                realistic(rng, number, &mut events, turns)
            }
            _ if number != 0 && style != BRANCHES && rng.one_in(2) => {
                let row = rng.below(ROWS);
                pair(rng, &mut events, row)
            }
            _ => events.push(Event::Retired(random_retirement(rng, number, style))),
        }
    }
    events
}

// What is asked why: such instructions, and between them branches, all else, and pairs of the mended profile's rows.
fn why_events(rng: &mut Random, number: u8, size: u64) -> Vec<Event> {
    let mut events = Vec::new();
    while (events.len() as u64) < size {
        match rng.below(16) {
            0 => events.push(rng.pick(&[Event::Break, Event::Break, Event::ClearUser])),
            1..=3 => events.push(Event::Retired(branch(rng))),
            4 => events.push(Event::Retired(random_retirement(rng, number, 1))),
            5 | 6 if number != 0 => {
                let row = rng.below(ROWS);
                pair(rng, &mut events, row)
            }
            _ => {
                let (op, ppc) = (instruction(rng), 0x1000 + 2 * rng.below(0x400) as u32);
                let flags = if rng.one_in(8) { rng.below(32) as u16 } else { 0x1E };
                events.push(Event::Retired(Retirement { op, flags, ppc, pc: ppc + 2, raw: raw(rng) }));
            }
        }
    }
    events
}

// An image of kind 17 with its window open, behind any head, or shut.
fn image_with(rng: &mut Random, open: bool) -> Vec<u8> {
    let mut s = vec![0x0A, 0x05, 17, 0];
    for i in 0..256u32 {
        // any tag, tags of other slots, and tags that hit: those of the styles 1, 2 and the branches, 3, and of loops
        let tag = match rng.below(8) {
            0 => rng.next() as u32,
            1 => 0x1000 + 2 * rng.below(12) as u32,
            2 => 2 * i + 512 * rng.below(9) as u32,
            3 => 2 * i + 0x1000,
            4 | 5 => 2 * i + 0x2000 + 512 * rng.below(3) as u32,
            6 => 2 * i + 0xFFFF_FE00,
            _ => 2 * i + 0x4000 + 512 * rng.below(5) as u32,
        };
        s.extend(tag.to_le_bytes());
    }
    for _ in 0..256 {
        s.push(rng.next() as u8);
    }
    if open {
        s.extend([1, rng.next() as u8, rng.next() as u8, rng.below(8) as u8]);
        s.extend((0..6).map(|_| rng.next() as u8));
    } else {
        s.extend([0; 10]);
    }
    s
}

// The image itself, or that of kind 16, which has no head.
fn of_either_kind(rng: &mut Random, image: Vec<u8>) -> Vec<u8> {
    if rng.one_in(2) { old_image(&image) } else { image }
}

fn image(rng: &mut Random) -> Vec<u8> {
    let open = rng.one_in(2);
    let image = image_with(rng, open);
    of_either_kind(rng, image)
}

fn damage(rng: &mut Random, s: &mut Vec<u8>) {
    for _ in 0..1 + rng.below(3) {
        match rng.below(5) {
            0 if !s.is_empty() => {
                let cut = rng.below(s.len() as u64) as usize;
                s.truncate(cut);
            }
            1 => s.extend((0..1 + rng.below(4)).map(|_| rng.next() as u8)),
            2 if !s.is_empty() => {
                s.remove(rng.below(s.len() as u64) as usize);
            }
            _ if !s.is_empty() => {
                let at = rng.below(s.len() as u64) as usize;
                s[at] = if rng.one_in(2) { rng.below(20) as u8 } else { rng.next() as u8 };
            }
            _ => {}
        }
    }
}

// Just enough, some more, or much more.
fn enough(rng: &mut Random, needed: usize) -> usize {
    match rng.below(16) {
        0..=6 => needed,
        7 => needed + 100 + rng.below(400) as usize,
        _ => needed + rng.below(9) as usize,
    }
}

// Less than n places of so much each: none, any number, or one place short.
fn too_little(rng: &mut Random, each: usize, n: usize) -> usize {
    match rng.below(4) {
        _ if n == 0 => 0,
        0 => 0,
        1 => rng.below((each * n) as u64) as usize,
        _ => each * n - 1 - rng.below(each as u64) as usize,
    }
}

// What is lent for n retirements: one in so many is short of costs, answers or both, or of reasons where they are lent.
fn room(rng: &mut Random, what: u8, n: usize, short: u64) -> Room {
    let (each, sets) = (each_cost(what), if what == WHY { 8 } else { 4 });
    let short = if rng.one_in(short) { 1 + rng.below(sets - 1) } else { 0 };
    let costs = if short & 1 != 0 { too_little(rng, each, n) } else { enough(rng, each * n) };
    let answers = if short & 2 != 0 { too_little(rng, 1, n) } else { enough(rng, n) };
    let reasons = match what {
        WHY if short & 4 != 0 => too_little(rng, 1, n),
        WHY => enough(rng, n),
        _ => not_lent(rng),
    };
    Room { costs, answers, reasons }
}

// What is not lent: the case says any number.
fn not_lent(rng: &mut Random) -> usize {
    rng.pick(&[0, 0, 1, 300, 65_535])
}

fn costs_alone(rng: &mut Random, costs: usize) -> Room {
    Room { costs, answers: not_lent(rng), reasons: not_lent(rng) }
}

fn trace_case(rng: &mut Random, what: u8, number: u8, events: &[Event], short: u64) -> Case {
    let room = room(rng, what, retirements(events), short);
    let image = if rng.one_in(2) { image(rng) } else { Vec::new() };
    Case { room, ..Case::run(what, number, rng.one_in(8), &image, events) }
}

// What is refused for a record is so with short runs, too.
fn damaged_case(rng: &mut Random, what: u8, number: u8, events: &[Event]) -> Case {
    let mut case = trace_case(rng, what, number, events, 4);
    damage(rng, &mut case.bytes);
    if !rng.one_in(16) {
        case.image.clear();
    }
    case
}

/// Gives the number of a case's profile.
type Numbers = fn(&mut Random) -> u8;

pub fn cases(rng: &mut Random, scale: u64, numbers: Numbers) -> Vec<Case> {
    let mut all = Vec::new();
    for _ in 0..25 * scale {
        let (number, size) = (numbers(rng), rng.pick(&[0, 1, 2, 3, 40, 500, 1000]));
        let events = events(rng, number, size);
        all.push(trace_case(rng, TRACE, number, &events, 20));
    }
    for _ in 0..100 * scale {
        let (number, size) = (numbers(rng), rng.below(7));
        let events = events(rng, number, size);
        all.push(damaged_case(rng, TRACE, number, &events));
    }
    for _ in 0..100 * scale {
        let mut bytes = image(rng);
        if rng.one_in(3) {
            // a byte of the header, or of the window
            let window = bytes.len() as u64 - 1284;
            let at = if rng.one_in(2) { rng.below(4) } else { 1284 + rng.below(window) };
            bytes[at as usize] = rng.below(20) as u8;
        } else if rng.one_in(2) {
            damage(rng, &mut bytes);
        }
        let (number, room) = (numbers(rng), costs_alone(rng, 0));
        all.push(Case { what: READ, number, dirty: false, room, image: Vec::new(), bytes });
    }
    for _ in 0..3 * scale {
        let (number, costs) = (numbers(rng), rng.pick(&[0, 1, 1287, 1288, 1293, 1294, 1295, 1300]));
        let room = costs_alone(rng, costs);
        all.push(Case { what: WRITE, number, dirty: rng.one_in(3), room, image: image(rng), bytes: Vec::new() });
    }
    all
}

// Runs that say why, and damaged ones.
pub fn whys(rng: &mut Random, scale: u64, numbers: Numbers) -> Vec<Case> {
    let mut all = Vec::new();
    for _ in 0..20 * scale {
        let (number, size) = (numbers(rng), rng.pick(&[0, 1, 2, 3, 40, 200, 400]));
        let events = if rng.one_in(3) { events(rng, number, size) } else { why_events(rng, number, size) };
        all.push(trace_case(rng, WHY, number, &events, 4));
    }
    for _ in 0..25 * scale {
        let (number, size) = (numbers(rng), rng.below(7));
        let events = why_events(rng, number, size);
        all.push(damaged_case(rng, WHY, number, &events));
    }
    all
}

// Two long runs, one by each profile, so that the random runs have every reason whatever the scale.
fn long_whys(rng: &mut Random) -> Vec<Case> {
    let events = [0, 1].map(|number| (number, why_events(rng, number, 2000)));
    events.map(|(number, events)| Case::run(WHY, number, false, &[], &events)).into()
}

// The retirements among events, as a batch.
fn batch_case(rng: &mut Random, number: u8, events: &[Event]) -> Case {
    let mut bytes = Vec::new();
    for e in events {
        if let Event::Retired(r) = e {
            let flags = if rng.one_in(50) { r.flags | (rng.next() as u16 & 0xFFE0) } else { r.flags };
            bytes.extend(payload(&Retirement { flags, ..*r }));
        }
    }
    let needed = bytes.len() / 16;
    let what = if needed <= 64 && rng.one_in(2) { SLICE } else { BATCH };
    if what == BATCH && rng.one_in(8) {
        bytes.extend((0..1 + rng.below(15)).map(|_| rng.next() as u8));
    }
    let room = room(rng, what, needed, 8);
    let image = if rng.one_in(2) { image(rng) } else { Vec::new() };
    Case { what, number, dirty: rng.one_in(4), room, image, bytes }
}

pub fn batches(rng: &mut Random, scale: u64, numbers: Numbers) -> Vec<Case> {
    let mut all = Vec::new();
    for _ in 0..25 * scale {
        let (number, size) = (numbers(rng), rng.pick(&[0, 1, 2, 3, 4, 5, 40, 400]));
        let events = events(rng, number, size);
        all.push(batch_case(rng, number, &events));
    }
    for _ in 0..25 * scale {
        let (number, style) = (numbers(rng), rng.below(STYLES));
        let events: Vec<Event> = (0..4).map(|_| Event::Retired(random_retirement(rng, number, style))).collect();
        all.push(batch_case(rng, number, &events));
    }
    // all loops, and all that the bytes of a case hold
    for _ in 0..scale.div_ceil(4) {
        let number = numbers(rng);
        let mut events = Vec::new();
        while events.len() < 4095 {
            let turns = 1 + rng.below(40);
            realistic(rng, number, &mut events, turns);
        }
        events.truncate(rng.pick(&[1000, 4094, 4095]));
        all.push(batch_case(rng, number, &events));
    }
    for _ in 0..3 * scale {
        let number = numbers(rng);
        let open = image_with(rng, true);
        let image = if rng.one_in(8) { Vec::new() } else { of_either_kind(rng, open) };
        let room = costs_alone(rng, 0);
        all.push(Case { what: BREAK, number, dirty: rng.one_in(4), room, image, bytes: Vec::new() });
    }
    all
}

// Document 01's worked instructions: MOVEQ into D0 and D1, and the branch to itself twice.
fn worked() -> [Event; 4] {
    let retired = |op, flags, ppc, pc, raw| Event::Retired(Retirement { op, flags, ppc, pc, raw });
    [
        retired(0x7000, 0x1E, 0x1000, 0x1002, 4),
        retired(0x7200, 0x1E, 0x1002, 0x1004, 4),
        retired(0x60FE, 0x1F, 0x1004, 0x1004, 10),
        retired(0x60FE, 0x1F, 0x1004, 0x1004, 10),
    ]
}

// Each run lent nothing, one place short, just enough and more, and all of these with all.
fn rooms() -> Vec<Case> {
    let mut all = Vec::new();
    for (what, costs) in [(TRACE, [-16, -1, 0, 5]), (BATCH, [-4, -1, 0, 3]), (SLICE, [-4, -1, 0, 3])] {
        for (costs, answers) in costs.into_iter().flat_map(|c| [-4, -1, 0, 3].map(|a| (c, a))) {
            all.push(Case::run(what, 0, false, &[], &worked()).lent(costs, answers));
        }
    }
    all
}

// Batches and breaks at their limits: no record, room that is one short, just enough and more, from every kind of
// window and of image.
fn batch_limits() -> Vec<Case> {
    let mut all = Vec::new();
    let good: Vec<u8> = worked().iter().flat_map(|e| record(e)[4..].to_vec()).collect();
    let mut rng = Random::new(2);
    let (open, shut) = (image_with(&mut rng, true), image_with(&mut rng, false));
    let clean = [Vec::new(), open.clone(), old_image(&open), shut.clone()].map(|image| (false, image));
    let dirty = [open, old_image(&shut), Vec::new()].map(|image| (true, image));
    for (dirty, image) in clean.into_iter().chain(dirty) {
        // lent just enough for whole records, and so much more or less
        let case = |what, bytes: &[u8], costs, answers| {
            let n = bytes.len() / 16;
            let room = Room { costs: n, answers: n, reasons: n };
            let (image, bytes) = (image.clone(), bytes.to_vec());
            Case { what, number: 0, dirty, room, image, bytes }.lent(costs, answers)
        };
        for (bytes, costs, answers) in [(0, 0, 0), (0, 5, 3), (15, 0, 0), (16, -1, 0), (31, 0, 0)] {
            all.push(case(BATCH, &good[..bytes], costs, answers));
        }
        for (costs, answers) in [(-4, 0), (0, -1), (0, 0), (1, 3)] {
            all.extend([BATCH, SLICE].map(|what| case(what, &good, costs, answers)));
        }
        // a lent run of structs: none, one, and 64 of them
        let full: Vec<u8> = good.iter().copied().cycle().take(64 * 16).collect();
        all.extend([(0, 0), (3, 2)].map(|(costs, answers)| case(SLICE, &[], costs, answers)));
        all.extend([(-1, -1), (0, 0), (3, 2)].map(|(costs, answers)| case(SLICE, &good[..16], costs, answers)));
        all.extend([(-1, 0), (0, -1), (0, 0), (3, 2)].map(|(costs, answers)| case(SLICE, &full, costs, answers)));
        all.push(case(BREAK, &[], 0, 0));
    }
    all
}

// The worked instructions, and each other kind of record.
fn good_trace() -> Vec<u8> {
    let others = [Event::Break, Event::ClearAll, Event::ClearUser];
    worked().iter().chain(&others).flat_map(record).collect()
}

// That trace, with a fault at the limits of each refusal of a record, and one whose flags are just not above bit 4.
fn faults() -> Vec<Vec<u8>> {
    let mut all = Vec::new();
    let mut changed = |change: &dyn Fn(&mut Vec<u8>)| {
        let mut bytes = good_trace();
        change(&mut bytes);
        all.push(bytes);
    };
    for left in 1..4 {
        changed(&|s| s.truncate(80 + left));
    }
    for kind in [0, 5, 16, 0x0101] {
        changed(&|s| s[82..84].copy_from_slice(&u16::to_le_bytes(kind)));
    }
    for (at, length) in [(20, 15), (20, 17), (80, 1), (84, 1), (88, 0xFFFF)] {
        changed(&|s| s[at..at + 2].copy_from_slice(&u16::to_le_bytes(length)));
    }
    changed(&|s| s.truncate(79));
    changed(&|s| s.truncate(61));
    for flags in [0x20, 0x8000, 0xFFFF, 0x1F] {
        changed(&|s| s[26..28].copy_from_slice(&u16::to_le_bytes(flags)));
    }
    all
}

// The cases at the limits of each refusal, written out.
fn limits() -> Vec<Case> {
    let good = good_trace();
    let trace = |bytes: &[u8], (costs, answers)| {
        let (room, image, bytes) = (Room { costs, answers, reasons: 0 }, Vec::new(), bytes.to_vec());
        Case { what: TRACE, number: 0, dirty: false, room, image, bytes }
    };
    let mut all = vec![trace(&[], (0, 0)), trace(&[], (5, 3))];
    all.extend([(16, 4), (20, 7), (15, 4), (16, 3), (0, 0)].map(|room| trace(&good, room)));
    // a refusal of a record comes before that of a short run
    for bytes in faults() {
        all.extend([(16, 4), (16, 3), (15, 4), (0, 0)].map(|room| trace(&bytes, room)));
    }
    let mut rng = Random::new(1);
    let (open, shut) = (image_with(&mut rng, true), image_with(&mut rng, false));
    all.extend(image_limits(&open, &shut));
    for (room, image, bytes) in [
        ((16, 4), open.clone(), &good[..]),
        ((3, 4), shut.clone(), &good),
        ((16, 3), old_image(&open), &good),
        ((0, 0), old_image(&shut), &[]),
    ] {
        all.push(Case { dirty: true, image, ..trace(bytes, room) });
    }
    // what is refused for a record, or for either run, leaves the state that it was given
    for (room, bytes) in [((16, 3), &good[..79]), ((16, 3), &good), ((15, 4), &good)] {
        all.push(Case { image: open.clone(), ..trace(bytes, room) });
    }
    all
}

// Images of both kinds at the limits of each refusal, written out, from one with its window open and one with it shut.
fn image_limits(open: &[u8], shut: &[u8]) -> Vec<Case> {
    let (old_open, old_shut) = (&old_image(open)[..], &old_image(shut)[..]);
    let mut images = Vec::new();
    // cut, or zeros behind it: among the lengths are that of either kind with the header of the other
    for image in [open, shut, old_open, old_shut] {
        for length in [0, 1287, 1288, 1289, 1293, 1294, 1295] {
            images.push(image.iter().copied().chain([0; 7]).take(length).collect());
        }
    }
    for image in [open, old_open] {
        for header in [
            [0x0A, 5, 17, 0], // of kind 17, and with each byte changed
            [0x0B, 5, 17, 0],
            [0x0A, 4, 17, 0],
            [0x0A, 5, 18, 0],
            [0x0A, 5, 17, 1],
            [0x04, 5, 16, 0], // of kind 16
            [0x05, 5, 16, 0],
            [0x04, 6, 16, 0],
            [0x04, 5, 15, 0],
            [0x04, 5, 16, 1],
            [0x0A, 5, 16, 0], // the length of one kind, and the number of the other
            [0x04, 5, 17, 0],
        ] {
            images.push([&header, &image[4..]].concat());
        }
    }
    let mut changed = |image: &[u8], at: usize, byte| {
        let mut bytes = image.to_vec();
        bytes[at] = byte;
        images.push(bytes);
    };
    for image in [open, old_open] {
        for (at, byte) in [(1284, 0), (1284, 2), (1284, 255), (1287, 7), (1287, 8), (1287, 0x80)] {
            changed(image, at, byte);
        }
    }
    for image in [shut, old_shut] {
        (1284..image.len()).for_each(|at| changed(image, at, 1));
        changed(image, 1287, 8);
    }
    changed(shut, 1293, 0x80);
    for head in [[0; 6], [255; 6], [1, 2, 3, 4, 5, 6]] {
        images.push([&open[..1288], &head].concat());
    }
    let read = |bytes| Case { what: READ, number: 0, dirty: false, room: NO_ROOM, image: Vec::new(), bytes };
    let mut all: Vec<Case> = images.into_iter().map(read).collect();
    let mut write = |costs, dirty, image: &[u8]| {
        let room = Room { costs, ..NO_ROOM };
        all.push(Case { what: WRITE, number: 0, dirty, room, image: image.to_vec(), bytes: Vec::new() });
    };
    for costs in [0, 1287, 1288, 1293, 1294, 1295] {
        write(costs, false, open);
        write(costs, true, open);
    }
    for image in [old_open, shut, old_shut, &[]] {
        write(IMAGE, false, image);
    }
    all
}

// What keeps a head, takes it and gives another, in traces and batches: from images of both kinds whose window any
// simple follower joins, and from shut windows.
fn heads() -> Vec<Case> {
    let retired = |op, flags, ppc| Event::Retired(Retirement { op, flags, ppc, pc: 0x1000, raw: 24 });
    let moveq = |flags| retired(0x7280, flags, 0xFFFF_FFFE); // into D1
    let add = |ppc| retired(0xD201, 0x1E, ppc); // ADD.B D1,D1, which joins neither that nor itself
    let runs = [
        vec![],
        vec![Event::ClearAll, Event::ClearUser],
        vec![Event::Break],
        vec![moveq(0x1E)],
        vec![moveq(0x1A)], // ESS off: it does not join
        vec![moveq(0x1A), Event::ClearUser, Event::ClearAll],
        vec![moveq(0x1E), add(0x0001_0000), add(0x89AB_CDEF)],
        vec![retired(0x4E71, 0x1E, 0x1002)], // NOP: it neither joins nor is a head
        vec![retired(0x60FE, 0x1F, 0x1000)], // BRA
        vec![retired(0x4E75, 0x1F, 0x1002)], // RTS
    ];
    let mut open = write_image(&State::default());
    open[1284..].copy_from_slice(&[1, 0, 0, 4, 0x78, 0x56, 0x34, 0x12, 0x80, 0x70]); // 7080 at 12345678
    let starts = [(false, open.clone()), (false, old_image(&open)), (false, Vec::new()), (true, open)];
    let mut all = Vec::new();
    for (dirty, image) in starts {
        for events in &runs {
            let case = |what| Case::run(what, 0, dirty, &image, events);
            all.push(case(TRACE));
            if retirements(events) == events.len() {
                all.extend([case(BATCH), case(SLICE)]);
            }
            // what is refused leaves the head that it was given
            if retirements(events) == 3 {
                for (costs, answers) in [(-1, 0), (0, -1)] {
                    all.extend([TRACE, BATCH, SLICE].map(|what| case(what).lent(costs, answers)));
                }
            }
        }
    }
    all
}

// Of each row heads and followers to which the crate's profile and the mended one give other clocks.
const MENDED_PAIRS: [(u16, u16); 21] = [
    (0xB141, 0x3401), // EOR.W D0,D1, then MOVE.W D1,D2: the crate pairs them
    (0xBF87, 0x7E00), // EOR.L D7,D7, then MOVEQ #0,D7
    (0x49C0, 0x2400), // EXTB.L D0, then MOVE.L D0,D2
    (0x49C7, 0x204C), // EXTB.L D7, then MOVEA.L A4,A0: the crate keeps them apart
    (0x2840, 0x49C1), // MOVEA.L D0,A4, then EXTB.L D1
    (0xB308, 0x2449), // CMPM.B (A0)+,(A1)+, then MOVEA.L A1,A2
    (0xB308, 0x5288), // the same, then ADDQ.L #1,A0
    (0x7200, 0xB308), // MOVEQ #0,D1, then CMPM.B (A0)+,(A1)+
    (0x3412, 0xBF8F), // MOVE.W (A2),D2, then CMPM.L (A7)+,(A7)+
    (0x0E10, 0x7000), // MOVES.B (A0), then MOVEQ #0,D0
    (0x3080, 0x0E80), // MOVE.W D0,(A0), then the bits of MOVES.L on D0, which there is not
    (0x0EBF, 0x31FC), // the last of MOVES, then MOVE.W #,(xxx).W
    (0x8180, 0x7000), // UNPK D0,D0, then MOVEQ #0,D0
    (0x3080, 0x8F8F), // MOVE.W D0,(A0), then UNPK -(A7),-(A7)
    (0x4900, 0x31FC), // CHK.L D0,D4, then MOVE.W #,(xxx).W
    (0x3080, 0x493C), // MOVE.W D0,(A0), then CHK.L #,D4
    (0x49BF, 0x31FC), // the last of CHK.W on D4, then MOVE.W #,(xxx).W
    (0x49D0, 0x3411), // LEA (A0),A4, then MOVE.W (A1),D2
    (0x49C8, 0x56C1), // the first of LEA into A4, then SNE D1
    (0x3411, 0x49F8), // MOVE.W (A1),D2, then LEA (xxx).W,A4
    (0x49FF, 0x3411), // the last of LEA into A4, then MOVE.W (A1),D2
];

// These pairs, NOP before each, which shuts the window, as a trace, a batch and a batch of structs: by the crate's
// number, by the mended profile's, and by numbers of no profile.
fn profiles() -> Vec<Case> {
    let mut events = Vec::new();
    for (head, follower) in MENDED_PAIRS {
        for op in [0x4E71, head, follower] {
            let ppc = 0x1000 + 2 * events.len() as u32;
            events.push(Event::Retired(Retirement { op, flags: 0x1E, ppc, pc: ppc + 2, raw: 24 }));
        }
    }
    let mut all = Vec::new();
    for (number, dirty) in [(0, false), (1, false), (1, true), (2, false), (127, true)] {
        all.extend([TRACE, BATCH, SLICE].map(|what| Case::run(what, number, dirty, &[], &events)));
    }
    all
}

// Slots of images: the byte, and the bits in which the tag is not that of the branch there.
const SET_SLOTS: [(u8, u32); 14] = [
    (0x00, 0), // not valid
    (0x03, 0),
    (0xFB, 0),
    (0x04, 0), // valid, a supervisor's, with each counter
    (0x05, 0),
    (0x06, 0),
    (0x07, 0),
    (0x0D, 0), // a user's
    (0x0E, 0),
    (0xF5, 0), // with bits that say nothing
    (0xF6, 0),
    (0x07, 0x0000_0200), // valid, of another branch
    (0x06, 0x8000_0000),
    (0x05, 0x0000_0001),
];
const SET_FROM: u32 = 0x3000; // slot 0

// All that the branch cache answers, and what asks it and what does not, in traces and both batches: from a fresh state
// and from images of both kinds with these slots, by the numbers of both profiles and of none.
fn predictions() -> Vec<Case> {
    let retired = |op, flags, ppc, pc| Event::Retired(Retirement { op, flags, ppc, pc, raw: 24 });
    let bne = |flags, ppc| retired(0x66F0, flags, ppc, 0x1000);
    let dbcc = |pc| retired(0x51C8, 0x1F, 0xFFFF_FFFE, pc);
    let places = (0..SET_SLOTS.len() as u32).map(|i| SET_FROM + 2 * i);
    // each of these slots twice: taken, and then not
    let mut events: Vec<Event> = places.flat_map(|ppc| [bne(0x1F, ppc), bne(0x1E, ppc)]).collect();
    let (ppc, alias) = (0x2082, 0x2282);
    let other = |op, flags| retired(op, flags, ppc, ppc + 2);
    events.extend([
        bne(0x17, ppc), // EBC off
        bne(0x1D, ppc), // not cached
        bne(0x1E, ppc), // a miss, not taken: nothing is allocated
        bne(0x1F, ppc), // a miss, taken
        bne(0x1F, ppc), // predicted taken, rightly
        bne(0x1E, ppc), // and wrongly, twice
        bne(0x1E, ppc),
        bne(0x1E, ppc),       // predicted not taken, rightly
        bne(0x1F, ppc),       // and wrongly
        bne(0x17, ppc),       // EBC off: nothing is learned
        bne(0x1F, ppc),       // predicted not taken
        other(0x7000, 0x1E),  // MOVEQ at the branch's address
        other(0x4E75, 0x1F),  // RTS
        bne(0x1F, ppc),       // predicted taken
        bne(0x1F, alias),     // the same slot: a miss, taken
        bne(0x1E, ppc),       // a miss
        bne(0x1E, alias + 1), // the same slot at an odd address: a miss
        bne(0x0F, ppc + 2),   // a user's miss, taken
        bne(0x1E, ppc + 2),   // predicted taken to the supervisor, too
        Event::ClearUser,
        bne(0x0E, ppc + 2), // a miss again
        Event::Break,
        bne(0x0E, alias), // the supervisor's is still predicted taken, to a user, too
        dbcc(0x1000),     // a miss, taken
        dbcc(2),          // predicted taken; it fell through, over the end of the address space
        Event::ClearAll,
        dbcc(2), // a miss
    ]);
    let mut set = write_image(&State::default());
    for (i, (byte, bits)) in SET_SLOTS.into_iter().enumerate() {
        set[4 + 4 * i..8 + 4 * i].copy_from_slice(&((SET_FROM + 2 * i as u32) ^ bits).to_le_bytes());
        set[1028 + i] = byte;
    }
    let old = old_image(&set);
    let mut all = Vec::new();
    for (number, image) in [(0, &[][..]), (1, &[]), (0, &set), (1, &old), (2, &old)] {
        all.extend([TRACE, BATCH, SLICE].map(|what| Case::run(what, number, false, image, &events)));
    }
    all
}

// An image of kind 17 of an empty cache with an open window: its def mask, and its bits for CCR, memory and cached.
fn with_window(defs: u16, bits: u8) -> Vec<u8> {
    let mut image = write_image(&State::default());
    let [low, high] = defs.to_le_bytes();
    image[1284..].copy_from_slice(&[1, low, high, bits, 0x78, 0x56, 0x34, 0x12, 0x80, 0x70]);
    image
}

// Runs that say why: every reason, from every kind of state, by the numbers of both profiles and of none.
fn reasons() -> Vec<Case> {
    let why = |number, dirty, image: &[u8], events: &[Event]| Case::run(WHY, number, dirty, image, events);
    let mut rng = Random::new(3);
    let (open, shut) = (image_with(&mut rng, true), image_with(&mut rng, false));
    let (tries, old) = (tries::all(), old_image(&open));
    let mut all: Vec<Case> = [(0, false, &[][..]), (1, false, &open), (127, true, &old), (1, true, &shut)]
        .map(|(number, dirty, image)| why(number, dirty, image, &tries).told(number as isize))
        .into();
    // SNE (A0) breaks every rule but the first three behind a head that lets it; the break leaves a fresh state
    let sne = Retirement { op: 0x56D0, flags: 0x1E, ppc: 0x1000, pc: 0x1002, raw: 4 };
    for (i, defs) in [0, 0x0100, 0xFEFF, 0xFFFF].into_iter().enumerate() {
        for bits in 0..8 {
            let image = with_window(defs, bits);
            let image = if bits % 2 == 0 { image } else { old_image(&image) };
            all.push(why(i as u8 % 2, bits == 7, &image, &[Event::Retired(sne), Event::Break]));
        }
    }
    // folded onto the head of an image, and alone where there is none
    let mut trained = with_window(0, 0);
    trained[4..8].copy_from_slice(&0x3000u32.to_le_bytes());
    trained[1028] = 0x07;
    let bne = Event::Retired(Retirement { op: 0x66F0, flags: 0x1F, ppc: 0x3000, pc: 0x1000, raw: 10 });
    all.extend([false, true].map(|dirty| why(1, dirty, &trained, &[bne])));
    all
}

// The same lent nothing, one place short, just enough and more of each of the three, and all of these with all; and
// traces with a fault in a record.
fn reason_rooms() -> Vec<Case> {
    let retired = |op| Event::Retired(Retirement { op, flags: 0x1E, ppc: 0x1000, pc: 0x1002, raw: 4 });
    let pair = [0x7000, 0x7200, 0x4E71].map(retired); // and NOP, so that the window is shut
    let mut all = Vec::new();
    for costs in [-12, -1, 0, 5] {
        for (answers, reasons) in [-3, -1, 0, 2].into_iter().flat_map(|a| [-3, -1, 0, 4].map(|r| (a, r))) {
            all.push(Case::run(WHY, 0, false, &[], &pair).lent(costs, answers).told(reasons));
        }
    }
    let why = |bytes: Vec<u8>, (costs, answers, reasons), image: &[u8]| {
        let (room, image) = (Room { costs, answers, reasons }, image.to_vec());
        Case { what: WHY, number: 1, dirty: false, room, image, bytes }
    };
    for bytes in faults() {
        all.extend([(16, 4, 4), (16, 4, 3), (0, 0, 0)].map(|room| why(bytes.clone(), room, &[])));
    }
    // what is refused for a record, or for reasons alone, leaves the state that it was given
    let given = with_window(0x8001, 5);
    for (bytes, room) in [(79, (16, 4, 3)), (92, (16, 4, 3)), (92, (16, 4, 0)), (92, (17, 6, 5))] {
        all.push(why(good_trace()[..bytes].to_vec(), room, &given));
    }
    all.extend([(0, 0, 0), (5, 3, 2)].map(|room| why(Vec::new(), room, &[])));
    all
}

// A trace of up to some 3,000 records of such events, one in so many damaged.
fn some_trace(seed: u64, events: fn(&mut Random, u64) -> Vec<Event>, damaged: u64) -> Vec<u8> {
    let mut rng = Random::new(seed + 1);
    let size = rng.pick(&[1, 5, 40, 400, 3000]);
    let mut bytes: Vec<u8> = events(&mut rng, size).iter().flat_map(record).collect();
    if rng.one_in(damaged) {
        damage(&mut rng, &mut bytes);
    }
    bytes
}

/// A trace of all kinds of events, one in two damaged.
pub fn random_trace(seed: u64) -> Vec<u8> {
    some_trace(seed, |rng, size| events(rng, 0, size), 2)
}

/// A trace to be asked why, one in four damaged.
pub fn random_why(seed: u64) -> Vec<u8> {
    some_trace(seed, |rng, size| why_events(rng, 1, size), 4)
}

/// What replay reads: an image of either kind, one in three damaged, and such a trace; one in eight is cut before the
/// longer image ends.
pub fn random_replay(seed: u64) -> Vec<u8> {
    let mut rng = Random::new(seed + 1);
    let mut bytes = image(&mut rng);
    if rng.one_in(3) {
        damage(&mut rng, &mut bytes);
    }
    bytes.extend(random_trace(seed));
    if rng.one_in(8) {
        bytes.truncate(rng.below(IMAGE as u64) as usize);
    }
    bytes
}

// Each leaves op ^ op >> 6 modulo 1,024 as it is: the slot of an opcode in a run's table of decoded opcodes.
const SAME_SLOT: [u16; 6] = [0x0410, 0x0820, 0x1041, 0x2082, 0x4104, 0x8208];

// An opcode and so many that share its slot, each behind it once more, in traces and batches by both profiles: what is
// kept of one is not the other's. 0000 comes while its slot is empty, and an empty entry is no opcode's.
fn shared_slots(firsts: &[u16], others: u16) -> Vec<Case> {
    let other = |k: u16| (0..6).filter(|i| k >> i & 1 == 1).fold(0, |x, i| x ^ SAME_SLOT[i]);
    let mut all = Vec::new();
    for first in firsts {
        let opcodes = (1..=others).flat_map(|k| [*first, first ^ other(k)]);
        let places = (0x1000..).step_by(2);
        let retired = |(op, ppc)| Event::Retired(Retirement { op, flags: 0x1E, ppc, pc: ppc + 2, raw: 24 });
        let events: Vec<Event> = opcodes.zip(places).map(retired).collect();
        for number in [0, 1] {
            all.extend([TRACE, BATCH].map(|what| Case::run(what, number, false, &[], &events)));
        }
    }
    all
}

// One in so many: `rt try`, by which tests/mutants runs a program, takes 1 MiB of output.
fn one_of(n: usize, cases: Vec<Case>) -> impl Iterator<Item = Case> {
    cases.into_iter().step_by(n)
}

/// The cases that the gate replays: traces and images, then batches and breaks, heads, rooms, those of other numbers,
/// and at last runs that say why, which give every reason by either profile.
pub fn sample() -> Vec<Case> {
    let mut all = limits();
    all.extend(one_of(2, cases(&mut Random::new(68060), 1, |_| 0)));
    all.extend(batch_limits());
    all.extend(one_of(3, batches(&mut Random::new(68060), 1, |_| 0)));
    all.extend(heads());
    all.extend(rooms());
    all.extend(predictions());
    all.extend(profiles());
    all.extend(reasons());
    all.extend(reason_rooms());
    all.extend(one_of(2, whys(&mut Random::new(68060), 1, any_number)));
    assert_eq!(missing_reasons(&all), None);
    all
}

pub fn input(cases: &[Case]) -> Vec<u8> {
    let mut bytes = Vec::new();
    for c in cases {
        c.encode(&mut bytes);
    }
    bytes
}

/// What the port must print.
pub fn expected(cases: &[Case]) -> String {
    cases.iter().map(|c| c.expected() + "\n").collect()
}

// ---- the run

// The port's lines of cases; the runner gets the program's name as the last word.
fn printed(runner: &[String], cases: &[Case]) -> Result<Vec<String>, String> {
    let input = input(cases);
    let mut child = Command::new(&runner[0])
        .args(&runner[1..])
        .arg("cases")
        .stdin(Stdio::piped())
        .stdout(Stdio::piped())
        .spawn()
        .map_err(|e| format!("{}: {e}", runner[0]))?;
    let mut stdin = child.stdin.take().unwrap();
    let feeder = std::thread::spawn(move || stdin.write_all(&input));
    let mut text = String::new();
    child.stdout.take().unwrap().read_to_string(&mut text).map_err(|e| e.to_string())?;
    feeder.join().unwrap().map_err(|e| e.to_string())?;
    let status = child.wait().map_err(|e| e.to_string())?;
    if !status.success() {
        return Err(format!("the program 'cases' ended with {status}"));
    }
    Ok(text.lines().map(String::from).collect())
}

fn differs(runner: &[String], case: &Case) -> Option<String> {
    match printed(runner, std::slice::from_ref(case)) {
        Ok(lines) => {
            let got = lines.first().cloned().unwrap_or_default();
            (got != case.expected()).then_some(got)
        }
        Err(why) => Some(why),
    }
}

// What can be left out of a case's bytes at once: a record, and from where none can be read on four bytes.
fn pieces(case: &Case) -> Vec<Vec<u8>> {
    if case.batch() {
        return case.bytes.chunks(16).map(<[u8]>::to_vec).collect();
    }
    let sound = match read_trace(&case.bytes, AMPLE) {
        _ if !of_trace(case.what) => 0,
        Ok(_) => case.bytes.len(),
        Err((_, place)) => place,
    };
    let (records, rest) = case.bytes.split_at(sound);
    let events = read_trace(records, AMPLE).unwrap_or_default();
    events.iter().map(record).chain(rest.chunks(4).map(<[u8]>::to_vec)).collect()
}

// The smallest case that still differs: what is not needed of its bytes is taken out, the longest parts first, and then
// it is lent just enough.
fn shrunk(runner: &[String], case: &Case) -> Case {
    let mut best = case.clone();
    let simpler = [|c| Case { number: 0, ..c }, |c| Case { dirty: false, ..c }, |c| Case { image: Vec::new(), ..c }];
    for simpler in simpler {
        let less: Case = simpler(best.clone());
        if differs(runner, &less).is_some() {
            best = less;
        }
    }
    let mut left = pieces(&best);
    let mut size = left.len();
    while size > 0 {
        let mut at = 0;
        while at < left.len() {
            let end = left.len().min(at + size);
            let fewer = [&left[..at], &left[end..]].concat();
            let less = Case { bytes: fewer.concat(), ..best.clone() };
            if differs(runner, &less).is_some() {
                (best, left) = (less, fewer);
            } else {
                at = end;
            }
        }
        size /= 2;
    }
    let n = retirements(&(Case { room: AMPLE, ..best.clone() }).events().unwrap_or_default());
    let room = Room { costs: each_cost(best.what) * n, answers: n, reasons: n };
    let less = Case { room, ..best.clone() };
    if best.runs() && differs(runner, &less).is_some() { less } else { best }
}

// What there is to run: how many cases, and how many retirements of those that are accepted.
fn say_how_many(all: &[Case]) {
    let count = |what| all.iter().filter(|c| c.what == what).count();
    let retired = |of: fn(&Case) -> bool| -> usize {
        all.iter().filter(|c| of(c)).map(|c| c.paid(CRATE).len()).sum()
    };
    let (traces, read, written) = (count(TRACE), count(READ), count(WRITE));
    let in_traces = retired(|c| c.what == TRACE);
    println!("{traces} traces with {in_traces} retirements, {read} images read, {written} images written");
    let (words, structs, breaks, in_batches) = (count(BATCH), count(SLICE), count(BREAK), retired(Case::batch));
    println!("{words} batches and {structs} batches of structs with {in_batches} retirements, {breaks} breaks");
    println!("{} traces asked why, with {} retirements", count(WHY), retired(|c| c.what == WHY));
    let from = |size| all.iter().filter(|c| c.image.len() == size).count();
    let runs = all.iter().filter(|c| c.runs());
    let heads = runs.filter(|c| c.stepped(c.profile()).1.timing.pending_head.is_some()).count();
    let (old, new) = (from(OLD_IMAGE), from(IMAGE));
    println!("{old} start from an image of kind 16 and {new} from one of kind 17; {heads} runs leave a head");
    let (mut by_mended, mut by_none, mut costs, mut others) = (0, 0, 0, 0);
    for case in all {
        match case.profile() {
            CRATE => {}
            MENDED => {
                let (of_crate, mended) = (case.paid(CRATE), case.paid(MENDED));
                by_mended += 1;
                costs += mended.len();
                others += of_crate.iter().zip(mended).filter(|(a, b)| a.cost != b.cost).count();
            }
            _ => by_none += 1,
        }
    }
    println!("of these {by_mended} by the mended profile: {costs} retirements, {others} not at the crate's clocks");
    println!("and {by_none} by a number of no profile, which means the crate's");
    say_answers(all);
    say_reasons(all);
    say_rooms(all);
}

const PROFILES: [&str; 2] = ["the crate's", "the mended"];

// How often the cache answers what, by the mended profile and by all others.
fn say_answers(all: &[Case]) {
    let mut counts = [[0; ANSWERS.len()]; 2];
    for case in all {
        let mended = case.profile() == MENDED;
        case.paid(case.profile()).iter().for_each(|p| counts[mended as usize][p.answer as usize] += 1);
    }
    for (counts, name) in counts.iter().zip(PROFILES) {
        let each: Vec<String> = counts.iter().zip(ANSWERS).map(|(n, answer)| format!("{n} {answer}")).collect();
        println!("answers by {name} profile: {}", each.join(", "));
    }
}

// How often each reason is written, by all profiles but the mended one and by that one.
fn reason_counts(all: &[Case]) -> [[usize; REASONS.len()]; 2] {
    let mut counts = [[0; REASONS.len()]; 2];
    for case in all.iter().filter(|c| c.what == WHY) {
        let mended = case.profile() == MENDED;
        case.paid(case.profile()).iter().for_each(|p| counts[mended as usize][p.why.reason as usize] += 1);
    }
    counts
}

fn say_reasons(all: &[Case]) {
    for (counts, name) in reason_counts(all).iter().zip(PROFILES) {
        let each: Vec<String> = counts.iter().zip(REASONS).map(|(n, reason)| format!("{n} {reason}")).collect();
        println!("reasons by {name} profile: {}", each.join(", "));
    }
}

// The reasons that no case gives by a profile, which would then not be compared.
fn missing_reasons(all: &[Case]) -> Option<String> {
    let mut missing = Vec::new();
    for (counts, name) in reason_counts(all).iter().zip(PROFILES) {
        let none = counts.iter().zip(REASONS).filter(|(n, _)| **n == 0);
        missing.extend(none.map(|(_, reason)| format!("{reason} by {name} profile")));
    }
    (!missing.is_empty()).then(|| missing.join(", "))
}

// How many runs are short of what, and how many are refused for a record though answers or reasons end before it.
fn say_rooms(all: &[Case]) {
    let (mut short, mut early_answers, mut early_reasons) = ([0; 8], 0, 0);
    for case in all.iter().filter(|c| c.runs()) {
        let costs_end = |n| case.room.costs < each_cost(case.what) * n;
        let answers_end = |n| case.room.answers < n;
        let reasons_end = |n| case.what == WHY && case.room.reasons < n;
        match (Case { room: AMPLE, ..case.clone() }).events() {
            Ok(events) => {
                let n = retirements(&events);
                short[costs_end(n) as usize + 2 * answers_end(n) as usize + 4 * reasons_end(n) as usize] += 1;
            }
            Err((_, place)) => {
                let n = retirements(&read_trace(&case.bytes[..place], AMPLE).unwrap_or_default());
                early_answers += answers_end(n) as usize;
                early_reasons += reasons_end(n) as usize;
            }
        }
    }
    let [_, costs, answers, both, reasons, more @ ..] = short;
    println!("short of costs alone {costs} runs, of answers alone {answers}, of both {both}");
    println!("short of reasons alone {reasons} runs, and of reasons with others {}", more.iter().sum::<usize>());
    println!("refused for a record, and answers short before it: {early_answers}; reasons: {early_reasons}");
}

pub fn run(runner: &[String], seed: u64, scale: u64) -> Result<(usize, usize), String> {
    let mut rng = Random::new(seed);
    let mut all = limits();
    all.extend(cases(&mut rng, scale, any_number));
    all.extend(batch_limits());
    all.extend(batches(&mut rng, scale, any_number));
    all.extend(heads());
    all.extend(rooms());
    all.extend(predictions());
    all.extend(profiles());
    all.extend(reasons());
    all.extend(reason_rooms());
    all.extend(shared_slots(&[0x0000, 0x2018, 0x66EE, 0xB141], 63));
    let random = [whys(&mut rng, scale, any_number), long_whys(&mut rng)].concat();
    let missing = missing_reasons(&random);
    all.extend(random);
    say_how_many(&all);
    match missing {
        Some(missing) => return Err(format!("no random run gives the reason {missing}")),
        None => println!("each of the {} reasons is given by either profile in random runs", REASONS.len()),
    }
    let (mut passed, mut failed) = (0, 0);
    let mut said = Instant::now();
    for some in all.chunks(2000) {
        let lines = printed(runner, some)?;
        if said.elapsed().as_secs() >= 3 {
            eprintln!("tests/differential: {} of {} cases", passed + failed, all.len());
            said = Instant::now();
        }
        for (i, case) in some.iter().enumerate() {
            let expected = case.expected();
            let got = lines.get(i).map_or("(no line)", String::as_str);
            if got == expected {
                passed += 1;
                continue;
            }
            failed += 1;
            if failed == 1 {
                let small = shrunk(runner, case);
                let mut bytes = Vec::new();
                small.encode(&mut bytes);
                println!("a difference, the case in hexadecimal:\n{}", hex(&bytes));
                println!("the reference: {}", small.expected());
                println!("the port: {}", differs(runner, &small).unwrap_or_else(|| got.to_string()));
            }
        }
    }
    Ok((passed, failed))
}

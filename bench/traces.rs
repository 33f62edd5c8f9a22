//! The three traces: random opcodes, a loop as programs have them, and a mixture.

#[repr(C)]
#[derive(Clone, Copy)]
pub struct Record {
    pub op: u16,
    pub flags: u16,
    pub ppc: u32,
    pub pc: u32,
    pub raw: i32,
}

pub struct Trace {
    pub name: &'static str,
    pub records: Vec<Record>,
    pub bytes: Vec<u8>,
}

struct Random(u64);

impl Random {
    fn next(&mut self) -> u64 {
        self.0 ^= self.0 << 13;
        self.0 ^= self.0 >> 7;
        self.0 ^= self.0 << 17;
        self.0.wrapping_mul(0x2545_F491_4F6C_DD1D) >> 16
    }
}

fn named(name: &'static str, records: Vec<Record>) -> Trace {
    let mut bytes = Vec::with_capacity(20 * records.len());
    for r in &records {
        bytes.extend(16u16.to_le_bytes());
        bytes.extend(1u16.to_le_bytes());
        bytes.extend(r.op.to_le_bytes());
        bytes.extend(r.flags.to_le_bytes());
        bytes.extend(r.ppc.to_le_bytes());
        bytes.extend(r.pc.to_le_bytes());
        bytes.extend(r.raw.to_le_bytes());
    }
    Trace { name, records, bytes }
}

fn any(random: &mut Random) -> Record {
    let ppc = 2 * (random.next() as u32 % 0x8000);
    let pc = if random.next() % 3 == 0 { random.next() as u32 } else { ppc.wrapping_add(2 + 2 * (random.next() as u32 % 3)) };
    Record { op: random.next() as u16, flags: random.next() as u16 % 32, ppc, pc, raw: random.next() as i32 % 100 }
}

pub fn random(seed: u64, count: usize) -> Trace {
    let mut random = Random(seed | 1);
    named("random", (0..count).map(|_| any(&mut random)).collect())
}

// Loads, adds, compares, stores and shifts, closed by a Bcc or a DBcc that is taken but for every tenth time.
const BODY: [u16; 9] = [0x2018, 0xD081, 0x5282, 0xB083, 0x2140, 0xE588, 0x7007, 0xC041, 0x41E8];

fn turn(records: &mut Vec<Record>, start: u32, body: &[u16], end: u16, taken: bool) {
    let mut ppc = start;
    for &op in body {
        records.push(Record { op, flags: 0x1E, ppc, pc: ppc + 2, raw: 8 });
        ppc += 2;
    }
    let flowed = (taken && end != 0x51C8) as u16;
    let pc = if taken { start } else { ppc + 4 };
    records.push(Record { op: end, flags: 0x1E | flowed, ppc, pc, raw: 10 });
}

pub fn looped(_seed: u64, count: usize) -> Trace {
    let mut records = Vec::with_capacity(count + 10);
    let mut n = 0;
    while records.len() < count {
        let end = if n / 10 % 2 == 0 { 0x66EE } else { 0x51C8 };
        turn(&mut records, 0x1000 + 64 * (n / 10 % 2), &BODY, end, n % 10 != 9);
        n += 1;
    }
    records.truncate(count);
    named("loop", records)
}

// Loops of random lengths over random choices of the body, some instructions of any kind between.
pub fn mixed(seed: u64, count: usize) -> Trace {
    let mut random = Random(seed | 1);
    let mut records = Vec::with_capacity(count + 10);
    while records.len() < count {
        let start = 0x2000 + 64 * (random.next() as u32 % 64);
        let body: Vec<u16> = (0..2 + random.next() % 6).map(|_| BODY[random.next() as usize % BODY.len()]).collect();
        let end = if random.next() % 2 == 0 { 0x66EE } else { 0x51C8 };
        let turns = 2 + random.next() % 12;
        for t in 0..turns {
            turn(&mut records, start, &body, end, t + 1 != turns);
        }
        for _ in 0..random.next() % 8 {
            records.push(any(&mut random));
        }
    }
    records.truncate(count);
    named("mixed", records)
}

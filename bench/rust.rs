//! The Rust module over its stand-in CpuCore, as an emulator calls it.
use crate::core060::cpu::{CACR_060_EBC, CpuCore, PCR_ESS};
use crate::traces::Record;

// A call, as it is in an emulator.
#[inline(never)]
fn retire(cpu: &mut CpuCore, r: Record) -> u32 {
    cpu.ir = r.op as u32;
    cpu.ppc = r.ppc;
    cpu.pc = r.pc;
    cpu.change_of_flow = r.flags & 1 != 0;
    cpu.pcr = if r.flags & 4 != 0 { PCR_ESS } else { 0 };
    cpu.cacr = if r.flags & 8 != 0 { CACR_060_EBC } else { 0 };
    cpu.supervisor = r.flags & 16 != 0;
    cpu.cycles_060(r.raw, r.flags & 2 != 0) as u32
}

fn step_over(cpu: &mut CpuCore, records: &[Record], costs: &mut [u32]) -> u64 {
    let mut total = 0;
    for (r, cost) in records.iter().zip(costs) {
        *cost = retire(cpu, *r);
        total += *cost as u64;
    }
    total
}

pub fn single(records: &[Record], costs: &mut [u32]) -> u64 {
    step_over(&mut CpuCore::default(), records, costs)
}

/// The records again and again, each time from the state that the last time left.
pub fn again(records: &[Record], costs: &mut [u32], times: usize) -> u64 {
    let mut cpu = CpuCore::default();
    (0..times).map(|_| step_over(&mut cpu, records, costs)).sum()
}

fn u16_at(bytes: &[u8], at: usize) -> u16 {
    u16::from_le_bytes(bytes[at..at + 2].try_into().unwrap())
}

fn u32_at(bytes: &[u8], at: usize) -> u32 {
    u32::from_le_bytes(bytes[at..at + 4].try_into().unwrap())
}

/// A trace of retirements alone: each record is read once, and nothing is checked but that it is there.
pub fn trace(bytes: &[u8], costs: &mut [u8]) -> u64 {
    let mut cpu = CpuCore::default();
    let mut total = 0;
    for (b, cost) in bytes.chunks_exact(20).zip(costs.chunks_exact_mut(4)) {
        let r = Record { op: u16_at(b, 4), flags: u16_at(b, 6), ppc: u32_at(b, 8), pc: u32_at(b, 12), raw: u32_at(b, 16) as i32 };
        let clocks = retire(&mut cpu, r);
        cost.copy_from_slice(&clocks.to_le_bytes());
        total += clocks as u64;
    }
    total
}

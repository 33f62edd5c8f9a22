//! The reason of a retirement, document 02, R-1, which the Rust does not tell. It is found from the Rust's state before
//! the step: its head, what its branch cache answers, and its own dispatch test, asked of one rule at a time. Which
//! rule comes first is document 01's order. Nothing of the port's code takes part.
use super::cpu::{CpuCore, MENDED, PCR_ESS};
use super::timing_060::{
    BranchCache060, F_BRANCH, F_DBCC, F_READS_MEM, F_USES_CCR_LATE, F_WRITES_MEM, Info060, Oep060Timing,
    PendingHead060, mended,
};

/// In the order of their numbers, from 0.
#[derive(Clone, Copy, Debug, PartialEq)]
pub enum Reason {
    Paired,
    WindowShut,
    EssOff,
    NotCached,
    NotSimple,
    Register,
    Ccr,
    Memory,
    Refill,
    Folded,
    Alone,
    NotTaken,
    Mispredicted,
    Static,
}

use Reason::*;

/// The words of the reasons, by number.
pub const REASONS: [&str; 14] = [
    "paired",
    "window-shut",
    "ess-off",
    "not-cached",
    "not-simple",
    "register",
    "ccr",
    "memory",
    "refill",
    "folded",
    "alone",
    "not-taken",
    "mispredicted",
    "static",
];

impl Reason {
    pub fn word(self) -> &'static str {
        REASONS[self as usize]
    }

    // Whether it goes with a cost: the clocks that it fixes, or what document 01 lets it have; only two cost nothing.
    fn goes_with(self, cost: i32) -> bool {
        match self {
            Paired | Folded => cost == 0,
            Alone | NotTaken => cost == 1,
            Mispredicted => cost == 7,
            Static => [1, 2, 3, 7].contains(&cost),
            Refill => cost >= 5,
            _ => cost >= 1,
        }
    }
}

/// The reason, and where it is `register` the registers that stand in the way: D0 to D7 in bits 0 to 7, A0 to A7 in
/// bits 8 to 15.
#[derive(Clone, Copy, Debug, PartialEq)]
pub struct Why {
    pub reason: Reason,
    pub registers: u16,
}

impl Why {
    /// Stops where the Rust's own cost does not go with the reason, or registers with no `register`.
    #[inline(always)]
    pub fn holds_at(self, op: u16, cost: i32) {
        let word = self.reason.word();
        assert!(self.reason.goes_with(cost), "{op:04X} has the reason {word}, and the Rust's cost is {cost}");
        assert_eq!(self.reason == Register, self.registers != 0, "{op:04X}: {word}, registers {:04X}", self.registers);
    }
}

// A head behind which any simple follower joins: it was cached, and writes, sets and accesses nothing.
const OPEN: PendingHead060 =
    PendingHead060 { def_mask: 0, defines_ccr: false, accessed_mem: false, head_cached: true };

// Class 0, one clock, and nothing else: it joins such a head.
const SIMPLE: u16 = 0x0004;

// A processor that is asked for its dispatch test and nothing else.
#[inline(always)]
fn asked(pcr: u32) -> CpuCore {
    let branch_cache = BranchCache060::oracle_of(Vec::new(), Vec::new());
    let oep060 = Oep060Timing { branch_cache, pending_head: None };
    CpuCore { ir: 0, pc: 0, ppc: 0, change_of_flow: false, pcr, cacr: 0, supervisor: false, oep060 }
}

impl CpuCore {
    /// Asked before the step, which changes the head and the cache; `answer` is what the cache answers.
    #[inline(always)]
    pub fn why_by(&self, profile: u32, fetch_cached: bool, answer: u8) -> Why {
        let op = self.ir as u16;
        let (word, uses, defs) = match profile {
            MENDED => mended::answer(op),
            _ => mended::of_crate(op),
        };
        let because = |reason| Why { reason, registers: 0 };
        if word & F_BRANCH != 0 {
            return because(self.why_branch(word & F_DBCC != 0, answer));
        }
        if self.change_of_flow {
            return because(Refill);
        }
        let Some(head) = &self.oep060.pending_head else { return because(WindowShut) };
        match self.why_pair(head, word, (uses, defs), fetch_cached) {
            Register => Why { reason: Register, registers: (uses | defs) & head.def_mask },
            reason => because(reason),
        }
    }

    #[inline(always)]
    fn why_branch(&self, dbcc: bool, answer: u8) -> Reason {
        let taken = if dbcc { self.pc != self.ppc.wrapping_add(4) } else { self.change_of_flow };
        match (answer, taken) {
            (0, _) => Static,
            (3, true) if self.oep060.pending_head.is_some() => Folded,
            (3, true) => Alone,
            (3, false) => Mispredicted,
            // a miss is as good as predicted not taken
            (_, true) => Mispredicted,
            (_, false) => NotTaken,
        }
    }

    // Behind a head: the first rule of the dispatch test that fails, or none. Each is put to the module's own test,
    // with all that the others look at such that they pass.
    #[inline(always)]
    fn why_pair(&self, head: &PendingHead060, word: u16, masks: (u16, u16), fetch_cached: bool) -> Reason {
        let passes = |pcr: u32, head: PendingHead060, word: u16, (uses, defs): (u16, u16), cached: bool| {
            asked(pcr).oracle_dispatch(&head, Info060(word), uses, defs, cached)
        };
        let (late, memory) = (word & F_USES_CCR_LATE, word & (F_READS_MEM | F_WRITES_MEM));
        let of_cached = PendingHead060 { head_cached: head.head_cached, ..OPEN };
        let of_registers = PendingHead060 { def_mask: head.def_mask, ..OPEN };
        let of_ccr = PendingHead060 { defines_ccr: head.defines_ccr, ..OPEN };
        let of_memory = PendingHead060 { accessed_mem: head.accessed_mem, ..OPEN };
        if !passes(self.pcr, OPEN, SIMPLE, (0, 0), true) {
            EssOff
        } else if !passes(PCR_ESS, of_cached, SIMPLE, (0, 0), fetch_cached) {
            NotCached
        } else if !passes(PCR_ESS, OPEN, word, (0, 0), true) {
            NotSimple
        } else if !passes(PCR_ESS, of_registers, SIMPLE, masks, true) {
            Register
        } else if !passes(PCR_ESS, of_ccr, SIMPLE | late, (0, 0), true) {
            Ccr
        } else if !passes(PCR_ESS, of_memory, SIMPLE | memory, (0, 0), true) {
            Memory
        } else {
            Paired
        }
    }
}

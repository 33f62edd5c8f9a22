//! A stand-in for the crate's CpuCore: the fields that timing_060.rs reads, and no more.
use super::timing_060::{F_BRANCH, Oep060Timing, info_060, mended};

// Any two distinct bits: document 000 does not have their numbers.
pub const PCR_ESS: u32 = 1 << 0;
pub const CACR_060_EBC: u32 = 1 << 23;

/// The numbers of the profiles; any other means the crate's.
pub const CRATE: u32 = 0;
pub const MENDED: u32 = 1;

/// What the branch cache answers to a retirement, by its number.
pub const ANSWERS: [&str; 4] = ["not consulted", "miss", "predicted not taken", "predicted taken"];

#[derive(Default)]
pub struct CpuCore {
    pub ir: u32,
    pub pc: u32,
    pub ppc: u32,
    pub change_of_flow: bool,
    pub pcr: u32,
    pub cacr: u32,
    pub supervisor: bool,
    pub oep060: Oep060Timing,
}

impl CpuCore {
    pub fn is_supervisor(&self) -> bool {
        self.supervisor
    }

    /// The module's step, or its copy that asks mended.rs.
    #[inline(always)]
    pub fn cycles_by(&mut self, profile: u32, raw: i32, fetch_cached: bool) -> i32 {
        match profile {
            MENDED => self.mended_cycles_060(raw, fetch_cached),
            _ => self.cycles_060(raw, fetch_cached),
        }
    }

    /// The number of what the branch cache answers, asked before the step, which changes the cache. The prediction is
    /// the module's own; only a branch is told one, with EBC on and its fetch cached.
    #[inline(always)]
    pub fn answer_by(&self, profile: u32, fetch_cached: bool) -> u8 {
        let info = match profile {
            MENDED => mended::info_060(self.ir as u16),
            _ => info_060(self.ir as u16),
        };
        if !info.has(F_BRANCH) || self.cacr & CACR_060_EBC == 0 || !fetch_cached {
            return 0;
        }
        match self.oep060.branch_cache.oracle_predict(self.ppc) {
            None => 1,
            Some(false) => 2,
            Some(true) => 3,
        }
    }
}

//! The two sides: the Rust module over its stand-in CpuCore, and the proved library over the numbers that it is lent,
//! which has a step and one that also says why.
use crate::core060::cpu::{CACR_060_EBC, CpuCore, PCR_ESS};
use crate::core060::timing_060::{BranchCache060, Oep060Timing, PendingHead060};

unsafe extern "C" {
    fn timing_060_retire_at(
        tags: *mut u32,
        state: *mut u8,
        window: *mut u16,
        profile: u32,
        op: u16,
        flags: u16,
        ppc: u32,
        pc: u32,
        raw: i32,
    ) -> u64;
    fn timing_060_explain_at(
        tags: *mut u32,
        state: *mut u8,
        window: *mut u16,
        profile: u32,
        op: u16,
        flags: u16,
        ppc: u32,
        pc: u32,
        raw: i32,
    ) -> u64;
    fn timing_060_break_at(window: *mut u16);
    fn timing_060_clear_all_at(state: *mut u8, window: *mut u16);
    fn timing_060_clear_user_at(state: *mut u8, window: *mut u16);
}

pub const FLOWED: u16 = 1;
pub const CACHED: u16 = 2;
pub const ESS: u16 = 4;
pub const EBC: u16 = 8;
pub const SUPERVISOR: u16 = 16;

/// A window as the library is lent it: open, def mask, CCR, memory, cached, of which anything but 0 is yes; the head's
/// opcode, and the low and the high half of its address. A shut one is no head, whatever else stands in it.
pub type Window = [u16; 8];
pub const SHUT: Window = [0; 8];

/// The last three numbers: who the head is.
pub type Name = [u16; 3];

pub fn name_of(op: u16, address: u32) -> Name {
    [op, address as u16, (address >> 16) as u16]
}

fn head_of(w: Window) -> Option<PendingHead060> {
    let [open, def_mask, ccr, mem, cached, ..] = w;
    (open != 0).then_some(PendingHead060 {
        def_mask,
        defines_ccr: ccr != 0,
        accessed_mem: mem != 0,
        head_cached: cached != 0,
    })
}

fn window_of(head: &Option<PendingHead060>, [op, low, high]: Name) -> Window {
    match head {
        None => SHUT,
        Some(h) => [1, h.def_mask, h.defines_ccr as u16, h.accessed_mem as u16, h.head_cached as u16, op, low, high],
    }
}

/// All 256 slots.
#[derive(Clone, Copy, PartialEq, Eq)]
pub struct Slots {
    pub tags: [u32; 256],
    pub bytes: [u8; 256],
}

/// The slot of an address.
pub fn slot_of(ppc: u32) -> usize {
    (ppc >> 1) as usize & 0xFF
}

/// One retirement by the profile of a number, and what it meets: the window, and the byte and the tag of its slot.
#[derive(Clone, Copy)]
pub struct Step {
    pub profile: u32,
    pub op: u16,
    pub flags: u16,
    pub raw: i32,
    pub ppc: u32,
    pub pc: u32,
    pub window: Window,
    pub byte: u8,
    pub tag: u32,
}

/// What a step gives: its cost, and the number of what the branch cache answered.
#[derive(Clone, Copy, PartialEq, Eq)]
pub struct Paid {
    pub cost: i64,
    pub answer: u32,
}

/// That, and why it costs that, by its number.
#[derive(Clone, Copy, PartialEq, Eq)]
pub struct Explained {
    pub paid: Paid,
    pub reason: u32,
}

/// What a step gives and leaves.
#[derive(Clone, Copy, PartialEq, Eq)]
pub struct After {
    pub paid: Paid,
    pub window: Window,
    pub byte: u8,
    pub tag: u32,
}

pub trait Side {
    fn put_window(&mut self, w: Window);
    fn put_slot(&mut self, i: usize, tag: u32, byte: u8);
    fn window(&self) -> Window;
    fn tags(&self) -> &[u32];
    fn bytes(&self) -> &[u8];
    fn break_window(&mut self);
    fn clear_all(&mut self);
    fn clear_user(&mut self);

    fn put_slots(&mut self, slots: &Slots) {
        for i in 0..256 {
            self.put_slot(i, slots.tags[i], slots.bytes[i]);
        }
    }

    fn has(&self, slots: &Slots) -> bool {
        self.tags() == slots.tags && self.bytes() == slots.bytes
    }

    /// What a step meets: its window and its slot, and nothing else is written beforehand.
    fn put(&mut self, s: &Step) {
        self.put_window(s.window);
        self.put_slot(slot_of(s.ppc), s.tag, s.byte);
    }

    fn after(&self, s: &Step, paid: Paid) -> After {
        let i = slot_of(s.ppc);
        After { paid, window: self.window(), byte: self.bytes()[i], tag: self.tags()[i] }
    }
}

/// The module does not keep who its head is: that stands beside it, as it was put, and after a retirement as that is.
pub struct Rust {
    cpu: CpuCore,
    name: Name,
}

impl Rust {
    pub fn new(slots: &Slots) -> Self {
        let branch_cache = BranchCache060::oracle_of(slots.tags.to_vec(), slots.bytes.to_vec());
        let oep060 = Oep060Timing { branch_cache, pending_head: None };
        Rust { cpu: CpuCore { oep060, ..CpuCore::default() }, name: [0; 3] }
    }

    /// The answer and the reason are found before the step, which changes cache and head. That the cost goes with the
    /// reason is seen to here.
    #[inline(always)]
    pub fn explain(&mut self, s: &Step) -> Explained {
        self.name = name_of(s.op, s.ppc);
        let cpu = &mut self.cpu;
        cpu.ir = s.op as u32;
        cpu.ppc = s.ppc;
        cpu.pc = s.pc;
        cpu.change_of_flow = s.flags & FLOWED != 0;
        cpu.pcr = if s.flags & ESS != 0 { PCR_ESS } else { 0 };
        cpu.cacr = if s.flags & EBC != 0 { CACR_060_EBC } else { 0 };
        cpu.supervisor = s.flags & SUPERVISOR != 0;
        let cached = s.flags & CACHED != 0;
        let answer = cpu.answer_by(s.profile, cached);
        let why = cpu.why_by(s.profile, cached, answer);
        let cost = cpu.cycles_by(s.profile, s.raw, cached);
        why.holds_at(s.op, cost);
        Explained { paid: Paid { cost: cost as i64, answer: answer as u32 }, reason: why.reason as u32 }
    }
}

impl Side for Rust {
    fn put_window(&mut self, w: Window) {
        self.cpu.oep060.pending_head = head_of(w);
        self.name = [w[5], w[6], w[7]];
    }

    fn put_slot(&mut self, i: usize, tag: u32, byte: u8) {
        let (tags, bytes) = self.cpu.oep060.branch_cache.oracle_parts_mut();
        tags[i] = tag;
        bytes[i] = byte;
    }

    fn window(&self) -> Window {
        window_of(&self.cpu.oep060.pending_head, self.name)
    }

    fn tags(&self) -> &[u32] {
        self.cpu.oep060.branch_cache.oracle_parts().0
    }

    fn bytes(&self) -> &[u8] {
        self.cpu.oep060.branch_cache.oracle_parts().1
    }

    fn break_window(&mut self) {
        self.cpu.break_060_pipeline();
    }

    fn clear_all(&mut self) {
        self.cpu.oep060.branch_cache.clear_all();
    }

    fn clear_user(&mut self) {
        self.cpu.oep060.branch_cache.clear_user();
    }
}

pub struct Library {
    slots: Slots,
    window: Window,
}

impl Library {
    pub fn new(slots: &Slots) -> Self {
        Library { slots: *slots, window: SHUT }
    }

    /// One number: the cost in its low half, the answer in its high one.
    pub fn retire(&mut self, s: &Step) -> Paid {
        let (tags, bytes) = (self.slots.tags.as_mut_ptr(), self.slots.bytes.as_mut_ptr());
        let window = self.window.as_mut_ptr();
        let paid = unsafe { timing_060_retire_at(tags, bytes, window, s.profile, s.op, s.flags, s.ppc, s.pc, s.raw) };
        Paid { cost: paid as u32 as i64, answer: (paid >> 32) as u32 }
    }

    /// One number: the cost in its low half, the answer in the next eight bits, and the reason in all that is left.
    pub fn explain(&mut self, s: &Step) -> Explained {
        let (tags, bytes) = (self.slots.tags.as_mut_ptr(), self.slots.bytes.as_mut_ptr());
        let window = self.window.as_mut_ptr();
        let told = unsafe { timing_060_explain_at(tags, bytes, window, s.profile, s.op, s.flags, s.ppc, s.pc, s.raw) };
        let paid = Paid { cost: told as u32 as i64, answer: (told >> 32) as u32 & 0xFF };
        Explained { paid, reason: (told >> 40) as u32 }
    }
}

impl Side for Library {
    fn put_window(&mut self, w: Window) {
        self.window = w;
    }

    fn put_slot(&mut self, i: usize, tag: u32, byte: u8) {
        self.slots.tags[i] = tag;
        self.slots.bytes[i] = byte;
    }

    fn window(&self) -> Window {
        self.window
    }

    fn tags(&self) -> &[u32] {
        &self.slots.tags
    }

    fn bytes(&self) -> &[u8] {
        &self.slots.bytes
    }

    fn break_window(&mut self) {
        unsafe { timing_060_break_at(self.window.as_mut_ptr()) }
    }

    fn clear_all(&mut self) {
        unsafe { timing_060_clear_all_at(self.slots.bytes.as_mut_ptr(), self.window.as_mut_ptr()) }
    }

    fn clear_user(&mut self) {
        unsafe { timing_060_clear_user_at(self.slots.bytes.as_mut_ptr(), self.window.as_mut_ptr()) }
    }
}

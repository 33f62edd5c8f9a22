//! The library's functions as they are exported. Nothing checks these declarations against it: the tests and the
//! examples do.

/// Lent memory that is read: where it starts, and how many there are.
#[repr(C)]
pub struct Shared<T> {
    pub at: *const T,
    pub count: u64,
}

impl<T> Shared<T> {
    pub fn of(s: &[T]) -> Self {
        Shared { at: s.as_ptr(), count: s.len() as u64 }
    }
}

/// Lent memory that is written.
#[repr(C)]
pub struct Lent<T> {
    pub at: *mut T,
    pub count: u64,
}

impl<T> Lent<T> {
    pub fn of(s: &mut [T]) -> Self {
        Lent { at: s.as_mut_ptr(), count: s.len() as u64 }
    }
}

/// What a run gives; a refusal of 0 is none.
#[repr(C)]
pub struct HostRan {
    pub refusal: u64,
    pub place: u64,
    pub count: u64,
    pub total: u64,
}

#[repr(C)]
pub struct HostMasks {
    pub uses: u16,
    pub defs: u16,
}

pub type Tags = [u32; 256];
pub type Slots = [u8; 256];
pub type Window = [u16; 8];

// The structs as the library has them: sizes and offsets; that each field holds what it says is seen by the tests.
const _: () = {
    use std::mem::{offset_of, size_of};
    assert!(size_of::<HostRan>() == 32 && offset_of!(HostRan, refusal) == 0 && offset_of!(HostRan, place) == 8);
    assert!(offset_of!(HostRan, count) == 16 && offset_of!(HostRan, total) == 24);
    assert!(size_of::<HostMasks>() == 4 && offset_of!(HostMasks, uses) == 0 && offset_of!(HostMasks, defs) == 2);
};

// Lent memory is a pointer and 64 bits: only where pointers have 64 bits, too, is that what the library has.
#[cfg(target_pointer_width = "64")]
const _: () = {
    use std::mem::{offset_of, size_of};
    assert!(size_of::<Shared<u8>>() == 16 && offset_of!(Shared<u8>, at) == 0 && offset_of!(Shared<u8>, count) == 8);
    assert!(size_of::<Lent<u8>>() == 16 && offset_of!(Lent<u8>, at) == 0 && offset_of!(Lent<u8>, count) == 8);
};

extern "C" {
    pub fn timing_060_fresh_at(tags: &mut Tags, state: &mut Slots, window: &mut Window);
    /// The clocks in the low 32 bits, the cache's answer in the 32 above them.
    pub fn timing_060_retire_at(
        tags: &mut Tags,
        state: &mut Slots,
        window: &mut Window,
        profile: u32,
        op: u16,
        flags: u16,
        ppc: u32,
        pc: u32,
        raw: i32,
    ) -> u64;
    /// The same, the cache's answer in bits 32 to 39, and the reason in bits 40 to 47.
    pub fn timing_060_explain_at(
        tags: &mut Tags,
        state: &mut Slots,
        window: &mut Window,
        profile: u32,
        op: u16,
        flags: u16,
        ppc: u32,
        pc: u32,
        raw: i32,
    ) -> u64;
    pub fn timing_060_break_at(window: &mut Window);
    pub fn timing_060_clear_all_at(state: &mut Slots, window: &mut Window);
    pub fn timing_060_clear_user_at(state: &mut Slots, window: &mut Window);
    pub fn timing_060_class_word(op: u16, profile: u32) -> u16;
    pub fn timing_060_masks_of(op: u16, profile: u32) -> HostMasks;
    pub fn timing_060_run_trace_at(
        trace: Shared<u8>,
        costs: Lent<u8>,
        tags: &mut Tags,
        state: &mut Slots,
        window: &mut Window,
        profile: u32,
        answers: Lent<u8>,
    ) -> HostRan;
    pub fn timing_060_explain_trace_at(
        trace: Shared<u8>,
        costs: Lent<u8>,
        tags: &mut Tags,
        state: &mut Slots,
        window: &mut Window,
        profile: u32,
        answers: Lent<u8>,
        reasons: Lent<u8>,
    ) -> HostRan;
    pub fn timing_060_run_batch_at(
        records: Shared<u32>,
        costs: Lent<u32>,
        tags: &mut Tags,
        state: &mut Slots,
        window: &mut Window,
        profile: u32,
        answers: Lent<u8>,
    ) -> HostRan;
    pub fn timing_060_image_write_at(tags: &Tags, state: &Slots, window: &Window, image: Lent<u8>) -> HostRan;
    pub fn timing_060_image_read_at(
        image: Shared<u8>,
        tags: &mut Tags,
        state: &mut Slots,
        window: &mut Window,
    ) -> HostRan;
}

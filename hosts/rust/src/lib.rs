//! The clocks of retired 68060 instructions.
//!
//! [`Timing060`] is the timing state that an emulator keeps beside its CPU: a branch cache of 256 slots and the pairing
//! window, in a [`Profile`] that is chosen at start. Each retired instruction goes through [`Timing060::retire`], which
//! gives its clocks and what the branch cache predicted, an [`Answer`]. Where somebody asks why it cost that, it goes
//! through [`Timing060::explain`] instead, which gives a [`Reason`], too. The work is done by a library whose every
//! function is proved to meet its contract, libtiming_060.a; this crate adds the calls, and itself only takes the
//! numbers of a step apart, has the reasons' words and reads the head ([`Timing060::head`]). It cannot be misused:
//! every state, instruction, trace and image has a result or a [`Refusal`].
//!
//! The library is for x86-64 Linux. On other targets this crate is checked and documented, but nothing can be linked.
//!
//! ```
//! use timing_060::{Answer, Flags, Profile, Retired, Retirement, Timing060};
//!
//! let mut timing = Timing060::new(Profile::Crate);
//! let flags = Flags { flowed: false, cached: true, ess: true, ebc: true, supervisor: true };
//! let moveq = timing.retire(Retirement { op: 0x7000, flags, ppc: 0x1000, pc: 0x1002, raw: 4 });
//! assert_eq!(moveq, Retired { clocks: 1, answer: Answer::NotConsulted });
//!
//! // a branch that meets a cold slot, and the next time is predicted
//! let flags = Flags { flowed: true, ..flags };
//! let branch = Retirement { op: 0x60FE, flags, ppc: 0x1002, pc: 0x1002, raw: 10 };
//! assert_eq!(timing.retire(branch), Retired { clocks: 7, answer: Answer::Miss });
//! assert_eq!(timing.retire(branch), Retired { clocks: 1, answer: Answer::PredictedTaken });
//! ```
#![warn(missing_docs)]

mod answers;
mod reasons;
mod refusals;
mod sys;

pub use answers::Answer;
pub use reasons::Reason;
pub use refusals::{Refusal, Refused};

/// The most bytes of a trace.
pub const TRACE_BYTES: usize = 16_777_216;
/// The most records of a batch.
pub const BATCH_RECORDS: usize = 1_048_576;
/// A retirement in a trace, with its header of 4 bytes.
pub const RECORD_BYTES: usize = 20;
/// The room that a retirement of a trace needs for its clocks.
pub const COST_BYTES: usize = 4;
/// The room that a retirement needs for its answer, in a batch, too.
pub const ANSWER_BYTES: usize = 1;
/// The room that a retirement of an explained trace needs for its reason.
pub const REASON_BYTES: usize = 1;
/// A state as an image, of kind 17.
pub const IMAGE_BYTES: usize = 1294;
/// An image of kind 16, which is still read.
pub const OLD_IMAGE_BYTES: usize = 1288;

/// The timing profile, chosen at start: what the opcodes are to the pairing window. States have one, images and traces
/// have none.
#[derive(Clone, Copy, Debug, Default, PartialEq, Eq, Hash)]
#[repr(u32)]
pub enum Profile {
    /// That of the crate m68k 0.15.1: its clocks, pairs that the hardware cannot make included. The default.
    #[default]
    Crate = 0,
    /// EOR between data registers, EXTB.L, CMPM, MOVES, UNPK, CHK on D4 and LEA into A4 are mended. Of MOVE,
    /// MOVEQ, ADDQ, SUBQ, EOR, EXTB and CMPM none pairs behind one that writes a register which it reads or writes.
    Mended = 1,
}

/// What the host knows of a retirement, as yes or no.
#[derive(Clone, Copy, Debug, Default, PartialEq, Eq)]
pub struct Flags {
    /// The instruction changed the flow (the handler's `change_of_flow`).
    pub flowed: bool,
    /// Its opcode came from the instruction cache.
    pub cached: bool,
    /// PCR.ESS: superscalar dispatch is on.
    pub ess: bool,
    /// CACR.EBC: the branch cache is on.
    pub ebc: bool,
    /// The CPU is in supervisor mode.
    pub supervisor: bool,
}

impl Flags {
    fn bits(self) -> u16 {
        let (flowed, cached, ess) = (self.flowed as u16, self.cached as u16, self.ess as u16);
        flowed | cached << 1 | ess << 2 | (self.ebc as u16) << 3 | (self.supervisor as u16) << 4
    }
}

/// A retired instruction.
#[derive(Clone, Copy, Debug, Default, PartialEq, Eq)]
pub struct Retirement {
    /// The opcode word.
    pub op: u16,
    /// What the host knows of it.
    pub flags: Flags,
    /// Where the instruction stood.
    pub ppc: u32,
    /// Where the next one stands.
    pub pc: u32,
    /// The handler's 68000 count.
    pub raw: i32,
}

/// What a retirement gives.
#[derive(Clone, Copy, Debug, PartialEq, Eq)]
pub struct Retired {
    /// Its clocks.
    pub clocks: u32,
    /// What the branch cache predicted of it.
    pub answer: Answer,
}

/// What an explained retirement gives.
#[derive(Clone, Copy, Debug, PartialEq, Eq)]
pub struct Explained {
    /// Its clocks.
    pub clocks: u32,
    /// What the branch cache predicted of it.
    pub answer: Answer,
    /// Why it cost these clocks.
    pub reason: Reason,
}

/// A retired instruction as a batch holds it: 16 bytes, as in a trace.
#[repr(C)]
#[derive(Clone, Copy, Debug, Default, PartialEq, Eq)]
pub struct Record {
    op: u16,
    flags: u16,
    ppc: u32,
    pc: u32,
    raw: i32,
}

// A batch is lent as words, four a record.
const _: () = {
    use std::mem::{align_of, offset_of, size_of};
    assert!(size_of::<Record>() == 16 && align_of::<Record>() == align_of::<u32>());
    assert!(offset_of!(Record, op) == 0 && offset_of!(Record, flags) == 2 && offset_of!(Record, ppc) == 4);
    assert!(offset_of!(Record, pc) == 8 && offset_of!(Record, raw) == 12);
};

impl From<Retirement> for Record {
    fn from(r: Retirement) -> Self {
        Record { op: r.op, flags: r.flags.bits(), ppc: r.ppc, pc: r.pc, raw: r.raw }
    }
}

/// What an accepted run gives.
#[derive(Clone, Copy, Debug, PartialEq, Eq)]
pub struct Ran {
    /// How many instructions retired.
    pub count: u64,
    /// The sum of their clocks.
    pub total: u64,
}

/// The registers that an instruction uses and defines: D0 to D7 in bits 0 to 7, A0 to A7 in bits 8 to 15.
#[derive(Clone, Copy, Debug, PartialEq, Eq)]
pub struct Masks {
    /// Those that it uses.
    pub uses: u16,
    /// Those that it defines.
    pub defs: u16,
}

/// Which instruction is the head: it waits in the pairing window for a second one. No clocks depend on this.
#[derive(Clone, Copy, Debug, PartialEq, Eq)]
pub struct Head {
    /// Its opcode word.
    pub op: u16,
    /// Where it stood: its `ppc`.
    pub address: u32,
}

/// The timing state of a 68060.
///
/// `==` compares the head's opcode and address, too, though no clocks depend on them.
#[derive(Clone, Debug, PartialEq, Eq)]
pub struct Timing060 {
    tags: sys::Tags,
    state: sys::Slots,
    window: sys::Window,
    profile: Profile,
}

/// A fresh state of the default profile, [`Profile::Crate`].
impl Default for Timing060 {
    fn default() -> Self {
        Self::new(Profile::default())
    }
}

// Every call lends references and slices, which are what they say: the library asks nothing else.
impl Timing060 {
    /// A fresh state of a profile.
    pub fn new(profile: Profile) -> Self {
        let mut t = Timing060 { tags: [0; 256], state: [0; 256], window: [0; 8], profile };
        unsafe { sys::timing_060_fresh_at(&mut t.tags, &mut t.state, &mut t.window) };
        t
    }

    /// The profile that was chosen.
    pub fn profile(&self) -> Profile {
        self.profile
    }

    /// The head of the pairing window; none where the window is shut.
    pub fn head(&self) -> Option<Head> {
        let [open, _, _, _, _, op, low, high] = self.window;
        (open != 0).then_some(Head { op, address: u32::from(high) << 16 | u32::from(low) })
    }

    /// One retired instruction: its clocks, and what the branch cache predicted.
    #[inline]
    pub fn retire(&mut self, r: Retirement) -> Retired {
        let (tags, state, window) = (&mut self.tags, &mut self.state, &mut self.window);
        let (profile, flags) = (self.profile as u32, r.flags.bits());
        let both = unsafe { sys::timing_060_retire_at(tags, state, window, profile, r.op, flags, r.ppc, r.pc, r.raw) };
        let answer = Answer::of((both >> 32) as u8).expect("the library's answers are proved to be 0 to 3");
        Retired { clocks: both as u32, answer }
    }

    /// One retired instruction, as [`Timing060::retire`] has it, and why it cost what it did.
    ///
    /// It retires, so that an instruction goes through one of the two; who only asks explains it on a clone. It takes
    /// more time than [`Timing060::retire`]: it is for whoever asks, not for every instruction.
    ///
    /// ```
    /// use timing_060::{Flags, Profile, Reason, Retirement, Timing060};
    ///
    /// let mut timing = Timing060::new(Profile::Crate);
    /// let flags = Flags { flowed: false, cached: true, ess: true, ebc: true, supervisor: true };
    /// let moveq = timing.retire(Retirement { op: 0x7000, flags, ppc: 0x1000, pc: 0x1002, raw: 4 }); // MOVEQ #0,D0
    /// let add = timing.explain(Retirement { op: 0xD200, flags, ppc: 0x1002, pc: 0x1004, raw: 4 }); // ADD.B D0,D1
    /// assert_eq!((moveq.clocks, add.clocks), (1, 1));
    /// assert_eq!(add.reason, Reason::Register); // it reads D0, which MOVEQ writes
    /// assert_eq!(add.reason.to_string(), "register");
    /// ```
    #[inline]
    pub fn explain(&mut self, r: Retirement) -> Explained {
        let (tags, state, window) = (&mut self.tags, &mut self.state, &mut self.window);
        let (profile, flags) = (self.profile as u32, r.flags.bits());
        let all = unsafe { sys::timing_060_explain_at(tags, state, window, profile, r.op, flags, r.ppc, r.pc, r.raw) };
        let answer = Answer::of((all >> 32) as u8).expect("the library's answers are proved to be 0 to 3");
        let reason = Reason::of((all >> 40) as u8).expect("the library's reasons are proved to be 0 to 13");
        Explained { clocks: all as u32, answer, reason }
    }

    /// The pipeline breaks: the pairing window is shut, and nothing else changes.
    pub fn break_pipeline(&mut self) {
        unsafe { sys::timing_060_break_at(&mut self.window) }
    }

    /// CACR.CABC: every entry of the branch cache is cleared.
    pub fn clear_all(&mut self) {
        unsafe { sys::timing_060_clear_all_at(&mut self.state, &mut self.window) }
    }

    /// CACR.CUBC: the entries that were allocated in user mode are cleared.
    pub fn clear_user(&mut self) {
        unsafe { sys::timing_060_clear_user_at(&mut self.state, &mut self.window) }
    }

    /// Runs a trace of at most [`TRACE_BYTES`]: for each retirement [`COST_BYTES`] of clocks, little-endian, and
    /// [`ANSWER_BYTES`] of what the branch cache predicted, the [`Answer::number`]. Bytes beyond the last cost and the
    /// last answer stay. A flag bit above the five is refused: [`Refusal::Flag`].
    pub fn run_trace(&mut self, trace: &[u8], costs: &mut [u8], answers: &mut [u8]) -> Result<Ran, Refused> {
        let (s, c, a) = (sys::Shared::of(trace), sys::Lent::of(costs), sys::Lent::of(answers));
        let (tags, state, window) = (&mut self.tags, &mut self.state, &mut self.window);
        ran(unsafe { sys::timing_060_run_trace_at(s, c, tags, state, window, self.profile as u32, a) })
    }

    /// Runs a trace as [`Timing060::run_trace`] does, and explains it: for each retirement [`REASON_BYTES`] more, the
    /// [`Reason::number`]. Bytes beyond the last reason stay. Too little room for reasons is [`Refusal::Room`], too. It
    /// takes more time than the run does.
    ///
    /// ```
    /// use timing_060::{Profile, Reason, Refused, Timing060};
    ///
    /// let trace = [
    ///     16, 0, 1, 0, 0x00, 0x70, 0x1E, 0, 0x00, 0x10, 0, 0, 0x02, 0x10, 0, 0, 4, 0, 0, 0, // MOVEQ #0,D0
    ///     16, 0, 1, 0, 0x00, 0x72, 0x1E, 0, 0x02, 0x10, 0, 0, 0x04, 0x10, 0, 0, 4, 0, 0, 0, // MOVEQ #0,D1
    ///     0, 0, 2, 0, // a break, which is no retirement
    /// ];
    /// let (mut costs, mut answers, mut reasons) = ([0; 8], [0; 2], [0; 2]);
    /// Timing060::new(Profile::Crate).explain_trace(&trace, &mut costs, &mut answers, &mut reasons)?;
    /// assert_eq!(reasons.map(Reason::of), [Some(Reason::WindowShut), Some(Reason::Paired)]);
    /// # Ok::<(), Refused>(())
    /// ```
    pub fn explain_trace(
        &mut self,
        trace: &[u8],
        costs: &mut [u8],
        answers: &mut [u8],
        reasons: &mut [u8],
    ) -> Result<Ran, Refused> {
        let (s, c) = (sys::Shared::of(trace), sys::Lent::of(costs));
        let (a, r) = (sys::Lent::of(answers), sys::Lent::of(reasons));
        let (tags, state, window) = (&mut self.tags, &mut self.state, &mut self.window);
        ran(unsafe { sys::timing_060_explain_trace_at(s, c, tags, state, window, self.profile as u32, a, r) })
    }

    /// Runs a batch of at most [`BATCH_RECORDS`]: for each record a place for its clocks, and [`ANSWER_BYTES`] for what
    /// the branch cache predicted, the [`Answer::number`]. Places and bytes beyond the last stay.
    ///
    /// ```
    /// use timing_060::{Answer, Flags, Profile, Record, Refused, Retirement, Timing060};
    ///
    /// let flags = Flags { flowed: true, cached: true, ess: true, ebc: true, supervisor: true };
    /// let branch = Retirement { op: 0x60FE, flags, ppc: 0x1002, pc: 0x1002, raw: 10 };
    /// let (mut costs, mut answers) = ([0; 2], [0; 2]);
    /// Timing060::new(Profile::Crate).run_batch(&[Record::from(branch); 2], &mut costs, &mut answers)?;
    /// assert_eq!(costs, [7, 1]);
    /// assert_eq!(answers.map(Answer::of), [Some(Answer::Miss), Some(Answer::PredictedTaken)]);
    /// # Ok::<(), Refused>(())
    /// ```
    pub fn run_batch(&mut self, records: &[Record], costs: &mut [u32], answers: &mut [u8]) -> Result<Ran, Refused> {
        let s = sys::Shared { at: records.as_ptr().cast(), count: (records.len() as u64).saturating_mul(4) };
        let (c, a) = (sys::Lent::of(costs), sys::Lent::of(answers));
        let (tags, state, window) = (&mut self.tags, &mut self.state, &mut self.window);
        ran(unsafe { sys::timing_060_run_batch_at(s, c, tags, state, window, self.profile as u32, a) })
    }

    /// The state as bytes, but for the profile: an image of kind 17.
    pub fn image(&self) -> [u8; IMAGE_BYTES] {
        let mut image = [0; IMAGE_BYTES];
        let room = sys::Lent::of(&mut image);
        unsafe { sys::timing_060_image_write_at(&self.tags, &self.state, &self.window, room) };
        image
    }

    /// The state of an image, in a profile: the image does not carry it. An image of kind 16, [`OLD_IMAGE_BYTES`] long,
    /// does not say which instruction is the head: where the window is open it is 0 at 0.
    pub fn from_image(image: &[u8], profile: Profile) -> Result<Self, Refused> {
        let mut t = Self::new(profile);
        let s = sys::Shared::of(image);
        ran(unsafe { sys::timing_060_image_read_at(s, &mut t.tags, &mut t.state, &mut t.window) }).map(|_| t)
    }
}

/// The class word of an opcode in a profile: class in bits 0 and 1, clocks in bits 2 to 6, then its flags.
pub fn class_word(op: u16, profile: Profile) -> u16 {
    unsafe { sys::timing_060_class_word(op, profile as u32) }
}

/// The register masks of an opcode in a profile.
pub fn masks(op: u16, profile: Profile) -> Masks {
    let m = unsafe { sys::timing_060_masks_of(op, profile as u32) };
    Masks { uses: m.uses, defs: m.defs }
}

fn ran(r: sys::HostRan) -> Result<Ran, Refused> {
    if r.refusal == 0 {
        Ok(Ran { count: r.count, total: r.total })
    } else {
        Err(Refused { refusal: Refusal::of(r.refusal), place: r.place })
    }
}

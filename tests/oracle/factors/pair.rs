//! Both sides, stepped together and compared.
use crate::core060::cpu::ANSWERS;
use crate::core060::reasons::REASONS;
use crate::sides::*;
use crate::tally::Tally;

/// Slots that all differ: tags that are no address of a step, and bytes of every kind.
pub fn slots_from(shift: usize) -> Slots {
    Slots {
        tags: std::array::from_fn(|i| 0x9000_0001 + 0x0001_0200 * i as u32),
        bytes: std::array::from_fn(|i| (i + shift) as u8),
    }
}

/// One thread's two sides, which start as `slots`; the library twice, for the step and for the one that says why.
pub struct Pair<'a> {
    rust: Rust,
    library: Library,
    telling: Library,
    slots: Slots,
    tally: &'a Tally,
    steps: u64,
}

impl<'a> Pair<'a> {
    pub fn new(tally: &'a Tally) -> Self {
        let slots = slots_from(0);
        let (library, telling) = (Library::new(&slots), Library::new(&slots));
        Pair { rust: Rust::new(&slots), library, telling, slots, tally, steps: 0 }
    }

    /// How many steps since this was last asked.
    pub fn counted(&mut self) -> u64 {
        std::mem::take(&mut self.steps)
    }

    /// A retirement on both sides: the cost, what the branch cache answered, the next window with its head's opcode and
    /// address, the slot's byte and its tag; and of the step that says why all of these and the reason. What was just
    /// written is slow to read at once, so that the sides take turns.
    #[inline(always)]
    pub fn compare(&mut self, s: &Step) {
        self.library.put(s);
        self.telling.put(s);
        self.rust.put(s);
        let paid = self.library.retire(s);
        let told = self.telling.explain(s);
        let expected = self.rust.explain(s);
        let library = self.library.after(s, paid);
        let telling = self.telling.after(s, told.paid);
        let rust = self.rust.after(s, expected.paid);
        self.steps += 1;
        if rust != library {
            self.tally.differs(&step_text(s), &after_text(s, &rust), &after_text(s, &library));
        }
        if rust != telling || expected.reason != told.reason {
            let text = |reason, after| format!("{}, {}", reason_text(reason), after_text(s, after));
            let (rust, telling) = (text(expected.reason, &rust), text(told.reason, &telling));
            self.tally.differs(&format!("says why: {}", step_text(s)), &rust, &telling);
        }
    }

    /// Puts the slot of these steps back, and looks whether all 256 tags and bytes are what they were.
    pub fn look_at_other_slots(&mut self, s: &Step) {
        let i = slot_of(s.ppc);
        let (tag, byte) = (self.slots.tags[i], self.slots.bytes[i]);
        self.rust.put_slot(i, tag, byte);
        self.library.put_slot(i, tag, byte);
        self.telling.put_slot(i, tag, byte);
        self.look_at_slots(|| format!("another slot than {i:02X} has changed in the steps up to: {}", step_text(s)));
    }

    fn look_at_slots(&mut self, what: impl Fn() -> String) {
        if !(self.rust.has(&self.slots) && self.library.has(&self.slots) && self.telling.has(&self.slots)) {
            let wrong = |side: &dyn Side| slots_text(side, &self.slots);
            let library = format!("{}; as it says why {}", wrong(&self.library), wrong(&self.telling));
            self.tally.differs(&what(), &wrong(&self.rust), &library);
            self.put_slots_back();
        }
    }

    /// A break: the next window, and all slots.
    pub fn compare_break(&mut self, w: Window) {
        self.rust.put_window(w);
        self.library.put_window(w);
        self.rust.break_window();
        self.library.break_window();
        self.steps += 1;
        if self.rust.window() != self.library.window() {
            let text = |side: &dyn Side| window_text(side.window());
            self.tally.differs(&format!("break, {}", window_text(w)), &text(&self.rust), &text(&self.library));
        }
        self.look_at_slots(|| format!("slots have changed: break, {}", window_text(w)));
    }

    /// A clear, of all slots or of the user's: the next window, and all slots.
    pub fn compare_clear(&mut self, all: bool, slots: &Slots, w: Window) {
        cleared(&mut self.rust, all, slots, w);
        cleared(&mut self.library, all, slots, w);
        self.steps += 1;
        let (rust, library) = (&self.rust, &self.library);
        if rust.window() != library.window() || rust.tags() != library.tags() || rust.bytes() != library.bytes() {
            let text = |side: &dyn Side| format!("{}, {}", window_text(side.window()), slots_text(side, slots));
            let clear = if all { "clear all" } else { "clear user" };
            let what = format!("{clear}, {}, slot bytes from {:02X} up", window_text(w), slots.bytes[0]);
            self.tally.differs(&what, &text(rust), &text(library));
        }
    }

    pub fn put_slots_back(&mut self) {
        self.rust.put_slots(&self.slots);
        self.library.put_slots(&self.slots);
        self.telling.put_slots(&self.slots);
    }
}

fn cleared(side: &mut impl Side, all: bool, slots: &Slots, w: Window) {
    side.put_slots(slots);
    side.put_window(w);
    if all { side.clear_all() } else { side.clear_user() }
}

// ---- what a difference prints

fn flags_text(flags: u16) -> String {
    let names = [(FLOWED, "flowed"), (CACHED, "cached"), (ESS, "ESS"), (EBC, "EBC"), (SUPERVISOR, "supervisor")];
    let set: Vec<&str> = names.iter().filter(|(bit, _)| flags & bit != 0).map(|(_, name)| *name).collect();
    format!("flags {flags:02X} ({})", if set.is_empty() { "none".into() } else { set.join(" ") })
}

fn window_text([open, defs, ccr, mem, cached, op, low, high]: Window) -> String {
    let yes = |n: u16, name: &str| match n {
        0 => String::new(),
        1 => format!(" {name}"),
        _ => format!(" {name}={n:X}"),
    };
    let flags = format!("{}{}{}", yes(ccr, "CCR"), yes(mem, "memory"), yes(cached, "cached"));
    let fields = format!("defs {defs:04X}{flags} head {op:04X} at {high:04X}{low:04X}");
    match open {
        0 if [defs, ccr, mem, cached, op, low, high] == [0; 7] => "window shut".into(),
        0 => format!("window shut with {fields}"),
        1 => format!("window open {fields}"),
        n => format!("window open={n:X} {fields}"),
    }
}

fn slot_text(byte: u8, tag: u32, ppc: u32) -> String {
    format!("slot byte {byte:02X} tag {tag:08X} ({})", if tag == ppc { "equal" } else { "not equal" })
}

fn step_text(s: &Step) -> String {
    let (flags, window, slot) = (flags_text(s.flags), window_text(s.window), slot_text(s.byte, s.tag, s.ppc));
    let places = format!("ppc {:08X}, pc {:08X}", s.ppc, s.pc);
    format!("profile {}, opcode {:04X}, {flags}, {window}, raw {}, {places}, {slot}", s.profile, s.op, s.raw)
}

fn paid_text(p: Paid) -> String {
    let answer = ANSWERS.get(p.answer as usize).unwrap_or(&"no answer");
    format!("cost {}, answer {:X} ({answer})", p.cost, p.answer)
}

fn reason_text(reason: u32) -> String {
    format!("reason {reason:X} ({})", REASONS.get(reason as usize).unwrap_or(&"no reason"))
}

fn after_text(s: &Step, a: &After) -> String {
    format!("{}, {}, {}", paid_text(a.paid), window_text(a.window), slot_text(a.byte, a.tag, s.ppc))
}

// The first slot that is not as it was, and how many such there are.
fn slots_text(side: &dyn Side, slots: &Slots) -> String {
    let (tags, bytes) = (side.tags(), side.bytes());
    let changed: Vec<usize> = (0..256).filter(|&i| tags[i] != slots.tags[i] || bytes[i] != slots.bytes[i]).collect();
    let Some(&i) = changed.first() else {
        return "no slot changed".into();
    };
    let was = format!("byte {:02X} tag {:08X}", slots.bytes[i], slots.tags[i]);
    format!("changed slots: {}, first {i:02X}: byte {:02X} tag {:08X}, was {was}", changed.len(), bytes[i], tags[i])
}

//! Why a retirement costs what it costs.
use std::fmt;

/// Why a retirement cost what it did; each with its number. Exactly one fits each retirement.
///
/// [`Reason::Paired`] to [`Reason::Memory`] are for what is neither a branch nor a change of flow. Of them
/// [`Reason::EssOff`] to [`Reason::Memory`] are the rules of the dispatch test, in its order, and the first that failed
/// is told. [`Reason::Folded`] to [`Reason::Static`] are for branches. A retirement costs 0 exactly where its reason is
/// [`Reason::Paired`] or [`Reason::Folded`].
#[derive(Clone, Copy, Debug, PartialEq, Eq, Hash)]
#[repr(u8)]
pub enum Reason {
    /// It joined the head, and costs 0.
    Paired = 0,
    /// There was no head to join.
    WindowShut = 1,
    /// PCR.ESS is off.
    EssOff = 2,
    /// The head's opcode or its own did not come from the instruction cache.
    NotCached = 3,
    /// It is not of class 0, or is EA_INDEXED, UNCLASSIFIED or VARIABLE.
    NotSimple = 4,
    /// It uses or defines a register that the head defines.
    Register = 5,
    /// It uses the CCR late, and the head defines the CCR.
    Ccr = 6,
    /// It accesses memory, and so does the head.
    Memory = 7,
    /// It is no branch, and changed the flow.
    Refill = 8,
    /// The branch was rightly predicted taken, and is folded into an open window: it costs 0.
    Folded = 9,
    /// The branch was rightly predicted taken, and no window was open: it costs 1.
    Alone = 10,
    /// The branch was rightly not taken, and costs 1. A miss counts as a prediction of not taken.
    NotTaken = 11,
    /// The branch did not go as predicted, and costs 7. A miss counts as a prediction of not taken.
    Mispredicted = 12,
    /// The cache was not asked of the branch: a static cost.
    Static = 13,
}

impl Reason {
    /// Its number, 0 to 13: the byte that a run writes.
    pub fn number(self) -> u8 {
        self as u8
    }

    /// The reason of a byte that a run wrote; none of a byte above 13, which no run writes.
    ///
    /// ```
    /// use timing_060::Reason;
    ///
    /// assert_eq!(Reason::of(5), Some(Reason::Register));
    /// assert_eq!(Reason::of(14), None);
    /// ```
    #[inline]
    pub fn of(byte: u8) -> Option<Self> {
        match byte {
            0 => Some(Reason::Paired),
            1 => Some(Reason::WindowShut),
            2 => Some(Reason::EssOff),
            3 => Some(Reason::NotCached),
            4 => Some(Reason::NotSimple),
            5 => Some(Reason::Register),
            6 => Some(Reason::Ccr),
            7 => Some(Reason::Memory),
            8 => Some(Reason::Refill),
            9 => Some(Reason::Folded),
            10 => Some(Reason::Alone),
            11 => Some(Reason::NotTaken),
            12 => Some(Reason::Mispredicted),
            13 => Some(Reason::Static),
            _ => None,
        }
    }

    /// Its word, the one that the program `why` prints: `window-shut` is that of [`Reason::WindowShut`].
    pub fn word(self) -> &'static str {
        match self {
            Reason::Paired => "paired",
            Reason::WindowShut => "window-shut",
            Reason::EssOff => "ess-off",
            Reason::NotCached => "not-cached",
            Reason::NotSimple => "not-simple",
            Reason::Register => "register",
            Reason::Ccr => "ccr",
            Reason::Memory => "memory",
            Reason::Refill => "refill",
            Reason::Folded => "folded",
            Reason::Alone => "alone",
            Reason::NotTaken => "not-taken",
            Reason::Mispredicted => "mispredicted",
            Reason::Static => "static",
        }
    }
}

impl fmt::Display for Reason {
    fn fmt(&self, f: &mut fmt::Formatter<'_>) -> fmt::Result {
        f.write_str(self.word())
    }
}

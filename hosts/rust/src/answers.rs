//! What the branch cache predicts.
use std::fmt;

/// What the branch cache predicted of a retirement, before it learned how the branch went; each with its number.
///
/// A branch that cost 7 clocks met a cold slot, or another branch's, where this is [`Answer::Miss`], and a wrong guess
/// where it is [`Answer::PredictedNotTaken`] or [`Answer::PredictedTaken`].
#[derive(Clone, Copy, Debug, PartialEq, Eq, Hash)]
#[repr(u8)]
pub enum Answer {
    /// The cache was not asked: the instruction is no branch, CACR.EBC is off, or the fetch was uncached.
    NotConsulted = 0,
    /// The slot is cold, or another branch's. It costs what a prediction of not taken costs.
    Miss = 1,
    /// The slot is this branch's, and predicts not taken.
    PredictedNotTaken = 2,
    /// The slot is this branch's, and predicts taken.
    PredictedTaken = 3,
}

impl Answer {
    /// Its number, 0 to 3: the byte that a run writes.
    pub fn number(self) -> u8 {
        self as u8
    }

    /// The answer of a byte that a run wrote; none of a byte above 3, which no run writes.
    ///
    /// ```
    /// use timing_060::Answer;
    ///
    /// assert_eq!(Answer::of(3), Some(Answer::PredictedTaken));
    /// assert_eq!(Answer::of(4), None);
    /// ```
    #[inline]
    pub fn of(byte: u8) -> Option<Self> {
        match byte {
            0 => Some(Answer::NotConsulted),
            1 => Some(Answer::Miss),
            2 => Some(Answer::PredictedNotTaken),
            3 => Some(Answer::PredictedTaken),
            _ => None,
        }
    }
}

impl fmt::Display for Answer {
    fn fmt(&self, f: &mut fmt::Formatter<'_>) -> fmt::Result {
        f.write_str(match self {
            Answer::NotConsulted => "not consulted",
            Answer::Miss => "miss",
            Answer::PredictedNotTaken => "predicted not taken",
            Answer::PredictedTaken => "predicted taken",
        })
    }
}

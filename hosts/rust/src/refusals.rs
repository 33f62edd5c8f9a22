//! What can be refused.
use std::error::Error;
use std::fmt;

/// What a refusal can be: the table of refusals, each with its number.
#[derive(Clone, Copy, Debug, PartialEq, Eq, Hash)]
#[repr(u8)]
pub enum Refusal {
    /// The trace or the batch is over its limit.
    Oversized = 1,
    /// 1 to 3 bytes remain, which are no record.
    Remainder = 2,
    /// The record's kind is not 1 to 4.
    WrongKind = 3,
    /// The record's length is not its kind's.
    WrongLength = 4,
    /// The record's payload is cut.
    Cut = 5,
    /// A flag above bit 4 is set.
    Flag = 6,
    /// Too little room was lent: for costs, answers or reasons.
    Room = 7,
    /// The image is neither 1,288 nor 1,294 bytes long.
    ImageLength = 8,
    /// The image's header does not match its length: payload length 1,284 and kind 16 for 1,288 bytes, 1,290 and 17
    /// for 1,294.
    ImageHeader = 9,
    /// The image's window is not one that a state can have: open above 1, a bit above 2, or shut and not zero, the
    /// head's address and opcode included.
    ImageWindow = 10,
}

impl Refusal {
    /// Its number in the table of refusals, 1 to 10.
    pub fn number(self) -> u64 {
        self as u64
    }

    /// The refusal of a number that the library gives.
    pub(crate) fn of(number: u64) -> Self {
        match number {
            1 => Refusal::Oversized,
            2 => Refusal::Remainder,
            3 => Refusal::WrongKind,
            4 => Refusal::WrongLength,
            5 => Refusal::Cut,
            6 => Refusal::Flag,
            7 => Refusal::Room,
            8 => Refusal::ImageLength,
            9 => Refusal::ImageHeader,
            10 => Refusal::ImageWindow,
            _ => unreachable!("the library's refusals are proved to be 1 to 10"),
        }
    }
}

impl fmt::Display for Refusal {
    fn fmt(&self, f: &mut fmt::Formatter<'_>) -> fmt::Result {
        f.write_str(match self {
            Refusal::Oversized => "the trace or the batch is over its limit",
            Refusal::Remainder => "1 to 3 bytes remain, which are no record",
            Refusal::WrongKind => "the record's kind is not 1 to 4",
            Refusal::WrongLength => "the record's length is not its kind's",
            Refusal::Cut => "the record's payload is cut",
            Refusal::Flag => "a flag above bit 4 is set",
            Refusal::Room => "too little room was lent",
            Refusal::ImageLength => "the image is neither 1,288 nor 1,294 bytes long",
            Refusal::ImageHeader => "the image's header does not match its length",
            Refusal::ImageWindow => "the image's window is not one that a state can have",
        })
    }
}

/// A refusal and its place. Nothing was written, and the state is as it was.
#[derive(Clone, Copy, Debug, PartialEq, Eq, Hash)]
pub struct Refused {
    /// What it is.
    pub refusal: Refusal,
    /// The start of the record for [`Refusal::Remainder`] to [`Refusal::Flag`], the trace's length for the
    /// [`Refusal::Room`] of a trace, 1,284 for [`Refusal::ImageWindow`], else 0.
    pub place: u64,
}

impl fmt::Display for Refused {
    fn fmt(&self, f: &mut fmt::Formatter<'_>) -> fmt::Result {
        write!(f, "refused {} at {}: {}", self.refusal.number(), self.place, self.refusal)
    }
}

impl Error for Refused {}

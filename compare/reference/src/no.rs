//! The numbers for no, and a program's no with its place.
//! Answers to 01, "Numbers for no".

/// Why a call was refused, by the number that 01 gives it.
#[derive(Clone, Copy, Debug, PartialEq, Eq)]
#[repr(u8)]
pub enum No {
    Under7 = 1,
    Over21 = 2,
    Count = 3,
    Sum = 4,
    Mid = 5,
    Second = 6,
    Zero = 7,
    IdOver = 8,
    IdLength = 9,
    Position = 10,
    NotFull = 11,
    Busy = 12,
    Other = 13,
    Unsound = 16,
    Settings = 17,
    MidForbidden = 19,
    Caret = 21,
    Unknown = 22,
    Number = 23,
    Forbidden = 24,
    Tilde = 25,
    Loop = 26,
    AfterEnd = 27,
    Over84 = 28,
    Body = 31,
    WriteId = 32,
    WritePosition = 33,
    OutShort = 34,
    Reply = 35,
}

/// A no that points into a body.
#[derive(Clone, Copy, Debug, PartialEq, Eq)]
pub struct Refusal {
    pub no: No,
    pub place: u8,
}

impl Refusal {
    /// A no at a place, which no body has beyond its 84 bytes.
    pub(crate) fn at(no: No, place: usize) -> Self {
        Refusal { no, place: place as u8 }
    }
}

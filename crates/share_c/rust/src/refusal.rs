//! Why a call was refused.

use std::fmt;

/// The refusals, each with its number.
#[derive(Clone, Copy, PartialEq, Eq, Debug)]
pub enum Refusal {
    NotInColumns = 1,
    CodeFalse = 2,
    CountOutside = 3,
    CodeTwice = 4,
    StatusOrIterationAbove = 5,
    ProducerOrKeyWrong = 6,
    KeysAbove = 7,
    CodeNotInGroup = 8,
    NoSuchDay = 9,
    ValueWrong = 10,
    DayCleared = 11,
    StampOutside = 12,
    ClockOutside = 13,
    JournalFull = 14,
    Damaged = 15,
    TooShort = 16,
}

impl Refusal {
    /// All refusals, in the order of their numbers.
    pub const ALL: [Refusal; 16] = [
        Refusal::NotInColumns,
        Refusal::CodeFalse,
        Refusal::CountOutside,
        Refusal::CodeTwice,
        Refusal::StatusOrIterationAbove,
        Refusal::ProducerOrKeyWrong,
        Refusal::KeysAbove,
        Refusal::CodeNotInGroup,
        Refusal::NoSuchDay,
        Refusal::ValueWrong,
        Refusal::DayCleared,
        Refusal::StampOutside,
        Refusal::ClockOutside,
        Refusal::JournalFull,
        Refusal::Damaged,
        Refusal::TooShort,
    ];

    /// The number of the refusal.
    pub fn number(self) -> u64 {
        self as u64
    }

    /// The value of a call whose answer is 0, and else the refusal of that number.
    pub(crate) fn unless<T>(answer: u64, value: T) -> Result<T, Refusal> {
        match answer {
            0 => Ok(value),
            _ => Err(Refusal::ALL[answer as usize - 1]),
        }
    }
}

impl fmt::Display for Refusal {
    fn fmt(&self, out: &mut fmt::Formatter) -> fmt::Result {
        let meaning = match self {
            Refusal::NotInColumns => "a line is not in its columns, is missing, or is one too many",
            Refusal::CodeFalse => "a code has not 18 digits, begins with 0, or has a false check digit",
            Refusal::CountOutside => {
                "no producer, no consumer, more than 64 points, or a consumer that names none or more than 5 producers"
            }
            Refusal::CodeTwice => "a code stands twice in the group",
            Refusal::StatusOrIterationAbove => "a status above 3 or an iteration above 1",
            Refusal::ProducerOrKeyWrong => {
                "a producer's number is unknown or twice on one line, or a key is outside 1 to 10000"
            }
            Refusal::KeysAbove => "a producer's keys sum to more than 10000",
            Refusal::CodeNotInGroup => "the code is not one of the group's",
            Refusal::NoSuchDay => "there is no such date, day or changeover day, or the day has no such quarter",
            Refusal::ValueWrong => {
                "a negative value for a producer, a positive one for a consumer, or one above 99999999 in size"
            }
            Refusal::DayCleared => "the day is cleared, or one of the four weeks before an evaluated day may be",
            Refusal::StampOutside => {
                "the stamp of an evaluation or of a clear is below the kept stamp or above the last one"
            }
            Refusal::ClockOutside => "the clock is above 999999999999, or the last stamp is that",
            Refusal::JournalFull => "a new entry is needed and fewer than three numbers of the journal are left",
            Refusal::Damaged => "the registration, the record or the journal breaks a rule",
            Refusal::TooShort => "the result list or the buffer is too short",
        };
        write!(out, "refused by {}: {meaning}", self.number())
    }
}

impl std::error::Error for Refusal {}

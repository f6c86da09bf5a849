//! The refusals, and what a code and a row say.
use crate::sys::{ABSENT, GIVES};
use std::error::Error;
use std::fmt;

/// Why a call refuses. Its [`number`](Refusal::number) never changes; numbers may be added, so that a `match` has an arm for the rest.
#[derive(Clone, Copy, Debug, PartialEq, Eq, Hash)]
#[non_exhaustive]
pub enum Refusal {
    /// 1: an address rule is broken.
    Address,
    /// 2: an exact read or a skip doesn't fit its range.
    Overrun,
    /// 3: General is needed and not found.
    NoCategory,
    /// 4: the stored string is longer than the lent room.
    StringTooLong {
        /// The room's length.
        room: u16,
        /// The stored string's length.
        stored: u16,
    },
    /// 5: a field value that its type doesn't admit.
    Decode,
    /// 6: a list is over its limit.
    Capacity,
    /// 7: a word to write isn't wholly in the image.
    NotWritable,
    /// 8: `push_pdu` has no space.
    TooLong,
    /// 9: no port is active.
    NoPort,
    /// 10: a port number outside 0 to 3.
    BadPort,
    /// 11: a sum of delays exceeds 32 bits.
    Sum,
    /// 12: the frame reader's rule is broken.
    BadFrame,
    /// 13: no permitted cutting exists.
    NoRoom,
    /// 14: a size, command, category number or state outside its bounds.
    BadArgument,
    /// A number that this crate has no name for, as an archive that is newer than the crate may answer.
    Other(u8),
}

impl Refusal {
    /// The number by which a refusal is known.
    ///
    /// ```
    /// assert_eq!(morelbarrel::Refusal::NoRoom.number(), 13);
    /// ```
    pub fn number(&self) -> u8 {
        match self {
            Refusal::Address => 1,
            Refusal::Overrun => 2,
            Refusal::NoCategory => 3,
            Refusal::StringTooLong { .. } => 4,
            Refusal::Decode => 5,
            Refusal::Capacity => 6,
            Refusal::NotWritable => 7,
            Refusal::TooLong => 8,
            Refusal::NoPort => 9,
            Refusal::BadPort => 10,
            Refusal::Sum => 11,
            Refusal::BadFrame => 12,
            Refusal::NoRoom => 13,
            Refusal::BadArgument => 14,
            Refusal::Other(code) => *code,
        }
    }

    fn of(code: u8, row: &[u64]) -> Refusal {
        match code {
            1 => Refusal::Address,
            2 => Refusal::Overrun,
            3 => Refusal::NoCategory,
            4 => Refusal::StringTooLong { room: length(row, 0), stored: length(row, 1) },
            5 => Refusal::Decode,
            6 => Refusal::Capacity,
            7 => Refusal::NotWritable,
            8 => Refusal::TooLong,
            9 => Refusal::NoPort,
            10 => Refusal::BadPort,
            11 => Refusal::Sum,
            12 => Refusal::BadFrame,
            13 => Refusal::NoRoom,
            14 => Refusal::BadArgument,
            _ => Refusal::Other(code),
        }
    }
}

/// A length that refusal 4 has in the row.
fn length(row: &[u64], at: usize) -> u16 {
    row.get(at).map_or(0, |n| *n as u16)
}

impl fmt::Display for Refusal {
    fn fmt(&self, f: &mut fmt::Formatter<'_>) -> fmt::Result {
        match self {
            Refusal::StringTooLong { room, stored } => {
                write!(f, "refusal 4: a string of {stored} bytes for a room of {room}")
            }
            Refusal::Other(code) => write!(f, "refusal {code}"),
            other => write!(f, "refusal {}: {other:?}", other.number()),
        }
    }
}

impl Error for Refusal {}

/// What a code says that is never absent; `row` holds the two lengths of refusal 4.
pub(crate) fn done(code: u8, row: &[u64]) -> Result<(), Refusal> {
    match code {
        GIVES => Ok(()),
        code => Err(Refusal::of(code, row)),
    }
}

/// What a code says.
pub(crate) fn found(code: u8, row: &[u64]) -> Result<Option<()>, Refusal> {
    match code {
        ABSENT => Ok(None),
        code => done(code, row).map(Some),
    }
}

#[cfg(test)]
mod tests {
    use super::*;

    #[test]
    fn a_code_has_its_number() {
        for code in 1..=u8::MAX {
            assert_eq!(Refusal::of(code, &[7, 8]).number(), code);
        }
        assert_eq!(Refusal::of(4, &[7, 8]), Refusal::StringTooLong { room: 7, stored: 8 });
        assert_eq!(Refusal::of(14, &[]), Refusal::BadArgument);
    }

    #[test]
    fn an_unknown_code_is_an_error() {
        for code in 15..=254 {
            assert_eq!(done(code, &[]), Err(Refusal::Other(code)));
            assert_eq!(found(code, &[]), Err(Refusal::Other(code)));
        }
        assert_eq!(done(ABSENT, &[]), Err(Refusal::Other(255)));
        assert_eq!(found(ABSENT, &[]), Ok(None));
        assert_eq!(Refusal::Other(15).to_string(), "refusal 15");
    }

    #[test]
    fn a_row_without_lengths_has_none() {
        assert_eq!(Refusal::of(4, &[]), Refusal::StringTooLong { room: 0, stored: 0 });
    }
}

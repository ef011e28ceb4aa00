//! Why a call was refused: the reply numbers 1 to 9 of paper 01.

use core::error::Error;
use core::fmt;

/// A reply number other than 0. A refused call has changed no byte; where several refusals apply it is the lowest.
#[derive(Clone, Copy, Debug, PartialEq, Eq, Hash)]
#[repr(u8)]
pub enum Refusal {
    /// A wrong length; of the chip also: a ring of so many blocks cannot be, or the record is unsound.
    WrongLength = 1,
    /// No such register in that direction.
    NoRegister = 2,
    /// A value or an address is out of its range, or a subheader's form bit is not its kind's.
    OutOfRange = 3,
    /// Not now: a transfer runs, a packet is being received, or BSY is set.
    Barred = 4,
    /// The switches are not as the call needs them.
    Switches = 5,
    /// Fewer good blocks than asked for, or no full packet.
    TooFew = 6,
    /// A sector while DECEN is low.
    DecodingOff = 7,
    /// A sector after a bad one; take DECEN low first.
    Held = 8,
    /// A sector, and the ring is at its stop.
    NoRoom = 9,
}

impl Refusal {
    /// The reply number.
    pub const fn number(self) -> u8 {
        self as u8
    }

    /// The refusal of a reply number; none for 0, which is "done", and for numbers above 9.
    pub const fn from_number(number: u8) -> Option<Refusal> {
        Some(match number {
            1 => Refusal::WrongLength,
            2 => Refusal::NoRegister,
            3 => Refusal::OutOfRange,
            4 => Refusal::Barred,
            5 => Refusal::Switches,
            6 => Refusal::TooFew,
            7 => Refusal::DecodingOff,
            8 => Refusal::Held,
            9 => Refusal::NoRoom,
            _ => return None,
        })
    }
}

impl From<Refusal> for u8 {
    fn from(refusal: Refusal) -> u8 {
        refusal.number()
    }
}

/// The number is given back where it is no refusal's.
impl TryFrom<u8> for Refusal {
    type Error = u8;

    fn try_from(number: u8) -> Result<Refusal, u8> {
        Refusal::from_number(number).ok_or(number)
    }
}

impl fmt::Display for Refusal {
    fn fmt(&self, f: &mut fmt::Formatter<'_>) -> fmt::Result {
        let reason = match self {
            Refusal::WrongLength => "a length is wrong, or the chip's record is unsound",
            Refusal::NoRegister => "there is no such register in that direction",
            Refusal::OutOfRange => "a value or an address is out of its range, or a subheader is of another form",
            Refusal::Barred => "barred by a transfer, a packet reception or BSY",
            Refusal::Switches => "the switches are not as the call needs them",
            Refusal::TooFew => "fewer good blocks than asked for, or no full packet",
            Refusal::DecodingOff => "a sector while DECEN is low",
            Refusal::Held => "a sector after a bad one, DECEN not yet taken low",
            Refusal::NoRoom => "a sector, and the ring is at its stop",
        };
        write!(f, "refused, {}: {reason}", self.number())
    }
}

impl Error for Refusal {}

/// Takes an answer apart: the reply number is the low byte, the result's bits are above it. An answer that the
/// header does not list is a fault of the linked archive, and no refusal.
pub(crate) fn result_of(answer: u32) -> Result<u32, Refusal> {
    let [number, ..] = answer.to_le_bytes();
    match (Refusal::from_number(number), answer >> 8) {
        (None, result) if number == 0 => Ok(result),
        (Some(refusal), 0) => Err(refusal),
        _ => panic!("{answer:#010x} is no answer of cdrom.h"),
    }
}

/// The answer of a call that has no result.
pub(crate) fn done(answer: u32) -> Result<(), Refusal> {
    result_of(answer).map(|result| assert_eq!(result, 0, "a result where cdrom.h has none"))
}

#[cfg(test)]
mod tests {
    use super::*;
    use std::format;
    use std::string::ToString;

    #[test]
    fn answers_are_taken_apart() {
        assert_eq!(result_of(0), Ok(0));
        assert_eq!(result_of(0x4100), Ok(0x41));
        assert_eq!(result_of(0xFF_FF00), Ok(0xFFFF));
        assert_eq!(done(0), Ok(()));
        for number in 1..=9 {
            let refusal = Refusal::try_from(number).expect("1 to 9 are refusals");
            assert_eq!(result_of(number.into()), Err(refusal));
            assert_eq!(done(number.into()), Err(refusal));
            assert_eq!(u8::from(refusal), number);
            assert!(refusal.to_string().starts_with(&format!("refused, {number}: ")));
        }
    }

    #[test]
    fn other_numbers_are_no_refusals() {
        for number in (10..=255).chain([0]) {
            assert_eq!(Refusal::try_from(number), Err(number));
        }
    }

    #[test]
    #[should_panic(expected = "no answer")]
    fn a_refusal_with_a_result_is_a_fault() {
        let _ = result_of(0x0103);
    }

    #[test]
    #[should_panic(expected = "no answer")]
    fn a_number_above_9_is_a_fault() {
        let _ = result_of(10);
    }

    #[test]
    #[should_panic(expected = "cdrom.h has none")]
    fn a_result_where_there_is_none_is_a_fault() {
        let _ = done(0x0100);
    }
}

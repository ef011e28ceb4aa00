//! Addresses: minute, second and frame, on the disc in BCD.

/// Of a minute, of a second, and of all 100 minutes.
const SECONDS: u32 = 60;
const FRAMES: u32 = 75;
const ADDRESSES: u32 = 100 * SECONDS * FRAMES;

/// Parts are wider than a byte, so that a caller may ask about any number.
#[derive(Clone, Copy, Debug, PartialEq, Eq)]
pub struct Address {
    pub minute: u16,
    pub second: u16,
    pub frame: u16,
}

impl Address {
    pub const fn new(minute: u16, second: u16, frame: u16) -> Address {
        Address { minute, second, frame }
    }

    pub fn is_valid(self) -> bool {
        self.minute <= 99 && self.second <= 59 && self.frame <= 74
    }

    /// Bytes 12 to 14 of a sector. Only asked of valid addresses.
    pub fn bcd(self) -> [u8; 3] {
        [bcd(self.minute), bcd(self.second), bcd(self.frame)]
    }

    /// The address one frame on; the last of all is followed by the first. It is counted, so that no part has a carry
    /// of its own. Only asked of valid addresses.
    pub fn next(self) -> Address {
        Address::counted((self.frames() + 1) % ADDRESSES)
    }

    /// The frames from 00:00:00 to this one.
    fn frames(self) -> u32 {
        (self.minute as u32 * SECONDS + self.second as u32) * FRAMES + self.frame as u32
    }

    fn counted(frames: u32) -> Address {
        let (seconds, frame) = (frames / FRAMES, frames % FRAMES);
        Address::new((seconds / SECONDS) as u16, (seconds % SECONDS) as u16, frame as u16)
    }
}

fn bcd(number: u16) -> u8 {
    (number / 10 * 16 + number % 10) as u8
}

#[cfg(test)]
mod tests {
    use super::*;

    #[test]
    fn edges_of_the_range() {
        assert!(Address::new(99, 59, 74).is_valid());
        assert!(!Address::new(100, 0, 0).is_valid());
        assert!(!Address::new(0, 60, 0).is_valid());
        assert!(!Address::new(0, 0, 75).is_valid());
        assert!(!Address::new(65535, 65535, 65535).is_valid());
    }

    #[test]
    fn digits_become_nibbles() {
        assert_eq!(Address::new(99, 59, 74).bcd(), [0x99, 0x59, 0x74]);
        assert_eq!(Address::new(0, 2, 10).bcd(), [0x00, 0x02, 0x10]);
    }

    /// Decimal digits, read as hexadecimal ones.
    #[test]
    fn each_number_has_its_digits() {
        for number in 0..100 {
            let digits = u8::from_str_radix(&format!("{number:02}"), 16).unwrap();
            assert_eq!(Address::new(number, number, number).bcd(), [digits; 3]);
        }
    }

    #[test]
    fn next_carries_each_part() {
        let steps = [
            ((0, 0, 0), (0, 0, 1)),
            ((0, 0, 9), (0, 0, 10)),
            ((12, 59, 69), (12, 59, 70)),
            ((99, 59, 73), (99, 59, 74)),
            ((0, 2, 74), (0, 3, 0)),
            ((99, 58, 74), (99, 59, 0)),
            ((0, 59, 74), (1, 0, 0)),
            ((98, 59, 74), (99, 0, 0)),
            ((99, 59, 74), (0, 0, 0)),
        ];
        for ((minute, second, frame), (next_minute, next_second, next_frame)) in steps {
            let next = Address::new(minute, second, frame).next();
            assert_eq!(next, Address::new(next_minute, next_second, next_frame));
        }
    }

    #[test]
    fn next_visits_all_frames_once() {
        let start = Address::new(0, 0, 0);
        let mut address = start;
        for count in 0..100u32 * 60 * 75 {
            let (m, s, f) = (address.minute as u32, address.second as u32, address.frame as u32);
            assert_eq!((m * 60 + s) * 75 + f, count);
            address = address.next();
        }
        assert_eq!(address, start);
    }
}

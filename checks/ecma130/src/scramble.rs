//! The scrambling sequence, from the shift register of the standard.

pub const SEQUENCE_BYTES: usize = 2340;

static SEQUENCE: [u8; SEQUENCE_BYTES] = make_sequence();

/// A register of 15 bits holds s(n) in its lowest bit and s(n+14) in its
/// highest; each step takes out s(n) and feeds in s(n) XOR s(n+1).
const fn make_sequence() -> [u8; SEQUENCE_BYTES] {
    let mut sequence = [0; SEQUENCE_BYTES];
    let mut register = 1u16;
    let mut bit = 0;
    while bit < SEQUENCE_BYTES * 8 {
        sequence[bit / 8] |= ((register & 1) as u8) << (bit % 8);
        let feedback = (register ^ register >> 1) & 1;
        register = register >> 1 | feedback << 14;
        bit += 1;
    }
    sequence
}

pub fn sequence() -> &'static [u8; SEQUENCE_BYTES] {
    &SEQUENCE
}

/// Scrambles or descrambles: doing it twice gives the bytes back.
pub fn scramble(bytes: &mut [u8]) {
    for (byte, mask) in bytes.iter_mut().zip(&SEQUENCE) {
        *byte ^= mask;
    }
}

#[cfg(test)]
mod tests {
    use super::*;

    #[test]
    fn published_beginning() {
        let beginning =
            [0x01, 0x80, 0x00, 0x60, 0x00, 0x28, 0x00, 0x1E, 0x80, 0x08, 0x60, 0x06, 0xA8, 0x02, 0xFE, 0x81];
        assert_eq!(sequence()[..16], beginning);
    }

    #[test]
    fn recurrence_holds_in_every_bit() {
        let bit = |n: usize| sequence()[n / 8] >> (n % 8) & 1;
        assert_eq!(bit(0), 1);
        assert!((1..15).all(|n| bit(n) == 0));
        for n in 0..SEQUENCE_BYTES * 8 - 15 {
            assert_eq!(bit(n + 15), bit(n) ^ bit(n + 1));
        }
    }
}

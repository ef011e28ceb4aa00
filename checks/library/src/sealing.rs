//! What sealing by a kind is asked: kinds that there are and kinds that there are not, subheaders of either form,
//! lengths and addresses right and wrong.

use crate::sectors::any_subheader;
use ecma130::{Address, Kind, FORM_BIT, SECTOR_BYTES};
use model::Random;

/// The neighbours of the three, and numbers that are one of them when cut to a byte.
pub const UNKNOWN_KINDS: [u16; 9] = [0, 4, 255, 256, 257, 258, 259, 32769, 65535];

const WRONG_ADDRESSES: [Address; 4] =
    [Address::new(100, 0, 0), Address::new(0, 60, 0), Address::new(0, 0, 75), Address::new(256, 256, 256)];

#[derive(Clone, Copy, Debug, PartialEq, Eq)]
pub struct Sealing {
    pub length: usize,
    pub address: Address,
    pub kind: u16,
    pub subheader: [u8; 4],
}

impl Sealing {
    /// Mostly one that is done, if length and address are right; where the length is wrong, often all of it is.
    pub fn random(length: usize, address: Address, random: &mut Random) -> Sealing {
        let all_wrong = length != SECTOR_BYTES && random.one_in(2);
        let known = random.pick(&Kind::ALL);
        let mut subheader = any_subheader(known, random);
        if random.one_in(5) {
            subheader[2] ^= FORM_BIT;
        }
        let kind = if all_wrong || random.one_in(4) { random.pick(&UNKNOWN_KINDS) } else { known as u16 };
        let address = if all_wrong || random.one_in(12) { random.pick(&WRONG_ADDRESSES) } else { address };
        Sealing { length, address, kind, subheader }
    }

    pub fn has_form_bit(&self) -> bool {
        self.subheader[2] & FORM_BIT != 0
    }
}

//! Opened sectors to be judged, each with the facts that are known from how it was made: what the rules of
//! the three kinds turn on.

use crate::sectors::{any_subheader, ODD_MODES};
use ecma130::{edc_by_table, open, seal_xa, Address, Kind, FORM_BIT, SECOND_COPY, SECTOR_BYTES};
use model::Random;

const MODE_PLACE: usize = 15;
const FIRST_SUBMODE: usize = 18;
const SECOND_SUBMODE: usize = 22;

/// What is made of a sector that was sealed and opened, and what fails of it.
#[derive(Clone, Copy)]
pub struct Making {
    pub name: &'static str,
    kind: Kind,
    pub why: u32,
    change: fn(&mut Vec<u8>, &mut Random),
}

const fn making(kind: Kind, name: &'static str, why: u32, change: fn(&mut Vec<u8>, &mut Random)) -> Making {
    Making { name, kind, why, change }
}

pub const MAKINGS: [Making; 35] = [
    making(Kind::Mode1, "as it was sealed", 0, |_, _| ()),
    making(Kind::Mode1, "with a wrong sync byte", 10, |s, r| spoil(s, 0, 11, r)),
    making(Kind::Mode1, "with a wrong byte of the address", 3, |s, r| spoil(s, 12, 14, r)),
    making(Kind::Mode1, "of another mode", 6, |s, r| s[MODE_PLACE] = r.pick(&ODD_MODES)),
    making(Kind::Mode1, "of another mode under a fitting code", 4, |s, r| {
        s[MODE_PLACE] = r.pick(&ODD_MODES);
        fit_code(s, Kind::Mode1);
    }),
    making(Kind::Mode1, "with a code of zeros", 2, |s, _| s[Kind::Mode1.code()].fill(0)),
    making(Kind::Mode1, "with the code of form 1 over its bytes", 2, |s, _| {
        let code = edc_by_table(&s[16..2064]);
        s[Kind::Mode1.code()].copy_from_slice(&code.to_le_bytes());
    }),
    making(Kind::Mode1, "that became form 2 without a code", 0, |s, r| {
        become_form_2(s, r);
        s[Kind::Form2.code()].fill(0);
    }),
    making(Kind::Mode1, "that became form 2 with three zeros for a code", 2, |s, r| {
        become_form_2(s, r);
        s[Kind::Form2.code()].fill(0);
        spoil(s, 2348, 2351, r);
    }),
    making(Kind::Form1, "of form 1 as it was sealed", 0, |_, _| ()),
    making(Kind::Form1, "of form 1 with other parity", 0, |s, r| s[2076..].copy_from_slice(&r.bytes(276))),
    making(Kind::Form1, "of form 1 with a wrong sync byte", 8, |s, r| spoil(s, 0, 11, r)),
    making(Kind::Form1, "of form 1 with a wrong byte of the address", 1, |s, r| spoil(s, 12, 14, r)),
    making(Kind::Form1, "of form 1 with a wrong last user byte", 2, |s, r| spoil(s, 2071, 2071, r)),
    making(Kind::Form1, "of form 1 with a wrong byte of the code", 2, |s, r| spoil(s, 2072, 2075, r)),
    making(Kind::Form1, "of form 1 with a code of zeros", 2, |s, _| s[Kind::Form1.code()].fill(0)),
    making(Kind::Form1, "of form 1 with a code from byte 0 on", 2, |s, _| {
        let code = edc_by_table(&s[..2072]);
        s[Kind::Form1.code()].copy_from_slice(&code.to_le_bytes());
    }),
    making(Kind::Form1, "of form 1 with another second copy", 6, |s, r| spoil(s, 20, 23, r)),
    making(Kind::Form1, "of form 1 with another second copy under a fitting code", 4, |s, r| {
        spoil(s, 20, 23, r);
        fit_code(s, Kind::Form1);
    }),
    making(Kind::Form1, "of form 1 by the first copy alone", 4, |s, _| {
        s[SECOND_SUBMODE] |= FORM_BIT;
        fit_code(s, Kind::Form1);
    }),
    making(Kind::Form1, "of form 1 as another mode", 6, |s, r| s[MODE_PLACE] = r.pick(&ODD_MODES)),
    making(Kind::Form1, "of form 1 as mode 1", 2, |s, _| s[MODE_PLACE] = 1),
    making(Kind::Form2, "of form 2 as it was sealed", 0, |_, _| ()),
    making(Kind::Form2, "of form 2 with a wrong sync byte", 8, |s, r| spoil(s, 0, 11, r)),
    making(Kind::Form2, "of form 2 with a wrong byte of the address", 1, |s, r| spoil(s, 12, 14, r)),
    making(Kind::Form2, "of form 2 with a wrong last user byte", 2, |s, r| spoil(s, 2347, 2347, r)),
    making(Kind::Form2, "of form 2 with a wrong byte of the code", 2, |s, r| spoil(s, 2348, 2351, r)),
    making(Kind::Form2, "of form 2 without a code", 0, |s, r| {
        s[Kind::Form2.code()].fill(0);
        spoil(s, 24, 2347, r);
    }),
    making(Kind::Form2, "of form 2 without a code, the copies unequal", 4, |s, r| {
        s[Kind::Form2.code()].fill(0);
        spoil(s, 20, 23, r);
    }),
    making(Kind::Form2, "of form 2 with a code from byte 0 on", 2, |s, _| {
        let code = edc_by_table(&s[..2348]);
        s[Kind::Form2.code()].copy_from_slice(&code.to_le_bytes());
    }),
    making(Kind::Form2, "of form 2 with another second copy", 6, |s, r| spoil(s, 20, 23, r)),
    making(Kind::Form2, "of form 2 by the first copy alone", 4, |s, _| {
        s[SECOND_SUBMODE] &= !FORM_BIT;
        fit_code(s, Kind::Form2);
    }),
    making(Kind::Form2, "of form 2 by the second copy alone", 4, |s, _| {
        s[FIRST_SUBMODE] &= !FORM_BIT;
        fit_code(s, Kind::Form1);
    }),
    making(Kind::Form2, "of form 2 without a code as another mode", 6, |s, r| {
        s[Kind::Form2.code()].fill(0);
        s[MODE_PLACE] = r.pick(&ODD_MODES);
    }),
    making(Kind::Form2, "of form 2 as mode 1 under its code", 0, |s, _| {
        s[MODE_PLACE] = 1;
        fit_code(s, Kind::Mode1);
    }),
];

impl Making {
    /// At an address that is valid.
    pub fn make(&self, address: Address, random: &mut Random) -> Vec<u8> {
        let (mut sector, subheader) = (random.bytes(SECTOR_BYTES), any_subheader(self.kind, random));
        seal_xa(&mut sector, address, self.kind as u16, subheader).expect("all of it is right");
        open(&mut sector).expect("the length is right");
        (self.change)(&mut sector, random);
        sector
    }
}

/// One byte from the first of these places to the last becomes another.
fn spoil(sector: &mut [u8], first: u16, last: u16, random: &mut Random) {
    sector[random.between(first, last) as usize] ^= random.between(1, 255) as u8;
}

fn fit_code(sector: &mut [u8], kind: Kind) {
    let code = edc_by_table(&sector[kind.covered()]);
    sector[kind.code()].copy_from_slice(&code.to_le_bytes());
}

/// Its first user bytes are those of a subheader, twice.
fn become_form_2(sector: &mut [u8], random: &mut Random) {
    let subheader = any_subheader(Kind::Form2, random);
    sector[16..20].copy_from_slice(&subheader);
    sector[SECOND_COPY].copy_from_slice(&subheader);
    sector[MODE_PLACE] = 2;
}

#[cfg(test)]
mod tests {
    use super::*;
    use ecma130::judge;

    const ADDRESS: Address = Address::new(45, 6, 70);

    #[test]
    fn each_making_is_judged_as_it_says() {
        let mut random = Random::new(1);
        for making in MAKINGS.iter().cycle().take(MAKINGS.len() * 100) {
            let sector = making.make(ADDRESS, &mut random);
            let facts = judge(&sector, ADDRESS).expect("length and address are right");
            assert_eq!(facts.why() as u32, making.why, "{}", making.name);
        }
    }
}

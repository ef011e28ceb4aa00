//! Sectors as they come from the disc, of each kind, good and damaged. Each damage can come
//! alone: the code is made to fit whatever else was changed, unless the code
//! itself is to be wrong.

use ecma130::{edc_by_table, scramble, write_parity_of, Address, Kind};
use ecma130::{FIRST_COPY, FORM_BIT, P_PARITY_START, SECOND_COPY, SECTOR_BYTES, SYNC};
use model::{Random, BLOCK_BYTES};

const HEADER_START: usize = 12;
const MODE_PLACE: usize = 15;
const SUBMODE: usize = 2;

/// A length that is right where only its low sixteen bits are looked at.
pub const CUT_TO_FIT: usize = SECTOR_BYTES + 65536;

pub const WRONG_LENGTHS: [usize; 9] =
    [0, 1, 2340, SECTOR_BYTES - 1, SECTOR_BYTES + 1, 2448, BLOCK_BYTES, 4704, CUT_TO_FIT];

/// Mode bytes that are neither 1 nor 2.
pub const ODD_MODES: [u8; 6] = [0, 3, 0x12, 0x81, 0x82, 0xFF];

/// What is wrong with a sector.
#[derive(Clone, Copy, Debug, Default, PartialEq, Eq)]
pub struct Damage {
    pub sync: bool,
    /// In mode 1 another mode byte, in mode 2 a subheader that is not the same twice.
    pub mode: bool,
    /// A user byte or the code was changed after the code was taken.
    pub code: bool,
    pub address: bool,
    /// The zeros behind the code of mode 1, which no one judges.
    pub zeros: bool,
    /// Nor is the parity judged. Without this damage it is that of all the bytes before it, damaged or not. Form 2 has none.
    pub parity: bool,
    /// In form 2 zeros in the place of the code: none was written. Not where the code is to be wrong.
    pub without_code: bool,
    /// At last a byte was changed that tells the kind, so that all else may be right or wrong by another rule.
    pub rule: bool,
}

/// A sector by its description; the bytes that it leaves open are random.
#[derive(Clone, Copy, Debug, PartialEq, Eq)]
pub struct Sector {
    pub length: usize,
    pub address: Address,
    pub kind: Kind,
    pub damage: Damage,
}

impl Damage {
    /// Any mixture of kinds, at least one of them judged, or another rule.
    pub fn random(random: &mut Random) -> Damage {
        if random.one_in(10) {
            return Damage { rule: true, ..Damage::default().with_unjudged(2, random) };
        }
        let rule = random.one_in(16);
        Damage { rule, ..Damage::of_why(random.between(1, 15)).with_unjudged(2, random) }
    }

    /// One kind alone.
    pub fn single(random: &mut Random) -> Damage {
        Damage::of_why(random.pick(&[1, 2, 4, 8])).with_unjudged(2, random)
    }

    /// None that is judged.
    pub fn unjudged(random: &mut Random) -> Damage {
        Damage::default().with_unjudged(8, random)
    }

    /// By the weights of the kinds.
    fn of_why(why: u16) -> Damage {
        let has = |weight: u16| why & weight != 0;
        Damage { sync: has(8), mode: has(4), code: has(2), address: has(1), ..Damage::default() }
    }

    /// With each of the kinds that are not judged once in so many times.
    fn with_unjudged(self, times: u64, random: &mut Random) -> Damage {
        let without_code = !self.code && random.one_in(4);
        Damage { zeros: random.one_in(times), parity: random.one_in(times), without_code, ..self }
    }

    /// Where the rule is another one this says nothing.
    pub fn is_judged(self) -> bool {
        self.sync || self.mode || self.code || self.address
    }

    /// What judging must tell of it, by paper 02: sync 8, mode 4, EDC 2, address 1.
    pub fn why(self) -> u32 {
        let kinds = [(self.sync, 8), (self.mode, 4), (self.code, 2), (self.address, 1)];
        kinds.iter().map(|&(kind, weight)| kind as u32 * weight).sum()
    }

    /// What register 80h must show of it, by paper 01.
    pub fn bits(self) -> u32 {
        ((self.sync || self.mode || self.code) as u32) << 6 | self.address as u32
    }
}

impl Sector {
    pub fn good(address: Address) -> Sector {
        Sector { length: SECTOR_BYTES, address, kind: Kind::Mode1, damage: Damage::default() }
    }

    /// Whether its damage tells what judging must tell, where this address is expected.
    pub fn is_known(&self, expected: Address) -> bool {
        self.address == expected && !self.damage.rule
    }

    /// The bytes from the disc, scrambled. The address is a valid one.
    pub fn make(&self, random: &mut Random) -> Vec<u8> {
        let (kind, damage) = (self.kind, self.damage);
        let mut bytes = random.bytes(SECTOR_BYTES);
        self.write_header(&mut bytes, random);
        let code = edc_by_table(&bytes[kind.covered()]);
        bytes[kind.code()].copy_from_slice(&code.to_le_bytes());
        if damage.code {
            spoil_code(&mut bytes, kind, random);
        } else if damage.without_code && kind == Kind::Form2 {
            bytes[kind.code()].fill(0);
        }
        if kind.has_parity() && !damage.zeros {
            bytes[kind.code().end..P_PARITY_START].fill(0);
        }
        if !damage.parity {
            write_parity_of(&mut bytes, kind);
        }
        if damage.rule {
            change_rule(&mut bytes, random);
        }
        scramble(&mut bytes[HEADER_START..]);
        resized(bytes, self.length, random)
    }

    /// Sync, address, mode and the subheader twice, damaged or not.
    fn write_header(&self, bytes: &mut [u8], random: &mut Random) {
        bytes[..HEADER_START].copy_from_slice(&SYNC);
        bytes[HEADER_START..MODE_PLACE].copy_from_slice(&self.address.bcd());
        bytes[MODE_PLACE] = self.kind.mode_byte();
        if self.kind.has_subheader() {
            let subheader = any_subheader(self.kind, random);
            bytes[FIRST_COPY].copy_from_slice(&subheader);
            bytes[SECOND_COPY].copy_from_slice(&subheader);
        }
        if self.damage.sync {
            flip_one_of(&mut bytes[..HEADER_START], random);
        }
        if self.damage.mode {
            self.spoil_mode(bytes, random);
        }
        if self.damage.address && random.one_in(2) {
            bytes[HEADER_START..MODE_PLACE].copy_from_slice(&self.address.next().bcd());
        } else if self.damage.address {
            flip_one_of(&mut bytes[HEADER_START..MODE_PLACE], random);
        }
    }

    /// In mode 2 in either copy. The first copy keeps its form, and the second one may lose it.
    fn spoil_mode(&self, bytes: &mut [u8], random: &mut Random) {
        if !self.kind.has_subheader() {
            bytes[MODE_PLACE] = random.pick(&ODD_MODES);
        } else if random.one_in(3) {
            bytes[SECOND_COPY.start + SUBMODE] ^= FORM_BIT;
        } else if random.one_in(2) {
            flip_one_of(&mut bytes[SECOND_COPY], random);
        } else {
            let place = random.pick(&[16, 17, 19]);
            bytes[place] ^= random.between(1, 255) as u8;
        }
    }
}

/// Of a subheader that agrees with the kind. To mode 1 every one does.
pub fn any_subheader(kind: Kind, random: &mut Random) -> [u8; 4] {
    let mut subheader = [0; 4].map(|_: u8| random.below(256) as u8);
    if !kind.agrees_with(subheader) {
        subheader[SUBMODE] ^= FORM_BIT;
    }
    subheader
}

/// A bit that the code covers or has, or zeros in its place: in form 2 all but one, since four are no code.
fn spoil_code(bytes: &mut [u8], kind: Kind, random: &mut Random) {
    if !random.one_in(3) {
        return flip_one_of(&mut bytes[kind.user().start..kind.code().end], random);
    }
    bytes[kind.code()].fill(0);
    if kind == Kind::Form2 {
        flip_one_of(&mut bytes[kind.code()], random);
    }
}

/// Another mode byte or another form, and at times the other copy with it.
fn change_rule(bytes: &mut [u8], random: &mut Random) {
    match random.below(4) {
        0 => bytes[MODE_PLACE] = random.pick(&[0, 1, 2, 3, 255]),
        1 => bytes[MODE_PLACE] ^= 3,
        2 => bytes[FIRST_COPY.start + SUBMODE] ^= FORM_BIT,
        _ => {
            bytes[FIRST_COPY.start + SUBMODE] ^= FORM_BIT;
            bytes[SECOND_COPY.start + SUBMODE] ^= FORM_BIT;
        }
    }
}

fn flip_one_of(bytes: &mut [u8], random: &mut Random) {
    let place = random.below(bytes.len() as u64) as usize;
    bytes[place] ^= 1 << random.below(8);
}

fn resized(mut bytes: Vec<u8>, length: usize, random: &mut Random) -> Vec<u8> {
    if length > bytes.len() {
        bytes.extend(random.bytes(length - SECTOR_BYTES));
    }
    bytes.truncate(length);
    bytes
}

#[cfg(test)]
mod tests {
    use super::*;
    use ecma130::{judge, open, parity_holds};

    const ADDRESS: Address = Address::new(12, 59, 74);

    #[test]
    fn each_mixture_is_judged_as_it_was_made() {
        let mut random = Random::new(1);
        let mixtures = Kind::ALL.into_iter().flat_map(|kind| (0..16).map(move |why| (kind, why)));
        for (kind, why) in mixtures.cycle().take(48 * 100) {
            let damage = Damage::of_why(why).with_unjudged(2, &mut random);
            let mut bytes = Sector { damage, kind, ..Sector::good(ADDRESS) }.make(&mut random);
            open(&mut bytes).expect("its length is right");
            let facts = judge(&bytes, ADDRESS).expect("length and address are right");
            assert_eq!((facts.why() as u32, facts.bits() as u32), (damage.why(), damage.bits()), "{damage:?}");
            assert_eq!((facts.why() as u16, facts.is_good()), (why, !damage.is_judged()));
            assert_eq!(parity_holds(&bytes), Ok(kind == Kind::Form2 || !damage.parity), "{kind:?} {damage:?}");
        }
    }

    #[test]
    fn a_changed_rule_is_another_one_or_sets_the_mode() {
        let mut random = Random::new(3);
        for kind in Kind::ALL.into_iter().cycle().take(300) {
            let damage = Damage { rule: true, ..Damage::default() };
            let mut bytes = Sector { damage, kind, ..Sector::good(ADDRESS) }.make(&mut random);
            open(&mut bytes).expect("its length is right");
            let is_same = Kind::of_sector(&bytes) == kind && bytes[MODE_PLACE] == kind.mode_byte();
            let facts = judge(&bytes, ADDRESS).expect("length and address are right");
            assert!(!is_same || kind == Kind::Mode1 || facts.is_good(), "{kind:?} {facts:?}");
        }
    }

    #[test]
    fn other_lengths() {
        let mut random = Random::new(2);
        for length in [0, 1, 2351, 2353, 4704] {
            assert_eq!(Sector { length, ..Sector::good(ADDRESS) }.make(&mut random).len(), length);
        }
    }
}

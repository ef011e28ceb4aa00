//! The library and the independent code side by side: each function calls
//! both on the same bytes, compares answers and bytes, and hands on what both
//! answered.

use cdrom::{Facts, Refusal};
use ecma130::Address;
use model::Random;

pub const GOOD: Facts = Facts { sync: false, mode: false, edc: false, address: false };

pub fn seal(sector: &mut [u8], address: Address) -> Result<(), Refusal> {
    let mut other = sector.to_vec();
    let answer = cdrom::seal(sector, lent(address));
    assert_eq!(answer, ecma130::seal(&mut other, address).map_err(refusal), "{address:?}");
    assert_eq!(sector, other, "{address:?}");
    answer
}

pub fn open(sector: &mut [u8]) -> Result<(), Refusal> {
    let mut other = sector.to_vec();
    let answer = cdrom::open(sector);
    assert_eq!(answer, ecma130::open(&mut other).map_err(refusal));
    assert_eq!(sector, other);
    answer
}

/// `why` is compared too: each side has its weights written apart.
pub fn judge(sector: &[u8], expected: Address) -> Result<Facts, Refusal> {
    let (answer, other) = (cdrom::judge(sector, lent(expected)), ecma130::judge(sector, expected));
    assert_eq!(answer, other.map(facts).map_err(refusal), "{expected:?}");
    assert_eq!(answer.map(Facts::why).ok(), other.map(ecma130::Facts::why).ok(), "{expected:?}");
    answer
}

pub fn parity(sector: &[u8]) -> Result<bool, Refusal> {
    let answer = cdrom::parity(sector);
    assert_eq!(answer, ecma130::parity_holds(sector).map_err(refusal));
    answer
}

pub fn valid_address(random: &mut Random) -> Address {
    Address::new(random.between(0, 99), random.between(0, 59), random.between(0, 74))
}

fn lent(address: Address) -> cdrom::Address {
    cdrom::Address { minute: address.minute, second: address.second, frame: address.frame }
}

fn facts(facts: ecma130::Facts) -> Facts {
    let ecma130::Facts { sync, mode, edc, address } = facts;
    Facts { sync, mode, edc, address }
}

fn refusal(refusal: ecma130::Refusal) -> Refusal {
    match refusal {
        ecma130::Refusal::WrongLength => Refusal::WrongLength,
        ecma130::Refusal::BadAddress | ecma130::Refusal::UnknownKind | ecma130::Refusal::OtherForm => {
            Refusal::OutOfRange
        }
    }
}

//! The P and Q parity of Annex A, over the field of 256 elements.
//!
//! The symbols of a word are the coefficients of a polynomial, the first that of the
//! highest power, and a word holds when the elements 1 and x are roots of it. Parity is
//! written by long division: it is the remainder by (z+1)(z+x). It is checked by another
//! way, by the sums that are the values at the two roots.

use crate::sector::{check_length, HEADER_START};
use crate::{Kind, Refusal};

pub const P_PARITY_START: usize = 2076;
pub const Q_PARITY_START: usize = 2248;

const P_WORDS: usize = 43;
const P_SYMBOLS: usize = 26;
const Q_WORDS: usize = 26;
const Q_SYMBOLS: usize = 45;
/// The Q words cover all that the P words hold.
const Q_COVERED: usize = P_WORDS * P_SYMBOLS;

/// x^8 + x^4 + x^3 + x^2 + 1, without its first term.
const FIELD_REST: u8 = 0x1D;

/// For each word the places of its symbols in one plane. Those of the other are each one byte on.
static P_PLACES: [[u16; P_SYMBOLS]; P_WORDS] = make_p_places();
static Q_PLACES: [[u16; Q_SYMBOLS]; Q_WORDS] = make_q_places();

/// Each element times the generator's coefficients behind its first: 3 in the high byte, 2 in the low one.
static MULTIPLES: [u16; 256] = make_multiples();

/// Each power of x times each element.
static PRODUCTS: [[u8; 256]; Q_SYMBOLS] = make_products();

/// Where S(n) stands.
const fn place(n: usize) -> u16 {
    (HEADER_START + 2 * n) as u16
}

const fn make_p_places() -> [[u16; P_SYMBOLS]; P_WORDS] {
    let mut places = [[0; P_SYMBOLS]; P_WORDS];
    let mut n = 0;
    while n < P_WORDS * P_SYMBOLS {
        places[n % P_WORDS][n / P_WORDS] = place(n);
        n += 1;
    }
    places
}

const fn make_q_places() -> [[u16; Q_SYMBOLS]; Q_WORDS] {
    let mut places = [[0; Q_SYMBOLS]; Q_WORDS];
    let mut n = 0;
    while n < Q_WORDS {
        let mut m = 0;
        while m < Q_SYMBOLS - 2 {
            places[n][m] = place((44 * m + 43 * n) % Q_COVERED);
            m += 1;
        }
        places[n][m] = place(Q_COVERED + n);
        places[n][m + 1] = place(Q_COVERED + Q_WORDS + n);
        n += 1;
    }
    places
}

const fn times_x(element: u8) -> u8 {
    let carry = element >> 7;
    (element << 1) ^ (carry * FIELD_REST)
}

const fn make_multiples() -> [u16; 256] {
    let mut multiples = [0; 256];
    let mut element = 0;
    while element < 256 {
        let twice = times_x(element as u8);
        multiples[element] = u16::from_be_bytes([twice ^ element as u8, twice]);
        element += 1;
    }
    multiples
}

const fn make_products() -> [[u8; 256]; Q_SYMBOLS] {
    let mut products = [[0; 256]; Q_SYMBOLS];
    let mut element = 0;
    while element < 256 {
        products[0][element] = element as u8;
        let mut power = 1;
        while power < Q_SYMBOLS {
            products[power][element] = times_x(products[power - 1][element]);
            power += 1;
        }
        element += 1;
    }
    products
}

/// Fills bytes 2,076 to 2,351 of a sector that is not scrambled: P first, since Q covers it.
pub fn write_parity(sector: &mut [u8]) -> Result<(), Refusal> {
    check_length(sector)?;
    P_PLACES.iter().for_each(|places| write_word(sector, places));
    write_q_parity(sector)
}

/// The Q parity alone: so a sector is made in which the P words that were spoiled fail and no Q word does.
pub fn write_q_parity(sector: &mut [u8]) -> Result<(), Refusal> {
    check_length(sector)?;
    Q_PLACES.iter().for_each(|places| write_word(sector, places));
    Ok(())
}

/// In both planes side by side.
fn write_word(sector: &mut [u8], places: &[u16]) {
    let (covered, parity) = places.split_at(places.len() - 2);
    let (mut even, mut odd) = (0, 0);
    for place in covered.iter().map(|&place| place as usize) {
        even = divide(even, sector[place]);
        odd = divide(odd, sector[place + 1]);
    }
    for (&place, symbols) in parity.iter().zip([[even >> 8, odd >> 8], [even, odd]]) {
        sector[place as usize..][..2].copy_from_slice(&symbols.map(|symbol| symbol as u8));
    }
}

/// A step of the long division by the generator: the remainder, two symbols, with the next one brought down.
fn divide(remainder: u16, symbol: u8) -> u16 {
    let quotient = (remainder >> 8) as u8 ^ symbol;
    remainder << 8 ^ MULTIPLES[quotient as usize]
}

/// The parity that a sector of this kind has, if it has any. In form 1 it is that of a header of zeros, which
/// the sector does not have, so that the header is taken out and put back. The length is a sector's.
pub fn write_parity_of(sector: &mut [u8], kind: Kind) {
    if !kind.has_parity() {
        return;
    }
    let header = sector[kind.taken_as_zero()].to_vec();
    sector[kind.taken_as_zero()].fill(0);
    write_parity(sector).expect("the caller has seen to the length");
    sector[kind.taken_as_zero()].copy_from_slice(&header);
}

/// Whether every word of a descrambled sector holds, by the kind that it says it is. Form 2 has no words.
pub fn parity_holds(sector: &[u8]) -> Result<bool, Refusal> {
    check_length(sector)?;
    words_hold(sector, Kind::of_sector(sector))
}

/// The same by the rule of a kind, whatever the sector says.
pub fn words_hold(sector: &[u8], kind: Kind) -> Result<bool, Refusal> {
    check_length(sector)?;
    let mut counted = sector.to_vec();
    counted[kind.taken_as_zero()].fill(0);
    let all_hold = || {
        let p_holds = P_PLACES.iter().all(|places| word_holds(&counted, places));
        p_holds && Q_PLACES.iter().all(|places| word_holds(&counted, places))
    };
    Ok(!kind.has_parity() || all_hold())
}

/// By its syndromes in both planes: the sum of the symbols, and their sum weighted by powers of x, where the
/// last one has power 0.
fn word_holds(sector: &[u8], places: &[u16]) -> bool {
    let (mut sums, mut weighted_sums) = ([0; 2], [0; 2]);
    for (&place, products) in places.iter().rev().zip(&PRODUCTS) {
        for plane in 0..2 {
            let symbol = sector[place as usize + plane];
            sums[plane] ^= symbol;
            weighted_sums[plane] ^= products[symbol as usize];
        }
    }
    sums == [0, 0] && weighted_sums == [0, 0]
}

#[cfg(test)]
mod tests {
    use super::*;
    use crate::{open, seal, Address, SECTOR_BYTES, USER_START};

    const DAMAGES: [u8; 3] = [0x01, 0x80, 0xFF];

    /// Polynomials multiplied bit by bit and then reduced from the highest power down.
    fn product(one: u8, other: u8) -> u8 {
        let terms = (0..8).map(|bit| (other as u16 >> bit & 1) * ((one as u16) << bit));
        let unreduced = terms.fold(0, |sum, term| sum ^ term);
        let reduced = (8..16).rev().fold(unreduced, |rest, bit| rest ^ ((rest >> bit & 1) * (0x11D << (bit - 8))));
        reduced as u8
    }

    fn opened_sector(step: usize) -> Vec<u8> {
        let mut sector: Vec<u8> = (0..SECTOR_BYTES).map(|place| (place * step / 3) as u8).collect();
        seal(&mut sector, Address::new(12, 34, 56)).unwrap();
        open(&mut sector).unwrap();
        sector
    }

    fn holds(sector: &[u8]) -> bool {
        words_hold(sector, Kind::Mode1).unwrap()
    }

    #[test]
    fn x_has_all_elements_but_0_as_its_powers() {
        let powers: Vec<u8> = std::iter::successors(Some(1), |&power| Some(times_x(power))).take(256).collect();
        assert_eq!((powers[8], powers[25], powers[255]), (0x1D, 3, 1));
        assert!((1..255).all(|power| powers[power] != 1));
    }

    #[test]
    fn tables_are_products_in_the_field() {
        let mut power = 1;
        for products in PRODUCTS {
            assert!((0..=255).all(|element| products[element as usize] == product(element, power)));
            power = product(power, 2);
        }
        for element in 0..=255 {
            assert_eq!(MULTIPLES[element as usize].to_be_bytes(), [product(element, 3), product(element, 2)]);
        }
    }

    /// In z^2 + 3z + 2 both are 0.
    #[test]
    fn roots_of_the_generator_are_1_and_x() {
        let value = |z| product(z, z) ^ product(3, z) ^ 2;
        assert_eq!((value(1), value(2)), (0, 0));
    }

    #[test]
    fn words_stand_where_the_standard_has_them() {
        assert_eq!([P_PLACES[0][0], P_PLACES[0][1], P_PLACES[0][24], P_PLACES[42][25]], [12, 98, 2076, 2246]);
        assert_eq!([Q_PLACES[0][0], Q_PLACES[0][1], Q_PLACES[1][0], Q_PLACES[1][42]], [12, 100, 98, 1558]);
        assert_eq!([Q_PLACES[0][43], Q_PLACES[0][44], Q_PLACES[25][44]], [2248, 2300, 2350]);
    }

    #[test]
    fn each_symbol_is_in_one_p_word_and_one_q_word() {
        let sorted = |mut places: Vec<u16>| {
            places.sort_unstable();
            places
        };
        assert!(sorted(P_PLACES.concat()).into_iter().eq((12..2248).step_by(2)));
        assert!(sorted(Q_PLACES.concat()).into_iter().eq((12..2352).step_by(2)));
    }

    /// The generator itself is the word of a 1 before the parity.
    #[test]
    fn the_word_of_a_last_symbol() {
        let mut sector = vec![0; SECTOR_BYTES];
        let [.., last, first_parity, last_parity] = P_PLACES[5].map(|place| place as usize + 1);
        sector[last] = 1;
        write_parity(&mut sector).unwrap();
        assert_eq!((sector[first_parity], sector[last_parity]), (3, 2));
    }

    /// The first symbol has the highest power, 25: so the parity symbols a and b have a + b = 1 and ax + b = x^25.
    #[test]
    fn the_word_of_a_first_symbol() {
        let mut sector = vec![0; SECTOR_BYTES];
        let [first, .., first_parity, last_parity] = P_PLACES[5].map(usize::from);
        sector[first] = 1;
        write_parity(&mut sector).unwrap();
        let (a, b) = (sector[first_parity], sector[last_parity]);
        assert_eq!((a ^ b, product(a, 2) ^ b), (1, 3));
    }

    #[test]
    fn a_sector_of_zeros_holds() {
        let mut sector = vec![0; SECTOR_BYTES];
        assert!(holds(&sector));
        write_parity(&mut sector).unwrap();
        assert_eq!(sector, [0; SECTOR_BYTES]);
    }

    #[test]
    fn a_wrong_byte_is_seen_wherever_a_word_has_it() {
        let mut sector = opened_sector(5);
        assert!(holds(&sector));
        for (place, damage) in (0..SECTOR_BYTES).flat_map(|place| DAMAGES.map(|damage| (place, damage))) {
            sector[place] ^= damage;
            assert_eq!(holds(&sector), place < HEADER_START, "byte {place}");
            sector[place] ^= damage;
        }
    }

    /// Every byte that a P word has, with Q made to fit. A wrong byte alone would be seen by its Q word too.
    #[test]
    fn p_words_are_seen_where_no_q_word_fails() {
        let sector = opened_sector(7);
        for place in HEADER_START..Q_PARITY_START {
            let mut damaged = sector.clone();
            damaged[place] ^= 0x10;
            write_q_parity(&mut damaged).unwrap();
            assert!(!holds(&damaged), "byte {place}");
        }
    }

    /// The generator added to a word's first three symbols: that word holds still.
    fn with_generator(mut sector: Vec<u8>, places: &[u16]) -> Vec<u8> {
        for (&place, coefficient) in places.iter().zip([1, 3, 2]) {
            sector[place as usize] ^= coefficient;
        }
        sector
    }

    fn fails<const SYMBOLS: usize>(sector: &[u8], words: &[[u16; SYMBOLS]]) -> bool {
        words.iter().any(|places| !word_holds(sector, places))
    }

    #[test]
    fn words_of_one_kind_are_seen_where_none_of_the_other_fails() {
        let sector = opened_sector(11);
        for places in P_PLACES {
            let damaged = with_generator(sector.clone(), &places);
            assert!(!fails(&damaged, &P_PLACES) && fails(&damaged, &Q_PLACES) && !holds(&damaged));
        }
        for places in Q_PLACES {
            let damaged = with_generator(sector.clone(), &places);
            assert!(fails(&damaged, &P_PLACES) && !fails(&damaged, &Q_PLACES) && !holds(&damaged));
        }
    }

    /// Also with a mode byte of 0, which this sum has.
    #[test]
    fn the_sum_of_two_sectors_holds() {
        let (one, other) = (opened_sector(5), opened_sector(13));
        let sum: Vec<u8> = one.iter().zip(&other).map(|(one, other)| one ^ other).collect();
        assert!(holds(&sum));
        assert_eq!(sum[15], 0);
    }

    #[test]
    fn a_header_that_is_taken_as_zero_does_not_matter() {
        let mut sector = opened_sector(17);
        sector[HEADER_START..USER_START].fill(0);
        write_parity(&mut sector).unwrap();
        assert!(holds(&sector));
        for (place, damage) in (HEADER_START..SECTOR_BYTES).flat_map(|place| DAMAGES.map(|damage| (place, damage))) {
            sector[place] ^= damage;
            assert_eq!(words_hold(&sector, Kind::Form1), Ok(place < USER_START), "byte {place}");
            assert!(!holds(&sector), "byte {place}");
            sector[place] ^= damage;
        }
    }

    #[test]
    fn wrong_lengths_are_refused() {
        for length in [0, 1, 12, 2340, 2351, 2353, 2560, 4704] {
            let mut bytes = vec![3; length];
            assert_eq!(write_parity(&mut bytes), Err(Refusal::WrongLength));
            assert_eq!(write_q_parity(&mut bytes), Err(Refusal::WrongLength));
            assert_eq!(Kind::ALL.map(|kind| words_hold(&bytes, kind)), [Err(Refusal::WrongLength); 3]);
            assert_eq!(parity_holds(&bytes), Err(Refusal::WrongLength));
            assert!(bytes.iter().all(|&byte| byte == 3));
        }
    }
}

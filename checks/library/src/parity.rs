//! Opened sectors for the parity check, each with the answer that is known from how it was made.

use crate::call::Answer;
use crate::sectors::{any_subheader, ODD_MODES, WRONG_LENGTHS};
use ecma130::{open, seal_xa, write_parity, write_parity_of, write_q_parity, Address, Kind};
use ecma130::{FORM_BIT, P_PARITY_START, Q_PARITY_START, SECTOR_BYTES, USER_START};
use model::Random;
use std::ops::Range;

const MODE_PLACE: usize = 15;
const SUBMODE_PLACES: [usize; 2] = [18, 22];
/// Where the bytes stand that words have. The mode byte is apart, since it tells which words there are.
const HEADER: Range<usize> = 12..MODE_PLACE;
const DATA: Range<usize> = 24..P_PARITY_START;
const P_PARITY: Range<usize> = P_PARITY_START..Q_PARITY_START;
const Q_PARITY: Range<usize> = Q_PARITY_START..SECTOR_BYTES;

const YES: Answer = Answer::Reply { number: 0, result: 1 };
const NO: Answer = Answer::Reply { number: 0, result: 0 };
const REFUSED: Answer = Answer::Reply { number: 1, result: 0 };

/// What is made of a sector that was sealed and opened.
#[derive(Clone, Copy)]
pub struct Making {
    pub name: &'static str,
    pub kind: Kind,
    pub answer: Answer,
    change: fn(&mut Vec<u8>, &mut Random),
}

const fn mode_1(name: &'static str, answer: Answer, change: fn(&mut Vec<u8>, &mut Random)) -> Making {
    Making { name, kind: Kind::Mode1, answer, change }
}

const fn form_1(name: &'static str, answer: Answer, change: fn(&mut Vec<u8>, &mut Random)) -> Making {
    Making { name, kind: Kind::Form1, answer, change }
}

const fn form_2(name: &'static str, answer: Answer, change: fn(&mut Vec<u8>, &mut Random)) -> Making {
    Making { name, kind: Kind::Form2, answer, change }
}

/// One wrong byte fails a Q word wherever it is, so that P words are also made to fail alone.
pub const MAKINGS: [Making; 33] = [
    mode_1("as it was sealed", YES, |_, _| ()),
    mode_1("of zeros", YES, |sector, _| sector.fill(0)),
    mode_1("with other sync bytes", YES, |sector, random| sector[..HEADER.start].copy_from_slice(&random.bytes(12))),
    mode_1("of another mode", YES, |sector, random| {
        sector[MODE_PLACE] = random.pick(&ODD_MODES);
        write_parity(sector).expect("a sector's length");
    }),
    mode_1("of another mode, with parity of a header of zeros", NO, |sector, random| {
        sector[MODE_PLACE] = random.pick(&ODD_MODES[1..]);
        write_parity_of(sector, Kind::Form1);
    }),
    mode_1("of any bytes and their parity", YES, |sector, random| {
        *sector = any_bytes(random);
        write_parity(sector).expect("a sector's length");
    }),
    mode_1("with a wrong byte of the address", NO, |sector, random| spoil(sector, HEADER, random)),
    mode_1("with a wrong mode byte", NO, |sector, random| sector[MODE_PLACE] = random.pick(&ODD_MODES)),
    mode_1("with a wrong byte of data", NO, |sector, random| spoil(sector, USER_START..P_PARITY_START, random)),
    mode_1("with a wrong byte of P parity", NO, |sector, random| spoil(sector, P_PARITY, random)),
    mode_1("with a wrong byte of Q parity", NO, |sector, random| spoil(sector, Q_PARITY, random)),
    mode_1("with a wrong P word alone", NO, |sector, random| {
        spoil(sector, USER_START..P_PARITY.end, random);
        write_q_parity(sector).expect("a sector's length");
    }),
    mode_1("with two wrong bytes", NO, |sector, random| spoil_each(sector, 2, random)),
    mode_1("with three wrong bytes", NO, |sector, random| spoil_each(sector, 3, random)),
    mode_1("of any bytes", NO, |sector, random| *sector = any_bytes(random)),
    mode_1("with parity of a header of zeros", NO, |sector, _| write_parity_of(sector, Kind::Form1)),
    mode_1("too short", REFUSED, |sector, random| resize(sector, 0..SECTOR_BYTES, random)),
    mode_1("too long", REFUSED, |sector, random| resize(sector, SECTOR_BYTES + 1..usize::MAX, random)),
    form_1("of form 1 as it was sealed", YES, |_, _| ()),
    form_1("of form 1 with another address", YES, |sector, random| sector[HEADER].copy_from_slice(&random.bytes(3))),
    form_1("of form 1 with unequal subheaders and their parity", YES, |sector, random| {
        spoil_second_copy(sector, random);
        write_parity_of(sector, Kind::Form1);
    }),
    form_1("of form 1 with parity of its own header", NO, |sector, _| write_parity_of(sector, Kind::Mode1)),
    // Of mode 0 at 00:00:00 the header would be zero.
    form_1("of form 1 with another mode byte", NO, |sector, random| sector[MODE_PLACE] = random.pick(&ODD_MODES[1..])),
    form_1("of form 1 with a wrong byte of the subheader", NO, |sector, random| {
        // Any bit but that of the form.
        sector[random.between(16, 23) as usize] ^= random.pick(&[0x01, 0x10, 0x40, 0x80, 0xDF]);
    }),
    form_1("of form 1 with a wrong byte of data", NO, |sector, random| spoil(sector, DATA, random)),
    form_1("of form 1 with a wrong byte of P parity", NO, |sector, random| spoil(sector, P_PARITY, random)),
    form_1("of form 1 with a wrong byte of Q parity", NO, |sector, random| spoil(sector, Q_PARITY, random)),
    form_2("of form 2 as it was sealed", YES, |_, _| ()),
    form_2("of form 2 with any other bytes", YES, |sector, random| {
        *sector = random.bytes(SECTOR_BYTES);
        (sector[MODE_PLACE], sector[SUBMODE_PLACES[0]]) = (2, sector[SUBMODE_PLACES[0]] | FORM_BIT);
    }),
    form_2("of form 2 by the first copy alone", YES, |sector, _| sector[SUBMODE_PLACES[1]] &= !FORM_BIT),
    form_2("of form 2 by the second copy alone", NO, |sector, _| sector[SUBMODE_PLACES[0]] &= !FORM_BIT),
    form_2("of form 2 with another mode byte", NO, |sector, random| sector[MODE_PLACE] = random.pick(&ODD_MODES)),
    form_2("of form 2, too short", REFUSED, |sector, random| resize(sector, 0..SECTOR_BYTES, random)),
];

impl Making {
    pub fn make(&self, random: &mut Random) -> Vec<u8> {
        let address = Address::new(random.between(0, 99), random.between(0, 59), random.between(0, 74));
        let (mut sector, subheader) = (random.bytes(SECTOR_BYTES), any_subheader(self.kind, random));
        seal_xa(&mut sector, address, self.kind as u16, subheader).expect("all of it is right");
        open(&mut sector).expect("the length is right");
        (self.change)(&mut sector, random);
        sector
    }
}

/// Of no mode that has a form.
fn any_bytes(random: &mut Random) -> Vec<u8> {
    let mut bytes = random.bytes(SECTOR_BYTES);
    bytes[MODE_PLACE] = random.pick(&ODD_MODES);
    bytes
}

/// One byte of these becomes another.
fn spoil(sector: &mut [u8], places: Range<usize>, random: &mut Random) {
    let place = places.start + random.below(places.len() as u64) as usize;
    sector[place] ^= random.between(1, 255) as u8;
}

fn spoil_second_copy(sector: &mut [u8], random: &mut Random) {
    spoil(sector, 20..24, random);
}

/// So many bytes that words have, one in each of as many parts of the sector behind the header.
fn spoil_each(sector: &mut [u8], count: usize, random: &mut Random) {
    let part = (SECTOR_BYTES - USER_START) / count;
    let starts = (0..count).map(|number| USER_START + number * part);
    starts.for_each(|start| spoil(sector, start..start + part, random));
}

/// To one of the wrong lengths in the range.
fn resize(sector: &mut Vec<u8>, lengths: Range<usize>, random: &mut Random) {
    let possible: Vec<usize> = WRONG_LENGTHS.into_iter().filter(|length| lengths.contains(length)).collect();
    sector.resize(random.pick(&possible), 0);
}

#[cfg(test)]
mod tests {
    use super::*;
    use crate::expectation::parity_checked;

    #[test]
    fn each_making_is_answered_as_it_says() {
        let mut random = Random::new(1);
        for making in MAKINGS.iter().cycle().take(MAKINGS.len() * 100) {
            assert_eq!(parity_checked(&making.make(&mut random)), making.answer, "{}", making.name);
        }
    }
}

//! Kinds and subheaders: the lines that set them, what they outlast, and sectors that show them.
//!
//! A scratch inverts bytes, so that most that is read by another rule than it was sealed by is bad. The chosen sectors
//! are not: the code does not depend on more than the bytes that it is taken over, and adds up, so that to nearly any
//! fill there are subheaders whose code is what the scratched sector needs. `tests/kinds.rs` runs each of them.

use super::scratches::{BY_RING, DECODER_OFF, DECODER_ON, FIRST_ADDRESS};
use super::{write, Writer, WHOLE_PARITY};
use crate::call::Call;
use crate::chip::Chip;
use crate::disc::Disc;
use ecma130::{Address, Kind, FORM_BIT};

const UNKNOWN_KINDS: [u16; 8] = [0, 4, 255, 256, 257, 258, 515, 65535];
const SUBMODES: [u8; 9] = [0x00, 0x08, 0x09, 0x42, 0x64, 0x89, 0xDF, 0xFF, 0x20];

/// A sector and the scratch that makes it what it is listed for.
#[derive(Clone, Copy, Debug)]
pub struct Chosen {
    pub kind: u16,
    pub subheader: [u8; 4],
    pub fill: u16,
    pub from: u16,
    pub count: u16,
    pub why: u8,
}

const fn chosen(kind: u16, subheader: [u8; 4], fill: u16, scratch: (u16, u16), why: u8) -> Chosen {
    Chosen { kind, subheader, fill, from: scratch.0, count: scratch.1, why }
}

/// At any address that is due. Form 2 whose code is FF four times arrives without a code, and its other bytes are not
/// judged; with subheaders that differ the mode fails alone. Then form 2 that arrives as good form 1, and the other way,
/// once as form 2 without a code. At last zeros that are a code, and a wrong one, in form 1 and by the rule of mode 1.
pub const CHOSEN: [Chosen; 18] = [
    chosen(3, [139, 104, 235, 14], 0, (2348, 4), 0),
    chosen(3, [209, 36, 39, 37], 111, (24, 2328), 0),
    chosen(3, [182, 85, 109, 30], 185, (2000, 352), 0),
    chosen(3, [63, 240, 115, 89], 222, (20, 2332), 4),
    chosen(3, [139, 104, 235, 14], 0, (23, 2329), 4),
    chosen(3, [209, 36, 39, 37], 111, (19, 2333), 4),
    chosen(3, [255, 255, 255, 255], 0, (16, 8), 0),
    chosen(3, [88, 8, 187, 0], 74, (16, 8), 0),
    chosen(3, [179, 16, 116, 33], 148, (16, 8), 0),
    chosen(3, [235, 24, 48, 174], 222, (16, 8), 0),
    chosen(2, [234, 212, 152, 123], 0, (16, 8), 0),
    chosen(2, [198, 213, 209, 81], 85, (16, 8), 0),
    chosen(2, [52, 206, 129, 157], 170, (16, 8), 0),
    chosen(2, [0, 0, 8, 0], 0, (16, 8), 0),
    chosen(2, [104, 219, 192, 17], 0, (2072, 4), 2),
    chosen(2, [224, 62, 68, 53], 9, (2072, 4), 2),
    chosen(2, [215, 117, 138, 19], 255, (2072, 4), 2),
    chosen(3, [1, 2, 40, 4], 0, (15, 1), 6),
];

/// Where the sorts begin, and how many there are of each.
const SORTS: [(usize, usize); 7] = [(0, 3), (0, 3), (3, 3), (6, 4), (10, 4), (14, 3), (17, 1)];

/// At 00:02:00, since the code of mode 1 covers the address: another mode byte, with the address and the sync or without.
pub const CHOSEN_AT_FIRST_ADDRESS: [Chosen; 8] = [
    chosen(3, [85, 78, 179, 9], 7, (15, 1), 4),
    chosen(2, [70, 254, 216, 39], 32, (15, 1), 4),
    chosen(2, [101, 43, 18, 57], 200, (15, 1), 4),
    chosen(2, [213, 145, 139, 43], 7, (12, 4), 5),
    chosen(3, [198, 33, 224, 5], 32, (12, 4), 5),
    chosen(2, [128, 68, 139, 51], 7, (0, 16), 13),
    chosen(3, [147, 244, 224, 29], 32, (0, 16), 13),
    chosen(3, [176, 33, 42, 3], 200, (0, 16), 13),
];

/// Windows that tell kinds apart, each an offset and its words: mode and subheader, and where user bytes, code and parity
/// begin and end.
const TELLING_WINDOWS: [(u16, u16); 13] = [
    (14, 5),
    (14, 5),
    (15, 4),
    (16, 2),
    (20, 3),
    (2062, 4),
    (2068, 4),
    (2070, 4),
    (2071, 3),
    (2345, 3),
    (2344, 4),
    (2347, 2),
    (2347, 2),
];
/// Those of the first bytes.
const OF_SUBHEADER: usize = 5;

/// Runs in sync, address, mode, in one copy of the subheader and in both, and in each kind's code.
const TELLING_SCRATCHES: [(u16, u16); 21] = [
    (0, 12),
    (3, 1),
    (11, 2),
    (0, 15),
    (12, 3),
    (14, 1),
    (15, 1),
    (15, 1),
    (16, 8),
    (16, 8),
    (16, 8),
    (16, 8),
    (16, 4),
    (18, 1),
    (20, 4),
    (22, 1),
    (19, 2),
    (2064, 4),
    (2072, 4),
    (2076, 272),
    (2348, 4),
];

fn kind(number: u16) -> Call {
    Call::Kind { number }
}

fn subheader(bytes: [u8; 4]) -> Call {
    let [file, channel, submode, coding] = bytes.map(u16::from);
    Call::Subheader { file, channel, submode, coding }
}

/// Lines.
impl Writer {
    /// Any, as often as not one that is refused.
    pub(super) fn any_disc_line(&mut self) -> Call {
        if self.random.one_in(2) {
            return self.refused_disc_line();
        }
        let form_bit = self.random.one_in(2);
        let bytes = self.subheader_bytes(form_bit);
        self.random.pick(&[kind(1), kind(2), kind(3), subheader(bytes), subheader(bytes)])
    }

    fn refused_disc_line(&mut self) -> Call {
        if self.random.one_in(3) {
            return kind(self.random.pick(&UNKNOWN_KINDS));
        }
        let form_bit = self.random.one_in(2);
        let mut parts = self.subheader_bytes(form_bit).map(u16::from);
        // Often cut to a byte it would be one that is taken.
        parts[self.random.below(4) as usize] = self.random.pick(&[256, 257, 288, 511, 65535]);
        let [file, channel, submode, coding] = parts;
        Call::Subheader { file, channel, submode, coding }
    }

    fn subheader_bytes(&mut self, form_bit: bool) -> [u8; 4] {
        let others = self.random.pick(&SUBMODES) & !FORM_BIT;
        let submode = if form_bit { others | FORM_BIT } else { others };
        [self.any_byte(), self.any_byte(), submode, self.any_byte()]
    }

    fn any_byte(&mut self) -> u8 {
        let any = self.random.between(0, 255) as u8;
        self.random.pick(&[any, any, any, 0, 1, 255])
    }

    /// A kind and a subheader that agree. To mode 1 any subheader does.
    fn disc_lines(&mut self, number: u16) -> [Call; 2] {
        let form_bit = if number == 1 { self.random.one_in(2) } else { number == 3 };
        let bytes = self.subheader_bytes(form_bit);
        let lines = [kind(number), subheader(bytes)];
        if self.random.one_in(2) {
            [lines[1], lines[0]]
        } else {
            lines
        }
    }

    /// Some lines are refused before it.
    pub(super) fn change_kind(&mut self) -> Call {
        let number = self.random.pick(&[1, 1, 2, 3]);
        for _ in 0..self.random.below(3) {
            let refused = self.refused_disc_line();
            self.plan.push_back(refused);
        }
        self.set_disc(number);
        self.plan.pop_front().expect("kind and subheader come")
    }

    /// One of them gives way to the other.
    pub(super) fn make_agree(&mut self, disc: &Disc) -> Call {
        if self.random.one_in(2) {
            return kind(if disc.kind == Kind::Form1 { 3 } else { 2 });
        }
        let bytes = self.subheader_bytes(disc.kind == Kind::Form2);
        subheader(bytes)
    }
}

/// Plans. Each is put behind what makes the chip take a sector.
impl Writer {
    pub(super) fn kind_plan(&mut self, chip: &Chip) -> Call {
        self.make_ready(chip);
        match self.random.below(24) {
            0..=3 => self.kind_outlasts(chip),
            4..=5 => self.opening_puts_back(),
            6..=8 => self.other_form_is_refused(chip),
            9..=14 => self.chosen_sector(chip),
            15..=18 => self.scratched_kinds(chip),
            19..=20 => self.kinds_in_a_row(chip),
            _ => self.kind_is_read(chip),
        }
        self.plan.pop_front().expect("the decoder is taken off first")
    }

    pub(super) fn set_disc(&mut self, number: u16) {
        let lines = self.disc_lines(number);
        self.plan.extend(lines);
    }

    /// A sector that becomes the oldest block, at an address that is due.
    fn fresh_sector(&mut self, address: Address) {
        let sector = self.sector_at(address);
        self.plan.extend([Call::Srst, DECODER_OFF, write(0x9D, 0), Call::Address { address }, DECODER_ON, sector]);
    }

    /// The oldest block, as far as it tells its kind. A long window is read to its end by the words that then come.
    fn read_back(&mut self, (offset, words): (u16, u16)) {
        self.plan.extend([Call::Srst, write(0x9C, 0x60), write(0x18, 0x40), write(0x12, 0)]);
        let command = Call::Command { code: 0x28 };
        self.plan.extend([Call::Window { offset, words }, command, write(0x17, 0x04)]);
        if words < 10 {
            self.plan.extend((0..words).map(|_| Call::Word));
        }
    }

    /// Other calls that must touch neither kind nor subheader, and a sector whose bytes show it.
    fn kind_outlasts(&mut self, chip: &Chip) {
        let number = self.random.pick(&[2, 3]);
        self.set_disc(number);
        let sector = self.sector_at(chip.expected);
        let bad = self.sector_at(chip.expected.next());
        let other_calls = match self.random.below(8) {
            0..=1 => vec![self.refused_disc_line(), self.refused_disc_line()],
            2 => vec![sector],
            4 => vec![DECODER_OFF, sector, DECODER_ON],
            5 => vec![bad, sector],
            3 => self.random.pick(&[[Call::Reset, Call::Look], [Call::Open { ring: 26 }, Call::Look]]).to_vec(),
            _ => self.other_calls(chip),
        };
        let reset = other_calls.contains(&Call::Reset);
        self.plan.extend(other_calls);
        if reset {
            self.begin();
        } else {
            self.fresh_sector(chip.expected);
        }
        let window = self.random.pick(&TELLING_WINDOWS[..OF_SUBHEADER]);
        self.read_back(window);
    }

    /// Kind 1 is seen in a sector. That the subheader went back too is seen under kind 2, which takes zeros, and under
    /// kind 3, which does not.
    fn opening_puts_back(&mut self) {
        let (number, ring) = (self.random.pick(&[2, 3]), self.random.between(3, 25));
        self.set_disc(number);
        self.plan.push_back(Call::Open { ring });
        match self.random.below(5) {
            0..=1 => self.plan.push_back(kind(2)),
            2..=3 => self.plan.push_back(kind(3)),
            _ => {}
        }
        self.begin();
        self.read_back((14, 5));
    }

    /// In the place of 7, 8 and 9; and a sector of mode 1, to which it does not matter.
    fn other_form_is_refused(&mut self, chip: &Chip) {
        let (number, sector) = (self.random.pick(&[2, 3]), self.sector_at(chip.expected));
        self.set_disc(number);
        let bytes = self.subheader_bytes(number == 2);
        let other_form = self.random.pick(&[kind(5 - number), subheader(bytes)]);
        match self.random.below(4) {
            0 => self.plan.extend([other_form, sector, DECODER_OFF, sector, DECODER_ON]),
            1 => {
                let bad = self.sector_at(chip.expected.next());
                self.plan.extend([bad, other_form, sector, DECODER_OFF, DECODER_ON]);
            }
            // With BLIMS and BUFLIM 0 the ring is at its stop, whatever it holds.
            2 => {
                self.plan.extend([DECODER_OFF, write(0x9A, 0x30), write(0x9B, 0), DECODER_ON, other_form, sector]);
                self.plan.extend([DECODER_OFF, BY_RING, DECODER_ON]);
            }
            _ => self.plan.extend([other_form, sector, kind(1), sector]),
        }
        let next = self.random.pick(&[1, 2, 3]);
        self.set_disc(next);
    }

    fn chosen_sector(&mut self, chip: &Chip) {
        let (chosen, address) = if self.random.one_in(3) {
            (self.random.pick(&CHOSEN_AT_FIRST_ADDRESS), FIRST_ADDRESS)
        } else {
            let (start, count) = self.random.pick(&SORTS);
            (self.random.pick(&CHOSEN[start..][..count]), chip.expected)
        };
        let Chosen { fill, from, count, .. } = chosen;
        let expected = if self.random.one_in(4) { address.next() } else { address };
        self.plan.extend([DECODER_OFF, write(0x9D, 0), Call::Address { address: expected }, DECODER_ON]);
        self.plan.extend([kind(chosen.kind), subheader(chosen.subheader)]);
        self.plan.extend([Call::Scratch { from, count }, Call::Sector { address, fill }, Call::Read { reg: 0x80 }]);
        let window = self.random.pick(&TELLING_WINDOWS);
        self.read_back(window);
    }

    /// Each with a scratch in what tells kinds apart.
    fn scratched_kinds(&mut self, chip: &Chip) {
        for _ in 0..self.random.between(2, 4) {
            let (number, (from, count)) = (self.random.pick(&[1, 2, 3]), self.random.pick(&TELLING_SCRATCHES));
            let address = self.random.pick(&[chip.expected, chip.expected, chip.expected.next()]);
            let sector = self.sector_at(address);
            self.set_disc(number);
            self.plan.extend([Call::Scratch { from, count }, sector, DECODER_OFF, DECODER_ON]);
        }
        self.plan.push_back(Call::Read { reg: 0x80 });
    }

    /// Good sectors of all kinds, one behind the other, and the first of them read.
    fn kinds_in_a_row(&mut self, chip: &Chip) {
        let mut address = chip.expected;
        self.plan.extend([Call::Srst, DECODER_OFF, write(0x9D, 0), Call::Address { address }, DECODER_ON]);
        let first = self.random.between(0, 2);
        for place in 0..4 {
            let sector = self.sector_at(address);
            self.set_disc(1 + (first + place) % 3);
            self.plan.push_back(sector);
            address = address.next();
        }
        self.read_back((14, 5));
    }

    /// Now and then all that stands where mode 1 has its parity.
    fn kind_is_read(&mut self, chip: &Chip) {
        let (any, short) = (self.random.pick(&[1, 2, 2, 3, 3]), self.random.pick(&TELLING_WINDOWS));
        let (number, window) = match self.random.below(16) {
            0..=2 => (1, WHOLE_PARITY),
            3..=4 => (2, WHOLE_PARITY),
            5 => (3, WHOLE_PARITY),
            _ => (any, short),
        };
        self.set_disc(number);
        self.fresh_sector(chip.expected);
        self.read_back(window);
    }

    /// Bytes of mode 1 or form 1 that are not judged: the sector counts, and the host is handed inverted bytes.
    pub(super) fn inverted_parity_is_served(&mut self, chip: &Chip) {
        let (number, unjudged) = self.random.pick(&[(1, 2068), (2, 2076)]);
        let from = self.random.between(unjudged, 2348);
        let end = self.random.between(from + 2, 2352);
        let offset = self.random.pick(&[from, from - 1, end - 2]).min(2348);
        self.set_disc(number);
        self.plan.push_back(Call::Scratch { from, count: end - from });
        self.fresh_sector(chip.expected);
        self.read_back((offset, 2));
    }
}

//! The three kinds of sectors over the linked archive: what sealing makes of each, how each is judged and its parity
//! checked, and how the kind is read. What is expected stands here in numbers of its own.

use cdrom::registers::*;
use cdrom::{edc, judge, open, parity, raw, seal, seal_xa, Address, Chip, Facts, Kind, Refusal, Subheader, Verdict};
use cdrom::{BLOCK_BYTES, SECTOR_BYTES, WHY_ADDRESS, WHY_EDC, WHY_MODE, WHY_SYNC};

const ADDRESS: Address = Address { minute: 12, second: 34, frame: 56 };
const KINDS: [Kind; 3] = [Kind::Mode1, Kind::Form1, Kind::Form2];
/// Where the parity begins in mode 1 and form 1.
const PARITY_OFFSET: usize = 2076;

type Sector = [u8; SECTOR_BYTES];

/// With the form bit that the kind needs.
fn subheader(kind: Kind) -> Subheader {
    let submode = if kind == Kind::Form2 { 0x64 } else { 0x48 };
    Subheader { file: 1, channel: 2, submode, coding: 0x7F }
}

/// What the code covers, and where it stands.
fn code_of(kind: Kind) -> (std::ops::Range<usize>, usize) {
    match kind {
        Kind::Mode1 => (0..2064, 2064),
        Kind::Form1 => (16..2072, 2072),
        Kind::Form2 => (16..2348, 2348),
    }
}

/// User bytes that differ, among other bytes that are all equal.
fn unsealed(kind: Kind, stale: u8) -> Sector {
    let mut sector = [stale; SECTOR_BYTES];
    sector[kind.user()].iter_mut().enumerate().for_each(|(place, byte)| *byte = (place % 251) as u8);
    sector
}

fn sealed(mut sector: Sector, kind: Kind) -> Sector {
    assert_eq!(seal_xa(&mut sector, ADDRESS, kind, subheader(kind)), Ok(()));
    sector
}

fn opened(mut sector: Sector) -> Sector {
    assert_eq!(open(&mut sector), Ok(()));
    sector
}

fn good(kind: Kind) -> Sector {
    opened(sealed(unsealed(kind, 0), kind))
}

fn why(sector: &Sector) -> u8 {
    judge(sector, ADDRESS).expect("a sector and an address").why()
}

/// The code is made to fit what it covers.
fn fit_code(sector: &mut Sector, kind: Kind) {
    let (covered, place) = code_of(kind);
    let code = edc(&sector[covered]);
    sector[place..place + 4].copy_from_slice(&code.to_le_bytes());
}

#[test]
fn every_byte_of_a_sealed_sector_has_its_place() {
    for kind in KINDS {
        let (sector, stale) = (good(kind), unsealed(kind, 0));
        assert_eq!(sector[..12], [0, 255, 255, 255, 255, 255, 255, 255, 255, 255, 255, 0]);
        assert_eq!(sector[12..15], [0x12, 0x34, 0x56]);
        assert_eq!(sector[15], if kind == Kind::Mode1 { 1 } else { 2 });
        assert_eq!(sector[kind.user()], stale[kind.user()]);
        let (covered, place) = code_of(kind);
        assert_eq!(sector[place..place + 4], edc(&sector[covered]).to_le_bytes(), "{kind:?}");
        assert_eq!((why(&sector), parity(&sector)), (0, Ok(true)), "{kind:?}");
        assert_eq!(Kind::of(&sector), Ok(kind));
    }
    assert_eq!(good(Kind::Mode1)[2068..PARITY_OFFSET], [0; 8]);
    for kind in [Kind::Form1, Kind::Form2] {
        let sector = good(kind);
        assert_eq!((&sector[16..20], &sector[20..24]), (&subheader(kind).bytes()[..], &subheader(kind).bytes()[..]));
        assert_eq!(Subheader::of(&sector), Ok(subheader(kind)));
    }
}

#[test]
fn of_what_lay_there_the_user_bytes_alone_count() {
    for kind in KINDS {
        let sector = sealed(unsealed(kind, 0), kind);
        for stale in [0x01, 0x5A, 0xFF] {
            assert_eq!(sealed(unsealed(kind, stale), kind), sector, "{kind:?}, {stale:#04x}");
        }
        for place in kind.user() {
            let mut other = unsealed(kind, 0);
            other[place] ^= 0x80;
            assert_ne!(sealed(other, kind), sector, "{kind:?}, byte {place}");
        }
    }
}

#[test]
fn sealing_an_opened_sector_gives_the_sealed_one() {
    for kind in KINDS {
        let sector = sealed(unsealed(kind, 0xA5), kind);
        assert_eq!(sealed(opened(sector), kind), sector, "{kind:?}");
    }
}

#[test]
fn mode_1_is_what_seal_makes_with_any_subheader() {
    let mut expected = unsealed(Kind::Mode1, 0);
    assert_eq!(seal(&mut expected, ADDRESS), Ok(()));
    for bytes in [[0; 4], [0xFF; 4], [1, 2, 0x20, 4], [1, 2, 0xDF, 4]] {
        let mut sector = unsealed(Kind::Mode1, 0);
        assert_eq!(seal_xa(&mut sector, ADDRESS, Kind::Mode1, Subheader::from_bytes(bytes)), Ok(()));
        assert_eq!(sector, expected, "{bytes:?}");
    }
}

/// Of the 256 submodes each is taken by one of the forms, and refused by the other.
#[test]
fn the_form_bit_must_be_that_of_the_kind() {
    for submode in 0..=255 {
        let subheader = Subheader { submode, ..subheader(Kind::Form1) };
        let (kind, other) = if submode & 0x20 == 0 { (Kind::Form1, Kind::Form2) } else { (Kind::Form2, Kind::Form1) };
        assert_eq!(subheader.kind(), kind);
        let mut sector = unsealed(kind, 0xA5);
        assert_eq!(seal_xa(&mut sector, ADDRESS, other, subheader), Err(Refusal::OutOfRange), "{submode:#04x}");
        assert_eq!(sector, unsealed(kind, 0xA5), "a refusal changes no byte");
        assert_eq!(seal_xa(&mut sector, ADDRESS, kind, subheader), Ok(()));
        assert_eq!((why(&opened(sector)), Subheader::of(&opened(sector))), (0, Ok(subheader)));
    }
}

/// Those that the types do not let through: the kind is a number of sixteen bits, and 257 is not 1.
#[test]
fn refusals_of_the_raw_call() {
    let mut sector = unsealed(Kind::Form1, 0xA5);
    let mut call = |length: usize, minute, second, frame, kind, submode: u8| {
        // SAFETY: the sector is as long, or the call refuses before it looks at it; the subheader lies elsewhere.
        unsafe {
            let subheader = [0, 0, submode, 0];
            raw::cdrom_seal_xa(sector.as_mut_ptr(), length, minute, second, frame, kind, &subheader)
        }
    };
    for kind in [0, 4, 255, 256, 257, 258, 259, 0x8001, 0xFFFF] {
        assert_eq!([0, 0x20].map(|submode| call(SECTOR_BYTES, 12, 34, 56, kind, submode)), [3; 2], "{kind}");
    }
    for kind in 0..=4 {
        assert_eq!(call(0, 12, 34, 56, kind, 0), 1, "{kind}");
        assert_eq!(call(SECTOR_BYTES - 1, 100, 60, 75, kind, 0x20), 1, "{kind}");
    }
    for (kind, submode) in [(1, 0), (2, 0), (3, 0x20)] {
        assert_eq!(call(SECTOR_BYTES, 100, 0, 0, kind, submode), 3);
        assert_eq!(call(SECTOR_BYTES, 0, 60, 0, kind, submode), 3);
        assert_eq!(call(SECTOR_BYTES, 0, 0, 75, kind, submode), 3);
    }
    assert_eq!([call(SECTOR_BYTES, 12, 34, 56, 2, 0x20), call(SECTOR_BYTES, 12, 34, 56, 3, 0)], [3; 2]);
    assert_eq!(sector, unsealed(Kind::Form1, 0xA5), "a refusal changes no byte");
}

/// The facts that a changed byte of a good sector sets, where the kind is read as before; behind the code nothing is
/// tested.
fn facts_of_damage(kind: Kind, place: usize) -> u8 {
    let of_code = if kind == Kind::Mode1 { WHY_EDC } else { 0 };
    match place {
        0..=11 => WHY_SYNC | of_code,
        12..=14 => WHY_ADDRESS | of_code,
        15 => panic!("it says the kind"),
        16..=23 if kind != Kind::Mode1 => WHY_MODE | WHY_EDC,
        _ if place < code_of(kind).1 + 4 => WHY_EDC,
        _ => 0,
    }
}

/// Byte 15 is left out, and none of the changes is one of the form bit.
#[test]
fn one_changed_byte_is_told_where_the_kind_stays() {
    for (kind, place) in KINDS.into_iter().flat_map(|kind| (0..SECTOR_BYTES).map(move |place| (kind, place))) {
        let mut sector = good(kind);
        for change in [0x01, 0x80, 0xDF] {
            sector[place] ^= change;
            if place != 15 {
                assert_eq!(why(&sector), facts_of_damage(kind, place), "{kind:?}, byte {place}, {change:#04x}");
                let covered = match kind {
                    Kind::Mode1 => 12..2352,
                    Kind::Form1 => 16..2352,
                    Kind::Form2 => 0..0,
                };
                assert_eq!(parity(&sector), Ok(!covered.contains(&place)), "{kind:?}, byte {place}, {change:#04x}");
            }
            sector[place] ^= change;
        }
    }
}

/// Any mode byte but 1 and 2: the mode fact, and else the rule of mode 1.
#[test]
fn other_mode_bytes_go_by_mode_1() {
    for mode in (3..=255).chain([0]) {
        let mut sector = good(Kind::Mode1);
        sector[15] = mode;
        assert_eq!((why(&sector), parity(&sector)), (WHY_MODE | WHY_EDC, Ok(false)), "{mode}");
        fit_code(&mut sector, Kind::Mode1);
        assert_eq!((why(&sector), Kind::of(&sector)), (WHY_MODE, Ok(Kind::Mode1)), "{mode}");
        sector[16..20].fill(0x20);
        fit_code(&mut sector, Kind::Mode1);
        assert_eq!(why(&sector), WHY_MODE, "{mode}: there are no subheaders to compare");
        assert_eq!(parity(&sector), Ok(false), "{mode}: byte 18 says nothing here");
    }
}

/// The words are linear: the sum of two sectors whose words hold is another, here with the mode byte 0 and a header that
/// is not all zeros.
#[test]
fn the_header_is_in_the_parity_of_other_modes() {
    let [one, other] = [1, 2].map(|frame| {
        let mut sector = unsealed(Kind::Mode1, 0);
        assert_eq!(seal(&mut sector, Address { frame, ..ADDRESS }), Ok(()));
        opened(sector)
    });
    let mut sum: Sector = std::array::from_fn(|place| one[place] ^ other[place]);
    assert_eq!((&sum[12..16], parity(&sum)), (&[0, 0, 3, 0][..], Ok(true)));
    sum[14] = 0;
    assert_eq!(parity(&sum), Ok(false));
}

/// The copies are compared in mode 2 alone, and byte 18 says the form, not byte 22.
#[test]
fn unequal_subheaders_set_the_mode_alone() {
    for kind in [Kind::Form1, Kind::Form2] {
        for (place, bit) in (20..24).flat_map(|place| (0..8).map(move |bit| (place, 1 << bit))) {
            let mut sector = good(kind);
            sector[place] ^= bit;
            fit_code(&mut sector, kind);
            assert_eq!((why(&sector), Kind::of(&sector)), (WHY_MODE, Ok(kind)), "{kind:?}, byte {place}");
        }
    }
    let mut sector = good(Kind::Mode1);
    sector[20..24].copy_from_slice(&[0xFF; 4]);
    fit_code(&mut sector, Kind::Mode1);
    assert_eq!(why(&sector), 0);
}

/// All sixteen come in each kind: the code is made to fit the damaged bytes, and damaged last.
#[test]
fn each_fact_is_found_whatever_the_others_say() {
    for (kind, number) in KINDS.into_iter().flat_map(|kind| (0..=15).map(move |number| (kind, number))) {
        let (mut sector, facts) = (good(kind), Facts::from_why(number).expect("0 to 15 are facts"));
        sector[7] ^= u8::from(facts.sync);
        sector[13] ^= u8::from(facts.address);
        let (place, bit) = if kind == Kind::Mode1 { (15, 0x80) } else { (23, 0x01) };
        sector[place] ^= u8::from(facts.mode) * bit;
        fit_code(&mut sector, kind);
        sector[code_of(kind).1 + 2] ^= u8::from(facts.edc);
        assert_eq!(judge(&sector, ADDRESS), Ok(facts), "{kind:?}");
    }
}

#[test]
fn no_code_is_taken_in_form_2_alone() {
    for kind in KINDS {
        let mut sector = good(kind);
        let (covered, place) = code_of(kind);
        assert_ne!(edc(&sector[covered]), 0);
        sector[place..place + 4].fill(0);
        assert_eq!(why(&sector), if kind == Kind::Form2 { 0 } else { WHY_EDC }, "{kind:?}");
    }
    let mut sector = good(Kind::Form2);
    sector[2348..].fill(0);
    for place in 24..2348 {
        sector[place] ^= 0xFF;
        assert_eq!(why(&sector), 0, "byte {place} is not checked");
    }
    for place in 2348..2352 {
        sector[place] = 1;
        assert_eq!(why(&sector), WHY_EDC, "all four are zero, or it is a code");
        sector[place] = 0;
    }
    sector[20] ^= 1;
    assert_eq!(why(&sector), WHY_MODE, "the subheaders are compared all the same");
}

/// Whatever the header holds, and of form 2 whatever the sector does.
#[test]
fn the_header_is_not_in_the_parity_of_form_1() {
    let mut sector = good(Kind::Form1);
    for header in [[0; 3], [0xFF; 3], [0x12, 0x34, 0x57]] {
        sector[12..15].copy_from_slice(&header);
        assert_eq!(parity(&sector), Ok(true));
    }
    let mut bytes = [0xA5; SECTOR_BYTES];
    (bytes[15], bytes[18]) = (2, 0x20);
    assert_eq!(parity(&bytes), Ok(true));
    bytes[18] = 0xDF;
    assert_eq!(parity(&bytes), Ok(false));
}

/// A good sector of mode 1 that has no parity, and whose user bytes are all 20h: byte 15 alone makes it form 2.
#[test]
fn one_byte_can_change_the_kind() {
    let mut sector = [0x20; SECTOR_BYTES];
    assert_eq!(seal(&mut sector, ADDRESS), Ok(()));
    let mut sector = opened(sector);
    sector[PARITY_OFFSET..].fill(0);
    assert_eq!((why(&sector), parity(&sector)), (0, Ok(false)));
    sector[15] = 2;
    assert_eq!((Kind::of(&sector), why(&sector), parity(&sector)), (Ok(Kind::Form2), 0, Ok(true)));
    sector[2351] = 1;
    assert_eq!(why(&sector), WHY_EDC, "with parity bytes there it is told");
}

/// Sectors that several independent programs agree on, of each kind: sealed over other bytes, opened and judged.
#[test]
fn the_outside_vectors() {
    const FILE: &[u8] = include_bytes!("../../../crates/vectors/data/sectors.bin");
    let bcd = |byte: u8| u16::from(byte >> 4) * 10 + u16::from(byte & 15);
    let mut counts = [0; 3];
    for record in FILE[32..].chunks_exact(7052) {
        let kind = Kind::from_number(record[0].into()).expect("a kind");
        let address = Address { minute: bcd(record[2]), second: bcd(record[3]), frame: bcd(record[4]) };
        let (clear, scrambled) = (&record[2348..4700], &record[4700..]);
        let mut sector: Sector = std::array::from_fn(|place| !clear[place]);
        sector[kind.user()].copy_from_slice(&record[24..][..kind.user().len()]);
        let subheader = Subheader::of(clear).expect("a sector");
        assert_eq!(seal_xa(&mut sector, address, kind, subheader), Ok(()));
        assert_eq!(sector, scrambled);
        assert_eq!((Kind::of(clear), opened(sector).as_slice()), (Ok(kind), clear));
        assert_eq!((judge(clear, address).map(Facts::why), parity(clear)), (Ok(0), Ok(true)));
        counts[usize::from(kind.number()) - 1] += 1;
    }
    assert_eq!(counts, [11; 3]);
}

/// One disc may have all three; the chip counts them, and the kind is read from the block.
#[test]
fn the_chip_takes_each_kind() -> Result<(), Refusal> {
    let mut memory = [0xEE; 4 * BLOCK_BYTES];
    let mut chip = Chip::open(4, &mut memory)?;
    chip.write(BICCTL, BLIMEN)?;
    chip.write(ACCTL, ACMEN | TCINCEN)?;
    chip.write(ASCTRL, ADCEN | STWCEN)?;
    let user = Kind::Form2.user();
    chip.set_window(user.start as u16, user.len() as u16 / 2)?;
    chip.set_expected(ADDRESS)?;
    chip.write(CTRL0, DECEN)?;
    for (kind, block) in KINDS.into_iter().zip(0..) {
        let mut sector = unsealed(kind, 0);
        seal_xa(&mut sector, Address { frame: 56 + block, ..ADDRESS }, kind, subheader(kind))?;
        assert_eq!(chip.sector(&sector), Ok(Verdict { staerr: false, hcei: false }), "{kind:?}");
        assert_eq!((chip.read(TCC), chip.read(LDDBL)), (Ok(block + 1), Ok(block)));
        let stored = &chip.ring()[usize::from(block) * BLOCK_BYTES..][..SECTOR_BYTES];
        assert_eq!((Kind::of(stored), stored), (Ok(kind), &opened(sector)[..]));
    }
    chip.write(SKIPC, 2)?;
    chip.command(0x28)?;
    chip.write(ASTRG, ADTT)?;
    assert_eq!(256 * chip.read(ATBHI)? + chip.read(ATBLO)?, 2324);
    let mut words = [0; 1200];
    assert_eq!(chip.words(&mut words), Ok(1162));
    let bytes: Vec<u8> = words[..1162].iter().flat_map(|word| word.to_le_bytes()).collect();
    assert_eq!(bytes, unsealed(Kind::Form2, 0)[user]);
    Ok(())
}

/// A damaged sector of each form is not counted, and register 80h is made of its facts as in mode 1.
#[test]
fn the_chip_tells_what_failed() -> Result<(), Refusal> {
    let mut memory = [0; 4 * BLOCK_BYTES];
    let damages = [(3, WHY_SYNC), (14, WHY_ADDRESS), (19, WHY_MODE | WHY_EDC), (22, WHY_MODE | WHY_EDC), (99, WHY_EDC)];
    for (kind, (place, why)) in
        [Kind::Form1, Kind::Form2].into_iter().flat_map(|kind| damages.map(|damage| (kind, damage)))
    {
        let mut chip = Chip::open(4, &mut memory)?;
        chip.write(BICCTL, BLIMEN)?;
        chip.write(ACCTL, TCINCEN)?;
        chip.set_expected(ADDRESS)?;
        chip.write(CTRL0, DECEN)?;
        let mut sector = sealed(unsealed(kind, 0), kind);
        sector[place] ^= 0x80;
        let facts = Facts::from_why(why).expect("0 to 15 are facts");
        assert_eq!((chip.sector(&sector), chip.why()), (Ok(facts.verdict()), facts), "{kind:?}, byte {place}");
        assert_eq!((chip.read(TCC), chip.read(BUFC)), (Ok(0), Ok(1)));
    }
    Ok(())
}

//! What the next address is asked of: addresses about each carry, and such as are out of range.

use ecma130::Address;
use model::Random;

const LAST: Address = Address::new(99, 59, 74);

/// The ends of each range, numbers at which a digit carries, and numbers that are the end of another part's range. Last
/// frames are asked of apart.
const MINUTES: [u16; 9] = [0, 1, 9, 10, 59, 69, 74, 98, 99];
const SECONDS: [u16; 8] = [0, 1, 9, 10, 49, 50, 58, 59];
const FRAMES: [u16; 10] = [0, 8, 9, 10, 58, 59, 68, 69, 70, 73];

/// One above the range of each part, the largest byte, and numbers that are in range when cut to a byte or taken with a
/// sign.
const WRONG_MINUTES: [u16; 6] = [100, 100, 255, 256, 32_768, 65_535];
const WRONG_SECONDS: [u16; 6] = [60, 60, 255, 256, 32_768, 65_535];
const WRONG_FRAMES: [u16; 6] = [75, 75, 255, 256, 32_768, 65_535];

pub fn any(random: &mut Random) -> Address {
    let (minute, second) = (random.pick(&MINUTES), random.pick(&SECONDS));
    let frame = random.pick(&FRAMES);
    match random.below(10) {
        0 => LAST,
        1 => Address::new(minute, 59, 74),
        2..=3 => Address::new(minute, second, 74),
        4 => Address::new(minute, 59, frame),
        5 => Address::new(minute, second, frame),
        6 => any_valid(random),
        _ => any_wrong(random),
    }
}

fn any_valid(random: &mut Random) -> Address {
    Address::new(random.between(0, 99), random.between(0, 59), random.between(0, 74))
}

/// In one part or several.
fn any_wrong(random: &mut Random) -> Address {
    let mut address = any_valid(random);
    let wrong = random.between(1, 7);
    if wrong & 1 != 0 {
        address.minute = random.pick(&WRONG_MINUTES);
    }
    if wrong & 2 != 0 {
        address.second = random.pick(&WRONG_SECONDS);
    }
    if wrong & 4 != 0 {
        address.frame = random.pick(&WRONG_FRAMES);
    }
    address
}

#[cfg(test)]
mod tests {
    use super::*;

    #[test]
    fn wrong_addresses_are_wrong_and_others_right() {
        let mut random = Random::new(1);
        for _ in 0..5000 {
            assert!(any_valid(&mut random).is_valid());
            assert!(!any_wrong(&mut random).is_valid());
        }
    }

    /// Few are asked for, so that each of these must come often.
    #[test]
    fn each_edge_comes_often() {
        let mut random = Random::new(2);
        let asked: Vec<Address> = (0..1000).map(|_| any(&mut random)).collect();
        let often = |is_so: fn(&Address) -> bool| asked.iter().filter(|address| is_so(address)).count() > 10;
        assert!(often(|address| *address == LAST));
        assert!(often(|address| address.minute < 99 && (address.second, address.frame) == (59, 74)));
        assert!(often(|address| address.second < 59 && address.frame == 74));
        assert!(often(|address| address.second == 59 && address.frame < 74));
        assert!(often(|address| address.is_valid() && address.frame == 9));
        assert!(often(|address| address.is_valid() && address.frame == 69));
        assert!(often(|address| address.minute == 100));
        assert!(often(|address| address.second == 60));
        assert!(often(|address| address.frame == 75));
        assert!(often(|address| !address.is_valid() && address.minute <= 99));
    }
}

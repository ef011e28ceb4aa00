//! Records that no run has met: words of any values, words in range that no calls lead to,
//! and records with flipped bits.

use crate::record::{self as at, Record, RUNNING, STATUS};
use cdrom::raw::CHIP_WORDS;
use model::Random;

/// Any 28 words.
pub fn any_words(random: &mut Random) -> Record {
    std::array::from_fn(|_| random.between(0, 65535))
}

/// The record with one to three bits changed.
pub fn flipped(record: &Record, random: &mut Random) -> Record {
    let mut flipped = *record;
    for _ in 0..random.between(1, 3) {
        flipped[random.below(CHIP_WORDS as u64) as usize] ^= 1 << random.below(16);
    }
    flipped
}

/// The record with any facts: they have no range, and change nothing of its soundness.
pub fn with_any_facts(record: Record, random: &mut Random) -> Record {
    at::with_why(record, random.between(0, 15))
}

/// Any words, with each kept number brought into its range: sound by paper 01's list, and
/// most often not to be reached from an opening.
pub fn in_range(random: &mut Random) -> Record {
    let mut record = any_words(random);
    let any = random.between(3, 255);
    let blocks = random.pick(&[3, 4, 25, 26, 255, any]);
    record[at::BLOCKS] = blocks;
    for word in &mut record[at::T..=at::BUFC] {
        // An end of the range is where counting goes wrong.
        let inside = *word % blocks;
        *word = random.pick(&[0, inside, inside, blocks - 1]);
    }
    record[at::TTC] = random.pick(&[0, record[at::TTC] % 256, 255]);
    record[at::MINUTE] %= 100;
    record[at::SECOND] %= 60;
    record[at::FRAME] %= 75;
    record[at::BUFLIM] %= blocks - 1;
    record[at::WORDS] = random.pick(&[0, 1, 2, 3, 1176, record[at::WORDS] % 1177]);
    if record[at::WORDS] > 0 {
        record[at::OFFSET] %= 2353 - 2 * record[at::WORDS];
    }
    record[at::BURST_LIMITS] &= 0x1F1F;
    record[at::PACKET_WORDS] %= 6;
    with_transfer_in_range(record)
}

/// A transfer that cannot run is taken from the record, and its numbers left as they are.
fn with_transfer_in_range(mut record: Record) -> Record {
    if record[at::TCC] == 0 || record[at::WORDS] == 0 {
        record[STATUS] &= !(1 << RUNNING);
    }
    if at::is_running(&record) {
        record[at::BLOCKS_LEFT] = 1 + record[at::BLOCKS_LEFT] % record[at::TCC];
        record[at::PLACE] %= record[at::WORDS];
    }
    record
}

/// In range but for one of the words with kept numbers, which has any value: often a small one,
/// so that it may be in range all the same.
pub fn all_but_one_in_range(random: &mut Random) -> Record {
    let mut record = in_range(random);
    let most = random.pick(&[9, 300, 2400, 65535]);
    record[random.below(at::BURST_LIMITS as u64 + 1) as usize] = random.between(0, most);
    record
}

#[cfg(test)]
mod tests {
    use super::*;
    use crate::record::{decoded, is_receiving};
    use crate::soundness::{faults, is_sound};

    #[test]
    fn words_in_range_are_sound() {
        let mut random = Random::new(1);
        let mut running = 0;
        for _ in 0..5000 {
            let record = in_range(&mut random);
            assert!(is_sound(&record), "{:?}", faults(&record));
            running += at::is_running(&record) as u32;
        }
        assert!(running > 500);
    }

    #[test]
    fn no_facts_make_a_record_unsound() {
        let mut random = Random::new(3);
        for why in (0..16).cycle().take(4000) {
            let record = all_but_one_in_range(&mut random);
            assert_eq!(is_sound(&at::with_why(record, why)), is_sound(&record));
            assert_eq!(decoded(&at::with_why(record, why)).is_sound(), decoded(&record).is_sound());
        }
    }

    /// But for packet words outside a reception, which the model has no place for.
    #[test]
    fn the_list_and_the_model_agree_on_soundness() {
        let mut random = Random::new(2);
        let mut sound = 0;
        for _ in 0..50_000 {
            let record = all_but_one_in_range(&mut random);
            let idle_words = !is_receiving(&record) && record[at::PACKET_WORDS] > 5;
            assert_eq!(is_sound(&record), decoded(&record).is_sound() && !idle_words, "{record:?}");
            sound += is_sound(&record) as u32;
        }
        assert!((5_000..45_000).contains(&sound));
    }
}

//! Counts what a script really made happen, so that a tally of a script in which
//! nothing was ever withdrawn is not taken for a thorough one.

use model::{parse, Call};
use tally::{Step, Tally};

const COUNTED_IN: &str = "sector counted in";
const HELD: &str = "bad sector held";
const TAKEN: &str = "block taken whole";
const LAST_OF_SEVERAL: &str = "last of several blocks of a transfer taken";
const HALF_READ: &str = "SRST within a half-read block";
const TAKEN_AFTER_ABORT: &str = "block taken whole after an abort in it";
const SKIPPED: &str = "skip of 1 or more with ACMEN high";
const NOT_SKIPPED: &str = "skip with ACMEN low of 1 or more of the blocks that wait, answered 0";
const MORE_NOT_SKIPPED: &str = "skip with ACMEN low of more than wait, answered 0";
const SKIP_REFUSED: &str = "skip refused (6)";
const WITHDRAWN: &str = "9Dh=n withdraws blocks, another number than n";
const NONE_WITHDRAWN: &str = "9Dh withdraws none of the blocks that wait";
const LOWERING_REFUSED: &str = "9Dh refused (6)";
const RESET: &str = "reset with a number above 0";
const OPENED_AGAIN: &str = "open with a number above 0";
const ALL_FOUR: &str = "all four numbers above 0, first time since opening or reset";

/// All that is counted.
const NAMES: [&str; 16] = [
    COUNTED_IN,
    HELD,
    TAKEN,
    LAST_OF_SEVERAL,
    HALF_READ,
    TAKEN_AFTER_ABORT,
    SKIPPED,
    NOT_SKIPPED,
    MORE_NOT_SKIPPED,
    SKIP_REFUSED,
    WITHDRAWN,
    NONE_WITHDRAWN,
    LOWERING_REFUSED,
    RESET,
    OPENED_AGAIN,
    ALL_FOUR,
];

pub struct Happenings {
    counts: [u64; NAMES.len()],
    /// The oldest block was read in part, and that reading was aborted.
    aborted: bool,
}

impl Default for Happenings {
    fn default() -> Happenings {
        Happenings { counts: [0; NAMES.len()], aborted: false }
    }
}

impl Happenings {
    fn count_if(&mut self, happened: bool, what: &'static str) {
        let place = NAMES.iter().position(|&name| name == what).expect("a name of the list");
        self.counts[place] += happened as u64;
    }

    /// What has not happened yet.
    pub fn missing(&self) -> Vec<&'static str> {
        NAMES.into_iter().zip(self.counts).filter(|&(_, count)| count == 0).map(|(what, _)| what).collect()
    }

    pub fn report(&self) -> String {
        NAMES.iter().zip(self.counts).map(|(what, count)| format!("{count:>9}  {what}\n")).collect()
    }

    /// A new script begins, with a chip of its own.
    pub fn begin(&mut self) {
        self.aborted = false;
    }

    /// How many blocks a transfer has is nowhere in the tally: whether the line takes the
    /// last of several, if it takes one, is told beside it.
    pub fn note(&mut self, step: &Step, would_be_last_of_several: bool) {
        let (before, after) = (&step.before, &step.after);
        let taken = after.taken() > before.taken();
        self.count_if(after.counted_in() > before.counted_in(), COUNTED_IN);
        self.count_if(after.is_held() && !before.is_held(), HELD);
        self.count_if(taken, TAKEN);
        self.count_if(taken && would_be_last_of_several, LAST_OF_SEVERAL);
        self.count_if(all_above_0(after) && !all_above_0(before), ALL_FOUR);
        if let Some(call) = parse(step.line) {
            self.note_write(step, call);
            self.note_beginning(step, call);
            self.note_abort(step, call);
        }
    }

    fn note_write(&mut self, step: &Step, call: Call) {
        let Call::Write { reg, value } = call else {
            return;
        };
        let (answer, tcc, value) = (step.printed.answer, step.before.tcc(), u64::from(value));
        let (skip, lowering) = (reg == 0x9E, reg == 0x9D);
        let skipped = step.after.skipped() > step.before.skipped();
        let withdrawn = step.after.withdrawn() - step.before.withdrawn();
        self.count_if(skip && skipped, SKIPPED);
        self.count_if(skip && !skipped && answer == 0 && value > 0 && value <= tcc, NOT_SKIPPED);
        self.count_if(skip && !skipped && answer == 0 && value > tcc, MORE_NOT_SKIPPED);
        self.count_if(skip && answer == 6, SKIP_REFUSED);
        self.count_if(lowering && withdrawn > 0 && withdrawn != value, WITHDRAWN);
        self.count_if(lowering && withdrawn == 0 && answer == 0 && tcc > 0, NONE_WITHDRAWN);
        self.count_if(lowering && answer == 6, LOWERING_REFUSED);
    }

    fn note_beginning(&mut self, step: &Step, call: Call) {
        let begun = step.printed.answer == 0 && step.before.numbers().iter().any(|&number| number > 0);
        self.count_if(begun && matches!(call, Call::Reset), RESET);
        self.count_if(begun && matches!(call, Call::Open { .. }), OPENED_AGAIN);
    }

    fn note_abort(&mut self, step: &Step, call: Call) {
        let (before, after) = (&step.before, &step.after);
        let half_read = matches!(call, Call::Srst) && step.printed.answer == 0 && before.words_read() > 0;
        self.count_if(half_read, HALF_READ);
        self.count_if(self.aborted && after.taken() > before.taken(), TAKEN_AFTER_ABORT);
        // With a block that is taken or skipped another is the oldest, and without blocks there is none.
        let same_block = (after.taken(), after.skipped()) == (before.taken(), before.skipped()) && after.tcc() > 0;
        self.aborted = same_block && (self.aborted || half_read);
    }
}

fn all_above_0(tally: &Tally) -> bool {
    tally.numbers().iter().all(|&number| number > 0)
}

#[cfg(test)]
mod tests {
    use super::*;
    use tally::{keep, lines_of};

    /// A history and what happens in it; the last block of each transfer is taken to be one of several.
    fn happened(script: &[u8], answers: &[&str]) -> Vec<&'static str> {
        let rest = |place: usize| format!("n={} {} why=0 irq=0\n", place + 1, answers[place]);
        let printed: String = (0..answers.len()).map(rest).collect();
        let mut happenings = Happenings::default();
        let kept = keep(&lines_of(script), printed.as_bytes(), |step| happenings.note(step, true));
        assert_eq!(kept.err(), None);
        let missing = happenings.missing();
        NAMES.into_iter().filter(|name| !missing.contains(name)).collect()
    }

    #[test]
    fn nothing_has_happened_at_first() {
        assert_eq!(Happenings::default().missing(), NAMES);
    }

    #[test]
    fn a_block_after_an_abort_is_told_from_the_next_one() {
        let script = "call=open ring=4\ncall=window offset=0 words=2\ncall=write reg=156 value=64\n\
            call=sector min=0 sec=2 frame=0 fill=0\ncall=sector min=0 sec=2 frame=1 fill=0\n\
            call=word\ncall=srst\n";
        let start = ["answer=0 out=0 tcc=0 bufc=0"; 3];
        let read = [1, 2, 2, 2].map(|tcc| format!("answer=0 out=0 tcc={tcc} bufc={tcc}"));
        let run = |rest: &str, counts: &[u64]| {
            let last = counts.iter().map(|tcc| format!("answer=0 out=0 tcc={tcc} bufc={tcc}"));
            let all: Vec<String> = start.iter().map(|&text| text.into()).chain(read.clone()).chain(last).collect();
            let all: Vec<&str> = all.iter().map(String::as_str).collect();
            happened(format!("{script}{rest}").as_bytes(), &all)
        };
        let whole = "call=word\ncall=word\n";
        assert!(run(whole, &[2, 1]).contains(&TAKEN_AFTER_ABORT));
        let skipped_first = format!("call=write reg=158 value=1\n{whole}");
        assert!(!run(&skipped_first, &[1, 1, 0]).contains(&TAKEN_AFTER_ABORT));
    }
}

//! The bench: calls to a chip as lines of text, with their answers (docs/BENCH.md).

use crate::raw;

/// The ring's memory for the bench's largest ring, 25 blocks.
pub const RING_BYTES: usize = 64000;
/// What must be left of the output for a line of the bench to be run; no answer is longer.
pub const ANSWER_ROOM: usize = 160;

/// Runs the lines of a text that have their newline, from a bench where no chip is open, while `out` has
/// [`ANSWER_ROOM`] left, and gives the length of the answers at its front. The ring's memory is [`RING_BYTES`]
/// long, the sector buffer [`SECTOR_BYTES`](crate::SECTOR_BYTES); other lengths are taken too, and then some lines
/// are answered 1.
pub fn bench(memory: &mut [u8], sector: &mut [u8], text: &[u8], out: &mut [u8]) -> usize {
    // SAFETY: each pointer and its length are those of a slice that is lent for the call, and slices that are lent to
    // be changed overlap no other.
    unsafe {
        raw::cdrom_bench(
            memory.as_mut_ptr(),
            memory.len(),
            sector.as_mut_ptr(),
            sector.len(),
            text.as_ptr(),
            text.len(),
            out.as_mut_ptr(),
            out.len(),
        )
    }
}

#[cfg(test)]
mod tests {
    use super::*;
    use crate::{open, Kind, SECTOR_BYTES};
    use std::vec;

    /// A form 2 sector whose user bytes are all 66, as the lines before it say; opened, the buffer has it.
    #[test]
    fn a_sector_is_of_the_kind_that_was_named() {
        let (mut memory, mut sector) = (vec![0; RING_BYTES], [0; SECTOR_BYTES]);
        let mut out = [0; 7 * ANSWER_ROOM];
        let text = b"call=open ring=3\n\
            call=write reg=154 value=32\ncall=write reg=156 value=96\ncall=write reg=10 value=128\n\
            call=kind number=3\ncall=subheader file=1 channel=2 submode=36 coding=127\n\
            call=sector min=0 sec=2 frame=0 fill=66\n";
        let size = bench(&mut memory, &mut sector, text, &mut out);
        let answers = core::str::from_utf8(&out[..size]).expect("text");
        assert_eq!(answers.lines().last(), Some("n=7 answer=0 out=0 tcc=1 bufc=1 why=0 irq=0"));
        assert_eq!(open(&mut sector), Ok(()));
        assert_eq!(sector[12..24], [0, 2, 0, 2, 1, 2, 36, 127, 1, 2, 36, 127]);
        assert_eq!((Kind::of(&sector), &sector[Kind::Form2.user()]), (Ok(Kind::Form2), &[66; 2324][..]));
    }

    #[test]
    fn lines_are_run_while_there_is_room() {
        let (mut memory, mut sector) = (vec![0; RING_BYTES], [0; SECTOR_BYTES]);
        let mut out = [b'.'; 2 * ANSWER_ROOM];
        let text = b"call=open ring=3\ncall=look\ncall=look";
        let size = bench(&mut memory, &mut sector, text, &mut out);
        let answers = "n=1 answer=0 out=0 tcc=0 bufc=0 why=0 irq=0\nn=2 answer=0 out=0 tcc=0 bufc=0 why=0 irq=0\n";
        assert_eq!(core::str::from_utf8(&out[..size]), Ok(answers));
        assert!(out[size..].iter().all(|&byte| byte == b'.'));
        assert_eq!(bench(&mut memory, &mut sector, text, &mut out[..ANSWER_ROOM - 1]), 0);
    }
}

//! What a call must answer and leave, by the model, and what the calls without a chip must, by the independent code.

use crate::call::{Answer, Call};
use crate::library::Lent;
use ecma130::{judge, parity_holds, seal, seal_xa, Address, Refusal};
use model::Chip;

/// Runs the call on the model and on the memory that it is lent, and gives the answer.
pub fn answered(chip: &mut Chip, call: &Call, lent: Lent) -> Answer {
    let reply = match *call {
        Call::Look { .. } => return looked(chip, lent.ring),
        Call::Words { .. } => return burst(chip, &lent.ring[..], lent.words),
        Call::Open { blocks } => opened(chip, blocks),
        Call::Write { reg, value } => chip.write(reg, value),
        Call::Read { reg } => chip.read(reg),
        Call::SetBlock { block } => chip.set_block(block),
        Call::SetWindow { offset, words } => chip.set_window(offset, words),
        Call::SetExpected { address } => chip.set_expected(address),
        Call::PacketByte { index } => chip.packet_byte(index),
        Call::Reset => chip.reset(),
        Call::Sector { .. } => chip.sector(lent.ring, lent.sector),
        Call::Word { .. } => chip.host_word(lent.ring),
        Call::Command { code } => chip.host_command(code),
        Call::PacketWord { word } => chip.packet_word(word),
        Call::Status => chip.host_status(),
        Call::Srst => chip.srst(),
    };
    match reply {
        Ok(result) => Answer::Reply { number: 0, result: result as u32 },
        Err(refusal) => call.refused(refusal as u32),
    }
}

/// The result is all that failed, as one number.
pub fn judged(sector: &[u8], expected: Address) -> Answer {
    reply(judge(sector, expected).map(|facts| facts.why() as u32))
}

/// Writes the sector too.
pub fn sealed(sector: &mut [u8], address: Address) -> Answer {
    reply(seal(sector, address).map(|()| 0))
}

/// Writes the sector of a kind.
pub fn sealed_xa(sector: &mut [u8], address: Address, kind: u16, subheader: [u8; 4]) -> Answer {
    reply(seal_xa(sector, address, kind, subheader).map(|()| 0))
}

/// The result is 1 where every word holds that the sector has.
pub fn parity_checked(sector: &[u8]) -> Answer {
    reply(parity_holds(sector).map(u32::from))
}

/// The result is the next address: the frame in its low byte, the second in the next, the minute in the third.
pub fn followed(address: Address) -> Answer {
    if !address.is_valid() {
        return reply(Err(Refusal::BadAddress));
    }
    let Address { minute, second, frame } = address.next();
    reply(Ok((minute as u32) << 16 | (second as u32) << 8 | frame as u32))
}

fn reply(answer: Result<u32, Refusal>) -> Answer {
    match answer {
        Ok(result) => Answer::Reply { number: 0, result },
        Err(refusal) => Answer::Reply { number: refusal.number() as u32, result: 0 },
    }
}

fn opened(chip: &mut Chip, blocks: u16) -> model::Answer {
    *chip = Chip::open(blocks)?;
    Ok(0)
}

/// The offset is where the model's part of the ring lies.
fn looked(chip: &Chip, ring: &[u8]) -> Answer {
    let part = chip.look(ring);
    let offset = if part.is_empty() { 0 } else { part.as_ptr() as usize - ring.as_ptr() as usize };
    Answer::Part { offset, length: part.len() }
}

/// Word after word, until one is refused. With a count of 0 nothing is asked.
fn burst(chip: &mut Chip, ring: &[u8], words: &mut [u16]) -> Answer {
    for (handed, place) in words.iter_mut().enumerate() {
        match chip.host_word(ring) {
            Ok(word) => *place = word,
            Err(refusal) if handed == 0 => return Answer::Burst { number: refusal as u32, result: 0, handed: 0 },
            Err(_) => return Answer::Burst { number: 0, result: 0, handed },
        }
    }
    Answer::Burst { number: 0, result: 0, handed: words.len() }
}

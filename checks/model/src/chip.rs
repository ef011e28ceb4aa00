//! The chip: its kept numbers, and every call that the paper names.
//!
//! A call tests its refusals first, in the order of their numbers, and only
//! then changes anything.

use ecma130::{judge, open, Address, Facts, SECTOR_BYTES};

pub const BLOCK_BYTES: usize = 2560;
const START_ADDRESS: Address = Address::new(0, 2, 0);
const PACKET_COMMAND: u16 = 0xA0;
const PACKET_WORDS: usize = 6;
/// The most that a start may hand over: 35h and 34h hold any even count to here, and none of them reads as 0.
const MOST_BYTES: usize = 65_534;

#[derive(Clone, Copy, Debug, PartialEq, Eq)]
pub enum Refusal {
    Unsound = 1,
    NoRegister = 2,
    OutOfRange = 3,
    Barred = 4,
    Switches = 5,
    TooFew = 6,
    DecoderOff = 7,
    Held = 8,
    AtStop = 9,
}

/// The result of a call that was done, or why it was refused.
pub type Answer = Result<u16, Refusal>;

/// The part of each block that the host is given; 0 words is no window.
#[derive(Clone, Copy, Debug, Default, PartialEq, Eq)]
pub struct Window {
    pub offset: usize,
    pub words: usize,
}

#[derive(Clone, Copy, Debug, PartialEq, Eq)]
pub struct Transfer {
    pub blocks_left: usize,
    /// Words of the present block that are already handed over.
    pub place: usize,
}

#[derive(Clone, Copy, Debug, PartialEq, Eq)]
pub struct Chip {
    // The ring.
    pub blocks: usize,
    pub t: usize,
    pub b: usize,
    pub tcc: usize,
    pub bufc: usize,
    pub ttc: usize,
    pub held: bool,
    pub expected: Address,
    pub last_block: usize,
    /// What failed in the last sector that was stored.
    pub facts: Facts,
    pub decen: bool,
    // 9Ah to 9Ch and 12h.
    pub blimen: bool,
    pub blims: bool,
    pub buflim: usize,
    pub atten: bool,
    pub acmen: bool,
    pub tcincen: bool,
    pub atlim: usize,
    pub mbc: usize,
    pub window: Window,
    // 18h.
    pub apkten: bool,
    pub adcen: bool,
    pub ascen: bool,
    pub autoen: bool,
    pub stwcen: bool,
    pub a0ien: bool,
    // The task file as the host sees it.
    pub reg31: u8,
    pub reg32: u8,
    pub reg34: u8,
    pub reg35: u8,
    pub command: u8,
    pub bsy: bool,
    pub drdy: bool,
    pub dsc: bool,
    pub drq: bool,
    pub corr: bool,
    pub check: bool,
    pub hirq: bool,
    // 3Dh and 3Eh: what the packet command and completion put in the status.
    pub adsc: bool,
    pub end_drdy: bool,
    pub end_corr: bool,
    pub end_check: bool,
    // Packets and transfers.
    pub apkt: bool,
    pub fpkt: bool,
    pub packet: [u8; 12],
    /// Packet words received so far, while a reception lasts.
    pub reception: Option<usize>,
    pub transfer: Option<Transfer>,
}

fn need(holds: bool, refusal: Refusal) -> Result<(), Refusal> {
    if holds {
        Ok(())
    } else {
        Err(refusal)
    }
}

fn bit(value: u8, place: u8) -> bool {
    value >> place & 1 == 1
}

fn put(register: &mut u8, value: u8) -> Result<(), Refusal> {
    *register = value;
    Ok(())
}

fn at(flag: bool, place: u8) -> u16 {
    (flag as u16) << place
}

/// Opening, soundness and what the other calls ask of the state.
impl Chip {
    pub fn open(ring: u16) -> Result<Chip, Refusal> {
        need((3..=255).contains(&ring), Refusal::Unsound)?;
        Ok(Chip::opened(ring as usize))
    }

    fn opened(blocks: usize) -> Chip {
        Chip {
            blocks,
            t: 0,
            b: 0,
            tcc: 0,
            bufc: 0,
            ttc: 0,
            held: false,
            expected: START_ADDRESS,
            last_block: 0,
            facts: Facts::default(),
            decen: false,
            blimen: false,
            blims: false,
            buflim: 0,
            atten: false,
            acmen: false,
            tcincen: false,
            atlim: 0,
            mbc: 0,
            window: Window::default(),
            apkten: false,
            adcen: false,
            ascen: false,
            autoen: false,
            stwcen: false,
            a0ien: false,
            reg31: 0,
            reg32: 0,
            reg34: 0x14,
            reg35: 0xEB,
            command: 0,
            bsy: false,
            drdy: false,
            dsc: false,
            drq: false,
            corr: false,
            check: false,
            hirq: false,
            adsc: false,
            end_drdy: false,
            end_corr: false,
            end_check: false,
            apkt: false,
            fpkt: false,
            packet: [0; 12],
            reception: None,
            transfer: None,
        }
    }

    pub fn is_sound(&self) -> bool {
        (3..=255).contains(&self.blocks)
            && [self.t, self.b, self.tcc, self.bufc, self.last_block].iter().all(|&kept| kept < self.blocks)
            && self.buflim <= self.blocks - 2
            && self.ttc <= 255
            && self.mbc <= 31
            && self.atlim <= 31
            && self.expected.is_valid()
            && (self.window.words == 0 || self.window.fits())
            && self.reception.is_none_or(|words| words < PACKET_WORDS)
            && self.transfer.is_none_or(|transfer| self.can_run(transfer))
    }

    fn can_run(&self, transfer: Transfer) -> bool {
        (1..=self.tcc).contains(&transfer.blocks_left) && transfer.place < self.window.words
    }

    fn ring_bytes(&self) -> usize {
        self.blocks * BLOCK_BYTES
    }

    fn need_sound(&self) -> Result<(), Refusal> {
        need(self.is_sound(), Refusal::Unsound)
    }

    fn need_no_transfer(&self) -> Result<(), Refusal> {
        need(self.transfer.is_none(), Refusal::Barred)
    }

    fn need_idle(&self) -> Result<(), Refusal> {
        need(self.is_idle(), Refusal::Barred)
    }

    fn is_idle(&self) -> bool {
        self.transfer.is_none() && self.reception.is_none()
    }

    fn need_decoder_off(&self) -> Result<(), Refusal> {
        need(!self.decen, Refusal::Switches)
    }

    pub fn is_at_stop(&self) -> bool {
        if self.blims {
            self.bufc >= self.buflim
        } else {
            (self.b + 1) % self.blocks == self.t
        }
    }

    pub fn status_byte(&self) -> u16 {
        at(self.bsy, 7) | at(self.drdy, 6) | at(self.dsc, 4) | at(self.drq, 3) | at(self.corr, 2) | at(self.check, 0)
    }

    /// Every accepted call, reads too, may be followed by a start.
    fn settle(&mut self, answer: Answer) -> Answer {
        if answer.is_ok() && self.start_is_due() {
            self.start();
        }
        answer
    }
}

impl Window {
    fn fits(self) -> bool {
        (1..=SECTOR_BYTES / 2).contains(&self.words) && self.offset + 2 * self.words <= SECTOR_BYTES
    }

    /// The most blocks of a start; there must be a window.
    pub fn most_blocks(self) -> usize {
        MOST_BYTES / (2 * self.words)
    }
}

/// Sectors.
impl Chip {
    pub fn sector(&mut self, ring: &mut [u8], sector: &[u8]) -> Answer {
        let answer = self.take_sector(ring, sector);
        self.settle(answer)
    }

    fn take_sector(&mut self, ring: &mut [u8], sector: &[u8]) -> Answer {
        self.need_sound()?;
        need(ring.len() == self.ring_bytes() && sector.len() == SECTOR_BYTES, Refusal::Unsound)?;
        need(self.decen, Refusal::DecoderOff)?;
        need(!self.held, Refusal::Held)?;
        need(!self.is_at_stop(), Refusal::AtStop)?;
        let block = &mut ring[self.b * BLOCK_BYTES..][..SECTOR_BYTES];
        block.copy_from_slice(sector);
        open(block).expect("the length was tested");
        self.facts = judge(block, self.expected).expect("length and address were tested");
        self.last_block = self.b;
        self.b = (self.b + 1) % self.blocks;
        self.bufc += 1;
        if self.facts.is_good() {
            self.tcc += 1;
            self.expected = self.expected.next();
        } else {
            self.held = true;
        }
        Ok(self.decoder_status())
    }

    /// Register 80h, made from the facts.
    fn decoder_status(&self) -> u16 {
        self.facts.bits() as u16
    }

    /// What was written after the good blocks is given up, a bad block too.
    fn stop_decoder(&mut self) {
        self.decen = false;
        self.held = false;
        self.give_up_unread_blocks();
    }

    fn give_up_unread_blocks(&mut self) {
        self.bufc = self.tcc;
        self.b = (self.t + self.tcc) % self.blocks;
    }
}

/// Registers.
impl Chip {
    pub fn read(&mut self, reg: u16) -> Answer {
        let answer = self.need_sound().and_then(|_| self.register(reg));
        self.settle(answer)
    }

    fn register(&self, reg: u16) -> Answer {
        Ok(match reg {
            0x12 => self.mbc as u16,
            0x18 => self.switches_18(),
            0x24 => self.t as u16,
            0x3A => self.last_block as u16,
            0x25 | 0x3B => 0,
            0x30 => at(self.apkt, 0) | at(self.fpkt, 1),
            0x31 => self.reg31 as u16,
            0x32 => self.reg32 as u16,
            0x34 => self.reg34 as u16,
            0x35 => self.reg35 as u16,
            0x37 => self.command as u16,
            0x38 => self.status_byte(),
            0x80 => self.decoder_status(),
            0x9A => at(self.blimen, 5) | at(self.blims, 4),
            0x9B => self.bufc as u16,
            0x9C => at(self.atten, 7) | at(self.acmen, 6) | at(self.tcincen, 5) | self.atlim as u16,
            0x9D => self.tcc as u16,
            0x9F => self.ttc as u16,
            _ => return Err(Refusal::NoRegister),
        })
    }

    fn switches_18(&self) -> u16 {
        at(self.apkten, 7)
            | at(self.adcen, 6)
            | at(self.ascen, 5)
            | at(self.autoen, 4)
            | at(self.stwcen, 3)
            | at(self.a0ien, 0)
    }

    pub fn write(&mut self, reg: u16, value: u16) -> Answer {
        let answer = self.need_sound().and_then(|_| self.write_register(reg, value));
        self.settle(answer.map(|()| 0))
    }

    fn write_register(&mut self, reg: u16, value: u16) -> Result<(), Refusal> {
        let value_in = |bits: u8| match u8::try_from(value) {
            Ok(byte) if byte & !bits == 0 => Ok(byte),
            _ => Err(Refusal::OutOfRange),
        };
        match reg {
            0x07 => self.write_07(value_in(0xFF)?),
            0x0A => self.write_0a(value_in(0x80)?),
            0x12 => self.write_12(value_in(0x1F)?),
            0x17 => self.write_17(value_in(0xFF)?),
            0x18 => self.write_18(value_in(0xF9)?),
            0x31 => put(&mut self.reg31, value_in(0xFF)?),
            0x32 => put(&mut self.reg32, value_in(0xFF)?),
            0x34 => put(&mut self.reg34, value_in(0xFF)?),
            0x35 => put(&mut self.reg35, value_in(0xFF)?),
            0x37 => self.write_37(value_in(0xD5)?),
            0x3D => self.write_3d(value_in(0x10)?),
            0x3E => self.write_3e(value_in(0x45)?),
            0x9A => self.write_9a(value_in(0x30)?),
            0x9B => self.write_9b(value_in(0xFF)?),
            0x9C => self.write_9c(value_in(0xFF)?),
            0x9D => self.write_9d(value_in(0xFF)?),
            0x9E => self.write_9e(value_in(0xFF)?),
            0x9F => self.write_9f(value_in(0xFF)?),
            _ => Err(Refusal::NoRegister),
        }
    }

    fn write_07(&mut self, _any: u8) -> Result<(), Refusal> {
        self.apkt = false;
        Ok(())
    }

    fn write_0a(&mut self, value: u8) -> Result<(), Refusal> {
        if value == 0 {
            self.stop_decoder();
            return Ok(());
        }
        need(self.blimen && self.tcincen, Refusal::Switches)?;
        self.decen = true;
        Ok(())
    }

    fn write_12(&mut self, value: u8) -> Result<(), Refusal> {
        self.need_no_transfer()?;
        self.mbc = value as usize;
        Ok(())
    }

    fn write_17(&mut self, value: u8) -> Result<(), Refusal> {
        need([0x01, 0x04, 0x10].contains(&value), Refusal::OutOfRange)?;
        self.need_idle()?;
        match value {
            0x01 => self.complete(),
            0x04 => return self.start_by_firmware(),
            _ => self.sign(),
        }
        Ok(())
    }

    fn write_18(&mut self, value: u8) -> Result<(), Refusal> {
        need(!bit(value, 5) || bit(value, 6), Refusal::OutOfRange)?;
        self.need_idle()?;
        self.apkten = bit(value, 7);
        self.adcen = bit(value, 6);
        self.ascen = bit(value, 5);
        self.autoen = bit(value, 4);
        self.stwcen = bit(value, 3);
        self.a0ien = bit(value, 0);
        Ok(())
    }

    fn write_37(&mut self, value: u8) -> Result<(), Refusal> {
        self.need_idle()?;
        self.drdy = bit(value, 6);
        self.dsc = bit(value, 4);
        self.drq = false;
        self.corr = bit(value, 2);
        self.check = bit(value, 0);
        Ok(())
    }

    fn write_3d(&mut self, value: u8) -> Result<(), Refusal> {
        self.adsc = bit(value, 4);
        Ok(())
    }

    fn write_3e(&mut self, value: u8) -> Result<(), Refusal> {
        self.end_drdy = bit(value, 6);
        self.end_corr = bit(value, 2);
        self.end_check = bit(value, 0);
        Ok(())
    }

    fn write_9a(&mut self, value: u8) -> Result<(), Refusal> {
        self.need_decoder_off()?;
        self.blimen = bit(value, 5);
        self.blims = bit(value, 4);
        Ok(())
    }

    fn write_9b(&mut self, value: u8) -> Result<(), Refusal> {
        need(value as usize <= self.blocks - 2, Refusal::OutOfRange)?;
        self.need_decoder_off()?;
        self.buflim = value as usize;
        Ok(())
    }

    fn write_9c(&mut self, value: u8) -> Result<(), Refusal> {
        self.need_no_transfer()?;
        if bit(value, 5) != self.tcincen {
            self.need_decoder_off()?;
        }
        self.atten = bit(value, 7);
        self.acmen = bit(value, 6);
        self.tcincen = bit(value, 5);
        self.atlim = (value & 0x1F) as usize;
        if !self.acmen {
            self.ttc = 0;
        }
        Ok(())
    }

    fn write_9d(&mut self, value: u8) -> Result<(), Refusal> {
        self.need_no_transfer()?;
        self.need_decoder_off()?;
        need(value as usize <= self.tcc, Refusal::TooFew)?;
        self.tcc = value as usize;
        self.give_up_unread_blocks();
        Ok(())
    }

    fn write_9e(&mut self, value: u8) -> Result<(), Refusal> {
        let count = value as usize;
        self.need_no_transfer()?;
        if !self.acmen {
            return Ok(());
        }
        need(count <= self.tcc, Refusal::TooFew)?;
        self.tcc -= count;
        self.bufc = self.bufc.saturating_sub(count);
        self.t = (self.t + count) % self.blocks;
        Ok(())
    }

    fn write_9f(&mut self, value: u8) -> Result<(), Refusal> {
        self.need_no_transfer()?;
        if self.acmen {
            self.ttc = value as usize;
        }
        Ok(())
    }

    fn sign(&mut self) {
        self.reg34 = 0x14;
        self.reg35 = 0xEB;
        self.clear_status_but_bsy_and_dsc();
    }

    fn clear_status_but_bsy_and_dsc(&mut self) {
        self.drdy = false;
        self.drq = false;
        self.corr = false;
        self.check = false;
    }
}

/// Named calls.
impl Chip {
    pub fn set_block(&mut self, number: u16) -> Answer {
        let answer = self.take_block(number as usize);
        self.settle(answer)
    }

    fn take_block(&mut self, number: usize) -> Answer {
        self.need_sound()?;
        need(number < self.blocks, Refusal::OutOfRange)?;
        self.need_no_transfer()?;
        need(!self.decen && self.tcc == 0, Refusal::Switches)?;
        self.t = number;
        self.b = number;
        Ok(0)
    }

    pub fn set_window(&mut self, offset: u16, words: u16) -> Answer {
        let answer = self.take_window(Window { offset: offset as usize, words: words as usize });
        self.settle(answer)
    }

    fn take_window(&mut self, window: Window) -> Answer {
        self.need_sound()?;
        need(window.fits(), Refusal::OutOfRange)?;
        self.need_no_transfer()?;
        self.window = window;
        Ok(0)
    }

    pub fn set_expected(&mut self, address: Address) -> Answer {
        let answer = self.take_expected(address);
        self.settle(answer)
    }

    fn take_expected(&mut self, address: Address) -> Answer {
        self.need_sound()?;
        need(address.is_valid(), Refusal::OutOfRange)?;
        self.need_decoder_off()?;
        self.expected = address;
        Ok(0)
    }

    pub fn packet_byte(&mut self, index: u16) -> Answer {
        let answer = self.kept_packet_byte(index);
        self.settle(answer)
    }

    fn kept_packet_byte(&self, index: u16) -> Answer {
        self.need_sound()?;
        let byte = self.packet.get(index as usize).ok_or(Refusal::OutOfRange)?;
        need(self.fpkt, Refusal::TooFew)?;
        Ok(*byte as u16)
    }

    pub fn reset(&mut self) -> Answer {
        self.need_sound()?;
        *self = Chip::opened(self.blocks);
        Ok(0)
    }

    /// The window of the oldest block; it has no reply and starts nothing.
    pub fn look<'a>(&self, ring: &'a [u8]) -> &'a [u8] {
        let nothing = self.tcc == 0 || self.window.words == 0;
        if nothing || !self.is_sound() || ring.len() != self.ring_bytes() {
            return &[];
        }
        &ring[self.t * BLOCK_BYTES + self.window.offset..][..2 * self.window.words]
    }
}

/// Starts and ends.
impl Chip {
    fn start_needs_hold(&self) -> bool {
        self.acmen && self.adcen && self.window.words != 0 && self.bsy
    }

    pub fn start_is_due(&self) -> bool {
        self.is_idle() && self.start_needs_hold() && self.atten && self.tcc != 0 && self.ttc != 0
    }

    fn start_by_firmware(&mut self) -> Result<(), Refusal> {
        need(self.start_needs_hold(), Refusal::Switches)?;
        need(self.tcc != 0 && self.blocks_to_start() <= self.tcc, Refusal::TooFew)?;
        self.start();
        Ok(())
    }

    /// With TTC set the chip reckons the burst itself; else MBC says it. Either way its bytes are bounded, which is
    /// why there may be enough good blocks where there are fewer than MBC+1.
    fn blocks_to_start(&self) -> usize {
        let limit = if self.atlim == 0 { 32 } else { self.atlim };
        let asked = if self.ttc != 0 { limit.min(self.tcc).min(self.ttc) } else { self.mbc + 1 };
        asked.min(self.window.most_blocks())
    }

    fn start(&mut self) {
        let blocks = self.blocks_to_start();
        self.mbc = blocks - 1;
        if self.stwcen {
            let bytes = u16::try_from(blocks * self.window.words * 2).expect("the bytes of a start are bounded");
            [self.reg34, self.reg35] = bytes.to_le_bytes();
        }
        self.reg32 = 0x02;
        self.drq = true;
        self.bsy = false;
        self.hirq = true;
        self.transfer = Some(Transfer { blocks_left: blocks, place: 0 });
    }

    fn do_end_steps(&mut self) {
        if self.adcen {
            self.drq = false;
            self.bsy = true;
        }
        if self.ascen {
            self.complete();
        }
    }

    fn complete(&mut self) {
        self.check = self.end_check;
        self.corr = self.end_corr;
        self.drdy = self.end_drdy;
        self.drq = false;
        self.reg32 = 0x03;
        self.bsy = false;
        self.hirq = true;
        self.apkten |= self.autoen;
        self.ascen = false;
    }
}

/// Host accesses.
impl Chip {
    pub fn host_word(&mut self, ring: &[u8]) -> Answer {
        let answer = self.hand_word(ring);
        self.settle(answer)
    }

    fn hand_word(&mut self, ring: &[u8]) -> Answer {
        self.need_sound()?;
        need(ring.len() == self.ring_bytes(), Refusal::Unsound)?;
        let mut transfer = self.transfer.ok_or(Refusal::Switches)?;
        let start = self.t * BLOCK_BYTES + self.window.offset + 2 * transfer.place;
        let word = u16::from_le_bytes([ring[start], ring[start + 1]]);
        transfer.place += 1;
        self.transfer = Some(transfer);
        if transfer.place == self.window.words {
            self.finish_block(transfer.blocks_left - 1);
        }
        Ok(word)
    }

    fn finish_block(&mut self, blocks_left: usize) {
        self.tcc -= 1;
        self.bufc = self.bufc.saturating_sub(1);
        self.ttc = self.ttc.saturating_sub(1);
        self.t = (self.t + 1) % self.blocks;
        if blocks_left == 0 {
            self.transfer = None;
            self.do_end_steps();
        } else {
            self.transfer = Some(Transfer { blocks_left, place: 0 });
        }
    }

    pub fn host_command(&mut self, code: u16) -> Answer {
        let answer = self.take_command(code);
        self.settle(answer)
    }

    fn take_command(&mut self, code: u16) -> Answer {
        self.need_sound()?;
        need(code <= 255, Refusal::OutOfRange)?;
        need(!self.bsy && self.is_idle(), Refusal::Barred)?;
        self.hirq = false;
        self.command = code as u8;
        if code == PACKET_COMMAND && self.apkten {
            self.begin_reception();
        } else {
            self.bsy = true;
        }
        Ok(0)
    }

    fn begin_reception(&mut self) {
        self.apkt = true;
        self.fpkt = false;
        self.packet = [0; 12];
        self.reception = Some(0);
        self.reg31 = 0x00;
        self.reg32 = 0x01;
        self.check = false;
        self.corr = false;
        self.drq = true;
        self.dsc = self.adsc;
        self.drdy = true;
        self.hirq |= self.a0ien;
        self.apkten = false;
        self.bsy = false;
    }

    pub fn packet_word(&mut self, word: u16) -> Answer {
        let answer = self.take_packet_word(word);
        self.settle(answer)
    }

    fn take_packet_word(&mut self, word: u16) -> Answer {
        self.need_sound()?;
        let words = self.reception.ok_or(Refusal::Switches)?;
        self.packet[2 * words..2 * words + 2].copy_from_slice(&word.to_le_bytes());
        if words + 1 < PACKET_WORDS {
            self.reception = Some(words + 1);
        } else {
            self.reception = None;
            self.fpkt = true;
            self.do_end_steps();
        }
        Ok(0)
    }

    pub fn host_status(&mut self) -> Answer {
        let answer = self.take_status();
        self.settle(answer)
    }

    fn take_status(&mut self) -> Answer {
        self.need_sound()?;
        self.hirq = false;
        Ok(self.status_byte())
    }

    /// The host's abort: a half-read block stays the oldest one.
    pub fn srst(&mut self) -> Answer {
        let answer = self.abort();
        self.settle(answer)
    }

    fn abort(&mut self) -> Answer {
        self.need_sound()?;
        self.transfer = None;
        self.reception = None;
        self.ttc = 0;
        self.hirq = false;
        self.apkt = false;
        self.fpkt = false;
        self.sign();
        self.bsy = false;
        Ok(0)
    }
}

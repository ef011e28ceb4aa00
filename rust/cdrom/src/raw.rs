//! The calls as the archive has them, with the types of `include/cdrom.h`. The caller keeps what the header asks.

/// The words of a chip's record.
pub const CHIP_WORDS: usize = 28;

extern "C" {
    pub fn cdrom_seal(sector: *mut u8, length: usize, minute: u16, second: u16, frame: u16) -> u32;
    pub fn cdrom_seal_xa(
        sector: *mut u8,
        length: usize,
        minute: u16,
        second: u16,
        frame: u16,
        kind: u16,
        subheader: *const [u8; 4],
    ) -> u32;
    pub fn cdrom_open(sector: *mut u8, length: usize) -> u32;
    pub fn cdrom_judge(sector: *const u8, length: usize, minute: u16, second: u16, frame: u16) -> u32;
    pub fn cdrom_parity(sector: *const u8, length: usize) -> u32;
    pub fn cdrom_next_address(minute: u16, second: u16, frame: u16) -> u32;
    pub fn cdrom_edc(bytes: *const u8, length: usize) -> u32;

    pub fn cdrom_chip_open(chip: *mut [u16; CHIP_WORDS], blocks: u16) -> u32;
    pub fn cdrom_chip_write(chip: *mut [u16; CHIP_WORDS], reg: u16, value: u16) -> u32;
    pub fn cdrom_chip_read(chip: *mut [u16; CHIP_WORDS], reg: u16) -> u32;
    pub fn cdrom_chip_set_block(chip: *mut [u16; CHIP_WORDS], block: u16) -> u32;
    pub fn cdrom_chip_set_window(chip: *mut [u16; CHIP_WORDS], offset: u16, words: u16) -> u32;
    pub fn cdrom_chip_set_expected(chip: *mut [u16; CHIP_WORDS], minute: u16, second: u16, frame: u16) -> u32;
    pub fn cdrom_chip_packet_byte(chip: *mut [u16; CHIP_WORDS], index: u16) -> u32;
    pub fn cdrom_chip_reset(chip: *mut [u16; CHIP_WORDS]) -> u32;
    pub fn cdrom_chip_sector(
        chip: *mut [u16; CHIP_WORDS],
        ring: *mut u8,
        ring_length: usize,
        sector: *const u8,
        length: usize,
    ) -> u32;
    pub fn cdrom_chip_why(chip: *const [u16; CHIP_WORDS]) -> u32;
    pub fn cdrom_chip_look(
        chip: *const [u16; CHIP_WORDS],
        ring: *const u8,
        ring_length: usize,
        offset: *mut usize,
    ) -> usize;
    pub fn cdrom_chip_word(chip: *mut [u16; CHIP_WORDS], ring: *const u8, ring_length: usize) -> u32;
    pub fn cdrom_chip_words(
        chip: *mut [u16; CHIP_WORDS],
        ring: *const u8,
        ring_length: usize,
        words: *mut u16,
        count: usize,
        handed: *mut usize,
    ) -> u32;
    pub fn cdrom_chip_command(chip: *mut [u16; CHIP_WORDS], code: u16) -> u32;
    pub fn cdrom_chip_packet_word(chip: *mut [u16; CHIP_WORDS], word: u16) -> u32;
    pub fn cdrom_chip_status(chip: *mut [u16; CHIP_WORDS]) -> u32;
    pub fn cdrom_chip_irq(chip: *const [u16; CHIP_WORDS]) -> u32;
    pub fn cdrom_chip_srst(chip: *mut [u16; CHIP_WORDS]) -> u32;

    pub fn cdrom_bench(
        memory: *mut u8,
        memory_length: usize,
        sector: *mut u8,
        sector_length: usize,
        text: *const u8,
        text_length: usize,
        out: *mut u8,
        out_length: usize,
    ) -> usize;
}

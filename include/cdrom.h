/* A CD-ROM drive's buffer: the chip with its ring of blocks; sectors of mode 1 (ECMA-130) and of mode 2 in both forms (CD-ROM XA); and the
 * bench over a text of calls.
 *
 * Link libcdrom.a, which `make lib` puts into target/staticlib (x86-64 Linux). Of a C library it needs `memset` and nothing
 * else. The calls keep no state, take no lock and allocate nothing, and return for every input. docs/BENCHMARKS.md has the stack that
 * each takes, docs/FIRMWARE.md the way for boards with another processor.
 *
 * The caller's part: a pointer is not null, even where the length is 0; it points to that many bytes or words, aligned as its type
 * asks; nothing else writes them during the call, nor reads them where the call writes; and what is lent to one call does not overlap. */
#ifndef CDROM_H
#define CDROM_H

#include <stddef.h>
#include <stdint.h>

#ifdef __cplusplus
extern "C" {
#endif

/* Goes up when a name, a size, a number or a call of this header is new or changes its meaning.
 *
 * From 5 to 6: cdrom_next_address is new, with CDROM_MINUTE, CDROM_SECOND and CDROM_FRAME. The chip's record and all other calls are as
 * in 5.
 *
 * From 4 to 5: sectors of mode 2 are taken by the rules of CD-ROM XA, where their mode was a fault and their code and parity went by the
 * rule of mode 1: so cdrom_judge, cdrom_parity and cdrom_chip_sector answer otherwise where byte 15 is 2. cdrom_seal_xa and the kinds are
 * new, and the bench takes the lines `call=kind` and `call=subheader`. The chip's record and all other calls are as in 4.
 *
 * From 3 to 4: the bytes of a start do not pass 65,534, so that 35h and 34h have the whole count, where a larger one was cut to two bytes: of 32
 * blocks of 1,024 words 31 are started (CDROM_ADTT). The chip's record and all other calls are as in 3.
 *
 * From 2 to 3: cdrom_seal writes the parity, where it kept the bytes that were there, so that the sectors of cdrom_bench have it too;
 * cdrom_parity is new. The chip's record and all other calls are as in 2.
 *
 * From 1 to 2: the result of cdrom_judge is why (CDROM_WHY_..); a record that was kept under 1 must not be handed over; cdrom_chip_why is
 * new; the bench prints `why=` before `irq=`, and takes the line `call=scratch`.
 *
 * docs/FIRMWARE.md says what to change in code for 1 to 5. */
#define CDROM_VERSION 6

#define CDROM_SECTOR_BYTES 2352

/* The kinds of sectors: mode 1, and mode 2 in its forms 1 and 2. */
#define CDROM_MODE1 1
#define CDROM_FORM1 2
#define CDROM_FORM2 3

/* Where a sector's user bytes begin, and how many there are: of mode 1; and of mode 2, in form 1 and in form 2. */
#define CDROM_USER_OFFSET 16
#define CDROM_USER_BYTES 2048
#define CDROM_XA_USER_OFFSET 24
#define CDROM_FORM1_BYTES 2048
#define CDROM_FORM2_BYTES 2324

/* The same by the kind, which is evaluated once. */
#define CDROM_USER_OFFSET_OF(kind) ((kind) == CDROM_MODE1 ? CDROM_USER_OFFSET : CDROM_XA_USER_OFFSET)
#define CDROM_USER_BYTES_OF(kind) ((kind) == CDROM_FORM2 ? CDROM_FORM2_BYTES : CDROM_USER_BYTES)

/* The subheader of mode 2: file number, channel number, submode and coding information, in bytes 16 to 19 and once more in 20 to 23. Its
 * bits mean nothing to the library but for the submode's form bit, which is set in form 2. */
#define CDROM_SUBHEADER_OFFSET 16
#define CDROM_SUBHEADER_BYTES 4
#define CDROM_SUBMODE_FORM2 0x20

/* The kind of an opened sector as cdrom_judge, cdrom_parity and cdrom_chip_sector read it: byte 15 is 2 in mode 2, where byte 18 has the
 * form bit; with any other byte 15 the sector goes by the rule of mode 1, and is bad unless it is 1. Takes a pointer to the sector's first
 * byte, which is evaluated once more where byte 15 is 2: hand over a variable, and nothing that has an effect. */
#define CDROM_KIND_OF(sector) ((sector)[15] != 2 ? CDROM_MODE1 : (sector)[18] & CDROM_SUBMODE_FORM2 ? CDROM_FORM2 : CDROM_FORM1)

/* A ring has 3 to 255 blocks; its memory is as many times the bytes of a block. */
#define CDROM_BLOCK_BYTES 2560
#define CDROM_LEAST_BLOCKS 3
#define CDROM_MOST_BLOCKS 255

/* Reply numbers. A call that refuses changes no byte; where several refusals apply it gives the lowest number. */
#define CDROM_DONE 0
#define CDROM_WRONG_LENGTH 1 /* a wrong length; of the chip also: a ring of so many blocks cannot be, or the record is unsound */
#define CDROM_NO_REGISTER 2  /* no such register in that direction; of the bench also: the line is malformed */
#define CDROM_OUT_OF_RANGE 3 /* a value, an address or a kind is out of its range, or a subheader is of the other form */
#define CDROM_BARRED 4       /* not now: a transfer runs, a packet is being received, or BSY is set */
#define CDROM_SWITCHES 5     /* the switches are not as the call needs them; of the bench also: no chip is open */
#define CDROM_TOO_FEW 6      /* fewer good blocks than asked for, or no full packet */
#define CDROM_DECODING_OFF 7 /* a sector while DECEN is low */
#define CDROM_HELD 8         /* a sector after a bad one; take DECEN low first */
#define CDROM_NO_ROOM 9      /* a sector, and the ring is at its stop */
#define CDROM_BAD_ADDRESS CDROM_OUT_OF_RANGE

/* An answer: the reply number in the low byte, the result's bits above it. A refusal has the result 0: look at the number first. */
#define CDROM_NUMBER(answer) ((answer) & 0xFF)
#define CDROM_RESULT(answer) ((answer) >> 8)

/* The parts of an answer whose result is an address, a byte for each. */
#define CDROM_MINUTE(answer) ((answer) >> 24)
#define CDROM_SECOND(answer) ((answer) >> 16 & 0xFF)
#define CDROM_FRAME(answer) ((answer) >> 8 & 0xFF)

/* -- Sectors ------------------------------------------------------------------------------------------------------------------- */

/* Makes the buffer a scrambled sector of mode 1 at an address, where it lies. The user bytes (16 to 2,063) that are there become the
 * sector's. All other bytes are written, whatever was there: sync, address and mode (0 to 15), the code (2,064 to 2,067), zeros (2,068 to
 * 2,075), and the P and Q parity of ECMA-130 Annex A (2,076 to 2,351). Then bytes 12 to 2,351 are scrambled. A sealed sector that is
 * opened and sealed again at its address is the same, byte for byte. Minute 0..99, second 0..59, frame 0..74. Refusals: 1 another length,
 * 3 the address. The result is 0. */
uint32_t cdrom_seal(uint8_t *sector, size_t length, uint16_t minute, uint16_t second, uint16_t frame);

/* The same for a kind, CDROM_MODE1, CDROM_FORM1 or CDROM_FORM2. With CDROM_MODE1 it is cdrom_seal, and what the four bytes of `subheader`
 * are does not matter. In mode 2 byte 15 becomes 2, bytes 16 to 19 and 20 to 23 become the subheader, and the user bytes that are there
 * (24 to 2,071 in form 1, 24 to 2,347 in form 2) the sector's. What is written behind them:
 *
 *   form 1: the code of bytes 16 to 2,071 (2,072 to 2,075), and the parity (2,076 to 2,351), worked out as if bytes 12 to 15 were zeros
 *   form 2: the code of bytes 16 to 2,347 (2,348 to 2,351); it has no parity
 *
 * A sealed sector that is opened and sealed again with its kind, address and subheader is the same, byte for byte. The subheader must not
 * lie in the sector: what is lent does not overlap, so copy it out first. Refusals: 1 another length; 3 the address, another kind, or a
 * form bit (CDROM_SUBMODE_FORM2 in subheader[2]) that is set in form 1 or not set in form 2. The result is 0. */
uint32_t cdrom_seal_xa(uint8_t *sector, size_t length, uint16_t minute, uint16_t second, uint16_t frame, uint16_t kind,
                       const uint8_t subheader[4]);

/* Descrambles a sector of any kind where it lies. Refusals: 1 another length. The result is 0. */
uint32_t cdrom_open(uint8_t *sector, size_t length);

/* Why a sector is not good: each of the four is tested, whatever the others say, and those that failed are added up. 0 is a good
 * sector, 15 the most. Which bytes the code is of, and where it stands, goes by the kind that is read (CDROM_KIND_OF):
 *
 *   mode 1: bytes 0 to 2,063, in 2,064 to 2,067. A damaged sync, mode or address byte fails it too, so that the address alone is a sector
 *           that was read well and lies elsewhere
 *   form 1: bytes 16 to 2,071, in 2,072 to 2,075. Sync and address are not covered: a damaged byte there is CDROM_WHY_SYNC or
 *           CDROM_WHY_ADDRESS alone, so that the address alone may be a damaged byte. Nor is byte 15, which chooses the rule (below)
 *   form 2: bytes 16 to 2,347, in 2,348 to 2,351, and sync and address as in form 1. Four zeros there say that no code was written, and
 *           are taken: then no user byte was checked, and the sector is good all the same
 *
 * One wrong byte of those that are tested is told as long as the kind is read as before, in form 2 also as long as 2,348 to 2,351 are not
 * zeros, neither before nor after. But byte 15 says the kind. Where that of a good mode 1 sector becomes 2, the first user bytes are taken
 * for subheaders; if those in 16 to 19 and 20 to 23 are equal and have the form bit, and 2,348 to 2,351 are zeros, the sector is judged
 * good. It may be good too where the code of the form that is then read happens to fit, and so may a good mode 2 sector whose byte 15
 * becomes 1, by the code of mode 1. */
#define CDROM_WHY_SYNC 8    /* bytes 0 to 11 are not the sync bytes */
#define CDROM_WHY_MODE 4    /* byte 15 is neither 1 nor 2, or it is 2 and bytes 16 to 19 are not those of 20 to 23 */
#define CDROM_WHY_EDC 2     /* the error detection code is not that of the bytes it covers; four zeros in form 2 are none */
#define CDROM_WHY_ADDRESS 1 /* bytes 12 to 14 are another address than the expected one */

/* The byte of register 80h, made of why: CDROM_STAERR where sync, mode or EDC failed, CDROM_HCEI where the address did. From a why of 2
 * on the sum reaches CDROM_STAERR, and its lowest bit is that of why: so the argument is evaluated once. */
#define CDROM_TARSTA_OF(why) ((((why) & 15) + CDROM_STAERR - CDROM_WHY_EDC) & (CDROM_STAERR | CDROM_HCEI))

/* Judges an opened sector, of the kind that is read from it, against the address that is expected. A raw image of a disc (2,352 bytes a
 * sector) holds its sectors descrambled: they are judged as they are, without cdrom_open. Refusals: 1 another length, 3 the address. The
 * result is why: 0 for a good sector, or the CDROM_WHY_.. of all that failed. The whole answer is 0 exactly for a good sector. */
uint32_t cdrom_judge(const uint8_t *sector, size_t length, uint16_t minute, uint16_t second, uint16_t frame);

/* Whether the parity of an opened sector holds: 43 P words and 26 Q words in each of two byte planes, 138 in all. The result is 1 if every
 * one holds, and 0 if one does not. So the whole answer is 0x100 for yes, 0 for no and 1 for a refusal: here 0 is not the good one, and
 * CDROM_RESULT of the answer is true exactly for yes. Refusals: 1 another length.
 *
 * It goes by the kind that is read (CDROM_KIND_OF). The words of mode 1 cover bytes 12 to 2,351; those of form 1 take bytes 12 to 15 as
 * zeros, whatever they are, and cover 16 to 2,351. Where all hold, a change of any one covered byte makes it a no, unless it changes the
 * kind that is read. Form 2 has no parity: the answer is yes, and says nothing of its bytes.
 *
 * Parity is none of the four that cdrom_judge tests. A good sector may have wrong parity, since the bytes behind the code are not judged,
 * and a bad one right parity: 2,352 zeros are a yes. */
uint32_t cdrom_parity(const uint8_t *sector, size_t length);

/* The address after an address, as the chip's expected one goes on after a good sector: the next frame; the next second after frame 74, the
 * next minute after second 59, and 00:00:00 after 99:59:74. The result has the three (CDROM_MINUTE, CDROM_SECOND and CDROM_FRAME of the
 * answer). Refusals: 3 the address. */
uint32_t cdrom_next_address(uint16_t minute, uint16_t second, uint16_t frame);

/* The error detection code of any number of bytes; it is no answer, and never refused. */
uint32_t cdrom_edc(const uint8_t *bytes, size_t length);

/* -- Registers of the W88113C -------------------------------------------------------------------------------------------------- */

#define CDROM_TACK 0x07   /* w: clears APKT */
#define CDROM_CTRL0 0x0A  /* w */
#define CDROM_MBTC0 0x12  /* rw: MBC, the blocks of a transfer less one, 0..31; after a start, of what it has */
#define CDROM_ASTRG 0x17  /* w */
#define CDROM_ASCTRL 0x18 /* rw */
#define CDROM_TBL 0x24    /* r: T, the block that is served next */
#define CDROM_TBH 0x25    /* r: 0 */
#define CDROM_MISS2 0x30  /* r */
#define CDROM_ATERR 0x31  /* rw */
#define CDROM_ATINT 0x32  /* rw */
#define CDROM_ATBLO 0x34  /* rw: the byte count's low byte; with STWCEN a start sets both, to all its bytes */
#define CDROM_ATBHI 0x35  /* rw: its high byte */
#define CDROM_ATSTA 0x37  /* w: the status */
#define CDROM_ATCMD 0x37  /* r: the last command */
#define CDROM_STATUS 0x38 /* r: the status, HIRQ kept */
#define CDROM_LDDBL 0x3A  /* r: the block that was filled last */
#define CDROM_LDDBH 0x3B  /* r: 0 */
#define CDROM_APKSTA 0x3D /* w */
#define CDROM_ASCSTA 0x3E /* w */
#define CDROM_TARSTA 0x80 /* r: of the last sector that was stored; cdrom_chip_why says more */
#define CDROM_BICCTL 0x9A /* rw */
#define CDROM_BUFLIM 0x9B /* w: 0 to the ring's blocks less 2 */
#define CDROM_BUFC 0x9B   /* r: filled blocks */
#define CDROM_ACCTL 0x9C  /* rw */
#define CDROM_TCC 0x9D    /* rw: good blocks */
#define CDROM_SKIPC 0x9E  /* w: skips so many of the oldest good blocks */
#define CDROM_TTC 0x9F    /* rw: blocks that are to be transferred in all */

/* CTRL0 */
#define CDROM_DECEN 0x80
/* ASTRG, one of. A start, by ADTT or by itself (ATTEN), has MBC+1 blocks where TTC is 0, else the least of ATLIM, TCC and TTC; but at most
 * so many that their bytes, blocks times the window's words times 2, do not pass 65,534: 31 of 1,024 words, 27 of 1,176, and 32 of up to
 * 1,023, which is no bound. TCC is then tested (6), and MBC becomes these blocks less one. A refused start leaves MBC. */
#define CDROM_SCT 0x01  /* status completion */
#define CDROM_ADTT 0x04 /* start a transfer */
#define CDROM_SIGT 0x10 /* signature */
/* ASCTRL */
#define CDROM_APKTEN 0x80
#define CDROM_ADCEN 0x40
#define CDROM_ASCEN 0x20 /* needs ADCEN */
#define CDROM_AUTOEN 0x10
#define CDROM_STWCEN 0x08 /* a start sets ATBLO and ATBHI */
#define CDROM_A0IEN 0x01
/* MISS2 */
#define CDROM_FPKT 0x02
#define CDROM_APKT 0x01
/* ATSTA and the host's status; of ASCSTA DRDY, CORR and CHECK, of APKSTA DSC */
#define CDROM_BSY 0x80
#define CDROM_DRDY 0x40
#define CDROM_DSC 0x10
#define CDROM_DRQ 0x08
#define CDROM_CORR 0x04
#define CDROM_CHECK 0x01
/* TARSTA, and the result of cdrom_chip_sector, made of why: sync, mode or code is wrong; another address than expected */
#define CDROM_STAERR 0x40
#define CDROM_HCEI 0x01
/* BICCTL */
#define CDROM_BLIMEN 0x20
#define CDROM_BLIMS 0x10
/* ACCTL; ATLIM is its low five bits, with TTC the most blocks of a start, and 0 of them is 32 */
#define CDROM_ATTEN 0x80
#define CDROM_ACMEN 0x40
#define CDROM_TCINCEN 0x20
#define CDROM_ATLIM 0x1F

/* The command that begins a packet, with APKTEN. */
#define CDROM_PACKET_COMMAND 0xA0

/* -- The chip ------------------------------------------------------------------------------------------------------------------ */

/* The chip's record. Its words are the library's to read and write: they may be copied, kept and handed to any later call. Any words
 * in it are some record: one that was not made by an accepted cdrom_chip_open and these calls may be unsound, and then every call
 * answers 1 (a burst of no words 0), a look is empty, and nothing is changed. Words that are all 0 are unsound. */
#define CDROM_CHIP_WORDS 28
typedef struct cdrom_chip {
    uint16_t word[CDROM_CHIP_WORDS];
} cdrom_chip;

/* Of a sound record, each call below says its refusals in their order; 1 stands first in all of them. `ring` is the ring's memory of
 * ring_length bytes, blocks times CDROM_BLOCK_BYTES; another length is refused with 1. What lies in it at an opening does not matter. Lend
 * the same memory each time, as the last call left it. After every accepted call but open and look the chip may start a transfer by
 * itself (ATTEN, TCC and TTC set). */

/* A chip of so many blocks, all as opened. Refusals: 1 blocks not 3..255; the record then has 0 blocks and is unsound. */
uint32_t cdrom_chip_open(cdrom_chip *chip, uint16_t blocks);

/* Writes a register. Refusals: 1; 2 no register that is written; 3 the value; then 4, 5, 6 as docs/CALLS.md has them by register. */
uint32_t cdrom_chip_write(cdrom_chip *chip, uint16_t reg, uint16_t value);

/* Reads a register; the result is its value. Refusals: 1; 2 no register that is read. */
uint32_t cdrom_chip_read(cdrom_chip *chip, uint16_t reg);

/* Sets T, and B to the same block. Refusals: 1; 3 the ring has no such block; 4 a transfer; 5 DECEN is high or TCC not 0. */
uint32_t cdrom_chip_set_block(cdrom_chip *chip, uint16_t block);

/* Sets the part of each block that the host is given. Refusals: 1; 3 words not 1..1,176 or the end above 2,352; 4 a transfer. */
uint32_t cdrom_chip_set_window(cdrom_chip *chip, uint16_t offset, uint16_t words);

/* Sets the address that is expected next. Refusals: 1; 3 the address; 5 DECEN is high. */
uint32_t cdrom_chip_set_expected(cdrom_chip *chip, uint16_t minute, uint16_t second, uint16_t frame);

/* A byte of the full packet, 0..11; the result is the byte. Refusals: 1; 3 the index; 6 FPKT is 0. */
uint32_t cdrom_chip_packet_byte(cdrom_chip *chip, uint16_t index);

/* All as opened; the ring keeps its number of blocks. Refusals: 1. */
uint32_t cdrom_chip_reset(cdrom_chip *chip);

/* A sector of any kind as it comes from the disc: descrambled into block B, judged against the expected address as cdrom_judge does, and
 * counted where it is good. The result is CDROM_STAERR, CDROM_HCEI, both, or 0 for a good one; cdrom_chip_why then says what failed. Bytes
 * 0 to 2,351 of block B are written and no other; the sector itself is only read. The chip does not keep the kind, and the window is the
 * same for all kinds: CDROM_KIND_OF the block tells it. Refusals: 1, also where the sector is not 2,352 bytes; 7 DECEN is low; 8 after a
 * bad one; 9 at the stop. */
uint32_t cdrom_chip_sector(cdrom_chip *chip, uint8_t *ring, size_t ring_length, const uint8_t *sector, size_t length);

/* Why the last sector that was stored is not good: the CDROM_WHY_.. of all that failed, 0 for a good one, 0..15. Register 80h is
 * CDROM_TARSTA_OF it. 0 from an opening or a chip reset to the first sector; a refused sector, DECEN low, SRST and reads keep it. It
 * has no reply number, and reads the record as it stands. */
uint32_t cdrom_chip_why(const cdrom_chip *chip);

/* The window of the oldest good block, also of one half read, as a part of the ring: *offset is where it begins, the return value how many
 * bytes it has. 0 and 0 where TCC is 0, no window is set, or a call with a ring would be refused with 1. It has no reply number. */
size_t cdrom_chip_look(const cdrom_chip *chip, const uint8_t *ring, size_t ring_length, size_t *offset);

/* The host reads a word, its first byte low: the result. Refusals: 1; 5 no transfer runs. */
uint32_t cdrom_chip_word(cdrom_chip *chip, const uint8_t *ring, size_t ring_length);

/* So many words one after the other, as cdrom_chip_word hands them over, until one would be refused. *handed is how many stand at the
 * front of `words`; the words behind them stay. Refusals: those of the first word; *handed is then 0. With count 0 nothing is asked,
 * and the answer is 0. */
uint32_t cdrom_chip_words(cdrom_chip *chip, const uint8_t *ring, size_t ring_length, uint16_t *words, size_t count, size_t *handed);

/* The host writes a command. CDROM_PACKET_COMMAND with APKTEN begins a packet, any other sets BSY. Refusals: 1; 3 above 255; 4 BSY, a
 * transfer or a reception. */
uint32_t cdrom_chip_command(cdrom_chip *chip, uint16_t code);

/* The host writes a word of a packet, its first byte low. Refusals: 1; 5 no packet is being received. */
uint32_t cdrom_chip_packet_word(cdrom_chip *chip, uint16_t word);

/* The host reads the status: the result. HIRQ is cleared. Refusals: 1. */
uint32_t cdrom_chip_status(cdrom_chip *chip);

/* The interrupt line to the host: 1 where HIRQ is set, else 0. It has no reply number, and reads the record as it stands. */
uint32_t cdrom_chip_irq(const cdrom_chip *chip);

/* The host's abort: ends a transfer or a reception; T, TCC and the ring stay. Refusals: 1. */
uint32_t cdrom_chip_srst(cdrom_chip *chip);

/* -- The bench ----------------------------------------------------------------------------------------------------------------- */

/* The ring's memory for the bench's largest ring, 25 blocks; and what must be left of `out` for a line to be run: no answer is longer. */
#define CDROM_RING_BYTES 64000
#define CDROM_ANSWER_ROOM 160

/* Runs the lines of a text (docs/BENCH.md) that have their newline, in order, from a bench where no chip is open, while `out` has room.
 * The answers stand one behind the other at the front of `out`, each with its newline; the result is their length in bytes. The bytes
 * behind them stay. An accepted sector line makes its sector in `sector`, CDROM_SECTOR_BYTES long, of the kind and with the subheader that
 * lines before it named, mode 1 where none did, with the bytes inverted that a scratch line named, and puts it into the memory; a refused
 * one, and every other line, changes no byte of either. Chip, scratch, kind and subheader are not kept for the next call.
 *
 * Other lengths are taken too. Once a chip is open, a sector line is answered 1 with another length of `sector`; with a memory too
 * short for the ring a word line is, and a sector line that is not answered 3. */
size_t cdrom_bench(uint8_t *memory, size_t memory_length, uint8_t *sector, size_t sector_length, const uint8_t *text,
                   size_t text_length, uint8_t *out, size_t out_length);

#ifdef __cplusplus
}
#endif

#endif

/* A drive over the chip, step by step: the firmware switches on, the disc brings sectors, one of them damaged and one of another place,
 * and the host reads blocks by packet commands, aborts one read and repeats it. From the repository's folder, after `make lib`:
 *
 *   make examples && target/examples/drive
 *
 * or anywhere, after `make install`: gcc -std=c11 -O2 drive.c $(pkg-config --cflags --libs cdrom) -o drive
 *
 * Each line is one call, of the six packet words the last: who makes it, what it is, its reply number and result, and TCC, BUFC, what
 * failed of the last sector (why) and the interrupt line after it. The exit status is 1 where an answer is not the one that paper 01
 * gives; examples/drive.expected has the whole output. */
#include <stdio.h>
#include <string.h>

#include "cdrom.h"

#define BLOCKS 4
#define WORDS_OF_A_BLOCK (CDROM_USER_BYTES / 2)
/* The sectors lie at 00:02:frame; the host calls 00:02:00 its block 0. */
#define SECOND 2
#define READ_10 0x28

/* Record and ring belong together: every call is lent this ring, and nobody else writes it. */
static struct drive {
    cdrom_chip chip;
    uint8_t ring[BLOCKS * CDROM_BLOCK_BYTES];
} drive;

static int wrong = 0;

/* -- Telling and checking ------------------------------------------------------------------------------------------------------ */

static void check(int holds, const char *what)
{
    if (!holds) {
        printf("  not so: %s\n", what);
        wrong = 1;
    }
}

static uint32_t done_with(uint32_t result)
{
    return CDROM_DONE | result << 8;
}

/* A register as it stands, for the telling. With ATTEN a read could start a transfer; this drive starts each by hand. */
static unsigned standing(uint16_t reg)
{
    uint32_t answer = cdrom_chip_read(&drive.chip, reg);
    check(CDROM_NUMBER(answer) == CDROM_DONE, "the register can be read");
    return (unsigned)CDROM_RESULT(answer);
}

static void tell(const char *who, const char *what, uint32_t answer, uint32_t expected)
{
    unsigned why = (unsigned)cdrom_chip_why(&drive.chip), irq = (unsigned)cdrom_chip_irq(&drive.chip);
    printf("%-9s %-44s answer=%u out=%04Xh tcc=%u bufc=%u why=%u irq=%u\n", who, what, (unsigned)CDROM_NUMBER(answer),
           (unsigned)CDROM_RESULT(answer), standing(CDROM_TCC), standing(CDROM_BUFC), why, irq);
    check(answer == expected, "this answer was expected");
    check(standing(CDROM_TARSTA) == CDROM_TARSTA_OF(why), "register 80h is made of why");
}

/* -- The firmware's calls ------------------------------------------------------------------------------------------------------ */

static void write_reg(uint16_t reg, uint16_t value, const char *why, uint32_t expected)
{
    char what[64];
    snprintf(what, sizeof what, "write %02Xh=%02Xh: %s", (unsigned)reg, (unsigned)value, why);
    tell("firmware", what, cdrom_chip_write(&drive.chip, reg, value), expected);
}

static void read_reg(uint16_t reg, const char *why, uint32_t result)
{
    char what[64];
    snprintf(what, sizeof what, "read %02Xh: %s", (unsigned)reg, why);
    tell("firmware", what, cdrom_chip_read(&drive.chip, reg), done_with(result));
}

static void expect_frame(uint16_t frame)
{
    char what[64];
    snprintf(what, sizeof what, "expect 00:02:%02u", (unsigned)frame);
    tell("firmware", what, cdrom_chip_set_expected(&drive.chip, 0, SECOND, frame), CDROM_DONE);
}

/* What to do about a bad sector of this disc, which is all mode 1. With the address alone it was read well: the seek went wrong, or it is
 * another disc. Else the reading did, by dirt or a scratch; the address may then be as wrong as the rest. In mode 2 the code does not cover
 * the address, and the address alone may be a damaged byte: there read it again once before seeking. */
static void ask_why(uint32_t expected)
{
    uint32_t why = cdrom_chip_why(&drive.chip);
    const char *remedy = why == CDROM_WHY_ADDRESS ? "well read, but elsewhere; seek anew" : "badly read; read it again";
    printf("firmware  why=%u: %s\n", (unsigned)why, remedy);
    check(why == expected, "this was expected to have failed");
}

static void packet_byte(uint16_t index, const char *why, uint32_t result)
{
    char what[64];
    snprintf(what, sizeof what, "packet byte %u: %s", (unsigned)index, why);
    tell("firmware", what, cdrom_chip_packet_byte(&drive.chip, index), done_with(result));
}

/* -- The disc ------------------------------------------------------------------------------------------------------------------ */

/* What the disc has at a frame: bytes that tell sectors and places apart. */
static uint8_t user_byte(uint16_t frame, size_t place)
{
    return (uint8_t)(frame * 16 + place);
}

static uint16_t user_word(uint16_t frame, size_t place)
{
    return (uint16_t)(user_byte(frame, 2 * place) | user_byte(frame, 2 * place + 1) << 8);
}

/* The sector as it lies on the disc: sealed, so with its code and parity, and scrambled. The chip does not judge the parity. */
static void bring(uint16_t frame, int is_damaged, uint32_t expected)
{
    uint8_t sector[CDROM_SECTOR_BYTES] = {0};
    for (size_t place = 0; place < CDROM_USER_BYTES; place++)
        sector[CDROM_USER_OFFSET + place] = user_byte(frame, place);
    check(cdrom_seal(sector, sizeof sector, 0, SECOND, frame) == CDROM_DONE, "the sector is sealed");
    if (is_damaged)
        sector[1000] ^= 0xFF;

    char what[64];
    snprintf(what, sizeof what, "sector 00:02:%02u%s", (unsigned)frame, is_damaged ? ", one byte damaged" : "");
    tell("disc", what, cdrom_chip_sector(&drive.chip, drive.ring, sizeof drive.ring, sector, sizeof sector), expected);
}

/* -- The host ------------------------------------------------------------------------------------------------------------------ */

static void host_status(const char *why, uint32_t result)
{
    char what[64];
    snprintf(what, sizeof what, "status: %s", why);
    tell("host", what, cdrom_chip_status(&drive.chip), done_with(result));
}

/* READ(10) for so many blocks from a block on: twelve bytes in six words, the first byte low. */
static void host_packet(uint16_t block, uint16_t blocks)
{
    const uint16_t packet[6] = {READ_10, 0, (uint16_t)(block << 8), 0, blocks, 0};
    tell("host", "command A0h: a packet follows", cdrom_chip_command(&drive.chip, CDROM_PACKET_COMMAND), CDROM_DONE);
    host_status("DRDY, DSC, DRQ; the line falls", CDROM_DRDY | CDROM_DSC | CDROM_DRQ);
    for (size_t place = 0; place < 5; place++)
        check(cdrom_chip_packet_word(&drive.chip, packet[place]) == CDROM_DONE, "the packet word is taken");
    tell("host", "six packet words, here the last", cdrom_chip_packet_word(&drive.chip, packet[5]), CDROM_DONE);
}

static void host_word(const char *why, uint32_t expected)
{
    char what[64];
    snprintf(what, sizeof what, "word: %s", why);
    tell("host", what, cdrom_chip_word(&drive.chip, drive.ring, sizeof drive.ring), expected);
}

/* A burst of words that begins at a word of a frame's sector and may go on into the next. */
static void host_burst(size_t asked, size_t expected, uint16_t frame, size_t place)
{
    static uint16_t words[2 * WORDS_OF_A_BLOCK];
    size_t handed;
    uint32_t answer = cdrom_chip_words(&drive.chip, drive.ring, sizeof drive.ring, words, asked, &handed);
    char what[64];
    snprintf(what, sizeof what, "burst of %zu words: %zu handed over", asked, handed);
    tell("host", what, answer, CDROM_DONE);
    check(handed == expected, "so many words were expected");
    for (size_t word = 0; word < handed; word++, place++) {
        if (place == WORDS_OF_A_BLOCK) {
            place = 0;
            frame++;
        }
        check(words[word] == user_word(frame, place), "the word is the disc's");
    }
}

/* -- The drive's work ---------------------------------------------------------------------------------------------------------- */

/* Arms the next packet command; a packet clears APKTEN, and completion sets it again by AUTOEN. */
static void arm(void)
{
    write_reg(CDROM_ASCTRL, CDROM_APKTEN | CDROM_ADCEN | CDROM_AUTOEN | CDROM_STWCEN | CDROM_A0IEN, "packets are armed", CDROM_DONE);
}

static void switch_on(void)
{
    puts("-- The drive is switched on.");
    tell("firmware", "open a ring of 4 blocks", cdrom_chip_open(&drive.chip, BLOCKS), CDROM_DONE);
    write_reg(CDROM_CTRL0, CDROM_DECEN, "DECEN too early, refused", CDROM_SWITCHES);
    write_reg(CDROM_BICCTL, CDROM_BLIMEN, "BLIMEN", CDROM_DONE);
    write_reg(CDROM_ACCTL, CDROM_ACMEN | CDROM_TCINCEN, "ACMEN, TCINCEN", CDROM_DONE);
    write_reg(CDROM_APKSTA, CDROM_DSC, "DSC with a packet command", CDROM_DONE);
    write_reg(CDROM_ASCSTA, CDROM_DRDY, "DRDY with completion", CDROM_DONE);
    arm();
    tell("firmware", "window: the user bytes", cdrom_chip_set_window(&drive.chip, CDROM_USER_OFFSET, WORDS_OF_A_BLOCK), CDROM_DONE);
    expect_frame(16);
    write_reg(CDROM_CTRL0, CDROM_DECEN, "DECEN", CDROM_DONE);
}

static void restart(uint16_t frame)
{
    write_reg(CDROM_CTRL0, 0, "DECEN low, bad block given up", CDROM_DONE);
    expect_frame(frame);
    write_reg(CDROM_CTRL0, CDROM_DECEN, "DECEN", CDROM_DONE);
}

/* A bad sector fills a block and does not count. Nothing more is taken until DECEN was low, and then its block is filled again. */
static void read_over_a_scratch(void)
{
    puts("-- The disc is read; 00:02:17 is scratched, then missed by the seek, and read again.");
    bring(16, 0, done_with(0));
    bring(17, 1, done_with(CDROM_STAERR));
    ask_why(CDROM_WHY_EDC);
    bring(18, 0, CDROM_HELD);
    read_reg(CDROM_TARSTA, "STAERR", CDROM_STAERR);
    restart(17);
    bring(40, 0, done_with(CDROM_HCEI));
    ask_why(CDROM_WHY_ADDRESS);
    restart(17);
    bring(17, 0, done_with(0));
}

/* The firmware's side of READ(10): it understands the packet, acknowledges it and starts a transfer of so many blocks. */
static void answer_packet(uint16_t block, uint16_t blocks)
{
    read_reg(CDROM_MISS2, "FPKT, APKT", CDROM_FPKT | CDROM_APKT);
    packet_byte(0, "READ(10)", READ_10);
    packet_byte(5, "the first block", block);
    packet_byte(8, "how many blocks", blocks);
    write_reg(CDROM_TACK, 0, "APKT is cleared", CDROM_DONE);
    write_reg(CDROM_MBTC0, (uint16_t)(blocks - 1), "MBC, blocks less one", CDROM_DONE);
    write_reg(CDROM_ASTRG, CDROM_ADTT, "start", CDROM_DONE);
    read_reg(CDROM_ATBHI, "byte count, high", blocks * CDROM_USER_BYTES >> 8);
    read_reg(CDROM_ATBLO, "byte count, low", blocks * CDROM_USER_BYTES & 0xFF);
    host_status("DRDY, DSC, DRQ; the line falls", CDROM_DRDY | CDROM_DSC | CDROM_DRQ);
}

static void complete(void)
{
    host_status("BSY, DRDY, DSC: nothing more to read", CDROM_BSY | CDROM_DRDY | CDROM_DSC);
    write_reg(CDROM_ASTRG, CDROM_SCT, "status completion", CDROM_DONE);
    host_status("DRDY, DSC; the line falls", CDROM_DRDY | CDROM_DSC);
}

static void serve_two_blocks(void)
{
    puts("-- The host reads blocks 16 and 17.");
    host_packet(16, 2);
    answer_packet(16, 2);
    host_word("the first", done_with(user_word(16, 0)));
    host_word("the second", done_with(user_word(16, 1)));
    host_burst(1000, 1000, 16, 2);
    host_burst(2000, 22 + WORDS_OF_A_BLOCK, 16, 1002);
    host_word("none is left, refused", CDROM_SWITCHES);
    complete();
}

/* SRST ends the transfer. The half-read block was not taken: it is still the oldest, and is served whole. */
static void abort_and_repeat(void)
{
    puts("-- The host reads block 18, aborts, and reads it again.");
    bring(18, 0, done_with(0));
    bring(19, 0, done_with(0));
    host_packet(18, 1);
    answer_packet(18, 1);
    host_burst(300, 300, 18, 0);
    tell("host", "SRST", cdrom_chip_srst(&drive.chip), CDROM_DONE);
    host_word("no transfer runs, refused", CDROM_SWITCHES);
    host_status("DSC alone", CDROM_DSC);
    arm();
    host_packet(18, 1);
    answer_packet(18, 1);
    host_word("the block's first", done_with(user_word(18, 0)));
    host_burst(WORDS_OF_A_BLOCK, WORDS_OF_A_BLOCK - 1, 18, 1);
    complete();
}

/* The firmware sees the oldest good block where it lies, without a transfer. */
static void look(void)
{
    puts("-- The firmware looks at the block that waits.");
    size_t offset;
    size_t length = cdrom_chip_look(&drive.chip, drive.ring, sizeof drive.ring, &offset);
    printf("firmware  look: %zu bytes from byte %zu of the ring, block %zu\n", length, offset, offset / CDROM_BLOCK_BYTES);
    check(length == CDROM_USER_BYTES && offset == 3 * CDROM_BLOCK_BYTES + CDROM_USER_OFFSET, "it is block 3, the user bytes");
    for (size_t place = 0; place < length; place++)
        check(drive.ring[offset + place] == user_byte(19, place), "the byte is the disc's");
}

int main(void)
{
    switch_on();
    read_over_a_scratch();
    serve_two_blocks();
    abort_and_repeat();
    look();
    puts(wrong ? "drive: not every answer is as expected" : "drive: every answer as expected");
    return wrong;
}

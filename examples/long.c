/* A long read: 40 good sectors wait in a ring of 64 blocks, and the host is to have all of them. MBC asks for 32 blocks at most, and a
 * start has no more than 65,534 bytes, which is what 35h and 34h can tell: of 2,048 bytes that is 31 blocks. So a start may have fewer
 * blocks than were asked for. After it 12h has them less one, and the firmware goes on from there; the host reads as many bytes as it is
 * told. From the repository's folder, after `make lib`:
 *
 *   make examples && target/examples/long
 *
 * or anywhere, after `make install`: gcc -std=c11 -O2 long.c $(pkg-config --cflags --libs cdrom) -o long
 *
 * Each line is one start. The exit status is 1 where an answer is not the expected one; examples/long.expected has the whole output. */
#include <stdio.h>

#include "cdrom.h"

#define BLOCKS 64
#define SECTORS 40
#define WORDS_OF_A_BLOCK (CDROM_USER_BYTES / 2)
/* MBC has five bits, and is the blocks less one. */
#define MOST_ASKED 32
/* The most words that 35h and 34h can tell. */
#define MOST_WORDS 32767
#define READ_10 0x28

static struct drive {
    cdrom_chip chip;
    uint8_t ring[BLOCKS * CDROM_BLOCK_BYTES];
} drive;

static int wrong = 0;

/* -- Calls and checks ---------------------------------------------------------------------------------------------------------- */

static int check(int holds, const char *what)
{
    if (!holds) {
        printf("  not so: %s\n", what);
        wrong = 1;
    }
    return holds;
}

static int write_reg(uint16_t reg, uint16_t value)
{
    return check(cdrom_chip_write(&drive.chip, reg, value) == CDROM_DONE, "the register is written");
}

static unsigned read_reg(uint16_t reg)
{
    uint32_t answer = cdrom_chip_read(&drive.chip, reg);
    check(CDROM_NUMBER(answer) == CDROM_DONE, "the register is read");
    return (unsigned)CDROM_RESULT(answer);
}

/* -- The disc ------------------------------------------------------------------------------------------------------------------ */

/* The disc's words are counted from the first of sector 0, so that all are different. */
static uint16_t user_word(size_t sector, size_t place)
{
    return (uint16_t)(sector * WORDS_OF_A_BLOCK + place);
}

/* Sector 0 lies at 00:02:00, which an opened chip expects first. */
static void bring(uint16_t sector)
{
    uint8_t bytes[CDROM_SECTOR_BYTES] = {0};
    for (size_t place = 0; place < WORDS_OF_A_BLOCK; place++) {
        uint16_t word = user_word(sector, place);
        bytes[CDROM_USER_OFFSET + 2 * place] = (uint8_t)word;
        bytes[CDROM_USER_OFFSET + 2 * place + 1] = (uint8_t)(word >> 8);
    }
    check(cdrom_seal(bytes, sizeof bytes, 0, 2, sector) == CDROM_DONE, "the sector is sealed");
    check(cdrom_chip_sector(&drive.chip, drive.ring, sizeof drive.ring, bytes, sizeof bytes) == CDROM_DONE, "the sector is good");
}

/* -- The host ------------------------------------------------------------------------------------------------------------------ */

/* The host takes the status, which tells it that words wait, and reads what the byte count says: all words of the blocks, from a sector on.
 * With the last of them the transfer ends. True where all is so. */
static int host_reads(size_t first, size_t blocks, unsigned bytes)
{
    static uint16_t words[MOST_WORDS];
    size_t handed, same = 0;
    int is_waiting = check(cdrom_chip_status(&drive.chip) == CDROM_DRQ << 8, "DRQ alone is set");
    cdrom_chip_words(&drive.chip, drive.ring, sizeof drive.ring, words, bytes / 2, &handed);
    while (same < handed && words[same] == user_word(first + same / WORDS_OF_A_BLOCK, same % WORDS_OF_A_BLOCK))
        same++;
    return is_waiting && check(bytes == blocks * CDROM_USER_BYTES, "the byte count is that of all blocks") &&
           check(2 * same == bytes, "the bytes are the disc's") &&
           check(cdrom_chip_status(&drive.chip) == CDROM_BSY << 8, "the transfer has ended");
}

/* -- The firmware -------------------------------------------------------------------------------------------------------------- */

/* A chip anew, with good sectors that wait. The host's command sets BSY, which a start needs; the end of a transfer sets it again (ADCEN),
 * so that the next start needs no other command. */
static void make_ready(void)
{
    check(cdrom_chip_open(&drive.chip, BLOCKS) == CDROM_DONE, "the ring is opened");
    write_reg(CDROM_BICCTL, CDROM_BLIMEN);
    write_reg(CDROM_ACCTL, CDROM_ACMEN | CDROM_TCINCEN);
    write_reg(CDROM_ASCTRL, CDROM_ADCEN | CDROM_STWCEN);
    check(cdrom_chip_set_window(&drive.chip, CDROM_USER_OFFSET, WORDS_OF_A_BLOCK) == CDROM_DONE, "the window is set");
    write_reg(CDROM_CTRL0, CDROM_DECEN);
    for (uint16_t sector = 0; sector < SECTORS; sector++)
        bring(sector);
    check(read_reg(CDROM_TCC) == SECTORS, "so many good blocks wait");
    check(cdrom_chip_command(&drive.chip, READ_10) == CDROM_DONE, "the command is taken");
}

/* Starts a transfer of the blocks from a sector on, and lets the host read it. The result is its blocks: what 12h says after the start, and
 * not what was asked for. 0 where something went wrong. */
static unsigned serve(unsigned asked, size_t first)
{
    if (!write_reg(CDROM_ASTRG, CDROM_ADTT))
        return 0;
    unsigned blocks = read_reg(CDROM_MBTC0) + 1;
    unsigned bytes = read_reg(CDROM_ATBHI) << 8 | read_reg(CDROM_ATBLO);
    printf("asked for %2u blocks: %2u started, byte count %5u\n", asked, blocks, bytes);
    int is_read = check(blocks <= asked, "no more blocks than were asked for") && host_reads(first, blocks, bytes);
    return is_read ? blocks : 0;
}

static unsigned least(unsigned one, unsigned other)
{
    return one < other ? one : other;
}

/* What is left is the firmware's to count: it goes down by what was started. */
static void read_by_mbc(void)
{
    puts("-- 40 blocks by MBC, which is written before each start.");
    make_ready();
    unsigned blocks = 1, left = SECTORS;
    for (; blocks > 0 && left > 0; left -= blocks) {
        unsigned asked = least(left, MOST_ASKED);
        write_reg(CDROM_MBTC0, (uint16_t)(asked - 1));
        blocks = serve(asked, SECTORS - left);
    }
    check(left == 0 && read_reg(CDROM_TCC) == 0, "all blocks were read");
}

/* With TTC the chip counts: a start has the least of ATLIM, TCC and TTC, or fewer by its bytes, and TTC goes down with each block. */
static void read_by_ttc(void)
{
    puts("-- 40 blocks by TTC, which is written once; ATLIM is 0, which stands for 32.");
    make_ready();
    write_reg(CDROM_TTC, SECTORS);
    unsigned blocks = 1, left = SECTORS;
    for (; blocks > 0 && left > 0; left = read_reg(CDROM_TTC))
        blocks = serve(least(left, MOST_ASKED), SECTORS - left);
    check(left == 0 && read_reg(CDROM_TCC) == 0, "all blocks were read");
}

int main(void)
{
    read_by_mbc();
    read_by_ttc();
    puts(wrong ? "long: not every answer is as expected" : "long: every answer as expected");
    return wrong;
}

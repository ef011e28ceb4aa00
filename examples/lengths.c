/* Every exported call with lengths that do not fit, and the answers that include/cdrom.h gives. From the repository's folder, after
 * `make lib`:
 *
 *   make examples && valgrind --error-exitcode=1 --leak-check=full -q target/examples/lengths
 *
 * All that is lent lies in heap blocks of exactly that length, so that valgrind sees any byte that is touched beyond. Rings, the words'
 * room, the bench's buffers, the record of an opening, all but the user bytes of a sector that is sealed, and the subheader where it does
 * not matter are left as malloc gives them: valgrind then sees whether a byte that nobody wrote decides an answer. The exit status is 1
 * where an answer is not the one that is expected. */
#include <stdio.h>
#include <stdlib.h>
#include <string.h>

#include "cdrom.h"

#define BLOCKS 3
#define RING_BYTES (BLOCKS * CDROM_BLOCK_BYTES)
#define WORDS_OF_A_BLOCK (CDROM_USER_BYTES / 2)
#define STALE 0xEE
#define PARITY_HOLDS 0x100

static unsigned answers = 0;
static unsigned wrong = 0;

static void expect(const char *what, size_t length, size_t found, size_t expected)
{
    answers++;
    if (found != expected) {
        printf("%s, length %zu: %zu and not %zu\n", what, length, found, expected);
        wrong++;
    }
}

/* -- What is lent -------------------------------------------------------------------------------------------------------------- */

struct lent {
    uint8_t *block;
    uint8_t *bytes;
    size_t length;
};

/* A length of 0 is lent at the end of a block of two bytes: no byte there may be touched, and the pointer is aligned and not null. */
static struct lent lend(size_t length)
{
    uint8_t *block = malloc(length > 0 ? length : 2);
    if (block == NULL) {
        fprintf(stderr, "lengths: no memory\n");
        exit(2);
    }
    return (struct lent){block, length > 0 ? block : block + 2, length};
}

static struct lent lend_stale(size_t length)
{
    struct lent lent = lend(length);
    memset(lent.bytes, STALE, length);
    return lent;
}

/* Takes the memory back; no byte of it was to be changed. */
static void take_back_stale(const char *what, struct lent lent)
{
    size_t stale = 0;
    while (stale < lent.length && lent.bytes[stale] == STALE)
        stale++;
    expect(what, lent.length, stale, lent.length);
    free(lent.block);
}

/* A good sector at 00:02:00, where an opened chip expects its first; all its user bytes are 1. Sealing takes no others. */
static struct lent lend_sector(void)
{
    struct lent sector = lend(CDROM_SECTOR_BYTES);
    memset(sector.bytes + CDROM_USER_OFFSET, 1, CDROM_USER_BYTES);
    expect("seal", sector.length, cdrom_seal(sector.bytes, sector.length, 0, 2, 0), CDROM_DONE);
    return sector;
}

/* A subheader of four bytes with the form bit of the kind; for mode 1, where it does not matter, as malloc gives it. */
static struct lent lend_subheader(uint16_t kind)
{
    struct lent subheader = lend(CDROM_SUBHEADER_BYTES);
    if (kind != CDROM_MODE1)
        memset(subheader.bytes, kind == CDROM_FORM2 ? CDROM_SUBMODE_FORM2 : 0, subheader.length);
    return subheader;
}

/* -- Sectors ------------------------------------------------------------------------------------------------------------------- */

/* A wrong length comes before a bad address. */
static void refuse_sector(size_t length)
{
    struct lent sector = lend_stale(length);
    expect("seal", length, cdrom_seal(sector.bytes, length, 0, 2, 0), CDROM_WRONG_LENGTH);
    expect("seal at 00:60:00", length, cdrom_seal(sector.bytes, length, 0, 60, 0), CDROM_WRONG_LENGTH);
    expect("open", length, cdrom_open(sector.bytes, length), CDROM_WRONG_LENGTH);
    expect("judge", length, cdrom_judge(sector.bytes, length, 0, 2, 0), CDROM_WRONG_LENGTH);
    expect("judge at 00:60:00", length, cdrom_judge(sector.bytes, length, 0, 60, 0), CDROM_WRONG_LENGTH);
    expect("parity", length, cdrom_parity(sector.bytes, length), CDROM_WRONG_LENGTH);
    take_back_stale("a refused sector", sector);
}

/* Of an unknown kind too, and of one whose form bit is another's: the length comes first. */
static void refuse_kinds(size_t length)
{
    struct lent sector = lend_stale(length), subheader = lend_subheader(CDROM_FORM1);
    for (uint16_t kind = 0; kind <= 4; kind++) {
        uint32_t answer = cdrom_seal_xa(sector.bytes, length, 0, 2, 0, kind, subheader.bytes);
        expect("seal_xa", length, answer, CDROM_WRONG_LENGTH);
        answer = cdrom_seal_xa(sector.bytes, length, 0, 60, 0, kind, subheader.bytes);
        expect("seal_xa at 00:60:00", length, answer, CDROM_WRONG_LENGTH);
    }
    free(subheader.block);
    take_back_stale("a refused sector", sector);
}

static void take_opened(struct lent sector)
{
    expect("open", sector.length, cdrom_open(sector.bytes, sector.length), CDROM_DONE);
    expect("judge", sector.length, cdrom_judge(sector.bytes, sector.length, 0, 2, 0), CDROM_DONE);
    expect("parity", sector.length, cdrom_parity(sector.bytes, sector.length), PARITY_HOLDS);
}

/* By cdrom_seal, and of each kind by cdrom_seal_xa; of the latter too nothing but the user bytes is set. */
static void take_sectors(void)
{
    struct lent sector = lend_sector();
    take_opened(sector);
    free(sector.block);
    for (uint16_t kind = CDROM_MODE1; kind <= CDROM_FORM2; kind++) {
        struct lent other = lend(CDROM_SECTOR_BYTES), subheader = lend_subheader(kind);
        memset(other.bytes + CDROM_USER_OFFSET_OF(kind), 1, CDROM_USER_BYTES_OF(kind));
        expect("seal_xa", kind, cdrom_seal_xa(other.bytes, other.length, 0, 2, 0, kind, subheader.bytes), CDROM_DONE);
        take_opened(other);
        expect("kind", kind, (size_t)CDROM_KIND_OF(other.bytes), kind);
        free(other.block);
        free(subheader.block);
    }
}

/* The code by its definition, bit by bit. */
static uint32_t slow_edc(const uint8_t *bytes, size_t length)
{
    uint32_t code = 0;
    for (size_t bit = 0; bit < 8 * length; bit++) {
        uint32_t out = (code ^ bytes[bit / 8] >> bit % 8) & 1;
        code = code >> 1 ^ (out ? 0xD8018001u : 0);
    }
    return code;
}

static void code_of(size_t length)
{
    struct lent lent = lend(length);
    for (size_t place = 0; place < length; place++)
        lent.bytes[place] = (uint8_t)(place * 151 + length);
    expect("edc", length, cdrom_edc(lent.bytes, length), slow_edc(lent.bytes, length));
    free(lent.block);
}

static void sectors(void)
{
    static const size_t lengths[] = {0, 1, 12, 2064, 2340, CDROM_SECTOR_BYTES - 1, CDROM_SECTOR_BYTES + 1, 2 * CDROM_SECTOR_BYTES};
    for (size_t place = 0; place < sizeof lengths / sizeof lengths[0]; place++) {
        refuse_sector(lengths[place]);
        refuse_kinds(lengths[place]);
    }
    take_sectors();
    for (size_t length = 0; length <= 130; length++)
        code_of(length);
    for (size_t length = 2062; length <= 2066; length++)
        code_of(length);
}

/* -- Openings and unsound records ---------------------------------------------------------------------------------------------- */

/* The record is made by the opening alone: it is lent as malloc gives it. */
static cdrom_chip *open_chip(uint16_t blocks, uint32_t expected)
{
    cdrom_chip *chip = (void *)lend(sizeof *chip).block;
    expect("chip_open", blocks, cdrom_chip_open(chip, blocks), expected);
    return chip;
}

static void refuse_calls_without_memory(cdrom_chip *chip)
{
    expect("chip_write", 0, cdrom_chip_write(chip, CDROM_TACK, 0), CDROM_WRONG_LENGTH);
    expect("chip_read", 0, cdrom_chip_read(chip, CDROM_TCC), CDROM_WRONG_LENGTH);
    expect("chip_set_block", 0, cdrom_chip_set_block(chip, 0), CDROM_WRONG_LENGTH);
    expect("chip_set_window", 0, cdrom_chip_set_window(chip, 16, 1), CDROM_WRONG_LENGTH);
    expect("chip_set_expected", 0, cdrom_chip_set_expected(chip, 0, 2, 0), CDROM_WRONG_LENGTH);
    expect("chip_packet_byte", 0, cdrom_chip_packet_byte(chip, 0), CDROM_WRONG_LENGTH);
    expect("chip_reset", 0, cdrom_chip_reset(chip), CDROM_WRONG_LENGTH);
    expect("chip_command", 0, cdrom_chip_command(chip, 0), CDROM_WRONG_LENGTH);
    expect("chip_packet_word", 0, cdrom_chip_packet_word(chip, 0), CDROM_WRONG_LENGTH);
    expect("chip_status", 0, cdrom_chip_status(chip), CDROM_WRONG_LENGTH);
    expect("chip_srst", 0, cdrom_chip_srst(chip), CDROM_WRONG_LENGTH);
}

/* Words, a look and their places are as they were or empty; with no words asked for nothing is refused. */
static void refuse_words(cdrom_chip *chip, struct lent ring)
{
    struct lent words = lend_stale(2 * sizeof(uint16_t));
    size_t handed, offset;
    expect("chip_word", ring.length, cdrom_chip_word(chip, ring.bytes, ring.length), CDROM_WRONG_LENGTH);
    uint16_t *room = (void *)words.bytes;
    expect("chip_words", ring.length, cdrom_chip_words(chip, ring.bytes, ring.length, room, 2, &handed), CDROM_WRONG_LENGTH);
    expect("words handed", ring.length, handed, 0);
    expect("no words", ring.length, cdrom_chip_words(chip, ring.bytes, ring.length, room, 0, &handed), CDROM_DONE);
    expect("none handed", ring.length, handed, 0);
    expect("chip_look", ring.length, cdrom_chip_look(chip, ring.bytes, ring.length, &offset), 0);
    expect("look's offset", ring.length, offset, 0);
    take_back_stale("refused words", words);
}

static void refuse_chip_sector(cdrom_chip *chip, struct lent ring, struct lent sector)
{
    uint32_t answer = cdrom_chip_sector(chip, ring.bytes, ring.length, sector.bytes, sector.length);
    expect("chip_sector", ring.length + sector.length, answer, CDROM_WRONG_LENGTH);
}

/* Every call, over a ring of these bytes; record and ring are as before. */
static void refuse_every_call(cdrom_chip *chip, size_t ring_bytes)
{
    cdrom_chip before = *chip;
    struct lent ring = lend_stale(ring_bytes);
    struct lent sector = lend_sector();
    refuse_calls_without_memory(chip);
    refuse_words(chip, ring);
    refuse_chip_sector(chip, ring, sector);
    expect("an unsound record", ring_bytes, memcmp(chip, &before, sizeof before) == 0, 1);
    take_back_stale("an unsound record's ring", ring);
    free(sector.block);
}

static void openings(void)
{
    static const uint16_t refused[] = {0, 1, 2, 256, 257, 65535};
    for (size_t place = 0; place < sizeof refused / sizeof refused[0]; place++) {
        cdrom_chip *chip = open_chip(refused[place], CDROM_WRONG_LENGTH);
        expect("chip_irq", refused[place], cdrom_chip_irq(chip), 0);
        expect("chip_why", refused[place], cdrom_chip_why(chip), 0);
        refuse_every_call(chip, 0);
        refuse_every_call(chip, RING_BYTES);
        free(chip);
    }
    free(open_chip(CDROM_LEAST_BLOCKS, CDROM_DONE));
    free(open_chip(CDROM_MOST_BLOCKS, CDROM_DONE));
    for (int byte = 0; byte <= 0xFF; byte += 0xFF) {
        cdrom_chip *chip = open_chip(BLOCKS, CDROM_DONE);
        memset(chip, byte, sizeof *chip);
        expect("chip_why as it stands", (size_t)byte, cdrom_chip_why(chip), byte == 0 ? 0 : 15);
        refuse_every_call(chip, RING_BYTES);
        free(chip);
    }
}

/* -- A chip that would take the sector or hand the word over, were it not for the length --------------------------------------- */

static cdrom_chip *open_decoding(void)
{
    cdrom_chip *chip = open_chip(BLOCKS, CDROM_DONE);
    expect("BLIMEN", 0, cdrom_chip_write(chip, CDROM_BICCTL, CDROM_BLIMEN), CDROM_DONE);
    expect("ACMEN", 0, cdrom_chip_write(chip, CDROM_ACCTL, CDROM_ACMEN | CDROM_TCINCEN), CDROM_DONE);
    expect("ADCEN", 0, cdrom_chip_write(chip, CDROM_ASCTRL, CDROM_ADCEN), CDROM_DONE);
    expect("window", 0, cdrom_chip_set_window(chip, CDROM_USER_OFFSET, WORDS_OF_A_BLOCK), CDROM_DONE);
    expect("DECEN", 0, cdrom_chip_write(chip, CDROM_CTRL0, CDROM_DECEN), CDROM_DONE);
    return chip;
}

static void start(cdrom_chip *chip)
{
    expect("command", 0, cdrom_chip_command(chip, 0x28), CDROM_DONE);
    expect("start", 0, cdrom_chip_write(chip, CDROM_ASTRG, CDROM_ADTT), CDROM_DONE);
}

static const size_t ring_lengths[] = {0, 1, CDROM_BLOCK_BYTES, RING_BYTES - CDROM_BLOCK_BYTES, RING_BYTES - 1, RING_BYTES + 1,
                                      RING_BYTES + CDROM_BLOCK_BYTES};
static const size_t sector_lengths[] = {0, 1, CDROM_SECTOR_BYTES - 1, CDROM_SECTOR_BYTES + 1};

/* Rings that do not fit, for a sector and for words of a running transfer. */
static void rings(cdrom_chip *chip, struct lent sector)
{
    for (size_t place = 0; place < sizeof ring_lengths / sizeof ring_lengths[0]; place++) {
        cdrom_chip before = *chip;
        struct lent ring = lend_stale(ring_lengths[place]);
        refuse_chip_sector(chip, ring, sector);
        refuse_words(chip, ring);
        expect("record", ring.length, memcmp(chip, &before, sizeof before) == 0, 1);
        take_back_stale("a refused ring", ring);
    }
}

static void sectors_for(cdrom_chip *chip)
{
    for (size_t place = 0; place < sizeof sector_lengths / sizeof sector_lengths[0]; place++) {
        cdrom_chip before = *chip;
        struct lent ring = lend_stale(RING_BYTES);
        struct lent sector = lend_stale(sector_lengths[place]);
        refuse_chip_sector(chip, ring, sector);
        expect("record", sector.length, memcmp(chip, &before, sizeof before) == 0, 1);
        take_back_stale("a refused sector", sector);
        take_back_stale("a refused sector's ring", ring);
    }
}

/* Room of exactly so many words; what is handed over are the sector's user bytes, from a word of it on. */
static void read_words(cdrom_chip *chip, struct lent ring, size_t count, size_t expected)
{
    struct lent room = lend(count * sizeof(uint16_t));
    uint16_t *words = (void *)room.bytes;
    size_t handed;
    uint32_t answer = cdrom_chip_words(chip, ring.bytes, ring.length, words, count, &handed);
    expect("chip_words", count, answer, CDROM_DONE);
    expect("words handed", count, handed, expected);
    for (size_t place = 0; place < handed; place++)
        expect("word", place, words[place], 0x0101);
    free(room.block);
}

static void rings_and_words(void)
{
    cdrom_chip *chip = open_decoding();
    struct lent ring = lend(RING_BYTES);
    struct lent sector = lend_sector();
    rings(chip, sector);
    sectors_for(chip);
    expect("chip_sector", 0, cdrom_chip_sector(chip, ring.bytes, ring.length, sector.bytes, sector.length), CDROM_DONE);
    start(chip);
    rings(chip, sector);
    size_t offset;
    expect("chip_look", ring.length, cdrom_chip_look(chip, ring.bytes, ring.length, &offset), CDROM_USER_BYTES);
    expect("look's offset", ring.length, offset, CDROM_USER_OFFSET);
    expect("chip_word", 0, cdrom_chip_word(chip, ring.bytes, ring.length), 0x010100);
    read_words(chip, ring, 0, 0);
    read_words(chip, ring, 1, 1);
    read_words(chip, ring, 1000, 1000);
    read_words(chip, ring, 1000, WORDS_OF_A_BLOCK - 1002);
    expect("no word", 0, cdrom_chip_word(chip, ring.bytes, ring.length), CDROM_SWITCHES);
    free(sector.block);
    free(ring.block);
    free(chip);
}

/* -- The bench ----------------------------------------------------------------------------------------------------------------- */

/* The second sector line's subheader is of the other form: that is tested before the memory's length, as its address is. */
static const char lines[] =
    "call=open ring=3\n"
    "call=write reg=154 value=32\n"
    "call=write reg=156 value=96\n"
    "call=write reg=10 value=128\n"
    "call=sector min=0 sec=2 frame=0 fill=65\n"
    "call=word\n"
    "call=kind number=3\n"
    "call=sector min=0 sec=2 frame=1 fill=66\n"
    "call=subheader file=0 channel=0 submode=32 coding=0\n"
    "call=sector min=0 sec=2 frame=1 fill=66\n"
    "call=look";
#define SECTOR_LINE 5
#define WORD_LINE 6
#define OTHER_FORM_LINE 8
#define FORM2_LINE 10
#define ENDED_LINES 10

/* The reply number in the answer to a line, from 1. */
static unsigned answer_to(unsigned line, const uint8_t *out, size_t size)
{
    size_t place = 0;
    for (unsigned newlines = 1; newlines < line && place < size; place++)
        newlines += out[place] == '\n';
    while (place < size && out[place] != '\n') {
        if (size - place > 8 && memcmp(out + place, " answer=", 8) == 0)
            return out[place + 8] - '0';
        place++;
    }
    return 99;
}

static unsigned count_lines(const uint8_t *out, size_t size)
{
    unsigned count = 0;
    for (size_t place = 0; place < size; place++)
        count += out[place] == '\n';
    return count;
}

struct benched {
    unsigned lines;
    unsigned sector;
    unsigned word;
    unsigned other_form;
    unsigned form2;
};

/* The lines over memory, sector buffer and room of these lengths, all as malloc gives them. */
static struct benched run(size_t memory_length, size_t sector_length, size_t out_length)
{
    struct lent memory = lend(memory_length), sector = lend(sector_length), out = lend(out_length);
    struct lent text = lend(sizeof lines - 1);
    memcpy(text.bytes, lines, text.length);
    size_t size = cdrom_bench(memory.bytes, memory.length, sector.bytes, sector.length, text.bytes, text.length, out.bytes, out.length);
    struct benched benched = {count_lines(out.bytes, size), answer_to(SECTOR_LINE, out.bytes, size),
                              answer_to(WORD_LINE, out.bytes, size), answer_to(OTHER_FORM_LINE, out.bytes, size),
                              answer_to(FORM2_LINE, out.bytes, size)};
    free(memory.block);
    free(sector.block);
    free(out.block);
    free(text.block);
    return benched;
}

static void bench(void)
{
    const size_t room = ENDED_LINES * CDROM_ANSWER_ROOM;
    static const size_t memory_lengths[] = {0, 1, RING_BYTES - 1, RING_BYTES, RING_BYTES + 1, CDROM_RING_BYTES};
    for (size_t place = 0; place < sizeof memory_lengths / sizeof memory_lengths[0]; place++) {
        size_t length = memory_lengths[place];
        struct benched benched = run(length, CDROM_SECTOR_BYTES, room);
        expect("bench lines", length, benched.lines, ENDED_LINES);
        expect("bench sector", length, benched.sector, length < RING_BYTES ? CDROM_WRONG_LENGTH : CDROM_DONE);
        expect("bench word", length, benched.word, length < RING_BYTES ? CDROM_WRONG_LENGTH : CDROM_SWITCHES);
        expect("bench sector of the other form", length, benched.other_form, CDROM_OUT_OF_RANGE);
        expect("bench form 2", length, benched.form2, length < RING_BYTES ? CDROM_WRONG_LENGTH : CDROM_DONE);
    }
    for (size_t place = 0; place < sizeof sector_lengths / sizeof sector_lengths[0]; place++) {
        size_t length = sector_lengths[place];
        struct benched benched = run(CDROM_RING_BYTES, length, room);
        expect("bench sector buffer", length, benched.sector, CDROM_WRONG_LENGTH);
        expect("bench sector buffer", length, benched.other_form, CDROM_WRONG_LENGTH);
        expect("bench word", length, benched.word, CDROM_SWITCHES);
    }
    expect("bench room", 0, run(CDROM_RING_BYTES, CDROM_SECTOR_BYTES, 0).lines, 0);
    expect("bench room", 1, run(CDROM_RING_BYTES, CDROM_SECTOR_BYTES, CDROM_ANSWER_ROOM - 1).lines, 0);
    expect("bench room", 2, run(CDROM_RING_BYTES, CDROM_SECTOR_BYTES, CDROM_ANSWER_ROOM).lines, 1);
}

int main(void)
{
    sectors();
    openings();
    rings_and_words();
    bench();
    printf("lengths: %u answers, %u of them wrong\n", answers, wrong);
    return wrong > 0;
}

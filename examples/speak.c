/* The bench's lines (docs/BENCH.md) over the calls of the chip: lines on standard input, answers on standard output. It is a frame for
 * one's own code: put that in place of the calls `cdrom_chip_..`, and the program can be held against the model line by line. From the
 * repository's folder, after `make lib`:
 *
 *   make examples
 *   BENCH=target/examples/speak samples/run
 *   cd checks && cargo run --release -p drive -- ../target/examples/speak 1 5000 4
 *
 * The exit status is 1 where the input cannot be read or the output not be written. */
#include <stdio.h>
#include <string.h>

#include "cdrom.h"

#define MOST_BLOCKS 25
#define MOST_LINE_BYTES 80
#define MOST_NUMBERS 4

/* What a line looks like, NONE a malformed one; a # is a number from 0 to 65,535. */
enum form {
    OPEN,
    READ,
    WRITE,
    BLOCK,
    WINDOW,
    ADDRESS,
    PACKET,
    RESET,
    LOOK,
    WORD,
    COMMAND,
    SEND,
    STATUS,
    SRST,
    SECTOR,
    SCRATCH,
    KIND,
    SUBHEADER,
    NONE
};
static const char *const forms[NONE] = {
    "call=open ring=#",
    "call=read reg=#",
    "call=write reg=# value=#",
    "call=block number=#",
    "call=window offset=# words=#",
    "call=address min=# sec=# frame=#",
    "call=packet index=#",
    "call=reset",
    "call=look",
    "call=word",
    "call=command code=#",
    "call=send word=#",
    "call=status",
    "call=srst",
    "call=sector min=# sec=# frame=# fill=#",
    "call=scratch from=# count=#",
    "call=kind number=#",
    "call=subheader file=# channel=# submode=# coding=#",
};

/* One byte more than a line may have, to see that it is too long. */
struct line {
    char bytes[MOST_LINE_BYTES + 1];
    size_t length;
};

/* The chip, where one was opened; its ring is the front of the memory. The rest is the disc's, and no call of the chip touches it: so many
 * bytes of the next sector that is taken arrive inverted; and the kind and the subheader that all sectors have until others are named. */
static struct {
    cdrom_chip chip;
    uint8_t memory[MOST_BLOCKS * CDROM_BLOCK_BYTES];
    size_t ring_bytes;
    uint16_t scratch_from, scratch_count, kind;
    uint8_t subheader[CDROM_SUBHEADER_BYTES];
} bench;

/* -- Lines --------------------------------------------------------------------------------------------------------------------- */

/* False where the input has ended. A last line counts without its newline too, unless it is empty. */
static int read_line(struct line *line)
{
    line->length = 0;
    int byte = getchar();
    if (byte == EOF)
        return 0;
    for (; byte != EOF && byte != '\n'; byte = getchar()) {
        if (line->length < sizeof line->bytes)
            line->bytes[line->length++] = (char)byte;
    }
    return 1;
}

/* Moves on behind a number; false where there is none, or one above 65,535. */
static int read_number(const struct line *line, size_t *place, uint16_t *number)
{
    size_t first = *place;
    uint32_t value = 0;
    for (; *place < line->length && line->bytes[*place] >= '0' && line->bytes[*place] <= '9' && value <= 65535; ++*place)
        value = value * 10 + (uint32_t)(line->bytes[*place] - '0');
    *number = (uint16_t)value;
    return *place > first && value <= 65535;
}

static int matches(const struct line *line, const char *form, uint16_t *numbers)
{
    size_t place = 0;
    for (; *form != '\0'; form++) {
        if (*form == '#' && read_number(line, &place, numbers++))
            continue;
        if (*form == '#' || place == line->length || line->bytes[place++] != *form)
            return 0;
    }
    return place == line->length;
}

static enum form form_of(const struct line *line, uint16_t *numbers)
{
    if (line->length > MOST_LINE_BYTES)
        return NONE;
    enum form form = OPEN;
    while (form < NONE && !matches(line, forms[form], numbers))
        form++;
    return form;
}

/* -- Calls --------------------------------------------------------------------------------------------------------------------- */

/* A refused opening keeps the chip there was, and what was said of the disc. */
static uint32_t open_ring(uint16_t blocks)
{
    cdrom_chip opened;
    uint32_t answer = blocks > MOST_BLOCKS ? CDROM_WRONG_LENGTH : cdrom_chip_open(&opened, blocks);
    if (answer == CDROM_DONE) {
        bench.chip = opened;
        bench.ring_bytes = (size_t)blocks * CDROM_BLOCK_BYTES;
        bench.scratch_count = 0;
        bench.kind = CDROM_MODE1;
        memset(bench.subheader, 0, sizeof bench.subheader);
    }
    return answer;
}

/* A sector of the kind that was named, whose user bytes are all equal, with its scratch. One that is refused leaves the scratch to the
 * next. */
static uint32_t sector(const uint16_t *n)
{
    uint8_t bytes[CDROM_SECTOR_BYTES] = {0};
    if (n[3] > 0xFF)
        return CDROM_OUT_OF_RANGE;
    memset(bytes + CDROM_USER_OFFSET_OF(bench.kind), n[3], CDROM_USER_BYTES_OF(bench.kind));
    uint32_t sealed = cdrom_seal_xa(bytes, sizeof bytes, n[0], n[1], n[2], bench.kind, bench.subheader);
    if (sealed != CDROM_DONE)
        return sealed;
    for (size_t place = 0; place < bench.scratch_count; place++)
        bytes[bench.scratch_from + place] ^= 0xFF;
    uint32_t answer = cdrom_chip_sector(&bench.chip, bench.memory, bench.ring_bytes, bytes, sizeof bytes);
    if (CDROM_NUMBER(answer) == CDROM_DONE)
        bench.scratch_count = 0;
    return answer;
}

/* In place of an earlier one; no bytes take it back. The sum may be above 65,535. */
static uint32_t scratch(uint16_t from, uint16_t count)
{
    if ((uint32_t)from + count > CDROM_SECTOR_BYTES)
        return CDROM_OUT_OF_RANGE;
    bench.scratch_from = from;
    bench.scratch_count = count;
    return CDROM_DONE;
}

static uint32_t kind(uint16_t number)
{
    if (number < CDROM_MODE1 || number > CDROM_FORM2)
        return CDROM_OUT_OF_RANGE;
    bench.kind = number;
    return CDROM_DONE;
}

/* Whether its form bit is the kind's is asked with each sector, since either may be named first. */
static uint32_t subheader(const uint16_t *n)
{
    if (n[0] > 0xFF || n[1] > 0xFF || n[2] > 0xFF || n[3] > 0xFF)
        return CDROM_OUT_OF_RANGE;
    for (size_t place = 0; place < sizeof bench.subheader; place++)
        bench.subheader[place] = (uint8_t)n[place];
    return CDROM_DONE;
}

static uint32_t look(void)
{
    size_t offset;
    return CDROM_DONE | (uint32_t)cdrom_chip_look(&bench.chip, bench.memory, bench.ring_bytes, &offset) << 8;
}

static uint32_t run(enum form form, const uint16_t *n)
{
    cdrom_chip *chip = &bench.chip;
    if (form == NONE)
        return CDROM_NO_REGISTER;
    if (form != OPEN && bench.ring_bytes == 0)
        return CDROM_SWITCHES;
    switch (form) {
    case OPEN: return open_ring(n[0]);
    case READ: return cdrom_chip_read(chip, n[0]);
    case WRITE: return cdrom_chip_write(chip, n[0], n[1]);
    case BLOCK: return cdrom_chip_set_block(chip, n[0]);
    case WINDOW: return cdrom_chip_set_window(chip, n[0], n[1]);
    case ADDRESS: return cdrom_chip_set_expected(chip, n[0], n[1], n[2]);
    case PACKET: return cdrom_chip_packet_byte(chip, n[0]);
    case RESET: return cdrom_chip_reset(chip);
    case LOOK: return look();
    case WORD: return cdrom_chip_word(chip, bench.memory, bench.ring_bytes);
    case COMMAND: return cdrom_chip_command(chip, n[0]);
    case SEND: return cdrom_chip_packet_word(chip, n[0]);
    case STATUS: return cdrom_chip_status(chip);
    case SRST: return cdrom_chip_srst(chip);
    case SCRATCH: return scratch(n[0], n[1]);
    case KIND: return kind(n[0]);
    case SUBHEADER: return subheader(n);
    default: return sector(n);
    }
}

/* A counter of the chip, 0 where none is open. A read starts nothing that the call before has not started. */
static unsigned counter(uint16_t reg)
{
    return bench.ring_bytes == 0 ? 0 : (unsigned)CDROM_RESULT(cdrom_chip_read(&bench.chip, reg));
}

static void print_chip(void)
{
    int is_open = bench.ring_bytes != 0;
    unsigned why = is_open ? (unsigned)cdrom_chip_why(&bench.chip) : 0, irq = is_open ? (unsigned)cdrom_chip_irq(&bench.chip) : 0;
    printf("tcc=%u bufc=%u why=%u irq=%u\n", counter(CDROM_TCC), counter(CDROM_BUFC), why, irq);
}

int main(void)
{
    struct line line;
    for (unsigned long long count = 1; read_line(&line); count++) {
        uint16_t numbers[MOST_NUMBERS] = {0};
        enum form form = form_of(&line, numbers);
        uint32_t answer = run(form, numbers);
        printf("n=%llu answer=%u out=%u ", count, (unsigned)CDROM_NUMBER(answer), (unsigned)CDROM_RESULT(answer));
        print_chip();
    }
    return ferror(stdin) || fflush(stdout) != 0;
}

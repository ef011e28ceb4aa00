/* Random calls for the part of the chip that own.c covers; calls.h says what is whose. */
#include "calls.h"

#include <stdio.h>

/* Where a sector's address begins, and its mode. */
#define ADDRESS_OFFSET 12
#define MODE_OFFSET 15
#define SUBHEADERS_END CDROM_XA_USER_OFFSET
/* So many good blocks are enough for a start that is bound by its bytes: 27 of 1,176 words. */
#define MANY_BLOCKS 27
#define FEW_WORDS 3000

unsigned standing(cdrom_chip *chip, uint16_t reg)
{
    return (unsigned)CDROM_RESULT(cdrom_chip_read(chip, reg));
}

/* -- Randomness ---------------------------------------------------------------------------------------------------------------- */

static uint64_t draw(struct writer *writer)
{
    writer->random ^= writer->random << 13;
    writer->random ^= writer->random >> 7;
    writer->random ^= writer->random << 17;
    return writer->random >> 20;
}

/* The state must not be 0; the multiplication keeps near seeds apart. */
void start_writer(struct writer *writer, uint64_t seed)
{
    *writer = (struct writer){.random = seed * 0x9E3779B97F4A7C15u | 1};
    for (int turn = 0; turn < 8; turn++)
        draw(writer);
}

uint16_t draw_below(struct writer *writer, uint16_t end)
{
    return (uint16_t)(draw(writer) % end);
}

static int one_in(struct writer *writer, uint16_t times)
{
    return draw_below(writer, times) == 0;
}

static uint16_t pick(struct writer *writer, const uint16_t *choices, size_t count)
{
    return choices[draw_below(writer, (uint16_t)count)];
}
#define PICK(writer, ...) pick(writer, (const uint16_t[]){__VA_ARGS__}, sizeof((const uint16_t[]){__VA_ARGS__}) / sizeof(uint16_t))

/* -- Calls --------------------------------------------------------------------------------------------------------------------- */

/* Small rings, which are soon gone around; rings that are full with about as many blocks as a start may have, 28 to 33; and others. */
uint16_t draw_ring(struct writer *writer)
{
    static const uint16_t ranges[][2] = {{CDROM_LEAST_BLOCKS, 5}, {28, 33}, {6, 12}, {34, 70}, {13, CDROM_MOST_BLOCKS}};
    const uint16_t *range = ranges[draw_below(writer, sizeof ranges / sizeof ranges[0])];
    writer->blocks = (uint16_t)(range[0] + draw_below(writer, (uint16_t)(range[1] - range[0] + 1)));
    writer->minute = writer->frame = writer->window_words = writer->place = 0;
    writer->second = 2;
    writer->decen = writer->held = writer->is_stopped = 0;
    writer->is_filling = one_in(writer, 2);
    return writer->blocks;
}

static struct call write_call(uint16_t reg, uint16_t value)
{
    return (struct call){.kind = WRITE, .one = reg, .two = value};
}

/* Numbers in range and just past it. */
static struct call blind_call(struct writer *w)
{
    switch (draw_below(w, 13)) {
    case 0: return (struct call){.kind = OPEN, .one = PICK(w, 0, 2, 3, 255, 256, 65535)};
    case 1: return write_call(CDROM_CTRL0, PICK(w, 0, 1, 0x80, 0x81, 0x100));
    case 2: return write_call(CDROM_MBTC0, PICK(w, 0, 1, 31, 32, 256));
    case 3: return write_call(CDROM_ASTRG, PICK(w, 0, CDROM_ADTT, CDROM_ADTT | CDROM_SCT, 0x100));
    case 4: return write_call(CDROM_ASCTRL, PICK(w, 0, CDROM_ADCEN, CDROM_STWCEN, CDROM_ASCEN, 0x02, 0x100));
    case 5: return write_call(CDROM_BICCTL, PICK(w, 0, 0x10, 0x20, 0x30, 0x40, 0x120));
    case 6: return write_call(CDROM_BUFLIM, PICK(w, 0, 1, (uint16_t)(w->blocks - 2), (uint16_t)(w->blocks - 1), 256));
    case 7: return write_call(CDROM_ACCTL, PICK(w, 0, CDROM_ACMEN, CDROM_TCINCEN, CDROM_ACMEN | CDROM_TCINCEN, 0x160));
    case 8: return write_call(PICK(w, CDROM_SKIPC, CDROM_TTC), PICK(w, 0, 1, 255, 256));
    case 9: return write_call(PICK(w, CDROM_TBL, CDROM_TARSTA, 0, 0x10A), 0);
    case 10: return write_call(PICK(w, CDROM_ATBLO, CDROM_ATBHI), PICK(w, 0, 1, 255, 256));
    case 11: return (struct call){.kind = EXPECT, .one = PICK(w, 0, 99, 100), .two = PICK(w, 2, 59, 60), .three = PICK(w, 0, 74, 75)};
    default: return (struct call){.kind = WINDOW, .one = draw_below(w, 2400), .two = PICK(w, 0, 1, 588, 1176, 1177)};
    }
}

/* Changes one of so many bytes from a place on. */
static void damage(struct writer *w, size_t place, uint16_t count)
{
    w->sector[place + draw_below(w, count)] ^= (uint8_t)(1 + draw_below(w, 255));
}

/* Of the opened sector: where the code of its kind stands, just behind the user bytes. */
static size_t code_offset(const struct writer *w)
{
    uint16_t kind = CDROM_KIND_OF(w->sector);
    return (size_t)CDROM_USER_OFFSET_OF(kind) + CDROM_USER_BYTES_OF(kind);
}

/* That of mode 1 covers all bytes before it, and those of mode 2 all but sync and header. */
static void fit_code(struct writer *w)
{
    size_t first = CDROM_KIND_OF(w->sector) == CDROM_MODE1 ? 0 : CDROM_SUBHEADER_OFFSET, end = code_offset(w);
    uint32_t code = cdrom_edc(w->sector + first, end - first);
    for (int place = 0; place < 4; place++)
        w->sector[end + place] = (uint8_t)(code >> 8 * place);
}

/* A mode byte that is neither 1 nor 2; in mode 2 as often subheaders that differ. Either may change the kind that is read. */
static void spoil_mode(struct writer *w)
{
    if (CDROM_KIND_OF(w->sector) == CDROM_MODE1 || one_in(w, 2))
        w->sector[MODE_OFFSET] = (uint8_t)(3 + draw_below(w, 254));
    else
        damage(w, CDROM_SUBHEADER_OFFSET, SUBHEADERS_END - CDROM_SUBHEADER_OFFSET);
}

/* The code is made to fit the damaged bytes that it covers, and damaged last: so each fact comes alone and with any other. The parity is
 * left as it was, since the chip does not judge it. */
static void spoil(struct writer *w, uint16_t why)
{
    if (why & CDROM_WHY_SYNC)
        damage(w, 0, ADDRESS_OFFSET);
    if (why & CDROM_WHY_ADDRESS)
        damage(w, ADDRESS_OFFSET, MODE_OFFSET - ADDRESS_OFFSET);
    if (why & CDROM_WHY_MODE)
        spoil_mode(w);
    fit_code(w);
    if (why & CDROM_WHY_EDC)
        damage(w, code_offset(w), 4);
}

/* What is wrong with a sector: one damaged byte, as often of its first as of all; facts that are drawn; or four zeros in place of its code,
 * which form 2 may have. */
static void draw_faults(struct writer *w, struct call *call)
{
    switch (draw_below(w, 48)) {
    case 0: call->damaged = (uint16_t)(1 + draw_below(w, CDROM_SECTOR_BYTES)); return;
    case 1: call->damaged = (uint16_t)(1 + draw_below(w, SUBHEADERS_END)); return;
    case 2:
    case 3: call->why = (uint16_t)(1 + draw_below(w, 15)); return;
    case 4: call->has_no_code = 1; return;
    default: return;
    }
}

/* The user bytes are drawn, and so is the subheader, but for the form bit: that is the kind's. */
static void seal(struct writer *w, struct call call)
{
    uint8_t subheader[CDROM_SUBHEADER_BYTES];
    size_t first = CDROM_USER_OFFSET_OF(call.sector_kind), end = first + CDROM_USER_BYTES_OF(call.sector_kind);
    for (size_t place = 0; place < sizeof subheader; place++)
        subheader[place] = (uint8_t)draw(w);
    subheader[2] = (uint8_t)((subheader[2] & ~CDROM_SUBMODE_FORM2) | (call.sector_kind == CDROM_FORM2 ? CDROM_SUBMODE_FORM2 : 0));
    for (size_t place = first; place < end; place++)
        w->sector[place] = (uint8_t)draw(w);
    cdrom_seal_xa(w->sector, sizeof w->sector, call.one, call.two, call.three, call.sector_kind, subheader);
}

/* The sector that is due, or one of another place; sealed, as it lies on the disc, and some with faults. Scrambling is its own inverse: an
 * opened sector that is opened again is scrambled. */
static struct call sector_call(struct writer *w)
{
    struct call call = {.kind = SECTOR, .one = w->minute, .two = w->second, .three = w->frame};
    if (one_in(w, 20))
        call.three = draw_below(w, 75);
    call.sector_kind = PICK(w, CDROM_MODE1, CDROM_FORM1, CDROM_FORM2);
    draw_faults(w, &call);
    seal(w, call);
    cdrom_open(w->sector, sizeof w->sector);
    if (call.damaged > 0)
        damage(w, call.damaged - 1u, 1);
    if (call.why > 0)
        spoil(w, call.why);
    for (size_t place = 0; place < 4 && call.has_no_code; place++)
        w->sector[code_offset(w) + place] = 0;
    cdrom_open(w->sector, sizeof w->sector);
    return call;
}

/* Places from which the next sector, or the one after it, carries over. */
static struct call expect_call(struct writer *w)
{
    switch (draw_below(w, 4)) {
    case 0: return (struct call){.kind = EXPECT, .one = 99, .two = 59, .three = PICK(w, 73, 74)};
    case 1: return (struct call){.kind = EXPECT, .one = PICK(w, 0, 9, 98), .two = 59, .three = PICK(w, 73, 74)};
    case 2: return (struct call){.kind = EXPECT, .one = 0, .two = PICK(w, 2, 9, 58), .three = PICK(w, 73, 74)};
    default: return (struct call){.kind = EXPECT, .one = draw_below(w, 100), .two = draw_below(w, 60), .three = draw_below(w, 75)};
    }
}

/* A sector; before it the switches that decoding needs, in any order, and after a bad one the restart. */
static struct call fill(struct writer *w, cdrom_chip *chip)
{
    unsigned bicctl = standing(chip, CDROM_BICCTL);
    if (w->decen && one_in(w, w->held || w->is_stopped ? 2 : 50))
        return write_call(CDROM_CTRL0, 0);
    if (w->decen || one_in(w, 10))
        return sector_call(w);
    if (!(standing(chip, CDROM_ACCTL) & CDROM_TCINCEN) && one_in(w, 2))
        return write_call(CDROM_ACCTL, CDROM_ACMEN | CDROM_TCINCEN | PICK(w, 0, 0, 0, 1, 2, 31));
    if (!(bicctl & CDROM_BLIMEN) && one_in(w, 2))
        return write_call(CDROM_BICCTL, CDROM_BLIMEN | PICK(w, 0, 0, 0, CDROM_BLIMS));
    if (bicctl & CDROM_BLIMS && one_in(w, 6))
        return write_call(CDROM_BICCTL, CDROM_BLIMEN);
    if (bicctl & CDROM_BLIMS && one_in(w, 5))
        return write_call(CDROM_BUFLIM, draw_below(w, (uint16_t)(w->blocks - 1)));
    return one_in(w, 8) ? expect_call(w) : write_call(CDROM_CTRL0, CDROM_DECEN);
}

/* A step towards a transfer of as many blocks as there may be: 32, or by their bytes 31 or 27. */
static struct call ask_for_many(struct writer *w)
{
    switch (draw_below(w, 5)) {
    case 0: return (struct call){.kind = WINDOW, .one = PICK(w, 0, 0, 0, 16), .two = PICK(w, 1, 50, 1023, 1024, 1024, 1176, 1176)};
    case 1: return write_call(CDROM_MBTC0, 31);
    case 2: return write_call(CDROM_TTC, PICK(w, 0, 40, 255));
    case 3: return write_call(CDROM_ACCTL, CDROM_ACMEN | CDROM_TCINCEN | PICK(w, 0, 0, 0, 31));
    default: return write_call(CDROM_ASTRG, CDROM_ADTT);
    }
}

/* The next step towards a transfer: the window, ADCEN, the host's command, the blocks, the start. */
static struct call serve(struct writer *w, cdrom_chip *chip)
{
    uint16_t tcc = (uint16_t)standing(chip, CDROM_TCC);
    if (tcc >= MANY_BLOCKS && !one_in(w, 4))
        return ask_for_many(w);
    if (one_in(w, 4))
        return (struct call){.kind = WINDOW, .one = PICK(w, 0, 12, 15, 16, 24, 2060), .two = PICK(w, 1, 2, 3, 50, 146, 1024, 1162)};
    if (!(standing(chip, CDROM_ASCTRL) & CDROM_ADCEN))
        return write_call(CDROM_ASCTRL, CDROM_ADCEN | PICK(w, 0, CDROM_STWCEN, CDROM_STWCEN));
    if (!(standing(chip, CDROM_STATUS) & CDROM_BSY))
        return (struct call){.kind = COMMAND, .one = PICK(w, 0x08, 0x28, 0xA0, 0xFF, 0x100)};
    if (one_in(w, 4))
        return write_call(CDROM_MBTC0, draw_below(w, (uint16_t)(tcc > 31 ? 32 : tcc + 1)));
    if (one_in(w, 4))
        return write_call(CDROM_TTC, PICK(w, 0, 1, 2, tcc, 40, 255, 255));
    if (one_in(w, 6))
        return write_call(CDROM_ACCTL, CDROM_ACMEN | CDROM_TCINCEN | PICK(w, 0, 0, 0, 1, 2, 31));
    return write_call(CDROM_ASTRG, CDROM_ADTT);
}

static struct call rest(struct writer *w)
{
    switch (draw_below(w, 6)) {
    case 0: return (struct call){.kind = READ, .one = PICK(w, CDROM_TCC, CDROM_BUFC, CDROM_TARSTA, CDROM_TBL, CDROM_TTC, CDROM_ATBHI)};
    case 1: return (struct call){.kind = READ, .one = PICK(w, CDROM_SKIPC, CDROM_CTRL0, 0x00, 0x19D)};
    case 2: return (struct call){.kind = LOOK};
    case 3: return (struct call){.kind = STATUS};
    case 4: return write_call(CDROM_SKIPC, draw_below(w, 3));
    default: return (struct call){.kind = one_in(w, 4) ? SRST : WORD};
    }
}

static struct call in_transfer(struct writer *w)
{
    switch (draw_below(w, 24)) {
    case 0: return (struct call){.kind = SRST};
    case 1: return (struct call){.kind = COMMAND, .one = 0x28};
    case 2: return (struct call){.kind = WINDOW, .one = 16, .two = 1024};
    case 3: return rest(w);
    case 4: return sector_call(w);
    case 5:
    case 6:
    case 7:
    case 8: return (struct call){.kind = BURST, .one = draw_below(w, PICK(w, FEW_WORDS, MOST_WORDS))};
    default: return (struct call){.kind = WORD};
    }
}

/* Now and then a ring that serves is filled again, so that there are long transfers all along. */
struct call draw_call(struct writer *writer, cdrom_chip *chip)
{
    if (one_in(writer, 20) && standing(chip, CDROM_TCC) < MANY_BLOCKS)
        writer->is_filling = 1;
    if (one_in(writer, writer->is_filling ? 300 : 30))
        return blind_call(writer);
    if (standing(chip, CDROM_STATUS) & CDROM_DRQ)
        return in_transfer(writer);
    if (!one_in(writer, writer->is_filling ? 300 : 2) && (!writer->is_stopped || one_in(writer, 5)))
        return fill(writer, chip);
    return one_in(writer, 4) ? rest(writer) : serve(writer, chip);
}

/* -- Following the answers ----------------------------------------------------------------------------------------------------- */

static void step_address(struct writer *writer)
{
    writer->frame = (uint16_t)((writer->frame + 1) % 75);
    if (writer->frame > 0)
        return;
    writer->second = (uint16_t)((writer->second + 1) % 60);
    if (writer->second == 0)
        writer->minute = (uint16_t)((writer->minute + 1) % 100);
}

static void note_write(struct writer *writer, struct call call)
{
    if (call.one == CDROM_CTRL0) {
        writer->decen = call.two != 0;
        writer->held &= writer->decen;
    }
    if (call.one == CDROM_ASTRG)
        writer->place = 0;
}

void note_answer(struct writer *writer, struct call call, uint32_t answer, size_t words)
{
    if (CDROM_NUMBER(answer) == CDROM_NO_ROOM) {
        writer->is_stopped = 1;
        writer->is_filling = 0;
    }
    if (CDROM_NUMBER(answer) != CDROM_DONE)
        return;
    if (words > 0 || call.kind == WRITE)
        writer->is_stopped = 0;
    if (call.kind == WRITE)
        note_write(writer, call);
    if (call.kind == SECTOR)
        writer->held = answer != CDROM_DONE;
    if (call.kind == SECTOR && !writer->held)
        step_address(writer);
    if (call.kind == WINDOW)
        writer->window_words = call.two;
    if (call.kind == EXPECT) {
        writer->minute = call.one;
        writer->second = call.two;
        writer->frame = call.three;
    }
    if (words > 0)
        writer->place = (uint16_t)((writer->place + words) % writer->window_words);
    if (call.kind == SRST)
        writer->place = 0;
}

void print_call(struct call call)
{
    static const char *const names[] = {"open", "write", "read",  "window",  "expect", "sector",
                                        "look", "word",  "burst", "command", "status", "srst"};
    printf("    %s", names[call.kind]);
    if (call.kind == WRITE)
        printf(" %02Xh=%02Xh", call.one, call.two);
    if (call.kind == READ || call.kind == COMMAND)
        printf(" %02Xh", call.one);
    if (call.kind == OPEN || call.kind == BURST)
        printf(" %u", call.one);
    if (call.kind == WINDOW)
        printf(" from byte %u, %u words", call.one, call.two);
    if (call.kind == EXPECT || call.kind == SECTOR)
        printf(" %02u:%02u:%02u", call.one, call.two, call.three);
    if (call.kind == SECTOR)
        printf(", %s", call.sector_kind == CDROM_MODE1 ? "mode 1" : call.sector_kind == CDROM_FORM1 ? "form 1" : "form 2");
    if (call.damaged > 0)
        printf(", byte %u damaged", call.damaged - 1u);
    if (call.why > 0)
        printf(", spoilt: why=%u", call.why);
    if (call.has_no_code)
        printf(", no code");
    putchar('\n');
}

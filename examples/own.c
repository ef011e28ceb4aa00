/* An engineer's own code for a part of the chip; own.h says which. It divides nothing, so that a processor without a divide
 * instruction needs no library for it. Built with -DFAULT=1 to 17 it has a slip, so that one can see examples/against.c find it: 1 to 5 are
 * those that paper 01 tells of other boards, 6 and 7 are in telling what failed of a sector, 8 to 10 in the byte bound of a start, 11 to 15
 * in the kinds of sectors, 16 and 17 in addresses. */
#include "own.h"

#ifndef FAULT
#define FAULT 0
#endif

enum { DONE, WRONG_LENGTH, NO_REGISTER, OUT_OF_RANGE, BARRED, SWITCHES, TOO_FEW, DECODING_OFF, HELD, NO_ROOM };
enum { BLOCK_BYTES = 2560, SECTOR_BYTES = 2352, MOST_WORDS = 1176 };
enum { MODE_1 = 1, MODE_2 = 2, FORM_BIT = 0x20 };
enum { DECEN = 0x80, ADTT = 0x04, ADCEN = 0x40, STWCEN = 0x08, BSY = 0x80, DRQ = 0x08, STAERR = 0x40, HCEI = 0x01 };
enum { BLIMEN = 0x20, BLIMS = 0x10, ACMEN = 0x40, TCINCEN = 0x20, ATLIM = 0x1F };
enum { WHY_SYNC = 8, WHY_MODE = 4, WHY_EDC = 2, WHY_ADDRESS = 1 };
/* The most bytes of a start, in whole words, that 35h and 34h can tell. */
#define MOST_BYTES 65534u

static uint32_t done(uint16_t result)
{
    return (uint32_t)result << 8;
}

/* -- Sectors ------------------------------------------------------------------------------------------------------------------- */

/* Half a byte at a time: 64 bytes of table. */
static uint32_t code_of(const uint8_t *bytes, size_t length)
{
    static const uint32_t table[16] = {
        0x00000000, 0x99011001, 0x82012001, 0x1B003000, 0xB4014001, 0x2D005000, 0x36006000, 0xAF017001,
        0xD8018001, 0x41009000, 0x5A00A000, 0xC301B001, 0x6C00C000, 0xF501D001, 0xEE01E001, 0x7700F000,
    };
    uint32_t code = 0;
    for (size_t place = 0; place < length; place++) {
        code ^= bytes[place];
        code = code >> 4 ^ table[code & 15];
        code = code >> 4 ^ table[code & 15];
    }
    return code;
}

/* Copies a sector into a block and descrambles it on the way: a register of 15 bits gives the sequence, lowest bit first. */
static void descramble(uint8_t *block, const uint8_t *sector)
{
    const size_t first = FAULT == 4 ? 0 : 12;
    uint16_t bits = 1;
    for (size_t place = 0; place < SECTOR_BYTES; place++) {
        block[place] = sector[place];
        for (int bit = 0; bit < 8 && place >= first; bit++) {
            block[place] ^= (uint8_t)((bits & 1) << bit);
            bits = (uint16_t)(bits >> 1 | ((bits ^ bits >> 1) & 1) << 14);
        }
    }
}

/* Of a number below 100. In BCD a ten counts sixteen: 80, 40, 20 and 10 are taken off where they fit, and six is added for each ten. */
static uint8_t bcd(uint8_t number)
{
    uint8_t rest = number, digits = number;
    for (uint8_t tens = 8; tens > 0; tens >>= 1) {
        bool has = rest >= 10 * tens + (FAULT == 16);
        rest = (uint8_t)(rest - (has ? 10 * tens : 0));
        digits = (uint8_t)(digits + (has ? 6 * tens : 0));
    }
    return digits;
}

static bool has_sync(const uint8_t *block)
{
    bool fits = block[0] == 0 && block[11] == 0;
    for (int place = 1; place < 11; place++)
        fits &= block[place] == 0xFF;
    return fits;
}

/* In mode 2 the subheader stands twice. */
static bool has_mode(const uint8_t *block)
{
    if (block[15] != MODE_2)
        return block[15] == MODE_1;
    bool fits = true;
    for (int place = 16; place < 20; place++)
        fits &= block[place] == block[place + 4];
    return fits || FAULT == 12;
}

enum kind { OF_MODE_1, OF_FORM_1, OF_FORM_2 };

/* A sector of another mode goes by the rule of mode 1. */
static enum kind kind_of(const uint8_t *block)
{
    if (FAULT == 15 ? block[15] == MODE_1 : block[15] != MODE_2)
        return OF_MODE_1;
    return block[FAULT == 11 ? 22 : 18] & FORM_BIT ? OF_FORM_2 : OF_FORM_1;
}

/* Four zeros say that there is none. */
static bool may_lack_code(enum kind kind)
{
    return (kind == OF_FORM_2 && FAULT != 14) || (kind == OF_FORM_1 && FAULT == 13);
}

/* The code stands just behind what it covers. */
static bool has_code(const uint8_t *block)
{
    static const struct {
        uint16_t first, end;
    } covered[] = {[OF_MODE_1] = {0, 2064}, [OF_FORM_1] = {16, 2072}, [OF_FORM_2] = {16, 2348}};
    enum kind kind = kind_of(block);
    uint16_t first = covered[kind].first, end = covered[kind].end;
    uint32_t stored = 0;
    for (int place = 3; place >= 0; place--)
        stored = stored << 8 | block[end + place];
    return (stored == 0 && may_lack_code(kind)) || stored == code_of(block + first, (size_t)(end - first));
}

static bool has_address(const uint8_t *block, struct own_address expected)
{
    return block[12] == bcd(expected.minute) && block[13] == bcd(expected.second) && block[14] == bcd(expected.frame);
}

/* Four tests, each made whatever the others say. */
static uint8_t judge(const uint8_t *block, struct own_address expected)
{
    uint8_t why = 0;
    if (!has_sync(block))
        why |= WHY_SYNC;
    if (!has_mode(block))
        why |= WHY_MODE;
    if (!has_code(block) && !(FAULT == 7 && why & WHY_SYNC))
        why |= WHY_EDC;
    if (!has_address(block, expected))
        why |= WHY_ADDRESS;
    return why;
}

static uint8_t tarsta_of(uint8_t why)
{
    uint8_t staerr = why & (WHY_SYNC | WHY_MODE | WHY_EDC) ? STAERR : 0;
    return why & WHY_ADDRESS ? staerr | HCEI : staerr;
}

static struct own_address next(struct own_address address)
{
    if (++address.frame <= 74)
        return address;
    address.frame = 0;
    if (++address.second <= (FAULT == 17 ? 60 : 59))
        return address;
    address.second = 0;
    address.minute = (uint8_t)(address.minute == 99 ? 0 : address.minute + 1);
    return address;
}

/* -- The ring ------------------------------------------------------------------------------------------------------------------ */

/* No step is longer than a turn. */
static uint16_t around(const struct own *own, uint16_t block, uint16_t steps)
{
    uint16_t place = (uint16_t)(block + steps);
    return (uint16_t)(place < own->blocks ? place : place - own->blocks);
}

static size_t block_at(uint16_t block)
{
    return (size_t)block * BLOCK_BYTES;
}

static bool is_at_stop(const struct own *own)
{
    if (own->bicctl & BLIMS)
        return own->bufc >= own->buflim;
    return around(own, own->b, 1) == own->t;
}

/* 34h and 35h as opened. */
static void sign(struct own *own)
{
    own->atblo = 0x14;
    own->atbhi = 0xEB;
}

uint32_t own_open(struct own *own, uint8_t *ring, uint16_t blocks)
{
    if (blocks < 3 || blocks > 255)
        return WRONG_LENGTH;
    *own = (struct own){.ring = ring, .blocks = blocks, .expected = {0, 2, 0}};
    sign(own);
    return DONE;
}

static uint32_t refusal_of_sector(const struct own *own)
{
    if (!own->decen)
        return DECODING_OFF;
    if (own->held)
        return HELD;
    return is_at_stop(own) ? NO_ROOM : DONE;
}

/* For FAULT 6: whatever comes from the disc is judged, taken or not. */
static void judge_beside(struct own *own, const uint8_t *sector)
{
    uint8_t opened[SECTOR_BYTES];
    descramble(opened, sector);
    own->why = judge(opened, own->expected);
}

uint32_t own_sector(struct own *own, const uint8_t *sector)
{
    uint32_t refusal = refusal_of_sector(own);
    if (refusal != DONE) {
        if (FAULT == 6)
            judge_beside(own, sector);
        return refusal;
    }
    uint8_t *block = own->ring + block_at(own->b);
    descramble(block, sector);
    own->why = judge(block, own->expected);
    own->last = own->b;
    own->b = around(own, own->b, 1);
    own->bufc++;
    own->held = own->why != 0;
    if (!own->held)
        own->expected = next(own->expected);
    if (!own->held || FAULT == 1)
        own->tcc++;
    return done(tarsta_of(own->why));
}

uint32_t own_why(const struct own *own)
{
    return own->why;
}

size_t own_look(const struct own *own, size_t *offset)
{
    bool is_empty = own->tcc == 0 || own->words == 0;
    *offset = is_empty ? 0 : block_at(own->t) + own->offset;
    return is_empty ? 0 : 2 * (size_t)own->words;
}

/* -- Registers ----------------------------------------------------------------------------------------------------------------- */

/* DECEN low gives up what was filled behind the good blocks. */
static uint32_t write_ctrl0(struct own *own, uint16_t value)
{
    if (value != 0 && value != DECEN)
        return OUT_OF_RANGE;
    if (value == DECEN && !(own->bicctl & BLIMEN && own->acctl & TCINCEN))
        return SWITCHES;
    own->decen = value == DECEN;
    if (own->decen)
        return DONE;
    own->held = false;
    own->bufc = own->tcc;
    if (FAULT != 2)
        own->b = around(own, own->t, own->tcc);
    return DONE;
}

static uint32_t write_limits(struct own *own, uint8_t *reg, uint16_t value, bool is_in_range)
{
    if (!is_in_range)
        return OUT_OF_RANGE;
    if (own->decen)
        return SWITCHES;
    *reg = (uint8_t)value;
    return DONE;
}

static uint32_t write_acctl(struct own *own, uint16_t value)
{
    if (value > 0xFF)
        return OUT_OF_RANGE;
    if (own->left > 0)
        return BARRED;
    if (own->decen && (own->acctl ^ value) & TCINCEN)
        return SWITCHES;
    own->acctl = (uint8_t)value;
    if (!(value & ACMEN))
        own->ttc = 0;
    return DONE;
}

static void take_blocks(struct own *own, uint16_t blocks)
{
    own->tcc = (uint16_t)(own->tcc - blocks);
    own->bufc = (uint16_t)(own->bufc > blocks ? own->bufc - blocks : 0);
    own->t = around(own, own->t, blocks);
}

/* 9Eh and 9Fh do nothing with ACMEN low. */
static uint32_t write_count(struct own *own, uint16_t reg, uint16_t value)
{
    if (value > 0xFF)
        return OUT_OF_RANGE;
    if (own->left > 0)
        return BARRED;
    if (!(own->acctl & ACMEN))
        return DONE;
    if (reg == 0x9F) {
        own->ttc = value;
        return DONE;
    }
    if (value > own->tcc)
        return TOO_FEW;
    take_blocks(own, value);
    return DONE;
}

static uint32_t write_switch(struct own *own, uint8_t *reg, uint16_t value, uint16_t bits)
{
    if (value & ~bits)
        return OUT_OF_RANGE;
    if (own->left > 0)
        return BARRED;
    *reg = (uint8_t)value;
    return DONE;
}

/* Never barred. */
static uint32_t write_task(uint8_t *reg, uint16_t value)
{
    if (value > 0xFF)
        return OUT_OF_RANGE;
    *reg = (uint8_t)value;
    return DONE;
}

static uint16_t least(uint16_t one, uint16_t other)
{
    return one < other ? one : other;
}

/* With TTC set the blocks are reckoned, else MBC has them; ATLIM 0 is 32. */
static uint16_t blocks_asked_for(const struct own *own)
{
    uint16_t limit = own->acctl & ATLIM;
    if (limit == 0 && FAULT != 3)
        limit = 32;
    return own->ttc > 0 ? least(limit, least(own->tcc, own->ttc)) : (uint16_t)(own->mbc + 1);
}

/* So many blocks, less those whose bytes pass the bound, with and without STWCEN: five at most, which are taken off one by one. */
static uint16_t blocks_within_bytes(const struct own *own, uint16_t blocks)
{
    const uint32_t of_a_block = UINT32_C(2) * own->words;
    uint32_t bytes = of_a_block * blocks;
    for (; bytes > MOST_BYTES && FAULT != 8; bytes -= of_a_block)
        blocks--;
    return blocks;
}

/* By the bound the sixteen bits hold all of it. */
static void tell_bytes(struct own *own)
{
    uint16_t bytes = (uint16_t)(2u * own->words * own->left);
    own->atblo = (uint8_t)bytes;
    own->atbhi = (uint8_t)(bytes >> 8);
}

static uint32_t start(struct own *own, uint16_t value)
{
    if (value != ADTT)
        return OUT_OF_RANGE;
    if (own->left > 0)
        return BARRED;
    if (!(own->acctl & ACMEN && own->asctrl & ADCEN && own->status & BSY) || own->words == 0)
        return SWITCHES;
    uint16_t asked = blocks_asked_for(own), blocks = blocks_within_bytes(own, asked);
    if (FAULT == 10 && own->ttc == 0)
        own->mbc = (uint8_t)(blocks - 1);
    if (blocks == 0 || (FAULT == 9 ? asked : blocks) > own->tcc)
        return TOO_FEW;
    own->mbc = (uint8_t)(blocks - 1);
    own->left = blocks;
    own->place = 0;
    own->status = DRQ;
    own->hirq = true;
    if (own->asctrl & STWCEN)
        tell_bytes(own);
    return DONE;
}

uint32_t own_write(struct own *own, uint16_t reg, uint16_t value)
{
    switch (reg) {
    case 0x0A: return write_ctrl0(own, value);
    case 0x12: return write_switch(own, &own->mbc, value, 0x1F);
    case 0x17: return start(own, value);
    case 0x18: return write_switch(own, &own->asctrl, value, ADCEN | STWCEN);
    case 0x34: return write_task(&own->atblo, value);
    case 0x35: return write_task(&own->atbhi, value);
    case 0x9A: return write_limits(own, &own->bicctl, value, (value & ~(BLIMEN | BLIMS)) == 0);
    case 0x9B: return write_limits(own, &own->buflim, value, value <= own->blocks - 2);
    case 0x9C: return write_acctl(own, value);
    case 0x9E:
    case 0x9F: return write_count(own, reg, value);
    default: return NO_REGISTER;
    }
}

uint32_t own_read(struct own *own, uint16_t reg)
{
    switch (reg) {
    case 0x12: return done(own->mbc);
    case 0x18: return done(own->asctrl);
    case 0x24: return done(own->t);
    case 0x34: return done(own->atblo);
    case 0x35: return done(own->atbhi);
    case 0x38: return done(own->status);
    case 0x3A: return done(own->last);
    case 0x80: return done(tarsta_of(own->why));
    case 0x9A: return done(own->bicctl);
    case 0x9B: return done(own->bufc);
    case 0x9C: return done(own->acctl);
    case 0x9D: return done(own->tcc);
    case 0x9F: return done(own->ttc);
    default: return NO_REGISTER;
    }
}

uint32_t own_set_window(struct own *own, uint16_t offset, uint16_t words)
{
    if (words < 1 || words > MOST_WORDS || offset > SECTOR_BYTES - 2 * words)
        return OUT_OF_RANGE;
    if (own->left > 0)
        return BARRED;
    own->offset = offset;
    own->words = words;
    return DONE;
}

uint32_t own_set_expected(struct own *own, uint16_t minute, uint16_t second, uint16_t frame)
{
    if (minute > 99 || second > 59 || frame > 74)
        return OUT_OF_RANGE;
    if (own->decen)
        return SWITCHES;
    own->expected = (struct own_address){(uint8_t)minute, (uint8_t)second, (uint8_t)frame};
    return DONE;
}

/* -- The host ------------------------------------------------------------------------------------------------------------------ */

/* With a block's last word it is taken, with the last block's the transfer ends. */
static void end_block(struct own *own)
{
    take_blocks(own, 1);
    own->ttc = (uint16_t)(own->ttc > 0 ? own->ttc - 1 : 0);
    own->place = 0;
    if (--own->left == 0)
        own->status = BSY;
}

uint32_t own_word(struct own *own)
{
    if (own->left == 0)
        return SWITCHES;
    const uint8_t *bytes = own->ring + block_at(own->t) + own->offset + 2 * (size_t)own->place;
    uint16_t word = (uint16_t)(bytes[0] | bytes[1] << 8);
    if (++own->place == own->words)
        end_block(own);
    return done(word);
}

uint32_t own_command(struct own *own, uint16_t code)
{
    if (code > 0xFF)
        return OUT_OF_RANGE;
    if (own->left > 0 || own->status & BSY)
        return BARRED;
    own->hirq = false;
    own->status |= BSY;
    return DONE;
}

uint32_t own_status(struct own *own)
{
    own->hirq = false;
    return done(own->status);
}

uint32_t own_srst(struct own *own)
{
    if (FAULT == 5 && own->place > 0)
        take_blocks(own, 1);
    own->left = own->place = 0;
    own->ttc = 0;
    own->status = 0;
    own->hirq = false;
    sign(own);
    return DONE;
}

/* Random calls for the part of the chip that own.c covers (examples/against.c). */
#ifndef CALLS_H
#define CALLS_H

#include "cdrom.h"

/* Of a burst: more than the longest transfer has, 32 blocks of 1,023 words. */
#define MOST_WORDS 33000

enum kind { OPEN, WRITE, READ, WINDOW, EXPECT, SECTOR, LOOK, WORD, BURST, COMMAND, STATUS, SRST };

struct call {
    enum kind kind;
    uint16_t one, two, three;
    /* Of a sector: its kind, CDROM_MODE1, CDROM_FORM1 or CDROM_FORM2; the byte that is damaged, counted from 1; what it is made to fail in,
     * CDROM_WHY_..; whether zeros stand in the place of its code. 0 is none, and at most one of the last three is not 0. */
    uint16_t sector_kind, damaged, why, has_no_code;
};

/* The writer of the calls. It looks at the library's chip, so that what it asks for is often possible: blind calls would hardly ever
 * get as far as a transfer. Of one's own code it knows nothing, so that a seed's calls stay the same when that is mended. */
struct writer {
    uint64_t random;
    /* The ring, the sector that is due, the window's words and those read of the present block. */
    uint16_t blocks, minute, second, frame, window_words, place;
    /* DECEN; a bad sector is held; the ring is at its stop; the ring is filled before anything is served. */
    int decen, held, is_stopped, is_filling;
    /* The sector of the last call, as it comes from the disc. */
    uint8_t sector[CDROM_SECTOR_BYTES];
};

void start_writer(struct writer *writer, uint64_t seed);
uint16_t draw_below(struct writer *writer, uint16_t end);
/* A ring's number of blocks, 3 to 255; the calls that follow are for that ring, newly opened. */
uint16_t draw_ring(struct writer *writer);
struct call draw_call(struct writer *writer, cdrom_chip *chip);
/* The library's answer to the call, and how many words it handed over. */
void note_answer(struct writer *writer, struct call call, uint32_t answer, size_t words);
void print_call(struct call call);
/* A register of the library's chip; with ATTEN, which is left out, a read might start a transfer. */
unsigned standing(cdrom_chip *chip, uint16_t reg);

#endif

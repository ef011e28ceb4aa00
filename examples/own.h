/* An engineer's own code for a part of the chip, to be held against the library (docs/FIRMWARE.md): the decoder's side with sectors of all
 * three kinds, skips, and transfers that the firmware starts. It needs no C library and no operating system.
 *
 * Left out, and not compared: packets, status completion and signature; transfers that start by themselves (ATTEN); of 18h all but
 * ADCEN and STWCEN, of the status all but BSY and DRQ; 07h, 31h, 32h, 37h, 3Dh and 3Eh; writes of 9Dh; setting T; chip reset. */
#ifndef OWN_H
#define OWN_H

#include <stdbool.h>
#include <stddef.h>
#include <stdint.h>

struct own_address {
    uint8_t minute, second, frame;
};

struct own {
    uint8_t *ring;
    uint16_t blocks;
    /* Block numbers: served next, filled next, filled last. */
    uint16_t t, b, last;
    uint16_t tcc, bufc, ttc;
    struct own_address expected;
    bool decen, held, hirq;
    /* What failed of the last sector that was stored: sync 8, mode 4, EDC 2, address 1. 80h is made from it. */
    uint8_t why;
    /* Registers as they are read. */
    uint8_t mbc, asctrl, atblo, atbhi, status, bicctl, buflim, acctl;
    /* The window; 0 words is none. */
    uint16_t offset, words;
    /* The running transfer: blocks that are left, 0 is none, and words of the present block that were read. */
    uint16_t left, place;
};

/* Answers are packed as in cdrom.h, which makes them easy to compare: the reply number in the low byte, the result above it. */
uint32_t own_open(struct own *own, uint8_t *ring, uint16_t blocks);
uint32_t own_write(struct own *own, uint16_t reg, uint16_t value);
uint32_t own_read(struct own *own, uint16_t reg);
uint32_t own_set_window(struct own *own, uint16_t offset, uint16_t words);
uint32_t own_set_expected(struct own *own, uint16_t minute, uint16_t second, uint16_t frame);
/* 2,352 bytes. */
uint32_t own_sector(struct own *own, const uint8_t *sector);
/* It is no answer, as in cdrom.h: the number alone. */
uint32_t own_why(const struct own *own);
/* How many bytes the look has, and from which byte of the ring. */
size_t own_look(const struct own *own, size_t *offset);
uint32_t own_word(struct own *own);
uint32_t own_command(struct own *own, uint16_t code);
uint32_t own_status(struct own *own);
uint32_t own_srst(struct own *own);

#endif

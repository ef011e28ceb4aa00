/* Runs lines of the bench (docs/BENCH.md) through the library and prints their answers. From the repository's folder, after `make lib`:
 *
 *   make examples && target/examples/lines
 *
 * or anywhere, after `make install`: gcc -std=c11 -O2 lines.c $(pkg-config --cflags --libs cdrom) -o lines
 *
 * The exit status is 1 where the answers are not those that are expected. */
#include <stdio.h>
#include <string.h>

#include "cdrom.h"

static const char text[] =
    "call=open ring=3\n"
    "call=write reg=154 value=32\n"
    "call=write reg=156 value=96\n"
    "call=write reg=10 value=128\n"
    "call=sector min=0 sec=2 frame=0 fill=65\n"
    "call=sector min=0 sec=2 frame=5 fill=66\n"
    "call=sector min=0 sec=2 frame=1 fill=67\n"
    "call=look me\n"
    "call=write reg=10 value=0\n"
    "call=write reg=10 value=128\n"
    "call=scratch from=0 count=17\n"
    "call=sector min=0 sec=2 frame=1 fill=68\n"
    "call=sector min=0 sec=2 frame=1 fill=69\n";

static const char expected[] =
    "n=1 answer=0 out=0 tcc=0 bufc=0 why=0 irq=0\n"
    "n=2 answer=0 out=0 tcc=0 bufc=0 why=0 irq=0\n"
    "n=3 answer=0 out=0 tcc=0 bufc=0 why=0 irq=0\n"
    "n=4 answer=0 out=0 tcc=0 bufc=0 why=0 irq=0\n"
    "n=5 answer=0 out=0 tcc=1 bufc=1 why=0 irq=0\n"
    "n=6 answer=0 out=1 tcc=1 bufc=2 why=1 irq=0\n"
    "n=7 answer=8 out=0 tcc=1 bufc=2 why=1 irq=0\n"
    "n=8 answer=2 out=0 tcc=1 bufc=2 why=1 irq=0\n"
    "n=9 answer=0 out=0 tcc=1 bufc=1 why=1 irq=0\n"
    "n=10 answer=0 out=0 tcc=1 bufc=1 why=1 irq=0\n"
    "n=11 answer=0 out=0 tcc=1 bufc=1 why=1 irq=0\n"
    "n=12 answer=0 out=65 tcc=1 bufc=2 why=15 irq=0\n"
    "n=13 answer=8 out=0 tcc=1 bufc=2 why=15 irq=0\n";

int main(void)
{
    static uint8_t memory[CDROM_RING_BYTES];
    static uint8_t sector[CDROM_SECTOR_BYTES];
    uint8_t out[14 * CDROM_ANSWER_ROOM];

    size_t size = cdrom_bench(memory, sizeof memory, sector, sizeof sector, (const uint8_t *)text, sizeof text - 1, out, sizeof out);
    fwrite(out, 1, size, stdout);
    /* The refused line 13 left the buffer as line 12 did: opened, it has the user bytes of line 12, the first of them inverted. */
    const uint8_t *user = sector + CDROM_USER_OFFSET;
    if (cdrom_open(sector, sizeof sector) != CDROM_DONE || user[0] != (68 ^ 0xFF) || user[1] != 68)
        return 1;
    return size != sizeof expected - 1 || memcmp(out, expected, size) != 0;
}

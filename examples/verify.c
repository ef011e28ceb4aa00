/* Judges every sector of a raw disc image, of whatever kind, and checks its parity: what image.c makes, or an image that is taken over.
 * From the repository's folder, after `make lib`:
 *
 *   make examples && target/examples/verify disc.bin
 *
 * or anywhere, after `make install`: gcc -std=c11 -O2 verify.c $(pkg-config --cflags --libs cdrom) -o verify
 *
 * The first sector says from which address the image is; each other must have the address after. Where the bytes of a sector that says it
 * are no address, the next one does. A line tells of each sector that is not as it should be what failed, and the last line how many
 * sectors of each kind there are. Of a form 2 sector without a code no user byte can be checked: these are counted apart.
 *
 * Exit status: 0 all sectors are good, and their parity holds; 1 one is not, or the image is empty or no whole number of sectors; 2 wrong
 * arguments, or the file cannot be read. */
#include <errno.h>
#include <stdio.h>
#include <string.h>

#include "cdrom.h"

enum status { DONE = 0, NOT_WHOLE = 1, FAILED = 2 };

struct address {
    uint16_t minute, second, frame;
};

/* Sectors in all, those that are not as they should be, those of each kind, and those of form 2 without a code. */
struct counts {
    unsigned long all, wrong, of_kind[4], unchecked;
};

/* A digit above 9 is none, and gives a number that is in no address. */
static uint16_t from_bcd(uint8_t byte)
{
    return (byte & 15) > 9 ? UINT16_MAX : (uint16_t)(10 * (byte >> 4) + (byte & 15));
}

static struct address address_in(const uint8_t *sector)
{
    return (struct address){from_bcd(sector[12]), from_bcd(sector[13]), from_bcd(sector[14])};
}

/* Stands for no address, as before the first sector: cdrom_next_address refuses it. */
static const struct address none = {.minute = UINT16_MAX};

/* The address that is due after another; after what is no address, the sector's own. */
static struct address due_after(struct address last, const uint8_t *sector)
{
    uint32_t answer = cdrom_next_address(last.minute, last.second, last.frame);
    if (CDROM_NUMBER(answer) != CDROM_DONE)
        return address_in(sector);
    return (struct address){(uint16_t)CDROM_MINUTE(answer), (uint16_t)CDROM_SECOND(answer), (uint16_t)CDROM_FRAME(answer)};
}

static int has_no_code(const uint8_t *sector)
{
    static const uint8_t zeros[4];
    return memcmp(sector + CDROM_XA_USER_OFFSET + CDROM_FORM2_BYTES, zeros, sizeof zeros) == 0;
}

/* An address that is none is refused by the judgement, and told as what failed of the sector. */
static void count_sector(struct counts *counts, const uint8_t *sector, struct address at)
{
    uint32_t answer = cdrom_judge(sector, CDROM_SECTOR_BYTES, at.minute, at.second, at.frame);
    uint32_t why = CDROM_NUMBER(answer) == CDROM_DONE ? CDROM_RESULT(answer) : CDROM_WHY_ADDRESS;
    int has_parity = CDROM_RESULT(cdrom_parity(sector, CDROM_SECTOR_BYTES)) == 1, kind = CDROM_KIND_OF(sector);
    counts->of_kind[kind]++;
    counts->unchecked += kind == CDROM_FORM2 && has_no_code(sector);
    if (why != 0 || !has_parity) {
        counts->wrong++;
        printf("verify: sector %lu, due at %02u:%02u:%02u:%s%s%s%s%s\n", counts->all, at.minute, at.second, at.frame,
               why & CDROM_WHY_SYNC ? " sync" : "", why & CDROM_WHY_MODE ? " mode" : "", why & CDROM_WHY_EDC ? " EDC" : "",
               why & CDROM_WHY_ADDRESS ? " address" : "", has_parity ? "" : " parity");
    }
    counts->all++;
}

static enum status verify(FILE *image, const char *name)
{
    uint8_t sector[CDROM_SECTOR_BYTES];
    struct counts counts = {0};
    struct address at = none;
    size_t length;
    while ((length = fread(sector, 1, sizeof sector, image)) == sizeof sector) {
        at = due_after(at, sector);
        count_sector(&counts, sector, at);
    }
    if (ferror(image)) {
        fprintf(stderr, "verify: %s: %s\n", name, strerror(errno));
        return FAILED;
    }
    printf("verify: %lu sectors, %lu of them wrong: %lu of mode 1, %lu of form 1, %lu of form 2, %lu of these without a code\n", counts.all,
           counts.wrong, counts.of_kind[CDROM_MODE1], counts.of_kind[CDROM_FORM1], counts.of_kind[CDROM_FORM2], counts.unchecked);
    if (length > 0)
        printf("verify: %lu bytes more, which are no sector\n", (unsigned long)length);
    return counts.all == 0 || counts.wrong > 0 || length > 0 ? NOT_WHOLE : DONE;
}

int main(int count, char **arguments)
{
    if (count != 2) {
        fputs("usage: verify IMAGE.bin\n", stderr);
        return FAILED;
    }
    FILE *image = fopen(arguments[1], "rb");
    if (image == NULL) {
        fprintf(stderr, "verify: %s: %s\n", arguments[1], strerror(errno));
        return FAILED;
    }
    enum status status = verify(image, arguments[1]);
    fclose(image);
    return fflush(stdout) != 0 ? FAILED : status;
}

/* Seals sectors of all kinds, opens them, judges them and checks their parity, whole and damaged. A judgement's result is why, the sum of
 * what failed (CDROM_WHY_..); that of a parity check is 1 where the parity holds and 0 where not. From the repository's folder, after
 * `make lib`:
 *
 *   make examples && target/examples/seal
 *
 * or anywhere, after `make install`: gcc -std=c11 -O2 seal.c $(pkg-config --cflags --libs cdrom) -o seal
 *
 * The exit status is 1 where an answer is not the one that is expected. */
#include <stdio.h>
#include <string.h>

#include "cdrom.h"

static int wrong = 0;

static void show(const char *what, uint32_t found, uint32_t expected)
{
    printf("%-48s number %u result 0x%02X\n", what, (unsigned)CDROM_NUMBER(found), (unsigned)CDROM_RESULT(found));
    if (found != expected) {
        printf("  expected: number %u result 0x%02X\n", (unsigned)CDROM_NUMBER(expected), (unsigned)CDROM_RESULT(expected));
        wrong = 1;
    }
}

static void check(int holds, const char *what)
{
    if (!holds) {
        printf("not so: %s\n", what);
        wrong = 1;
    }
}

static uint32_t done_with(uint32_t result)
{
    return CDROM_DONE | result << 8;
}

/* Judges a sector that is expected at 00:02:00, and checks its parity. */
static void show_tests(const char *what, const uint8_t *sector, uint32_t why, uint32_t parity)
{
    char line[64];
    snprintf(line, sizeof line, "judge: %s", what);
    show(line, cdrom_judge(sector, CDROM_SECTOR_BYTES, 0, 2, 0), done_with(why));
    snprintf(line, sizeof line, "parity: %s", what);
    show(line, cdrom_parity(sector, CDROM_SECTOR_BYTES), done_with(parity));
}

/* The same with one byte changed, which is put back. */
static void show_damage(const char *what, uint8_t *sector, size_t place, uint32_t why, uint32_t parity)
{
    sector[place] ^= 0x10;
    show_tests(what, sector, why, parity);
    sector[place] ^= 0x10;
}

/* The sync bytes are in the code and not in the parity; a parity byte is in the parity alone, and not judged. */
static void show_damages(uint8_t *sector)
{
    show_damage("a damaged user byte", sector, CDROM_USER_OFFSET + 100, CDROM_WHY_EDC, 0);
    show_damage("a damaged sync byte", sector, 5, CDROM_WHY_SYNC | CDROM_WHY_EDC, 1);
    show_damage("a damaged address byte", sector, 13, CDROM_WHY_EDC | CDROM_WHY_ADDRESS, 0);
    show_damage("a damaged mode byte", sector, 15, CDROM_WHY_MODE | CDROM_WHY_EDC, 0);
    show_damage("a damaged parity byte", sector, 2100, 0, 0);
}

/* Of zeros the code is 0 and the parity too, so that both hold. */
static void show_no_sectors(void)
{
    uint8_t bytes[CDROM_SECTOR_BYTES];
    memset(bytes, 0xA5, sizeof bytes);
    show_tests("what is no sector", bytes, 15, 0);
    memset(bytes, 0, sizeof bytes);
    show_tests("zeros", bytes, CDROM_WHY_SYNC | CDROM_WHY_MODE | CDROM_WHY_ADDRESS, 1);
}

static void show_code(const uint8_t *sector)
{
    uint32_t code = cdrom_edc(sector, 2064);
    uint32_t stored = sector[2064] | sector[2065] << 8 | sector[2066] << 16 | (uint32_t)sector[2067] << 24;
    printf("%-48s 0x%08X, stored 0x%08X\n", "code of bytes 0 to 2,063", (unsigned)code, (unsigned)stored);
    check(code == stored, "the code is stored, its low byte first");
}

/* Sealing takes the user bytes and nothing else: around them it may find its own bytes or any others. */
static void seal_again(const uint8_t *sealed, const uint8_t *opened)
{
    uint8_t sector[CDROM_SECTOR_BYTES];
    memcpy(sector, opened, sizeof sector);
    show("seal the opened sector again", cdrom_seal(sector, sizeof sector, 0, 2, 0), done_with(0));
    check(memcmp(sector, sealed, sizeof sector) == 0, "it is the same sector");

    memset(sector, 0xA5, sizeof sector);
    memcpy(sector + CDROM_USER_OFFSET, opened + CDROM_USER_OFFSET, CDROM_USER_BYTES);
    show("seal its user bytes among others", cdrom_seal(sector, sizeof sector, 0, 2, 0), done_with(0));
    check(memcmp(sector, sealed, sizeof sector) == 0, "it is the same sector");
}

/* -- Mode 2 -------------------------------------------------------------------------------------------------------------------- */

static const uint8_t of_form1[CDROM_SUBHEADER_BYTES] = {1, 0, 0x08, 0};
static const uint8_t of_form2[CDROM_SUBHEADER_BYTES] = {1, 0, 0x04 | CDROM_SUBMODE_FORM2, 0x7F};

static uint32_t seal_at_start(uint8_t *sector, uint16_t kind, const uint8_t *subheader)
{
    return cdrom_seal_xa(sector, CDROM_SECTOR_BYTES, 0, 2, 0, kind, subheader);
}

/* The kind is an unsigned number of sixteen bits, and 257 is not 1. */
static void refuse_to_seal(void)
{
    uint8_t sector[CDROM_SECTOR_BYTES] = {0};
    show("seal_xa: one byte less", cdrom_seal_xa(sector, sizeof sector - 1, 0, 2, 0, CDROM_FORM1, of_form1), CDROM_WRONG_LENGTH);
    show("seal_xa: at 00:60:00", cdrom_seal_xa(sector, sizeof sector, 0, 60, 0, CDROM_FORM1, of_form1), CDROM_BAD_ADDRESS);
    show("seal_xa: kind 0", seal_at_start(sector, 0, of_form1), CDROM_OUT_OF_RANGE);
    show("seal_xa: kind 4", seal_at_start(sector, 4, of_form1), CDROM_OUT_OF_RANGE);
    show("seal_xa: kind 257", seal_at_start(sector, 257, of_form1), CDROM_OUT_OF_RANGE);
    show("seal_xa: form 1, the bit of form 2", seal_at_start(sector, CDROM_FORM1, of_form2), CDROM_OUT_OF_RANGE);
    show("seal_xa: form 2 without its bit", seal_at_start(sector, CDROM_FORM2, of_form1), CDROM_OUT_OF_RANGE);
    for (size_t place = 0; place < sizeof sector; place++)
        check(sector[place] == 0, "a refusal changes no byte");
}

/* A sector of the kind at 00:02:00, opened; its user bytes are counted up. It is read as what it is, and sealed again it is the same. */
static void make(uint8_t *sector, uint16_t kind, const uint8_t *subheader)
{
    uint8_t sealed[CDROM_SECTOR_BYTES], again[CDROM_SECTOR_BYTES];
    memset(sector, 0xA5, CDROM_SECTOR_BYTES);
    for (size_t place = 0; place < (size_t)CDROM_USER_BYTES_OF(kind); place++)
        sector[CDROM_USER_OFFSET_OF(kind) + place] = (uint8_t)place;
    show("seal_xa at 00:02:00", seal_at_start(sector, kind, subheader), done_with(0));
    memcpy(sealed, sector, sizeof sealed);
    show("open", cdrom_open(sector, CDROM_SECTOR_BYTES), done_with(0));
    check(CDROM_KIND_OF(sector) == kind, "it is read as the kind that it was sealed as");
    check(memcmp(sector + CDROM_SUBHEADER_OFFSET, subheader, CDROM_SUBHEADER_BYTES) == 0, "the subheader is there");
    check(memcmp(sector + 20, subheader, CDROM_SUBHEADER_BYTES) == 0, "and once more");
    for (size_t place = 0; place < (size_t)CDROM_USER_BYTES_OF(kind); place++)
        check(sector[CDROM_USER_OFFSET_OF(kind) + place] == (uint8_t)place, "the user bytes are those that were sealed");
    memcpy(again, sector, sizeof again);
    show("seal_xa the opened sector again", seal_at_start(again, kind, subheader), done_with(0));
    check(memcmp(again, sealed, sizeof again) == 0, "it is the same sector");
}

/* The code covers neither sync nor address, and the parity does not cover the header. */
static void show_form1(void)
{
    uint8_t sector[CDROM_SECTOR_BYTES];
    make(sector, CDROM_FORM1, of_form1);
    show_tests("form 1", sector, 0, 1);
    show_damage("form 1, a damaged user byte", sector, CDROM_XA_USER_OFFSET + 100, CDROM_WHY_EDC, 0);
    show_damage("form 1, a damaged sync byte", sector, 5, CDROM_WHY_SYNC, 1);
    show_damage("form 1, a damaged address byte", sector, 13, CDROM_WHY_ADDRESS, 1);
    show_damage("form 1, a damaged subheader", sector, 17, CDROM_WHY_MODE | CDROM_WHY_EDC, 0);
    show_damage("form 1, the other subheader damaged", sector, 22, CDROM_WHY_MODE | CDROM_WHY_EDC, 0);
    show_damage("form 1, a damaged parity byte", sector, 2100, 0, 0);
    memset(sector + 2072, 0, 4);
    show_tests("form 1 with zeros for its code", sector, CDROM_WHY_EDC, 0);
}

/* It has no parity. Without a code nobody looks at the user bytes. */
static void show_form2(void)
{
    uint8_t sector[CDROM_SECTOR_BYTES];
    make(sector, CDROM_FORM2, of_form2);
    show_tests("form 2", sector, 0, 1);
    show_damage("form 2, a damaged user byte", sector, CDROM_XA_USER_OFFSET + 100, CDROM_WHY_EDC, 1);
    show_damage("form 2, a damaged sync byte", sector, 5, CDROM_WHY_SYNC, 1);
    show_damage("form 2, a damaged address byte", sector, 13, CDROM_WHY_ADDRESS, 1);
    show_damage("form 2, a damaged subheader", sector, 17, CDROM_WHY_MODE | CDROM_WHY_EDC, 1);
    memset(sector + 2348, 0, 4);
    show_tests("form 2 without a code", sector, 0, 1);
    show_damage("form 2 without a code, a user byte", sector, CDROM_XA_USER_OFFSET + 100, 0, 1);
    show_damage("form 2 without a code, a subheader", sector, 17, CDROM_WHY_MODE, 1);
}

/* One byte can change the kind that is read: of a good mode 1 sector, without parity and with these user bytes, the mode byte. */
static void show_changed_kind(void)
{
    uint8_t sector[CDROM_SECTOR_BYTES];
    memset(sector, CDROM_SUBMODE_FORM2, sizeof sector);
    show("seal_xa: mode 1, any subheader", seal_at_start(sector, CDROM_MODE1, of_form2), done_with(0));
    show("open", cdrom_open(sector, sizeof sector), done_with(0));
    memset(sector + 2348, 0, 4);
    show_tests("mode 1 of 20h, zeros at its end", sector, 0, 0);
    sector[15] = 2;
    show_tests("the same, the mode byte 2", sector, 0, 1);
    check(CDROM_KIND_OF(sector) == CDROM_FORM2, "it is read as form 2");
}

/* Byte 15 and byte 18 say the kind, and no other byte does. */
static void check_kinds(void)
{
    uint8_t sector[CDROM_SECTOR_BYTES];
    memset(sector, 0xFF, sizeof sector);
    for (unsigned bytes = 0; bytes <= 0xFFFF; bytes++) {
        sector[15] = (uint8_t)(bytes >> 8);
        sector[18] = (uint8_t)bytes;
        int form = bytes & 0x20 ? CDROM_FORM2 : CDROM_FORM1;
        check(CDROM_KIND_OF(sector) == (bytes >> 8 == 2 ? form : CDROM_MODE1), "CDROM_KIND_OF reads the kind");
    }
}

/* The two bits of register 80h by their rule: sync, mode or EDC failed; the address did. The macro evaluates its argument once, so that
 * `next` keeps up with `why`. */
static void check_tarsta(void)
{
    uint32_t next = 0;
    for (uint32_t why = 0; why <= 15; why++) {
        uint32_t staerr = why & (CDROM_WHY_SYNC | CDROM_WHY_MODE | CDROM_WHY_EDC) ? CDROM_STAERR : 0;
        uint32_t hcei = why & CDROM_WHY_ADDRESS ? CDROM_HCEI : 0;
        check(CDROM_TARSTA_OF(next++) == (staerr | hcei) && next == why + 1, "CDROM_TARSTA_OF makes register 80h");
    }
}

int main(void)
{
    static const char text[] = "no block shall count that was not read and checked";
    uint8_t sector[CDROM_SECTOR_BYTES] = {0}, sealed[CDROM_SECTOR_BYTES];
    uint8_t *user = sector + CDROM_USER_OFFSET;
    memcpy(user, text, sizeof text);

    show("seal at 00:60:00, no address", cdrom_seal(sector, sizeof sector, 0, 60, 0), CDROM_BAD_ADDRESS);
    show("seal one byte less", cdrom_seal(sector, sizeof sector - 1, 0, 2, 0), CDROM_WRONG_LENGTH);
    show("seal at 00:02:00", cdrom_seal(sector, sizeof sector, 0, 2, 0), done_with(0));
    memcpy(sealed, sector, sizeof sealed);
    show("open", cdrom_open(sector, sizeof sector), done_with(0));
    check(memcmp(user, text, sizeof text) == 0, "the user bytes are those that were sealed");
    seal_again(sealed, sector);

    show_code(sector);
    show_tests("the opened sector", sector, 0, 1);
    show("judge: the same at 00:02:01", cdrom_judge(sector, sizeof sector, 0, 2, 1), done_with(CDROM_WHY_ADDRESS));
    show("parity: one byte less", cdrom_parity(sector, sizeof sector - 1), CDROM_WRONG_LENGTH);
    show_damages(sector);
    show_no_sectors();
    check_tarsta();
    refuse_to_seal();
    show_form1();
    show_form2();
    show_changed_kind();
    check_kinds();
    return wrong;
}

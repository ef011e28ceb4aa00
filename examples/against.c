/* Holds one's own code for the chip (own.c) against the library: both are given the same random calls (calls.c), and after each their
 * answers, what failed of the last sector (why), the registers that both have, the interrupt line and, after a sector, every byte of the
 * rings are compared. From the repository's folder, after `make lib`:
 *
 *   make examples && target/examples/against [SEED [CALLS]]
 *
 * It prints what happened, or the first difference with the calls before it. The calls follow from the seed and the library alone:
 * after own.c was mended the same seed gives the same calls. Exit status: 0 no difference; 1 a difference; 2 the arguments are wrong,
 * or something that is counted never happened, so that the comparison was too short. */
#include <inttypes.h>
#include <stdio.h>
#include <stdlib.h>
#include <string.h>

#include "calls.h"
#include "cdrom.h"
#include "own.h"

#define MOST_RING_BYTES (CDROM_MOST_BLOCKS * CDROM_BLOCK_BYTES)
#define USUAL_CALLS 100000
#define CALLS_OF_A_RING 1500
#define TOLD_CALLS 8

/* An answer, and the bytes that came with it: a look's, or those of a burst's words. */
struct outcome {
    uint32_t answer;
    size_t length;
    const void *bytes;
};

static struct {
    cdrom_chip chip;
    uint8_t ring[MOST_RING_BYTES];
    uint16_t words[MOST_WORDS];
} library;

static struct {
    struct own chip;
    uint8_t ring[MOST_RING_BYTES];
    uint16_t words[MOST_WORDS];
} own;

static struct writer writer;
static size_t ring_bytes;
static uint64_t seed, step;
static struct call told[TOLD_CALLS];

/* -- A call on each side ------------------------------------------------------------------------------------------------------- */

static struct outcome plain(uint32_t answer)
{
    return (struct outcome){answer, 0, NULL};
}

static struct outcome look_by_library(void)
{
    size_t offset, length = cdrom_chip_look(&library.chip, library.ring, ring_bytes, &offset);
    return (struct outcome){CDROM_DONE, length, library.ring + offset};
}

static struct outcome look_by_own(void)
{
    size_t offset, length = own_look(&own.chip, &offset);
    return (struct outcome){CDROM_DONE, length, own.ring + offset};
}

static struct outcome burst_by_library(size_t count)
{
    size_t handed;
    uint32_t answer = cdrom_chip_words(&library.chip, library.ring, ring_bytes, library.words, count, &handed);
    return (struct outcome){answer, handed * sizeof library.words[0], library.words};
}

/* One's own code hands over single words; so many of them are a burst. */
static struct outcome burst_by_own(size_t count)
{
    size_t handed = 0;
    uint32_t answer = CDROM_DONE;
    while (handed < count && CDROM_NUMBER(answer = own_word(&own.chip)) == CDROM_DONE)
        own.words[handed++] = (uint16_t)CDROM_RESULT(answer);
    return (struct outcome){handed > 0 ? CDROM_DONE : answer, handed * sizeof own.words[0], own.words};
}

/* An opening is tried on a record beside the chip's. */
static struct outcome by_library(struct call call)
{
    cdrom_chip *chip = &library.chip, other;
    switch (call.kind) {
    case OPEN: return plain(cdrom_chip_open(&other, call.one));
    case WRITE: return plain(cdrom_chip_write(chip, call.one, call.two));
    case READ: return plain(cdrom_chip_read(chip, call.one));
    case WINDOW: return plain(cdrom_chip_set_window(chip, call.one, call.two));
    case EXPECT: return plain(cdrom_chip_set_expected(chip, call.one, call.two, call.three));
    case SECTOR: return plain(cdrom_chip_sector(chip, library.ring, ring_bytes, writer.sector, sizeof writer.sector));
    case LOOK: return look_by_library();
    case WORD: return plain(cdrom_chip_word(chip, library.ring, ring_bytes));
    case BURST: return burst_by_library(call.one);
    case COMMAND: return plain(cdrom_chip_command(chip, call.one));
    case STATUS: return plain(cdrom_chip_status(chip));
    default: return plain(cdrom_chip_srst(chip));
    }
}

static struct outcome by_own(struct call call)
{
    struct own *chip = &own.chip, other;
    switch (call.kind) {
    case OPEN: return plain(own_open(&other, own.ring, call.one));
    case WRITE: return plain(own_write(chip, call.one, call.two));
    case READ: return plain(own_read(chip, call.one));
    case WINDOW: return plain(own_set_window(chip, call.one, call.two));
    case EXPECT: return plain(own_set_expected(chip, call.one, call.two, call.three));
    case SECTOR: return plain(own_sector(chip, writer.sector));
    case LOOK: return look_by_own();
    case WORD: return plain(own_word(chip));
    case BURST: return burst_by_own(call.one);
    case COMMAND: return plain(own_command(chip, call.one));
    case STATUS: return plain(own_status(chip));
    default: return plain(own_srst(chip));
    }
}

/* -- Comparing ----------------------------------------------------------------------------------------------------------------- */

static int differ(const char *what, uint64_t by_library, uint64_t by_own)
{
    if (by_library == by_own)
        return 0;
    printf("against: seed %" PRIu64 ", step %" PRIu64 ", a ring of %u blocks: %s: library %" PRIu64 ", own %" PRIu64 "\n", seed, step,
           writer.blocks, what, by_library, by_own);
    puts("  the calls up to there, the last one last:");
    for (uint64_t place = step < TOLD_CALLS ? 1 : step - TOLD_CALLS + 1; place <= step; place++)
        print_call(told[place % TOLD_CALLS]);
    return 1;
}

static int bytes_differ(const char *name, const uint8_t *by_library, const uint8_t *by_own, size_t length)
{
    if (length == 0 || memcmp(by_library, by_own, length) == 0)
        return 0;
    size_t place = 0;
    while (by_library[place] == by_own[place])
        place++;
    char what[60];
    snprintf(what, sizeof what, "%s %zu", name, place);
    return differ(what, by_library[place], by_own[place]);
}

static int outcomes_differ(struct outcome by_library, struct outcome by_own)
{
    return differ("reply number", CDROM_NUMBER(by_library.answer), CDROM_NUMBER(by_own.answer)) ||
           differ("result", CDROM_RESULT(by_library.answer), CDROM_RESULT(by_own.answer)) ||
           differ("length of the look or burst", by_library.length, by_own.length) ||
           bytes_differ("of the look or burst byte", by_library.bytes, by_own.bytes, by_library.length);
}

/* Before the registers, since 80h shows less of it; and 80h is what the macro makes of it. */
static int facts_differ(void)
{
    uint32_t why = cdrom_chip_why(&library.chip);
    return differ("why after it", why, own_why(&own.chip)) ||
           differ("80h after it, by CDROM_TARSTA_OF", standing(&library.chip, CDROM_TARSTA), CDROM_TARSTA_OF(why));
}

static int registers_differ(void)
{
    static const uint16_t registers[] = {CDROM_TCC,    CDROM_BUFC,   CDROM_TARSTA, CDROM_TBL, CDROM_LDDBL, CDROM_STATUS, CDROM_MBTC0,
                                         CDROM_ASCTRL, CDROM_BICCTL, CDROM_ACCTL,  CDROM_TTC, CDROM_ATBLO, CDROM_ATBHI};
    for (size_t place = 0; place < sizeof registers / sizeof registers[0]; place++) {
        char what[40];
        snprintf(what, sizeof what, "register %02Xh after it", registers[place]);
        if (differ(what, standing(&library.chip, registers[place]), CDROM_RESULT(own_read(&own.chip, registers[place]))))
            return 1;
    }
    return differ("interrupt line after it", cdrom_chip_irq(&library.chip), own.chip.hirq);
}

/* -- What happened ------------------------------------------------------------------------------------------------------------- */

/* The sectors that were taken come first, by their why. */
enum {
    LAST = 16,
    FORM1_GOOD,
    FORM2_GOOD,
    FORM2_UNCHECKED,
    FORM1_WITHOUT_CODE,
    OTHER_MODES,
    SUBHEADERS_DIFFER,
    FORMS_DIFFER,
    RESTARTS,
    SKIPS,
    STARTS,
    TELLING_STARTS,
    LONG_STARTS,
    CUT_STARTS,
    LOWERED_STARTS,
    WORDS,
    TAKEN,
    AROUND,
    ENDED,
    BOUND_ENDED,
    ABORTS,
    LOOKS,
    REFUSED
};
static const char *const names[] = {"good sectors",
                                    "sectors with why=1: address",
                                    "sectors with why=2: EDC",
                                    "sectors with why=3: EDC, address",
                                    "sectors with why=4: mode",
                                    "sectors with why=5: mode, address",
                                    "sectors with why=6: mode, EDC",
                                    "sectors with why=7: mode, EDC, address",
                                    "sectors with why=8: sync",
                                    "sectors with why=9: sync, address",
                                    "sectors with why=10: sync, EDC",
                                    "sectors with why=11: sync, EDC, address",
                                    "sectors with why=12: sync, mode",
                                    "sectors with why=13: sync, mode, address",
                                    "sectors with why=14: sync, mode, EDC",
                                    "sectors with why=15: all four",
                                    "good sectors at 99:59:74",
                                    "good sectors of form 1",
                                    "good sectors of form 2 with their code",
                                    "good sectors of form 2 without a code",
                                    "sectors of form 1 with zeros for a code",
                                    "sectors of other modes than 1 and 2",
                                    "sectors of mode 2 whose subheaders differ",
                                    "sectors of mode 2 whose two form bits differ",
                                    "restarts after a bad sector",
                                    "skips of blocks",
                                    "starts",
                                    "starts with STWCEN, which set the byte count",
                                    "starts of 32 blocks with ATLIM 0",
                                    "starts that the byte bound cut, TTC set",
                                    "starts whose MBC it lowered, TTC 0",
                                    "words",
                                    "blocks taken",
                                    "times around the ring",
                                    "transfers ended",
                                    "transfers ended that the byte bound had cut",
                                    "aborts within a block",
                                    "looks with bytes",
                                    "refusals with 1",
                                    "refusals with 2",
                                    "refusals with 3",
                                    "refusals with 4",
                                    "refusals with 5",
                                    "refusals with 6",
                                    "refusals with 7, DECEN low",
                                    "refusals with 8, held",
                                    "refusals with 9, at the stop"};
#define HAPPENINGS (sizeof names / sizeof names[0])
static uint64_t happened[HAPPENINGS];
/* The last start had fewer blocks than were asked for. */
static int is_bound;

struct state {
    unsigned t, tcc, mbc;
    int held, is_running;
    uint16_t place;
};

static struct state state_now(void)
{
    return (struct state){
        .t = standing(&library.chip, CDROM_TBL),
        .tcc = standing(&library.chip, CDROM_TCC),
        .mbc = standing(&library.chip, CDROM_MBTC0),
        .held = writer.held,
        .is_running = (standing(&library.chip, CDROM_STATUS) & CDROM_DRQ) != 0,
        .place = writer.place,
    };
}

/* Of a start the byte bound shows with TTC in fewer blocks than ATLIM, TCC and TTC allow, and without in an MBC that was lowered. */
static void count_start(struct state before, struct state after)
{
    unsigned atlim = standing(&library.chip, CDROM_ACCTL) & CDROM_ATLIM, ttc = standing(&library.chip, CDROM_TTC);
    unsigned blocks = after.mbc + 1;
    int is_cut = blocks < (atlim == 0 ? 32 : atlim) && blocks < after.tcc && blocks < ttc;
    int is_lowered = ttc == 0 && after.mbc < before.mbc;
    is_bound = is_cut || is_lowered;
    happened[STARTS]++;
    happened[TELLING_STARTS] += (standing(&library.chip, CDROM_ASCTRL) & CDROM_STWCEN) != 0;
    happened[LONG_STARTS] += blocks == 32 && atlim == 0 && ttc > 0;
    happened[CUT_STARTS] += is_cut;
    happened[LOWERED_STARTS] += is_lowered;
}

static void count_write(struct call call, struct state before, struct state after)
{
    happened[RESTARTS] += call.one == CDROM_CTRL0 && before.held && !after.held;
    happened[SKIPS] += call.one == CDROM_SKIPC && after.tcc < before.tcc;
    if (!before.is_running && after.is_running)
        count_start(before, after);
}

/* By the kind that is read of the block. */
static void count_kind(const uint8_t *block, uint32_t why)
{
    static const uint8_t zeros[4];
    int kind = CDROM_KIND_OF(block), is_mode_2 = block[15] == 2;
    int has_no_code = memcmp(block + CDROM_USER_OFFSET_OF(kind) + CDROM_USER_BYTES_OF(kind), zeros, sizeof zeros) == 0;
    happened[FORM1_GOOD] += kind == CDROM_FORM1 && why == 0;
    happened[FORM2_GOOD] += kind == CDROM_FORM2 && why == 0 && !has_no_code;
    happened[FORM2_UNCHECKED] += kind == CDROM_FORM2 && why == 0 && has_no_code;
    happened[FORM1_WITHOUT_CODE] += kind == CDROM_FORM1 && has_no_code;
    happened[OTHER_MODES] += block[15] != 1 && !is_mode_2;
    happened[SUBHEADERS_DIFFER] += is_mode_2 && (why & CDROM_WHY_MODE) != 0;
    happened[FORMS_DIFFER] += is_mode_2 && ((block[18] ^ block[22]) & CDROM_SUBMODE_FORM2) != 0;
}

static void count_sector(struct call call)
{
    uint32_t why = cdrom_chip_why(&library.chip);
    happened[why & 15]++;
    happened[LAST] += why == 0 && call.one == 99 && call.two == 59 && call.three == 74;
    count_kind(library.ring + (size_t)standing(&library.chip, CDROM_LDDBL) * CDROM_BLOCK_BYTES, why);
}

static void count(struct call call, struct outcome outcome, struct state before, struct state after)
{
    uint32_t number = CDROM_NUMBER(outcome.answer);
    int is_word = call.kind == WORD || call.kind == BURST, is_end = is_word && before.is_running && !after.is_running;
    if (number != CDROM_DONE) {
        happened[REFUSED + number - 1]++;
        return;
    }
    if (call.kind == SECTOR)
        count_sector(call);
    if (call.kind == WRITE)
        count_write(call, before, after);
    happened[WORDS] += call.kind == WORD ? 1 : call.kind == BURST ? outcome.length / 2 : 0;
    happened[TAKEN] += is_word ? before.tcc - after.tcc : 0;
    happened[AROUND] += after.t < before.t;
    happened[ENDED] += is_end;
    happened[BOUND_ENDED] += is_end && is_bound;
    happened[ABORTS] += call.kind == SRST && before.place > 0;
    happened[LOOKS] += call.kind == LOOK && outcome.length > 0;
}

/* True where something never happened. */
static int report(uint64_t calls)
{
    int is_short = 0;
    for (size_t place = 0; place < HAPPENINGS; place++) {
        printf("%9" PRIu64 "  %s\n", happened[place], names[place]);
        is_short |= happened[place] == 0;
    }
    printf("against: seed %" PRIu64 ", %" PRIu64 " calls, no difference\n", seed, calls);
    if (is_short)
        puts("against: something never happened: take more calls");
    return is_short;
}

/* -- The run ------------------------------------------------------------------------------------------------------------------- */

/* A new ring on both sides, over the same stale bytes. */
static int open_both(void)
{
    uint16_t blocks = draw_ring(&writer);
    ring_bytes = (size_t)blocks * CDROM_BLOCK_BYTES;
    memset(library.ring, blocks, ring_bytes);
    memset(own.ring, blocks, ring_bytes);
    return differ("opening", cdrom_chip_open(&library.chip, blocks), own_open(&own.chip, own.ring, blocks)) || facts_differ() ||
           registers_differ();
}

/* One call on both sides; true where they differ. */
static int call_both(void)
{
    struct state before = state_now();
    struct call call = draw_call(&writer, &library.chip);
    told[++step % TOLD_CALLS] = call;
    struct outcome outcome = by_library(call), owns = by_own(call);
    note_answer(&writer, call, outcome.answer, call.kind == WORD ? 1 : call.kind == BURST ? outcome.length / 2 : 0);
    count(call, outcome, before, state_now());
    return outcomes_differ(outcome, owns) || facts_differ() || registers_differ() ||
           (call.kind == SECTOR && bytes_differ("the ring's byte", library.ring, own.ring, ring_bytes));
}

static int number_of(const char *text, uint64_t *number)
{
    char *end;
    *number = strtoull(text, &end, 10);
    return *text >= '0' && *text <= '9' && *end == '\0';
}

int main(int count_of_arguments, char **arguments)
{
    uint64_t calls = USUAL_CALLS;
    seed = 1;
    if (count_of_arguments > 3 || (count_of_arguments > 1 && !number_of(arguments[1], &seed)) ||
        (count_of_arguments > 2 && !number_of(arguments[2], &calls))) {
        fputs("usage: against [SEED [CALLS]]\n", stderr);
        return 2;
    }
    start_writer(&writer, seed);
    while (step < calls) {
        if (step % CALLS_OF_A_RING == 0 && open_both())
            return 1;
        if (call_both())
            return 1;
    }
    return report(calls) ? 2 : 0;
}

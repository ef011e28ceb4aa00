/* Makes a raw disc image of a file of blocks, such as an ISO 9660 file system: each block of 2,048 bytes becomes the user bytes of a
 * sector of mode 1, with its sync, address, error detection code and parity; with --form1 one of mode 2, form 1, as CD-ROM XA discs have
 * them. With --form2 each block of 2,324 bytes becomes a sector of mode 2, form 2. The sectors are descrambled, as raw images have them.
 * From the repository's folder, after `make lib`:
 *
 *   make examples && target/examples/image disc.iso disc.bin
 *
 * or anywhere, after `make install`: gcc -std=c11 -O2 image.c $(pkg-config --cflags --libs cdrom) -o image
 *
 * `image --help` has the arguments and the exit status; `verify` (verify.c) judges such an image. What to try by hand, with other
 * programs: beside disc.bin put the file disc.cue,
 *
 *   FILE "disc.bin" BINARY
 *     TRACK 01 MODE1/2352
 *       INDEX 01 00:00:00
 *
 * with MODE2/2352 for both forms. Then `cd-info --cue-file=disc.cue` (libcdio) tells what is on the disc, `chdman createcd -i disc.cue -o
 * disc.chd` (MAME) packs it.
 *
 * In mode 2 each sector has a subheader. Its file number, channel number and coding information are 0 here. Of the submode the data bit is
 * set in form 1; form 2 has none of the bits for data, audio and video, since nothing is known of the bytes. By the rule of XA the last
 * sector of a file is also the end of a record and of the file. To this program IN is one file: the files of a file system within it are
 * not marked, as a program that makes the file system itself would do it. Who reads them by their directory does not miss the marks. */
#include <errno.h>
#include <stdio.h>
#include <stdlib.h>
#include <string.h>

#include "cdrom.h"

#define FRAMES_OF_A_SECOND 75
#define SECONDS_OF_A_MINUTE 60
#define MINUTES 100
#define ALL_FRAMES ((uint32_t)MINUTES * SECONDS_OF_A_MINUTE * FRAMES_OF_A_SECOND)
/* 00:02:00, where a disc's first block lies. */
#define USUAL_FIRST ((uint32_t)2 * FRAMES_OF_A_SECOND)

/* The submode's bits. */
#define END_OF_RECORD 0x01
#define DATA 0x08
#define END_OF_FILE 0x80

static const char usage[] =
    "usage: image [--form1 | --form2] IN OUT.bin [MM:SS:FF]\n"
    "       image --help\n";

static const char help[] =
    "\n"
    "Each block of 2,048 bytes of IN becomes a raw sector of 2,352 bytes of OUT.bin: mode 1, descrambled, with error\n"
    "detection code and parity. The first lies at MM:SS:FF, without it at 00:02:00, and each other at the address after.\n"
    "\n"
    "  --form1  the sectors are of mode 2, form 1; the submode is 08h (data), and 89h in the last (end of record and file)\n"
    "  --form2  each block of 2,324 bytes becomes a sector of mode 2, form 2, without parity; the submode is 20h, and A1h\n"
    "           in the last\n"
    "\n"
    "The sectors are written to OUT.bin.part, which must not exist yet. When all are there it is renamed to OUT.bin, in\n"
    "place of an older one.\n"
    "\n"
    "Exit status:\n"
    "  0  done; one line tells how many sectors there are and from which address\n"
    "  1  IN is empty, its length is no multiple of a block's, or it runs past 99:59:74; or a sector was not made right\n"
    "  2  wrong arguments, or a file that cannot be read or written\n"
    "After 1 and 2 OUT.bin is as it was, and what was written of OUT.bin.part is removed. A run that is killed may leave it.\n";

enum status { DONE = 0, NOT_WHOLE = 1, FAILED = 2 };

/* What the image is made of: sectors of one kind, from an address on. */
struct track {
    uint16_t kind;
    uint8_t submode;
    uint32_t first;
};

struct file {
    const char *name;
    FILE *stream;
};

/* -- Telling ------------------------------------------------------------------------------------------------------------------- */

static enum status not_whole(const char *name, const char *reason)
{
    fprintf(stderr, "image: %s: %s\n", name, reason);
    return NOT_WHOLE;
}

/* For a call of the C library that has just failed. */
static enum status failed(const char *name)
{
    fprintf(stderr, "image: %s: %s\n", name, strerror(errno));
    return FAILED;
}

/* -- Addresses, counted in frames from 00:00:00 -------------------------------------------------------------------------------- */

struct address {
    uint16_t minute, second, frame;
};

static struct address address_of(uint32_t frames)
{
    uint32_t seconds = frames / FRAMES_OF_A_SECOND;
    return (struct address){
        .minute = (uint16_t)(seconds / SECONDS_OF_A_MINUTE),
        .second = (uint16_t)(seconds % SECONDS_OF_A_MINUTE),
        .frame = (uint16_t)(frames % FRAMES_OF_A_SECOND),
    };
}

/* False where the text is no address of the form MM:SS:FF, two digits each. */
static int read_address(const char *text, uint32_t *frames)
{
    static const char form[] = "##:##:##";
    uint32_t numbers[3] = {0};
    if (strlen(text) != strlen(form))
        return 0;
    for (size_t place = 0; form[place] != '\0'; place++) {
        int is_digit = text[place] >= '0' && text[place] <= '9';
        if (form[place] == '#' ? !is_digit : text[place] != form[place])
            return 0;
        if (is_digit)
            numbers[place / 3] = 10 * numbers[place / 3] + (uint32_t)(text[place] - '0');
    }
    *frames = (numbers[0] * SECONDS_OF_A_MINUTE + numbers[1]) * FRAMES_OF_A_SECOND + numbers[2];
    return numbers[1] < SECONDS_OF_A_MINUTE && numbers[2] < FRAMES_OF_A_SECOND;
}

/* -- Sectors ------------------------------------------------------------------------------------------------------------------- */

/* Sealing scrambles, opening takes that back. The sector is then tested as a reader would: false where it is not good, its parity does
 * not hold, or it would be read as another kind. */
static int make_sector(uint8_t *sector, uint16_t kind, uint8_t submode, struct address at)
{
    const uint8_t subheader[CDROM_SUBHEADER_BYTES] = {0, 0, submode, 0};
    return cdrom_seal_xa(sector, CDROM_SECTOR_BYTES, at.minute, at.second, at.frame, kind, subheader) == CDROM_DONE &&
           cdrom_open(sector, CDROM_SECTOR_BYTES) == CDROM_DONE &&
           cdrom_judge(sector, CDROM_SECTOR_BYTES, at.minute, at.second, at.frame) == CDROM_DONE &&
           CDROM_RESULT(cdrom_parity(sector, CDROM_SECTOR_BYTES)) == 1 && CDROM_KIND_OF(sector) == kind;
}

/* Whether all was read; or reading failed, which ferror tells. */
static int is_at_end(FILE *stream)
{
    int byte = getc(stream);
    return byte == EOF || ungetc(byte, stream) == EOF;
}

/* All blocks, as sectors of the track. Sealing takes nothing but the user bytes: what the last sector left around them does not matter. */
static enum status write_sectors(struct file in, struct file out, struct track track, uint32_t *count)
{
    uint8_t sector[CDROM_SECTOR_BYTES];
    const size_t offset = CDROM_USER_OFFSET_OF(track.kind), bytes = CDROM_USER_BYTES_OF(track.kind);
    for (*count = 0;; ++*count) {
        size_t length = fread(sector + offset, 1, bytes, in.stream);
        uint8_t end = is_at_end(in.stream) ? END_OF_RECORD | END_OF_FILE : 0;
        if (ferror(in.stream))
            return failed(in.name);
        if (length == 0)
            return *count > 0 ? DONE : not_whole(in.name, "is empty");
        if (length < bytes)
            return not_whole(in.name, track.kind == CDROM_FORM2 ? "no multiple of 2,324 bytes" : "no multiple of 2,048 bytes");
        if (track.first + *count >= ALL_FRAMES)
            return not_whole(in.name, "runs past 99:59:74");
        if (!make_sector(sector, track.kind, track.submode | end, address_of(track.first + *count)))
            return not_whole(in.name, "a sector was not made right");
        if (fwrite(sector, 1, sizeof sector, out.stream) != sizeof sector)
            return failed(out.name);
    }
}

/* -- Files --------------------------------------------------------------------------------------------------------------------- */

/* The first failure is the one that counts. What is still buffered may fail to be written when the file is closed. */
static enum status close_after(enum status status, struct file file)
{
    return fclose(file.stream) != 0 && status == DONE ? failed(file.name) : status;
}

/* The part gets its name last of all: so OUT.bin is new exactly where the exit status is 0. */
static enum status finish(const char *part_name, const char *out_name, uint32_t first, uint32_t count)
{
    struct address at = address_of(first);
    const char *plural = count == 1 ? "" : "s";
    int printed = printf("image: %u sector%s from %02u:%02u:%02u\n", (unsigned)count, plural, at.minute, at.second, at.frame);
    if (printed < 0 || fflush(stdout) != 0)
        return failed("standard output");
    return rename(part_name, out_name) == 0 ? DONE : failed(out_name);
}

/* A part that exists (x) is neither written over nor removed: it may be the input, or another run's. */
static enum status make_image(const char *in_name, const char *part_name, const char *out_name, struct track track)
{
    struct file in = {in_name, fopen(in_name, "rb")};
    if (in.stream == NULL)
        return failed(in_name);
    struct file part = {part_name, fopen(part_name, "wbx")};
    if (part.stream == NULL)
        return close_after(failed(part_name), in);
    uint32_t count;
    enum status status = write_sectors(in, part, track, &count);
    status = close_after(close_after(status, part), in);
    if (status == DONE)
        status = finish(part_name, out_name, track.first, count);
    if (status != DONE && remove(part_name) != 0)
        failed(part_name);
    return status;
}

/* -- Arguments ----------------------------------------------------------------------------------------------------------------- */

static enum status tell_help(void)
{
    return printf("%s%s", usage, help) < 0 || fflush(stdout) != 0 ? failed("standard output") : DONE;
}

/* Those behind an option: IN, OUT.bin and perhaps an address. */
static int are_right(int count, char **arguments, uint32_t *first)
{
    return (count == 2 || (count == 3 && read_address(arguments[2], first))) && strcmp(arguments[0], arguments[1]) != 0;
}

/* True where the word is an option, which the track then follows. */
static int takes_option(const char *word, struct track *track)
{
    static const struct {
        const char *name;
        uint16_t kind;
        uint8_t submode;
    } options[] = {{"--form1", CDROM_FORM1, DATA}, {"--form2", CDROM_FORM2, CDROM_SUBMODE_FORM2}};
    for (size_t place = 0; place < sizeof options / sizeof options[0]; place++) {
        if (strcmp(word, options[place].name) == 0) {
            track->kind = options[place].kind;
            track->submode = options[place].submode;
            return 1;
        }
    }
    return 0;
}

int main(int count, char **arguments)
{
    static const char ending[] = ".part";
    struct track track = {.kind = CDROM_MODE1, .first = USUAL_FIRST};
    if (count == 2 && strcmp(arguments[1], "--help") == 0)
        return tell_help();
    int options = count > 1 && takes_option(arguments[1], &track), rest = count - 1 - options;
    char **names = arguments + 1 + options;
    if (!are_right(rest, names, &track.first)) {
        fputs(usage, stderr);
        return FAILED;
    }
    size_t length = strlen(names[1]);
    char *part_name = malloc(length + sizeof ending);
    if (part_name == NULL)
        return failed(names[1]);
    memcpy(part_name, names[1], length);
    memcpy(part_name + length, ending, sizeof ending);
    enum status status = make_image(names[0], part_name, names[1], track);
    free(part_name);
    return status;
}

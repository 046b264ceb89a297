/* archive.c: the archive beside an image; archive.h says what it holds. */
#define _DEFAULT_SOURCE
#include "archive.h"

#include <errno.h>
#include <inttypes.h>
#include <stdarg.h>
#include <string.h>
#include <unistd.h>

#include "fail.h"
#include "makowist.h"

#define SUM_STEP UINT64_C(0x100000001b3)
#define SUM_FORM " sum=%016" PRIx64 "\n"
enum { SUM_LENGTH = sizeof " sum=0123456789abcdef\n" - 1 };

/* More than the longest line, that of four pairs with every number at its limit, which is below 300. */
enum { LINE_ROOM = 400 };

struct line {
    char text[LINE_ROOM];
    size_t length;
};

/* ---- Writing a line. */

static void add(struct line *line, const char *form, ...) {
    va_list words;
    va_start(words, form);
    line->length += (size_t)vsnprintf(line->text + line->length, LINE_ROOM - line->length, form, words);
    va_end(words);
}

uint64_t sum_of(uint64_t sum, const void *bytes, size_t length) {
    for (const uint8_t *byte = bytes, *end = byte + length; byte < end; ++byte)
        sum = (sum ^ *byte) * SUM_STEP;
    return sum;
}

static unsigned field_of(const uint8_t *image, unsigned number, unsigned field) {
    return makowist_reply_value(makowist_transaction(image, MAKOWIST_IMAGE_LENGTH, number, field));
}

static unsigned record_of(const uint8_t *image, unsigned field) {
    return makowist_reply_value(makowist_record(image, MAKOWIST_IMAGE_LENGTH, field));
}

/* The entry, which the image still holds, as far as the sum. */
static void add_entry(struct line *line, const uint8_t *image, unsigned number) {
    unsigned pairs = field_of(image, number, MAKOWIST_TRANSACTION_PAIRS);
    unsigned phase = field_of(image, number, MAKOWIST_TRANSACTION_PHASE);
    unsigned c_commit = field_of(image, number, MAKOWIST_TRANSACTION_C_COMMIT);
    unsigned c_apply = field_of(image, number, MAKOWIST_TRANSACTION_C_APPLY);
    unsigned r_commit = field_of(image, number, MAKOWIST_TRANSACTION_R_COMMIT);
    unsigned r_apply = field_of(image, number, MAKOWIST_TRANSACTION_R_APPLY);
    add(line, "number=%u pairs=", number);
    for (unsigned k = 0; k < pairs; ++k)
        add(line, "%s%u:%u", k > 0 ? "," : "", field_of(image, number, MAKOWIST_TRANSACTION_PATH + k),
            field_of(image, number, MAKOWIST_TRANSACTION_VALUE + k));
    add(line, " valid=%d taken=%d undone=%d", c_commit == MAKOWIST_STATUS_COMPLETE, c_apply == MAKOWIST_STATUS_COMPLETE,
        r_apply == MAKOWIST_STATUS_COMPLETE || r_apply == MAKOWIST_STATUS_CANCELED);
    add(line, " phase=%s", phase == MAKOWIST_PHASE_CHANGE ? "Change" : "Rollback");
    add(line, " c_commit=%s c_apply=%s c_ordinal=%u", makowist_status_name(c_commit), makowist_status_name(c_apply),
        field_of(image, number, MAKOWIST_TRANSACTION_C_ORDINAL));
    add(line, " r_commit=%s r_apply=%s r_ordinal=%u", makowist_status_name(r_commit), makowist_status_name(r_apply),
        field_of(image, number, MAKOWIST_TRANSACTION_R_ORDINAL));
    add(line, " r_index=%u r_values=", field_of(image, number, MAKOWIST_TRANSACTION_R_INDEX));
    for (unsigned k = 0; k < pairs; ++k)
        add(line, "%s%u", k > 0 ? "," : "", field_of(image, number, MAKOWIST_TRANSACTION_R_VALUE + k));
}

/* The whole line of an entry behind lines of that sum, which is carried past it. */
static struct line line_of(const uint8_t *image, unsigned number, uint64_t *sum) {
    struct line line = {{0}, 0};
    add_entry(&line, image, number);
    add(&line, SUM_FORM, sum_of(*sum, line.text, line.length));
    *sum = sum_of(*sum, line.text, line.length);
    return line;
}

/* ---- Reading what is there. */

/* Whether the text is a whole line of that number behind lines of that sum, which is carried past it. */
static int is_line(const char *text, size_t length, unsigned number, uint64_t *sum) {
    char start[32], end[SUM_LENGTH + 1];
    size_t started = (size_t)snprintf(start, sizeof start, "number=%u ", number);
    if (length < started + SUM_LENGTH)
        return 0;
    snprintf(end, sizeof end, SUM_FORM, sum_of(*sum, text, length - SUM_LENGTH));
    *sum = sum_of(*sum, text, length);
    return memcmp(text, start, started) == 0 && memcmp(text + length - SUM_LENGTH, end, SUM_LENGTH) == 0;
}

/* The next line's length, 0 at the end of the file and where there is none. */
static size_t next_line(const struct archive *archive, FILE *file, char **text, size_t *room) {
    ssize_t length = file ? getline(text, room, file) : -1;
    if (file && ferror(file))
        fail(archive->name, strerror(errno));
    return length > 0 ? (size_t)length : 0;
}

static void fail_as(const struct archive *archive, const char *form, unsigned first, unsigned last) {
    char why[120];
    snprintf(why, sizeof why, form, first, last);
    fail(archive->name, why);
}

/* Reads the lines of 1 to the last fold and answers how long they are. They are all that is left of those entries. */
static off_t read_folded(struct archive *archive, FILE *file, unsigned folded) {
    char *text = NULL;
    size_t room = 0;
    off_t read = 0;
    for (unsigned number = 1; number <= folded; ++number) {
        size_t length = next_line(archive, file, &text, &room);
        if (length == 0)
            fail_as(archive, "entries %u to %u, which the image has folded, are missing", number, folded);
        if (!is_line(text, length, number, &archive->sum))
            fail_as(archive, "line %u is not entry %u as it was archived", number, number);
        read += (off_t)length;
    }
    free(text);
    return read;
}

/* Reads what lies behind them and answers how long it is. It must be what this image would archive next, to the end or to
 * a point in a line: who cuts that off loses nothing. Anything else shows that the image is not the archive's, or is older. */
static size_t read_ahead(const struct archive *archive, FILE *file, const uint8_t *image, unsigned folded) {
    unsigned highest = record_of(image, MAKOWIST_LOG_LENGTH);
    uint64_t sum = archive->sum;
    char *text = NULL;
    size_t room = 0, read = 0, length;
    for (unsigned number = folded + 1; (length = next_line(archive, file, &text, &room)) > 0; ++number) {
        struct line line = {{0}, 0};
        if (number <= highest)
            line = line_of(image, number, &sum);
        if (length > line.length || memcmp(text, line.text, length) != 0)
            fail_as(archive, "line %u is not what this image, folded to %u, would archive next", number, folded);
        read += length;
    }
    free(text);
    return read;
}

void archive_open(struct archive *archive, const char *name, const uint8_t *image) {
    unsigned folded = record_of(image, MAKOWIST_LAST_FOLD);
    FILE *file = fopen(name, "rb");
    if (!file && errno != ENOENT)
        fail(name, strerror(errno));
    archive->name = name;
    archive->sum = SUM_OF_NOTHING;
    off_t length = read_folded(archive, file, folded);
    size_t ahead = read_ahead(archive, file, image, folded);
    if (file)
        fclose(file);
    archive->file = fopen(name, "ab");
    if (!archive->file)
        fail(name, strerror(errno));
    if (ahead == 0)
        return;
    /* on the disk before the image moves on: lines that it no longer holds so would not be known again */
    if (ftruncate(fileno(archive->file), length) != 0 || fsync(fileno(archive->file)) != 0)
        fail(name, strerror(errno));
    fprintf(stderr, "server: %s: %zu bytes behind entry %u cut off: their fold was not kept\n", name, ahead, folded);
}

void archive_add(struct archive *archive, const uint8_t *image, unsigned number) {
    for (unsigned next = record_of(image, MAKOWIST_LAST_FOLD) + 1; next <= number; ++next) {
        struct line line = line_of(image, next, &archive->sum);
        if (fwrite(line.text, 1, line.length, archive->file) != line.length)
            fail(archive->name, strerror(errno));
    }
    if (fflush(archive->file) != 0 || fsync(fileno(archive->file)) != 0)
        fail(archive->name, strerror(errno));
}

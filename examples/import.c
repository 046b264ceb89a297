/* Makes a new image of an old controller's list (docs/IMPORT.md).
 *
 *     import LIST IMAGE
 *
 * LIST is the bytes of the list, as examples/import-csv writes them. Prints the answer as the stepper does, and why; IMAGE, which
 * must not be there yet, is written where it is accepted (0), and not where it is refused (1). Then server.c keeps it. The switch
 * is taken for one that forgets its values when it is stopped. */
#include <errno.h>
#include <stdio.h>
#include <string.h>

#include "makowist.h"

static int failed(const char *name) {
    fprintf(stderr, "import: %s: %s\n", name, strerror(errno));
    return 2;
}

/* Why a list is refused: for an entry, or for itself. */
static int refused(const char *name, unsigned answer, unsigned position) {
    if (position == 0)
        fprintf(stderr, "import: %s: the list: %s\n", name, makowist_answer_name(answer));
    else
        fprintf(stderr, "import: %s: entry %u: %s\n", name, position, makowist_answer_name(answer));
    return 1;
}

/* Writes the image into a file that was not there; one that cannot be written whole is taken away again. */
static int kept(const char *name, const uint8_t *image, size_t length) {
    FILE *file = fopen(name, "wbx");
    if (!file)
        return 0;
    size_t written = fwrite(image, 1, length, file);
    if (fclose(file) == 0 && written == length)
        return 1;
    int why = errno;
    remove(name);
    errno = why;
    return 0;
}

int main(int count, char **words) {
    uint8_t list[MAKOWIST_ENTRY_LIMIT * MAKOWIST_ENTRY_LENGTH + 1]; /* a byte more, so that a longer list is seen to be one */
    uint8_t image[MAKOWIST_IMAGE_LENGTH];
    if (count != 3) {
        fputs("usage: import LIST IMAGE\n", stderr);
        return 2;
    }
    FILE *file = fopen(words[1], "rb");
    if (!file)
        return failed(words[1]);
    size_t length = fread(list, 1, sizeof list, file);
    if (ferror(file) || fclose(file) != 0)
        return failed(words[1]);

    uint64_t reply = makowist_import(image, sizeof image, list, length);
    unsigned answer = makowist_reply_answer(reply), position = makowist_reply_position(reply);
    printf("answer=%u position=%u\n", answer, position);
    if (answer != MAKOWIST_ACCEPTED)
        return refused(words[1], answer, position);
    return kept(words[2], image, sizeof image) ? 0 : failed(words[2]);
}

/* archive.h: what folds have dropped from an image, kept for the auditor: a text file, a line an entry.
 *
 *     number=2 pairs=3:9,4:1 valid=1 taken=1 undone=0 phase=Change c_commit=Complete c_apply=Complete c_ordinal=2
 *     r_commit=None r_apply=None r_ordinal=0 r_index=1 r_values=7,0 sum=73186d7df2954737
 *
 * is one line, broken here. It is the entry as it stood when it was folded, every field of it under the paper's name; left out are
 * the owners that it remembers, which serve its rollback alone. In front of them is what an auditor asks first: valid, the
 * validation took the change (c.commit Complete); taken, the switch took it (c.apply Complete: no other Done is that); undone, its
 * rollback is through, on the switch (r.apply Complete) or with nothing to take back there (Canceled). sum is FNV-1a, 64 bits, over
 * every byte of the file in front of it from the first line on, its own " sum=" left out: a line vouches for all lines before it.
 *
 * An archive belongs to an image: it holds the entries 1 to the image's last fold, each once and in order. A fold's lines
 * are on the disk before its image is, so a server that is killed between the two leaves lines behind the last fold. They
 * say again what the image still holds, and the next start cuts them off. Nothing else is ever cut off or written over. */
#ifndef ARCHIVE_H
#define ARCHIVE_H

#include <stddef.h>
#include <stdint.h>
#include <stdio.h>

struct archive {
    const char *name;
    FILE *file;
    uint64_t sum; /* over all that is in it */
};

/* The sum over more bytes behind those of a sum. */
#define SUM_OF_NOTHING UINT64_C(0xcbf29ce484222325)
uint64_t sum_of(uint64_t sum, const void *bytes, size_t length);

/* Opens the archive of a well-formed image, and makes an empty one where nothing was folded and there is none. Lines of a
 * fold that the image does not show are cut off, with a word on standard error. An archive that lacks an entry, or has
 * anything else in it, ends the program and is left as it is. */
void archive_open(struct archive *archive, const char *name, const uint8_t *image);

/* Puts the entries behind the image's last fold, up to the number, on the disk. */
void archive_add(struct archive *archive, const uint8_t *image, unsigned number);

#endif

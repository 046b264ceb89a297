/* keep.h: puts bytes into a file so that whoever reads its name finds the old ones or the new ones, whole. */
#ifndef KEEP_H
#define KEEP_H

#include <errno.h>
#include <fcntl.h>
#include <stddef.h>
#include <stdint.h>
#include <stdio.h>
#include <string.h>
#include <unistd.h>

#include "fail.h"

static inline void sync_folder(const char *name, int folder) {
    if (fsync(folder) != 0)
        fail(name, strerror(errno));
}

/* Writes the bytes aside, then gives them the name. They are on the disk when it returns. */
static inline void keep_whole(const char *name, const char *aside, int folder, const void *bytes, size_t length) {
    int file = open(aside, O_WRONLY | O_CREAT | O_TRUNC | O_CLOEXEC, 0644);
    if (file < 0)
        fail(aside, strerror(errno));
    for (size_t written = 0; written < length;) {
        ssize_t count = write(file, (const uint8_t *)bytes + written, length - written);
        if (count > 0)
            written += (size_t)count;
        else if (count == 0 || errno != EINTR)
            fail(aside, count == 0 ? "nothing was written" : strerror(errno));
    }
    if (fsync(file) != 0 || close(file) != 0)
        fail(aside, strerror(errno));
    if (rename(aside, name) != 0)
        fail(name, strerror(errno));
    sync_folder(name, folder);
}

#endif

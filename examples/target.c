/* target.c: a stand-in for the switch; target.h says what it holds. */
#define _DEFAULT_SOURCE
#include "target.h"

#include "keep.h"

/* More than the line of all paths with every value at its limit. */
enum { LINE_ROOM = 400 };

/* Writes the switch's line and answers its length. */
static size_t line_of(const struct target *target, char *line) {
    size_t length = (size_t)snprintf(line, LINE_ROOM, "running=%u values=", target->running);
    const char *between = "";
    for (unsigned path = 0; path < MAKOWIST_PATHS; ++path) {
        if (target->values[path] == 0)
            continue;
        length += (size_t)snprintf(line + length, LINE_ROOM - length, "%s%u:%u", between, path, target->values[path]);
        between = ",";
    }
    return length + (size_t)snprintf(line + length, LINE_ROOM - length, "\n");
}

/* Takes as much from a line as is like one of a switch. */
static void take_line(struct target *target, const char *line) {
    unsigned path, value;
    int at = 0, length = 0;
    target->running = 0;
    memset(target->values, 0, sizeof target->values);
    sscanf(line, "running=%1u values=%n", &target->running, &at);
    while (sscanf(line + at, "%2u:%5u%n", &path, &value, &length) == 2 && path < MAKOWIST_PATHS) {
        target->values[path] = (uint16_t)value;
        at += length + (line[at + length] == ',');
    }
}

int target_open(struct target *target) {
    char found[LINE_ROOM + 1] = {0}, line[LINE_ROOM];
    FILE *file = fopen(target->name, "rb");
    if (!file && errno != ENOENT)
        fail(target->name, strerror(errno));
    if (!file)
        return 0;
    size_t length = fread(found, 1, LINE_ROOM, file);
    if (ferror(file))
        fail(target->name, strerror(errno));
    fclose(file);
    take_line(target, found);
    if (target->running > 1 || line_of(target, line) != length || memcmp(line, found, length) != 0)
        fail(target->name, "not what a switch has");
    return 1;
}

void target_take(struct target *target) {
    char line[LINE_ROOM];
    size_t length = line_of(target, line);
    keep_whole(target->name, target->aside, target->folder, line, length);
}

void target_set(struct target *target, const uint8_t *image) {
    target->running = makowist_reply_value(makowist_record(image, MAKOWIST_IMAGE_LENGTH, MAKOWIST_TARGET_RUNNING));
    for (unsigned path = 0; path < MAKOWIST_PATHS; ++path)
        target->values[path] = (uint16_t)makowist_reply_value(
            makowist_value(image, MAKOWIST_IMAGE_LENGTH, MAKOWIST_TABLE_TARGET, path));
}

void target_follow(struct target *target, const uint8_t *image) {
    target_set(target, image);
    target_take(target);
}

int target_is(const struct target *target, const uint8_t *image) {
    struct target said = *target;
    target_set(&said, image);
    return said.running == target->running && memcmp(said.values, target->values, sizeof said.values) == 0;
}

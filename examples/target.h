/* target.h: a stand-in for the switch: a text file with what the switch has, in one line.
 *
 *     running=1 values=3:7,4:1
 *
 * Paths that are absent are left out; a switch that is stopped has none, unless it is one that remembers. Nothing but the functions
 * here writes it, and what the switch was told to take is on the disk when they return. To take the same values twice is to take
 * them once. */
#ifndef TARGET_H
#define TARGET_H

#include <stdint.h>

#include "makowist.h"

struct target {
    char *name, *aside;
    int folder;
    unsigned running;
    uint16_t values[MAKOWIST_PATHS];
};

/* Reads what the switch has and answers 1, or 0 where there is no file. One with anything else in it ends the program and is
 * left as it is. */
int target_open(struct target *target);

/* Has the switch take the values that are set in it. */
void target_take(struct target *target);

/* The switch is started or stopped, or takes values: it has what an image says of it. */
void target_follow(struct target *target, const uint8_t *image);

/* Whether the switch has what an image says of it. */
int target_is(const struct target *target, const uint8_t *image);

/* Sets what an image says of the switch. */
void target_set(struct target *target, const uint8_t *image);

#endif

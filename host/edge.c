/* edge.c: what makowist.h promises at its edges, held from C: nothing lent, memory that ends or begins at a page that is not
 * mapped, numbers of more than 16 bits in every argument, names, pairs that have no 16 bits, the list in bytes, who set a path,
 * reasons with what they name, nights with their events, pushes that are cut, old lists that are imported, and targets that forget
 * and that remember.
 *
 * What is lent else is from the heap and as long as is said, so that the tools that watch memory see a byte too many. Ends with 1
 * at the first promise that does not hold. */
#define _DEFAULT_SOURCE
#include <inttypes.h>
#include <stdio.h>
#include <stdlib.h>
#include <string.h>
#include <sys/mman.h>

#include "makowist.h"

enum { LENGTH = MAKOWIST_IMAGE_LENGTH, MOST_NUMBERS = 5 };

static unsigned checks;

static void hold(int holds, const char *what, const char *where, uint64_t found) {
    ++checks;
    if (holds)
        return;
    fprintf(stderr, "edge: %s: %s: %" PRIu64 " (%#" PRIx64 ")\n", what, where, found, found);
    exit(1);
}

static uint8_t *lent(size_t length) {
    uint8_t *bytes = malloc(length);
    if (!bytes)
        exit(1);
    return bytes;
}

static uint8_t *copied(const uint8_t *bytes, size_t length) { return memcpy(lent(length), bytes, length); }

/* ---- Every function, its numbers lent as a list. */

typedef uint64_t function(uint8_t *image, size_t length, const uint64_t *n);

static uint64_t fresh(uint8_t *image, size_t length, const uint64_t *n) { return makowist_fresh(image, length, n[0]); }
static uint64_t append(uint8_t *image, size_t length, const uint64_t *n) {
    return (void)n, makowist_append(image, length, NULL, 0);
}
static uint64_t rollback(uint8_t *image, size_t length, const uint64_t *n) { return makowist_rollback(image, length, n[0]); }
static uint64_t start(uint8_t *image, size_t length, const uint64_t *n) { return (void)n, makowist_start(image, length); }
static uint64_t stop(uint8_t *image, size_t length, const uint64_t *n) { return (void)n, makowist_stop(image, length); }
static uint64_t connect(uint8_t *image, size_t length, const uint64_t *n) { return makowist_connect(image, length, n[0]); }
static uint64_t disconnect(uint8_t *image, size_t length, const uint64_t *n) {
    return makowist_disconnect(image, length, n[0]);
}
static uint64_t master(uint8_t *image, size_t length, const uint64_t *n) { return makowist_master(image, length, n[0]); }
static uint64_t sync_once(uint8_t *image, size_t length, const uint64_t *n) { return makowist_sync(image, length, n[0]); }
static uint64_t work(uint8_t *image, size_t length, const uint64_t *n) {
    return makowist_work(image, length, n[0], n[1], n[2], n[3], n[4]);
}
static uint64_t fold(uint8_t *image, size_t length, const uint64_t *n) { return makowist_fold(image, length, n[0]); }
static uint64_t well_formed(uint8_t *image, size_t length, const uint64_t *n) {
    return (void)n, makowist_well_formed(image, length);
}
static uint64_t live(uint8_t *image, size_t length, const uint64_t *n) {
    return (void)n, makowist_live(image, length, NULL, 0);
}
static uint64_t value(uint8_t *image, size_t length, const uint64_t *n) { return makowist_value(image, length, n[0], n[1]); }
static uint64_t transaction(uint8_t *image, size_t length, const uint64_t *n) {
    return makowist_transaction(image, length, n[0], n[1]);
}
static uint64_t record(uint8_t *image, size_t length, const uint64_t *n) { return makowist_record(image, length, n[0]); }
static uint64_t connection(uint8_t *image, size_t length, const uint64_t *n) {
    return makowist_connection(image, length, n[0], n[1]);
}
static uint64_t owner(uint8_t *image, size_t length, const uint64_t *n) { return makowist_owner(image, length, n[0]); }
static uint64_t why(uint8_t *image, size_t length, const uint64_t *n) {
    return makowist_why(image, length, n[0], n[1], n[2]);
}
static uint64_t night(uint8_t *image, size_t length, const uint64_t *n) {
    static const uint8_t outcomes[MAKOWIST_OUTCOMES];
    return makowist_night(image, length, n[0], n[1], outcomes, sizeof outcomes, NULL, 0);
}
static uint64_t import(uint8_t *image, size_t length, const uint64_t *n) {
    return (void)n, makowist_import(image, length, NULL, 0);
}

/* The image's log has FOLDED folded and two more, LAST the last: both bytes of its numbers are used. */
enum { FOLDED = 256, LAST = 258 };
enum { RANGE = MAKOWIST_OUT_OF_RANGE, NUMBER = MAKOWIST_NO_SUCH_NUMBER };

/* A function, numbers for it that are in range, and how each is refused where it is too great. */
struct call {
    const char *name;
    function *make;
    size_t count;
    uint64_t in_range[MOST_NUMBERS];
    unsigned refusal[MOST_NUMBERS];
};

static const struct call calls[] = {
    {"fresh", fresh, 1, {1}, {RANGE}},
    {"append", append, 0, {0}, {0}},
    {"rollback", rollback, 1, {LAST}, {NUMBER}},
    {"start", start, 0, {0}, {0}},
    {"stop", stop, 0, {0}, {0}},
    {"connect", connect, 1, {2}, {RANGE}},
    {"disconnect", disconnect, 1, {1}, {RANGE}},
    {"master", master, 1, {1}, {RANGE}},
    {"sync", sync_once, 1, {1}, {RANGE}},
    {"work", work, 5, {1, 2, LAST, 1, 2}, {RANGE, RANGE, NUMBER, RANGE, RANGE}},
    {"fold", fold, 1, {LAST}, {NUMBER}},
    {"well_formed", well_formed, 0, {0}, {0}},
    {"live", live, 0, {0}, {0}},
    {"value", value, 2, {MAKOWIST_TABLE_BASE, 3}, {RANGE, RANGE}},
    {"transaction", transaction, 2, {LAST, MAKOWIST_TRANSACTION_PATH}, {NUMBER, RANGE}},
    {"record", record, 1, {MAKOWIST_LAST_FOLD}, {RANGE}},
    {"connection", connection, 2, {1, MAKOWIST_CONNECTION_ID}, {RANGE, RANGE}},
    {"owner", owner, 1, {3}, {RANGE}},
    {"why", why, 3, {1, 2, LAST}, {RANGE, RANGE, NUMBER}},
    {"night", night, 2, {1, 8}, {RANGE, RANGE}},
    {"import", import, 0, {0}, {0}},
};
enum { CALLS = sizeof calls / sizeof *calls };

/* ---- The image that the edges are tried on. */

static void accepted(uint64_t reply, const char *what) {
    hold(makowist_reply_answer(reply) == MAKOWIST_ACCEPTED, what, "accepted", reply);
}

static uint8_t *opened_of(uint64_t remembers) {
    uint8_t *image = lent(LENGTH);
    accepted(makowist_fresh(image, LENGTH, remembers), "fresh");
    accepted(makowist_start(image, LENGTH), "start");
    accepted(makowist_connect(image, LENGTH, 1), "connect");
    accepted(makowist_master(image, LENGTH, 1), "master");
    accepted(makowist_sync(image, LENGTH, 1), "sync");
    accepted(makowist_sync(image, LENGTH, 1), "sync");
    return image;
}

static uint8_t *opened(void) { return opened_of(MAKOWIST_FORGETS); }

/* A log led to LAST, all of it committed and applied, and folded up to FOLDED. */
static uint8_t *led(void) {
    uint8_t *image = opened(), pair[MAKOWIST_PAIR_LENGTH];
    for (uint64_t number = 1; number <= LAST; ++number) {
        makowist_put_pair(pair, number % MAKOWIST_PATHS, number);
        accepted(makowist_append(image, LENGTH, pair, sizeof pair), "append");
        for (uint64_t step = 0; step < 4; ++step)
            accepted(makowist_work(image, LENGTH, 1, 1 + step / 2, number, 0, 0), "work");
        if (number <= FOLDED)
            accepted(makowist_fold(image, LENGTH, number), "fold");
    }
    return image;
}

/* ---- Nothing lent. */

static void nothing_lent(uint8_t *image) {
    uint8_t *before = copied(image, LENGTH), *room = lent(2), *empty = opened();
    static const uint8_t pair[MAKOWIST_PAIR_LENGTH] = {3, 0, 7, 0};
    for (size_t k = 0; k < CALLS; ++k) {
        uint64_t reply = calls[k].make(NULL, 0, calls[k].in_range);
        hold(reply == MAKOWIST_NOT_WELL_FORMED, "no image", calls[k].name, reply);
    }
    hold(makowist_append(NULL, 0, pair, sizeof pair) == MAKOWIST_NOT_WELL_FORMED, "no image", "append of a pair", 0);
    memset(room, 0xab, 2);
    hold(makowist_live(NULL, 0, room, 2) == MAKOWIST_NOT_WELL_FORMED, "no image", "live", 0);
    hold(room[0] == 0xab && room[1] == 0xab, "no image", "the room stays", room[0]);
    hold(makowist_append(image, LENGTH, NULL, 0) == MAKOWIST_NOT_A_CHANGE, "no pairs", "append", 0);
    hold(makowist_live(image, LENGTH, NULL, 0) == MAKOWIST_NO_ROOM, "no room", "live", 0);
    hold(makowist_live(empty, LENGTH, NULL, 0) == MAKOWIST_ACCEPTED, "no room", "an empty list", 0);
    hold(memcmp(image, before, LENGTH) == 0, "nothing lent", "every byte as it was", 0);
    free(before);
    free(room);
    free(empty);
}

/* ---- Memory between pages that are not mapped: a byte outside it ends the program. */

enum { PAGE = 1 << 16 }; /* the largest that the machines in question have */

static uint8_t *guarded(void) {
    uint8_t *whole = mmap(NULL, 4 * PAGE, PROT_NONE, MAP_PRIVATE | MAP_ANONYMOUS, -1, 0);
    if (whole == MAP_FAILED)
        exit(1);
    uint8_t *room = whole + (PAGE - (uintptr_t)whole % PAGE);
    if (mprotect(room, PAGE, PROT_READ | PROT_WRITE) != 0)
        exit(1);
    return room;
}

/* Every call on an image that begins, and on one that ends, where the room does: as on any other. An image that is a byte short, or
 * none, is not looked at past its end. */
static void at_the_edge(const uint8_t *image) {
    uint8_t *room = guarded(), *end = room + PAGE;
    for (const struct call *call = calls; call < calls + CALLS; ++call) {
        uint8_t *const places[] = {room, end - LENGTH};
        for (size_t k = 0; k < 2; ++k) {
            uint8_t *copy = copied(image, LENGTH), *edge = memcpy(places[k], image, LENGTH);
            uint64_t reply = call->make(edge, LENGTH, call->in_range);
            hold(reply == call->make(copy, LENGTH, call->in_range), "at a page that is not mapped", call->name, reply);
            hold(memcmp(edge, copy, LENGTH) == 0, "at a page that is not mapped, every byte", call->name, reply);
            free(copy);
        }
        memcpy(end - (LENGTH - 1), image, LENGTH - 1);
        uint64_t reply = call->make(end - (LENGTH - 1), LENGTH - 1, call->in_range);
        hold(reply == MAKOWIST_NOT_WELL_FORMED, "a byte short at a page that is not mapped", call->name, reply);
        reply = call->make(end, 0, call->in_range);
        hold(reply == MAKOWIST_NOT_WELL_FORMED, "none at a page that is not mapped", call->name, reply);
    }
}

/* ---- Numbers of more than 16 bits. */

enum { WIDE = 5 };

/* The k-th way in which a number is too great, given one that is in range. */
static uint64_t wide(size_t k, uint64_t in_range) {
    const uint64_t all[WIDE] = {UINT64_C(1) << 16, UINT64_C(1) << 32, UINT64_MAX, (UINT64_C(1) << 16) + in_range,
                                (UINT64_C(1) << 32) + in_range};
    return all[k];
}

static void refused(const struct call *call, uint8_t *image, const uint64_t *n, unsigned refusal) {
    uint8_t *before = copied(image, LENGTH);
    uint64_t reply = call->make(image, LENGTH, n);
    hold(reply == refusal, "too great", call->name, reply);
    hold(memcmp(image, before, LENGTH) == 0, "too great, every byte as it was", call->name, refusal);
    reply = call->make(image, LENGTH - 1, n);
    hold(reply == MAKOWIST_NOT_WELL_FORMED, "too great, and no image", call->name, reply);
    free(before);
}

/* Each number alone; and all of them at once, which is refused as out of range where one can be. */
static void too_great(const struct call *call, uint8_t *image) {
    for (size_t k = 0; k < WIDE; ++k) {
        uint64_t n[MOST_NUMBERS];
        unsigned first = NUMBER;
        for (size_t place = 0; place < call->count; ++place) {
            memcpy(n, call->in_range, sizeof n);
            n[place] = wide(k, n[place]);
            refused(call, image, n, call->refusal[place]);
            if (call->refusal[place] == RANGE)
                first = RANGE;
        }
        for (size_t place = 0; place < call->count; ++place)
            n[place] = wide(k, call->in_range[place]);
        if (call->count > 0)
            refused(call, image, n, first);
    }
}

/* The numbers that are said to be in range are, or nothing would be shown above. */
static void in_range(const struct call *call, const uint8_t *image) {
    uint8_t *copy = copied(image, LENGTH);
    unsigned answer = makowist_reply_answer(call->make(copy, LENGTH, call->in_range));
    hold(answer != RANGE && answer != NUMBER && answer != MAKOWIST_FOLDED, "in range", call->name, answer);
    free(copy);
}

/* ---- Names, pairs, the list. */

static void names(void) {
    static const char *const answers[] = {
        "accepted", "not well-formed", "out of range", "not a change", "log full", "no such number", "no rollback",
        "already so", "target stopped", "counter at limit", "not master", "no rule", "line not open", "push rejected",
        "no room", "not waiting", "not the newest", "not finished", "folded", "?", "?"};
    static const char *const statuses[] = {"None", "Pending", "InProgress", "Complete", "Aborted", "Canceled", "Failed"};
    static const char *const reasons[] = {"?", "finished", "no rollback asked", "earlier change", "commit in flight",
                                          "change on top", "not committed", "earlier ordinal", "none fits"};
    static const char *const stopped[] = {"no job", "no line", "budget spent"};
    for (uint64_t k = 0; k <= 20; ++k) {
        const char *status = k <= MAKOWIST_STATUS_FAILED ? statuses[k] : "?";
        const char *reason = k <= MAKOWIST_REASON_NONE_FITS ? reasons[k] : "?";
        hold(strcmp(makowist_answer_name(k), answers[k]) == 0, "answer's name", makowist_answer_name(k), k);
        hold(strcmp(makowist_status_name(k), status) == 0, "status's name", makowist_status_name(k), k);
        hold(strcmp(makowist_reason_name(k), reason) == 0, "reason's name", makowist_reason_name(k), k);
        const char *stop = k <= MAKOWIST_STOPPED_BUDGET_SPENT ? stopped[k] : "?";
        hold(strcmp(makowist_stopped_name(k), stop) == 0, "stop's name", makowist_stopped_name(k), k);
    }
    hold(strcmp(makowist_answer_name(UINT64_MAX), "?") == 0, "answer's name", "2^64 - 1", UINT64_MAX);
    hold(strcmp(makowist_status_name(UINT64_MAX), "?") == 0, "status's name", "2^64 - 1", UINT64_MAX);
    hold(strcmp(makowist_reason_name(UINT64_MAX), "?") == 0, "reason's name", "2^64 - 1", UINT64_MAX);
    hold(strcmp(makowist_stopped_name(UINT64_MAX), "?") == 0, "stop's name", "2^64 - 1", UINT64_MAX);
}

/* What an append of the pair answers: read back where it is accepted, and else every byte as it was. */
static void pair_is(const uint8_t *image, uint64_t path, uint64_t given, unsigned answer) {
    uint8_t *copy = copied(image, LENGTH), *pair = lent(MAKOWIST_PAIR_LENGTH);
    makowist_put_pair(pair, path, given);
    uint64_t reply = makowist_append(copy, LENGTH, pair, MAKOWIST_PAIR_LENGTH);
    hold(makowist_reply_answer(reply) == answer, "pair", makowist_answer_name(answer), reply);
    if (answer == MAKOWIST_ACCEPTED) {
        uint64_t number = makowist_reply_number(reply);
        uint64_t read = makowist_transaction(copy, LENGTH, number, MAKOWIST_TRANSACTION_PATH);
        hold(makowist_reply_value(read) == path, "pair", "path", read);
        read = makowist_transaction(copy, LENGTH, number, MAKOWIST_TRANSACTION_VALUE);
        hold(makowist_reply_value(read) == given, "pair", "value", read);
    } else {
        hold(memcmp(copy, image, LENGTH) == 0, "pair", "every byte as it was", path);
    }
    free(copy);
    free(pair);
}

static void pairs(const uint8_t *image) {
    pair_is(image, 3, 7, MAKOWIST_ACCEPTED);
    pair_is(image, 31, 65535, MAKOWIST_ACCEPTED);
    pair_is(image, 65539, 7, MAKOWIST_NOT_A_CHANGE);
    pair_is(image, 3, 70000, MAKOWIST_NOT_A_CHANGE);
    pair_is(image, 3, 65536, MAKOWIST_NOT_A_CHANGE);
    pair_is(image, (UINT64_C(1) << 32) + 3, 7, MAKOWIST_NOT_A_CHANGE);
    pair_is(image, 3, (UINT64_C(1) << 32) + 7, MAKOWIST_NOT_A_CHANGE);
    pair_is(image, UINT64_MAX, UINT64_MAX, MAKOWIST_NOT_A_CHANGE);
}

/* The list is LAST and the one before it: four bytes. */
static void listed(const uint8_t *image) {
    for (size_t length = 1; length <= 7; ++length) {
        uint8_t *room = lent(length);
        memset(room, 0xab, length);
        uint64_t reply = makowist_live(image, LENGTH, room, length);
        size_t written = length < 4 ? 0 : 4;
        hold(reply == (length < 4 ? (uint64_t)MAKOWIST_NO_ROOM : UINT64_C(2) << 32), "list", "answer", reply);
        for (size_t k = written; k < length; ++k)
            hold(room[k] == 0xab, "list", "room past it stays", k);
        for (size_t k = 0; 2 * k < written; ++k)
            hold(makowist_listed(room, k) == LAST - k, "list", "number", makowist_listed(room, k));
        free(room);
    }
}

/* ---- Owners. */

/* Who set the path, in an image at either edge of its page and in a copy; and no byte is written. */
static void owner_is(const uint8_t *image, uint64_t path, uint64_t number) {
    static uint8_t *room;
    room = room ? room : guarded();
    uint8_t *const places[] = {copied(image, LENGTH), memcpy(room, image, LENGTH), memcpy(room + PAGE - LENGTH, image, LENGTH)};
    for (size_t k = 0; k < 3; ++k) {
        uint64_t reply = makowist_owner(places[k], LENGTH, path);
        hold(reply == number << 32, "owner", "its number, and nothing else", reply);
        hold(memcmp(places[k], image, LENGTH) == 0, "owner", "every byte as it was", path);
    }
    free(places[0]);
}

static void owners(const uint8_t *before) {
    const uint64_t number = LAST + 1, last = LAST % MAKOWIST_PATHS, other = last + 1;
    uint8_t *image = copied(before, LENGTH), pairs[2 * MAKOWIST_PAIR_LENGTH];
    for (uint64_t path = 0; path < MAKOWIST_PATHS; ++path)
        owner_is(image, path, path == last ? LAST : path == last - 1 ? LAST - 1 : 0);
    for (uint64_t path = MAKOWIST_PATHS; path <= UINT16_MAX; path += path < 300 ? 1 : 97) {
        uint64_t reply = makowist_owner(image, LENGTH, path);
        hold(reply == MAKOWIST_OUT_OF_RANGE, "owner", "a path above 31", reply);
    }
    accepted(makowist_fold(image, LENGTH, LAST - 1), "fold");
    owner_is(image, last, LAST);
    owner_is(image, last - 1, 0);
    makowist_put_pair(pairs, last, 0); /* a delete */
    makowist_put_pair(pairs + MAKOWIST_PAIR_LENGTH, other, 7);
    accepted(makowist_append(image, LENGTH, pairs, sizeof pairs), "append");
    accepted(makowist_work(image, LENGTH, 1, 1, number, 0, 0), "work");
    owner_is(image, last, LAST);
    accepted(makowist_work(image, LENGTH, 1, 1, number, 0, MAKOWIST_CUT_AFTER_FIRST), "work");
    owner_is(image, last, number);
    owner_is(image, other, number);
    accepted(makowist_work(image, LENGTH, 1, 1, number, 0, 0), "work");
    accepted(makowist_rollback(image, LENGTH, number), "rollback");
    accepted(makowist_work(image, LENGTH, 1, 3, number, 0, 0), "work");
    owner_is(image, last, number);
    accepted(makowist_work(image, LENGTH, 1, 3, number, 0, MAKOWIST_CUT_AFTER_FIRST), "work");
    owner_is(image, last, LAST);
    owner_is(image, other, 0);
    memcpy(image, before, LENGTH);
    accepted(makowist_fold(image, LENGTH, LAST), "fold");
    owner_is(image, last, 0);
    free(image);
}

/* ---- Reasons. */

/* Outcome k & 1 and cut k >> 1: 0 or 1, and 0, 1 or 2. */
enum { OUTCOMES_AND_CUTS = 6 };

static void why_is(const uint8_t *image, uint64_t job, uint64_t number, unsigned reason, uint32_t named) {
    uint8_t *copy = copied(image, LENGTH);
    uint64_t reply = makowist_why(copy, LENGTH, 1, job, number);
    hold(makowist_reply_answer(reply) == MAKOWIST_ACCEPTED, "why", makowist_reason_name(reason), reply);
    hold(makowist_reply_reason(reply) == reason, "why, reason", makowist_reason_name(reason), reply);
    hold(makowist_reply_named(reply) == named, "why, named", makowist_reason_name(reason), reply);
    hold((reply & 0xffff0000) == 0, "why", "nothing between reason and what is named", reply);
    hold(memcmp(copy, image, LENGTH) == 0, "why, every byte as it was", makowist_reason_name(reason), reply);
    for (uint64_t k = 0; k < OUTCOMES_AND_CUTS; ++k) {
        reply = makowist_work(copy, LENGTH, 1, job, number, k & 1, k >> 1);
        hold(reply == MAKOWIST_NO_RULE, "why", "the job answers 11", reply);
    }
    free(copy);
}

static void why_refused(const uint8_t *image, uint64_t node, uint64_t job, uint64_t number, unsigned refusal) {
    uint64_t reply = makowist_why(image, LENGTH, node, job, number);
    hold(reply == refusal, "why, refused", makowist_answer_name(refusal), reply);
}

/* Three changes behind LAST, led so that each of the seven reasons is given. */
static void reasons(const uint8_t *before) {
    uint8_t *image = copied(before, LENGTH), pair[MAKOWIST_PAIR_LENGTH];
    makowist_put_pair(pair, 3, 7);
    for (uint64_t k = 1; k <= 3; ++k)
        accepted(makowist_append(image, LENGTH, pair, sizeof pair), "append");
    why_is(image, 1, LAST, MAKOWIST_REASON_FINISHED, 0);
    why_is(image, 1, LAST + 2, MAKOWIST_REASON_EARLIER_CHANGE, LAST + 1);
    why_is(image, 2, LAST + 1, MAKOWIST_REASON_NOT_COMMITTED, 0);
    why_is(image, 3, LAST, MAKOWIST_REASON_NO_ROLLBACK_ASKED, 0);
    for (uint64_t k = 0; k < 4; ++k)
        accepted(makowist_work(image, LENGTH, 1, 1, LAST + 1 + k / 2, 0, 0), "work");
    why_is(image, 2, LAST + 2, MAKOWIST_REASON_EARLIER_ORDINAL, LAST + 1);
    accepted(makowist_rollback(image, LENGTH, LAST + 1), "rollback");
    why_is(image, 3, LAST + 1, MAKOWIST_REASON_CHANGE_ON_TOP, LAST + 2);
    accepted(makowist_work(image, LENGTH, 1, 1, LAST + 3, 0, 0), "work");
    why_is(image, 3, LAST + 1, MAKOWIST_REASON_COMMIT_IN_FLIGHT, LAST + 3);
    why_refused(image, 0, 1, 0, MAKOWIST_OUT_OF_RANGE);
    why_refused(image, 1, 5, 0, MAKOWIST_OUT_OF_RANGE);
    why_refused(image, 2, 1, 0, MAKOWIST_NO_SUCH_NUMBER);
    why_refused(image, 2, 1, LAST + 4, MAKOWIST_NO_SUCH_NUMBER);
    why_refused(image, 2, 1, FOLDED, MAKOWIST_FOLDED);
    why_refused(image, 2, 1, LAST + 3, MAKOWIST_NOT_MASTER);
    why_refused(image, 1, 1, LAST + 3, MAKOWIST_NOT_WAITING);
    free(image);
}

/* ---- Nights. */

enum { JOBS = 8, EVENT = MAKOWIST_EVENT_LENGTH };

/* Two changes behind LAST, the third and the fourth that are kept; the switch does not take the last. Their jobs, done one by
 * one on the image, and what each replies. */
static void by_day(uint8_t *image, uint64_t *replies) {
    for (uint64_t k = 0; k < JOBS; ++k) {
        replies[k] = makowist_work(image, LENGTH, 1, 1 + k % 4 / 2, LAST + 1 + k / 4, k == JOBS - 1, 0);
        accepted(replies[k], "work");
    }
}

static uint8_t *with_outcome(size_t length, size_t place, uint8_t outcome) {
    uint8_t *outcomes = lent(length);
    memset(outcomes, 0, length);
    outcomes[place] = outcome;
    return outcomes;
}

/* The night, in a room of so many bytes, leaves what its jobs have left and shows the first events that fit. */
static void night_is(const uint8_t *before, size_t room, const uint8_t *after, const uint64_t *replies) {
    uint8_t *image = copied(before, LENGTH), *events = room ? lent(room) : NULL;
    uint8_t *outcomes = with_outcome(MAKOWIST_OUTCOMES, 7, 1);
    if (room)
        memset(events, 0xab, room);
    uint64_t reply = makowist_night(image, LENGTH, 1, 64, outcomes, MAKOWIST_OUTCOMES, events, room);
    size_t written = room / EVENT < JOBS ? room / EVENT : JOBS;
    accepted(reply, "night");
    hold(makowist_reply_jobs(reply) == JOBS, "night", "jobs", reply);
    hold(makowist_reply_stopped(reply) == MAKOWIST_STOPPED_NO_JOB, "night", "stopped", reply);
    hold(makowist_reply_events(reply) == written, "night", "events", reply);
    hold(memcmp(image, after, LENGTH) == 0, "night", "leaves what its jobs leave", room);
    for (size_t k = 0; k < written; ++k) {
        hold(makowist_night_event(events, k, MAKOWIST_EVENT_PHASE) == makowist_reply_phase(replies[k]), "night", "phase", k);
        hold(makowist_night_event(events, k, MAKOWIST_EVENT_STAGE) == makowist_reply_stage(replies[k]), "night", "stage", k);
        hold(makowist_night_event(events, k, MAKOWIST_EVENT_NUMBER) == makowist_reply_number(replies[k]), "night", "number", k);
        hold(makowist_night_event(events, k, MAKOWIST_EVENT_STATUS) == makowist_reply_status(replies[k]), "night", "status", k);
    }
    for (size_t k = EVENT * written; k < room; ++k)
        hold(events[k] == 0xab, "night", "room behind the events stays", k);
    free(image);
    free(events);
    free(outcomes);
}

/* A night so refused writes no byte. The table's last outcome is this one, where the table has one. */
static void night_refused(const uint8_t *before, uint64_t node, uint64_t budget, size_t length, uint8_t outcome,
                          unsigned refusal) {
    uint8_t *image = copied(before, LENGTH), room[EVENT];
    uint8_t *outcomes = length ? with_outcome(length, length - 1, outcome) : NULL;
    memset(room, 0xab, EVENT);
    uint64_t reply = makowist_night(image, LENGTH, node, budget, outcomes, length, room, EVENT);
    hold(reply == refusal, "night, refused", makowist_answer_name(refusal), reply);
    hold(memcmp(image, before, LENGTH) == 0, "night, refused", "every byte as it was", reply);
    for (size_t k = 0; k < EVENT; ++k)
        hold(room[k] == 0xab, "night, refused", "the room stays", k);
    reply = makowist_night(image, LENGTH - 1, node, budget, outcomes, length, room, EVENT);
    hold(reply == MAKOWIST_NOT_WELL_FORMED, "night, refused", "no image", reply);
    free(image);
    free(outcomes);
}

/* Why a night of so many jobs, all outcomes accepted, stops. */
static void night_stops(const uint8_t *before, uint64_t budget, unsigned jobs, unsigned stopped) {
    uint8_t *image = copied(before, LENGTH);
    const uint64_t n[] = {1, budget};
    uint64_t reply = night(image, LENGTH, n);
    accepted(reply, "night");
    hold(makowist_reply_jobs(reply) == jobs, "night stops", "jobs", reply);
    hold(makowist_reply_stopped(reply) == stopped, "night stops", "stopped", reply);
    hold(makowist_reply_events(reply) == 0, "night stops", "no event without room", reply);
    free(image);
}

static void nights(const uint8_t *before) {
    uint8_t *image = copied(before, LENGTH), pair[MAKOWIST_PAIR_LENGTH];
    uint64_t replies[JOBS];
    makowist_put_pair(pair, 3, 7);
    accepted(makowist_append(image, LENGTH, pair, sizeof pair), "append");
    accepted(makowist_append(image, LENGTH, pair, sizeof pair), "append");
    uint8_t *after = copied(image, LENGTH);
    by_day(after, replies);
    for (size_t room = 0; room <= EVENT * JOBS + 3 * EVENT; room += room % EVENT == 1 ? EVENT - 2 : 1)
        night_is(image, room, after, replies);
    night_stops(image, 0, 0, MAKOWIST_STOPPED_BUDGET_SPENT);
    night_stops(image, JOBS - 1, JOBS - 1, MAKOWIST_STOPPED_BUDGET_SPENT);
    night_stops(image, JOBS, JOBS, MAKOWIST_STOPPED_NO_JOB);
    night_stops(image, MAKOWIST_BUDGET_LIMIT, JOBS, MAKOWIST_STOPPED_NO_JOB);
    night_refused(image, 0, 8, MAKOWIST_OUTCOMES, 0, MAKOWIST_OUT_OF_RANGE);
    night_refused(image, 2, MAKOWIST_BUDGET_LIMIT + 1, MAKOWIST_OUTCOMES, 0, MAKOWIST_OUT_OF_RANGE);
    night_refused(image, 2, 8, 0, 0, MAKOWIST_OUT_OF_RANGE);
    night_refused(image, 1, 8, MAKOWIST_OUTCOMES - 1, 0, MAKOWIST_OUT_OF_RANGE);
    night_refused(image, 1, 8, MAKOWIST_OUTCOMES + 1, 0, MAKOWIST_OUT_OF_RANGE);
    night_refused(image, 2, 8, MAKOWIST_OUTCOMES, 2, MAKOWIST_OUT_OF_RANGE);
    night_refused(image, 2, 8, MAKOWIST_OUTCOMES, 1, MAKOWIST_NOT_MASTER);
    accepted(makowist_disconnect(image, LENGTH, 1), "disconnect");
    night_stops(image, JOBS, 5, MAKOWIST_STOPPED_NO_LINE);
    night_stops(image, 5, 5, MAKOWIST_STOPPED_NO_LINE);
    free(image);
    free(after);
}

/* ---- Pushes: the target, then Applied with the event, then the status. */

static uint32_t path_3(const uint8_t *image, uint64_t table) {
    return makowist_reply_value(makowist_value(image, LENGTH, table, 3));
}

/* The push of path 3 that is the job's next step: what each cut leaves of it, and what the job called again makes of that. */
static void push_is(const uint8_t *before, uint64_t job, uint64_t number, uint32_t from, uint32_t to) {
    uint8_t *whole = copied(before, LENGTH), *image = copied(before, LENGTH);
    uint64_t told = makowist_work(whole, LENGTH, 1, job, number, 0, 0);
    accepted(told, "push");
    hold(makowist_reply_status(told) == MAKOWIST_STATUS_COMPLETE, "push", "Complete", told);
    uint64_t reply = makowist_work(image, LENGTH, 1, job, number, 0, 1);
    hold(reply == MAKOWIST_ACCEPTED, "push, cut 1", "accepted, no event", reply);
    hold(path_3(image, MAKOWIST_TABLE_TARGET) == to, "push, cut 1", "on the target", path_3(image, MAKOWIST_TABLE_TARGET));
    hold(path_3(image, MAKOWIST_TABLE_APPLIED) == from, "push, cut 1", "not applied", path_3(image, MAKOWIST_TABLE_APPLIED));
    reply = makowist_work(image, LENGTH, 1, job, number, 0, 0);
    hold(reply == told && memcmp(image, whole, LENGTH) == 0, "push, cut 1", "called again as uncut, with the event", reply);
    for (uint64_t k = 0; k < OUTCOMES_AND_CUTS; ++k) {
        memcpy(image, before, LENGTH);
        reply = makowist_work(image, LENGTH, 1, job, number, 0, 2);
        hold(reply == told, "push, cut 2", "the event", reply);
        hold(path_3(image, MAKOWIST_TABLE_APPLIED) == to, "push, cut 2", "applied", k);
        hold(memcmp(image, whole, LENGTH) != 0, "push, cut 2", "the status is left", k);
        reply = makowist_work(image, LENGTH, 1, job, number, k & 1, k >> 1);
        hold(reply == MAKOWIST_ACCEPTED && memcmp(image, whole, LENGTH) == 0, "push, cut 2", "called again as uncut", reply);
    }
    memcpy(image, before, LENGTH);
    for (uint64_t cut = 3; cut <= 256; ++cut) {
        reply = makowist_work(image, LENGTH, 1, job, number, 0, cut);
        hold(reply == RANGE && memcmp(image, before, LENGTH) == 0, "push", "a cut above 2 is refused", reply);
    }
    free(whole);
    free(image);
}

/* A step of two stores: cut 2 is none, and cut 1 leaves the second out. */
static void two_stores(uint8_t *image, uint64_t job, uint64_t number) {
    uint8_t *first = copied(image, LENGTH), *second = copied(image, LENGTH);
    uint64_t told = makowist_work(image, LENGTH, 1, job, number, 0, 0);
    accepted(told, "two stores");
    uint64_t reply = makowist_work(first, LENGTH, 1, job, number, 0, 1);
    hold(reply == told && memcmp(first, image, LENGTH) != 0, "two stores", "cut 1 leaves one", reply);
    reply = makowist_work(second, LENGTH, 1, job, number, 0, 2);
    hold(reply == told && memcmp(second, image, LENGTH) == 0, "two stores", "cut 2 leaves both", reply);
    free(first);
    free(second);
}

static void pushes(const uint8_t *before) {
    uint8_t *image = copied(before, LENGTH), pair[MAKOWIST_PAIR_LENGTH];
    const uint64_t number = LAST + 1;
    const uint32_t from = path_3(image, MAKOWIST_TABLE_APPLIED), to = 7;
    makowist_put_pair(pair, 3, to);
    accepted(makowist_append(image, LENGTH, pair, sizeof pair), "append");
    two_stores(image, 1, number);
    two_stores(image, 1, number);
    two_stores(image, 2, number);
    push_is(image, 2, number, from, to);
    accepted(makowist_work(image, LENGTH, 1, 2, number, 0, 0), "push");
    accepted(makowist_rollback(image, LENGTH, number), "rollback");
    two_stores(image, 3, number);
    two_stores(image, 3, number);
    two_stores(image, 4, number);
    push_is(image, 4, number, to, from);
    free(image);
}

/* ---- Old lists. */

enum { ENTRY = MAKOWIST_ENTRY_LENGTH, ENTRIES = MAKOWIST_ENTRY_LIMIT };

/* An entry that changes path 3, and one that changes two. */
static void put_one(uint8_t *entry, uint64_t given) {
    uint8_t pair[MAKOWIST_PAIR_LENGTH];
    makowist_put_pair(pair, 3, given);
    makowist_put_change(entry, pair, 1);
}

static void put_two(uint8_t *entry, uint64_t given) {
    uint8_t pairs[2 * MAKOWIST_PAIR_LENGTH];
    makowist_put_pair(pairs, 3, given);
    makowist_put_pair(pairs + MAKOWIST_PAIR_LENGTH, 31, 65535);
    makowist_put_change(entry, pairs, 2);
}

/* Changes and their rollbacks in turn. */
static uint8_t *in_turn(size_t entries) {
    uint8_t *list = lent(ENTRY * entries + 1);
    for (size_t k = 0; k < entries; ++k) {
        if (k % 2 == 0)
            put_one(list + ENTRY * k, k + 1);
        else
            makowist_put_rollback(list + ENTRY * k, k);
    }
    return list;
}

/* What an import of so many bytes of a list answers, lent as so many, from an image of nonsense; refused it writes none. Leaves the
 * image, to be freed. */
static uint8_t *import_is(const uint8_t *list, size_t bytes, unsigned answer, unsigned position, const char *what) {
    uint8_t *image = lent(LENGTH), *entries = bytes ? copied(list, bytes) : NULL;
    memset(image, 0xab, LENGTH);
    uint8_t *before = copied(image, LENGTH);
    uint64_t reply = makowist_import(image, LENGTH, entries, bytes);
    hold(makowist_reply_answer(reply) == answer, "import, answer", what, reply);
    hold(makowist_reply_position(reply) == position, "import, position", what, reply);
    hold((reply & 0xffff0000ffffff00) == 0, "import", "nothing but answer and position", reply);
    if (answer != MAKOWIST_ACCEPTED)
        hold(memcmp(image, before, LENGTH) == 0, "import, refused: every byte as it was", what, reply);
    hold(bytes == 0 || memcmp(entries, list, bytes) == 0, "import", "the list stays", bytes);
    free(entries);
    free(before);
    return image;
}

static void import_refused(const uint8_t *list, size_t bytes, unsigned answer, unsigned position, const char *what) {
    free(import_is(list, bytes, answer, position, what));
}

/* A list of three, and what the calls that it stands for leave: two changes, the second undone, and a third over the first. */
static void import_is_its_calls(void) {
    uint8_t list[4 * ENTRY], *image = lent(LENGTH);
    put_one(list, 7);
    put_two(list + ENTRY, 9);
    makowist_put_rollback(list + 2 * ENTRY, 2);
    put_two(list + 3 * ENTRY, 0);
    accepted(makowist_fresh(image, LENGTH, MAKOWIST_FORGETS), "fresh");
    accepted(makowist_start(image, LENGTH), "start");
    accepted(makowist_connect(image, LENGTH, 1), "connect");
    accepted(makowist_master(image, LENGTH, 1), "master");
    for (size_t entries = 0; entries <= 4; ++entries) {
        const uint64_t number = entries == 4 ? 3 : entries == 3 ? 2 : entries, job = entries == 3 ? 3 : 1;
        if (entries == 3)
            accepted(makowist_rollback(image, LENGTH, 2), "rollback");
        else if (entries > 0)
            accepted(makowist_append(image, LENGTH, list + ENTRY * (entries - 1) + 4, entries == 1 ? 4 : 8), "append");
        for (size_t step = 0; entries > 0 && step < 2; ++step)
            accepted(makowist_work(image, LENGTH, 1, job, number, 0, 0), "work");
        uint8_t *imported = import_is(list, ENTRY * entries, MAKOWIST_ACCEPTED, 0, "as its calls");
        hold(memcmp(imported, image, LENGTH) == 0, "import", "leaves what its calls leave", entries);
        free(imported);
    }
    hold(path_3(image, MAKOWIST_TABLE_COMMITTED) == 0, "import", "a delete", path_3(image, MAKOWIST_TABLE_COMMITTED));
    free(image);
}

/* Lengths of the list, and of the image, that are none. */
static void import_lengths(void) {
    uint8_t *list = in_turn(ENTRIES + 2);
    for (size_t bytes = 0; bytes <= 2 * ENTRY + 1; ++bytes)
        free(import_is(list, bytes, bytes % ENTRY ? RANGE : MAKOWIST_ACCEPTED, 0, "bytes"));
    for (size_t more = 0; more <= 2 * ENTRY; more += more == 1 ? ENTRY - 2 : 1)
        free(import_is(list, ENTRY * ENTRIES + more, more ? RANGE : MAKOWIST_ACCEPTED, 0, "more than fit"));
    list[0] = 0;
    import_refused(list, ENTRY * (ENTRIES + 1), RANGE, 0, "more than fit, the first bad");
    import_refused(list, ENTRY * ENTRIES, MAKOWIST_NOT_THE_NEWEST, 1, "as many as fit, the first bad");
    for (size_t length = LENGTH - 2; length <= LENGTH + 2; ++length) {
        uint8_t *image = lent(length);
        uint64_t reply = makowist_import(image, length, list, 7);
        hold(reply == (length == LENGTH ? (unsigned)RANGE : MAKOWIST_NOT_WELL_FORMED), "import", "the image's length", length);
        free(image);
    }
    hold(makowist_import(NULL, 0, list, ENTRY) == MAKOWIST_NOT_WELL_FORMED, "import", "no image", 0);
    free(list);
}

/* Each refusal at the first, a middle and the last place of a list. */
static void import_positions(void) {
    for (size_t place = 0; place < ENTRIES; place += place == 0 ? 126 : 129) {
        uint8_t *list = in_turn(ENTRIES), *entry = list + ENTRY * place, five[5 * MAKOWIST_PAIR_LENGTH] = {0};
        const unsigned position = (unsigned)place + 1;
        makowist_put_change(entry, NULL, 0);
        import_refused(list, ENTRY * ENTRIES, MAKOWIST_NOT_A_CHANGE, position, "no pairs");
        makowist_put_change(entry, five, 5);
        import_refused(list, ENTRY * ENTRIES, MAKOWIST_NOT_A_CHANGE, position, "five pairs");
        put_one(entry, 7);
        entry[2] = 5;
        import_refused(list, ENTRY * ENTRIES, MAKOWIST_NOT_A_CHANGE, position, "a count of five");
        put_one(entry, 7);
        entry[3] = 1;
        import_refused(list, ENTRY * ENTRIES, MAKOWIST_NOT_A_CHANGE, position, "a count of 257");
        put_one(entry, 70000);
        import_refused(list, ENTRY * ENTRIES, MAKOWIST_NOT_A_CHANGE, position, "a value of no 16 bits");
        const uint64_t named[] = {0, position, position + 1, UINT16_MAX, (UINT64_C(1) << 16) + place, (UINT64_C(1) << 32) + place};
        for (size_t k = 0; k < sizeof named / sizeof *named; ++k) {
            makowist_put_rollback(entry, named[k]);
            import_refused(list, ENTRY * ENTRIES, MAKOWIST_NOT_THE_NEWEST, position, "names no live change");
        }
        for (unsigned kind = 0; kind < 1024; kind += kind == 0 ? 3 : 1) {
            put_one(entry, 7);
            entry[0] = (uint8_t)(kind & 0xff);
            entry[1] = (uint8_t)(kind >> 8);
            import_refused(list, ENTRY * ENTRIES, MAKOWIST_NOT_THE_NEWEST, position, "of neither kind");
        }
        free(list);
    }
}

/* As many changes as fit, and one more, with good pairs and with bad ones. */
static void import_full(void) {
    enum { LOG = MAKOWIST_LOG_LIMIT };
    uint8_t *list = lent(ENTRY * ENTRIES);
    for (size_t k = 0; k < LOG; ++k)
        put_two(list + ENTRY * k, k);
    for (size_t k = LOG; k < ENTRIES; ++k)
        makowist_put_rollback(list + ENTRY * k, ENTRIES - k);
    free(import_is(list, ENTRY * LOG, MAKOWIST_ACCEPTED, 0, "128 changes"));
    uint8_t *image = import_is(list, ENTRY * ENTRIES, MAKOWIST_ACCEPTED, 0, "128 changes, and each undone");
    uint64_t ordinal = makowist_record(image, LENGTH, MAKOWIST_COMMITTED_ORDINAL);
    hold(makowist_reply_value(ordinal) == ENTRIES, "import", "an ordinal for each entry", ordinal);
    free(image);
    for (size_t place = LOG; place < ENTRIES; place += ENTRIES - LOG - 1) {
        put_one(list + ENTRY * place, 7);
        import_refused(list, ENTRY * ENTRIES, MAKOWIST_LOG_FULL, (unsigned)place + 1, "129 changes");
        makowist_put_change(list + ENTRY * place, NULL, 0);
        import_refused(list, ENTRY * ENTRIES, MAKOWIST_NOT_A_CHANGE, (unsigned)place + 1, "129 changes, the last bad");
        makowist_put_rollback(list + ENTRY * place, ENTRIES - place);
    }
    free(list);
}

static void imports(void) {
    import_is_its_calls();
    import_lengths();
    import_positions();
    import_full();
}

/* ---- Targets that forget, and that remember. */

/* Makes calls of node 1 behind which the line is open again, and answers how many paths the synchronise wrote. */
static unsigned synchronised(uint8_t *image) {
    accepted(makowist_connect(image, LENGTH, 1), "connect");
    accepted(makowist_master(image, LENGTH, 1), "master");
    accepted(makowist_master(image, LENGTH, 1), "master");
    uint64_t reply = makowist_sync(image, LENGTH, 1);
    hold(reply == MAKOWIST_ACCEPTED, "sync", "no number where it begins", reply);
    reply = makowist_sync(image, LENGTH, 1);
    accepted(reply, "sync");
    hold(reply == (uint64_t)makowist_reply_number(reply) << 32, "sync", "nothing but answer and number", reply);
    for (uint64_t path = 0; path < MAKOWIST_PATHS; ++path)
        hold(makowist_value(image, LENGTH, MAKOWIST_TABLE_TARGET, path) ==
                 makowist_value(image, LENGTH, MAKOWIST_TABLE_APPLIED, path),
             "sync", "the target has the applied values", path);
    return makowist_reply_number(reply);
}

static unsigned power_cycled(uint8_t *image) {
    accepted(makowist_stop(image, LENGTH), "stop");
    accepted(makowist_start(image, LENGTH), "start");
    return synchronised(image);
}

/* Appends a change of four paths from that one on and has it pushed, with that cut. */
static void pushed(uint8_t *image, uint64_t path, uint64_t cut) {
    uint8_t four[4 * MAKOWIST_PAIR_LENGTH];
    for (unsigned k = 0; k < 4; ++k)
        makowist_put_pair(four + MAKOWIST_PAIR_LENGTH * k, path + k, 256 + path);
    uint64_t number = makowist_reply_number(makowist_append(image, LENGTH, four, sizeof four));
    for (unsigned step = 0; step < 4; ++step)
        accepted(makowist_work(image, LENGTH, 1, 1 + step / 2, number, 0, step == 3 ? cut : 0), "work");
}

/* A power cycle with no value, with some, with all, and behind a push that was cut; a line that is lost and opened again. */
static void remembers(uint64_t kind) {
    uint8_t *image = opened_of(kind);
    int keeps = kind == MAKOWIST_REMEMBERS;
    hold(power_cycled(image) == 0, "remembers", "no value", kind);
    pushed(image, 0, 0);
    hold(power_cycled(image) == (keeps ? 0 : 4), "remembers", "four values", kind);
    for (uint64_t path = 4; path < MAKOWIST_PATHS; path += 4)
        pushed(image, path, 0);
    accepted(makowist_stop(image, LENGTH), "stop");
    hold(path_3(image, MAKOWIST_TABLE_TARGET) == (keeps ? 256 : 0), "remembers", "stopped", kind);
    hold(path_3(image, MAKOWIST_TABLE_APPLIED) == 256, "remembers", "applied", kind);
    accepted(makowist_start(image, LENGTH), "start");
    hold(synchronised(image) == (keeps ? 0 : MAKOWIST_PATHS), "remembers", "all values", kind);
    pushed(image, 1, MAKOWIST_CUT_AFTER_FIRST);
    accepted(makowist_disconnect(image, LENGTH, 1), "disconnect");
    hold(synchronised(image) == 4, "remembers", "a cut push is taken back", kind);
    accepted(makowist_work(image, LENGTH, 1, 2, 9, 0, MAKOWIST_CUT_AFTER_FIRST), "work");
    hold(power_cycled(image) == (keeps ? 4 : MAKOWIST_PATHS), "remembers", "a cut push, and no power", kind);
    uint64_t reply = makowist_sync(image, LENGTH, 1);
    hold(reply == MAKOWIST_NO_RULE, "sync", "no number where it is refused", reply);
    free(image);
}

/* A flag that is none, in the call and in the image. */
static void flags(void) {
    uint8_t *image = opened_of(MAKOWIST_REMEMBERS), *before = copied(image, LENGTH), *forgets = opened();
    size_t at = 0;
    while (at < LENGTH && image[at] == forgets[at])
        ++at;
    hold(at < LENGTH && image[at] == 1 && forgets[at] == 0, "remembers", "the flag's byte", at);
    hold(memcmp(image + at + 1, forgets + at + 1, LENGTH - at - 1) == 0, "remembers", "one byte tells the kinds apart", at);
    for (unsigned flag = 2; flag <= UINT8_MAX; ++flag) {
        hold(makowist_fresh(image, LENGTH, flag) == RANGE, "fresh", "a flag above 1", flag);
        hold(memcmp(image, before, LENGTH) == 0, "fresh, refused", "every byte as it was", flag);
        hold(makowist_fresh(image, LENGTH - 1, flag) == MAKOWIST_NOT_WELL_FORMED, "fresh", "the length first", flag);
        image[at] = (uint8_t)flag;
        hold(makowist_well_formed(image, LENGTH) == MAKOWIST_NOT_WELL_FORMED, "well-formed", "a flag above 1", flag);
        image[at] = 1;
    }
    free(image);
    free(before);
    free(forgets);
}

int main(void) {
    uint8_t *image = led();
    nothing_lent(image);
    at_the_edge(image);
    for (size_t k = 0; k < CALLS; ++k) {
        in_range(&calls[k], image);
        too_great(&calls[k], image);
    }
    names();
    pairs(image);
    listed(image);
    owners(image);
    reasons(image);
    nights(image);
    pushes(image);
    imports();
    remembers(MAKOWIST_FORGETS);
    remembers(MAKOWIST_REMEMBERS);
    flags();
    free(image);
    printf("edge: %u checks hold\n", checks);
    return 0;
}

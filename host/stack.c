/* stack.c: how many bytes of stack each function of makowist.h takes, the deepest of many states.
 *
 * A call is made on a stack of its own that is painted: every word of it has a pattern that tells its place. The lowest word
 * that has it no more says how deep the call went. Counted is from where the caller's stack stands before the call: numbers that
 * find no register, the return address, and all below. Bytes that a frame reserves and never writes at its low end are not seen.
 *
 * The states are reached by calls: each step of logs of one and of two, logs of 128 in which every change lies on
 * all before it, nights, imports of 256, folds, rings; then sessions of random calls; and at last images that no session
 * reaches, since counters at their limits and damage are not to be had otherwise. Every answer that the header names for a
 * function, every reason, and every way of a job to end must have been met, or what is printed would say little.
 *
 * Prints a line for each function: its name, bytes, and the state, the call's numbers and the answer where it was first so deep.
 * Ends with 1 where something that must have been met was not. usage: stack [sessions] [seed] */
#define _DEFAULT_SOURCE
#include <inttypes.h>
#include <stdio.h>
#include <stdlib.h>
#include <string.h>
#include <sys/mman.h>

#include "makowist.h"

enum { LENGTH = MAKOWIST_IMAGE_LENGTH, KEPT = MAKOWIST_LOG_LIMIT, ROOM = 2 * KEPT };

static void fail(const char *what, const char *which, uint64_t found) {
    fprintf(stderr, "stack: %s: %s: %" PRIu64 "\n", what, which, found);
    exit(1);
}

/* ---- The painted stack. */

enum { WORDS = 2048, IN_REGISTERS = 6, MOST_NUMBERS = 8 };

typedef void function(void);

/* Calls a function with eight numbers, the last two on the stack, on the stack that ends at `top`, which is a multiple of 16. */
uint64_t painted_call(function *called, const uint64_t *numbers, uint64_t *top);
__asm__(".pushsection .text\n"
        ".globl painted_call\n"
        ".type painted_call, @function\n"
        "painted_call:\n"
        "    pushq %rbx\n"
        "    movq %rsp, %rbx\n"
        "    movq %rdx, %rsp\n"
        "    movq %rdi, %rax\n"
        "    movq %rsi, %r10\n"
        "    pushq 56(%r10)\n"
        "    pushq 48(%r10)\n"
        "    movq 40(%r10), %r9\n"
        "    movq 32(%r10), %r8\n"
        "    movq 24(%r10), %rcx\n"
        "    movq 16(%r10), %rdx\n"
        "    movq 8(%r10), %rsi\n"
        "    movq 0(%r10), %rdi\n"
        "    call *%rax\n"
        "    movq %rbx, %rsp\n"
        "    popq %rbx\n"
        "    ret\n"
        ".size painted_call, .-painted_call\n"
        ".popsection\n"
        ".pushsection .note.GNU-stack,\"\",@progbits\n"
        ".popsection\n");

static uint64_t *stack; /* WORDS words; below them lies a page that is not mapped */

static uint64_t paint(size_t k) { return (k + 1) * UINT64_C(0x9e3779b97f4a7c15); }

static void make_stack(void) {
    const size_t page = 1 << 16; /* the largest that the machines in question have */
    uint8_t *whole = mmap(NULL, 3 * page, PROT_NONE, MAP_PRIVATE | MAP_ANONYMOUS, -1, 0);
    if (whole == MAP_FAILED)
        exit(1);
    uint8_t *room = whole + page + (page - (uintptr_t)whole % page) % page;
    if (mprotect(room, WORDS * sizeof *stack, PROT_READ | PROT_WRITE) != 0)
        exit(1);
    stack = (uint64_t *)(void *)room;
    for (size_t k = 0; k < WORDS; ++k)
        stack[k] = paint(k);
}

/* Makes the call and answers its reply and how many bytes it took, `handed` numbers on the stack among them. */
static uint64_t measured(function *called, const uint64_t *numbers, size_t handed, size_t *bytes) {
    const size_t laid = MOST_NUMBERS - IN_REGISTERS;
    uint64_t reply = painted_call(called, numbers, stack + WORDS);
    size_t low = 0;
    while (low < WORDS && stack[low] == paint(low))
        ++low;
    *bytes = sizeof *stack * (WORDS - low - laid + handed);
    for (size_t k = low; k < WORDS; ++k)
        stack[k] = paint(k);
    return reply;
}

/* ---- The functions, and the answers that must be met of each. */

enum name {
    FRESH, APPEND, ROLLBACK, START, STOP, CONNECT, DISCONNECT, MASTER, SYNC, WORK, FOLD, NIGHT, IMPORT,
    WELL_FORMED, LIVE, VALUE, OWNER, DRIFT, TRANSACTION, CLASS, TOOK, UNDONE, RECORD, CONNECTION, WHY, TALLY, NAMES
};

struct row {
    const char *name;
    function *called;
    size_t count;
    uint32_t answers; /* those of the header, a bit each */
    uint32_t met;
    size_t deepest;
    char where[160];
};

#define BIT(answer) (UINT32_C(1) << (answer))
#define FIRST (BIT(0) | BIT(1))

static struct row rows[NAMES] = {
    [FRESH] = {"makowist_fresh", (function *)makowist_fresh, 3, FIRST | BIT(2), 0, 0, ""},
    [APPEND] = {"makowist_append", (function *)makowist_append, 4, FIRST | BIT(3) | BIT(4) | BIT(9), 0, 0, ""},
    [ROLLBACK] = {"makowist_rollback", (function *)makowist_rollback, 3, FIRST | BIT(5) | BIT(18) | BIT(6), 0, 0, ""},
    [START] = {"makowist_start", (function *)makowist_start, 2, FIRST | BIT(7) | BIT(9), 0, 0, ""},
    [STOP] = {"makowist_stop", (function *)makowist_stop, 2, FIRST | BIT(7), 0, 0, ""},
    [CONNECT] = {"makowist_connect", (function *)makowist_connect, 3, FIRST | BIT(2) | BIT(7) | BIT(8) | BIT(9), 0, 0, ""},
    [DISCONNECT] = {"makowist_disconnect", (function *)makowist_disconnect, 3, FIRST | BIT(2) | BIT(7), 0, 0, ""},
    [MASTER] = {"makowist_master", (function *)makowist_master, 3, FIRST | BIT(2) | BIT(9) | BIT(11), 0, 0, ""},
    [SYNC] = {"makowist_sync", (function *)makowist_sync, 3, FIRST | BIT(2) | BIT(10) | BIT(11) | BIT(12), 0, 0, ""},
    [WORK] = {"makowist_work", (function *)makowist_work, 7,
              FIRST | BIT(2) | BIT(5) | BIT(18) | BIT(9) | BIT(10) | BIT(11) | BIT(12) | BIT(13), 0, 0, ""},
    [FOLD] = {"makowist_fold", (function *)makowist_fold, 3, FIRST | BIT(5) | BIT(17), 0, 0, ""},
    [NIGHT] = {"makowist_night", (function *)makowist_night, 8, FIRST | BIT(2) | BIT(10), 0, 0, ""},
    [IMPORT] = {"makowist_import", (function *)makowist_import, 4, FIRST | BIT(2) | BIT(3) | BIT(4) | BIT(16), 0, 0, ""},
    [WELL_FORMED] = {"makowist_well_formed", (function *)makowist_well_formed, 2, FIRST, 0, 0, ""},
    [LIVE] = {"makowist_live", (function *)makowist_live, 4, FIRST | BIT(14), 0, 0, ""},
    [VALUE] = {"makowist_value", (function *)makowist_value, 4, FIRST | BIT(2), 0, 0, ""},
    [OWNER] = {"makowist_owner", (function *)makowist_owner, 3, FIRST | BIT(2), 0, 0, ""},
    [DRIFT] = {"makowist_drift", (function *)makowist_drift, 2, FIRST, 0, 0, ""},
    [TRANSACTION] = {"makowist_transaction", (function *)makowist_transaction, 4, FIRST | BIT(2) | BIT(5) | BIT(18), 0, 0, ""},
    [CLASS] = {"makowist_class", (function *)makowist_class, 3, FIRST | BIT(5) | BIT(18), 0, 0, ""},
    [TOOK] = {"makowist_took", (function *)makowist_took, 3, FIRST | BIT(5) | BIT(18), 0, 0, ""},
    [UNDONE] = {"makowist_undone", (function *)makowist_undone, 3, FIRST | BIT(5) | BIT(18), 0, 0, ""},
    [RECORD] = {"makowist_record", (function *)makowist_record, 3, FIRST | BIT(2), 0, 0, ""},
    [CONNECTION] = {"makowist_connection", (function *)makowist_connection, 4, FIRST | BIT(2), 0, 0, ""},
    [WHY] = {"makowist_why", (function *)makowist_why, 5, FIRST | BIT(2) | BIT(5) | BIT(18) | BIT(10) | BIT(15), 0, 0, ""},
    [TALLY] = {"makowist_tally", (function *)makowist_tally, 5, FIRST | BIT(2), 0, 0, ""},
};

/* The ways in which accepted jobs ended, jobs 1 to 4 by the event's status and by the cut; the reasons; why nights stopped. */
static uint32_t ends[5][3], reasons, stops;

static const char *state = "no image"; /* where the call is made, for the line that is printed */
static unsigned long calls;

static void note(enum name which, const uint64_t *n, uint64_t reply, size_t bytes) {
    struct row *row = &rows[which];
    unsigned answer = makowist_reply_answer(reply);
    ++calls;
    row->met |= BIT(answer);
    if (which == WORK && answer == 0)
        ends[n[3]][n[6]] |= BIT(makowist_reply_status(reply));
    if (which == WHY && answer == 0)
        reasons |= BIT(makowist_reply_reason(reply));
    if (which == NIGHT && answer == 0)
        stops |= BIT(makowist_reply_stopped(reply));
    if (bytes <= row->deepest)
        return;
    row->deepest = bytes;
    int used = snprintf(row->where, sizeof row->where, "%s:", state);
    for (size_t k = 2; k < row->count && used < (int)sizeof row->where; ++k)
        if (n[k] <= 65535)
            used += snprintf(row->where + used, sizeof row->where - (size_t)used, " %" PRIu64, n[k]);
    if (used < (int)sizeof row->where)
        snprintf(row->where + used, sizeof row->where - (size_t)used, ", %s", makowist_answer_name(answer));
}

static uint64_t call(enum name which, const uint64_t *n) {
    const struct row *row = &rows[which];
    size_t bytes, handed = row->count > IN_REGISTERS ? row->count - IN_REGISTERS : 0;
    uint64_t reply = measured(row->called, n, handed, &bytes);
    note(which, n, reply, bytes);
    return reply;
}

#define POINTER(bytes) ((uint64_t)(uintptr_t)(bytes))
#define CALL(which, image, ...) call(which, (const uint64_t[MOST_NUMBERS]){POINTER(image), LENGTH, __VA_ARGS__})

/* On a copy, so that the image stays. */
static uint64_t tried(enum name which, const uint8_t *image, const uint64_t *numbers) {
    static uint8_t copy[LENGTH];
    uint64_t n[MOST_NUMBERS];
    memcpy(copy, image, LENGTH);
    memcpy(n, numbers, sizeof n);
    n[0] = POINTER(copy);
    n[1] = LENGTH;
    return call(which, n);
}

#define TRIED(which, image, ...) tried(which, image, (const uint64_t[MOST_NUMBERS]){0, 0, __VA_ARGS__})

static void accepted(uint64_t reply, const char *what) {
    if (makowist_reply_answer(reply) != MAKOWIST_ACCEPTED)
        fail("refused", what, makowist_reply_answer(reply));
}

static uint64_t record(const uint8_t *image, uint64_t field) { return makowist_reply_value(makowist_record(image, LENGTH, field)); }

/* ---- Every call on one state. */

static uint8_t room[ROOM], outcomes[MAKOWIST_OUTCOMES], events[MAKOWIST_BUDGET_LIMIT * MAKOWIST_EVENT_LENGTH];
static uint8_t totals[MAKOWIST_TOTALS_LENGTH];

/* A log at each place of a sheet, and beside them; totals of another length, and more than the logs before can have. */
static void every_tally(const uint8_t *image) {
    memset(totals, 0, sizeof totals);
    for (uint64_t log = 0; log <= MAKOWIST_LOGS + 1; ++log)
        CALL(TALLY, image, log, POINTER(totals), sizeof totals);
    CALL(TALLY, image, 1, POINTER(totals), sizeof totals - 1);
    totals[1] = 1;
    CALL(TALLY, image, 1, POINTER(totals), sizeof totals);
}

static void every_read(const uint8_t *image) {
    uint64_t live = makowist_reply_value(CALL(LIVE, image, POINTER(room), sizeof room));
    CALL(WELL_FORMED, image, 0);
    CALL(DRIFT, image, 0);
    every_tally(image);
    CALL(LIVE, image, POINTER(room), 2 * live);
    CALL(LIVE, image, POINTER(room), live > 0 ? 2 * live - 1 : 0);
    for (uint64_t path = 0; path <= MAKOWIST_PATHS; ++path) {
        CALL(OWNER, image, path);
        for (uint64_t table = 0; table <= 5; ++table)
            CALL(VALUE, image, table, path);
    }
    for (uint64_t field = 0; field <= MAKOWIST_LAST_FOLD + 1; ++field)
        CALL(RECORD, image, field);
    for (uint64_t node = 0; node <= MAKOWIST_NODES + 1; ++node)
        for (uint64_t field = 0; field <= 3; ++field)
            CALL(CONNECTION, image, node, field);
}

static void every_job(const uint8_t *image, uint64_t node, uint64_t number) {
    for (uint64_t job = 0; job <= 5; ++job) {
        CALL(WHY, image, node, job, number);
        for (uint64_t outcome = 0; outcome <= 2; ++outcome)
            for (uint64_t cut = 0; cut <= 3; ++cut)
                TRIED(WORK, image, node, job, number, outcome, cut);
    }
}

static void every_number(const uint8_t *image, uint64_t node, uint64_t number) {
    every_job(image, node, number);
    TRIED(ROLLBACK, image, number);
    TRIED(FOLD, image, number);
    for (uint64_t field = 0; field <= MAKOWIST_TRANSACTION_R_VALUE + 4; ++field)
        CALL(TRANSACTION, image, number, field);
    CALL(CLASS, image, number);
    CALL(TOOK, image, number);
    CALL(UNDONE, image, number);
}

static void every_append(const uint8_t *image) {
    uint8_t pairs[5 * MAKOWIST_PAIR_LENGTH];
    for (size_t k = 0; k < 5; ++k)
        makowist_put_pair(pairs + MAKOWIST_PAIR_LENGTH * k, 7 * k, 100 + k);
    for (size_t length = 0; length <= sizeof pairs; ++length)
        TRIED(APPEND, image, POINTER(pairs), length);
}

static void every_night(const uint8_t *image, uint64_t node) {
    const uint64_t budgets[] = {0, 1, 7, MAKOWIST_BUDGET_LIMIT, MAKOWIST_BUDGET_LIMIT + 1};
    const size_t rooms[] = {0, MAKOWIST_EVENT_LENGTH - 1, 3 * MAKOWIST_EVENT_LENGTH, sizeof events};
    for (size_t b = 0; b < 5; ++b)
        for (size_t r = 0; r < 4; ++r)
            for (size_t rejected = 0; rejected <= 2; ++rejected) {
                for (size_t k = 0; k < sizeof outcomes; ++k)
                    outcomes[k] = (uint8_t)(rejected == 2 ? k / 2 % 2 : rejected);
                TRIED(NIGHT, image, node, budgets[b], POINTER(outcomes), sizeof outcomes, POINTER(events), rooms[r]);
            }
    TRIED(NIGHT, image, node, 1, POINTER(outcomes), sizeof outcomes - 1, POINTER(events), sizeof events);
    outcomes[255] = 2;
    TRIED(NIGHT, image, node, 1, POINTER(outcomes), sizeof outcomes, POINTER(events), sizeof events);
    outcomes[255] = 0;
}

/* Every call on the image: of the numbers those that are kept, those beside them, and one of more than 16 bits. */
static void every_call(const uint8_t *image, const char *where) {
    const uint64_t first = record(image, MAKOWIST_LAST_FOLD), last = record(image, MAKOWIST_LOG_LENGTH);
    const uint64_t master = record(image, MAKOWIST_MASTERSHIP_MASTER), other = master % MAKOWIST_NODES + 1;
    state = where;
    every_read(image);
    every_append(image);
    for (uint64_t number = first; number <= last + 1; ++number)
        every_number(image, master, number);
    every_number(image, other, last);
    every_number(image, other, UINT64_C(1) << 32);
    TRIED(START, image, 0);
    TRIED(STOP, image, 0);
    for (uint64_t node = 0; node <= MAKOWIST_NODES + 1; ++node) {
        TRIED(CONNECT, image, node);
        TRIED(DISCONNECT, image, node);
        TRIED(MASTER, image, node);
        TRIED(SYNC, image, node);
    }
    every_night(image, master);
    every_night(image, other);
    for (uint64_t remembers = 0; remembers <= 2; ++remembers)
        TRIED(FRESH, image, remembers);
}

/* What is refused for its bytes alone: a length that is none, and nonsense. */
static void no_image(const uint8_t *image) {
    static uint8_t nonsense[LENGTH];
    memset(nonsense, 0xff, sizeof nonsense);
    state = "no image";
    for (enum name which = 0; which < NAMES; ++which) {
        const uint64_t none[MOST_NUMBERS] = {POINTER(image), LENGTH - 1, 1, 1, 1, 1, 1, 1};
        call(which, none);
        if (which != FRESH && which != IMPORT)
            call(which, (const uint64_t[MOST_NUMBERS]){POINTER(nonsense), LENGTH, 0, 0, 0, 0, 0, 0});
    }
    memset(totals, 0, sizeof totals);
    CALL(TALLY, nonsense, 1, POINTER(totals), sizeof totals);
}

/* ---- Logs that are led by calls. */

static uint8_t image[LENGTH];

static void begin(uint64_t remembers) {
    static const char *const where[2][6] = {
        {"fresh", "started", "connected", "with a master", "synchronising", "the line open"},
        {"fresh, remembers", "started, remembers", "connected, remembers", "with a master, remembers",
         "synchronising, remembers", "the line open, remembers"}};
    static int seen[2];
    const uint64_t fresh[MOST_NUMBERS] = {POINTER(image), LENGTH, remembers};
    accepted(call(FRESH, fresh), "fresh");
    for (int k = 0; k < 6; ++k) {
        if (!seen[remembers])
            every_call(image, where[remembers][k]);
        if (k == 0)
            accepted(CALL(START, image, 0), "start");
        if (k == 1)
            accepted(CALL(CONNECT, image, 1), "connect");
        if (k == 2)
            accepted(CALL(MASTER, image, 1), "master");
        if (k == 3 || k == 4)
            accepted(CALL(SYNC, image, 1), "sync");
    }
    seen[remembers] = 1;
}

/* Appends a change of four pairs on the same paths as the one before it, or on others. */
static void append(uint64_t number, uint64_t shift) {
    uint8_t pairs[4 * MAKOWIST_PAIR_LENGTH];
    for (size_t k = 0; k < 4; ++k)
        makowist_put_pair(pairs + MAKOWIST_PAIR_LENGTH * k, 8 * k + shift * number % 8, number % 7 == 0 ? 0 : number);
    accepted(CALL(APPEND, image, POINTER(pairs), sizeof pairs), "append");
}

static void job(uint64_t which, uint64_t number, int steps) {
    for (int k = 0; k < steps; ++k)
        accepted(CALL(WORK, image, 1, which, number, 0, 0), "work");
}

/* Whether a state of a short log was not met before with as many steps left to go. */
static int is_new(const uint8_t *bytes, int left) {
    static struct { uint64_t sum; int left; } met[1 << 12];
    static size_t used;
    uint64_t sum = UINT64_C(0xcbf29ce484222325);
    size_t k;
    for (k = 0; k < LENGTH; ++k)
        sum = (sum ^ bytes[k]) * UINT64_C(0x100000001b3);
    for (k = 0; k < used && met[k].sum != sum; ++k)
        continue;
    if (k < used && met[k].left >= left)
        return 0;
    if (k == sizeof met / sizeof *met)
        fail("more states than are told apart", "short logs", k);
    used += k == used;
    met[k].sum = sum;
    met[k].left = left;
    return 1;
}

/* Each step of a short log: a tree of calls, every call tried in each state of it. What leads on: the four jobs of each number,
 * accepted, rejected, and cut after each store, and the rollbacks. */
static void each_step(const uint8_t *from, int depth) {
    uint8_t at[LENGTH];
    const uint64_t last = record(from, MAKOWIST_LOG_LENGTH);
    if (!is_new(from, depth))
        return;
    every_call(from, "each step of a short log");
    for (uint64_t number = 1; depth > 0 && number <= last; ++number) {
        for (uint64_t k = 0; k < 16; ++k) {
            memcpy(at, from, LENGTH);
            uint64_t reply = makowist_work(at, LENGTH, 1, 1 + k / 4, number, k % 4 == 3, k % 4 % 3);
            if (makowist_reply_answer(reply) == 0)
                each_step(at, depth - 1);
        }
        memcpy(at, from, LENGTH);
        if (makowist_reply_answer(makowist_rollback(at, LENGTH, number)) == 0)
            each_step(at, depth - 1);
    }
}

static void short_logs(void) {
    begin(MAKOWIST_FORGETS);
    append(1, 1);
    each_step(image, 12);
    begin(MAKOWIST_REMEMBERS);
    append(1, 0);
    append(2, 0);
    job(1, 1, 2);
    job(1, 2, 2);
    each_step(image, 4);
}

/* The master's connection lost, and found again under another id, while a push is under way. */
static void lost_line(void) {
    begin(MAKOWIST_FORGETS);
    append(1, 0);
    job(1, 1, 2);
    job(2, 1, 1);
    accepted(CALL(DISCONNECT, image, 1), "disconnect");
    every_call(image, "the master disconnected");
    accepted(CALL(CONNECT, image, 1), "connect");
    every_call(image, "the master connected again");
    accepted(CALL(MASTER, image, 1), "master");
    every_call(image, "no master");
    accepted(CALL(MASTER, image, 1), "master");
    accepted(CALL(SYNC, image, 1), "sync");
    accepted(CALL(DISCONNECT, image, 1), "disconnect");
    every_call(image, "synchronising, the master disconnected");
}

/* ---- Logs of 128. */

static void full(uint64_t shift, const char *appended, const char *committed, const char *applied, const char *undoing) {
    begin(MAKOWIST_FORGETS);
    for (uint64_t number = 1; number <= KEPT; ++number)
        append(number, shift);
    every_call(image, appended);
    for (uint64_t number = 1; number <= KEPT; ++number)
        job(1, number, 2);
    every_call(image, committed);
    for (uint64_t number = 1; number <= KEPT; ++number)
        job(2, number, 2);
    every_call(image, applied);
    for (uint64_t number = 1; number <= KEPT; ++number)
        accepted(CALL(ROLLBACK, image, number), "rollback");
    every_call(image, undoing);
    state = "128 undone";
    CALL(NIGHT, image, 1, 600, POINTER(outcomes), sizeof outcomes, POINTER(events), sizeof events);
    every_read(image);
}

/* A ring that goes round its end: 64 are folded away, and as many follow. */
static void ring(void) {
    begin(MAKOWIST_REMEMBERS);
    for (uint64_t number = 1; number <= KEPT + KEPT / 2; ++number) {
        if (number == KEPT + 1)
            accepted(CALL(FOLD, image, KEPT / 2), "fold");
        append(number, 1);
        job(1, number, 2);
        if (number < KEPT + 10)
            job(2, number, 2);
    }
    every_call(image, "128 kept round the ring's end, 64 folded");
    accepted(CALL(STOP, image, 0), "stop");
    every_call(image, "128 kept round the ring's end, stopped");
}

/* Bytes a hop: what one live change more takes, and the same where the room is too short. */
static size_t hop_walk, hop_refused;

static size_t listed(size_t bytes_of_room) {
    size_t bytes;
    const uint64_t n[MOST_NUMBERS] = {POINTER(image), LENGTH, POINTER(room), bytes_of_room};
    uint64_t reply = measured(rows[LIVE].called, n, 0, &bytes);
    note(LIVE, n, reply, bytes);
    return bytes;
}

static void hops(void) {
    size_t walked[KEPT + 1], refused[KEPT + 1];
    begin(MAKOWIST_FORGETS);
    state = "live lists of 0 to 128";
    for (uint64_t number = 1; number <= KEPT; ++number) {
        append(number, 0);
        job(1, number, 2);
        walked[number] = listed(sizeof room);
        refused[number] = listed(2 * number - 1);
        if (number > 1 && walked[number] > walked[number - 1] + hop_walk)
            hop_walk = walked[number] - walked[number - 1];
        if (number > 1 && refused[number] > refused[number - 1] + hop_refused)
            hop_refused = refused[number] - refused[number - 1];
    }
}

/* ---- Old lists. */

static uint8_t list[(MAKOWIST_ENTRY_LIMIT + 1) * MAKOWIST_ENTRY_LENGTH];

static void old_change(size_t k, size_t count) {
    uint8_t pairs[4 * MAKOWIST_PAIR_LENGTH];
    for (size_t pair = 0; pair < 4; ++pair)
        makowist_put_pair(pairs + MAKOWIST_PAIR_LENGTH * pair, pair + k % 29, k + 1);
    makowist_put_change(list + MAKOWIST_ENTRY_LENGTH * k, pairs, count);
}

static void old_rollback(size_t k, uint64_t position) { makowist_put_rollback(list + MAKOWIST_ENTRY_LENGTH * k, position); }

static unsigned imported(size_t entries, const char *where) {
    state = where;
    return makowist_reply_answer(CALL(IMPORT, image, POINTER(list), entries * MAKOWIST_ENTRY_LENGTH));
}

static void old_lists(void) {
    for (size_t k = 0; k < KEPT; ++k)
        old_change(k, 1 + k % 4);
    for (size_t k = 0; k < KEPT; ++k)
        old_rollback(KEPT + k, KEPT - k);
    for (size_t entries = 0; entries <= MAKOWIST_ENTRY_LIMIT; ++entries)
        accepted(imported(entries, "a list of 128 changes, then undone"), "import");
    if (imported(MAKOWIST_ENTRY_LIMIT + 1, "a list of 257") != MAKOWIST_OUT_OF_RANGE)
        fail("imported", "257", 0);
    old_rollback(MAKOWIST_ENTRY_LIMIT - 1, 5);
    imported(MAKOWIST_ENTRY_LIMIT, "a list of 256, the last bad");
    old_change(KEPT, 4);
    imported(KEPT + 1, "a list of 129 changes");
    old_change(KEPT, 5);
    imported(KEPT + 1, "a list of 128 changes and a bad one");
    for (size_t k = 0; k < MAKOWIST_ENTRY_LIMIT; k += 2) {
        old_change(k, 4);
        old_rollback(k + 1, k + 1);
    }
    for (size_t entries = 0; entries <= MAKOWIST_ENTRY_LIMIT; entries += 2)
        accepted(imported(entries, "a list of 128 changes, each undone at once"), "import");
    every_call(image, "128 imported and undone");
}

/* ---- Random calls. */

static uint64_t random_state;

static uint64_t below(uint64_t limit) {
    random_state ^= random_state << 13;
    random_state ^= random_state >> 7;
    random_state ^= random_state << 17;
    return (random_state >> 11) % limit;
}

static void random_append(void) {
    uint8_t pairs[4 * MAKOWIST_PAIR_LENGTH];
    size_t count = 1 + below(4);
    uint64_t path = 0;
    for (size_t k = 0; k < count; ++k) {
        path += below(7) + (k > 0);
        makowist_put_pair(pairs + MAKOWIST_PAIR_LENGTH * k, path, below(3));
    }
    CALL(APPEND, image, POINTER(pairs), MAKOWIST_PAIR_LENGTH * count);
}

static void random_call(uint64_t most) {
    const uint64_t first = record(image, MAKOWIST_LAST_FOLD), last = record(image, MAKOWIST_LOG_LENGTH);
    const uint64_t master = record(image, MAKOWIST_MASTERSHIP_MASTER), node = below(6) ? master : 1 + below(3);
    const uint64_t number = first + below(last - first + 2);
    switch (below(24)) {
    case 0: case 1:
        if (last - first < most)
            random_append();
        break;
    case 2: CALL(ROLLBACK, image, number); break;
    case 3: CALL(FOLD, image, number); break;
    case 4: below(4) ? CALL(START, image, 0) : CALL(STOP, image, 0); break;
    case 5: below(4) ? CALL(CONNECT, image, node) : CALL(DISCONNECT, image, node); break;
    case 6: CALL(MASTER, image, below(3) ? node : 1 + below(8)); break;
    case 7: CALL(SYNC, image, node); break;
    case 8: CALL(WHY, image, node, 1 + below(4), number); break;
    case 9: CALL(LIVE, image, POINTER(room), below(2) ? sizeof room : 2 * below(4)); break;
    case 10: CALL(TRANSACTION, image, number, below(24)); break;
    case 11: CALL(VALUE, image, below(6), below(40)); break;
    case 12:
        for (size_t k = 0; k < sizeof outcomes; ++k)
            outcomes[k] = below(3) == 0;
        CALL(NIGHT, image, node, below(6), POINTER(outcomes), sizeof outcomes, POINTER(events), sizeof events);
        break;
    default: CALL(WORK, image, node, 1 + below(4), number, below(5) == 0, below(4) == 0 ? 1 + below(2) : 0); break;
    }
}

static void sessions(uint64_t count) {
    for (uint64_t k = 0; k < count; ++k) {
        begin(k % 2);
        state = "a random session";
        const uint64_t most = k % 16 == 0 ? KEPT : 2 + k % 6;
        for (int step = 0; step < 500; ++step)
            random_call(most);
        if (k % 8 == 0 && record(image, MAKOWIST_LOG_LENGTH) - record(image, MAKOWIST_LAST_FOLD) < 6)
            every_call(image, "the end of a random session");
    }
}

/* ---- Images that no session reaches. */

static void put(size_t at, size_t width, uint64_t number) {
    for (size_t k = 0; k < width; ++k)
        image[at + k] = (uint8_t)(number >> 8 * k);
}

/* An entry's bytes, and where the counters are: docs/IMAGE.md. */
enum { ENTRY = 42, HIGHEST_AT = 5376, COMMITTED_ORDINAL_AT = 5386, MASTER_TERM_AT = 5662, TARGET_ID_AT = 5670, NODES_AT = 5676, FOLD_AT = 5716 };
_Static_assert(FOLD_AT + 2 + 2 * MAKOWIST_PATHS == LENGTH, "the layout has moved: docs/IMAGE.md");

static void at_limits(void) {
    begin(MAKOWIST_FORGETS);
    put(COMMITTED_ORDINAL_AT, 4, MAKOWIST_ORDINAL_LIMIT);
    append(1, 0);
    job(1, 1, 1);
    every_call(image, "an ordinal at its limit (no session)");
    begin(MAKOWIST_FORGETS);
    put(HIGHEST_AT, 2, MAKOWIST_NUMBER_LIMIT);
    put(FOLD_AT, 2, MAKOWIST_NUMBER_LIMIT);
    every_call(image, "the last number given (no session)");
    accepted(makowist_fresh(image, LENGTH, 0), "fresh");
    put(TARGET_ID_AT, 4, UINT32_MAX);
    every_call(image, "the target's id at its limit (no session)");
    put(TARGET_ID_AT, 4, 0);
    accepted(makowist_start(image, LENGTH), "start");
    for (size_t node = 0; node < MAKOWIST_NODES; ++node)
        put(NODES_AT + 5 * node, 4, UINT32_MAX);
    every_call(image, "the nodes' ids at their limit (no session)");
    put(NODES_AT, 4, 0);
    accepted(makowist_connect(image, LENGTH, 1), "connect");
    put(MASTER_TERM_AT, 4, UINT32_MAX);
    every_call(image, "the term at its limit (no session)");
}

/* An entry's four statuses in one number, another of its bytes as far as the ordinals, or one of the heads. */
static void hit(void) {
    const size_t entry = ENTRY * below(3);
    switch (below(4)) {
    case 0: put(entry, 2, below(2401)); break;
    case 1: put(entry + 2 + below(12), 1, below(7)); break;
    default: put(HIGHEST_AT + 2 + below(12), 1, below(7));
    }
}

/* They are written over at random in logs of up to three, where the image stays well-formed. */
static void damaged(uint64_t count) {
    for (uint64_t k = 0; k < count; ++k) {
        begin(k % 2);
        for (uint64_t number = 1; number <= 1 + k % 3; ++number)
            append(number, k % 2);
        for (int step = 0; step < 6; ++step)
            CALL(WORK, image, 1, 1 + below(4), 1 + below(3), 0, 0);
        for (uint64_t hits = 0; hits <= 2 + k % 8; ++hits)
            hit();
        if (makowist_well_formed(image, LENGTH) == MAKOWIST_ACCEPTED)
            every_call(image, "a damaged log (no session)");
    }
}

/* ---- The meter itself, and a peer. */

static uint64_t nothing(void) { return 0; }

/* Takes a thousand bytes of the stack and touches the lowest. */
static uint64_t a_thousand(void) {
    volatile uint8_t bytes[1000];
    bytes[0] = 1;
    return bytes[0];
}

/* The peer: the pairs laid over values as the order found it, on a table that is copied in and handed back. */
struct values {
    uint16_t of[MAKOWIST_PATHS];
};

#define APART __attribute__((noipa))

APART static struct values values_at(const uint8_t *table) {
    struct values v;
    for (size_t p = 0; p < MAKOWIST_PATHS; ++p)
        v.of[p] = (uint16_t)(table[2 * p] | table[2 * p + 1] << 8);
    return v;
}

APART static struct values overlaid(struct values v, const uint8_t *pairs, size_t count) {
    for (size_t k = 0; k < count; ++k)
        v.of[pairs[4 * k] % MAKOWIST_PATHS] = (uint16_t)(pairs[4 * k + 2] | pairs[4 * k + 3] << 8);
    return v;
}

APART static void put_values(uint8_t *table, const struct values *v) {
    for (size_t p = 0; p < MAKOWIST_PATHS; ++p) {
        table[2 * p] = (uint8_t)(v->of[p] & 0xff);
        table[2 * p + 1] = (uint8_t)(v->of[p] >> 8);
    }
}

APART static uint64_t copying(uint8_t *table, const uint8_t *pairs, size_t count) {
    struct values before = values_at(table), after = overlaid(before, pairs, count);
    put_values(table, &after);
    return after.of[0];
}

/* The same as a row of single stores into the table. */
APART static uint64_t storing(uint8_t *table, const uint8_t *pairs, size_t count) {
    for (size_t k = 0; k < count; ++k) {
        uint8_t *at = table + 2 * (pairs[4 * k] % MAKOWIST_PATHS);
        at[0] = pairs[4 * k + 2];
        at[1] = pairs[4 * k + 3];
    }
    return table[0];
}

static size_t taken(function *called, const uint64_t *n) {
    size_t bytes;
    measured(called, n, 0, &bytes);
    return bytes;
}

static void the_meter(void) {
    const uint64_t none[MOST_NUMBERS] = {0};
    size_t empty = taken((function *)nothing, none), thousand = taken((function *)a_thousand, none);
    if (empty != 8)
        fail("an empty function takes its return address alone", "bytes", empty);
    if (thousand < 1000 || thousand > 1040)
        fail("a thousand bytes and what their frame needs", "bytes", thousand);
}

static void the_peer(size_t *copied, size_t *stored) {
    uint8_t table[2][2 * MAKOWIST_PATHS], pairs[4 * MAKOWIST_PAIR_LENGTH];
    for (size_t k = 0; k < sizeof table[0]; ++k)
        table[0][k] = table[1][k] = (uint8_t)k;
    for (size_t k = 0; k < 4; ++k)
        makowist_put_pair(pairs + MAKOWIST_PAIR_LENGTH * k, 9 * k, 500 + k);
    *copied = taken((function *)copying, (const uint64_t[MOST_NUMBERS]){POINTER(table[0]), POINTER(pairs), 4});
    *stored = taken((function *)storing, (const uint64_t[MOST_NUMBERS]){POINTER(table[1]), POINTER(pairs), 4});
    if (memcmp(table[0], table[1], sizeof table[0]) != 0)
        fail("the peers differ", "table", 0);
}

/* ---- What must have been met. */

#define STATUS(name) BIT(MAKOWIST_STATUS_##name)

/* What the events of an accepted job show, None where it gives none: it opens (InProgress), and ends. */
static const uint32_t job_ends[5] = {
    0,
    STATUS(NONE) | STATUS(IN_PROGRESS) | STATUS(COMPLETE) | STATUS(FAILED),
    STATUS(NONE) | STATUS(IN_PROGRESS) | STATUS(COMPLETE) | STATUS(ABORTED) | STATUS(FAILED),
    STATUS(NONE) | STATUS(IN_PROGRESS) | STATUS(COMPLETE),
    STATUS(NONE) | STATUS(IN_PROGRESS) | STATUS(COMPLETE) | STATUS(CANCELED),
};

static void all_met(void) {
    for (enum name which = 0; which < NAMES; ++which)
        if (rows[which].met != rows[which].answers)
            fail("answers met, a bit each", rows[which].name, rows[which].met);
    for (size_t which = 1; which <= 4; ++which)
        for (size_t cut = 0; cut <= 2; ++cut) {
            /* a push that is cut at its first store gives no event */
            uint32_t unseen = cut == 1 && which % 2 == 0 ? STATUS(COMPLETE) : 0;
            if (ends[which][cut] != (job_ends[which] & ~unseen))
                fail("events met, a bit for each status", "makowist_work", ends[which][cut]);
        }
    if (reasons != 0x1fe)
        fail("reasons 1 to 8 met, a bit each", "makowist_why", reasons);
    if (stops != 7)
        fail("stops 0 to 2 met, a bit each", "makowist_night", stops);
}

int main(int count, char **arguments) {
    const uint64_t runs = count > 1 ? strtoull(arguments[1], NULL, 10) : 300;
    size_t copied, stored;
    random_state = (count > 2 ? strtoull(arguments[2], NULL, 10) : 1) * 2 + 1;
    make_stack();
    the_meter();
    begin(MAKOWIST_FORGETS);
    no_image(image);
    short_logs();
    lost_line();
    full(0, "128 waiting", "128 live, each on all before it", "128 applied, each on all before it", "128 to be undone");
    full(1, "128 waiting, on other paths", "128 live", "128 applied", "128 to be undone, on other paths");
    ring();
    hops();
    old_lists();
    at_limits();
    damaged(3000);
    sessions(runs);
    all_met();
    the_peer(&copied, &stored);
    for (enum name which = 0; which < NAMES; ++which)
        printf("%s\t%zu\t%s\n", rows[which].name, rows[which].deepest, rows[which].where);
    printf("hop\t%zu\tone number more in the live list\n", hop_walk);
    printf("hop_refused\t%zu\tthe same where the room is too short\n", hop_refused);
    printf("peer, copying\t%zu\tin C, an overlay that copies all 32 values in and back\n", copied);
    printf("peer, storing\t%zu\tin C, an overlay that is a row of stores\n", stored);
    fprintf(stderr, "host: %lu calls on a painted stack\n", calls);
    return 0;
}

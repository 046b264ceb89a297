/* makowist.h: the change controller's C interface (C99, usable from C++; link with libnorthbound.a, x86-64).
 *
 * The whole state of a controller is one image: MAKOWIST_IMAGE_LENGTH bytes that the caller owns. What they mean is in
 * docs/IMAGE.md; they may be copied, kept in a file, hashed and sent, and are the same on every machine.
 *
 *     uint8_t image[MAKOWIST_IMAGE_LENGTH];
 *     makowist_fresh(image, sizeof image, MAKOWIST_FORGETS);
 *     uint64_t reply = makowist_start(image, sizeof image);
 *     if (makowist_reply_answer(reply) != MAKOWIST_ACCEPTED) ...
 *
 * Memory. All of it is the caller's and is lent for the length of a call: nothing is allocated, no pointer is kept, and
 * there is no state but the image. Every pointer goes with its length in bytes and points to so many; where that is 0 it may
 * be NULL. The slices lent to one call do not overlap, and none needs an alignment.
 *
 * Calls at the same time. Calls on one image are not to run at the same time: who lends it to a call that changes it
 * lends it to nobody else meanwhile. Reads (const images) may run beside reads. Calls on different images are free.
 *
 * Refusals. No call has a precondition beyond the lent memory: whatever the numbers and the bytes, it is accepted or
 * refused. A number is taken in all its 64 bits: one that is too great is refused, and never cut to a smaller one (node, job,
 * outcome, cut, budget, table, path, field, remembers and log as MAKOWIST_OUT_OF_RANGE, a transaction's number as
 * MAKOWIST_NO_SUCH_NUMBER). A refused call answers the number of the refusal, gives no event, and leaves every byte as it was. Where
 * several refusals hold, the answer is the first in the order named at the function. */

/* Driving it. (The rules are in docs/RULES.md, what to do about an answer in docs/DESK.md.)
 *
 * The host keeps the image, and speaks with the switch and with whoever validates changes; the controller speaks with
 * nobody. start, stop, connect and disconnect report what has happened. work and sync report what the switch has taken,
 * so what they report comes first and the call after it.
 *
 * What a step would do. There is no state but the image, so a copy of it answers as the image would: memcpy it, and make
 * the call on the copy, with MAKOWIST_OUTCOME_ACCEPTED and cut 0. The copy's reply says what the step is:
 *
 *     refused                               do nothing and ask nobody; the answer says why
 *     phase Change, stage Commit, Complete  job 1 commits: have the pairs validated; the verdict is the outcome
 *     stage Apply, Complete                 jobs 2 and 4 push: have the switch take the values; its answer is the outcome
 *     anything else                         the outcome is not looked at; ask nobody
 *
 * Then make the call on the image with the outcome, and with nothing else called on it in between. Job 3 never looks at
 * the outcome. cut is 0, unless the host plays a node that is lost between two stores, or shows a push that has landed.
 *
 * Which call is a push, and with which values. Job 2, where c.commit is Complete, c.apply InProgress, r.commit not
 * Complete, c.ordinal one above MAKOWIST_APPLIED_ORDINAL, and the line open for the node: the change's pairs, path
 * MAKOWIST_TRANSACTION_PATH + k and value MAKOWIST_TRANSACTION_VALUE + k, for k below MAKOWIST_TRANSACTION_PAIRS. Job 4,
 * where r.commit is Complete, r.apply InProgress, r.ordinal one above MAKOWIST_APPLIED_ORDINAL, and the line open: the
 * same paths with MAKOWIST_TRANSACTION_R_VALUE + k. Value 0 deletes the path. No other work call is one.
 *
 * What the outcome means. Job 1: 0 valid, 1 invalid, and the change ends Failed and is never applied. Job 2: 0 the switch
 * has taken the pairs, 1 it has not, and the change ends Failed; changes committed on top of it are Aborted in their turn,
 * and what comes after these is applied once they and it are rolled back. Job 4: 0 the switch has taken the values, 1 it
 * has not, which is refused (MAKOWIST_PUSH_REJECTED): the rollback stays InProgress, to be tried again. Where the switch
 * has not answered there is no outcome and no call: ask it again. To take the same values twice is to take them once.
 *
 * sync. Try it on a copy too. Accepted where MAKOWIST_CONFIGURATION_STATE is not InProgress, it begins, and asks nothing of
 * the switch. Accepted where it is, have the switch first take the applied value (MAKOWIST_TABLE_APPLIED; 0 is absent) of each
 * path whose target value (MAKOWIST_TABLE_TARGET) is another, then call; the reply's number says of how many, on the copy too. It
 * has no outcome: where the switch does not take them, do not call. The image knows of the switch what the calls have told it.
 * Where the switch may have something else, as one that had values before makowist_fresh or makowist_import, or one on which a push
 * may have landed that the image does not show, have it take all MAKOWIST_PATHS applied values: to take the same values twice is
 * to take them once.
 *
 * Of what kind the switch is. One that loses its values with its power is MAKOWIST_FORGETS in makowist_fresh, one that keeps them
 * MAKOWIST_REMEMBERS. stop reports for both that it is without power; start and sync are called for both alike behind it. For one
 * that remembers there is then little to write, or nothing: what a push that was cut has left on it. A switch said to remember that
 * does not comes back empty, and the sync writes nothing to it. One said to forget that remembers, as every imported one is said to,
 * keeps what it has at paths that are absent among the applied values: with the sync behind a stop have it take all MAKOWIST_PATHS
 * of them. Where a switch that forgets may have been without power, report stop and not disconnect alone, or the sync writes nothing
 * to an empty switch; where nobody knows, stop, and all applied values.
 *
 * A night. makowist_night makes work calls by itself, with outcomes lent in advance; its events say what was validated and
 * pushed, and on a copy what would be. Lend room for all of them, MAKOWIST_EVENT_LENGTH bytes for each job of the budget.
 * So try it on a copy: each event of stage Apply with status Complete is a push, to be taken by the switch in that order. Where it
 * rejects a change, lend 1 at that change's place; where it rejects a rollback, whose push a night counts as accepted, lend a budget
 * that ends before that job. Then call it on the image.
 * Where many jobs wait, make slices of it (examples/server.c): a small budget, then image and events kept, and again while
 * it stops with MAKOWIST_STOPPED_BUDGET_SPENT. Slices with nothing else called between them do, show and leave what one
 * night of all their jobs does, with the same table: its places are those of the kept transactions, and a night folds none.
 * A push is best a slice by itself, the switch having taken it first: then what may have landed is a step from the kept image.
 * With the line open, 6 jobs for each kept transaction are enough in an image that began with makowist_fresh (the theorem
 * is night_enough).
 *
 * An import. A carrier whose switch was run by the earlier product begins with makowist_import in place of makowist_fresh: lend
 * the old list, MAKOWIST_ENTRY_LENGTH bytes an entry, oldest first (makowist_put_change and makowist_put_rollback write them;
 * examples/import-csv makes them of a CSV file, and docs/IMPORT.md says how an old list maps). It is not for an image that has
 * begun: what the bytes held before is gone. Accepted, the image is that which makowist_start, makowist_connect and
 * makowist_master for node 1 leave, and then the list's calls, all commits finished and nothing applied. It shows no event; whoever
 * keeps a record keeps the list, which stands for those calls and their events. It says that the switch runs and that node 1 is
 * connected and master: make that so before the call, or report behind it what is not (disconnect, stop). Then sync twice, and
 * let the jobs, or a night, bring to the switch what is committed; what was undone in the list is Aborted and Canceled on the
 * way, and never pushed. The switch's values of old are not asked for, and the image says that it has none: with the first sync
 * that writes have it take all applied values, which are all absent. Its target is one that forgets. What this file says of an image
 * that began with makowist_fresh holds of one that began so.
 * Refused, no byte was written, and makowist_reply_position says which entry is bad, from 1 on: mend that one in the list, and
 * import it anew; the entries behind it have not been judged. docs/IMPORT.md has what to do about each refusal.
 *
 * A handover sheet. makowist_tally makes one of up to MAKOWIST_LOGS images, each a log of its own: clear
 * MAKOWIST_TOTALS_LENGTH bytes for the totals, and call it for the first image with log 1, for the next with log 2, and so
 * on, with the same totals. A log that is refused adds nothing, and the next one has the next place all the same. Together
 * the totals are the kept transactions of the logs that were not refused (the theorem is reported).
 *
 * After a crash. Keep an image whole before its answer is used: a call writes into the lent bytes where they lie, so keep
 * the old ones until the new ones are safe (examples/server.c). Lend the last image kept and go on as above: the try on a
 * copy shows what is left of a step that was cut, and a push that the image does not show is a push again. What was lost
 * is reported, disconnect or stop; then start, connect, master (twice where the master has a new connection), sync.
 *
 * A push that may have landed. An accepted push is three stores: the target's values, then Applied with the event, then the
 * status. What the first of them records is on the switch before the call, so that a host can be lost with the values on the
 * switch and an image that shows nothing: the status is InProgress, and a try on a copy pushes. Either of two ways makes it good.
 * While the line is open, the same job again with outcome 0 and cut 0, driven as any push: the switch takes the same values once
 * more, and then the image shows them, with the event, given once. Or, the line lost, sync, and have the switch take all applied
 * values, in which the push is not; then the job pushes anew. If the switch, asked again, rejects what it may have, take the second way
 * first. And take one of them before its rollback is committed (job 3, also in a night): a push that has landed and then ends
 * Failed, rejected or overtaken by its rollback, stays on the switch until its rollback is pushed or it is given
 * all applied values with a sync.
 *
 * MAKOWIST_TABLE_TARGET meanwhile is what the switch held before; the switch may be ahead of it by that one push (by every push of
 * a night's slice that was not kept: make each push a slice). A host that can read its switch, and finds the values there, brings
 * the table to it by the same job, outcome 0, the line open by the image, with MAKOWIST_CUT_AFTER_FIRST: the first store alone,
 * accepted with no event (examples/server.c does so at its start). The job called again, as above, gives the
 * event. With the line open the table has the applied values; or, after such a cut, those overlaid with the pairs or the
 * rollback's values of one transaction that has begun to apply and whose rollback is not through its apply, until that one is
 * pushed again and not so cut, or a sync writes.
 *
 * Calling a job again. A job that was cut with its last store, and no other, left out, and is called again by the same node, leaves every byte
 * as the uncut job would have left it, and the two calls give its event once: the first gives it, the second is accepted and
 * gives none. It is so from every well-formed image, with outcome 0 or 1 and cut 0, 1 or 2 the second time: what was rejected
 * stays so, and nothing is pushed twice. Of a push that was cut after the first of its three stores it is so with the line still
 * open, the same outcome and cut 0: there the first call is accepted and gives none, the second pushes the same values and gives
 * the event. Other nodes may connect and disconnect between the two, and then their connections are all that differs. (The
 * theorems are retry_harmless and, of every byte, retry_then and retry_at_once.)
 *
 * Not promised: anything once the node is not master any more (MAKOWIST_NOT_MASTER), or after other calls between the two; nor
 * that a job which was not cut may be called twice, and a host that keeps its images as above leaves none cut but by a cut that
 * it asked for, and one push that may have landed. Where the first call went through whole, the second is the job's next step,
 * with an event and an outcome of its own or the refusals of a step, MAKOWIST_NO_RULE among them where the job is finished. Who
 * has no answer to the first call tries the second on a copy, with cut 0. In an image that began with makowist_fresh (by the
 * rules; this is no part of the theorems): accepted without an event, it is the last store of a job that was cut, and asks
 * nobody; with an event it is a step like any other, a push that has landed among them, driven as above.
 *
 * To build and link, on x86-64 (elsewhere with a cross compiler, x86_64-linux-gnu-gcc):
 *
 *     host/archive
 *     cc -std=c99 -Iinclude -c host.c
 *     cc -static -o host host.o target/staticlib/libnorthbound.a
 */
#ifndef MAKOWIST_H
#define MAKOWIST_H

#include <stddef.h>
#include <stdint.h>

#ifdef __cplusplus
extern "C" {
#endif

/* An image's length in bytes. Bytes of any other length are no image (MAKOWIST_NOT_WELL_FORMED). */
#define MAKOWIST_IMAGE_LENGTH 5782

/* Limits of the state. */
enum {
    MAKOWIST_LOG_LIMIT = 128,     /* transactions kept, numbered from 1 to MAKOWIST_NUMBER_LIMIT */
    MAKOWIST_NUMBER_LIMIT = 65535,
    MAKOWIST_NODES = 8,           /* nodes, numbered from 1; 0 means none */
    MAKOWIST_PATHS = 32,          /* paths, from 0 */
    MAKOWIST_PAIR_LIMIT = 4,      /* pairs of a change */
    MAKOWIST_PAIR_LENGTH = 4,     /* bytes of a lent pair */
    MAKOWIST_ORDINAL_LIMIT = 131070, /* the greatest ordinal; 0 means none */
    MAKOWIST_BUDGET_LIMIT = 4096, /* jobs of a night */
    MAKOWIST_OUTCOMES = 256,      /* bytes of a night's table */
    MAKOWIST_EVENT_LENGTH = 16,   /* bytes of a night's event */
    MAKOWIST_ENTRY_LENGTH = 20,   /* bytes of an entry of an old list */
    MAKOWIST_ENTRY_LIMIT = 256,   /* entries of an old list */
    MAKOWIST_LOGS = 64,           /* logs of a handover sheet, from 1 */
    MAKOWIST_TOTALS_LENGTH = 12   /* bytes of its totals */
};

/* What a call answers: accepted, or why it was refused. */
enum {
    MAKOWIST_ACCEPTED = 0,
    MAKOWIST_NOT_WELL_FORMED = 1,   /* the lent bytes are no well-formed image */
    MAKOWIST_OUT_OF_RANGE = 2,      /* node, job, outcome, cut, budget, table, path, field, a fresh switch's kind, a list's
                                       length, a log's place or the totals lent with it */
    MAKOWIST_NOT_A_CHANGE = 3,      /* the pairs, of an append or of an old list's entry, are no valid change */
    MAKOWIST_LOG_FULL = 4,          /* append where 128 are kept; import: the 129th change */
    MAKOWIST_NO_SUCH_NUMBER = 5,    /* number 0 or past the log's end; to fold, one that is not kept */
    MAKOWIST_NO_ROLLBACK = 6,       /* phase is not Change, or c.commit is not Complete */
    MAKOWIST_ALREADY_SO = 7,        /* target or connection already so */
    MAKOWIST_TARGET_STOPPED = 8,    /* connect while the target is stopped */
    MAKOWIST_COUNTER_AT_LIMIT = 9,  /* a number, ordinal, id or term would pass its limit */
    MAKOWIST_NOT_MASTER = 10,       /* the node is not master */
    MAKOWIST_NO_RULE = 11,          /* no rule holds */
    MAKOWIST_LINE_NOT_OPEN = 12,    /* the rule needs an open line */
    MAKOWIST_PUSH_REJECTED = 13,    /* the target rejects a rollback push */
    MAKOWIST_NO_ROOM = 14,          /* the live list is longer than the room lent */
    MAKOWIST_NOT_WAITING = 15,      /* why, of a job that would not be refused with MAKOWIST_NO_RULE */
    MAKOWIST_NOT_THE_NEWEST = 16,   /* import: a rollback of anything but the newest live change, or an entry of neither kind */
    MAKOWIST_NOT_FINISHED = 17,     /* something is left to do of what is to be folded, or is under way */
    MAKOWIST_FOLDED = 18            /* the number is folded */
};

/* Statuses. Done is Complete, Aborted, Canceled or Failed. A configuration's state is Pending, InProgress or Complete. */
enum {
    MAKOWIST_STATUS_NONE = 0,
    MAKOWIST_STATUS_PENDING = 1,
    MAKOWIST_STATUS_IN_PROGRESS = 2,
    MAKOWIST_STATUS_COMPLETE = 3,
    MAKOWIST_STATUS_ABORTED = 4,
    MAKOWIST_STATUS_CANCELED = 5,
    MAKOWIST_STATUS_FAILED = 6
};

/* A transaction's phase and an event's phase; an event's stage. */
enum { MAKOWIST_PHASE_CHANGE = 1, MAKOWIST_PHASE_ROLLBACK = 2 };
enum { MAKOWIST_STAGE_COMMIT = 1, MAKOWIST_STAGE_APPLY = 2 };

/* The four jobs, and what the validation or the target said to one. */
enum {
    MAKOWIST_JOB_COMMIT_CHANGE = 1,
    MAKOWIST_JOB_APPLY_CHANGE = 2,
    MAKOWIST_JOB_COMMIT_ROLLBACK = 3,
    MAKOWIST_JOB_APPLY_ROLLBACK = 4
};
enum { MAKOWIST_OUTCOME_ACCEPTED = 0, MAKOWIST_OUTCOME_REJECTED = 1 };

/* After which of its stores a step of a job is cut; it is whole where it has none behind that. */
enum { MAKOWIST_CUT_NONE = 0, MAKOWIST_CUT_AFTER_FIRST = 1, MAKOWIST_CUT_AFTER_SECOND = 2 };

/* Why a job does not move a number: what makowist_why answers. In brackets what goes with it. */
enum {
    MAKOWIST_REASON_FINISHED = 1,          /* the job has nothing left to do */
    MAKOWIST_REASON_NO_ROLLBACK_ASKED = 2,
    MAKOWIST_REASON_EARLIER_CHANGE = 3,    /* an earlier change is not through its commit (its number) */
    MAKOWIST_REASON_COMMIT_IN_FLIGHT = 4,  /* another commit is under way (its number) */
    MAKOWIST_REASON_CHANGE_ON_TOP = 5,     /* a later live change lies on top (its number) */
    MAKOWIST_REASON_NOT_COMMITTED = 6,     /* the commit that is to be applied is not Complete */
    MAKOWIST_REASON_EARLIER_ORDINAL = 7,   /* an earlier ordinal is not settled (that ordinal) */
    MAKOWIST_REASON_NONE_FITS = 8          /* in no image that began with makowist_fresh */
};

/* Why a night stopped. */
enum {
    MAKOWIST_STOPPED_NO_JOB = 0,      /* every job is refused, and none with MAKOWIST_LINE_NOT_OPEN */
    MAKOWIST_STOPPED_NO_LINE = 1,     /* every job is refused, some with MAKOWIST_LINE_NOT_OPEN */
    MAKOWIST_STOPPED_BUDGET_SPENT = 2 /* a job could still go */
};

/* The class of a transaction: by the first of these that fits, from the last to the first. */
enum {
    MAKOWIST_CLASS_OPEN = 1,    /* none of the others */
    MAKOWIST_CLASS_STOPPED = 2, /* c.apply is Aborted or Failed */
    MAKOWIST_CLASS_INVALID = 3, /* c.commit is Failed */
    MAKOWIST_CLASS_TAKEN = 4,   /* c.apply is Complete */
    MAKOWIST_CLASS_UNDOING = 5, /* r.commit is not None */
    MAKOWIST_CLASS_UNDONE = 6   /* r.apply is Complete or Canceled */
};

/* The parts of an event that makowist_night wrote. */
enum { MAKOWIST_EVENT_PHASE = 0, MAKOWIST_EVENT_STAGE = 1, MAKOWIST_EVENT_NUMBER = 2, MAKOWIST_EVENT_STATUS = 3 };

/* The kinds of entries of an old list. */
enum { MAKOWIST_ENTRY_CHANGE = 1, MAKOWIST_ENTRY_ROLLBACK = 2 };

/* ---- Names, for printing; "?" for a number that is none. */

static inline const char *makowist_answer_name(uint64_t answer) {
    static const char *const names[] = {
        "accepted",          "not well-formed", "out of range",     "not a change",       "log full",
        "no such number",    "no rollback",     "already so",       "target stopped",     "counter at limit",
        "not master",        "no rule",         "line not open",    "push rejected",      "no room",
        "not waiting",       "not the newest",  "not finished",     "folded"};
    return answer < sizeof names / sizeof *names ? names[answer] : "?";
}

static inline const char *makowist_status_name(uint64_t status) {
    static const char *const names[] = {"None", "Pending", "InProgress", "Complete", "Aborted", "Canceled", "Failed"};
    return status < sizeof names / sizeof *names ? names[status] : "?";
}

static inline const char *makowist_reason_name(uint64_t reason) {
    static const char *const names[] = {
        "?",             "finished",      "no rollback asked", "earlier change", "commit in flight",
        "change on top", "not committed", "earlier ordinal",   "none fits"};
    return reason < sizeof names / sizeof *names ? names[reason] : "?";
}

static inline const char *makowist_stopped_name(uint64_t stopped) {
    static const char *const names[] = {"no job", "no line", "budget spent"};
    return stopped < sizeof names / sizeof *names ? names[stopped] : "?";
}

static inline const char *makowist_class_name(uint64_t kind) {
    static const char *const names[] = {"?", "open", "stopped", "invalid", "taken", "undoing", "undone"};
    return kind < sizeof names / sizeof *names ? names[kind] : "?";
}

/* ---- The reply of a call: answer + 2^8 phase + 2^16 stage + 2^24 status + 2^32 number.
 *
 * Phase, stage, status and number are those of the call's event, and 0 where it gives none; only an accepted job gives
 * one. An accepted append gives its entry's number as number, an accepted makowist_sync how many paths it wrote. */

static inline unsigned makowist_reply_answer(uint64_t reply) { return (unsigned)(reply & 0xff); }
static inline unsigned makowist_reply_phase(uint64_t reply) { return (unsigned)(reply >> 8 & 0xff); }
static inline unsigned makowist_reply_stage(uint64_t reply) { return (unsigned)(reply >> 16 & 0xff); }
static inline unsigned makowist_reply_status(uint64_t reply) { return (unsigned)(reply >> 24 & 0xff); }
static inline uint16_t makowist_reply_number(uint64_t reply) { return (uint16_t)(reply >> 32 & 0xffff); }

/* The reply of a read: answer + 2^32 value; the value is 0 where the read is refused. */
static inline uint32_t makowist_reply_value(uint64_t reply) { return (uint32_t)(reply >> 32); }

/* The reply of makowist_why: answer + 2^8 reason + 2^32 named; both are 0 where it is refused. */
static inline unsigned makowist_reply_reason(uint64_t reply) { return (unsigned)(reply >> 8 & 0xff); }
static inline uint32_t makowist_reply_named(uint64_t reply) { return (uint32_t)(reply >> 32); }

/* The reply of makowist_night: answer + 2^8 stopped + 2^16 jobs + 2^32 events: why it stopped, the jobs done, and how many events are
 * in the room; all 0 where it is refused. */
static inline unsigned makowist_reply_stopped(uint64_t reply) { return (unsigned)(reply >> 8 & 0xff); }
static inline unsigned makowist_reply_jobs(uint64_t reply) { return (unsigned)(reply >> 16 & 0xffff); }
static inline uint32_t makowist_reply_events(uint64_t reply) { return (uint32_t)(reply >> 32); }

/* The reply of makowist_import: answer + 2^32 position: that of the first bad entry, from 1 on; 0 where it is accepted, or where it
 * is refused for no entry. */
static inline uint16_t makowist_reply_position(uint64_t reply) { return (uint16_t)(reply >> 32 & 0xffff); }

/* The reply of makowist_tally: answer + 2^8 open + 2^16 stopped + 2^24 invalid + 2^32 taken + 2^40 undoing + 2^48 undone
 * + 2^56 drift: of each class (MAKOWIST_CLASS_..) how many are kept, and how many paths differ; all 0 where it is refused. */
static inline unsigned makowist_reply_count(uint64_t reply, unsigned kind) {
    return kind < 1 || kind > 6 ? 0 : (unsigned)(reply >> 8 * kind & 0xff);
}
static inline unsigned makowist_reply_drift(uint64_t reply) { return (unsigned)(reply >> 56); }

/* ---- Calls that change an image. All but makowist_fresh and makowist_import refuse MAKOWIST_NOT_WELL_FORMED first; these two
 * for the length alone. */

/* Makes the bytes, whatever they hold, a fresh image: empty log, no master, configuration Pending, all else 0. remembers says of
 * what kind the target is, for good: MAKOWIST_FORGETS its values when it is stopped, or MAKOWIST_REMEMBERS them.
 * Refuses MAKOWIST_NOT_WELL_FORMED, for the length alone; then MAKOWIST_OUT_OF_RANGE. */
enum { MAKOWIST_FORGETS = 0, MAKOWIST_REMEMBERS = 1 };
uint64_t makowist_fresh(uint8_t *image, size_t length, uint64_t remembers);

/* Takes a change of 1 to 4 pairs, paths strictly rising, into the log; its number is in the reply. A pair is four
 * bytes: path, then value, 16-bit little-endian (makowist_put_pair writes one); pairs_length is in bytes. Value 0 deletes.
 * Refuses MAKOWIST_NOT_A_CHANGE (also a pairs_length that is no multiple of 4), MAKOWIST_LOG_FULL,
 * MAKOWIST_COUNTER_AT_LIMIT. */
uint64_t makowist_append(uint8_t *image, size_t length, const uint8_t *pairs, size_t pairs_length);

/* Writes one pair, MAKOWIST_PAIR_LENGTH bytes, as makowist_append takes it. A path or a value that has no 16 bits makes it a
 * pair of path 65,535, which no change has. */
static inline void makowist_put_pair(uint8_t *pair, uint64_t path, uint64_t value) {
    uint64_t kept = path > 65535 || value > 65535 ? 65535 : path;
    pair[0] = (uint8_t)(kept & 0xff);
    pair[1] = (uint8_t)(kept >> 8 & 0xff);
    pair[2] = (uint8_t)(value & 0xff);
    pair[3] = (uint8_t)(value >> 8 & 0xff);
}

/* Asks for the rollback of a committed change. Refuses MAKOWIST_NO_SUCH_NUMBER, MAKOWIST_FOLDED, MAKOWIST_NO_ROLLBACK. */
uint64_t makowist_rollback(uint8_t *image, size_t length, uint64_t number);

/* The target runs from now on, under its next id. Refuses MAKOWIST_ALREADY_SO, MAKOWIST_COUNTER_AT_LIMIT. */
uint64_t makowist_start(uint8_t *image, size_t length);

/* The target is stopped: every node is disconnected, and its values become 0 unless it remembers. Refuses MAKOWIST_ALREADY_SO. */
uint64_t makowist_stop(uint8_t *image, size_t length);

/* The node is connected, under its next id. Refuses MAKOWIST_OUT_OF_RANGE, MAKOWIST_ALREADY_SO, MAKOWIST_TARGET_STOPPED,
 * MAKOWIST_COUNTER_AT_LIMIT. */
uint64_t makowist_connect(uint8_t *image, size_t length, uint64_t node);

/* The node is not connected any more. Refuses MAKOWIST_OUT_OF_RANGE, MAKOWIST_ALREADY_SO. */
uint64_t makowist_disconnect(uint8_t *image, size_t length, uint64_t node);

/* Where there is no master and the node is connected, it becomes master in the next term; where it is master and not
 * connected, or connected again under another id than conn, there is no master any more, and a second call makes it master
 * anew. Refuses MAKOWIST_OUT_OF_RANGE, MAKOWIST_NO_RULE, MAKOWIST_COUNTER_AT_LIMIT; a master that is connected under the id
 * that conn has is MAKOWIST_NO_RULE. */
uint64_t makowist_master(uint8_t *image, size_t length, uint64_t node);

/* Brings the applied values to the target in a new term, in two calls: the first begins, the second is answered after
 * the target has taken them. Of either kind of target only the paths that differ are written; how many is the reply's number, 0
 * where it begins. Refuses MAKOWIST_OUT_OF_RANGE, MAKOWIST_NOT_MASTER, MAKOWIST_NO_RULE, MAKOWIST_LINE_NOT_OPEN. */
uint64_t makowist_sync(uint8_t *image, size_t length, uint64_t node);

/* One step of a job on a transaction, by a node; its event is in the reply where the step gives one. A step has one store, or
 * two, or, an accepted push, three. cut says after which of them it ends, as when the node is lost there: 1, the first; 2, the
 * second; 0, or where no store would come behind, it is whole. A push cut after its first store has laid its values over the
 * target's, and gives no event. The same job called again makes it good ("Calling a job again", above).
 * Refuses MAKOWIST_OUT_OF_RANGE, MAKOWIST_NO_SUCH_NUMBER, MAKOWIST_FOLDED, MAKOWIST_NOT_MASTER, MAKOWIST_NO_RULE,
 * MAKOWIST_COUNTER_AT_LIMIT, MAKOWIST_LINE_NOT_OPEN, MAKOWIST_PUSH_REJECTED. */
uint64_t makowist_work(uint8_t *image, size_t length, uint64_t node, uint64_t job, uint64_t number, uint64_t outcome,
                       uint64_t cut);

/* Folds all up to the number away: they are kept no more, and what those of them that are live set stays as the base. Gives
 * no event. Refuses MAKOWIST_NO_SUCH_NUMBER, MAKOWIST_NOT_FINISHED. */
uint64_t makowist_fold(uint8_t *image, size_t length, uint64_t number);

/* Works through the night by itself. Each turn tries the kept transactions from the lowest number upward, jobs 1 to 4 for each, and
 * does the first that is not refused, without cut; so many turns as the budget allows, or until every job is refused. outcomes
 * are MAKOWIST_OUTCOMES bytes, each 0 or 1, two for each kept transaction in log order: what the validation says to its change, and
 * what the switch says to the push of it; the push of a rollback counts as accepted. It leaves what makowist_work would leave, job
 * after job. events is room for what they show, MAKOWIST_EVENT_LENGTH bytes a job in the order in which they are done: phase,
 * stage, number and status, four bytes each, little-endian; zeros for a job that shows none (it finishes one that was cut). As
 * many are written as there is room for, and bytes behind them stay.
 * Refuses MAKOWIST_OUT_OF_RANGE (node, budget, the table's length or an outcome), MAKOWIST_NOT_MASTER. */
uint64_t makowist_night(uint8_t *image, size_t length, uint64_t node, uint64_t budget, const uint8_t *outcomes,
                        size_t outcomes_length, uint8_t *events, size_t events_length);

/* A part (MAKOWIST_EVENT_..) of the k-th event, from 0, that makowist_night wrote. */
static inline uint32_t makowist_night_event(const uint8_t *events, size_t k, unsigned part) {
    const uint8_t *at = events + MAKOWIST_EVENT_LENGTH * k + 4 * part;
    return (uint32_t)at[0] | (uint32_t)at[1] << 8 | (uint32_t)at[2] << 16 | (uint32_t)at[3] << 24;
}

/* Makes the bytes, whatever they hold, the image that an old list leads to, in place of makowist_fresh; its target forgets. entries
 * are MAKOWIST_ENTRY_LENGTH bytes each, at most MAKOWIST_ENTRY_LIMIT of them, oldest first; entries_length is in bytes. An entry is
 * 16-bit numbers, little-endian: its kind, MAKOWIST_ENTRY_CHANGE or MAKOWIST_ENTRY_ROLLBACK; for a change the number of its pairs,
 * for a rollback the position in the list, from 1 on, of the change that it undoes; and four pairs, path and value. Pairs past a
 * change's number, and a rollback's, are not looked at. Changes are taken in order and numbered from 1, rollbacks have no number;
 * a rollback may name the newest change that is not undone, and nothing else.
 * Refuses MAKOWIST_NOT_WELL_FORMED (the image's length), MAKOWIST_OUT_OF_RANGE (entries_length is no multiple of
 * MAKOWIST_ENTRY_LENGTH, or of more entries); then for the first bad entry MAKOWIST_NOT_A_CHANGE (also more than four pairs),
 * MAKOWIST_LOG_FULL (the 129th change), MAKOWIST_NOT_THE_NEWEST, with its position. */
uint64_t makowist_import(uint8_t *image, size_t length, const uint8_t *entries, size_t entries_length);

/* Writes an entry of an old list, MAKOWIST_ENTRY_LENGTH bytes: a change of so many pairs, each of them as makowist_put_pair wrote it.
 * More than four make it an entry of none, which is refused. */
static inline void makowist_put_change(uint8_t *entry, const uint8_t *pairs, size_t count) {
    size_t used = count > MAKOWIST_PAIR_LIMIT ? 0 : count;
    for (size_t k = 0; k < MAKOWIST_ENTRY_LENGTH; ++k)
        entry[k] = (uint8_t)(k >= 4 && k < 4 + MAKOWIST_PAIR_LENGTH * used ? pairs[k - 4] : 0);
    entry[0] = MAKOWIST_ENTRY_CHANGE;
    entry[2] = (uint8_t)used;
}

/* The same, a rollback of the change at that position. One that has no 16 bits makes it a rollback of position 0, which names
 * nothing. */
static inline void makowist_put_rollback(uint8_t *entry, uint64_t position) {
    uint64_t kept = position > 65535 ? 0 : position;
    for (size_t k = 0; k < MAKOWIST_ENTRY_LENGTH; ++k)
        entry[k] = 0;
    entry[0] = MAKOWIST_ENTRY_ROLLBACK;
    entry[2] = (uint8_t)(kept & 0xff);
    entry[3] = (uint8_t)(kept >> 8 & 0xff);
}

/* ---- Reads. They change no byte of the image. All but makowist_tally refuse MAKOWIST_NOT_WELL_FORMED first. */

/* MAKOWIST_ACCEPTED where the bytes are a well-formed image, else MAKOWIST_NOT_WELL_FORMED. */
uint64_t makowist_well_formed(const uint8_t *image, size_t length);

/* Writes the numbers of the changes that make up the committed revision, newest first, two bytes each, little-endian
 * (makowist_listed reads one), and answers how many as value; room past them stays. room_length is in bytes;
 * 2 * MAKOWIST_LOG_LIMIT is always enough. Refuses MAKOWIST_NO_ROOM. */
uint64_t makowist_live(const uint8_t *image, size_t length, uint8_t *room, size_t room_length);

/* The k-th number, from 0, of a list that makowist_live wrote. */
static inline uint16_t makowist_listed(const uint8_t *room, size_t k) {
    return (uint16_t)(room[2 * k] | room[2 * k + 1] << 8);
}

/* A path's value in one of the four tables. Refuses MAKOWIST_OUT_OF_RANGE. */
enum { MAKOWIST_TABLE_COMMITTED = 1, MAKOWIST_TABLE_APPLIED = 2, MAKOWIST_TABLE_TARGET = 3, MAKOWIST_TABLE_BASE = 4 };
uint64_t makowist_value(const uint8_t *image, size_t length, uint64_t table, uint64_t path);

/* Who set a path: of the changes that make up the committed revision (makowist_live) the newest that set it, its number as value; 0
 * where none did, or where that one is folded. A change that deleted the path has set it. The path is the change's from the event
 * Complete of its commit on, and goes back with that of its rollback. In an image that began with makowist_fresh this is what reading
 * the whole list and its pairs gives. Refuses MAKOWIST_OUT_OF_RANGE. */
uint64_t makowist_owner(const uint8_t *image, size_t length, uint64_t path);

/* The paths at which the committed and the applied values differ, as value: bit p is set where path p does. No other
 * refusal. */
uint64_t makowist_drift(const uint8_t *image, size_t length);

/* A field of a transaction. Pair k, from 0, has path, value and r.value at the field named with + k; places past the
 * transaction's pairs carry nothing. Refuses MAKOWIST_OUT_OF_RANGE (the field), MAKOWIST_NO_SUCH_NUMBER,
 * MAKOWIST_FOLDED. */
enum {
    MAKOWIST_TRANSACTION_PHASE = 1,
    MAKOWIST_TRANSACTION_C_COMMIT = 2,
    MAKOWIST_TRANSACTION_C_APPLY = 3,
    MAKOWIST_TRANSACTION_C_ORDINAL = 4,
    MAKOWIST_TRANSACTION_R_COMMIT = 5,
    MAKOWIST_TRANSACTION_R_APPLY = 6,
    MAKOWIST_TRANSACTION_R_ORDINAL = 7,
    MAKOWIST_TRANSACTION_R_INDEX = 8,
    MAKOWIST_TRANSACTION_PAIRS = 9,     /* how many pairs */
    MAKOWIST_TRANSACTION_PATH = 10,     /* to 13 */
    MAKOWIST_TRANSACTION_VALUE = 14,    /* to 17 */
    MAKOWIST_TRANSACTION_R_VALUE = 18   /* to 21 */
};
uint64_t makowist_transaction(const uint8_t *image, size_t length, uint64_t number, uint64_t field);

/* The class of a transaction by its statuses, as a handover sheet counts it (MAKOWIST_CLASS_..). Refuses MAKOWIST_NO_SUCH_NUMBER,
 * MAKOWIST_FOLDED. */
uint64_t makowist_class(const uint8_t *image, size_t length, uint64_t number);

/* Whether the switch took a change: 1 from the event Complete of its apply on, and for good; 0 before, and where there is none.
 * The event comes with the push, the status behind it: cut there, a change that was taken is still MAKOWIST_CLASS_OPEN, until the
 * job is called again (or MAKOWIST_CLASS_UNDOING, its rollback asked for). One that is MAKOWIST_CLASS_TAKEN was taken; one that is
 * MAKOWIST_CLASS_STOPPED or MAKOWIST_CLASS_INVALID was not. All this in an image that began with makowist_fresh. Refuses
 * MAKOWIST_NO_SUCH_NUMBER, MAKOWIST_FOLDED. */
uint64_t makowist_took(const uint8_t *image, size_t length, uint64_t number);

/* Whether it was undone on the switch: 1 from the event Complete of its rollback's apply on, else 0. Only a change that is
 * MAKOWIST_CLASS_UNDONE, or MAKOWIST_CLASS_UNDOING where the store of the status was cut, has 1; one that is MAKOWIST_CLASS_UNDONE and
 * has 0 was passed over, and not taken either. The rollback of a change that the switch rejected is pushed too: it was not taken, and
 * has 1. Refuses MAKOWIST_NO_SUCH_NUMBER, MAKOWIST_FOLDED. */
uint64_t makowist_undone(const uint8_t *image, size_t length, uint64_t number);

/* A field of what the state has once. Refuses MAKOWIST_OUT_OF_RANGE. */
enum {
    MAKOWIST_LOG_LENGTH = 1,  /* the highest number given */
    MAKOWIST_COMMITTED_INDEX = 2,
    MAKOWIST_COMMITTED_CHANGE = 3,
    MAKOWIST_COMMITTED_TARGET = 4,
    MAKOWIST_COMMITTED_REVISION = 5,
    MAKOWIST_COMMITTED_ORDINAL = 6,
    MAKOWIST_APPLIED_INDEX = 7,
    MAKOWIST_APPLIED_TARGET = 8,
    MAKOWIST_APPLIED_REVISION = 9,
    MAKOWIST_APPLIED_ORDINAL = 10,
    MAKOWIST_CONFIGURATION_STATE = 11,
    MAKOWIST_CONFIGURATION_TERM = 12,
    MAKOWIST_MASTERSHIP_MASTER = 13,
    MAKOWIST_MASTERSHIP_TERM = 14,
    MAKOWIST_MASTERSHIP_CONN = 15,
    MAKOWIST_TARGET_ID = 16,
    MAKOWIST_TARGET_RUNNING = 17,
    MAKOWIST_LAST_FOLD = 18
};
uint64_t makowist_record(const uint8_t *image, size_t length, uint64_t field);

/* A field of a node's connection. Refuses MAKOWIST_OUT_OF_RANGE. */
enum { MAKOWIST_CONNECTION_ID = 1, MAKOWIST_CONNECTION_CONNECTED = 2 };
uint64_t makowist_connection(const uint8_t *image, size_t length, uint64_t node, uint64_t field);

/* Why a node's job does not move a transaction: where makowist_work answers MAKOWIST_NO_RULE, whatever the outcome and the cut,
 * the first reason that fits, and the number or the ordinal that it names (0 where it names none). docs/DESK.md says what to do
 * about each. Refuses MAKOWIST_OUT_OF_RANGE, MAKOWIST_NO_SUCH_NUMBER, MAKOWIST_FOLDED, MAKOWIST_NOT_MASTER, as makowist_work, then
 * MAKOWIST_NOT_WAITING. */
uint64_t makowist_why(const uint8_t *image, size_t length, uint64_t node, uint64_t job, uint64_t number);

/* A log's line of a handover sheet, and its counts added to the totals: of each class how many transactions are kept, and
 * how many paths differ (makowist_drift says which). log is the place of this log in the sheet, from 1 to MAKOWIST_LOGS.
 * totals are MAKOWIST_TOTALS_LENGTH bytes, zeros before the first log: a number of two bytes, little-endian, for each class
 * in order (makowist_total reads one).
 * Refuses MAKOWIST_OUT_OF_RANGE first (log; the length of the totals; totals that together are more than the logs before
 * this place can keep, MAKOWIST_LOG_LIMIT each), then MAKOWIST_NOT_WELL_FORMED; then every byte of the totals is what it was. */
uint64_t makowist_tally(const uint8_t *image, size_t length, uint64_t log, uint8_t *totals, size_t totals_length);

/* The total of a class that makowist_tally wrote. */
static inline uint16_t makowist_total(const uint8_t *totals, unsigned kind) {
    return (uint16_t)(kind < 1 || kind > 6 ? 0 : totals[2 * kind - 2] | totals[2 * kind - 1] << 8);
}

#ifdef __cplusplus
}
#endif

#endif

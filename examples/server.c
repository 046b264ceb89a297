/* A host for the change controller: keeps an image in a file, and answers the stepper's calls.
 *
 *     server IMAGE <calls >answers
 *
 * Reads one call a line and writes one answer a line, as the program `stepper` does, and the heads at the end of the
 * input. An accepted call's image is in the file, and on the disk, before its answer is written; so the server can be
 * killed at any moment and started again on the same file, and no answered call is lost. A call that was not answered
 * was made wholly or not at all, or is a push that has landed (below). A night is made in slices, and each is kept before the
 * next begins: one that was not answered was made up to a slice, and asked again, with what is left of its budget, it goes on
 * from there.
 *
 * The switch is told first. What a push, a synchronise that writes, a start or a stop brings about is on the switch before
 * the image that shows it is kept; IMAGE.switch (target.h) stands in for the switch. Whenever a call has been answered, the
 * switch has what the image's target table says. Killed between the two, the kept image is behind the switch by that one
 * call, and in a night too by one push alone, since a push is a slice by itself: so it is a step from the kept image. The
 * next start looks at the switch and makes the image show what it has: a start, a stop or a synchronise whole, and a push as
 * far as the first of its three stores, by cut 1, with no event. It is made good by who asks for the same job again, with the
 * same outcome and cut 0, or for the rest of the night; or by losing the line and synchronising, which takes it back, since the
 * image shows it by then. A host that cannot read its switch asks for the job again, or gives the switch all applied values
 * with a synchronise, before anything else.
 *
 * Where IMAGE does not exist it is made fresh, with a switch that forgets. A first line that says that it remembers is taken where
 * the image is fresh; the switch is told nothing by it, and keeps its values when it is stopped from then on. A first line that asks
 * for an import is taken where the image is fresh, its switch one that forgets, or shows a start and nothing else. On any other image
 * neither can be read. (A start, since the switch is started before the image is kept: a
 * server killed between the two shows the start when it begins again, and the import can be asked again.) Of an import no event is
 * recorded: keep the list. A file that is no well-formed image is refused and left as it is.
 * These files lie beside it: IMAGE.new, written before it takes IMAGE's name, and IMAGE.switch.new likewise; IMAGE.lock, held
 * while a server runs; IMAGE.switch, which is made as the image has it where there is none, and refused where no one call
 * leads from the image to it; IMAGE.archive, a line for each entry that was folded (archive.h), without which a folded image
 * is refused; and IMAGE.events, a line for each event, those of a night too, which its answer does not show:
 *
 *     phase=1 stage=1 number=3 status=2
 *     from=73186d7df2954737
 *
 * Behind the events of a job, or of a slice, is the sum of the image from which they led (FNV-1a, 64 bits). They are on
 * the disk before the image that they led to. Where that was not kept, since the server was killed between the two, the
 * kept image has the last sum, or the lines are torn, and the next start takes them back. No image comes again after an
 * event: each moves a status on, and no status goes back. */
#define _DEFAULT_SOURCE
#include <errno.h>
#include <fcntl.h>
#include <inttypes.h>
#include <libgen.h>
#include <stdio.h>
#include <stdlib.h>
#include <string.h>
#include <sys/file.h>
#include <unistd.h>

#include "archive.h"
#include "fail.h"
#include "keep.h"
#include "makowist.h"
#include "target.h"

static uint8_t image[MAKOWIST_IMAGE_LENGTH];

/* A copy, on which a step is tried before the switch or the archive is told. */
static uint8_t tried[MAKOWIST_IMAGE_LENGTH];

static uint8_t *copy(void) { return memcpy(tried, image, sizeof tried); }

static int accepted(uint64_t reply) { return makowist_reply_answer(reply) == MAKOWIST_ACCEPTED; }

static unsigned shown(unsigned field) { return makowist_reply_value(makowist_record(image, sizeof image, field)); }

/* ---- The file. */

struct place {
    const char *name;
    char *aside;
    char *archive;
    char *record;
    int folder;
    FILE *events; /* the record, open for more */
    uint64_t sum; /* of the image that is kept */
    struct target target;
};

static char *joined(const char *name, const char *ending) {
    size_t room = strlen(name) + strlen(ending) + 1;
    char *both = malloc(room);
    if (!both)
        fail(name, "out of memory");
    snprintf(both, room, "%s%s", name, ending);
    return both;
}

/* Opens what keeping needs and makes sure that no other server keeps this image. */
static struct place place_of(const char *name) {
    struct place place = {name, joined(name, ".new"), joined(name, ".archive"), joined(name, ".events"), -1, NULL, 0,
                          {joined(name, ".switch"), joined(name, ".switch.new"), -1, 0, {0}}};
    char *path = joined(name, ""), *lock = joined(name, ".lock");
    int held = open(lock, O_RDWR | O_CREAT | O_CLOEXEC, 0644);
    if (held < 0)
        fail(lock, strerror(errno));
    if (flock(held, LOCK_EX | LOCK_NB) != 0)
        fail(lock, errno == EWOULDBLOCK ? "another server keeps this image" : strerror(errno));
    place.folder = open(dirname(path), O_RDONLY | O_DIRECTORY | O_CLOEXEC);
    if (place.folder < 0)
        fail(name, strerror(errno));
    place.target.folder = place.folder;
    free(path);
    free(lock);
    return place;
}

static void keep(struct place *place) {
    keep_whole(place->name, place->aside, place->folder, image, sizeof image);
    place->sum = sum_of(SUM_OF_NOTHING, image, sizeof image);
}

/* Loads the kept image and answers 1, or makes a fresh one and answers 0 where none is kept. */
static int load(struct place *place) {
    uint8_t found[MAKOWIST_IMAGE_LENGTH + 1]; /* a byte more, so that a longer file is seen to be one */
    FILE *file = fopen(place->name, "rb");
    if (!file && errno != ENOENT)
        fail(place->name, strerror(errno));
    if (!file) {
        makowist_fresh(image, sizeof image, MAKOWIST_FORGETS);
        return 0;
    }
    size_t length = fread(found, 1, sizeof found, file);
    if (ferror(file))
        fail(place->name, strerror(errno));
    fclose(file);
    if (makowist_well_formed(found, length) != MAKOWIST_ACCEPTED)
        fail(place->name, "not a well-formed image");
    memcpy(image, found, sizeof image);
    place->sum = sum_of(SUM_OF_NOTHING, image, sizeof image);
    return 1;
}

/* ---- The record of events. */

struct event {
    unsigned phase, stage, number, status; /* all 0 where there is none */
};

static struct event event_in(uint64_t reply) {
    struct event event = {makowist_reply_phase(reply), makowist_reply_stage(reply), makowist_reply_number(reply),
                          makowist_reply_status(reply)};
    return event;
}

/* Puts the events of a job, or of a slice, on the disk, and behind them the sum of the image from which they led. */
static void record(const struct place *place, const struct event *events, size_t count) {
    size_t given = 0;
    for (const struct event *event = events; event < events + count; ++event) {
        if (event->phase == 0)
            continue;
        fprintf(place->events, "phase=%u stage=%u number=%u status=%u\n", event->phase, event->stage, event->number,
                event->status);
        ++given;
    }
    if (given == 0)
        return;
    fprintf(place->events, "from=%016" PRIx64 "\n", place->sum);
    if (fflush(place->events) != 0 || fsync(fileno(place->events)) != 0)
        fail(place->record, strerror(errno));
}

/* Whether a line of the record, which may be torn, begins so. */
static int begins(const char *line, size_t length, const char *start) {
    size_t whole = strlen(start);
    return memcmp(line, start, length < whole ? length : whole) == 0;
}

/* Reads the record to its end and answers how much of it led to the kept image. */
static off_t recorded(const struct place *place) {
    char *text = NULL;
    size_t room = 0;
    ssize_t length;
    off_t at = 0, end = 0, earlier = 0;
    uint64_t from = 0;
    while ((length = getline(&text, &room, place->events)) > 0) {
        char last = text[length - 1];
        at += length;
        if (last == '\n' && sscanf(text, "from=%" SCNx64, &from) == 1) {
            earlier = end;
            end = at;
        } else if (!begins(text, (size_t)length, "phase=") && (last == '\n' || !begins(text, (size_t)length, "from="))) {
            fail(place->record, "not a record of events");
        }
    }
    if (ferror(place->events))
        fail(place->record, strerror(errno));
    free(text);
    return end > 0 && from == place->sum ? earlier : end;
}

/* Opens the record and takes back what led to an image that was not kept. */
static void open_record(struct place *place, int kept) {
    place->events = fopen(place->record, "a+b");
    if (!place->events)
        fail(place->record, strerror(errno));
    off_t length = recorded(place), found = ftello(place->events);
    if (!kept && found > 0)
        fail(place->record, "the events of an image that is missing");
    if (length == found)
        return;
    if (ftruncate(fileno(place->events), length) != 0 || fsync(fileno(place->events)) != 0 ||
        fseeko(place->events, 0, SEEK_END) != 0)
        fail(place->record, strerror(errno));
    fprintf(stderr, "server: %s: %jd bytes taken back: their image was not kept\n", place->record, (intmax_t)(found - length));
}

/* ---- The switch. */

static unsigned transaction(unsigned number, unsigned field) {
    return makowist_reply_value(makowist_transaction(image, sizeof image, number, field));
}

static int is_push(const struct event *event) {
    return event->stage == MAKOWIST_STAGE_APPLY && event->status == MAKOWIST_STATUS_COMPLETE;
}

/* Has the switch take what a push with this event brings it. */
static void push(struct target *target, const struct event *event) {
    unsigned value = event->phase == MAKOWIST_PHASE_CHANGE ? MAKOWIST_TRANSACTION_VALUE : MAKOWIST_TRANSACTION_R_VALUE;
    unsigned pairs = transaction(event->number, MAKOWIST_TRANSACTION_PAIRS);
    for (unsigned k = 0; k < pairs; ++k)
        target->values[transaction(event->number, MAKOWIST_TRANSACTION_PATH + k)] =
            (uint16_t)transaction(event->number, value + k);
    target_take(target);
}

/* A job. Uncut, on the copy, it shows by its event whether it pushes; then the switch takes the values, and the image comes
 * after it. */
static uint64_t work(struct place *place, const unsigned *n) {
    struct event event = event_in(makowist_work(copy(), sizeof tried, n[0], n[1], n[2], n[3], MAKOWIST_CUT_NONE));
    if (is_push(&event) && n[4] <= MAKOWIST_CUT_AFTER_SECOND)
        push(&place->target, &event);
    return makowist_work(image, sizeof image, n[0], n[1], n[2], n[3], n[4]);
}

/* A synchronise. Where it writes paths, which its number says, the switch takes them. */
static uint64_t synchronise(struct place *place, unsigned node) {
    if (makowist_reply_number(makowist_sync(copy(), sizeof tried, node)) > 0)
        target_follow(&place->target, tried);
    return makowist_sync(image, sizeof image, node);
}

static uint64_t start(struct place *place) {
    if (accepted(makowist_start(copy(), sizeof tried)))
        target_follow(&place->target, tried);
    return makowist_start(image, sizeof image);
}

static uint64_t stop(struct place *place) {
    if (accepted(makowist_stop(copy(), sizeof tried)))
        target_follow(&place->target, tried);
    return makowist_stop(image, sizeof image);
}

/* The calls by which an image comes to show what the switch has, from 0 on: the last are the pushes, jobs 2 and 4 of each
 * transaction kept, as far as their first store. */
enum { STOP, START, SYNCHRONISE, PUSHES };

static uint64_t shows_switch(unsigned k, const char **what) {
    static const char *const names[] = {"a stop", "a start", "a synchronise", "a push"};
    unsigned master = shown(MAKOWIST_MASTERSHIP_MASTER), place = k < PUSHES ? 0 : k - PUSHES;
    *what = names[k < PUSHES ? k : PUSHES];
    if (k == STOP)
        return makowist_stop(copy(), sizeof tried);
    if (k == START)
        return makowist_start(copy(), sizeof tried);
    if (k == SYNCHRONISE)
        return makowist_sync(copy(), sizeof tried, master);
    return makowist_work(copy(), sizeof tried, master, place % 2 ? MAKOWIST_JOB_APPLY_ROLLBACK : MAKOWIST_JOB_APPLY_CHANGE,
                         shown(MAKOWIST_LAST_FOLD) + 1 + place / 2, MAKOWIST_OUTCOME_ACCEPTED, MAKOWIST_CUT_AFTER_FIRST);
}

/* Makes the image show what the switch has, where the server was killed between the two. */
static void catch_up(struct place *place) {
    const char *what;
    unsigned pushes = 2 * (shown(MAKOWIST_LOG_LENGTH) - shown(MAKOWIST_LAST_FOLD));
    if (target_is(&place->target, image))
        return;
    for (unsigned k = 0; k < PUSHES + pushes; ++k) {
        if (!accepted(shows_switch(k, &what)) || !target_is(&place->target, tried))
            continue;
        fprintf(stderr, "server: %s: %s ahead of the image, which shows it now\n", place->target.name, what);
        memcpy(image, tried, sizeof image);
        keep(place);
        return;
    }
    fail(place->target.name, "no call leads from the image to what the switch has");
}

/* Loads the image and opens what lies beside it. A fresh image is kept only then: beside an archive, a record or a switch it
 * would be refused. The record is looked at before the image catches up: it knows the image by its sum. */
static struct archive opened(struct place *place) {
    struct archive archive;
    int kept = load(place), is_there = target_open(&place->target);
    if (!kept && is_there)
        fail(place->target.name, "the switch of an image that is missing");
    archive_open(&archive, place->archive, image);
    open_record(place, kept);
    /* they may be new: their names are on the disk before anything is in them */
    sync_folder(place->name, place->folder);
    if (!kept)
        keep(place);
    if (is_there)
        catch_up(place);
    else
        target_follow(&place->target, image); /* there is none yet */
    return archive;
}

/* ---- The lines. */

/* Takes a decimal to 65,535 from the text, leading zeros too. */
static int takes_number(const char **at, const char *end, unsigned *number) {
    const char *first = *at;
    unsigned value = 0;
    for (; *at < end && **at >= '0' && **at <= '9'; ++*at) {
        value = 10 * value + (unsigned)(**at - '0');
        if (value > UINT16_MAX)
            return 0;
    }
    *number = value;
    return *at > first;
}

/* Takes the form from the text; each # in it stands for a number. */
static int takes(const char **at, const char *end, const char *form, unsigned *numbers) {
    for (; *form; ++form) {
        if (*form == '#') {
            if (!takes_number(at, end, numbers++))
                return 0;
        } else if (*at == end || *(*at)++ != *form) {
            return 0;
        }
    }
    return 1;
}

static int is(const char *line, const char *end, const char *form, unsigned *numbers) {
    return takes(&line, end, form, numbers) && line == end;
}

/* The pairs of a change, as far as they show that they are too many. */
struct pairs {
    uint8_t bytes[(MAKOWIST_PAIR_LIMIT + 1) * MAKOWIST_PAIR_LENGTH];
    size_t count;
};

/* Reads the pairs that are the text. All of them must be readable. */
static int reads_pairs(const char *at, const char *end, struct pairs *pairs) {
    pairs->count = 0;
    while (at < end || pairs->count > 0) {
        unsigned pair[2];
        if (!takes(&at, end, "#:#", pair))
            return 0;
        if (pairs->count <= MAKOWIST_PAIR_LIMIT)
            makowist_put_pair(pairs->bytes + MAKOWIST_PAIR_LENGTH * pairs->count++, pair[0], pair[1]);
        if (at == end)
            break;
        if (*at++ != ',')
            return 0;
    }
    return 1;
}

static uint64_t append(const char *at, const char *end) {
    struct pairs pairs;
    if (!reads_pairs(at, end, &pairs))
        return MAKOWIST_OUT_OF_RANGE;
    return makowist_append(image, sizeof image, pairs.bytes, MAKOWIST_PAIR_LENGTH * pairs.count);
}

/* A fold. What it drops is archived before the image without it is kept; a copy shows whether it is accepted. */
static uint64_t fold(struct archive *archive, unsigned number) {
    if (accepted(makowist_fold(copy(), sizeof tried, number)))
        archive_add(archive, image, number);
    return makowist_fold(image, sizeof image, number);
}

/* The reply to a line. One that is no call is refused as out of range. */
static uint64_t reply_to(struct place *place, struct archive *archive, const char *line, const char *end) {
    const char *after = line;
    unsigned n[5];
    if (takes(&after, end, "call=append pairs=", n))
        return append(after, end);
    if (is(line, end, "call=rollback number=#", n))
        return makowist_rollback(image, sizeof image, n[0]);
    if (is(line, end, "call=start", n))
        return start(place);
    if (is(line, end, "call=stop", n))
        return stop(place);
    if (is(line, end, "call=connect node=#", n))
        return makowist_connect(image, sizeof image, n[0]);
    if (is(line, end, "call=disconnect node=#", n))
        return makowist_disconnect(image, sizeof image, n[0]);
    if (is(line, end, "call=master node=#", n))
        return makowist_master(image, sizeof image, n[0]);
    if (is(line, end, "call=sync node=#", n))
        return synchronise(place, n[0]);
    if (is(line, end, "call=work node=# job=# number=# outcome=# cut=#", n))
        return work(place, n);
    if (is(line, end, "call=fold number=#", n))
        return fold(archive, n[0]);
    return MAKOWIST_OUT_OF_RANGE;
}

static void answer(uint64_t reply) {
    printf("answer=%u phase=%u stage=%u number=%u status=%u\n", makowist_reply_answer(reply), makowist_reply_phase(reply),
           makowist_reply_stage(reply), (unsigned)makowist_reply_number(reply), makowist_reply_status(reply));
}

/* Answers a line that asks why a job does not move, or who set a path; nothing changes, so nothing is kept. */
static int told(const char *line, const char *end) {
    unsigned n[3];
    if (is(line, end, "call=why node=# job=# number=#", n)) {
        uint64_t reply = makowist_why(image, sizeof image, n[0], n[1], n[2]);
        printf("answer=%u reason=%u named=%u\n", makowist_reply_answer(reply), makowist_reply_reason(reply),
               (unsigned)makowist_reply_named(reply));
        return 1;
    }
    if (is(line, end, "call=owner path=#", n)) {
        uint64_t reply = makowist_owner(image, sizeof image, n[0]);
        printf("answer=%u owner=%u\n", makowist_reply_answer(reply), (unsigned)makowist_reply_value(reply));
        return 1;
    }
    return 0;
}

/* Makes the call that a line asks for and answers it. A refused call has changed nothing. */
static void call(struct place *place, struct archive *archive, const char *line, const char *end) {
    uint64_t reply = reply_to(place, archive, line, end);
    struct event event = event_in(reply);
    if (accepted(reply)) {
        record(place, &event, 1);
        keep(place);
    }
    answer(reply);
}

/* ---- A night. */

/* The jobs of a slice, at most: as many are lost at most where the server is killed. */
enum { SLICE = 8 };

struct night {
    unsigned node, budget;
    uint8_t outcomes[MAKOWIST_OUTCOMES + 1];
    size_t length;
};

/* Reads a night. Outcomes that it does not name are 0, and no more are lent than show that they are too many. */
static int reads_night(const char *at, const char *end, struct night *night) {
    unsigned n[2];
    if (!takes(&at, end, "call=night node=# budget=# outcomes=", n))
        return 0;
    memset(night, 0, sizeof *night);
    night->node = n[0];
    night->budget = n[1];
    night->length = end - at > MAKOWIST_OUTCOMES ? sizeof night->outcomes : MAKOWIST_OUTCOMES;
    for (size_t k = 0; at < end; ++k, ++at) {
        if (*at < '0' || *at > '9')
            return 0;
        if (k < sizeof night->outcomes)
            night->outcomes[k] = (uint8_t)(*at - '0');
    }
    return 1;
}

/* Does jobs of a night on the image or on the copy, and reads their events. */
static uint64_t sleep_on(uint8_t *bytes, const struct night *night, unsigned budget, struct event *events) {
    uint8_t room[SLICE * MAKOWIST_EVENT_LENGTH];
    uint64_t reply = makowist_night(bytes, sizeof image, night->node, budget, night->outcomes, night->length, room,
                                    sizeof room);
    for (uint32_t k = 0; k < makowist_reply_events(reply); ++k) {
        events[k].phase = makowist_night_event(room, k, MAKOWIST_EVENT_PHASE);
        events[k].stage = makowist_night_event(room, k, MAKOWIST_EVENT_STAGE);
        events[k].number = makowist_night_event(room, k, MAKOWIST_EVENT_NUMBER);
        events[k].status = makowist_night_event(room, k, MAKOWIST_EVENT_STATUS);
    }
    return reply;
}

/* Does a slice of a night and keeps what it has done. Where a push is among its jobs it ends before that, and where the push
 * comes first the switch takes it and it is the slice: killed behind it, the kept image is that from which it was pushed. */
static uint64_t slice(struct place *place, const struct night *night, unsigned budget) {
    struct event events[SLICE];
    unsigned jobs = makowist_reply_events(sleep_on(copy(), night, budget, events)), first = 0;
    while (first < jobs && !is_push(&events[first]))
        ++first;
    if (first < jobs)
        budget = first > 0 ? first : 1;
    if (first == 0 && jobs > 0)
        push(&place->target, &events[0]);
    uint64_t reply = sleep_on(image, night, budget, events);
    if (makowist_reply_jobs(reply) > 0) {
        record(place, events, makowist_reply_events(reply));
        keep(place);
    }
    return reply;
}

/* Answers a line that asks for a night, as one call with the whole budget would. The table serves each slice: it goes by the
 * places of the kept transactions, and a night folds none. */
static int slept(struct place *place, const char *line, const char *end) {
    struct night night;
    if (!reads_night(line, end, &night))
        return 0;
    unsigned jobs = 0;
    uint64_t reply;
    do {
        unsigned left = night.budget - jobs;
        /* a budget out of range is asked for as it is, to be refused */
        reply = slice(place, &night, left > SLICE && left <= MAKOWIST_BUDGET_LIMIT ? SLICE : left);
        jobs += makowist_reply_jobs(reply);
    } while (makowist_reply_stopped(reply) == MAKOWIST_STOPPED_BUDGET_SPENT && jobs < night.budget);
    printf("answer=%u jobs=%u stopped=%u\n", makowist_reply_answer(reply), jobs, makowist_reply_stopped(reply));
    return 1;
}

/* ---- What stands in place of the fresh start. */

/* An old list, as far as it shows that it is too long. */
struct list {
    uint8_t bytes[(MAKOWIST_ENTRY_LIMIT + 1) * MAKOWIST_ENTRY_LENGTH];
    size_t count;
};

/* Reads one entry, which is the text: a position, or pairs. */
static int reads_entry(const char *at, const char *end, uint8_t *entry) {
    unsigned position;
    struct pairs pairs;
    if (is(at, end, "#", &position)) {
        makowist_put_rollback(entry, position);
        return 1;
    }
    if (!reads_pairs(at, end, &pairs))
        return 0;
    makowist_put_change(entry, pairs.bytes, pairs.count);
    return 1;
}

/* Reads an import. All entries must be readable. */
static int reads_list(const char *at, const char *end, struct list *list) {
    uint8_t entry[MAKOWIST_ENTRY_LENGTH];
    if (!takes(&at, end, "call=import entries=", NULL))
        return 0;
    list->count = 0;
    for (const char *stop; at <= end && (at < end || list->count > 0); at = stop + 1) {
        stop = memchr(at, '/', (size_t)(end - at));
        if (!stop)
            stop = end;
        if (!reads_entry(at, stop, entry))
            return 0;
        if (list->count <= MAKOWIST_ENTRY_LIMIT)
            memcpy(list->bytes + MAKOWIST_ENTRY_LENGTH * list->count++, entry, sizeof entry);
    }
    return 1;
}

/* Whether the image is a fresh one, of a target of that kind. */
static int is_fresh(unsigned remembers) {
    return accepted(makowist_fresh(tried, sizeof tried, remembers)) && memcmp(image, tried, sizeof image) == 0;
}

/* Whether nothing was called on the image but, at most, a start. */
static int is_untouched(void) {
    if (is_fresh(MAKOWIST_FORGETS))
        return 1;
    makowist_start(tried, sizeof tried);
    return memcmp(image, tried, sizeof image) == 0;
}

/* Answers a first line that asks for an import. The copy shows whether it is accepted; then the switch, which it says to run, is
 * started, and the image comes after it. */
static int imported(struct place *place, const char *line, const char *end) {
    static struct list list;
    if (!reads_list(line, end, &list) || !is_untouched())
        return 0;
    size_t length = MAKOWIST_ENTRY_LENGTH * list.count;
    uint64_t reply = makowist_import(tried, sizeof tried, list.bytes, length);
    if (accepted(reply)) {
        target_follow(&place->target, tried);
        memcpy(image, tried, sizeof image);
        keep(place);
    }
    printf("answer=%u position=%u\n", makowist_reply_answer(reply), (unsigned)makowist_reply_position(reply));
    return 1;
}

/* Answers a first line that says of what kind the switch is. It is taken where nothing was said or called before, and where the
 * same was: it was kept, and the server killed before it was answered. */
static int begun(struct place *place, const char *line, const char *end) {
    unsigned remembers;
    if (!is(line, end, "call=fresh remembers=#", &remembers) || !(is_fresh(MAKOWIST_FORGETS) || is_fresh(remembers)))
        return 0;
    uint64_t reply = makowist_fresh(image, sizeof image, remembers);
    if (accepted(reply))
        keep(place);
    answer(reply);
    return 1;
}

static void close_all(struct place *place, struct archive *archive) {
    free(place->aside);
    free(place->archive);
    free(place->record);
    free(place->target.name);
    free(place->target.aside);
    fclose(archive->file);
    fclose(place->events);
}

int main(int count, char **words) {
    if (count != 2) {
        fputs("usage: server IMAGE <calls >answers\n", stderr);
        return 2;
    }
    struct place place = place_of(words[1]);
    struct archive archive = opened(&place);

    char *line = NULL;
    size_t room = 0;
    ssize_t length;
    for (int is_first = 1; (length = getline(&line, &room, stdin)) > 0; is_first = 0) {
        const char *end = line + length - (line[length - 1] == '\n');
        int begins = is_first && (begun(&place, line, end) || imported(&place, line, end));
        if (!begins && !told(line, end) && !slept(&place, line, end))
            call(&place, &archive, line, end);
        if (fflush(stdout) != 0)
            fail("standard output", strerror(errno));
    }
    if (!feof(stdin))
        fail("standard input", strerror(errno));
    printf("committed=%u committed_ordinal=%u applied=%u applied_ordinal=%u\n", shown(MAKOWIST_COMMITTED_REVISION),
           shown(MAKOWIST_COMMITTED_ORDINAL), shown(MAKOWIST_APPLIED_REVISION), shown(MAKOWIST_APPLIED_ORDINAL));
    free(line);
    close_all(&place, &archive);
    return fflush(stdout) == 0 ? 0 : 1;
}

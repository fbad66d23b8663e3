/* The tank of tank.c with its journal on a file. It writes the entries of the run to the file that is named, or finds them there,
 * and compares them:
 *
 *   cc logged.c $(pkg-config --cflags --libs rtdb) -o logged && ./logged tank.journal
 *
 * Then it tries a log on a file in memory that is stopped at each call of a piece, and each status. A check that fails is told,
 * and the program ends with 1. */
#define _POSIX_C_SOURCE 200809L
#define main tank_main
#include "tank.c"
#undef main

#include <string.h>

#include "rtdb_file.h"

static const char text[] =
    "rtdb report 1\n"
    "item level sensor 20 0\n"
    "item valve state - 0\n"
    "txn sampler 2 10 0 10 2 reads - writes level\n"
    "txn controller 1 20 8 20 4 reads level writes valve\n"
    "mode admitted\n";

enum { ROOM = 64, MOST = 64, PIECE = 5, BYTES = 256 * (ROOM + 2) };

static rtdb_entry entries[MOST + 1];
static size_t entry_count;
static int failed;

static void is(int good, const char *what, int line) {
    if (good) return;
    printf("line %d: %s\n", line, what);
    failed = 1;
}

#define IS(good) is(good, #good, __LINE__)

static int same_answer(const rtdb_step_answer *a, const rtdb_step_answer *b) {
    return a->reply == b->reply && a->outcome == b->outcome && a->job.transaction == b->job.transaction &&
           a->job.serial == b->job.serial && a->item == b->item && a->ceiling == b->ceiling && a->count == b->count &&
           a->value == b->value && a->stamp == b->stamp && a->has_stamp == b->has_stamp && a->over.kind == b->over.kind &&
           a->over.item == b->over.item && a->over.other == b->over.other && a->over.stamp == b->over.stamp;
}

static int same_entry(const rtdb_entry *a, const rtdb_entry *b) {
    return a->kind == b->kind && a->operation == b->operation && a->job.transaction == b->job.transaction &&
           a->job.serial == b->job.serial && a->item == b->item && a->value == b->value && a->tick == b->tick &&
           a->to == b->to && same_answer(&a->answer, &b->answer);
}

/* Runs the tank, and keeps its entries. */
static int run_tank(void) {
    rtdb db = RTDB_INIT;
    rtdb_refusal refusal = {0, 0, 0, 0, 0};
    struct counts counts = {0, 0, 0, 0, 0};
    if (rtdb_open(&db, &tables, MOST, &refusal) != RTDB_OK) return 0;
    if (!plan(&db, SAMPLER, 4, &counts) || !plan(&db, CONTROLLER, 2, &counts) || !run(&db, &counts)) return 0;
    if (rtdb_drain(&db, entries, MOST, &entry_count) != RTDB_OK) return 0;
    return rtdb_close(&db) == RTDB_OK;
}

static rtdb_status open_log(rtdb_log *log, const uint8_t *bytes, size_t length, size_t room, rtdb_refusal *refusal) {
    return rtdb_log_open(log, (const uint8_t *)text, sizeof text - 1, bytes, length, room, refusal);
}

static size_t kept(rtdb_log *log) {
    uint64_t count = 0;
    IS(rtdb_log_count(log, &count) == RTDB_OK);
    return (size_t)count;
}

/* The entries that were found are the first of the run's. */
static void found_first(rtdb_log *log, size_t count) {
    rtdb_entry entry = {0};
    for (size_t k = 0; k < count; k++) {
        IS(rtdb_log_entry(log, k, &entry) == RTDB_OK && same_entry(&entry, &entries[k]));
    }
    IS(rtdb_log_entry(log, count, &entry) == RTDB_NOTHING);
}

/* Writes the entries that the file has not yet, some at a time. */
static int log_to(const char *path, size_t *there) {
    rtdb_log log = RTDB_INIT;
    rtdb_refusal refusal = {0, 0, 0, 0, 0};
    uint8_t *bytes = NULL;
    size_t length = 0;
    int file = rtdb_file_open(path), done = 0;
    if (file < 0) return 0;
    IS(rtdb_file_open(path) == -1);
    if (rtdb_file_read(file, &bytes, &length)) {
        rtdb_status status = open_log(&log, bytes, length, ROOM, &refusal);
        free(bytes);
        IS(status == RTDB_OK);
        done = status == RTDB_OK && rtdb_file_make_all(file, &log);
    }
    if (done) {
        *there = kept(&log);
        found_first(&log, *there);
        for (size_t k = *there; done && k < entry_count; k += PIECE) {
            size_t count = entry_count - k < PIECE ? entry_count - k : PIECE;
            done = rtdb_log_append(&log, &entries[k], count) == RTDB_OK && kept(&log) == k && rtdb_file_make_all(file, &log) &&
                   kept(&log) == k + count;
        }
        IS(rtdb_log_close(&log) == RTDB_OK);
    }
    close(file);
    return done;
}

/* A file in memory. */
struct image {
    uint8_t bytes[BYTES];
    size_t length;
};

static void make(struct image *file, const rtdb_call *call, const uint8_t *bytes, size_t count) {
    if (call->kind == RTDB_CALL_SYNC || count == 0) return;
    memcpy(file->bytes + call->offset, bytes, count);
    if (file->length < call->offset + count) file->length = (size_t)call->offset + count;
}

/* Makes at most so many calls; of one more, if it is a write, other bytes stand in the first half of its range. Answers how many
 * there were. */
static size_t make_some(struct image *file, rtdb_log *log, size_t most) {
    uint8_t bytes[RTDB_LOG_WIDTH] = {0}, other[RTDB_LOG_WIDTH];
    rtdb_call call = {0, 0, 0};
    memset(other, 0xa5, sizeof other);
    for (size_t made = 0;; made++) {
        if (rtdb_log_call(log, &call, bytes, sizeof bytes) != RTDB_OK) return made;
        if (made == most) {
            make(file, &call, other, (size_t)call.count / 2);
            return made;
        }
        make(file, &call, bytes, (size_t)call.count);
        IS(rtdb_log_answer(log, 1) == RTDB_OK);
    }
}

static struct image whole, part;

/* A log on a file in memory that has the first entries. */
static void log_first(struct image *file, rtdb_log *log, size_t count) {
    rtdb_refusal refusal = {0, 0, 0, 0, 0};
    memset(file, 0, sizeof *file);
    IS(open_log(log, file->bytes, 0, ROOM, &refusal) == RTDB_OK);
    IS(make_some(file, log, SIZE_MAX) == 6 && kept(log) == 0);
    for (size_t k = 0; k < count; k++) {
        IS(rtdb_log_append(log, &entries[k], 1) == RTDB_OK && make_some(file, log, SIZE_MAX) == 4);
    }
    IS(kept(log) == count);
}

/* The file is opened as at least so many and at most so many entries of the run. Answers how many. */
static size_t opens_as(const struct image *file, size_t least, size_t most) {
    rtdb_log log = RTDB_INIT;
    rtdb_refusal refusal = {0, 0, 0, 0, 0};
    size_t count = 0;
    IS(open_log(&log, file->bytes, file->length, ROOM, &refusal) == RTDB_OK);
    if (log.at == NULL) return 0;
    count = kept(&log);
    IS(least <= count && count <= most);
    found_first(&log, count);
    IS(rtdb_log_close(&log) == RTDB_OK);
    return count;
}

/* Stopped at each call of a piece the file is opened as the entries before it, with the first few of the piece. */
static void stopped_at_each(void) {
    size_t before = 7, calls = 2 * PIECE + 2, last = 0;
    for (size_t k = 0; k <= calls; k++) {
        rtdb_log log = RTDB_INIT;
        log_first(&part, &log, before);
        IS(rtdb_log_append(&log, &entries[before], PIECE) == RTDB_OK);
        IS(make_some(&part, &log, k) == k && kept(&log) == (k == calls ? before + PIECE : before));
        last = opens_as(&part, before, before + PIECE);
        IS(rtdb_log_close(&log) == RTDB_OK);
    }
    IS(last == before + PIECE);
}

/* A changed byte is found, and which record it is in. */
static void changed(void) {
    rtdb_log log = RTDB_INIT;
    rtdb_refusal refusal = {0, 0, 0, 0, 0};
    log_first(&whole, &log, entry_count);
    IS(rtdb_log_close(&log) == RTDB_OK);
    IS(opens_as(&whole, entry_count, entry_count) == entry_count);
    for (size_t k = 0; k <= entry_count; k++) {
        part = whole;
        part.bytes[256 * k + 2] = 'x';
        IS(open_log(&log, part.bytes, part.length, ROOM, &refusal) == RTDB_BAD_RECORD && refusal.a == k && log.at == NULL);
    }
    IS(open_log(&log, whole.bytes, whole.length, entry_count - 1, &refusal) == RTDB_FULL && log.at == NULL);
}

static void statuses(void) {
    rtdb_log log = RTDB_INIT;
    rtdb_refusal refusal = {9, 9, 9, 9, 9};
    rtdb_entry entry = {0};
    rtdb_call call = {7, 7, 7};
    uint8_t bytes[RTDB_LOG_WIDTH] = {7};
    uint64_t count = 7;
    size_t bad = sizeof text - 1;
    IS(rtdb_log_close(&log) == RTDB_CLOSED && rtdb_log_append(&log, entries, 1) == RTDB_CLOSED);
    IS(rtdb_log_call(&log, &call, bytes, sizeof bytes) == RTDB_CLOSED && call.kind == 7 && bytes[0] == 7);
    IS(rtdb_log_answer(&log, 1) == RTDB_CLOSED && rtdb_log_entry(&log, 0, &entry) == RTDB_CLOSED);
    IS(rtdb_log_count(&log, &count) == RTDB_CLOSED && count == 7);
    IS(open_log(&log, bytes, 0, RTDB_MOST_ROOM + 1, &refusal) == RTDB_NO_ROOM);
    IS(rtdb_log_open(&log, (const uint8_t *)text, bad - 14, bytes, 0, ROOM, &refusal) == RTDB_BAD_TEXT && refusal.a == 0);
    IS(rtdb_log_open(&log, (const uint8_t *)text + 14, bad - 14, bytes, 0, ROOM, &refusal) == RTDB_BAD_TEXT && refusal.a == 1);
    IS(open_log(&log, bytes, 1, ROOM, &refusal) == RTDB_BAD_RECORD && refusal.a == 0 && log.at == NULL);
    log_first(&part, &log, 2);
    refusal.rule = 9;
    IS(open_log(&log, bytes, 0, ROOM, &refusal) == RTDB_OPEN && refusal.rule == 9);
    IS(rtdb_log_call(&log, &call, bytes, sizeof bytes) == RTDB_NOTHING && call.kind == 7 && rtdb_log_answer(&log, 1) == RTDB_NOTHING);
    IS(rtdb_log_append(&log, entries, RTDB_LOG_MOST + 1) == RTDB_NO_ROOM);
    entry.kind = RTDB_ENTRY_PLANNED;
    entry.job.transaction = 2;
    IS(rtdb_log_append(&log, &entry, 1) == RTDB_UNKNOWN && rtdb_log_call(&log, &call, bytes, sizeof bytes) == RTDB_NOTHING);
    IS(rtdb_log_append(&log, &entries[2], 2) == RTDB_OK && rtdb_log_append(&log, &entries[4], 1) == RTDB_UNANSWERED);
    IS(rtdb_log_call(&log, &call, bytes, 255) == RTDB_NO_ROOM && call.kind == 7);
    IS(rtdb_log_call(&log, &call, bytes, 256) == RTDB_OK && call.kind == RTDB_CALL_WRITE && call.offset == 3 * 256 + 1 && call.count == 256);
    IS(rtdb_log_call(&log, &call, bytes, 256) == RTDB_OK && call.offset == 3 * 256 + 1);
    IS(rtdb_log_answer(&log, 1) == RTDB_OK && rtdb_log_call(&log, &call, bytes, 256) == RTDB_OK && call.offset == 4 * 256 + 1);
    IS(rtdb_log_answer(&log, 0) == RTDB_OK && rtdb_log_call(&log, &call, bytes, 256) == RTDB_NOTHING);
    IS(rtdb_log_append(&log, &entries[2], 1) == RTDB_STOPPED && rtdb_log_answer(&log, 1) == RTDB_NOTHING && kept(&log) == 2);
    IS(rtdb_log_close(&log) == RTDB_OK && log.at == NULL);
}

int main(int count, char **words) {
    size_t there = 0;
    if (count != 2 || !run_tank() || entry_count != 27) return 1;
    IS(log_to(words[1], &there));
    printf("%u entries, %u of them found\n", (unsigned)entry_count, (unsigned)there);
    stopped_at_each();
    changed();
    statuses();
    return failed;
}

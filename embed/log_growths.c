/* Refuses each growth of memory of `rtdb_log_open` in turn, as growths.c does of `rtdb_open`: of a new log, of one that has the first
 * entries of the tank's run, of a changed record and of a bad text. A refused opening says so, leaves the handle closed and holds
 * nothing. After the opening no other call takes memory, and the closing gives all back. */
#define main tank_main
#include "tank.c"
#undef main

#include <string.h>

#include "refusing.h"

static const char text[] =
    "rtdb report 1\n"
    "item level sensor 20 0\n"
    "item valve state - 0\n"
    "txn sampler 2 10 0 10 2 reads - writes level\n"
    "txn controller 1 20 8 20 4 reads level writes valve\n"
    "mode admitted\n";

enum { ROOM = 64, FOUND = 17, BYTES = RTDB_LOG_WIDTH * (ROOM + 2) };

static rtdb_entry entries[ROOM];
static size_t entry_count;

struct image {
    uint8_t bytes[BYTES];
    size_t length;
};

static struct image empty, some, changed;

/* Runs the tank, and keeps its entries. */
static int run_tank(void) {
    rtdb db = RTDB_INIT;
    rtdb_refusal refusal = {0, 0, 0, 0, 0};
    struct counts counts = {0, 0, 0, 0, 0};
    if (rtdb_open(&db, &tables, ROOM, &refusal) != RTDB_OK) return 0;
    if (!plan(&db, SAMPLER, 4, &counts) || !plan(&db, CONTROLLER, 2, &counts) || !run(&db, &counts)) return 0;
    return rtdb_drain(&db, entries, ROOM, &entry_count) == RTDB_OK && rtdb_close(&db) == RTDB_OK;
}

/* Makes the calls of a log on a file in memory. */
static void make_all(rtdb_log *log, struct image *file) {
    uint8_t bytes[RTDB_LOG_WIDTH] = {0};
    rtdb_call call = {0, 0, 0};
    while (rtdb_log_call(log, &call, bytes, sizeof bytes) == RTDB_OK) {
        memcpy(file->bytes + call.offset, bytes, (size_t)call.count);
        if (file->length < call.offset + call.count) file->length = (size_t)(call.offset + call.count);
        rtdb_log_answer(log, 1);
    }
}

/* Reads the entries that were found, and adds the others to a copy of the file; answers whether all did. */
static int use(rtdb_log *log, const struct image *from) {
    static struct image file;
    rtdb_entry entry = {0};
    uint64_t kept = 0;
    size_t found = 0;
    file = *from;
    make_all(log, &file);
    while (rtdb_log_entry(log, found, &entry) == RTDB_OK) found++;
    for (size_t k = found; k < entry_count; k++) {
        if (rtdb_log_append(log, &entries[k], 1) != RTDB_OK) return 0;
        make_all(log, &file);
    }
    return rtdb_log_count(log, &kept) == RTDB_OK && kept == entry_count;
}

static const struct {
    const char *name;
    const struct image *file;
    size_t skipped; /* bytes of the text */
    rtdb_status status;
} tries[] = {
    {"open a new log", &empty, 0, RTDB_OK},
    {"open a log with entries", &some, 0, RTDB_OK},
    {"open a changed record", &changed, 0, RTDB_BAD_RECORD},
    {"open with a bad text", &some, 14, RTDB_BAD_TEXT},
};

/* Refuses the growths 0, 1 and so on, until an opening comes to its answer without the one that is refused. */
static int try_each(size_t which) {
    int bad = 0;
    for (refused = 0;; refused++) {
        rtdb_log log = RTDB_INIT;
        rtdb_refusal refusal = {9, 9, 9, 9, 9};
        growths = 0;
        rtdb_status status = rtdb_log_open(&log, (const uint8_t *)text + tries[which].skipped, sizeof text - 1 - tries[which].skipped,
                                           tries[which].file->bytes, tries[which].file->length, ROOM, &refusal);
        long taken = growths;
        int is_last = taken <= refused;
        int good = is_last ? status == tries[which].status && taken == refused : status == RTDB_NO_MEMORY && refusal.rule == 0 && refusal.a == 0;
        if (status == RTDB_OK) good = good && use(&log, tries[which].file) && growths == taken && rtdb_log_close(&log) == RTDB_OK;
        if (!good || log.at != NULL || held != 0) {
            bad++;
            fprintf(stderr, "%s: growth %ld of %ld: status %u, %ld blocks are held\n", tries[which].name, refused, taken, (unsigned)status, held);
        }
        if (is_last) break;
    }
    printf("%s: %ld growths refused, faults %d\n", tries[which].name, refused, bad);
    return bad;
}

int main(void) {
    rtdb_log log = RTDB_INIT;
    rtdb_refusal refusal = {0, 0, 0, 0, 0};
    int bad = 0;
    if (!run_tank() || rtdb_log_open(&log, (const uint8_t *)text, sizeof text - 1, some.bytes, 0, ROOM, &refusal) != RTDB_OK) return 2;
    make_all(&log, &some);
    if (rtdb_log_append(&log, entries, FOUND) != RTDB_OK) return 2;
    make_all(&log, &some);
    if (rtdb_log_close(&log) != RTDB_OK || held != 0) return 2;
    changed = some;
    changed.bytes[RTDB_LOG_WIDTH * FOUND + 2] = 'x';
    for (size_t which = 0; which < sizeof tries / sizeof tries[0]; which++) bad += try_each(which);
    return bad != 0;
}

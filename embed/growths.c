/* Refuses each growth of memory of an opening in turn, and of a margin, and counts what is held: of a set that is admitted, of one that
 * is not, of one that is not compiled, and of a trial. A refused opening says so, leaves the handle closed and holds nothing; a refused
 * margin says so, and leaves its answer as it was; a margin holds nothing when it returns. After the opening no other call takes
 * memory, and the closing gives all back. */
#include <stdio.h>

#include "refusing.h"
#include "rtdb.h"

static const rtdb_item items[] = {{RTDB_SENSOR, 20, 0}, {RTDB_DERIVED, 60, 0}, {RTDB_STATE, 0, 0}};
static const uint32_t numbers[] = {0, 0, 1, 2, 0, 1};
static const rtdb_transaction admitted[] = {
    {2, 0, 0, 0, 1, 10, 0, 10, 2, 0},
    {1, 1, 1, 2, 2, 20, 0, 20, 4, 0},
};
/* The second is late. */
static const rtdb_transaction late[] = {
    {2, 0, 0, 0, 1, 10, 0, 10, 2, 0},
    {1, 1, 1, 2, 2, 20, 0, 20, 19, 0},
};
/* The second has the first one's priority. */
static const rtdb_transaction alike[] = {
    {2, 0, 0, 0, 1, 10, 0, 10, 2, 0},
    {2, 1, 1, 2, 2, 20, 0, 20, 4, 0},
};
static const rtdb_together sets[] = {{4, 2, 60}};

typedef rtdb_status (*opening)(rtdb *, const rtdb_tables *, size_t, rtdb_refusal *);

static const struct {
    const char *name;
    opening open;
    const rtdb_transaction *transactions;
    rtdb_status status;
    uint32_t rule;
} tries[] = {
    {"open", rtdb_open, admitted, RTDB_OK, 9},
    {"open a set that is late", rtdb_open, late, RTDB_NOT_ADMITTED, RTDB_NOT_SCHEDULABLE},
    {"open a set with one priority", rtdb_open, alike, RTDB_NOT_COMPILED, RTDB_SAME_PRIORITY},
    {"open a trial", rtdb_open_trial, late, RTDB_OK, 9},
};

/* Plans, steps, idles and drains for a while; answers how many calls were no RTDB_OK. */
static int use(rtdb *db) {
    static rtdb_entry entries[64];
    rtdb_time time = {0, {0, 0}, 0, 0};
    rtdb_step_answer answer = {0, 0, {0, 0}, 0, 0, 0, 0, 0, 0, {0, 0, 0, 0}};
    size_t moved = 0;
    int bad = 0;
    for (unsigned k = 0; k < 200; k++) {
        rtdb_job job = {0, 0};
        bad += rtdb_plan_next(db, k % 2, &time) != RTDB_OK;
        while (rtdb_running(db, &job) == RTDB_OK) {
            bad += rtdb_step(db, job, (rtdb_operation){RTDB_QUIT, 0, 0}, &answer) != RTDB_OK;
        }
        bad += rtdb_idle(db, &time) != RTDB_OK;
        bad += rtdb_drain(db, entries, 64, &moved) != RTDB_OK;
    }
    return bad;
}

/* Refuses each growth of the margin in turn; answers how many went wrong. The last time none is refused. */
static int margins(rtdb *db) {
    long before = held;
    int bad = 0;
    for (refused = 0;; refused++) {
        rtdb_margin_answer answer = {7777, 0, {0, 0, 0, 0, 0}};
        growths = 0;
        rtdb_status status = rtdb_margin(db, &answer);
        bad += held != before;
        if (status == RTDB_OK && growths <= refused) return bad + (answer.percent > 1000);
        bad += status != RTDB_NO_MEMORY || answer.percent != 7777;
    }
}

/* Refuses the growths 0, 1 and so on, until an opening comes to its answer without the one that is refused. That answer has to be
 * the wanted one, and to have come after just as many growths, so each was refused once. */
static int try_each(size_t which) {
    rtdb_tables tables = {items, 3, tries[which].transactions, 2, sets, 1, numbers, 6};
    int bad = 0;
    for (refused = 0;; refused++) {
        rtdb db = RTDB_INIT;
        rtdb_refusal refusal = {9, 9, 9, 9, 9};
        growths = 0;
        rtdb_status status = tries[which].open(&db, &tables, 256, &refusal);
        long taken = growths;
        int is_last = taken <= refused;
        int good = is_last ? status == tries[which].status && refusal.rule == tries[which].rule && taken == refused
                           : status == RTDB_NO_MEMORY && refusal.rule == 0 && refusal.which == 0 && refusal.a == 0 && refusal.b == 0 && refusal.c == 0;
        if (status == RTDB_OK) {
            bad += use(&db);
            if (growths != taken) good = 0;
            long openings = refused;
            bad += margins(&db);
            refused = openings;
            if (rtdb_close(&db) != RTDB_OK) good = 0;
        }
        if (!good || db.at != NULL || held != 0) {
            bad++;
            fprintf(stderr, "%s: growth %ld of %ld: status %u, rule %u, %ld blocks are held\n", tries[which].name, refused, taken,
                    (unsigned)status, (unsigned)refusal.rule, held);
        }
        if (is_last) break;
    }
    printf("%s: %ld growths refused, faults %d\n", tries[which].name, refused, bad);
    return bad;
}

int main(void) {
    int bad = 0;
    for (size_t which = 0; which < sizeof tries / sizeof tries[0]; which++) bad += try_each(which);
    return bad != 0;
}

/* Makes one call so many times, to be counted by valgrind's callgrind: the instructions of two runs of different length tell what
 * the call costs.
 *
 *   cost CALL COUNT     CALL is peek, running, now, refused, compute, write or job; COUNT is at most 4,096
 *
 * A job is its plan, the idling to its release, a write, a commit, and the drain of their entries. */
#include <stdlib.h>
#include <string.h>

#include "rtdb.h"

static const rtdb_item items[] = {{RTDB_SENSOR, 100000, 0}};
static const uint32_t numbers[] = {0};
static const rtdb_transaction transactions[] = {{1, 0, 0, 0, 1, 20000, 0, 20000, 10000, 0}};
static const rtdb_together no_sets[1] = {{0, 0, 0}};
static const rtdb_tables tables = {items, 1, transactions, 1, no_sets, 0, numbers, 1};

struct run {
    rtdb db;
    rtdb_job job;
    rtdb_time time;
    rtdb_step_answer answer;
    rtdb_stored stored;
    uint64_t now;
    size_t moved;
    rtdb_entry entries[64];
};

static int step(struct run *r, uint32_t operation, int64_t value) {
    return rtdb_step(&r->db, r->job, (rtdb_operation){operation, 0, value}, &r->answer) == RTDB_OK && r->answer.reply == RTDB_DONE;
}

static int job(struct run *r, long k) {
    if (rtdb_plan(&r->db, 0, (uint64_t)(k + 1) * 20000, &r->time) != RTDB_OK || r->time.reply != RTDB_PLANNED) return 0;
    r->job = r->time.job;
    if (rtdb_idle(&r->db, &r->time) != RTDB_OK || !step(r, RTDB_WRITE, k) || !step(r, RTDB_COMMIT, 0)) return 0;
    return rtdb_drain(&r->db, r->entries, 64, &r->moved) == RTDB_OK;
}

static int peek(struct run *r, long k) {
    (void)k;
    return rtdb_peek(&r->db, 0, &r->stored) == RTDB_OK;
}

static int running(struct run *r, long k) {
    (void)k;
    return rtdb_running(&r->db, &r->job) == RTDB_OK;
}

static int now(struct run *r, long k) {
    (void)k;
    return rtdb_now(&r->db, &r->now) == RTDB_OK;
}

static int refused(struct run *r, long k) {
    (void)k;
    return rtdb_step(&r->db, r->job, (rtdb_operation){RTDB_READ, 0, 0}, &r->answer) == RTDB_OK && r->answer.reply == RTDB_UNDECLARED;
}

static int compute(struct run *r, long k) {
    (void)k;
    return step(r, RTDB_COMPUTE, 0);
}

static int write_item(struct run *r, long k) {
    return step(r, RTDB_WRITE, k);
}

/* Each call has a loop of its own, so that little stands around it. */
#define REPEATED(call) \
    static int call##_times(struct run *r, long times) { \
        for (long k = 0; k < times; k++) { \
            if (!call(r, k)) return 0; \
        } \
        return 1; \
    }

REPEATED(peek)
REPEATED(running)
REPEATED(now)
REPEATED(refused)
REPEATED(compute)
REPEATED(write_item)
REPEATED(job)

static const struct {
    const char *name;
    int (*repeat)(struct run *r, long times);
} calls[] = {{"peek", peek_times}, {"running", running_times}, {"now", now_times}, {"refused", refused_times},
    {"compute", compute_times}, {"write", write_item_times}, {"job", job_times}};

int main(int count, char **words) {
    static struct run r;
    rtdb_refusal refusal = {0, 0, 0, 0, 0};
    size_t at = 0;
    if (count != 3) return 2;
    while (strcmp(words[1], calls[at].name) != 0) {
        if (++at == sizeof calls / sizeof calls[0]) return 2;
    }
    if (rtdb_open(&r.db, &tables, 8192, &refusal) != RTDB_OK) return 1;
    if (calls[at].repeat != job_times && rtdb_plan(&r.db, 0, 0, &r.time) != RTDB_OK) return 1;
    if (!calls[at].repeat(&r, atol(words[2]))) return 1;
    return rtdb_close(&r.db) == RTDB_OK ? 0 : 1;
}

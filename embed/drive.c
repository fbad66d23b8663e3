/* Drives the generated set of n transactions as core_bench does, by the same calls, and prints the same line: so the
 * instructions of the two, and the entries a second, compare what the calls by a handle cost beside those of the board.
 *
 *   drive N JOBS PLANS     N is 1 to 64; JOBS of each transaction, N times JOBS is at most 65,536; PLANS is ahead, where all
 *                          releases are planned before the first step, or eager, where each job is planned when the one
 *                          before it ended
 *
 * The period of the set is T = 8n + 8. Item i is a sensor where i is even, else derived, of validity 4T; item n is a state item.
 * Transaction i has the priority n - i, the offset 3 (n - 1 - i) and 4 steps. For an even i it writes item i; for an odd i it reads
 * item i - 1 and writes the items i and n. */
#include <stdio.h>
#include <stdlib.h>
#include <string.h>

#include "rtdb.h"

enum { MOST_TXNS = 64, MOST_JOBS = 65536, MOST_ENTRIES = 7, MOST_TURNS = 1 << 20 };

struct progress {
    uint32_t place;   /* the next operation of the pending job */
    uint32_t planned; /* how many jobs were planned */
    int64_t last;     /* what was read last */
};

struct plant {
    struct progress at[MOST_TXNS];
    rtdb db;
    uint32_t n;
    uint32_t jobs;
    rtdb_job job;            /* the running one */
    rtdb_time time;          /* the answer to the last plan, or to the last idling */
    rtdb_step_answer answer; /* of the last step */
};

static uint64_t offset_of(uint32_t n, uint32_t i) {
    return 3 * (uint64_t)(n - 1 - i);
}

static rtdb_status opened(struct plant *p, size_t room) {
    static rtdb_item items[MOST_TXNS + 1];
    static rtdb_transaction transactions[MOST_TXNS];
    static uint32_t numbers[3 * MOST_TXNS];
    static const rtdb_together no_sets[1] = {{0, 0, 0}};
    rtdb_refusal refusal = {0, 0, 0, 0, 0};
    uint32_t n = p->n, used = 0;
    uint64_t period = 8 * (uint64_t)n + 8;
    for (uint32_t i = 0; i < n; i++) {
        uint32_t odd = i % 2;
        items[i] = (rtdb_item){odd ? RTDB_DERIVED : RTDB_SENSOR, 4 * period, 0};
        transactions[i] = (rtdb_transaction){n - i, used, odd, used + odd, 1 + odd, period, offset_of(n, i), period, 4, 0};
        if (odd) numbers[used++] = i - 1;
        numbers[used++] = i;
        if (odd) numbers[used++] = n;
    }
    items[n] = (rtdb_item){RTDB_STATE, 0, 0};
    rtdb_tables tables = {items, n + 1, transactions, n, no_sets, 0, numbers, used};
    return rtdb_open(&p->db, &tables, room, &refusal);
}

static int plan_next(struct plant *p, uint32_t tx) {
    return rtdb_plan_next(&p->db, tx, &p->time) == RTDB_OK && p->time.reply == RTDB_PLANNED;
}

/* The first job at the offset, and each next one a period later. */
static void plan_first(struct plant *p, uint32_t tx, uint32_t count) {
    if (count == 0 || rtdb_plan(&p->db, tx, offset_of(p->n, tx), &p->time) != RTDB_OK || p->time.reply != RTDB_PLANNED) return;
    p->at[tx].planned = 1;
    while (p->at[tx].planned < count && plan_next(p, tx)) p->at[tx].planned++;
}

/* The job asks for an operation. */
static rtdb_status asked(struct plant *p, uint32_t operation, uint32_t item, int64_t value) {
    return rtdb_step(&p->db, p->job, (rtdb_operation){operation, item, value}, &p->answer);
}

/* The running job asks for the operation at its place. */
static rtdb_status step(struct plant *p, const struct progress *at) {
    uint32_t i = p->job.transaction;
    if (i % 2 == 0) {
        if (at->place == 0) return asked(p, RTDB_WRITE, i, p->job.serial);
        if (at->place <= 2) return asked(p, RTDB_COMPUTE, 0, 0);
    } else {
        if (at->place == 0) return asked(p, RTDB_READ, i - 1, 0);
        if (at->place == 1) return asked(p, RTDB_WRITE, i, at->last);
        if (at->place == 2) return asked(p, RTDB_WRITE, p->n, at->last + i);
    }
    return asked(p, RTDB_COMMIT, 0, 0);
}

/* The running job goes on. 0 where it is refused for good. */
static int ask(struct plant *p) {
    struct progress *at = &p->at[p->job.transaction];
    if (step(p, at) != RTDB_OK) return 0;
    if (p->answer.reply != RTDB_DONE) return p->answer.reply == RTDB_BLOCKED;
    if (p->answer.over.kind != RTDB_NOT_ENDED) {
        at->place = 0;
        if (at->planned < p->jobs && plan_next(p, p->job.transaction)) at->planned++;
        return 1;
    }
    at->place++;
    if (p->answer.outcome == RTDB_GOT) at->last = p->answer.value;
    return 1;
}

static int turn(struct plant *p) {
    if (rtdb_running(&p->db, &p->job) == RTDB_OK) return ask(p);
    return rtdb_idle(&p->db, &p->time) == RTDB_OK && p->time.reply == RTDB_ADVANCED;
}

int main(int count, char **words) {
    static struct plant p;
    if (count != 4) return 2;
    p.n = (uint32_t)strtoul(words[1], NULL, 10);
    p.jobs = (uint32_t)strtoul(words[2], NULL, 10);
    if (p.n == 0 || p.n > MOST_TXNS || p.jobs > MOST_JOBS / p.n) return 2;
    if (opened(&p, (size_t)MOST_ENTRIES * p.n * p.jobs) != RTDB_OK) return 1;
    for (uint32_t i = 0; i < p.n; i++) plan_first(&p, i, strcmp(words[3], "eager") == 0 && p.jobs > 1 ? 1 : p.jobs);
    unsigned turns = 0;
    while (turns < MOST_TURNS && turn(&p)) turns++;
    size_t kept = 0;
    uint64_t drained = 0, now = 0;
    if (rtdb_kept(&p.db, &kept, &drained) != RTDB_OK || rtdb_now(&p.db, &now) != RTDB_OK) return 1;
    printf("entries %llu turns %u now %llu\n", (unsigned long long)(kept + drained), turns, (unsigned long long)now);
    return rtdb_close(&p.db) == RTDB_OK ? 0 : 1;
}

/* A sampler that writes the level of a tank, and a controller that reads it and sets a valve. It is compiled as C99 and as
 * C++11:
 *
 *   cc tank.c $(pkg-config --cflags --libs rtdb) -o tank
 */
#include <stdio.h>

#include "rtdb.h"

enum { LEVEL, VALVE };
enum { SAMPLER, CONTROLLER };

static const rtdb_item items[] = {{RTDB_SENSOR, 20, 0}, {RTDB_STATE, 0, 0}};

/* The lists: what the sampler writes, what the controller reads, what it writes. */
static const uint32_t numbers[] = {LEVEL, LEVEL, VALVE};

static const rtdb_transaction transactions[] = {
    /* priority; reads at, count; writes at, count; period, offset, deadline; steps, quiet */
    {2, 0, 0, 0, 1, 10, 0, 10, 2, 0},
    {1, 1, 1, 2, 1, 20, 8, 20, 4, 0},
};

/* There is no relative set, but the pointer is not null. */
static const rtdb_together no_sets[1] = {{0, 0, 0}};

static const rtdb_tables tables = {items, 2, transactions, 2, no_sets, 0, numbers, 3};

/* How far the job of a transaction is. */
struct progress {
    uint32_t serial;
    uint32_t granted;
    int64_t level;
};

struct counts {
    unsigned plans, steps, refusals, idles, committed;
};

static rtdb_operation operation_of(uint32_t operation, uint32_t item, int64_t value) {
    rtdb_operation asked = {operation, item, value};
    return asked;
}

/* The next operation of the body. */
static rtdb_operation next(const struct progress *at, uint32_t transaction) {
    if (transaction == SAMPLER) {
        int64_t level = (int64_t)at->serial * 4 + 52;
        return at->granted == 0 ? operation_of(RTDB_WRITE, LEVEL, level) : operation_of(RTDB_COMMIT, 0, 0);
    }
    switch (at->granted) {
    case 0:
        return operation_of(RTDB_READ, LEVEL, 0);
    case 1:
        return operation_of(RTDB_COMPUTE, 0, 0);
    case 2:
        return operation_of(RTDB_WRITE, VALVE, at->level > 50 ? at->level - 50 : 0);
    default:
        return operation_of(RTDB_COMMIT, 0, 0);
    }
}

/* Plans so many jobs, a period from each other. */
static int plan(rtdb *db, uint32_t transaction, unsigned jobs, struct counts *counts) {
    const rtdb_transaction *t = &transactions[transaction];
    for (unsigned k = 0; k < jobs; k++) {
        rtdb_time answer = {0, {0, 0}, 0, 0};
        if (rtdb_plan(db, transaction, t->offset + k * t->period, &answer) != RTDB_OK) return 0;
        if (answer.reply != RTDB_PLANNED) return 0;
        counts->plans++;
    }
    return 1;
}

/* The running job asks for the next operation of its body. */
static int ask(rtdb *db, rtdb_job job, struct progress *at, struct counts *counts) {
    rtdb_step_answer answer = {0, 0, {0, 0}, 0, 0, 0, 0, 0, 0, {0, 0, 0, 0}};
    if (at->serial != job.serial) {
        at->serial = job.serial;
        at->granted = 0;
    }
    if (rtdb_step(db, job, next(at, job.transaction), &answer) != RTDB_OK) return 0;
    switch (answer.reply) {
    case RTDB_DONE:
        counts->steps++;
        at->granted++;
        if (answer.outcome == RTDB_GOT) at->level = answer.value;
        if (answer.over.kind == RTDB_COMMITTED) counts->committed++;
        return 1;
    case RTDB_BLOCKED: /* it asks again when it runs again */
        counts->refusals++;
        return 1;
    default: /* the body asks for what is not declared, or the journal is full */
        return 0;
    }
}

/* Runs until nothing is pending and nothing planned. */
static int run(rtdb *db, struct counts *counts) {
    struct progress at[2] = {{0, 0, 0}, {0, 0, 0}};
    for (;;) {
        rtdb_job job = {0, 0};
        if (rtdb_running(db, &job) == RTDB_OK) {
            if (!ask(db, job, &at[job.transaction], counts)) return 0;
            continue;
        }
        rtdb_time answer = {0, {0, 0}, 0, 0};
        if (rtdb_idle(db, &answer) != RTDB_OK) return 0;
        if (answer.reply == RTDB_NONE_PLANNED) return 1;
        if (answer.reply != RTDB_ADVANCED) return 0;
        counts->idles++;
    }
}

int main(void) {
    rtdb db = RTDB_INIT;
    rtdb_refusal refusal = {0, 0, 0, 0, 0};
    struct counts counts = {0, 0, 0, 0, 0};
    rtdb_status status = rtdb_open(&db, &tables, 64, &refusal);
    if (status != RTDB_OK) {
        printf("refused: status %u, rule %u: %llu %llu %llu\n", (unsigned)status, (unsigned)refusal.rule,
               (unsigned long long)refusal.a, (unsigned long long)refusal.b, (unsigned long long)refusal.c);
        return 1;
    }
    if (!plan(&db, SAMPLER, 4, &counts) || !plan(&db, CONTROLLER, 2, &counts) || !run(&db, &counts)) return 1;
    uint64_t now = 0;
    rtdb_stored valve = {0, 0};
    if (rtdb_now(&db, &now) != RTDB_OK || rtdb_peek(&db, VALVE, &valve) != RTDB_OK) return 1;
    printf("plans %u steps %u refusals %u idles %u\n", counts.plans, counts.steps, counts.refusals, counts.idles);
    printf("committed %u of %u, now %llu, valve %lld of tick %llu\n", counts.committed, counts.plans,
           (unsigned long long)now, (long long)valve.value, (unsigned long long)valve.stamp);
    return rtdb_close(&db) == RTDB_OK ? 0 : 1;
}

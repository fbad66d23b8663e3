#include <stdio.h>

#include "rtdb.h"

enum { LEVEL, VALVE };
enum { SAMPLER, CONTROLLER };

static const rtdb_item items[] = {{RTDB_SENSOR, 20, 0}, {RTDB_STATE, 0, 0}};
static const rtdb_transaction transactions[] = {
    /* priority; reads at, count; writes at, count; period, offset, deadline; steps, quiet */
    {2, 0, 0, 0, 1, 10, 0, 10, 2, 0},
    {1, 1, 1, 2, 1, 20, 8, 20, 3, 0},
};
/* What the sampler writes, what the controller reads, what it writes. */
static const uint32_t numbers[] = {LEVEL, LEVEL, VALVE};
static const rtdb_together no_sets[1] = {{0, 0, 0}};
static const rtdb_tables tables = {items, 2, transactions, 2, no_sets, 0, numbers, 3};
/* What a job of each asks for, in order. */
static const uint32_t bodies[2][3] = {{RTDB_WRITE, RTDB_COMMIT}, {RTDB_READ, RTDB_WRITE, RTDB_COMMIT}};

int main(void) {
    rtdb db = RTDB_INIT;
    rtdb_refusal why = {0};
    rtdb_status status = rtdb_open(&db, &tables, 64, &why);
    if (status != RTDB_OK) return (int)status;

    rtdb_time time = {0};
    rtdb_job job = {0};
    rtdb_step_answer answer = {0};
    rtdb_stored level = {0}, valve = {0};
    unsigned granted[] = {0, 0};
    int64_t got = 0;
    for (unsigned k = 0; k < 4; k++) rtdb_plan(&db, SAMPLER, 10 * k, &time);
    for (unsigned k = 0; k < 2; k++) rtdb_plan(&db, CONTROLLER, 8 + 20 * k, &time);
    do {
        while (rtdb_running(&db, &job) == RTDB_OK) {
            uint32_t t = job.transaction;
            rtdb_operation next = {bodies[t][granted[t]], LEVEL, t == SAMPLER ? 52 + 4 * (int64_t)job.serial : got - 50};
            if (t == CONTROLLER && next.operation == RTDB_WRITE) next.item = VALVE;
            if (rtdb_step(&db, job, next, &answer) != RTDB_OK) return 1;
            if (answer.reply == RTDB_BLOCKED) continue;
            if (answer.reply != RTDB_DONE) return 1;
            if (answer.outcome == RTDB_GOT) got = answer.value;
            granted[t] = answer.over.kind == RTDB_NOT_ENDED ? granted[t] + 1 : 0;
        }
        rtdb_idle(&db, &time);
    } while (time.reply == RTDB_ADVANCED);
    if (rtdb_peek(&db, LEVEL, &level) != RTDB_OK || rtdb_peek(&db, VALVE, &valve) != RTDB_OK) return 1;
    printf("level %d of tick %d, valve %d of tick %d\n", (int)level.value, (int)level.stamp, (int)valve.value, (int)valve.stamp);
    return rtdb_close(&db) == RTDB_OK ? 0 : 1;
}

/* The tank of tank.c on a plant: the sampler and the controller are each a thread with a seat of its own, and the operator
 * drains when both are back. It is compiled as C99, with threads of POSIX:
 *
 *   cc plant.c $(pkg-config --cflags --libs rtdb) -pthread -o plant
 */
#include <pthread.h>
#include <sched.h>
#include <stdio.h>

#include "rtdb.h"

enum { LEVEL, VALVE };
enum { SAMPLER, CONTROLLER };

static const rtdb_item items[] = {{RTDB_SENSOR, 20, 0}, {RTDB_STATE, 0, 0}};

static const uint32_t numbers[] = {LEVEL, LEVEL, VALVE};

static const rtdb_transaction transactions[] = {
    {2, 0, 0, 0, 1, 10, 0, 10, 2, 0},
    {1, 1, 1, 2, 1, 20, 8, 20, 4, 0},
};

static const rtdb_together no_sets[1] = {{0, 0, 0}};

static const rtdb_tables tables = {items, 2, transactions, 2, no_sets, 0, numbers, 3};

/* A thread: its seat, and how many jobs it is to run to their ends. */
struct worker {
    rtdb_seat seat;
    uint32_t transaction;
    uint32_t jobs;
    int good;
};

/* The operation that a job asks for after so many that were granted. */
static rtdb_operation next(const struct worker *w, uint32_t serial, unsigned granted, int64_t level) {
    if (w->transaction == SAMPLER) {
        if (granted == 0) return (rtdb_operation){RTDB_WRITE, LEVEL, (int64_t)serial * 4 + 52};
        return (rtdb_operation){RTDB_COMMIT, 0, 0};
    }
    switch (granted) {
    case 0:
        return (rtdb_operation){RTDB_READ, LEVEL, 0};
    case 1:
        return (rtdb_operation){RTDB_COMPUTE, 0, 0};
    case 2:
        return (rtdb_operation){RTDB_WRITE, VALVE, level > 50 ? level - 50 : 0};
    default:
        return (rtdb_operation){RTDB_COMMIT, 0, 0};
    }
}

/* One job to its end. Answers whether it committed. */
static int run_job(struct worker *w, uint32_t serial) {
    unsigned granted = 0;
    int64_t level = 0;
    for (;;) {
        rtdb_step_answer answer = {0, 0, {0, 0}, 0, 0, 0, 0, 0, 0, {0, 0, 0, 0}};
        rtdb_status status = rtdb_seat_step(&w->seat, serial, next(w, serial, granted, level), &answer);
        if (status == RTDB_BUSY) {
            sched_yield();
            continue;
        }
        if (status != RTDB_OK) return 0;
        switch (answer.reply) {
        case RTDB_DONE:
            granted++;
            if (answer.outcome == RTDB_GOT) level = answer.value;
            if (answer.over.kind != RTDB_NOT_ENDED) return answer.over.kind == RTDB_COMMITTED;
            break;
        case RTDB_NO_JOB: { /* it is not released yet: with nothing pending the time goes on */
            rtdb_time time = {0, {0, 0}, 0, 0};
            if (answer.count > serial) return 0;
            status = rtdb_seat_idle(&w->seat, &time);
            if (status != RTDB_OK && status != RTDB_BUSY) return 0;
            sched_yield();
            break;
        }
        case RTDB_NOT_YET: /* another job runs */
        case RTDB_BLOCKED:
            sched_yield();
            break;
        default:
            return 0;
        }
    }
}

static void *work(void *at) {
    struct worker *w = (struct worker *)at;
    w->good = 1;
    for (uint32_t serial = 0; serial < w->jobs; serial++) w->good = w->good && run_job(w, serial);
    return NULL;
}

/* Plans the jobs of a worker, by its seat. No other thread runs yet, so no call is told RTDB_BUSY. */
static int plan(struct worker *w) {
    rtdb_time answer = {0, {0, 0}, 0, 0};
    if (rtdb_seat_plan(&w->seat, w->transaction, transactions[w->transaction].offset, &answer) != RTDB_OK) return 0;
    for (uint32_t k = 1; k < w->jobs && answer.reply == RTDB_PLANNED; k++) {
        if (rtdb_seat_plan_next(&w->seat, w->transaction, &answer) != RTDB_OK) return 0;
    }
    return answer.reply == RTDB_PLANNED;
}

struct counts {
    unsigned plans, steps, refusals, idles, committed, late;
    unsigned long long now;
};

/* Counts the entries that the operator drains. */
static int count(rtdb_seat *operator_seat, struct counts *counts) {
    for (;;) {
        rtdb_entry entries[10];
        size_t moved = 0;
        for (int k = 0; k < 10; k++) entries[k] = (rtdb_entry){0};
        if (rtdb_seat_drain(operator_seat, entries, 10, &moved) != RTDB_OK) return 0;
        if (moved == 0) return 1;
        for (size_t k = 0; k < moved; k++) {
            const rtdb_entry *e = &entries[k];
            counts->plans += e->kind == RTDB_ENTRY_PLANNED;
            counts->steps += e->kind == RTDB_ENTRY_STEP;
            counts->refusals += e->kind == RTDB_ENTRY_BLOCKED;
            counts->idles += e->kind == RTDB_ENTRY_IDLE;
            counts->committed += e->kind == RTDB_ENTRY_STEP && e->answer.over.kind == RTDB_COMMITTED;
            counts->late += e->kind == RTDB_ENTRY_STEP && e->answer.over.kind == RTDB_LATE;
            if (e->kind == RTDB_ENTRY_STEP) counts->now = e->tick + 1;
            if (e->kind == RTDB_ENTRY_IDLE) counts->now = e->to;
        }
    }
}

/* What each seat may not call, and what a closed handle answers. */
static int try_refusals(rtdb_seat *operator_seat, struct worker *w) {
    rtdb_seat closed = RTDB_SEAT_INIT;
    rtdb_operation commit = {RTDB_COMMIT, 0, 0}, none = {9, 0, 0};
    rtdb_step_answer answer = {0, 0, {0, 0}, 0, 0, 0, 0, 0, 0, {0, 0, 0, 0}};
    rtdb_time time = {0, {0, 0}, 0, 0};
    rtdb_stored stored = {0, 0};
    rtdb_entry entry = {0};
    size_t moved = 7;
    uint32_t transaction = 7;
    uint64_t front = 7;
    return rtdb_seat_step(&closed, 0, commit, &answer) == RTDB_CLOSED
           && rtdb_seat_plan(&closed, 0, 0, &time) == RTDB_CLOSED
           && rtdb_seat_plan_next(&closed, 0, &time) == RTDB_CLOSED
           && rtdb_seat_idle(&closed, &time) == RTDB_CLOSED
           && rtdb_seat_peek(&closed, 0, &stored) == RTDB_CLOSED
           && rtdb_seat_drain(&closed, &entry, 1, &moved) == RTDB_CLOSED
           && rtdb_seat_front(&closed, &front) == RTDB_CLOSED
           && rtdb_seat_open(&closed, &w->seat, &transaction) == RTDB_CLOSED
           && rtdb_seat_close(&closed) == RTDB_CLOSED
           && rtdb_seat_open(operator_seat, &w->seat, &transaction) == RTDB_OPEN
           && rtdb_seat_open(operator_seat, &closed, &transaction) == RTDB_NOTHING
           && rtdb_seat_open(&w->seat, &closed, &transaction) == RTDB_NOTHING
           && rtdb_seat_step(operator_seat, 0, commit, &answer) == RTDB_WRONG_SEAT
           && rtdb_seat_drain(&w->seat, &entry, 1, &moved) == RTDB_WRONG_SEAT
           && rtdb_seat_step(&w->seat, 0, none, &answer) == RTDB_NO_OPERATION
           && rtdb_seat_plan(&w->seat, 2, 0, &time) == RTDB_NO_TRANSACTION
           && rtdb_seat_plan_next(&w->seat, 2, &time) == RTDB_NO_TRANSACTION
           && rtdb_seat_peek(&w->seat, 2, &stored) == RTDB_NO_ITEM
           && rtdb_seat_front(&w->seat, &front) == RTDB_OK && front == 0 && moved == 7 && transaction == 7;
}

int main(void) {
    rtdb_seat operator_seat = RTDB_SEAT_INIT;
    rtdb_refusal refusal = {0, 0, 0, 0, 0};
    struct worker workers[2] = {{RTDB_SEAT_INIT, SAMPLER, 4, 0}, {RTDB_SEAT_INIT, CONTROLLER, 2, 0}};
    struct counts counts = {0, 0, 0, 0, 0, 0, 0};
    rtdb_stored valve = {0, 0};
    pthread_t threads[2];
    if (rtdb_plant_open(&operator_seat, &tables, 64, &refusal) != RTDB_OK) return 1;
    for (uint32_t t = 2; t-- > 0;) { /* the last transaction's seat comes first */
        uint32_t which = 0;
        if (rtdb_seat_open(&operator_seat, &workers[t].seat, &which) != RTDB_OK || which != t) return 2;
    }
    if (!try_refusals(&operator_seat, &workers[SAMPLER])) return 3;
    if (!plan(&workers[SAMPLER]) || !plan(&workers[CONTROLLER])) return 4;
    for (int t = 0; t < 2; t++) {
        if (pthread_create(&threads[t], NULL, work, &workers[t]) != 0) return 5;
    }
    for (int t = 0; t < 2; t++) {
        if (pthread_join(threads[t], NULL) != 0 || !workers[t].good) return 6;
    }
    if (!count(&operator_seat, &counts) || counts.late != 0) return 7;
    if (rtdb_seat_peek(&operator_seat, VALVE, &valve) != RTDB_OK) return 8;
    printf("plans %u steps %u refusals %u idles %u\n", counts.plans, counts.steps, counts.refusals, counts.idles);
    printf("committed %u of %u, now %llu, valve %lld of tick %llu\n", counts.committed, counts.plans, counts.now,
           (long long)valve.value, (unsigned long long)valve.stamp);
    for (int t = 0; t < 2; t++) {
        if (rtdb_seat_close(&workers[t].seat) != RTDB_OK) return 9;
    }
    return rtdb_seat_close(&operator_seat) == RTDB_OK ? 0 : 10;
}

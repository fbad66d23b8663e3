/* A tank controller whose ticks are real: a tick is a millisecond of CLOCK_MONOTONIC, which is longer than any step takes.
 *
 *   real_tank SECONDS [JOURNAL]     a new file, which gets the journal
 *
 * A sampler measures the level every 10 ticks, a controller sets the valve every 20, and a display tells level, valve and setpoint
 * once a second. A line `N` on standard input makes the operator write the setpoint N. At the end it tells how far reality was from
 * the model: a tick is late where its step ended after the tick, and its lateness is how long after its time it began. By the model
 * no job is late, since the set is admitted. A thread of its own keeps the journal on the disk, so no tick waits for a sync. Ends with
 * 0 exactly where each job committed and each entry was kept. */
#define _POSIX_C_SOURCE 200809L
#include <errno.h>
#include <poll.h>
#include <pthread.h>
#include <stdio.h>
#include <stdlib.h>
#include <string.h>
#include <time.h>
#include <unistd.h>

#include "rtdb.h"
#include "rtdb_file.h"

enum { TICK_MICROSECONDS = 1000, TICKS_A_SECOND = 1000, ROOM = 1024, LOG_ROOM = 1 << 20, WAITING = 1 << 14 };
enum { LEVEL, VALVE, SETPOINT, ITEMS };
enum { SAMPLER, CONTROLLER, OPERATOR, DISPLAY, TRANSACTIONS };

static const rtdb_item items[] = {{RTDB_SENSOR, 30, 300}, {RTDB_STATE, 0, 0}, {RTDB_STATE, 0, 500}};

/* The lists: the level; the level and the setpoint; the valve; the setpoint; what is displayed. */
static const uint32_t numbers[] = {LEVEL, LEVEL, SETPOINT, VALVE, SETPOINT, LEVEL, VALVE, SETPOINT};

static const rtdb_transaction transactions[] = {
    /* priority; reads at, count; writes at, count; period, offset, deadline; steps, quiet */
    {4, 0, 0, 0, 1, 10, 0, 10, 2, 0},
    {3, 1, 2, 3, 1, 20, 2, 20, 5, 0},
    {2, 0, 0, 4, 1, 100, 0, 100, 2, 0},
    {1, 5, 3, 0, 0, TICKS_A_SECOND, 5, TICKS_A_SECOND, 4, 0},
};

static const rtdb_together no_sets[1] = {{0, 0, 0}};

static const rtdb_tables tables = {items, ITEMS, transactions, TRANSACTIONS, no_sets, 0, numbers, sizeof numbers / sizeof numbers[0]};

/* The same set with its names, as the journal's log wants it. */
static const char text[] =
    "rtdb report 1\n"
    "item level sensor 30 300\n"
    "item valve state - 0\n"
    "item setpoint state - 500\n"
    "txn sampler 4 10 0 10 2 reads - writes level\n"
    "txn controller 3 20 2 20 5 reads level,setpoint writes valve\n"
    "txn operator 2 100 0 100 2 reads - writes setpoint\n"
    "txn display 1 1000 5 1000 4 reads level,valve,setpoint writes -\n"
    "mode admitted\n";

/* The thread that keeps the journal, and the entries that wait for it. */
struct logger {
    pthread_t thread;
    pthread_mutex_t lock;
    pthread_cond_t changed;
    rtdb_entry waiting[WAITING];
    size_t first, count;
    int is_over, has_failed, runs;
    rtdb_log log;
    int file;
};

/* The job that a transaction's body is at: how many of its steps were granted, and what it read. */
struct progress {
    uint32_t serial;
    uint32_t granted;
    int64_t read[3];
};

struct plant {
    rtdb db;
    struct progress at[TRANSACTIONS];
    uint64_t next[TRANSACTIONS]; /* the planned release, where one is planned */
    int is_planned[TRANSACTIONS];
    int64_t water;    /* what a sensor would measure */
    int64_t setpoint; /* the operator's wish */
    struct logger *logger;
    int reads_lines;
    char line[64];
    size_t length;
};

/* How far reality was from the model. */
struct reality {
    struct timespec start;
    uint64_t ticks, late;
    int64_t lateness, longest; /* microseconds */
    uint64_t jobs, committed, late_jobs;
};

static int fail(const char *why) {
    fprintf(stderr, "real_tank: %s\n", why);
    return 0;
}

/* ---- the clock ---- */

static struct timespec time_of(const struct reality *r, uint64_t tick) {
    struct timespec t = r->start;
    uint64_t microseconds = tick * TICK_MICROSECONDS;
    t.tv_sec += (time_t)(microseconds / 1000000);
    t.tv_nsec += (long)(microseconds % 1000000) * 1000;
    if (t.tv_nsec >= 1000000000) {
        t.tv_nsec -= 1000000000;
        t.tv_sec++;
    }
    return t;
}

/* The microseconds from one time to a later one; below 0 where it is an earlier one. */
static int64_t between(struct timespec from, struct timespec to) {
    return (int64_t)(to.tv_sec - from.tv_sec) * 1000000 + (to.tv_nsec - from.tv_nsec) / 1000;
}

static struct timespec now(void) {
    struct timespec t;
    clock_gettime(CLOCK_MONOTONIC, &t);
    return t;
}

/* Waits for the tick's time, and notes how late it began. */
static void wait_for(struct reality *r, uint64_t tick) {
    struct timespec at = time_of(r, tick);
    while (clock_nanosleep(CLOCK_MONOTONIC, TIMER_ABSTIME, &at, NULL) == EINTR) continue;
    int64_t lateness = between(at, now());
    if (lateness > r->lateness) r->lateness = lateness;
    r->ticks++;
}

/* ---- what goes out and comes in ---- */

/* The logger: keeps what waits, in pieces, until no more comes. */
static void *keep_entries(void *given) {
    struct logger *l = given;
    rtdb_entry piece[RTDB_LOG_MOST];
    for (;;) {
        size_t count = 0;
        pthread_mutex_lock(&l->lock);
        while (l->count == 0 && !l->is_over) pthread_cond_wait(&l->changed, &l->lock);
        for (; count < RTDB_LOG_MOST && count < l->count; count++) piece[count] = l->waiting[(l->first + count) % WAITING];
        l->first = (l->first + count) % WAITING;
        l->count -= count;
        pthread_mutex_unlock(&l->lock);
        if (count == 0) return NULL;
        if (rtdb_log_append(&l->log, piece, count) != RTDB_OK || !rtdb_file_make_all(l->file, &l->log)) {
            pthread_mutex_lock(&l->lock);
            l->has_failed = 1;
            pthread_mutex_unlock(&l->lock);
            return NULL;
        }
    }
}

/* Hands drained entries to the logger. Fails where they have no place there, or an earlier one was not kept. */
static int hand_over(struct logger *l, const rtdb_entry *entries, size_t count) {
    pthread_mutex_lock(&l->lock);
    int good = !l->has_failed && l->count + count <= WAITING;
    for (size_t k = 0; good && k < count; k++) l->waiting[(l->first + l->count + k) % WAITING] = entries[k];
    if (good) l->count += count;
    pthread_cond_signal(&l->changed);
    pthread_mutex_unlock(&l->lock);
    return good;
}

/* Hands the entries of the history to the logger, which makes room for more. */
static int log_entries(struct plant *p) {
    static rtdb_entry entries[64];
    size_t moved = 0;
    do {
        if (rtdb_drain(&p->db, entries, 64, &moved) != RTDB_OK) return fail("no entries");
        if (p->logger != NULL && !hand_over(p->logger, entries, moved)) return fail("an entry is not kept");
    } while (moved > 0);
    return 1;
}

/* Opens the journal of a new file, and starts its thread. */
static int start_logger(struct logger *l, const char *path) {
    rtdb_refusal refusal = {0, 0, 0, 0, 0};
    uint8_t *bytes = NULL;
    size_t length = 0;
    l->file = rtdb_file_open(path);
    if (l->file < 0 || !rtdb_file_read(l->file, &bytes, &length)) return fail("there is no such file, or another program has it");
    free(bytes);
    if (length != 0) return fail("the file has an earlier journal");
    if (rtdb_log_open(&l->log, (const uint8_t *)text, sizeof text - 1, (const uint8_t *)text, 0, LOG_ROOM, &refusal) != RTDB_OK) return fail("no log");
    if (!rtdb_file_make_all(l->file, &l->log)) return fail("the file takes nothing");
    l->runs = pthread_create(&l->thread, NULL, keep_entries, l) == 0;
    return l->runs ? 1 : fail("no thread");
}

/* Waits until all is kept, and closes the journal. */
static int stop_logger(struct logger *l) {
    pthread_mutex_lock(&l->lock);
    l->is_over = 1;
    pthread_cond_signal(&l->changed);
    pthread_mutex_unlock(&l->lock);
    if (l->runs) pthread_join(l->thread, NULL);
    if (rtdb_log_close(&l->log) != RTDB_OK || close(l->file) != 0 || !l->runs) return 0;
    return l->has_failed ? fail("an entry is not kept") : 1;
}

/* Takes what stands on standard input; a whole line is the new setpoint. Answers whether there is one. */
static int read_setpoint(struct plant *p) {
    struct pollfd input = {STDIN_FILENO, POLLIN, 0};
    while (p->reads_lines && poll(&input, 1, 0) > 0) {
        char byte = 0;
        if (read(STDIN_FILENO, &byte, 1) != 1) {
            p->reads_lines = 0;
        } else if (byte != '\n') {
            if (p->length < sizeof p->line - 1) p->line[p->length++] = byte;
        } else {
            char *end = NULL;
            p->line[p->length] = '\0';
            p->length = 0;
            long wish = strtol(p->line, &end, 10);
            if (end != p->line && wish >= 0 && wish <= 1000) {
                p->setpoint = wish;
                return 1;
            }
            fprintf(stderr, "a setpoint is a number from 0 to 1000\n");
        }
    }
    return 0;
}

/* ---- the bodies ---- */

/* The valve is open by half, and by more or less where the level lies above or below the setpoint. */
static int64_t opening(int64_t level, int64_t setpoint) {
    int64_t percent = 50 + (level - setpoint) / 2;
    return percent < 0 ? 0 : percent > 100 ? 100 : percent;
}

/* The next operation of a transaction's body. */
static rtdb_operation next(const struct plant *p, uint32_t transaction) {
    const struct progress *at = &p->at[transaction];
    uint32_t last = (uint32_t)transactions[transaction].steps - 1;
    if (at->granted == last) return (rtdb_operation){RTDB_COMMIT, 0, 0};
    switch (transaction) {
    case SAMPLER:
        return (rtdb_operation){RTDB_WRITE, LEVEL, p->water};
    case CONTROLLER:
        if (at->granted < 2) return (rtdb_operation){RTDB_READ, at->granted == 0 ? LEVEL : SETPOINT, 0};
        if (at->granted == 2) return (rtdb_operation){RTDB_COMPUTE, 0, 0};
        return (rtdb_operation){RTDB_WRITE, VALVE, opening(at->read[0], at->read[1])};
    case OPERATOR:
        return (rtdb_operation){RTDB_WRITE, SETPOINT, p->setpoint};
    default:
        return (rtdb_operation){RTDB_READ, at->granted == 0 ? LEVEL : at->granted == 1 ? VALVE : SETPOINT, 0};
    }
}

/* What a committed job does to the world: water runs in and out between two samples, and the display is written. */
static void act(struct plant *p, const struct reality *r, uint32_t transaction) {
    rtdb_stored valve = {0, 0};
    const int64_t *read = p->at[transaction].read;
    if (transaction == SAMPLER && rtdb_peek(&p->db, VALVE, &valve) == RTDB_OK) {
        p->water += (50 - valve.value) / 10;
    } else if (transaction == DISPLAY) {
        printf("level %lld, valve %lld, setpoint %lld; late %llu of %llu ticks, greatest lateness %lld us\n", (long long)read[0],
               (long long)read[1], (long long)read[2], (unsigned long long)r->late, (unsigned long long)r->ticks, (long long)r->lateness);
        fflush(stdout);
    }
}

/* ---- ticks ---- */

static int plan(struct plant *p, uint32_t transaction, uint64_t tick) {
    rtdb_time answer = {0, {0, 0}, 0, 0};
    if (rtdb_plan(&p->db, transaction, tick, &answer) != RTDB_OK || answer.reply != RTDB_PLANNED) return fail("a job is not planned");
    p->next[transaction] = tick;
    p->is_planned[transaction] = 1;
    return 1;
}

/* A job ended: that of a periodic transaction is planned again, a period after its release. */
static int ended(struct plant *p, struct reality *r, uint32_t transaction, uint32_t kind) {
    r->jobs++;
    if (kind == RTDB_COMMITTED) r->committed++;
    if (kind == RTDB_LATE) r->late_jobs++;
    p->is_planned[transaction] = 0;
    p->at[transaction].granted = 0;
    if (kind == RTDB_COMMITTED) act(p, r, transaction);
    if (transaction == OPERATOR) return 1;
    return plan(p, transaction, p->next[transaction] + transactions[transaction].period);
}

/* The running job asks, and where it is refused the one that holds the lock: one granted step, which is the tick's. */
static int step(struct plant *p, struct reality *r) {
    rtdb_job job = {0, 0};
    rtdb_step_answer answer;
    memset(&answer, 0, sizeof answer);
    do {
        if (rtdb_running(&p->db, &job) != RTDB_OK) return fail("no job runs");
        rtdb_operation asked = next(p, job.transaction);
        struct timespec before = now();
        if (rtdb_step(&p->db, job, asked, &answer) != RTDB_OK) return fail("no such step");
        int64_t took = between(before, now());
        if (took > r->longest) r->longest = took;
    } while (answer.reply == RTDB_BLOCKED);
    if (answer.reply != RTDB_DONE) return fail("a step is refused");
    struct progress *at = &p->at[job.transaction];
    if (answer.outcome == RTDB_GOT) at->read[at->granted] = answer.value;
    at->granted++;
    return answer.over.kind == RTDB_NOT_ENDED || ended(p, r, job.transaction, answer.over.kind);
}

/* The least tick for which a release is planned. */
static uint64_t next_release(const struct plant *p) {
    uint64_t least = UINT64_MAX;
    for (int t = 0; t < TRANSACTIONS; t++) {
        if (p->is_planned[t] && p->next[t] < least) least = p->next[t];
    }
    return least;
}

/* No job is pending: there is time to log, and for the operator. Where the next release is due, the model's time goes on to it, and
 * its job takes the tick's step. */
static int idle(struct plant *p, struct reality *r, uint64_t tick) {
    rtdb_time answer = {0, {0, 0}, 0, 0};
    if (next_release(p) == tick) {
        if (rtdb_idle(&p->db, &answer) != RTDB_OK || answer.reply != RTDB_ADVANCED) return fail("the time does not go on");
        return step(p, r);
    }
    if (!p->is_planned[OPERATOR] && read_setpoint(p)) {
        uint64_t earliest = p->next[OPERATOR] == 0 ? 0 : p->next[OPERATOR] + transactions[OPERATOR].period;
        return plan(p, OPERATOR, earliest > tick ? earliest : tick + 1);
    }
    return tick % 100 != 99 || log_entries(p);
}

static int run(struct plant *p, struct reality *r, uint64_t ticks) {
    rtdb_job job = {0, 0};
    r->start = now();
    for (uint64_t tick = 0; tick < ticks; tick++) {
        wait_for(r, tick);
        int good = rtdb_running(&p->db, &job) == RTDB_OK ? step(p, r) : idle(p, r, tick);
        if (!good) return 0;
        if (between(time_of(r, tick + 1), now()) > 0) r->late++;
    }
    return log_entries(p);
}

static int open_plant(struct plant *p) {
    rtdb_refusal refusal = {0, 0, 0, 0, 0};
    rtdb_status status = rtdb_open(&p->db, &tables, ROOM, &refusal);
    if (status != RTDB_OK) {
        fprintf(stderr, "refused: status %u, rule %u\n", (unsigned)status, (unsigned)refusal.rule);
        return 0;
    }
    return plan(p, SAMPLER, transactions[SAMPLER].offset) && plan(p, CONTROLLER, transactions[CONTROLLER].offset) &&
           plan(p, DISPLAY, transactions[DISPLAY].offset);
}

int main(int count, char **words) {
    static struct plant p = {.db = RTDB_INIT, .water = 300, .reads_lines = 1};
    static struct logger logger = {.lock = PTHREAD_MUTEX_INITIALIZER, .changed = PTHREAD_COND_INITIALIZER, .file = -1};
    static struct reality r;
    long seconds = count > 1 ? atol(words[1]) : 0;
    if (count > 3 || seconds < 1) {
        fprintf(stderr, "real_tank SECONDS [JOURNAL]\n");
        return 2;
    }
    if (count == 3) {
        if (!start_logger(&logger, words[2])) return 2;
        p.logger = &logger;
    }
    int good = open_plant(&p) && run(&p, &r, (uint64_t)seconds * TICKS_A_SECOND);
    if (p.logger != NULL && !stop_logger(p.logger)) good = 0;
    if (rtdb_close(&p.db) != RTDB_OK) good = 0;
    printf("%llu ticks, %llu late, greatest lateness %lld us, longest step %lld us; %llu jobs, %llu committed, %llu late by the model\n",
           (unsigned long long)r.ticks, (unsigned long long)r.late, (long long)r.lateness, (long long)r.longest,
           (unsigned long long)r.jobs, (unsigned long long)r.committed, (unsigned long long)r.late_jobs);
    return good && r.jobs > 0 && r.committed == r.jobs ? 0 : 1;
}

/* Each function of rtdb.h, each status but want of memory, and refusals with their numbers. A check that fails is told, and the
 * program ends with 1. */
#include <stdio.h>
#include <string.h>

#include "rtdb.h"

static int failed;

static void is(int good, const char *what, int line) {
    if (good) return;
    printf("line %d: %s\n", line, what);
    failed = 1;
}

#define IS(good) is(good, #good, __LINE__)

static const rtdb_item items[] = {{RTDB_SENSOR, 20, 3}, {RTDB_STATE, 0, 4}};
static const uint32_t numbers[] = {0, 0, 1};
static const rtdb_transaction transactions[] = {
    {.priority = 2, .writes_at = 0, .writes = 1, .period = 10, .deadline = 10, .steps = 2},
    {.priority = 1, .reads_at = 1, .reads = 1, .writes_at = 2, .writes = 1, .period = 20, .offset = 8, .deadline = 20, .steps = 4},
};
static const rtdb_together sets[] = {{1, 2, 5}};
static const rtdb_tables tables = {items, 2, transactions, 2, sets, 0, numbers, 3};
static const rtdb_operation read_first = {RTDB_READ, 0, 0}, compute = {RTDB_COMPUTE, 0, 0}, commit = {RTDB_COMMIT, 0, 0};

/* The same tables with these transactions. */
static rtdb_status open_set(rtdb *db, const rtdb_transaction *rows, size_t count, size_t room, rtdb_refusal *refusal) {
    rtdb_tables other = tables;
    other.transactions = rows;
    other.transaction_count = count;
    return rtdb_open(db, &other, room, refusal);
}

static int refusal_is(rtdb_refusal r, uint32_t rule, uint64_t a, uint64_t b, uint64_t c) {
    return r.rule == rule && r.a == a && r.b == b && r.c == c;
}

/* A closed handle is told, and what is written to stays as it was. */
static void closed(void) {
    rtdb db = RTDB_INIT;
    rtdb_job job = {7, 7};
    rtdb_time time = {7, {7, 7}, 7, 7};
    rtdb_step_answer answer = {0};
    rtdb_stored stored = {7, 7};
    rtdb_entry entry = {0};
    uint64_t ticks = 7;
    uint32_t count = 7;
    size_t size = 7;
    rtdb_margin_answer margin = {7, 7, {7, 7, 7, 7, 7}};
    IS(rtdb_close(&db) == RTDB_CLOSED);
    IS(rtdb_margin(&db, &margin) == RTDB_CLOSED && margin.percent == 7 && margin.refusal.c == 7);
    IS(rtdb_response(&db, 0, &ticks) == RTDB_CLOSED && rtdb_blocking(&db, 0, &ticks) == RTDB_CLOSED);
    IS(rtdb_age(&db, 0, &ticks) == RTDB_CLOSED && rtdb_now(&db, &ticks) == RTDB_CLOSED && ticks == 7);
    IS(rtdb_plan(&db, 0, 0, &time) == RTDB_CLOSED && rtdb_plan_next(&db, 0, &time) == RTDB_CLOSED);
    IS(rtdb_idle(&db, &time) == RTDB_CLOSED && time.reply == 7 && time.tick == 7);
    IS(rtdb_step(&db, job, commit, &answer) == RTDB_CLOSED);
    IS(rtdb_running(&db, &job) == RTDB_CLOSED && rtdb_pending(&db, 0, &job) == RTDB_CLOSED && job.serial == 7);
    IS(rtdb_ended(&db, 0, &count) == RTDB_CLOSED && count == 7);
    IS(rtdb_peek(&db, 0, &stored) == RTDB_CLOSED && stored.value == 7);
    IS(rtdb_planned(&db, &size) == RTDB_CLOSED && rtdb_drain(&db, &entry, 1, &size) == RTDB_CLOSED);
    IS(rtdb_kept(&db, &size, &ticks) == RTDB_CLOSED && size == 7 && ticks == 7);
}

/* Each refusal leaves the handle closed. */
static void refusals(void) {
    rtdb db = RTDB_INIT;
    rtdb_refusal r = {0};
    rtdb_transaction rows[2];
    rtdb_item bad[2] = {{RTDB_SENSOR, 20, 0}, {3, 0, 0}};
    IS(open_set(&db, transactions, 2, RTDB_MOST_ROOM + 1, &r) == RTDB_NO_ROOM && refusal_is(r, 0, 0, 0, 0));
    rtdb_tables bad_kind = tables, one_item = tables, few_numbers = tables, bad_set = tables, one_set = tables;
    bad_kind.items = bad;
    IS(rtdb_open(&db, &bad_kind, 8, &r) == RTDB_BAD_TABLE && refusal_is(r, RTDB_BAD_KIND, 1, 0, 0));
    one_item.item_count = 1;
    IS(rtdb_open(&db, &one_item, 8, &r) == RTDB_BAD_TABLE && refusal_is(r, RTDB_BAD_NUMBER, 2, 0, 0));
    few_numbers.id_count = 2;
    IS(rtdb_open(&db, &few_numbers, 8, &r) == RTDB_BAD_TABLE && refusal_is(r, RTDB_BAD_TRANSACTION, 1, 0, 0));
    rtdb_together outside = {2, 2, 5};
    bad_set.together = &outside;
    bad_set.together_count = one_set.together_count = 1;
    IS(rtdb_open(&db, &bad_set, 8, &r) == RTDB_BAD_TABLE && refusal_is(r, RTDB_BAD_TOGETHER_ROW, 0, 0, 0));
    IS(rtdb_open(&db, &one_set, 8, &r) == RTDB_NOT_COMPILED && refusal_is(r, RTDB_BAD_TOGETHER, 0, 0, 0));
    memcpy(rows, transactions, sizeof rows);
    rows[1].priority = 2;
    IS(open_set(&db, rows, 2, 8, &r) == RTDB_NOT_COMPILED && refusal_is(r, RTDB_SAME_PRIORITY, 0, 1, 0));
    rows[1].priority = 1;
    rows[1].deadline = 21;
    IS(open_set(&db, rows, 2, 8, &r) == RTDB_NOT_COMPILED && refusal_is(r, RTDB_BAD_TIMES, 1, 0, 0) && r.which == 3);
    IS(open_set(&db, transactions, 0, 8, &r) == RTDB_NOT_COMPILED && refusal_is(r, RTDB_NO_WRITER, 0, 0, 0));
    rows[1] = transactions[1];
    rows[1].writes_at = 0;
    IS(open_set(&db, rows, 2, 8, &r) == RTDB_NOT_COMPILED && refusal_is(r, RTDB_TWO_WRITERS, 0, 0, 1));
    rows[1] = transactions[1];
    rows[1].steps = 21; /* of which 20 may block the other transaction, whose deadline is 10 */
    IS(open_set(&db, rows, 2, 8, &r) == RTDB_NOT_ADMITTED && refusal_is(r, RTDB_NOT_SCHEDULABLE, 0, 2 + 20, 0));
    IS(db.at == NULL);
}

/* The blocking is the steps of the lower transaction less its quiet steps and one, the response that and the steps of its own. */
static void bounds(rtdb *db) {
    uint64_t ticks = 0;
    IS(rtdb_response(db, 0, &ticks) == RTDB_OK && ticks == 2 + 3);
    IS(rtdb_blocking(db, 0, &ticks) == RTDB_OK && ticks == 4 - 0 - 1);
    IS(rtdb_age(db, 0, &ticks) == RTDB_OK && ticks > 0 && ticks <= 20);
    IS(rtdb_age(db, 1, &ticks) == RTDB_NOTHING && rtdb_age(db, 2, &ticks) == RTDB_NO_ITEM);
    IS(rtdb_response(db, 2, &ticks) == RTDB_NO_TRANSACTION && rtdb_blocking(db, 2, &ticks) == RTDB_NO_TRANSACTION);
}

/* The sampler is blocked for the steps of the controller less one, and has 10: at 175 percent it has 4 and the other 7, at 176 8. */
static void margin(rtdb *db) {
    rtdb_margin_answer answer = {0};
    uint64_t now = 7;
    IS(rtdb_margin(db, &answer) == RTDB_OK && answer.percent == 175);
    IS(answer.barrier == RTDB_NOT_ADMITTED && refusal_is(answer.refusal, RTDB_NOT_SCHEDULABLE, 0, 4 + 7, 0));
    IS(rtdb_now(db, &now) == RTDB_OK && now == 0);
}

static int text_is(rtdb_status status, const rtdb_refusal *r, const char *words) {
    char into[RTDB_MOST_TEXT + 1] = {0}, front[4] = {0, 0, 0, '~'};
    size_t length = rtdb_text(status, r, into, sizeof into);
    return length == strlen(words) && strcmp(into, words) == 0 && rtdb_text(status, r, front, 3) == length
        && strncmp(front, words, length < 3 ? length : 3) == 0 && front[3] == '~';
}

/* The words of docs/FORMATS.md. */
static void words(void) {
    rtdb_refusal none = {0}, same = {RTDB_SAME_PRIORITY, 0, 0, 17, 0}, times = {RTDB_BAD_TIMES, 2, 3, 0, 0};
    rtdb_refusal old = {RTDB_TOO_OLD, 0, 1, 12, 4000}, record = {0, 0, 4, 0, 0}, most = {RTDB_TWO_WRITERS, 0, UINT64_MAX, UINT64_MAX, UINT64_MAX};
    char into[RTDB_MOST_TEXT];
    static const char *const alone[] = {"Ok", "Closed", "Open", "NoOperation", "NoTransaction", "NoItem",
        "Nothing", "RoomTooLarge", "BadTable", "NotCompiled", "NotAdmitted", "OutOfMemory"};
    for (rtdb_status k = 0; k < 12; k++) IS(text_is(k, &none, alone[k]));
    IS(text_is(12345, &none, "Unknown 12345"));
    IS(text_is(RTDB_STOPPED, &none, "Stopped") && text_is(RTDB_UNANSWERED, &none, "Unanswered") && text_is(RTDB_UNKNOWN, &none, "UnknownEntry"));
    IS(text_is(RTDB_BAD_TEXT, &record, "BadText 4") && text_is(RTDB_BAD_RECORD, &record, "BadRecord 4") && text_is(RTDB_FULL, &none, "Full"));
    IS(text_is(RTDB_BUSY, &none, "Busy") && text_is(RTDB_WRONG_SEAT, &none, "WrongSeat") && text_is(28, &none, "Unknown 28"));
    IS(text_is(RTDB_NOT_COMPILED, &same, "SamePrio txn0 txn17") && text_is(RTDB_NOT_COMPILED, &times, "BadTimes txn3 period"));
    IS(text_is(RTDB_NOT_ADMITTED, &old, "TooOld txn1 item12 4000") && text_is(RTDB_NOT_ADMITTED, &same, "NotAdmitted"));
    IS(rtdb_text(RTDB_NOT_COMPILED, &most, into, sizeof into) == 10 + 25 + 24 + 24);
}

static void plans(rtdb *db) {
    rtdb_time time = {0};
    size_t count = 9;
    IS(rtdb_idle(db, &time) == RTDB_OK && time.reply == RTDB_NONE_PLANNED);
    IS(rtdb_plan_next(db, 0, &time) == RTDB_OK && time.reply == RTDB_PLANNED && time.tick == 0 && time.job.serial == 0);
    IS(rtdb_plan_next(db, 0, &time) == RTDB_OK && time.reply == RTDB_PLANNED && time.tick == 10 && time.job.serial == 1);
    IS(rtdb_plan(db, 0, 15, &time) == RTDB_OK && time.reply == RTDB_TOO_SOON && time.tick == 20);
    IS(rtdb_plan(db, 1, ((uint64_t)1 << 40) + 1, &time) == RTDB_OK && time.reply == RTDB_TOO_FAR && time.tick == (uint64_t)1 << 40);
    IS(rtdb_plan(db, 2, 0, &time) == RTDB_NO_TRANSACTION && rtdb_plan_next(db, 2, &time) == RTDB_NO_TRANSACTION);
    IS(rtdb_idle(db, &time) == RTDB_OK && time.reply == RTDB_NOT_IDLE && time.job.serial == 0);
    IS(rtdb_planned(db, &count) == RTDB_OK && count == 1);
}

static void steps(rtdb *db) {
    rtdb_step_answer answer = {0};
    rtdb_operation none = {5, 0, 0}, write = {RTDB_WRITE, 0, 42};
    rtdb_job job = {0}, other = {1, 0};
    rtdb_stored stored = {0};
    uint32_t count = 0;
    IS(rtdb_running(db, &job) == RTDB_OK && job.transaction == 0 && job.serial == 0);
    IS(rtdb_pending(db, 0, &job) == RTDB_OK && rtdb_pending(db, 1, &job) == RTDB_NOTHING && rtdb_pending(db, 2, &job) == RTDB_NO_TRANSACTION);
    IS(rtdb_step(db, other, compute, &answer) == RTDB_OK && answer.reply == RTDB_NO_JOB && answer.count == 0);
    IS(rtdb_step(db, job, none, &answer) == RTDB_NO_OPERATION);
    other.transaction = 2;
    IS(rtdb_step(db, other, commit, &answer) == RTDB_NO_TRANSACTION);
    IS(rtdb_step(db, job, read_first, &answer) == RTDB_OK && answer.reply == RTDB_UNDECLARED && answer.item == 0);
    IS(rtdb_step(db, job, commit, &answer) == RTDB_OK && answer.reply == RTDB_UNWRITTEN && answer.item == 0);
    IS(rtdb_step(db, job, write, &answer) == RTDB_OK && answer.reply == RTDB_DONE && answer.outcome == RTDB_PUT);
    IS(answer.over.kind == RTDB_NOT_ENDED && rtdb_peek(db, 0, &stored) == RTDB_OK && stored.value == 3);
    IS(rtdb_step(db, job, commit, &answer) == RTDB_OK && answer.outcome == RTDB_CLOSED_JOB && answer.over.kind == RTDB_COMMITTED);
    IS(rtdb_peek(db, 0, &stored) == RTDB_OK && stored.value == 42 && stored.stamp == 0 && rtdb_peek(db, 2, &stored) == RTDB_NO_ITEM);
    IS(rtdb_step(db, job, commit, &answer) == RTDB_OK && answer.reply == RTDB_NO_JOB && answer.count == 1 && answer.over.kind == RTDB_COMMITTED);
    IS(rtdb_ended(db, 0, &count) == RTDB_OK && count == 1 && rtdb_ended(db, 2, &count) == RTDB_NO_TRANSACTION);
    IS(rtdb_running(db, &job) == RTDB_NOTHING);
}

static void journal(rtdb *db) {
    static rtdb_entry entries[9];
    rtdb_time time = {0};
    size_t kept = 0, moved = 0;
    uint64_t drained = 0, now = 0;
    IS(rtdb_idle(db, &time) == RTDB_OK && time.reply == RTDB_ADVANCED && time.tick == 10);
    IS(rtdb_now(db, &now) == RTDB_OK && now == 10);
    IS(rtdb_plan(db, 1, 9, &time) == RTDB_OK && time.reply == RTDB_PAST && time.tick == 10);
    IS(rtdb_plan(db, 1, 10, &time) == RTDB_OK && time.reply == RTDB_PLANNED && time.job.transaction == 1);
    IS(rtdb_kept(db, &kept, &drained) == RTDB_OK && kept == 6 && drained == 0);
    entries[3].kind = 77;
    IS(rtdb_drain(db, entries, 3, &moved) == RTDB_OK && moved == 3 && entries[3].kind == 77);
    IS(entries[0].kind == RTDB_ENTRY_PLANNED && entries[0].job.transaction == 0 && entries[0].tick == 0);
    IS(entries[2].kind == RTDB_ENTRY_STEP && entries[2].operation == RTDB_WRITE && entries[2].value == 42 && entries[2].answer.outcome == RTDB_PUT);
    IS(rtdb_drain(db, entries, 9, &moved) == RTDB_OK && moved == 3);
    IS(entries[0].answer.over.kind == RTDB_COMMITTED && entries[1].kind == RTDB_ENTRY_IDLE && entries[1].tick == 2 && entries[1].to == 10);
    IS(rtdb_drain(db, entries, 9, &moved) == RTDB_OK && moved == 0);
    IS(rtdb_kept(db, &kept, &drained) == RTDB_OK && kept == 0 && drained == 6);
}

/* With no room left a plan is refused until entries are drained. */
static void full(void) {
    rtdb db = RTDB_INIT;
    rtdb_refusal r = {0};
    rtdb_time time = {0};
    rtdb_entry entry = {0};
    size_t moved = 0;
    IS(open_set(&db, transactions, 2, 1, &r) == RTDB_OK);
    IS(rtdb_plan(&db, 0, 0, &time) == RTDB_OK && time.reply == RTDB_PLANNED);
    IS(rtdb_plan(&db, 1, 8, &time) == RTDB_OK && time.reply == RTDB_JOURNAL_FULL && time.count == 1);
    IS(rtdb_drain(&db, &entry, 1, &moved) == RTDB_OK && moved == 1);
    IS(rtdb_plan(&db, 1, 8, &time) == RTDB_OK && time.reply == RTDB_PLANNED);
    IS(rtdb_close(&db) == RTDB_OK);
}

/* A set that is not admitted has no bounds, and its jobs may be late. */
static void trial(void) {
    rtdb db = RTDB_INIT;
    rtdb_refusal r = {9, 9, 9, 9, 9};
    rtdb_time time = {0};
    rtdb_step_answer answer = {0};
    rtdb_job job = {1, 0};
    rtdb_transaction rows[2];
    rtdb_tables late = tables;
    uint64_t ticks = 7;
    memcpy(rows, transactions, sizeof rows);
    rows[1].steps = 30;
    IS(open_set(&db, rows, 2, 64, &r) == RTDB_NOT_ADMITTED && db.at == NULL);
    r.rule = 9;
    late.transactions = rows;
    late.item_count = 1;
    IS(rtdb_open_trial(&db, &late, 64, &r) == RTDB_BAD_TABLE && refusal_is(r, RTDB_BAD_NUMBER, 2, 0, 0));
    late.item_count = 2;
    r.rule = 9;
    IS(rtdb_open_trial(&db, &late, 64, &r) == RTDB_OK && r.rule == 9);
    IS(rtdb_open_trial(&db, &late, 64, &r) == RTDB_OPEN && r.rule == 9);
    IS(rtdb_response(&db, 0, &ticks) == RTDB_NOT_ADMITTED && rtdb_blocking(&db, 7, &ticks) == RTDB_NOT_ADMITTED);
    IS(rtdb_age(&db, 7, &ticks) == RTDB_NOT_ADMITTED && ticks == 7);
    rtdb_margin_answer margin = {0};
    /* 33 percent of 30 steps are 10, which block the other for 9 of its 10 ticks, and 34 are 11; of its own 2 steps both are 1 */
    IS(rtdb_margin(&db, &margin) == RTDB_OK && margin.percent == 33 && margin.barrier == RTDB_NOT_ADMITTED);
    IS(refusal_is(margin.refusal, RTDB_NOT_SCHEDULABLE, 0, 1 + 10, 0));
    IS(rtdb_plan(&db, 1, 0, &time) == RTDB_OK && time.reply == RTDB_PLANNED);
    while (answer.over.kind == RTDB_NOT_ENDED) {
        IS(rtdb_step(&db, job, compute, &answer) == RTDB_OK && answer.reply == RTDB_DONE);
        if (failed) break;
    }
    IS(answer.over.kind == RTDB_LATE && rtdb_now(&db, &ticks) == RTDB_OK && ticks == 20);
    IS(rtdb_close(&db) == RTDB_OK);
}

int main(void) {
    rtdb db = RTDB_INIT;
    rtdb_refusal r = {9, 9, 9, 9, 9};
    closed();
    refusals();
    full();
    trial();
    words();
    IS(open_set(&db, transactions, 2, 16, &r) == RTDB_OK && r.rule == 9);
    IS(open_set(&db, transactions, 2, 16, &r) == RTDB_OPEN && r.rule == 9);
    bounds(&db);
    margin(&db);
    plans(&db);
    steps(&db);
    journal(&db);
    IS(rtdb_close(&db) == RTDB_OK && db.at == NULL && rtdb_close(&db) == RTDB_CLOSED);
    return failed;
}

/* Makes the calls of a report of `rtdb run` again: declares its set, plans, steps and idles as its lines say, writes each drained
 * entry as its line, and compares these lines with those of the report; the bounds, the ages and the last values too.
 *
 *   report <FILE     ends with 0 exactly where all lines are the same, and else tells the first that differs
 *
 * docs/FORMATS.md says what the lines mean. */
#include <stdarg.h>
#include <stdio.h>
#include <stdlib.h>
#include <string.h>

#include "rtdb.h"

enum { MOST_ITEMS = 256, MOST_TRANSACTIONS = 64, MOST_SETS = 64, MOST_NUMBERS = 65536, MOST_FIELDS = 16, MOST_TEXT = 256, ROOM = 16 };

static char text[1 << 22];

/* The names of items or transactions, by their places. */
struct names {
    const char *name[MOST_ITEMS];
    uint32_t count;
};

static struct names item_names, transaction_names;
static rtdb_item items[MOST_ITEMS];
static rtdb_transaction transactions[MOST_TRANSACTIONS];
static rtdb_together sets[MOST_SETS];
static uint32_t numbers[MOST_NUMBERS];
static size_t set_count, number_count;

/* The lines whose entries the journal keeps. */
static char kept[ROOM][MOST_TEXT];
static size_t kept_count;
static unsigned long line_number, entry_count;

static rtdb db = RTDB_INIT;

static void stop(const char *why, const char *what) {
    printf("line %lu: %s: %s\n", line_number, why, what);
    exit(1);
}

static uint64_t number_of(const char *word) {
    char *end = NULL;
    uint64_t number = strtoull(word, &end, 10);
    if (end == word || *end != '\0') stop("no number", word);
    return number;
}

static int64_t value_of(const char *word) {
    char *end = NULL;
    int64_t value = strtoll(word, &end, 10);
    if (end == word || *end != '\0') stop("no value", word);
    return value;
}

static uint32_t place_of(const struct names *names, const char *name) {
    for (uint32_t k = 0; k < names->count; k++) {
        if (strcmp(names->name[k], name) == 0) return k;
    }
    stop("no such name", name);
    return 0;
}

static void add_name(struct names *names, const char *name, uint32_t most) {
    if (names->count == most) stop("too many", name);
    names->name[names->count++] = name;
}

/* Adds the items of a list with commas, `-` where there is none, to the table of numbers; answers how many. */
static uint32_t add_list(char *list) {
    uint32_t count = 0;
    if (strcmp(list, "-") == 0) return 0;
    for (char *name = strtok(list, ","); name != NULL; name = strtok(NULL, ",")) {
        if (number_count == MOST_NUMBERS) stop("too many", name);
        numbers[number_count++] = place_of(&item_names, name);
        count++;
    }
    return count;
}

/* item NAME sensor VALIDITY VALUE, and so derived; item NAME state - VALUE */
static void add_item(char **f, int count) {
    if (count != 5) stop("no item", f[0]);
    rtdb_item *item = &items[item_names.count];
    add_name(&item_names, f[1], MOST_ITEMS);
    item->kind = strcmp(f[2], "sensor") == 0 ? RTDB_SENSOR : strcmp(f[2], "derived") == 0 ? RTDB_DERIVED : RTDB_STATE;
    item->validity = item->kind == RTDB_STATE ? 0 : number_of(f[3]);
    item->initial = value_of(f[4]);
}

/* txn NAME PRIO PERIOD OFFSET DEADLINE STEPS reads ITEMS writes ITEMS, and quiet STEPS */
static void add_transaction(char **f, int count) {
    if (count != 11 && count != 13) stop("no transaction", f[0]);
    rtdb_transaction *t = &transactions[transaction_names.count];
    add_name(&transaction_names, f[1], MOST_TRANSACTIONS);
    t->priority = (uint32_t)number_of(f[2]);
    t->period = number_of(f[3]);
    t->offset = number_of(f[4]);
    t->deadline = number_of(f[5]);
    t->steps = number_of(f[6]);
    t->reads_at = (uint32_t)number_count;
    t->reads = add_list(f[8]);
    t->writes_at = (uint32_t)number_count;
    t->writes = add_list(f[10]);
    t->quiet = count == 13 ? number_of(f[12]) : 0;
}

/* together WITHIN ITEMS */
static void add_set(char **f, int count) {
    if (count != 3 || set_count == MOST_SETS) stop("no relative set", f[0]);
    rtdb_together *set = &sets[set_count++];
    set->within = number_of(f[1]);
    set->items_at = (uint32_t)number_count;
    set->items = add_list(f[2]);
}

/* mode admitted, mode trial: nothing more is declared. */
static void open_set(const char *mode) {
    rtdb_refusal refusal = {0, 0, 0, 0, 0};
    char told[MOST_TEXT];
    int is_trial = strcmp(mode, "trial") == 0;
    rtdb_tables tables = {items, item_names.count, transactions, transaction_names.count, sets, set_count, numbers, number_count};
    rtdb_status status = (is_trial ? rtdb_open_trial : rtdb_open)(&db, &tables, ROOM, &refusal);
    if (status == RTDB_OK) return;
    snprintf(told, sizeof told, "status %u, rule %u", (unsigned)status, (unsigned)refusal.rule);
    stop("the set is refused", told);
}

/* Appends a field to a line. */
static void put(char *line, const char *form, ...) {
    size_t at = strlen(line);
    va_list more;
    va_start(more, form);
    vsnprintf(line + at, MOST_TEXT - at, form, more);
    va_end(more);
}

static void put_name(char *line, const char *name) {
    put(line, " %s", name);
}

static void put_number(char *line, uint64_t number) {
    put(line, " %llu", (unsigned long long)number);
}

static void put_value(char *line, int64_t value) {
    put(line, " %lld", (long long)value);
}

static void put_job(char *line, rtdb_job job) {
    put(line, " %s/%lu", transaction_names.name[job.transaction], (unsigned long)job.serial);
}

static void put_end(char *line, const rtdb_end *end) {
    static const char *const words[] = {"", "committed", "overrun", "late", "stale", "apart", "quit"};
    if (end->kind == RTDB_NOT_ENDED) return;
    put_name(line, "end");
    put_name(line, words[end->kind]);
    if (end->kind == RTDB_STALE || end->kind == RTDB_APART) put_name(line, item_names.name[end->item]);
    if (end->kind == RTDB_STALE) put_number(line, end->stamp);
    if (end->kind == RTDB_APART) put_name(line, item_names.name[end->other]);
}

/* The operation, and of a granted one what came of it. */
static void put_operation(char *line, const rtdb_entry *e) {
    static const char *const words[] = {"read", "write", "compute", "commit", "quit"};
    put_name(line, words[e->operation]);
    if (e->operation == RTDB_READ || e->operation == RTDB_WRITE) put_name(line, item_names.name[e->item]);
    if (e->operation == RTDB_WRITE) put_value(line, e->value);
    if (e->operation != RTDB_READ || e->kind != RTDB_ENTRY_STEP) return;
    put_value(line, e->answer.value);
    if (e->answer.has_stamp) {
        put_number(line, e->answer.stamp);
    } else {
        put_name(line, "own");
    }
}

/* An entry as its line. */
static void put_entry(char *line, const rtdb_entry *e) {
    static const char *const words[] = {"plan", "step", "block", "idle"};
    strcpy(line, words[e->kind]);
    switch (e->kind) {
    case RTDB_ENTRY_PLANNED:
        put_name(line, transaction_names.name[e->job.transaction]);
        put_number(line, e->tick);
        break;
    case RTDB_ENTRY_IDLE:
        put_number(line, e->tick);
        put_number(line, e->to);
        break;
    default:
        put_job(line, e->job);
        put_number(line, e->tick);
        put_operation(line, e);
        if (e->kind == RTDB_ENTRY_STEP) {
            put_end(line, &e->answer.over);
        } else {
            put_name(line, "by");
            put_job(line, e->answer.job);
            put_number(line, e->answer.ceiling);
        }
    }
}

/* Drains all entries, and compares them with the lines that they were made for. */
static void drain(void) {
    rtdb_entry entries[ROOM];
    size_t moved = 0;
    char line[MOST_TEXT];
    memset(entries, 0, sizeof entries);
    if (rtdb_drain(&db, entries, ROOM, &moved) != RTDB_OK || moved != kept_count) stop("other entries are kept", kept[0]);
    for (size_t k = 0; k < moved; k++) {
        put_entry(line, &entries[k]);
        puts(line);
        if (strcmp(line, kept[k]) != 0) stop("the report has another line than the entry", kept[k]);
    }
    entry_count += moved;
    kept_count = 0;
}

static rtdb_job job_of(char *word) {
    rtdb_job job = {0, 0};
    char *serial = strchr(word, '/');
    if (serial == NULL) stop("no job", word);
    *serial = '\0';
    job.transaction = place_of(&transaction_names, word);
    job.serial = (uint32_t)number_of(serial + 1);
    return job;
}

static uint32_t operation_of(const char *word) {
    static const char *const words[] = {"read", "write", "compute", "commit", "quit"};
    for (uint32_t k = 0; k < 5; k++) {
        if (strcmp(words[k], word) == 0) return k;
    }
    stop("no operation", word);
    return 0;
}

/* step JOB TICK DONE, block JOB TICK ASKED by JOB CEILING: the running job asks. Answers whether the journal was full. */
static int ask(char **f) {
    rtdb_job job = job_of(f[1]), running = {0, 0};
    rtdb_step_answer answer;
    uint64_t now = 0;
    rtdb_operation asked = {operation_of(f[3]), 0, 0};
    if (asked.operation <= RTDB_WRITE) asked.item = place_of(&item_names, f[4]);
    if (asked.operation == RTDB_WRITE) asked.value = value_of(f[5]);
    memset(&answer, 0, sizeof answer);
    if (rtdb_running(&db, &running) != RTDB_OK || running.transaction != job.transaction || running.serial != job.serial) stop("another job runs", f[1]);
    if (rtdb_now(&db, &now) != RTDB_OK || now != number_of(f[2])) stop("another time", f[2]);
    if (rtdb_step(&db, job, asked, &answer) != RTDB_OK) stop("no such step", f[0]);
    if (answer.reply == RTDB_STEP_FULL) return 1;
    if (answer.reply != (strcmp(f[0], "step") == 0 ? RTDB_DONE : RTDB_BLOCKED)) stop("another reply", f[0]);
    return 0;
}

/* Makes the call of a line. Answers whether the journal was full. */
static int make(char **f) {
    rtdb_time answer = {0, {0, 0}, 0, 0};
    if (strcmp(f[0], "step") == 0 || strcmp(f[0], "block") == 0) return ask(f);
    if (strcmp(f[0], "plan") == 0) {
        if (rtdb_plan(&db, place_of(&transaction_names, f[1]), number_of(f[2]), &answer) != RTDB_OK) stop("no such plan", f[1]);
    } else if (rtdb_idle(&db, &answer) != RTDB_OK) {
        stop("no idling", f[1]);
    }
    if (answer.reply != 0 && answer.reply != RTDB_JOURNAL_FULL) stop("another reply", f[0]);
    return answer.reply == RTDB_JOURNAL_FULL;
}

static void check_bound(char **f) {
    uint32_t transaction = place_of(&transaction_names, f[1]);
    uint64_t blocking = 0, response = 0;
    if (rtdb_blocking(&db, transaction, &blocking) != RTDB_OK || rtdb_response(&db, transaction, &response) != RTDB_OK) stop("no bound", f[1]);
    if (blocking != number_of(f[2]) || response != number_of(f[3])) stop("another bound", f[1]);
}

static void check_age(char **f) {
    uint64_t age = 0;
    if (rtdb_age(&db, place_of(&item_names, f[1]), &age) != RTDB_OK || age != number_of(f[2])) stop("another age", f[1]);
}

static void check_final(char **f) {
    rtdb_stored stored = {0, 0};
    if (rtdb_peek(&db, place_of(&item_names, f[1]), &stored) != RTDB_OK) stop("no item", f[1]);
    if (stored.value != value_of(f[2]) || stored.stamp != number_of(f[3])) stop("another last value", f[1]);
}

static void take(char *line) {
    char *fields[MOST_FIELDS], whole[MOST_TEXT];
    int count = 0;
    snprintf(whole, sizeof whole, "%s", line);
    for (char *field = line; field != NULL && count < MOST_FIELDS; count++) {
        char *end = strchr(field, ' ');
        if (end != NULL) *end++ = '\0';
        fields[count] = field;
        field = end;
    }
    const char *word = fields[0];
    if (strcmp(word, "item") == 0) add_item(fields, count);
    if (strcmp(word, "txn") == 0) add_transaction(fields, count);
    if (strcmp(word, "together") == 0) add_set(fields, count);
    if (strcmp(word, "mode") == 0) open_set(fields[1]);
    if (strcmp(word, "bound") == 0) check_bound(fields);
    if (strcmp(word, "age") == 0) check_age(fields);
    if (strcmp(word, "final") == 0) check_final(fields);
    if (strcmp(word, "plan") != 0 && strcmp(word, "step") != 0 && strcmp(word, "block") != 0 && strcmp(word, "idle") != 0) return;
    if (make(fields)) {
        char again[MOST_TEXT];
        drain();
        strcpy(again, whole);
        take(again);
        return;
    }
    strcpy(kept[kept_count++], whole);
}

int main(void) {
    size_t length = fread(text, 1, sizeof text - 1, stdin);
    text[length] = '\0';
    if (strncmp(text, "rtdb report ", 12) != 0) stop("no report", "the first line");
    for (char *line = text; *line != '\0';) {
        char *end = strchr(line, '\n');
        line_number++;
        if (end == NULL) stop("the line does not end", line);
        *end = '\0';
        take(line);
        line = end + 1;
    }
    drain();
    if (entry_count == 0) stop("no entries", "the report");
    return rtdb_close(&db) == RTDB_OK ? 0 : 1;
}

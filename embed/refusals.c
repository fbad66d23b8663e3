/* Opens a database over each set of a table, and compares the answer with the table's. After a refusal the handle is closed. A set
 * that is compiled and not admitted opens as a trial.
 *
 *   refusals <refusals.txt     ends with 0 exactly where all agree and each rule and each number of a transaction is refused once
 */
#include <stdio.h>
#include <stdlib.h>
#include <string.h>

#include "rtdb.h"

enum { MOST_ROWS = 300, MOST_TEXT = 256, LAST_RULE = RTDB_TOO_APART };

static rtdb_item items[MOST_ROWS];
static rtdb_transaction transactions[MOST_ROWS];
static rtdb_together sets[MOST_ROWS];
static uint32_t numbers[MOST_ROWS];
static size_t item_count, transaction_count, set_count, number_count, room;

static int failed, rules[LAST_RULE + 1], whiches[6];
static unsigned long line_number, cases;

static const char *const whiches_of[] = {"priority", "steps", "period", "deadline", "offset", "quiet"};

static uint64_t number_of(const char *word) {
    char *end = NULL;
    uint64_t number = strtoull(word, &end, 10);
    if (end == word || *end != '\0') {
        printf("line %lu: no number: %s\n", line_number, word);
        exit(1);
    }
    return number;
}

static uint32_t add_list(char *list) {
    uint32_t count = 0;
    if (strcmp(list, "-") == 0) return 0;
    for (char *at = list; at != NULL; count++) {
        char *end = strchr(at, ',');
        if (end != NULL) *end++ = '\0';
        numbers[number_count++] = (uint32_t)number_of(at);
        at = end;
    }
    return count;
}

static void add_item(char **f) {
    rtdb_item *item = &items[item_count++];
    item->kind = strcmp(f[1], "sensor") == 0 ? RTDB_SENSOR : strcmp(f[1], "derived") == 0 ? RTDB_DERIVED : RTDB_STATE;
    item->validity = number_of(f[2]);
}

static void add_transaction(char **f) {
    rtdb_transaction *t = &transactions[transaction_count++];
    t->priority = (uint32_t)number_of(f[1]);
    t->period = number_of(f[2]);
    t->offset = number_of(f[3]);
    t->deadline = number_of(f[4]);
    t->steps = number_of(f[5]);
    t->quiet = number_of(f[6]);
    t->reads_at = (uint32_t)number_count;
    t->reads = add_list(f[7]);
    t->writes_at = (uint32_t)number_count;
    t->writes = add_list(f[8]);
}

static void add_set(char **f) {
    rtdb_together *set = &sets[set_count++];
    set->within = number_of(f[1]);
    set->items_at = (uint32_t)number_count;
    set->items = add_list(f[2]);
}

/* The answer in the words of docs/FORMATS.md. */
static void put_answer(char *line, rtdb_status status, rtdb_refusal r) {
    static const char *const words[] = {"TooManyItems", "TooManyTxns", "SamePrio",   "BadTimes", "NoWriter", "TwoWriters", "CyclicDerivation",
                                        "TooManySets",  "BadTogether", "",           "NotSchedulable", "TooOld",   "TooApart"};
    /* The numbers of each: t of a transaction, i of an item, and n alone. */
    static const char *const kinds[] = {"n", "n", "tt", "t", "i", "itt", "i", "n", "n", "", "tn", "tin", "tnn"};
    const uint64_t all[] = {r.a, r.b, r.c};
    int of_set = status == RTDB_NOT_COMPILED || status == RTDB_NOT_ADMITTED;
    if (status == RTDB_OK) {
        strcpy(line, "admitted");
    } else if (status == RTDB_NO_ROOM && r.rule == 0) {
        strcpy(line, "refused RoomTooLarge");
    } else if (of_set && r.rule >= RTDB_TOO_MANY_ITEMS && r.rule <= LAST_RULE && (r.rule < 20) == (status == RTDB_NOT_COMPILED)) {
        int at = sprintf(line, "refused %s", words[r.rule - RTDB_TOO_MANY_ITEMS]);
        for (int k = 0; k < 3; k++) {
            if (k < (int)strlen(kinds[r.rule - RTDB_TOO_MANY_ITEMS])) {
                char kind = kinds[r.rule - RTDB_TOO_MANY_ITEMS][k];
                at += sprintf(line + at, " %s%llu", kind == 't' ? "txn" : kind == 'i' ? "item" : "", (unsigned long long)all[k]);
            } else if (all[k] != 0) {
                at += sprintf(line + at, " and a number that is not 0");
            }
        }
        if (r.rule == RTDB_BAD_TIMES) at += sprintf(line + at, " %s", whiches_of[r.which]);
        if (r.rule != RTDB_BAD_TIMES && r.which != 0) sprintf(line + at, " and a field that is not 0");
        rules[r.rule]++;
        if (r.rule == RTDB_BAD_TIMES) whiches[r.which]++;
    } else {
        sprintf(line, "status %u, rule %u", (unsigned)status, (unsigned)r.rule);
    }
}

static void check(int good, const char *what, const char *wanted) {
    if (good) return;
    printf("line %lu: %s, not %s\n", line_number, what, wanted);
    failed = 1;
}

/* The set is whole: it is opened. */
static void open_set(const char *wanted) {
    static char told[MOST_TEXT];
    rtdb db = RTDB_INIT;
    rtdb_refusal refusal = {77, 77, 77, 77, 77};
    rtdb_tables tables = {items, item_count, transactions, transaction_count, sets, set_count, numbers, number_count};
    rtdb_status status = rtdb_open(&db, &tables, room, &refusal);
    if (status == RTDB_OK) check(refusal.rule == 77 && refusal.c == 77, "a refusal is written", "left as it was");
    put_answer(told, status, refusal);
    check(strcmp(told, wanted) == 0, told, wanted);
    check((status == RTDB_OK) == (db.at != NULL), "the handle is open", "closed");
    if (status == RTDB_OK) check(rtdb_close(&db) == RTDB_OK, "it does not close", "OK");
    rtdb_status tried = rtdb_open_trial(&db, &tables, room, &refusal);
    check(tried == (status == RTDB_NOT_ADMITTED ? RTDB_OK : status), "a trial has another status", wanted);
    check((tried == RTDB_OK) == (rtdb_close(&db) == RTDB_OK) && db.at == NULL, "a trial does not close", wanted);
    item_count = transaction_count = set_count = number_count = 0;
    room = 8;
    cases++;
}

static void take(char *line) {
    char *f[10] = {NULL}, whole[MOST_TEXT];
    if (strncmp(line, "many ", 5) == 0) {
        char *rest = NULL;
        for (uint64_t k = strtoull(line + 5, &rest, 10); k > 0; k--) {
            strcpy(whole, rest + 1);
            take(whole);
        }
        return;
    }
    strcpy(whole, line);
    int count = 0;
    for (char *field = line; field != NULL && count < 10; count++) {
        char *end = strchr(field, ' ');
        if (end != NULL) *end++ = '\0';
        f[count] = field;
        field = end;
    }
    if (strcmp(f[0], "item") == 0 && count == 3) {
        add_item(f);
    } else if (strcmp(f[0], "txn") == 0 && count == 9) {
        add_transaction(f);
    } else if (strcmp(f[0], "together") == 0 && count == 3) {
        add_set(f);
    } else if (strcmp(f[0], "room") == 0) {
        room = (size_t)number_of(f[1]);
    } else if (strcmp(f[0], "admitted") == 0 || strcmp(f[0], "refused") == 0) {
        open_set(whole);
    } else {
        check(0, whole, "a line of the table");
    }
}

int main(void) {
    char line[MOST_TEXT];
    room = 8;
    while (fgets(line, sizeof line, stdin) != NULL) {
        line_number++;
        line[strcspn(line, "\n")] = '\0';
        if (line[0] != '#' && line[0] != '\0') take(line);
    }
    for (uint32_t rule = RTDB_TOO_MANY_ITEMS; rule <= LAST_RULE; rule++) {
        if (rules[rule] == 0 && rule != RTDB_BAD_TOGETHER + 1) check(0, "a rule is never refused", "each");
    }
    for (int which = 0; which < 6; which++) check(whiches[which] > 0, "a number is never refused", whiches_of[which]);
    printf("refusals: %lu sets, %s\n", cases, failed ? "some differ" : "all as the table says");
    return failed;
}

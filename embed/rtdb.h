/* rtdb.h: a main-memory database for plant control, for programs in C99 and C++11.
 *
 * Jobs read and write items under the read/write priority ceiling protocol. A set of items and transactions is declared
 * in tables; `rtdb_open` compiles and admits it. From then on no job of it is late, and time goes on by the calls alone:
 * a tick is a granted step, or what `rtdb_idle` passes over. `rtdb_open_trial` takes a set that is not admitted: then jobs
 * may be late. What each function says here is proved of its code, and
 * so are the rules of the protocol (docs/PROVED.md).
 *
 * What a caller owes; nothing checks it:
 *   1. A pointer that a call is given, as a parameter or in an rtdb_tables, is not null, also where its count is 0, and
 *      points to memory that may be read, and written where it is not const, until the call returns. No two of them overlap.
 *   2. What is written to has a value before: begin each record as {0}.
 *   3. A handle begins as RTDB_INIT, that of a seat as RTDB_SEAT_INIT. It is changed by these functions alone, and is not
 *      copied while it is open.
 *   4. Calls by one handle come one after the other. Another thread may go on with it where a lock, the start or the join
 *      of a thread, or a sequentially consistent atomic stands between. No call is made from a signal handler, nor in the
 *      forked child of a process with threads.
 *   5. malloc, realloc and free come from one allocator, and a block is aligned to each power of two up to 16 that divides
 *      its size.
 * No other use does harm: each number is tested, a call by a closed handle answers RTDB_CLOSED, and what a status other
 * than RTDB_OK leaves is all as it was.
 *
 * Memory is taken by the functions that open a handle, and given back by those that close one. Of the other calls `rtdb_margin` alone
 * takes any, and gives it back before it returns. No call waits.
 *
 * Link librtdb.a.
 */
#ifndef RTDB_H
#define RTDB_H

#include <stddef.h>
#include <stdint.h>

#ifdef __cplusplus
extern "C" {
#endif

/* A database, or none while it is closed. */
typedef struct rtdb {
    void *at;
} rtdb;

#define RTDB_INIT {0}

/* ---- what each function answers ---- */

typedef uint32_t rtdb_status;

enum {
    RTDB_OK = 0,             /* the call was made, and its answer is in the record */
    RTDB_CLOSED = 1,         /* the handle is closed */
    RTDB_OPEN = 2,           /* the handle is open already */
    RTDB_NO_OPERATION = 3,   /* the number names no operation */
    RTDB_NO_TRANSACTION = 4, /* the number names no transaction of the set */
    RTDB_NO_ITEM = 5,        /* the number names no item of the set */
    RTDB_NOTHING = 6,        /* no job is pending; the item has no age bound */
    RTDB_NO_ROOM = 7,        /* the room is above RTDB_MOST_ROOM */
    RTDB_BAD_TABLE = 8,      /* a row or a number of the tables is bad: the refusal says which is the first */
    RTDB_NOT_COMPILED = 9,   /* the set breaks a rule: the refusal says which is the first */
    RTDB_NOT_ADMITTED = 10,  /* a job might be late, or read values that are too old: the refusal says which; of the calls for
                                the bounds: the set was not admitted */
    RTDB_NO_MEMORY = 11,     /* malloc or realloc answered null */
    /* of seats */
    RTDB_BUSY = 26,      /* another seat's call has the turn: nothing was done, and the call may be made again */
    RTDB_WRONG_SEAT = 27 /* the call is not one of this seat */
};

/* ---- the set ---- */

/* Items and transactions are named by their rows, from 0. Times are in ticks. */

enum {
    RTDB_SENSOR = 0,  /* written by one transaction; a value is valid for so many ticks after its stamp */
    RTDB_DERIVED = 1, /* the same, and its stamp is the least of those that its writer read */
    RTDB_STATE = 2    /* with no validity; written by any number of transactions */
};

typedef struct rtdb_item {
    uint32_t kind;     /* RTDB_SENSOR, RTDB_DERIVED or RTDB_STATE */
    uint64_t validity; /* of a state item it says nothing */
    int64_t initial;
} rtdb_item;

/* A transaction may read the `reads` items whose numbers stand in the table of numbers from the place `reads_at` on, and
 * write those from `writes_at` on. A greater priority is a higher one, and no two transactions have the same. */
typedef struct rtdb_transaction {
    uint32_t priority; /* 1 to 1,000 */
    uint32_t reads_at;
    uint32_t reads;
    uint32_t writes_at;
    uint32_t writes;
    uint64_t period;   /* 1 to 2^30: the least distance of two releases */
    uint64_t offset;   /* at most the period */
    uint64_t deadline; /* 1 to the period, counted from the release */
    uint64_t steps;    /* 1 to 10,000: the most operations of a job, the last of them a commit or a quit */
    uint64_t quiet;    /* fewer than the steps: the operations before the first read or write */
} rtdb_transaction;

/* A relative set: sensor and derived items that a job is to read within so many ticks of each other. */
typedef struct rtdb_together {
    uint32_t items_at;
    uint32_t items;
    uint64_t within;
} rtdb_together;

/* The tables of a set. `ids` is the table of numbers, in which the lists of all rows stand. A call that is given them keeps none. */
typedef struct rtdb_tables {
    const rtdb_item *items;
    size_t item_count;
    const rtdb_transaction *transactions;
    size_t transaction_count;
    const rtdb_together *together;
    size_t together_count;
    const uint32_t *ids;
    size_t id_count;
} rtdb_tables;

/* Why no database is opened: the first rule that is broken, and the first place that breaks it. */
typedef struct rtdb_refusal {
    uint32_t rule;  /* RTDB_BAD_KIND and the others; 0 where the status alone says it */
    uint32_t which; /* of RTDB_BAD_TIMES: 0 priority, 1 steps, 2 period, 3 deadline, 4 offset, 5 quiet */
    uint64_t a;
    uint64_t b;
    uint64_t c;
} rtdb_refusal;

enum {
    /* with RTDB_BAD_TABLE */
    RTDB_BAD_KIND = 1,         /* a: the row of an item */
    RTDB_BAD_NUMBER = 2,       /* a: the place in the numbers of one that names no item */
    RTDB_BAD_TRANSACTION = 3,  /* a: the row of a transaction whose lists do not lie within the numbers */
    RTDB_BAD_TOGETHER_ROW = 4, /* a: the row of a relative set whose list does not */
    /* with RTDB_NOT_COMPILED */
    RTDB_TOO_MANY_ITEMS = 10,        /* a: how many, above 256 */
    RTDB_TOO_MANY_TRANSACTIONS = 11, /* a: how many, above 64 */
    RTDB_SAME_PRIORITY = 12,         /* a, b: the transactions */
    RTDB_BAD_TIMES = 13,             /* a: the transaction; which: its number that is out of its range */
    RTDB_NO_WRITER = 14,             /* a: the sensor or derived item that no transaction may write */
    RTDB_TWO_WRITERS = 15,           /* a: the sensor or derived item; b, c: the transactions that may write it */
    RTDB_CYCLIC_DERIVATION = 16,     /* a: the item that is derived from itself */
    RTDB_TOO_MANY_SETS = 17,         /* a: how many relative sets, above 64 */
    RTDB_BAD_TOGETHER = 18,          /* a: the relative set with fewer than two items or with a state item */
    /* with RTDB_NOT_ADMITTED */
    RTDB_NOT_SCHEDULABLE = 20, /* a: the transaction; b: its demand up to the deadline */
    RTDB_TOO_OLD = 21,         /* a: the transaction; b: the item; c: its age bound, above its validity */
    RTDB_TOO_APART = 22        /* a: the transaction; b: the relative set; c: the greatest age bound, above its interval */
};

#define RTDB_MOST_ROOM ((size_t)1 << 20)

/* Compiles the set of the tables, admits it, and opens a database over it at tick 0, whose journal keeps `room` entries at
 * most.
 * Answers RTDB_OK, or RTDB_OPEN, which leaves the refusal as it was. By a closed handle else: RTDB_NO_ROOM, RTDB_BAD_TABLE,
 * RTDB_NOT_COMPILED, RTDB_NOT_ADMITTED, in this order, with the first cause in `refusal`; RTDB_NO_MEMORY may come in place of
 * each. After each but RTDB_OK the handle is as it was.
 * Takes all memory that the database needs. Costs the analysis of the set. */
rtdb_status rtdb_open(rtdb *db, const rtdb_tables *tables, size_t room, rtdb_refusal *refusal);

/* The same of a set that is not to be admitted: RTDB_NOT_ADMITTED does not come, jobs may be late, what they read may be too
 * old, and there are no bounds. The rules of the protocol hold as ever. */
rtdb_status rtdb_open_trial(rtdb *db, const rtdb_tables *tables, size_t room, rtdb_refusal *refusal);

/* Gives the memory back and closes the handle. Answers RTDB_OK or RTDB_CLOSED. */
rtdb_status rtdb_close(rtdb *db);

#define RTDB_MOST_TEXT ((size_t)96)

/* Writes the words of a status to `into`, as many bytes as it has places for, and answers how many bytes they are, at most
 * RTDB_MOST_TEXT. What stands behind them stays: where the array began as {0} and is longer, a zero byte ends them.
 * With RTDB_BAD_TABLE, RTDB_NOT_COMPILED, RTDB_NOT_ADMITTED, RTDB_BAD_TEXT and RTDB_BAD_RECORD the words are those of the refusal with
 * its numbers, and else it says nothing. docs/FORMATS.md has the words. Takes no memory. */
size_t rtdb_text(rtdb_status status, const rtdb_refusal *refusal, char *into, size_t places);

/* ---- the bounds of the admitted set ---- */

/* These three read a table. RTDB_CLOSED, RTDB_NOT_ADMITTED, RTDB_NO_TRANSACTION and RTDB_NO_ITEM, in this order, leave `ticks`
 * as it was. */

/* Each job of the transaction ends at most `ticks` after its release. */
rtdb_status rtdb_response(rtdb *db, uint32_t transaction, uint64_t *ticks);

/* One job of a lower transaction delays a job of the transaction, by at most `ticks`. */
rtdb_status rtdb_blocking(rtdb *db, uint32_t transaction, uint64_t *ticks);

/* The item's age bound: what a job reads of it is at most `ticks` old, where each writer's jobs come period by period.
 * RTDB_NOTHING of a state item. */
rtdb_status rtdb_age(rtdb *db, uint32_t item, uint64_t *ticks);

/* How far the steps of all transactions may grow. */
typedef struct rtdb_margin_answer {
    uint32_t percent;     /* 0 to 1000: the greatest percentage of its steps at which the set is compiled and admitted */
    uint32_t barrier;     /* what bars the next one: RTDB_NOT_COMPILED or RTDB_NOT_ADMITTED; RTDB_OK where it is above 1000 */
    rtdb_refusal refusal; /* the first cause, as an opening would tell it */
} rtdb_margin_answer;

/* The margin of the set, admitted or not. At a percentage the steps of each transaction are rounded up, and the quiet ones are
 * fewer than these.
 * RTDB_CLOSED and RTDB_NO_MEMORY leave the answer as it was. The database stays as it is. Takes memory for a set and its
 * analysis, and gives it back. Costs the analysis of at most ten sets. */
rtdb_status rtdb_margin(rtdb *db, rtdb_margin_answer *answer);

/* ---- plans ---- */

/* A job is named by its transaction, and by which of that transaction's jobs it is, from 0. */
typedef struct rtdb_job {
    uint32_t transaction;
    uint32_t serial;
} rtdb_job;

/* What is answered to a plan and to idling. A field that the reply does not name is 0. */
typedef struct rtdb_time {
    uint32_t reply;
    rtdb_job job;
    uint64_t tick;
    uint64_t count;
} rtdb_time;

enum {
    RTDB_PLANNED = 0,       /* of a plan. job: the planned one; tick: its release, which takes place at once where it is now */
    RTDB_ADVANCED = 0,      /* of idling. tick: the present one */
    RTDB_PAST = 1,          /* tick: the present one, which is above the tick that was asked for */
    RTDB_TOO_SOON = 2,      /* tick: the earliest, a period after the last planned one */
    RTDB_TOO_FAR = 3,       /* tick: the limit, 2^40 */
    RTDB_CALENDAR_FULL = 4, /* count: the releases that are planned, 65,536 */
    RTDB_NO_SERIAL = 5,     /* count: the transaction's jobs so far, 2^32 - 1 */
    RTDB_JOURNAL_FULL = 6,  /* count: the room. Drain, and ask again */
    RTDB_NOT_IDLE = 7,      /* of idling. job: the running one */
    RTDB_NONE_PLANNED = 8   /* of idling */
};

/* Plans the transaction's next job for a tick. Each reply but RTDB_PLANNED leaves all as it was.
 * Costs logarithmic time in the number of planned releases. */
rtdb_status rtdb_plan(rtdb *db, uint32_t transaction, uint64_t tick, rtdb_time *answer);

/* The same for the earliest tick that may be: now, or a period after the last planned one. */
rtdb_status rtdb_plan_next(rtdb *db, uint32_t transaction, rtdb_time *answer);

/* With nothing pending the time goes on to the next planned release. Each reply but RTDB_ADVANCED leaves all as it was.
 * Costs, for each release that takes place, logarithmic time in the number of planned ones. */
rtdb_status rtdb_idle(rtdb *db, rtdb_time *answer);

/* How many releases are planned and did not take place yet. Reads a word. */
rtdb_status rtdb_planned(rtdb *db, size_t *count);

/* ---- steps ---- */

enum {
    RTDB_READ = 0,
    RTDB_WRITE = 1, /* installed where the job commits */
    RTDB_COMPUTE = 2,
    RTDB_COMMIT = 3,
    RTDB_QUIT = 4
};

/* What a job asks for. A read and a write take the item, a write the value; else they say nothing. */
typedef struct rtdb_operation {
    uint32_t operation; /* RTDB_READ and the others */
    uint32_t item;
    int64_t value;
} rtdb_operation;

/* How a job ended. Only a committed job's writes are installed. A field that the kind does not name is 0. */
typedef struct rtdb_end {
    uint32_t kind;
    uint32_t item;
    uint32_t other;
    uint64_t stamp;
} rtdb_end;

enum {
    RTDB_NOT_ENDED = 0,
    RTDB_COMMITTED = 1,
    RTDB_OVERRUN = 2, /* it used its declared steps, and the last was neither a commit nor a quit */
    RTDB_LATE = 3,    /* it was pending at its deadline: no job of an admitted set */
    RTDB_STALE = 4,   /* item: the first that was read past its validity; stamp: the one that was read */
    RTDB_APART = 5,   /* item: the older one, other: the newer one of two that were read too far apart */
    RTDB_QUITTED = 6
};

/* What a job is told that asked for an operation. A field that the reply does not name is 0. */
typedef struct rtdb_step_answer {
    uint32_t reply;
    uint32_t outcome;
    rtdb_job job;
    uint32_t item;
    uint32_t ceiling;
    uint64_t count;
    int64_t value;
    uint64_t stamp;
    uint32_t has_stamp;
    rtdb_end over;
} rtdb_step_answer;

enum {
    RTDB_DONE = 0,       /* it took a tick. outcome, value, has_stamp, stamp: what it is told; over: how the job ended with it */
    RTDB_BLOCKED = 1,    /* job: the one that it waits on, which runs; ceiling. It asks again when it is the running job */
    RTDB_NO_JOB = 2,     /* it is not pending. count: the ended jobs of its transaction; over: how the latest ended */
    RTDB_NOT_YET = 3,    /* job: the running one, which is another */
    RTDB_UNDECLARED = 4, /* item: not among the transaction's reads, or writes */
    RTDB_TOO_EARLY = 5,  /* count: the quiet steps that are left */
    RTDB_UNWRITTEN = 6,  /* item: a sensor or derived item that is to be written before the commit */
    RTDB_STEP_FULL = 7   /* count: the room of the journal. Drain, and ask again */
};

enum {
    RTDB_GOT = 0,       /* of a read. value; stamp where has_stamp is 1; else it is the job's own write */
    RTDB_PUT = 1,       /* of a write */
    RTDB_COMPUTED = 2,  /* of a computation */
    RTDB_CLOSED_JOB = 3 /* of a commit and of a quit */
};

/* A job asks for an operation.
 * RTDB_DONE appends an entry, takes a tick, and releases what is planned for the next one; RTDB_BLOCKED appends an entry, and
 * comes to a job at most once, and only while it holds no lock. Each other reply leaves all as it was.
 * Costs a bounded number of look-ups; a step that ends a job those for each of its locks. */
rtdb_status rtdb_step(rtdb *db, rtdb_job job, rtdb_operation operation, rtdb_step_answer *answer);

/* These three read a table. RTDB_CLOSED, RTDB_NO_TRANSACTION and RTDB_NOTHING leave what they would write as it was. */

/* The job whose turn it is. RTDB_NOTHING exactly where none is pending. */
rtdb_status rtdb_running(rtdb *db, rtdb_job *job);

/* The transaction's pending job. RTDB_NOTHING where there is none. */
rtdb_status rtdb_pending(rtdb *db, uint32_t transaction, rtdb_job *job);

/* How many jobs of the transaction have ended. */
rtdb_status rtdb_ended(rtdb *db, uint32_t transaction, uint32_t *count);

/* ---- values, and the journal ---- */

typedef struct rtdb_stored {
    int64_t value;
    uint64_t stamp;
} rtdb_stored;

/* An item's installed value and its stamp. Reads a table. */
rtdb_status rtdb_peek(rtdb *db, uint32_t item, rtdb_stored *stored);

/* The present tick. Reads a word. */
rtdb_status rtdb_now(rtdb *db, uint64_t *tick);

/* An event of the history. A field that the kind does not name is 0. */
typedef struct rtdb_entry {
    uint32_t kind;
    uint32_t operation;
    rtdb_job job;
    uint32_t item;
    int64_t value;
    uint64_t tick;
    uint64_t to;
    rtdb_step_answer answer;
} rtdb_entry;

enum {
    RTDB_ENTRY_PLANNED = 0, /* job.transaction; tick: the release */
    RTDB_ENTRY_STEP = 1,    /* job, operation, item, value; tick: when it began; answer: RTDB_DONE with its fields */
    RTDB_ENTRY_BLOCKED = 2, /* job, operation, item, value; tick: when it asked; answer: RTDB_BLOCKED with its fields */
    RTDB_ENTRY_IDLE = 3     /* from tick on to the tick `to` */
};

/* Moves the oldest entries into the caller's array: `moved` is how many, as many as it has places for, and at most 64. What
 * stands behind them in the array is as it was. Call it until it moves none.
 * Costs a move for each entry that was kept. */
rtdb_status rtdb_drain(rtdb *db, rtdb_entry *into, size_t places, size_t *moved);

/* How many entries the journal keeps, and how many were drained in all. Reads two words. */
rtdb_status rtdb_kept(rtdb *db, size_t *kept, uint64_t *drained);

/* ---- plants: a database that threads share ---- */

/* A plant is a database with seats, one for each transaction and one for the operator. Each seat has a handle of its own, which
 * one thread uses at a time (4. above); the calls by different seats may be made at once. All of them make one legal history:
 * a call takes effect in it at one place, and what it answers is what a call of the database answers there. A seat's own
 * entries stand there in the order of its calls. No job is late, as of a database that `rtdb_open` opens.
 *
 * A call makes one try: where another seat's call has the turn it answers RTDB_BUSY at once, which leaves all as it was. */
typedef struct rtdb_seat {
    void *at;
} rtdb_seat;

#define RTDB_SEAT_INIT {0}

/* Opens a plant over the set of the tables, as `rtdb_open` does: the handle is that of the operator's seat, which has the seats
 * of all transactions. Answers as `rtdb_open`, and leaves the handle as it was where that does.
 * Takes all memory that the plant needs, but that of further seats. */
rtdb_status rtdb_plant_open(rtdb_seat *operator_seat, const rtdb_tables *tables, size_t room, rtdb_refusal *refusal);

/* Opens the seat of the last transaction whose seat was not opened: `transaction` says which. So the seats come in the order of
 * falling numbers, each once. Answers RTDB_CLOSED by a closed handle of the operator, RTDB_OPEN where `seat` is open,
 * RTDB_NOTHING where no seat is left, or RTDB_NO_MEMORY: all is as it was then. Takes memory for the seat. */
rtdb_status rtdb_seat_open(rtdb_seat *operator_seat, rtdb_seat *seat, uint32_t *transaction);

/* Closes a seat. The last seat that is closed gives the memory of the plant back. Answers RTDB_OK or RTDB_CLOSED. */
rtdb_status rtdb_seat_close(rtdb_seat *seat);

/* Each of the following answers RTDB_CLOSED, else the status that it names, else RTDB_BUSY or RTDB_OK. */

/* A job of the seat's transaction asks for an operation, as of `rtdb_step`. RTDB_WRONG_SEAT by the operator's seat,
 * RTDB_NO_OPERATION. Where another job runs (RTDB_NOT_YET), or a job that blocks it (RTDB_BLOCKED), ask again later. */
rtdb_status rtdb_seat_step(rtdb_seat *seat, uint32_t serial, rtdb_operation operation, rtdb_step_answer *answer);

/* As `rtdb_plan`, `rtdb_plan_next` and `rtdb_idle`, by any seat and for any transaction. RTDB_NO_TRANSACTION of the first two. */
rtdb_status rtdb_seat_plan(rtdb_seat *seat, uint32_t transaction, uint64_t tick, rtdb_time *answer);
rtdb_status rtdb_seat_plan_next(rtdb_seat *seat, uint32_t transaction, rtdb_time *answer);
rtdb_status rtdb_seat_idle(rtdb_seat *seat, rtdb_time *answer);

/* As `rtdb_peek`, by any seat. RTDB_NO_ITEM. */
rtdb_status rtdb_seat_peek(rtdb_seat *seat, uint32_t item, rtdb_stored *stored);

/* As `rtdb_drain`, by the operator's seat alone: RTDB_WRONG_SEAT by each other. */
rtdb_status rtdb_seat_drain(rtdb_seat *seat, rtdb_entry *into, size_t places, size_t *moved);

/* How many entries of the history the seat has seen: those before its last call that had the turn, and that call's own. Reads a
 * word. */
rtdb_status rtdb_seat_front(rtdb_seat *seat, uint64_t *count);

/* ---- a journal on a file ---- */

/* A log keeps entries, so that a program that was stopped finds them again. The library reaches no file: a log hands out the
 * calls of the device that it needs, a write or a sync at a time, and the caller makes them and answers each. rtdb_file.h does
 * that on a file of the system. docs/FORMATS.md has the bytes of the file, which the command `rtdb journal` reads too.
 *
 * What a caller owes besides:
 *   6. The calls of a log are made in order on one file, which begins as the bytes that were handed to `rtdb_log_open`, and
 *      which nothing else changes. Each is answered after it was made, and truly: a sync was made when what was written before
 *      is durable.
 *   7. What is appended is what was drained from one database over the set of the text, in order, from its first entry on.
 * Then, whatever moment the program or the machine stops at, in the middle of a write too, the file is opened as all entries
 * that were kept before, and the first few of the piece whose calls were being made. A write that was not synced may leave any
 * bytes in its range. The calls of `rtdb_log_open` on an empty file are left out: a file that was stopped at before they were
 * all made may be refused, and has no entries to lose. */

/* A log, or none while it is closed. Rules 3 and 4 hold for it too. */
typedef struct rtdb_log {
    void *at;
} rtdb_log;

#define RTDB_LOG_MOST 64    /* entries of a piece */
#define RTDB_LOG_WIDTH 256  /* bytes of a write */

/* Further statuses, of the functions of a log. */
enum {
    RTDB_STOPPED = 20,    /* a call of the log failed */
    RTDB_UNANSWERED = 21, /* calls of the log are still to be made */
    RTDB_UNKNOWN = 22,    /* an entry names what the set has not, or tells what its operation does not */
    RTDB_BAD_TEXT = 23,   /* the text is no head of a report. a of the refusal: the line that is bad, from 1, or 0: no mode line */
    RTDB_BAD_RECORD = 24, /* a of the refusal: the first record of the file that is bad; 0 is the header, and k the k-th entry's */
    RTDB_FULL = 25        /* the file has more entries than there is room for */
};

/* A call of the device: `count` bytes at `offset`, or a sync, with 0 in both. */
typedef struct rtdb_call {
    uint32_t kind; /* RTDB_CALL_WRITE or RTDB_CALL_SYNC */
    uint64_t offset;
    uint64_t count;
} rtdb_call;

enum { RTDB_CALL_WRITE = 0, RTDB_CALL_SYNC = 1 };

/* Opens the log of a file that has these bytes, with room for so many entries. The text declares the set and its names, as the
 * lines of a report up to its mode line do (docs/FORMATS.md). No bytes make a new log. Then its calls are to be made; of a file
 * that is not empty the first is a sync.
 * Answers RTDB_OK, or RTDB_OPEN, which leaves the refusal as it was. By a closed handle else: RTDB_NO_ROOM (the room is above
 * RTDB_MOST_ROOM, or the text too long), RTDB_BAD_TEXT, RTDB_NOT_COMPILED, RTDB_BAD_RECORD, RTDB_FULL, with the first cause in
 * `refusal`; RTDB_NO_MEMORY may come in place of each. After each but RTDB_OK the handle is as it was.
 * Takes all memory that the log needs: as much as the file has with all entries, 256 bytes for each, and the entries that were
 * found. Costs a run of the history. */
rtdb_status rtdb_log_open(rtdb_log *log, const uint8_t *text, size_t text_length, const uint8_t *file, size_t file_length,
                          size_t room, rtdb_refusal *refusal);

/* Gives the memory back and closes the handle. Answers RTDB_OK or RTDB_CLOSED. The file is the caller's. */
rtdb_status rtdb_log_close(rtdb_log *log);

/* How many entries the log keeps: those that were found, and those of the pieces whose calls were all made. Reads a word. */
rtdb_status rtdb_log_count(rtdb_log *log, uint64_t *count);

/* The entry at a place, from 0, of those that were found in the file by `rtdb_log_open`. RTDB_NOTHING behind the last. */
rtdb_status rtdb_log_entry(rtdb_log *log, size_t place, rtdb_entry *entry);

/* Adds entries as one piece, at most RTDB_LOG_MOST. Its calls are to be made then: a write for each entry, a sync, a write for
 * each, a sync. The entries are kept when all were made.
 * RTDB_CLOSED, RTDB_STOPPED, RTDB_UNANSWERED, RTDB_NO_ROOM (more than a piece may have, or than there is room for) and
 * RTDB_UNKNOWN, in this order, leave all as it was; so does RTDB_NO_MEMORY, which may come in place of RTDB_OK though no memory
 * is taken. Costs the line of each entry. */
rtdb_status rtdb_log_append(rtdb_log *log, const rtdb_entry *entries, size_t count);

/* The call that is to be made next, and the bytes of a write at the head of `bytes`, for which RTDB_LOG_WIDTH places are enough.
 * RTDB_CLOSED, RTDB_NOTHING (no call is to be made, or one failed) and RTDB_NO_ROOM (too few places) leave both as they were.
 * It may be asked again until it is answered. */
rtdb_status rtdb_log_call(rtdb_log *log, rtdb_call *call, uint8_t *bytes, size_t places);

/* The call that was next was made, where `made` is 1; else it failed, and the log has stopped: it hands out no further call and
 * takes no further entry. Close it then, and open it again on what the file has.
 * RTDB_CLOSED and RTDB_NOTHING leave all as it was. */
rtdb_status rtdb_log_answer(rtdb_log *log, uint32_t made);

#ifdef __cplusplus
}
#endif

#endif

/* Refuses each growth of memory of `rtdb_plant_open` and `rtdb_seat_open` in turn, and counts what is held, as growths.c does for
 * `rtdb_open`. A seat that could not be opened is opened by the next try; the last seat that is closed gives all back. */
#include <stdio.h>

#include "refusing.h"
#include "rtdb.h"

static const rtdb_item items[] = {{RTDB_SENSOR, 20, 0}, {RTDB_DERIVED, 60, 0}, {RTDB_STATE, 0, 0}};
static const uint32_t numbers[] = {0, 0, 1, 2, 0, 1};
static const rtdb_transaction transactions[] = {
    {2, 0, 0, 0, 1, 10, 0, 10, 2, 0},
    {1, 1, 1, 2, 2, 20, 0, 20, 4, 0},
};
static const rtdb_together sets[] = {{4, 2, 60}};
static const rtdb_tables tables = {items, 3, transactions, 2, sets, 1, numbers, 6};

/* Opens the plant with all its seats, and answers whether it could; a seat is tried again, with memory. */
static int open_all(rtdb_seat *operator_seat, rtdb_seat seats[2], int *bad) {
    rtdb_refusal refusal = {9, 9, 9, 9, 9};
    rtdb_status status = rtdb_plant_open(operator_seat, &tables, 256, &refusal);
    if (status != RTDB_OK) {
        *bad += status != RTDB_NO_MEMORY || operator_seat->at != NULL || held != 0;
        return 0;
    }
    for (uint32_t t = 2; t-- > 0;) {
        uint32_t which = 9;
        status = rtdb_seat_open(operator_seat, &seats[t], &which);
        if (status == RTDB_NO_MEMORY) {
            *bad += which != 9 || seats[t].at != NULL;
            status = rtdb_seat_open(operator_seat, &seats[t], &which);
        }
        *bad += status != RTDB_OK || which != t;
    }
    return 1;
}

/* One thread uses all seats; answers how many calls were no RTDB_OK. */
static int use(rtdb_seat *operator_seat, rtdb_seat seats[2]) {
    static rtdb_entry entries[64];
    rtdb_time time = {0, {0, 0}, 0, 0};
    rtdb_step_answer answer = {0, 0, {0, 0}, 0, 0, 0, 0, 0, 0, {0, 0, 0, 0}};
    rtdb_stored stored = {0, 0};
    size_t moved = 0;
    int bad = 0;
    for (uint32_t k = 0; k < 200; k++) {
        bad += rtdb_seat_plan_next(&seats[k % 2], k % 2, &time) != RTDB_OK;
        bad += rtdb_seat_idle(operator_seat, &time) != RTDB_OK;
        bad += rtdb_seat_step(&seats[k % 2], k / 2, (rtdb_operation){RTDB_QUIT, 0, 0}, &answer) != RTDB_OK || answer.reply != RTDB_DONE;
        bad += rtdb_seat_peek(&seats[k % 2], 2, &stored) != RTDB_OK;
        bad += rtdb_seat_drain(operator_seat, entries, 64, &moved) != RTDB_OK;
    }
    return bad;
}

int main(void) {
    int bad = 0;
    for (refused = 0;; refused++) {
        rtdb_seat operator_seat = RTDB_SEAT_INIT, seats[2] = {RTDB_SEAT_INIT, RTDB_SEAT_INIT};
        growths = 0;
        if (!open_all(&operator_seat, seats, &bad)) continue;
        long taken = growths;
        bad += use(&operator_seat, seats) + (growths != taken);
        bad += rtdb_seat_close(&operator_seat) != RTDB_OK || rtdb_seat_close(&seats[0]) != RTDB_OK || held == 0;
        bad += rtdb_seat_close(&seats[1]) != RTDB_OK || held != 0;
        if (taken <= refused) break;
    }
    printf("%ld growths, %d faults\n", refused, bad);
    return bad == 0 && refused > 0 ? 0 : 1;
}

/*
 * Table X of document 01, by hand: 11 records in walk order, the order of its sheet, that
 * order's plan, which is case P10, its text, and the sheet.
 */
#ifndef TABLE_X_H
#define TABLE_X_H

#include <stdint.h>

static const uint8_t table_x[11 * 16] = {
    1, 0, 1, 0, 5, 0, 0, 0, 0, 0, 0, 0, 0, 0, 0, 0,  /* 0: W 5, first task 1, store all 0 */
    2, 7, 2, 0, 2, 0, 0, 0, 8, 0, 0, 0, 0, 0, 0, 0,  /* 1: task 0, C 2, P 8, A 0 */
    4, 3, 1, 0, 0, 0, 0, 0, 0, 0, 0, 0, 0, 0, 0, 0,  /* 2: Load 0 0 */
    4, 4, 1, 1, 0, 0, 0, 0, 0, 0, 0, 0, 0, 0, 0, 0,  /* 3: Load 1 0 */
    4, 5, 7, 0, 1, 1, 0, 0, 0, 0, 0, 0, 0, 0, 0, 0,  /* 4: skip 1 if 0 equals 1 */
    4, 6, 11, 2, 0, 0, 0, 0, 0, 0, 0, 0, 0, 0, 0, 0, /* 5: Assert 2 */
    4, 0, 0, 0, 0, 0, 0, 0, 0, 0, 0, 0, 0, 0, 0, 0,  /* 6: End */
    2, 0, 8, 0, 1, 0, 0, 0, 4, 0, 0, 0, 1, 0, 0, 0,  /* 7: task 1, C 1, P 4, A 1 */
    4, 9, 3, 0, 1, 0, 0, 0, 0, 0, 0, 0, 0, 0, 0, 0,  /* 8: Set 0 1 */
    4, 10, 2, 0, 0, 0, 0, 0, 0, 0, 0, 0, 0, 0, 0, 0, /* 9: Store 0 0 */
    4, 0, 0, 0, 0, 0, 0, 0, 0, 0, 0, 0, 0, 0, 0, 0,  /* 10: End */
};

static const uint8_t order_of_x[8] = {0, 16, 16, 16, 0, 0, 0, 0};

static const uint8_t plan_of_x[33] = {
    2,                            /* jobs */
    0, 0, 0, 0, 0, 0, 0, 0,       /* guess of round 0 */
    1, 0, 0, 0, 0, 0, 0, 0,       /* guess of round 1 */
    0, 0, 1, 0, 1, 0, 1, 0, 1, 0, /* job 0: rounds 0 1 1 1 1 */
    0, 0, 0, 0, 0, 0,             /* job 1: rounds 0 0 0 */
};

static const char text_of_x[] = "window 5\n"
                                "start 0 0 0 0 0 0 0 0\n"
                                "task 2 8 0\n"
                                "load 0 0\n"
                                "load 1 0\n"
                                "equal 0 1 1\n"
                                "assert 2\n"
                                "end\n"
                                "task 1 4 1\n"
                                "set 0 1\n"
                                "store 0 0\n"
                                "end\n";

static const char sheet_of_x[] = "tasks 2 jobs 2\n"
                                 "task 0 response 3 jobs 1\n"
                                 "task 1 response 1 jobs 1\n"
                                 "verdict fails 23\n"
                                 "order 0 16 16 16 0 0 0 0\n"
                                 "failed 0\n"
                                 "job 0 rounds 0 1 1 1 1\n"
                                 "job 1 rounds 0 0 0\n";

#endif

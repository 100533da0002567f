/*
 * Table X of document 01 through the C interface: read, replayed, walked with allowances 23 and 22,
 * its order converted to its plan and back, its sheet printed, its jobs listed, its table edited in
 * memory and written, its text converted to its file and back. Says the first result that is not the
 * papers', and returns 1.
 */
#include "adqurim.h"
#include "table_x.h"

#include <stdio.h>
#include <stdlib.h>
#include <string.h>

/* The walk's count. Another value makes the program fail, which a test wants to see once. */
#ifndef COUNT_OF_X
#define COUNT_OF_X 23
#endif

/* What a lent buffer holds before a call. */
#define FILL 0xa5

static void expect(const char *what, uint64_t found, uint64_t expected) {
    if (found != expected) {
        fprintf(stderr, "%s: %llu, expected %llu\n", what, (unsigned long long)found,
                (unsigned long long)expected);
        exit(1);
    }
}

/* Expects that every word is zero. */
static void expect_zeros(const char *what, const uint64_t *words, size_t count) {
    for (size_t at = 0; at < count; at++) {
        expect(what, words[at], 0);
    }
}

/* Expects a buffer of two bytes more than the room: the bytes, zeros, and two bytes unchanged. */
static void expect_filled(const uint8_t *buffer, size_t room, const uint8_t *bytes, size_t length) {
    for (size_t at = 0; at < room; at++) {
        expect("byte of the buffer", buffer[at], at < length ? bytes[at] : 0);
    }
    expect("first byte beyond the room", buffer[room], FILL);
    expect("second byte beyond the room", buffer[room + 1], FILL);
}

/* Expects that every byte of a buffer is as it was. */
static void expect_untouched(const uint8_t *buffer, size_t length) {
    for (size_t at = 0; at < length; at++) {
        expect("byte of an untouched buffer", buffer[at], FILL);
    }
}

/* Expects that variable 0 ends 1, the others 0, and that only job 0 failed. */
static void expect_end(const uint64_t *store, const uint64_t *failed) {
    expect("variable 0", store[0], 1);
    expect_zeros("variables 1 to 7", store + 1, ADQURIM_VARIABLES - 1);
    expect("job 0 failed", failed[0], 1);
    expect_zeros("jobs 1 to 31 failed", failed + 1, ADQURIM_MOST_JOBS - 1);
}

static void read_x(void) {
    adqurim_read_answer answer;
    memset(&answer, FILL, sizeof answer);
    expect("read", adqurim_read_file(table_x, sizeof table_x, &answer), ADQURIM_ACCEPTED);
    expect("number of the file", answer.number, ADQURIM_ACCEPTED);
    expect("place of the file", answer.place, 0);
    expect("response time of task 0", answer.responses[0], 3);
    expect("response time of task 1", answer.responses[1], 1);
    expect_zeros("response time past task 1", answer.responses + 2, ADQURIM_MOST_TASKS - 2);
    expect("jobs", answer.jobs, 2);
}

/* A file of size 0 is refused by 1; one with a wrong kind in record 7 by 2 at 7. */
static void read_refused(void) {
    adqurim_read_answer answer;
    memset(&answer, FILL, sizeof answer);
    expect("no bytes", adqurim_read_file(table_x, 0, &answer), ADQURIM_SIZE);
    expect("place of no bytes", answer.place, 0);
    expect_zeros("response time of no bytes", answer.responses, ADQURIM_MOST_TASKS);
    expect("jobs of no bytes", answer.jobs, 0);
    uint8_t file[sizeof table_x];
    memcpy(file, table_x, sizeof file);
    file[7 * 16] = 9;
    expect("wrong kind", adqurim_read_file(file, sizeof file, &answer), ADQURIM_KIND);
    expect("place of the wrong kind", answer.place, 7);
}

static void replay_x(void) {
    adqurim_run run;
    memset(&run, FILL, sizeof run);
    uint64_t number = adqurim_replay_order(table_x, sizeof table_x, order_of_x,
                                           sizeof order_of_x, &run);
    expect("replay", number, ADQURIM_ACCEPTED);
    expect("place of the replay", run.place, 0);
    expect_end(run.store, run.failed);
    expect("length of the replay", run.length, 0);
    number = adqurim_replay_order(table_x, sizeof table_x, order_of_x, 7, &run);
    expect("replay of 7 bytes", number, ADQURIM_SHORT);
    expect("place in 7 bytes", run.place, 7);
}

/* The slips of a step: task 0 has no turn, task 5 does not exist, value 7 is not on offer. */
static void steps_refused(void) {
    static const uint8_t orders[3][4] = {{0, 16, 16, 0}, {0, 16, 80, 16}, {0, 23, 16, 16}};
    static const uint64_t numbers[3] = {ADQURIM_STEP, ADQURIM_TASK, ADQURIM_OFFER};
    static const uint64_t places[3] = {3, 2, 1}, tasks[3] = {0, 5, 1}, values[3] = {0, 0, 7};
    adqurim_run run;
    uint8_t plan[ADQURIM_PLAN_ROOM];
    memset(plan, FILL, sizeof plan);
    for (size_t at = 0; at < 3; at++) {
        const uint8_t *order = orders[at];
        uint64_t number = adqurim_replay_order(table_x, sizeof table_x, order, 4, &run);
        expect("replay of a slip", number, numbers[at]);
        expect("place of a slip", run.place, places[at]);
        expect("task of the byte at the place", order[run.place] / 16, tasks[at]);
        expect("value of the byte at the place", order[run.place] % 16, values[at]);
        number = adqurim_convert_order(table_x, sizeof table_x, order, 4, plan, sizeof plan, &run);
        expect("conversion of a slip", number, numbers[at]);
        expect("place of a slip", run.place, places[at]);
    }
    expect_untouched(plan, sizeof plan);
}

/* Allowance 23: the walk fails. */
static void walk_x(void) {
    adqurim_walk_answer walk;
    uint8_t order[ADQURIM_ORDER_ROOM + 2];
    memset(&walk, FILL, sizeof walk);
    memset(order, FILL, sizeof order);
    uint64_t number = adqurim_walk_orders(table_x, sizeof table_x, 23, order, sizeof order, &walk);
    expect("walk", number, ADQURIM_ACCEPTED);
    expect("place of the walk", walk.place, 0);
    expect("verdict", walk.verdict, ADQURIM_VERDICT_FAILS);
    expect("count", walk.count, COUNT_OF_X);
    expect("length of the order", walk.length, sizeof order_of_x);
    expect_end(walk.store, walk.failed);
    expect_filled(order, ADQURIM_ORDER_ROOM, order_of_x, sizeof order_of_x);
}

/* Allowance 22: undecided. A buffer of 511 bytes: no room. */
static void walk_refused(void) {
    adqurim_walk_answer walk;
    uint8_t order[ADQURIM_ORDER_ROOM + 2];
    memset(order, FILL, sizeof order);
    uint64_t number = adqurim_walk_orders(table_x, sizeof table_x, 22, order,
                                          ADQURIM_ORDER_ROOM - 1, &walk);
    expect("walk with 511 bytes", number, ADQURIM_ROOM);
    expect("byte 0 without room", order[0], FILL);
    number = adqurim_walk_orders(table_x, sizeof table_x, 22, order, sizeof order, &walk);
    expect("walk with 22", number, ADQURIM_UNDECIDED);
    expect("place with 22", walk.place, 0);
    expect("verdict with 22", walk.verdict, ADQURIM_VERDICT_NONE);
    expect("count with 22", walk.count, 0);
    expect_filled(order, ADQURIM_ORDER_ROOM, order_of_x, 0);
}

/* The words without a struct: none changes where one is missing. */
static void walk_words(void) {
    uint64_t words[ADQURIM_WALK_WORDS] = {7};
    uint8_t order[ADQURIM_ORDER_ROOM] = {FILL};
    bool room = adqurim_walk(table_x, sizeof table_x, 23, order, sizeof order, words,
                             ADQURIM_WALK_WORDS - 1);
    expect("room for 44 words", room, false);
    expect("word 0 without room", words[0], 7);
    expect("byte 0 without room", order[0], FILL);
    room = adqurim_walk(table_x, sizeof table_x, 23, order, sizeof order, words,
                        ADQURIM_WALK_WORDS);
    expect("room for 45 words", room, true);
    expect("word 44", words[44], COUNT_OF_X);
}

/* P10: the plan is accepted as the order is. P11: job 1 in rounds 1 1 1, refused by 43 at 0. */
static void check_plan_of_x(void) {
    adqurim_run run;
    memset(&run, FILL, sizeof run);
    uint64_t number = adqurim_check_round_plan(table_x, sizeof table_x, plan_of_x,
                                               sizeof plan_of_x, &run);
    expect("check", number, ADQURIM_ACCEPTED);
    expect("place of the check", run.place, 0);
    expect_end(run.store, run.failed);
    expect("length of the check", run.length, 0);
    uint8_t plan[sizeof plan_of_x];
    memcpy(plan, plan_of_x, sizeof plan);
    plan[27] = plan[29] = plan[31] = 1;
    number = adqurim_check_round_plan(table_x, sizeof table_x, plan, sizeof plan, &run);
    expect("check of P11", number, ADQURIM_ORDER);
    expect("place of P11", run.place, 0);
    expect_zeros("end store of P11", run.store, ADQURIM_VARIABLES);
}

/* The order becomes the plan of P10, and that plan the order again. */
static void there_and_back(void) {
    adqurim_run run;
    uint8_t plan[ADQURIM_PLAN_ROOM + 2], order[ADQURIM_ORDER_ROOM + 2];
    memset(plan, FILL, sizeof plan);
    memset(order, FILL, sizeof order);
    uint64_t number = adqurim_convert_order(table_x, sizeof table_x, order_of_x,
                                            sizeof order_of_x, plan, sizeof plan, &run);
    expect("order to plan", number, ADQURIM_ACCEPTED);
    expect_end(run.store, run.failed);
    expect("length of the plan", run.length, sizeof plan_of_x);
    expect_filled(plan, ADQURIM_PLAN_ROOM, plan_of_x, sizeof plan_of_x);
    number = adqurim_convert_plan(table_x, sizeof table_x, plan, run.length, order, sizeof order,
                                  &run);
    expect("plan to order", number, ADQURIM_ACCEPTED);
    expect_end(run.store, run.failed);
    expect("length of the order", run.length, sizeof order_of_x);
    expect_filled(order, ADQURIM_ORDER_ROOM, order_of_x, sizeof order_of_x);
}

/* A short order, a plan with a byte too many, and buffers a byte too short change no buffer. */
static void conversions_refused(void) {
    adqurim_run run;
    uint8_t buffer[ADQURIM_PLAN_ROOM], longer[sizeof plan_of_x + 1] = {0};
    memset(buffer, FILL, sizeof buffer);
    memcpy(longer, plan_of_x, sizeof plan_of_x);
    uint64_t number = adqurim_convert_order(table_x, sizeof table_x, order_of_x, 7, buffer,
                                            sizeof buffer, &run);
    expect("short order", number, ADQURIM_SHORT);
    expect("place of the short order", run.place, 7);
    number = adqurim_convert_plan(table_x, sizeof table_x, longer, sizeof longer, buffer,
                                  sizeof buffer, &run);
    expect("long plan", number, ADQURIM_SHAPE);
    expect("place of the long plan", run.place, sizeof plan_of_x);
    number = adqurim_convert_order(table_x, sizeof table_x, order_of_x, sizeof order_of_x, buffer,
                                   ADQURIM_PLAN_ROOM - 1, &run);
    expect("plan buffer of 1,280 bytes", number, ADQURIM_ROOM);
    number = adqurim_convert_plan(table_x, sizeof table_x, plan_of_x, sizeof plan_of_x, buffer,
                                  ADQURIM_ORDER_ROOM - 1, &run);
    expect("order buffer of 511 bytes", number, ADQURIM_ROOM);
    expect_untouched(buffer, sizeof buffer);
}

/* The words of the plan's entries without a struct: nothing changes where one is missing. */
static void plan_words(void) {
    uint64_t words[ADQURIM_CONVERSION_WORDS] = {7};
    const size_t few = ADQURIM_CONVERSION_WORDS - 1;
    uint8_t buffer[ADQURIM_PLAN_ROOM];
    memset(buffer, FILL, sizeof buffer);
    bool room = adqurim_check_plan(table_x, sizeof table_x, plan_of_x, sizeof plan_of_x, words,
                                   ADQURIM_CHECK_PLAN_WORDS - 1);
    expect("room for 42 words of a check", room, false);
    room = adqurim_order_to_plan(table_x, sizeof table_x, order_of_x, sizeof order_of_x, buffer,
                                 sizeof buffer, words, few);
    expect("room for 42 words of a plan", room, false);
    room = adqurim_plan_to_order(table_x, sizeof table_x, plan_of_x, sizeof plan_of_x, buffer,
                                 sizeof buffer, words, few);
    expect("room for 42 words of an order", room, false);
    expect("word 0 without room", words[0], 7);
    expect_untouched(buffer, sizeof buffer);
    room = adqurim_order_to_plan(table_x, sizeof table_x, order_of_x, sizeof order_of_x, buffer,
                                 sizeof buffer, words, ADQURIM_CONVERSION_WORDS);
    expect("room for 43 words", room, true);
    expect("word 42", words[42], sizeof plan_of_x);
}

/* The sheet, printed; bytes past it are unchanged. */
static void sheet_of_table_x(void) {
    adqurim_sheet_answer sheet;
    const size_t length = sizeof sheet_of_x - 1;
    uint8_t text[ADQURIM_SHEET_ROOM + 2];
    memset(&sheet, FILL, sizeof sheet);
    memset(text, FILL, sizeof text);
    uint64_t number = adqurim_print_sheet(table_x, sizeof table_x, text, sizeof text, &sheet);
    expect("sheet", number, ADQURIM_ACCEPTED);
    expect("place of the sheet", sheet.place, 0);
    expect("length of the sheet", sheet.length, length);
    expect("the sheet's bytes differ", (uint64_t)(memcmp(text, sheet_of_x, length) != 0), 0);
    expect_untouched(text + length, sizeof text - length);
    fwrite(text, 1, length, stdout);
}

/* The sheet of no bytes; a text a byte too short and an answer a word too short change nothing. */
static void sheet_refused(void) {
    adqurim_sheet_answer sheet;
    const char *line = "refused 1 0\n";
    uint8_t text[ADQURIM_SHEET_ROOM];
    uint64_t words[ADQURIM_SHEET_WORDS] = {7};
    memset(text, FILL, sizeof text);
    uint64_t number = adqurim_print_sheet(table_x, sizeof table_x, text, sizeof text - 1, &sheet);
    expect("text of 4,607 bytes", number, ADQURIM_ROOM);
    expect("length without room", sheet.length, 0);
    bool room = adqurim_sheet(table_x, sizeof table_x, text, sizeof text, words,
                              ADQURIM_SHEET_WORDS - 1);
    expect("room for 2 words of a sheet", room, false);
    expect("word 0 without room", words[0], 7);
    expect_untouched(text, sizeof text);
    number = adqurim_print_sheet(table_x, 0, text, sizeof text, &sheet);
    expect("sheet of no bytes", number, ADQURIM_ACCEPTED);
    expect("length of a refusal's sheet", sheet.length, strlen(line));
    expect("a refusal's sheet differs", (uint64_t)(memcmp(text, line, strlen(line)) != 0), 0);
}

/* The jobs, printed; records past them are unchanged. */
static void jobs_of_table_x(void) {
    adqurim_jobs_answer answer;
    adqurim_job jobs[ADQURIM_JOB_LIST_ROOM + 1];
    memset(&answer, FILL, sizeof answer);
    memset(jobs, FILL, sizeof jobs);
    uint64_t number = adqurim_list_jobs(table_x, sizeof table_x, jobs, ADQURIM_JOB_LIST_ROOM + 1,
                                        &answer);
    expect("jobs", number, ADQURIM_ACCEPTED);
    expect("place of the jobs", answer.place, 0);
    expect("how many jobs", answer.jobs, 2);
    expect("task of job 1", jobs[1].task, 1);
    expect("arrival of job 1", jobs[1].arrival, 1);
    expect("latest finish of job 1", jobs[1].latest, 2);
    expect_untouched((const uint8_t *)(jobs + 2), sizeof jobs - 2 * sizeof jobs[0]);
    for (size_t job = 0; job < answer.jobs; job++) {
        printf("job %d task %d arrival %d latest %d\n", (int)job, jobs[job].task,
               (int)jobs[job].arrival, (int)jobs[job].latest);
    }
}

/* No bytes, a list a record too short and an answer a word too short change no record. */
static void jobs_refused(void) {
    adqurim_jobs_answer answer;
    adqurim_job jobs[ADQURIM_JOB_LIST_ROOM];
    uint64_t words[ADQURIM_JOBS_WORDS] = {7};
    memset(jobs, FILL, sizeof jobs);
    uint64_t number = adqurim_list_jobs(table_x, sizeof table_x, jobs, ADQURIM_JOB_LIST_ROOM - 1,
                                        &answer);
    expect("list of 31 records", number, ADQURIM_ROOM);
    expect("jobs without room", answer.jobs, 0);
    number = adqurim_list_jobs(table_x, 0, jobs, ADQURIM_JOB_LIST_ROOM, &answer);
    expect("jobs of no bytes", number, ADQURIM_SIZE);
    bool room = adqurim_jobs(table_x, sizeof table_x, jobs, ADQURIM_JOB_LIST_ROOM, words,
                             ADQURIM_JOBS_WORDS - 1);
    expect("room for 2 words of a job list", room, false);
    expect("word 0 without room", words[0], 7);
    expect_untouched((const uint8_t *)jobs, sizeof jobs);
}

/* The table in memory, which is what the file says, and its file, which is table X again. */
static void table_of_x(void) {
    adqurim_task_table table;
    adqurim_write_answer answer;
    uint8_t file[ADQURIM_FILE_ROOM + 2];
    memset(&table, FILL, sizeof table);
    memset(file, FILL, sizeof file);
    uint64_t number = adqurim_read_table(table_x, sizeof table_x, &table, &answer);
    expect("table", number, ADQURIM_ACCEPTED);
    expect("place of the table", answer.place, 0);
    expect("length of the table", answer.length, sizeof table);
    expect("window", table.window, 5);
    expect("tasks", table.tasks, 2);
    expect("locks", table.locks, 0);
    expect("period of task 0", table.entries[0].period, 8);
    expect("arrival of task 1", table.entries[1].arrival, 1);
    expect("length of task 0", table.entries[0].length, 5);
    expect("operation of the skip", table.entries[0].body[2].operation, 7);
    expect("skip", table.entries[0].body[2].c, 1);
    expect("operation past the body", table.entries[0].body[5].operation, 0);
    expect("execution time past the tasks", table.entries[2].execution, 0);
    expect("unused byte", table.unused[0], 0);
    expect("write", adqurim_write_file(&table, file, sizeof file, &answer), ADQURIM_ACCEPTED);
    expect("place of the file", answer.place, 0);
    expect("length of the file", answer.length, sizeof table_x);
    expect("the file's bytes differ", (uint64_t)(memcmp(file, table_x, sizeof table_x) != 0), 0);
    expect_untouched(file + sizeof table_x, sizeof file - sizeof table_x);
}

/* Table X with a lock, made in memory alone. What stands past its counts is not looked at. */
static void table_with_lock(void) {
    adqurim_task_table table, back;
    adqurim_write_answer answer;
    uint8_t file[ADQURIM_FILE_ROOM];
    adqurim_read_table(table_x, sizeof table_x, &table, &answer);
    table.locks = 1;
    table.ceilings[0] = 7;
    table.holdings[0] = 0x04030201;
    memset(table.ceilings + 1, FILL, sizeof table.ceilings - 1);
    memset(table.holdings + 1, FILL, sizeof table.holdings - sizeof table.holdings[0]);
    memset(table.entries + 2, FILL, 6 * sizeof table.entries[0]);
    memset(table.entries[1].unused, FILL, sizeof table.entries[1].unused);
    uint64_t number = adqurim_write_file(&table, file, sizeof file, &answer);
    expect("write with a lock", number, ADQURIM_ACCEPTED);
    expect("length with a lock", answer.length, 12 * 16);
    expect("the header's first lock", file[3], 11);
    expect("the lock's ceiling", file[11 * 16 + 2], 7);
    expect("low byte of the lock's holding time", file[11 * 16 + 4], 1);
    expect("high byte of the lock's holding time", file[11 * 16 + 7], 4);
    expect("byte past the lock's holding time", file[11 * 16 + 8], 0);
    expect("read back", adqurim_read_table(file, 12 * 16, &back, &answer), ADQURIM_ACCEPTED);
    expect("ceiling read back", back.ceilings[0], 7);
    expect("ceiling past the locks", back.ceilings[1], 0);
    expect("holding time read back", back.holdings[0], 0x04030201);
    expect("holding time past the locks", back.holdings[1], 0);
}

/* Table X with a Pick of 3 to 6 for the Set of task 1: the highest value is in b, the lowest in c. */
static void table_with_pick(void) {
    static const adqurim_instruction pick = {8, 0, 6, 3}, none = {8, 0, 3, 6};
    adqurim_task_table table;
    adqurim_write_answer answer;
    adqurim_run run;
    uint8_t file[ADQURIM_FILE_ROOM], order[sizeof order_of_x];
    adqurim_read_table(table_x, sizeof table_x, &table, &answer);
    table.entries[1].body[0] = pick;
    uint64_t number = adqurim_write_file(&table, file, sizeof file, &answer);
    expect("write with a Pick", number, ADQURIM_ACCEPTED);
    expect("the Pick's highest value", file[8 * 16 + 4], 6);
    expect("the Pick's lowest value", file[8 * 16 + 5], 3);
    memcpy(order, order_of_x, sizeof order);
    for (uint8_t value = 0; value < 16; value++) {
        bool on_offer = value >= 3 && value <= 6;
        order[1] = 16 + value;
        number = adqurim_replay_order(file, answer.length, order, sizeof order, &run);
        expect("replay of a Pick", number, on_offer ? ADQURIM_ACCEPTED : ADQURIM_OFFER);
        expect("place of a value", run.place, on_offer ? 0 : 1);
        expect("variable 0 after the Pick", run.store[0], on_offer ? value : 0);
    }
    table.entries[1].body[0] = none;
    number = adqurim_write_file(&table, file, sizeof file, &answer);
    expect("a lowest value above the highest", number, ADQURIM_FIELD);
    expect("place of the Pick", answer.place, 8);
}

/* The places are the indexes that the records would have had; a refusal changes no byte. */
static void tables_refused(void) {
    adqurim_task_table table, kept;
    adqurim_write_answer answer;
    uint8_t file[ADQURIM_FILE_ROOM];
    memset(file, FILL, sizeof file);
    adqurim_read_table(table_x, sizeof table_x, &table, &answer);
    memcpy(&kept, &table, sizeof table);
    uint64_t number = adqurim_write_file(&table, file, sizeof file - 1, &answer);
    expect("file of 2,319 bytes", number, ADQURIM_ROOM);
    table.entries[1].body[1].c = 1;
    expect("unused field", adqurim_write_file(&table, file, 0, &answer), ADQURIM_FIELD);
    expect("place of the unused field", answer.place, 9);
    table.entries[1].body[1].c = 0;
    table.entries[1].period = 9;
    expect("period", adqurim_write_file(&table, file, sizeof file, &answer), ADQURIM_RATE);
    expect("place of the period", answer.place, 7);
    expect("length of a refusal", answer.length, 0);
    table.entries[0].length = 17;
    number = adqurim_write_file(&table, file, sizeof file, &answer);
    expect("17 instructions", number, ADQURIM_COUNT);
    expect("place of the 17th", answer.place, 18);
    expect_untouched(file, sizeof file);
    expect("table of no bytes", adqurim_read_table(table_x, 0, &kept, &answer), ADQURIM_SIZE);
    expect("a refusal's table", kept.entries[1].period, 4);
}

/* The words without a struct: nothing changes where one is missing, or part of the table. */
static void table_words(void) {
    uint64_t words[ADQURIM_TABLE_WORDS] = {7};
    uint8_t table[ADQURIM_TABLE_ROOM], file[ADQURIM_FILE_ROOM];
    memset(table, FILL, sizeof table);
    memset(file, FILL, sizeof file);
    bool room = adqurim_table(table_x, sizeof table_x, table, sizeof table, words,
                              ADQURIM_TABLE_WORDS - 1);
    expect("room for 2 words of a table", room, false);
    expect("word 0 without room", words[0], 7);
    room = adqurim_table(table_x, sizeof table_x, table, sizeof table - 1, words,
                         ADQURIM_TABLE_WORDS);
    expect("room for 3 words", room, true);
    expect("table of 695 bytes", words[0], ADQURIM_ROOM);
    expect_untouched(table, sizeof table);
    adqurim_table(table_x, sizeof table_x, table, sizeof table, words, ADQURIM_TABLE_WORDS);
    words[0] = 7;
    room = adqurim_write(table, sizeof table - 1, file, sizeof file, words, ADQURIM_WRITE_WORDS);
    expect("part of a table", room, false);
    room = adqurim_write(table, sizeof table, file, sizeof file, words, ADQURIM_WRITE_WORDS - 1);
    expect("room for 2 words of a file", room, false);
    expect("word 0 of no call", words[0], 7);
    expect_untouched(file, sizeof file);
    room = adqurim_write(table, sizeof table, file, sizeof file, words, ADQURIM_WRITE_WORDS);
    expect("room for 3 words of a file", room, true);
    expect("word 2", words[2], sizeof table_x);
}

/* The text becomes table X's file, and the file the text again; bytes past both are unchanged. */
static void text_of_table_x(void) {
    adqurim_write_answer answer;
    const size_t length = sizeof text_of_x - 1;
    uint8_t file[ADQURIM_FILE_ROOM + 2], text[ADQURIM_TEXT_ROOM + 2];
    memset(&answer, FILL, sizeof answer);
    memset(file, FILL, sizeof file);
    memset(text, FILL, sizeof text);
    uint64_t number = adqurim_convert_text((const uint8_t *)text_of_x, length, file, sizeof file,
                                           &answer);
    expect("text to file", number, ADQURIM_ACCEPTED);
    expect("place of the text", answer.place, 0);
    expect("length of the text's file", answer.length, sizeof table_x);
    expect("the file of the text differs", (uint64_t)(memcmp(file, table_x, sizeof table_x) != 0),
           0);
    expect_untouched(file + sizeof table_x, sizeof file - sizeof table_x);
    memset(&answer, FILL, sizeof answer);
    number = adqurim_convert_file(table_x, sizeof table_x, text, sizeof text, &answer);
    expect("file to text", number, ADQURIM_ACCEPTED);
    expect("place of the file", answer.place, 0);
    expect("length of the file's text", answer.length, length);
    expect("the text of the file differs", (uint64_t)(memcmp(text, text_of_x, length) != 0), 0);
    expect_untouched(text + length, sizeof text - length);
}

/* A line missing, a number too large, a text too long, and a rule of the table at its line. */
static void texts_refused(void) {
    static const uint8_t missing[] = "window 5\n", large[] = "window 4294967296\n";
    static const uint8_t field[] = "window 5\nstart 0 0 0 0 0 0 0 0\ntask 1 4 0\nload 4 0\nend\n";
    static const uint8_t newlines[ADQURIM_TEXT_ROOM + 1] = {'\n'};
    adqurim_write_answer answer;
    uint8_t file[ADQURIM_FILE_ROOM], text[ADQURIM_TEXT_ROOM];
    memset(file, FILL, sizeof file);
    memset(text, FILL, sizeof text);
    uint64_t number = adqurim_convert_text(missing, sizeof missing - 1, file, sizeof file, &answer);
    expect("missing line", number, ADQURIM_LINE);
    expect("place of the missing line", answer.place, 1);
    number = adqurim_convert_text(large, sizeof large - 1, file, sizeof file, &answer);
    expect("large number", number, ADQURIM_LARGE);
    expect("place of the large number", answer.place, 0);
    number = adqurim_convert_text(newlines, sizeof newlines, file, sizeof file, &answer);
    expect("long text", number, ADQURIM_LONG);
    number = adqurim_convert_text(field, sizeof field - 1, file, 0, &answer);
    expect("field of a text", number, ADQURIM_FIELD);
    expect("line of the field", answer.place, 3);
    expect("length of a refused text", answer.length, 0);
    number = adqurim_convert_text((const uint8_t *)text_of_x, sizeof text_of_x - 1, file,
                                  sizeof file - 1, &answer);
    expect("file of 2,319 bytes for a text", number, ADQURIM_ROOM);
    number = adqurim_convert_file(table_x, sizeof table_x, text, sizeof text - 1, &answer);
    expect("text of 8,191 bytes", number, ADQURIM_ROOM);
    number = adqurim_convert_file(table_x, 0, text, sizeof text, &answer);
    expect("text of no bytes", number, ADQURIM_SIZE);
    expect_untouched(file, sizeof file);
    expect_untouched(text, sizeof text);
}

/* The words without a struct: nothing changes where one is missing. */
static void text_words(void) {
    uint64_t words[ADQURIM_TEXT_WORDS] = {7};
    uint8_t file[ADQURIM_FILE_ROOM], text[ADQURIM_TEXT_ROOM];
    const uint8_t *lines = (const uint8_t *)text_of_x;
    memset(file, FILL, sizeof file);
    memset(text, FILL, sizeof text);
    bool room = adqurim_text_to_file(lines, sizeof text_of_x - 1, file, sizeof file, words,
                                     ADQURIM_TEXT_WORDS - 1);
    expect("room for 2 words of a text's file", room, false);
    room = adqurim_file_to_text(table_x, sizeof table_x, text, sizeof text, words,
                                ADQURIM_TEXT_WORDS - 1);
    expect("room for 2 words of a file's text", room, false);
    expect("word 0 without room", words[0], 7);
    expect_untouched(file, sizeof file);
    expect_untouched(text, sizeof text);
    room = adqurim_text_to_file(lines, sizeof text_of_x - 1, file, sizeof file, words,
                                ADQURIM_TEXT_WORDS);
    expect("room for 3 words of a text's file", room, true);
    expect("word 2 of a text's file", words[2], sizeof table_x);
}

int main(void) {
    read_x();
    read_refused();
    replay_x();
    steps_refused();
    walk_x();
    walk_refused();
    walk_words();
    check_plan_of_x();
    there_and_back();
    conversions_refused();
    plan_words();
    sheet_of_table_x();
    sheet_refused();
    jobs_of_table_x();
    jobs_refused();
    table_of_x();
    table_with_lock();
    table_with_pick();
    tables_refused();
    table_words();
    text_of_table_x();
    texts_refused();
    text_words();
    return 0;
}

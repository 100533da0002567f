// The C interface called from C++: table X of document 01 read, replayed, walked, its order
// converted to its plan and back, its sheet printed, its jobs listed, its table edited and written,
// its text converted to its file and back. Says that something differs from the papers, and returns 1.
#include "adqurim.h"
#include "table_x.h"

#include <cstdio>
#include <cstring>

// The walk's count. Another value makes the program fail, which a test wants to see once.
#ifndef COUNT_OF_X
#define COUNT_OF_X 23
#endif

// Whether the order becomes the plan of P10, which is accepted, and that plan the order again.
static bool there_and_back() {
    adqurim_run run = {};
    uint8_t plan[ADQURIM_PLAN_ROOM] = {};
    uint8_t order[ADQURIM_ORDER_ROOM] = {};
    bool same = adqurim_convert_order(table_x, sizeof table_x, order_of_x, sizeof order_of_x, plan,
                                      sizeof plan, &run) == ADQURIM_ACCEPTED;
    same = same && run.length == sizeof plan_of_x && run.store[0] == 1 && run.failed[0] == 1 &&
           std::memcmp(plan, plan_of_x, sizeof plan_of_x) == 0;
    same = same && adqurim_check_round_plan(table_x, sizeof table_x, plan, sizeof plan_of_x,
                                            &run) == ADQURIM_ACCEPTED;
    same = same && run.store[0] == 1 && run.failed[0] == 1 && run.length == 0;
    same = same && adqurim_check_round_plan(table_x, sizeof table_x, plan, sizeof plan,
                                            &run) == ADQURIM_SHAPE;
    same = same && run.place == sizeof plan_of_x && run.store[0] == 0;
    same = same && adqurim_convert_plan(table_x, sizeof table_x, plan, sizeof plan_of_x, order,
                                        sizeof order, &run) == ADQURIM_ACCEPTED;
    return same && run.length == sizeof order_of_x && run.failed[0] == 1 &&
           std::memcmp(order, order_of_x, sizeof order_of_x) == 0;
}

// Whether each of the slips of a step has its number: no turn, no such task, no such value.
static bool slips() {
    adqurim_run run = {};
    const uint8_t no_turn[] = {0, 16, 16, 0}, no_task[] = {0, 80}, no_value[] = {0, 23};
    bool same = adqurim_replay_order(table_x, sizeof table_x, no_turn, sizeof no_turn, &run) ==
                ADQURIM_STEP;
    same = same && run.place == 3;
    same = same && adqurim_replay_order(table_x, sizeof table_x, no_task, sizeof no_task, &run) ==
                       ADQURIM_TASK;
    same = same && run.place == 1;
    same = same && adqurim_replay_order(table_x, sizeof table_x, no_value, sizeof no_value,
                                        &run) == ADQURIM_OFFER;
    return same && run.place == 1;
}

// Whether the sheet is that of document 01; it is printed.
static bool sheet() {
    adqurim_sheet_answer answer = {};
    uint8_t text[ADQURIM_SHEET_ROOM] = {};
    bool same = adqurim_print_sheet(table_x, sizeof table_x, text, sizeof text, &answer) ==
                ADQURIM_ACCEPTED;
    same = same && answer.place == 0 && answer.length == sizeof sheet_of_x - 1 &&
           std::memcmp(text, sheet_of_x, sizeof sheet_of_x - 1) == 0;
    std::fwrite(text, 1, answer.length, stdout);
    return same && adqurim_print_sheet(table_x, sizeof table_x, text, sizeof text - 1, &answer) ==
                       ADQURIM_ROOM;
}

// Whether the jobs are those of document 01; they are printed.
static bool jobs() {
    adqurim_jobs_answer answer = {};
    adqurim_job jobs[ADQURIM_JOB_LIST_ROOM] = {};
    bool same = adqurim_list_jobs(table_x, sizeof table_x, jobs, ADQURIM_JOB_LIST_ROOM, &answer) ==
                ADQURIM_ACCEPTED;
    same = same && answer.place == 0 && answer.jobs == 2 && jobs[0].latest == 3 &&
           jobs[1].task == 1 && jobs[1].arrival == 1 && jobs[2].latest == 0;
    for (uint64_t job = 0; job < answer.jobs; job++) {
        std::printf("job %d task %d arrival %d latest %d\n", int(job), int(jobs[job].task),
                    int(jobs[job].arrival), int(jobs[job].latest));
    }
    return same && adqurim_list_jobs(table_x, sizeof table_x, jobs, ADQURIM_JOB_LIST_ROOM - 1,
                                     &answer) == ADQURIM_ROOM;
}

// Whether the table in memory is what the file says, its file is table X again, and an edit that
// breaks a rule is refused at the index that the record would have had.
static bool written() {
    adqurim_task_table table = {};
    adqurim_write_answer answer = {};
    uint8_t file[ADQURIM_FILE_ROOM] = {};
    bool same = adqurim_read_table(table_x, sizeof table_x, &table, &answer) == ADQURIM_ACCEPTED;
    same = same && answer.place == 0 && answer.length == sizeof table && table.tasks == 2 &&
           table.entries[1].period == 4 && table.entries[0].body[3].operation == 11;
    same = same && adqurim_write_file(&table, file, sizeof file, &answer) == ADQURIM_ACCEPTED;
    same = same && answer.length == sizeof table_x &&
           std::memcmp(file, table_x, sizeof table_x) == 0 && file[sizeof table_x] == 0;
    table.entries[1].body[2].operation = 3;
    same = same && adqurim_write_file(&table, file, sizeof file, &answer) == ADQURIM_BODY;
    same = same && answer.place == 10 && answer.length == 0;
    table.entries[1].body[2].operation = 0;
    return same && adqurim_write_file(&table, file, sizeof file - 1, &answer) == ADQURIM_ROOM;
}

// Whether the text becomes table X's file and the file the text again, and a wrong line is refused.
static bool texts() {
    adqurim_write_answer answer = {};
    const auto *lines = reinterpret_cast<const uint8_t *>(text_of_x);
    const std::size_t length = sizeof text_of_x - 1;
    uint8_t file[ADQURIM_FILE_ROOM] = {}, text[ADQURIM_TEXT_ROOM] = {};
    bool same = adqurim_convert_text(lines, length, file, sizeof file, &answer) == ADQURIM_ACCEPTED;
    same = same && answer.place == 0 && answer.length == sizeof table_x &&
           std::memcmp(file, table_x, sizeof table_x) == 0;
    same = same && adqurim_convert_file(table_x, sizeof table_x, text, sizeof text, &answer) ==
                       ADQURIM_ACCEPTED;
    same = same && answer.length == length && std::memcmp(text, text_of_x, length) == 0;
    same = same && adqurim_convert_text(lines, length - 1, file, sizeof file, &answer) ==
                       ADQURIM_LINE;
    return same && answer.place == 11 && answer.length == 0;
}

int main() {
    adqurim_read_answer read = {};
    adqurim_run run = {};
    adqurim_walk_answer walk = {};
    uint8_t order[ADQURIM_ORDER_ROOM] = {};
    bool same = adqurim_read_file(table_x, sizeof table_x, &read) == ADQURIM_ACCEPTED &&
                read.responses[0] == 3 && read.responses[1] == 1 && read.jobs == 2;
    same = same && adqurim_read_file(table_x, 0, &read) == ADQURIM_SIZE && read.jobs == 0;
    same = same && adqurim_replay_order(table_x, sizeof table_x, order_of_x, sizeof order_of_x,
                                        &run) == ADQURIM_ACCEPTED;
    same = same && run.store[0] == 1 && run.failed[0] == 1 && run.failed[1] == 0;
    same = same && adqurim_walk_orders(table_x, sizeof table_x, 23, order, sizeof order,
                                       &walk) == ADQURIM_ACCEPTED;
    same = same && walk.verdict == ADQURIM_VERDICT_FAILS && walk.count == COUNT_OF_X &&
           walk.length == sizeof order_of_x && order[1] == order_of_x[1];
    same = same && adqurim_walk_orders(table_x, sizeof table_x, 22, order, sizeof order,
                                       &walk) == ADQURIM_UNDECIDED;
    same = same && slips() && there_and_back() && sheet() && jobs() && written() && texts();
    if (!same) {
        std::fprintf(stderr, "table X differs from the papers through C++\n");
    }
    return same ? 0 : 1;
}

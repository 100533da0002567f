/*
 * Adqurim's C interface: the reader of task files, the replay of an order, the walk of all orders,
 * the check of a round plan, the conversions of an order to its plan and of a plan to its order,
 * the sheet, the list of jobs, the table in memory, read from a file and written to one, and the
 * conversions of a table's text to its file and of a file to its text. For C11 and C++11 or later.
 *
 * Each entry comes twice: as a proved entry of the library, which fills words that the caller
 * lends, and as a function that calls the entry and fills a struct.
 *
 *   adqurim_read            adqurim_read_file
 *   adqurim_replay          adqurim_replay_order
 *   adqurim_walk            adqurim_walk_orders
 *   adqurim_check_plan      adqurim_check_round_plan
 *   adqurim_order_to_plan   adqurim_convert_order
 *   adqurim_plan_to_order   adqurim_convert_plan
 *   adqurim_sheet           adqurim_print_sheet
 *   adqurim_jobs            adqurim_list_jobs
 *   adqurim_table           adqurim_read_table
 *   adqurim_write           adqurim_write_file
 *   adqurim_text_to_file    adqurim_convert_text
 *   adqurim_file_to_text    adqurim_convert_file
 *
 * A slice passes as a pointer and then a length: bytes for a file, an order, a plan, a text or a
 * table in memory, records for a list of jobs, words of 64 bits for an answer. A pointer is never
 * null, even where its length is 0. The library keeps nothing between calls and allocates nothing.
 */
#ifndef ADQURIM_H
#define ADQURIM_H

#include <stdbool.h>
#include <stddef.h>
#include <stdint.h>
#include <string.h>

#ifdef __cplusplus
extern "C" {
#endif

/* Limits of a table. */
#define ADQURIM_MOST_TASKS 8
#define ADQURIM_MOST_LOCKS 8
#define ADQURIM_MOST_INSTRUCTIONS 16
#define ADQURIM_MOST_JOBS 32
#define ADQURIM_VARIABLES 8

/*
 * The room that number 20 asks for: bytes of an order, bytes of a plan, records of a job list,
 * bytes of a sheet's text, bytes of a table in memory, bytes of a file that is written, bytes of a
 * table's text. A table's text that is read has at most as many, or it is refused by 62.
 */
#define ADQURIM_ORDER_ROOM 512
#define ADQURIM_PLAN_ROOM 1281
#define ADQURIM_JOB_LIST_ROOM 32
#define ADQURIM_SHEET_ROOM 4608
#define ADQURIM_TABLE_ROOM 696
#define ADQURIM_FILE_ROOM 2320
#define ADQURIM_TEXT_ROOM 8192

/* The allowance of a sheet's walk. */
#define ADQURIM_SHEET_ALLOWANCE 1000000

/*
 * The numbers of an answer. A refusal has its number, its place, and every other field zero.
 * 30 to 34 come from entries that take an order, 40 to 45 from entries that take a plan, 60 to 62
 * from the entry that takes a table's text.
 */
enum adqurim_number {
    ADQURIM_ACCEPTED = 0, /* no refusal; place 0 */

    /* The file's author. The place is a record. For a table in memory, which earns 4, 5 and 7 to
       11, it is the index that the record would have had in the file: the header at 0, each task
       followed by its body, then the locks. For a table's text, which earns the same numbers, it is
       the record's line: 0 for the header, and one more than that index for any other record. */
    ADQURIM_SIZE = 1,    /* length 0, above 4,096 or no multiple of 16; place 0 */
    ADQURIM_KIND = 2,    /* wrong kind for its chain; that record */
    ADQURIM_CHAIN = 3,   /* an index outside the file or to a record already reached; its holder */
    ADQURIM_FIELD = 4,   /* a value out of range (lock numbers are left to 9) or an unused byte not
                            zero; that record */
    ADQURIM_COUNT = 5,   /* a task, lock or instruction too many; that record. Or no tasks or an
                            empty body; the holder */
    ADQURIM_STRAY = 6,   /* records never reached; the lowest */
    ADQURIM_BODY = 7,    /* last instruction not End; it. Or a skip beyond it; the skip */
    ADQURIM_RATE = 8,    /* a period above the previous task's; the first such task */
    ADQURIM_CEILING = 9, /* Acquire or Release of a lock not in the table, or Acquire of one with
                            a ceiling below the task's base; the first such instruction */

    /* The bench that supplies times. */
    ADQURIM_OVERLOAD = 10, /* no response time within the period, the wait for a lower task's lock
                              counted; the lowest such task's record */
    ADQURIM_JOBS = 11,     /* more than 32 jobs; place 0 */

    /* The caller. */
    ADQURIM_ROOM = 20,      /* order buffer below 512 bytes, plan buffer below 1,281, job list
                               below 32, a sheet's text below 4,608, a table in memory that is to
                               be filled below 696, a file that is to be written below 2,320, a
                               table's text that is to be written below 8,192; place 0 */
    ADQURIM_UNDECIDED = 21, /* the walk's count exceeds the allowance; place 0 */

    /* The author of an order. The place is a step's index. For 30, 33 and 34 the order's byte at
       the place tells the step's task, byte / 16, and its value, byte % 16. A byte is tried for 32,
       33, 30, 34 in this order. */
    ADQURIM_STEP = 30,  /* no job of the task has its turn; that step */
    ADQURIM_SHORT = 31, /* bytes end with jobs unfinished; the order's length */
    ADQURIM_EXTRA = 32, /* bytes remain after all jobs ended; the first of them */
    ADQURIM_TASK = 33,  /* the task is not in the table; that step */
    ADQURIM_OFFER = 34, /* the value is not on offer: outside a Pick's values, c to b, or not 0
                           where there is no Pick; that step */

    /* The author of a plan. */
    ADQURIM_SHAPE = 40, /* first byte not the number of jobs, bytes run out, or bytes left over;
                           the offset of the first wrong, missing or extra byte */
    ADQURIM_VALUE = 41, /* not a value its instruction allows; its offset */
    ADQURIM_ROUND = 42, /* at least the number of jobs, or below the job's previous step; its
                           offset */
    ADQURIM_ORDER = 43, /* a pair of jobs breaks the round rules, locks aside; the lower job */
    ADQURIM_LOCK = 44,  /* the priority clause of a nested pair fails; the lower job */
    ADQURIM_GUESS = 45, /* wrong guesses; the lowest round that has one */

    /* The author of a table's text. The place is a line, counted from 0. The first line at fault
       is refused, and on one line 60 comes before 61. */
    ADQURIM_LINE = 60,  /* not in the grammar, or missing; that line */
    ADQURIM_LARGE = 61, /* a number too large for its field: above 255 for a byte, above
                           4,294,967,295 for a wide field; that line */
    ADQURIM_LONG = 62 /* more than 8,192 bytes; place 0 */
};

/* A walk's verdict. */
enum adqurim_verdict {
    ADQURIM_VERDICT_NONE = 0,  /* refused */
    ADQURIM_VERDICT_HOLDS = 1, /* no order fails */
    ADQURIM_VERDICT_FAILS = 2  /* some order fails; the answer and the buffer show the first */
};

/* How many words each entry fills. */
#define ADQURIM_READ_WORDS 11
#define ADQURIM_REPLAY_WORDS 43
#define ADQURIM_WALK_WORDS 45
#define ADQURIM_CHECK_PLAN_WORDS 43
#define ADQURIM_CONVERSION_WORDS 43
#define ADQURIM_SHEET_WORDS 3
#define ADQURIM_JOBS_WORDS 3
#define ADQURIM_TABLE_WORDS 3
#define ADQURIM_WRITE_WORDS 3
#define ADQURIM_TEXT_WORDS 3

/* What adqurim_read answers, word by word. */
typedef struct adqurim_read_answer {
    uint64_t number;                        /* an adqurim_number */
    uint64_t place;
    uint64_t responses[ADQURIM_MOST_TASKS]; /* of tasks 0 to 7, 0 past the last task */
    uint64_t jobs;                          /* how many */
} adqurim_read_answer;

/* What the replay, the plan check and the conversions answer, word by word: how a run ends. */
typedef struct adqurim_run {
    uint64_t number;                    /* an adqurim_number */
    uint64_t place;
    uint64_t store[ADQURIM_VARIABLES];  /* the end store */
    uint64_t failed[ADQURIM_MOST_JOBS]; /* 1 if an assertion of the job failed, else 0 */
    uint64_t length;                    /* bytes written to a lent buffer */
} adqurim_run;

/* What adqurim_walk answers, word by word: the failing order's run, the verdict, the count. */
typedef struct adqurim_walk_answer {
    uint64_t number;                    /* an adqurim_number */
    uint64_t place;
    uint64_t store[ADQURIM_VARIABLES];  /* the end store */
    uint64_t failed[ADQURIM_MOST_JOBS]; /* 1 if an assertion of the job failed, else 0 */
    uint64_t length;                    /* bytes written to the order buffer */
    uint64_t verdict;                   /* an adqurim_verdict */
    uint64_t count;                     /* moves made */
} adqurim_walk_answer;

/* What adqurim_sheet answers, word by word. */
typedef struct adqurim_sheet_answer {
    uint64_t number; /* 0 or ADQURIM_ROOM */
    uint64_t place;  /* 0 */
    uint64_t length; /* of the sheet, in bytes */
} adqurim_sheet_answer;

/* A job's record, laid out as the library's. Arrival and latest finish are below 2^33. */
typedef struct adqurim_job {
    uint8_t task;
    uint64_t arrival;
    uint64_t latest; /* the arrival and the task's response time */
} adqurim_job;

/* What adqurim_jobs answers, word by word. */
typedef struct adqurim_jobs_answer {
    uint64_t number; /* an adqurim_number */
    uint64_t place;
    uint64_t jobs;   /* how many records were written */
} adqurim_jobs_answer;

/*
 * An instruction of a table in memory: the operation and its fields. Unused fields are zero. A Pick
 * has its highest value in b and its lowest in c.
 */
typedef struct adqurim_instruction {
    uint8_t operation;
    uint8_t a;
    uint8_t b;
    uint8_t c;
} adqurim_instruction;

/* A task of a table in memory: its times, and its body. */
typedef struct adqurim_task_entry {
    uint32_t execution;
    uint32_t period;
    uint32_t arrival;  /* the first */
    uint8_t length;    /* of the body, in instructions */
    uint8_t unused[3]; /* not read, and filled with zeros */
    adqurim_instruction body[ADQURIM_MOST_INSTRUCTIONS];
} adqurim_task_entry;

/*
 * A table in memory, laid out as the library's on a machine that stores the low byte first. What
 * stands past a count is no part of the table: it is not judged, and it is filled with zeros.
 */
typedef struct adqurim_task_table {
    uint32_t window;
    uint8_t store[ADQURIM_VARIABLES]; /* the initial one */
    uint8_t tasks;                    /* how many */
    uint8_t locks;                    /* how many */
    uint8_t unused[2];                /* not read, and filled with zeros */
    uint8_t ceilings[ADQURIM_MOST_LOCKS];
    adqurim_task_entry entries[ADQURIM_MOST_TASKS];
    uint32_t holdings[ADQURIM_MOST_LOCKS]; /* the longest holding time of each lock, any value */
} adqurim_task_table;

/* What adqurim_table, adqurim_write and the conversions of a text answer, word by word. */
typedef struct adqurim_write_answer {
    uint64_t number; /* an adqurim_number */
    uint64_t place;
    uint64_t length; /* bytes written */
} adqurim_write_answer;

#ifdef __cplusplus
#define ADQURIM_STATIC_ASSERT static_assert
#else
#define ADQURIM_STATIC_ASSERT _Static_assert
#endif
ADQURIM_STATIC_ASSERT(sizeof(adqurim_read_answer) == ADQURIM_READ_WORDS * 8, "11 words");
ADQURIM_STATIC_ASSERT(sizeof(adqurim_run) == ADQURIM_REPLAY_WORDS * 8, "43 words");
ADQURIM_STATIC_ASSERT(sizeof(adqurim_walk_answer) == ADQURIM_WALK_WORDS * 8, "45 words");
ADQURIM_STATIC_ASSERT(sizeof(adqurim_run) == ADQURIM_CHECK_PLAN_WORDS * 8, "43 words");
ADQURIM_STATIC_ASSERT(sizeof(adqurim_run) == ADQURIM_CONVERSION_WORDS * 8, "43 words");
ADQURIM_STATIC_ASSERT(sizeof(adqurim_sheet_answer) == ADQURIM_SHEET_WORDS * 8, "3 words");
ADQURIM_STATIC_ASSERT(sizeof(adqurim_jobs_answer) == ADQURIM_JOBS_WORDS * 8, "3 words");
ADQURIM_STATIC_ASSERT(sizeof(adqurim_job) == 24, "a job has 24 bytes");
ADQURIM_STATIC_ASSERT(offsetof(adqurim_job, arrival) == 8, "the arrival is at byte 8");
ADQURIM_STATIC_ASSERT(offsetof(adqurim_job, latest) == 16, "the latest finish is at byte 16");
ADQURIM_STATIC_ASSERT(sizeof(adqurim_write_answer) == ADQURIM_TABLE_WORDS * 8, "3 words");
ADQURIM_STATIC_ASSERT(sizeof(adqurim_write_answer) == ADQURIM_WRITE_WORDS * 8, "3 words");
ADQURIM_STATIC_ASSERT(sizeof(adqurim_write_answer) == ADQURIM_TEXT_WORDS * 8, "3 words");
ADQURIM_STATIC_ASSERT(sizeof(adqurim_instruction) == 4, "an instruction has 4 bytes");
ADQURIM_STATIC_ASSERT(offsetof(adqurim_instruction, c) == 3, "its last field is at byte 3");
ADQURIM_STATIC_ASSERT(sizeof(adqurim_task_entry) == 80, "a task has 80 bytes");
ADQURIM_STATIC_ASSERT(offsetof(adqurim_task_entry, period) == 4, "its period is at byte 4");
ADQURIM_STATIC_ASSERT(offsetof(adqurim_task_entry, arrival) == 8, "its arrival is at byte 8");
ADQURIM_STATIC_ASSERT(offsetof(adqurim_task_entry, length) == 12, "its length is at byte 12");
ADQURIM_STATIC_ASSERT(offsetof(adqurim_task_entry, body) == 16, "its body is at byte 16");
ADQURIM_STATIC_ASSERT(sizeof(adqurim_task_table) == ADQURIM_TABLE_ROOM, "a table has 696 bytes");
ADQURIM_STATIC_ASSERT(offsetof(adqurim_task_table, store) == 4, "the store is at byte 4");
ADQURIM_STATIC_ASSERT(offsetof(adqurim_task_table, tasks) == 12, "the tasks are at byte 12");
ADQURIM_STATIC_ASSERT(offsetof(adqurim_task_table, locks) == 13, "the locks are at byte 13");
ADQURIM_STATIC_ASSERT(offsetof(adqurim_task_table, ceilings) == 16, "ceilings are at byte 16");
ADQURIM_STATIC_ASSERT(offsetof(adqurim_task_table, entries) == 24, "the entries are at byte 24");
ADQURIM_STATIC_ASSERT(offsetof(adqurim_task_table, holdings) == 664, "holdings are at byte 664");
#undef ADQURIM_STATIC_ASSERT

/*
 * Reads a task file and fills the first 11 words of the answer:
 *
 *   word 0         the number: 0 if the file is accepted, else the number of its refusal, 1 to 11
 *   word 1         the place of the refusal, a record's index; 0 if the file is accepted
 *   words 2 to 9   the response times of tasks 0 to 7, 0 past the last task
 *   word 10        the number of jobs, 0 to 32
 *
 * A refusal has every word but 0 and 1 zero. Words past the eleventh never change.
 *
 * Returns whether the answer has room for the 11 words. Without room nothing changes and the
 * answer is false. The file is only read, and it does not overlap the answer.
 */
bool adqurim_read(const uint8_t *file, size_t file_len, uint64_t *answer, size_t answer_len);

/*
 * Replays an order of a task file's jobs and fills the first 43 words of the answer:
 *
 *   word 0           the number: 0 if the order is complete, else the number of the refusal,
 *                    1 to 11 for the file, 30 to 34 for the order
 *   word 1           the place of the refusal, a record's index for the file, a step's for the
 *                    order; 0 if the order is complete
 *   words 2 to 9     the end store, variables 0 to 7
 *   words 10 to 41   for each of jobs 0 to 31 a 1 if an assertion of the job failed, else 0
 *   word 42          how many bytes were written to a lent buffer: 0, since a replay writes none
 *
 * A refusal has every word but 0 and 1 zero. Words past the 43rd never change.
 *
 * Returns whether the answer has room for the 43 words. Without room nothing changes and the
 * answer is false. The file and the order are only read, and neither overlaps the answer.
 */
bool adqurim_replay(const uint8_t *file, size_t file_len, const uint8_t *order, size_t order_len,
                    uint64_t *answer, size_t answer_len);

/*
 * Walks the orders of a task file's jobs up to the first that fails, with at most `allowance`
 * moves, and fills the first 45 words of the answer:
 *
 *   word 0           the number: 0 if the walk has a verdict, else the number of the refusal,
 *                    1 to 11 for the file, 20 if the order buffer is below 512 bytes, 21 if the
 *                    count exceeds the allowance
 *   word 1           the place of the refusal, a record's index for the file; else 0
 *   words 2 to 9     the failing order's end store, variables 0 to 7
 *   words 10 to 41   for each of jobs 0 to 31 a 1 if an assertion of the job failed in that order,
 *                    else 0
 *   word 42          the failing order's length in bytes, at most 512
 *   word 43          the verdict: 0 none, 1 holds (no order fails), 2 fails
 *   word 44          the count: the moves made up to the end of the failing order, or all moves
 *
 * A walk that holds has every word but 43 and 44 zero, a refusal every word but 0 and 1. Words
 * past the 45th never change.
 *
 * The order buffer then holds
 *
 *   if the walk fails            the failing order, and zeros up to byte 512
 *   if it holds, and for 21      zeros in its first 512 bytes
 *   for 1 to 11 and for 20       what it held before
 *
 * Bytes beyond the first 512 never change.
 *
 * Returns whether the answer has room for the 45 words. Without room nothing changes, the order
 * buffer neither, and the answer is false. The file is only read; file, order and answer do not
 * overlap.
 */
bool adqurim_walk(const uint8_t *file, size_t file_len, uint64_t allowance, uint8_t *order,
                  size_t order_len, uint64_t *answer, size_t answer_len);

/*
 * Checks a round plan of a task file's jobs and fills the first 43 words of the answer:
 *
 *   word 0           the number: 0 if the plan is legal, else the number of the refusal,
 *                    1 to 11 for the file, 40 to 45 for the plan
 *   word 1           the place of the refusal, a record's index for the file; for the plan an
 *                    offset (40 to 42), a job (43 and 44) or a round (45); 0 if the plan is legal
 *   words 2 to 9     the end store, variables 0 to 7
 *   words 10 to 41   for each of jobs 0 to 31 a 1 if an assertion of the job failed, else 0
 *   word 42          how many bytes were written to a lent buffer: 0, since a check writes none
 *
 * A refusal has every word but 0 and 1 zero. Words past the 43rd never change.
 *
 * Returns whether the answer has room for the 43 words. Without room nothing changes and the
 * answer is false. The file and the plan are only read, and neither overlaps the answer.
 */
bool adqurim_check_plan(const uint8_t *file, size_t file_len, const uint8_t *plan, size_t plan_len,
                        uint64_t *answer, size_t answer_len);

/*
 * Converts an order of a task file's jobs to its plan and fills the first 43 words of the answer:
 *
 *   word 0           the number: 0 if the order is complete, else the number of the refusal,
 *                    1 to 11 for the file, 20 if the plan buffer is below 1,281 bytes, 30 to 34
 *                    for the order
 *   word 1           the place of the refusal, a record's index for the file, a step's for the
 *                    order; else 0
 *   words 2 to 9     the end store, variables 0 to 7
 *   words 10 to 41   for each of jobs 0 to 31 a 1 if an assertion of the job failed, else 0
 *   word 42          the plan's length in bytes, at most 1,281
 *
 * A refusal has every word but 0 and 1 zero. Words past the 43rd never change.
 *
 * The plan buffer then holds the plan, and zeros up to byte 1,281; after a refusal, what it held
 * before. Bytes beyond the first 1,281 never change.
 *
 * Returns whether the answer has room for the 43 words. Without room nothing changes, the plan
 * buffer neither, and the answer is false. The file and the order are only read; neither overlaps
 * the plan or the answer, nor do these overlap each other.
 */
bool adqurim_order_to_plan(const uint8_t *file, size_t file_len, const uint8_t *order,
                           size_t order_len, uint8_t *plan, size_t plan_len, uint64_t *answer,
                           size_t answer_len);

/*
 * Converts a round plan of a task file's jobs to its order and fills the first 43 words of the
 * answer:
 *
 *   word 0           the number: 0 if the plan is legal, else the number of the refusal,
 *                    1 to 11 for the file, 20 if the order buffer is below 512 bytes, 40 to 45
 *                    for the plan
 *   word 1           the place of the refusal, a record's index for the file; for the plan an
 *                    offset (40 to 42), a job (43 and 44) or a round (45); else 0
 *   words 2 to 9     the end store, variables 0 to 7
 *   words 10 to 41   for each of jobs 0 to 31 a 1 if an assertion of the job failed, else 0
 *   word 42          the order's length in bytes, at most 512
 *
 * A refusal has every word but 0 and 1 zero. Words past the 43rd never change.
 *
 * The order buffer then holds the order, and zeros up to byte 512; after a refusal, what it held
 * before. Bytes beyond the first 512 never change.
 *
 * Returns whether the answer has room for the 43 words. Without room nothing changes, the order
 * buffer neither, and the answer is false. The file and the plan are only read; neither overlaps
 * the order or the answer, nor do these overlap each other.
 */
bool adqurim_plan_to_order(const uint8_t *file, size_t file_len, const uint8_t *plan,
                           size_t plan_len, uint8_t *order, size_t order_len, uint64_t *answer,
                           size_t answer_len);

/*
 * Writes a task file's sheet to the front of a text and fills the first 3 words of the answer:
 *
 *   word 0   the number: 0, or 20 if the text is below 4,608 bytes
 *   word 1   the place, 0
 *   word 2   how many bytes the sheet has; 0 with number 20
 *
 * No file is refused: the sheet of one that the reader refuses is the line `refused NUMBER PLACE`.
 * The sheet is lines of words and decimal numbers, each ended by a newline; no zero byte follows.
 * Its walk has an allowance of 1,000,000 moves.
 *
 * Bytes of the text past the sheet never change, with number 20 none does. Words past the third
 * never change.
 *
 * Returns whether the answer has room for the 3 words. Without room nothing changes, the text
 * neither, and the answer is false. The file is only read; file, text and answer do not overlap.
 */
bool adqurim_sheet(const uint8_t *file, size_t file_len, uint8_t *text, size_t text_len,
                   uint64_t *answer, size_t answer_len);

/*
 * Lists a task file's jobs, by task and then by arrival, and fills the first 3 words of the answer:
 *
 *   word 0   the number: 0 if the file is accepted, else the number of the refusal, 1 to 11 for
 *            the file, 20 if the list is below 32 records
 *   word 1   the place of the refusal, a record's index for the file; else 0
 *   word 2   how many records were written, 0 to 32
 *
 * A refusal has word 2 zero. Words past the third never change.
 *
 * The list then has the jobs at its front, the record of job j at index j. Records past the last
 * job never change, and a refusal changes none.
 *
 * Returns whether the answer has room for the 3 words. Without room nothing changes, the list
 * neither, and the answer is false. The file is only read; file, list and answer do not overlap.
 */
bool adqurim_jobs(const uint8_t *file, size_t file_len, struct adqurim_job *jobs, size_t jobs_len,
                  uint64_t *answer, size_t answer_len);

/*
 * Reads a task file, fills a table in memory from it, and fills the first 3 words of the answer:
 *
 *   word 0   the number: 0 if the file is accepted, else the number of the refusal, 1 to 11 for
 *            the file, 20 if the table is below 696 bytes
 *   word 1   the place of the refusal, a record's index for the file; else 0
 *   word 2   how many bytes were written: 696
 *
 * A refusal has word 2 zero. Words past the third never change.
 *
 * The table then has the bytes of an adqurim_task_table at its front, with zeros past its counts
 * and in unused bytes. Bytes past the 696th never change, and a refusal changes none.
 *
 * Returns whether the answer has room for the 3 words. Without room nothing changes, the table
 * neither, and the answer is false. The file is only read; file, table and answer do not overlap.
 */
bool adqurim_table(const uint8_t *file, size_t file_len, uint8_t *table, size_t table_len,
                   uint64_t *answer, size_t answer_len);

/*
 * Writes the file of a table in memory, in walk order: the header, each task followed by its body,
 * then the locks. Fills the first 3 words of the answer:
 *
 *   word 0   the number: 0 if the table is accepted, else the number of the refusal, 4, 5 or 7 to
 *            11 for the table, 20 if the file's buffer is below 2,320 bytes
 *   word 1   the place of the refusal, for the table the index that the record would have had;
 *            else 0
 *   word 2   how many bytes the file has, at most 2,320
 *
 * A refusal has word 2 zero. Words past the third never change.
 *
 * The table is the first 696 bytes that are lent, which may be any; those past them are not read.
 * Tasks, instructions and locks past the counts are no part of it. The file that is written is
 * accepted, and reading it gives the same table. Bytes of the buffer past the file never change,
 * and a refusal changes none.
 *
 * Returns whether the answer has room for the 3 words and the table has 696 bytes. Otherwise
 * nothing changes, the buffer neither, and the answer is false. The table is only read; table, file
 * and answer do not overlap.
 */
bool adqurim_write(const uint8_t *table, size_t table_len, uint8_t *file, size_t file_len,
                   uint64_t *answer, size_t answer_len);

/*
 * A table's text is lines, each ended by a newline (byte 10), with one space between words and
 * numbers in decimal without leading zeros:
 *
 *   window W                         the window
 *   start V V V V V V V V            the initial values of variables 0 to 7
 *   task C P A                       for each task, then its instructions by name:
 *     end, load a b, store a b, set a b, add a b, subtract a b, less a b c, equal a b c,
 *     pick a b c, acquire a, release a, assert a
 *   lock CEILING H                   for each lock, after all tasks
 *
 * A line stands at the left, without a space before its word. The grammar sets no counts of tasks,
 * instructions and locks, even none; number 5 judges those.
 *
 * Converts a table's text to its file, in walk order: the header, each task followed by its body,
 * then the locks. Fills the first 3 words of the answer:
 *
 *   word 0   the number: 0 if the text is of the grammar and its table accepted, else the number
 *            of the refusal: 62 first of all, then 60 and 61 for a line, then 4, 5 or 7 to 11 for
 *            the table, 20 if the file's buffer is below 2,320 bytes
 *   word 1   the place of the refusal, a line; 0 for 11, 20 and 62, and if nothing is refused
 *   word 2   how many bytes the file has, at most 2,320
 *
 * A refusal has word 2 zero. Words past the third never change. Bytes of the buffer past the file
 * never change, and a refusal changes none.
 *
 * Returns whether the answer has room for the 3 words. Without room nothing changes, the buffer
 * neither, and the answer is false. The text is only read; text, file and answer do not overlap.
 */
bool adqurim_text_to_file(const uint8_t *text, size_t text_len, uint8_t *file, size_t file_len,
                          uint64_t *answer, size_t answer_len);

/*
 * Converts a task file to its table's text and fills the first 3 words of the answer:
 *
 *   word 0   the number: 0 if the file is accepted, else the number of the refusal, 1 to 11 for
 *            the file, 20 if the text's buffer is below 8,192 bytes
 *   word 1   the place of the refusal, a record's index for the file; else 0
 *   word 2   how many bytes the text has
 *
 * A refusal has word 2 zero. Words past the third never change. No zero byte follows the text:
 * bytes of the buffer past it never change, and a refusal changes none. The text, converted back,
 * is the file with its records in walk order.
 *
 * Returns whether the answer has room for the 3 words. Without room nothing changes, the buffer
 * neither, and the answer is false. The file is only read; file, text and answer do not overlap.
 */
bool adqurim_file_to_text(const uint8_t *file, size_t file_len, uint8_t *text, size_t text_len,
                          uint64_t *answer, size_t answer_len);

/*
 * The same entries with structs. Each returns the answer's number, 0 if nothing is refused. What
 * is said above of the lent bytes holds here too.
 *
 * The words go through an array of their own and are copied: a pointer to a struct's first word
 * may not be followed past that word, neither in C nor in C++. So do a table's bytes.
 */

/* Reads a task file. */
static inline uint64_t adqurim_read_file(const uint8_t *file, size_t file_len,
                                         adqurim_read_answer *answer) {
    uint64_t words[ADQURIM_READ_WORDS];
    (void)adqurim_read(file, file_len, words, ADQURIM_READ_WORDS);
    memcpy(answer, words, sizeof words);
    return answer->number;
}

/* Replays an order. */
static inline uint64_t adqurim_replay_order(const uint8_t *file, size_t file_len,
                                            const uint8_t *order, size_t order_len,
                                            adqurim_run *answer) {
    uint64_t words[ADQURIM_REPLAY_WORDS];
    (void)adqurim_replay(file, file_len, order, order_len, words, ADQURIM_REPLAY_WORDS);
    memcpy(answer, words, sizeof words);
    return answer->number;
}

/* Walks the orders, with at most `allowance` moves. */
static inline uint64_t adqurim_walk_orders(const uint8_t *file, size_t file_len,
                                           uint64_t allowance, uint8_t *order, size_t order_len,
                                           adqurim_walk_answer *answer) {
    uint64_t words[ADQURIM_WALK_WORDS];
    (void)adqurim_walk(file, file_len, allowance, order, order_len, words, ADQURIM_WALK_WORDS);
    memcpy(answer, words, sizeof words);
    return answer->number;
}

/* Checks a round plan. */
static inline uint64_t adqurim_check_round_plan(const uint8_t *file, size_t file_len,
                                                const uint8_t *plan, size_t plan_len,
                                                adqurim_run *answer) {
    uint64_t words[ADQURIM_CHECK_PLAN_WORDS];
    (void)adqurim_check_plan(file, file_len, plan, plan_len, words, ADQURIM_CHECK_PLAN_WORDS);
    memcpy(answer, words, sizeof words);
    return answer->number;
}

/* Converts an order to its plan. */
static inline uint64_t adqurim_convert_order(const uint8_t *file, size_t file_len,
                                             const uint8_t *order, size_t order_len,
                                             uint8_t *plan, size_t plan_len, adqurim_run *answer) {
    uint64_t words[ADQURIM_CONVERSION_WORDS];
    (void)adqurim_order_to_plan(file, file_len, order, order_len, plan, plan_len, words,
                                ADQURIM_CONVERSION_WORDS);
    memcpy(answer, words, sizeof words);
    return answer->number;
}

/* Converts a round plan to its order. */
static inline uint64_t adqurim_convert_plan(const uint8_t *file, size_t file_len,
                                            const uint8_t *plan, size_t plan_len,
                                            uint8_t *order, size_t order_len, adqurim_run *answer) {
    uint64_t words[ADQURIM_CONVERSION_WORDS];
    (void)adqurim_plan_to_order(file, file_len, plan, plan_len, order, order_len, words,
                                ADQURIM_CONVERSION_WORDS);
    memcpy(answer, words, sizeof words);
    return answer->number;
}

/* Writes the sheet. */
static inline uint64_t adqurim_print_sheet(const uint8_t *file, size_t file_len, uint8_t *text,
                                           size_t text_len, adqurim_sheet_answer *answer) {
    uint64_t words[ADQURIM_SHEET_WORDS];
    (void)adqurim_sheet(file, file_len, text, text_len, words, ADQURIM_SHEET_WORDS);
    memcpy(answer, words, sizeof words);
    return answer->number;
}

/* Lists the jobs. */
static inline uint64_t adqurim_list_jobs(const uint8_t *file, size_t file_len, adqurim_job *jobs,
                                         size_t jobs_len, adqurim_jobs_answer *answer) {
    uint64_t words[ADQURIM_JOBS_WORDS];
    (void)adqurim_jobs(file, file_len, jobs, jobs_len, words, ADQURIM_JOBS_WORDS);
    memcpy(answer, words, sizeof words);
    return answer->number;
}

/* Fills a table in memory from a file. */
static inline uint64_t adqurim_read_table(const uint8_t *file, size_t file_len,
                                          adqurim_task_table *table,
                                          adqurim_write_answer *answer) {
    uint8_t bytes[ADQURIM_TABLE_ROOM];
    uint64_t words[ADQURIM_TABLE_WORDS];
    (void)adqurim_table(file, file_len, bytes, sizeof bytes, words, ADQURIM_TABLE_WORDS);
    memcpy(answer, words, sizeof words);
    if (answer->number == ADQURIM_ACCEPTED) {
        memcpy(table, bytes, sizeof bytes);
    }
    return answer->number;
}

/* Writes the file of a table in memory. */
static inline uint64_t adqurim_write_file(const adqurim_task_table *table, uint8_t *file,
                                          size_t file_len, adqurim_write_answer *answer) {
    uint8_t bytes[ADQURIM_TABLE_ROOM];
    uint64_t words[ADQURIM_WRITE_WORDS];
    memcpy(bytes, table, sizeof bytes);
    (void)adqurim_write(bytes, sizeof bytes, file, file_len, words, ADQURIM_WRITE_WORDS);
    memcpy(answer, words, sizeof words);
    return answer->number;
}

/* Converts a table's text to its file. */
static inline uint64_t adqurim_convert_text(const uint8_t *text, size_t text_len, uint8_t *file,
                                            size_t file_len, adqurim_write_answer *answer) {
    uint64_t words[ADQURIM_TEXT_WORDS];
    (void)adqurim_text_to_file(text, text_len, file, file_len, words, ADQURIM_TEXT_WORDS);
    memcpy(answer, words, sizeof words);
    return answer->number;
}

/* Converts a task file to its table's text. */
static inline uint64_t adqurim_convert_file(const uint8_t *file, size_t file_len, uint8_t *text,
                                            size_t text_len, adqurim_write_answer *answer) {
    uint64_t words[ADQURIM_TEXT_WORDS];
    (void)adqurim_file_to_text(file, file_len, text, text_len, words, ADQURIM_TEXT_WORDS);
    memcpy(answer, words, sizeof words);
    return answer->number;
}

#ifdef __cplusplus
}
#endif

#endif

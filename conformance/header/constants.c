/* Each number of include/runtime.h, met through the library in the situation that it names. check.sh builds and runs
 * this, and shows that it fails when any one of the numbers is another.
 *
 * Words are put into programs and looked for in stores, devices and answers by the names alone, and whole arrays are
 * compared, so a wrong index shows as a wrong value does. Rows and instructions are laid out as document 01 says. The
 * arrays here are longer than any length in the header, so that a wrong length is seen and does no harm.
 */
#include "runtime.h"

#include <stdio.h>
#include <stdlib.h>
#include <string.h>

#define GUARD 0xA5C3 /* what stands behind the words that are lent */
#define ALL(array) (sizeof(array) / sizeof *(array))
#define HOLDS(condition) holds(condition, #condition, __LINE__)

static uint16_t program[32768];
static size_t program_length;
static uint16_t store[2048];
static size_t store_length;
static uint16_t device[64];
static uint16_t device_expected[64];
static uint32_t totals[64];
static uint16_t answer[64];
static uint16_t answer_expected[64];
static uint16_t burst_words[64];
static uint16_t line_words[512];
static uint16_t *const table = line_words + 8; /* room for an index that is one less */
static size_t table_length;

static void holds(int condition, const char *text, int line)
{
    if (!condition) {
        printf("constants.c, line %d: %s doesn't hold\n", line, text);
        exit(EXIT_FAILURE);
    }
}

/* ---- Answers */

static void guard(uint16_t *words, size_t length)
{
    size_t index;

    for (index = 0; index < length; index++)
        words[index] = GUARD;
}

/* Whether the call wrote so many words, and which. */
static int answered(size_t length, int which, int kind, int number, int place, int second, int stored)
{
    guard(answer_expected, ALL(answer_expected));
    memset(answer_expected, 0, length * sizeof *answer_expected);
    answer_expected[RUNTIME_ANSWER_CASE] = (uint16_t)which;
    answer_expected[RUNTIME_ANSWER_KIND] = (uint16_t)kind;
    answer_expected[RUNTIME_ANSWER_NUMBER] = (uint16_t)number;
    answer_expected[RUNTIME_ANSWER_PLACE] = (uint16_t)place;
    answer_expected[RUNTIME_ANSWER_SECOND_PLACE] = (uint16_t)second;
    if (length == RUNTIME_STEP_ANSWER_WORDS)
        answer_expected[RUNTIME_ANSWER_STORED] = (uint16_t)stored;
    return memcmp(answer, answer_expected, sizeof answer) == 0;
}

static int is(int which)
{
    return answered(RUNTIME_ANSWER_WORDS, which, 0, 0, 0, 0, 0);
}

static int refuses(int number, int place, int second)
{
    return answered(RUNTIME_ANSWER_WORDS, RUNTIME_CASE_REFUSED, 0, number, place, second, 0);
}

/* ---- Calls */

static void check(void)
{
    guard(answer, ALL(answer));
    runtime_check(program, program_length, answer);
}

static void format(int log_pairs, int queue_records)
{
    guard(answer, ALL(answer));
    runtime_format(program, program_length, (uint16_t)log_pairs, (uint16_t)queue_records, store, store_length, answer);
}

static void cut(void)
{
    guard(answer, ALL(answer));
    runtime_cut(device, answer);
}

static void boot(void)
{
    guard(answer, ALL(answer));
    runtime_boot(program, program_length, store, store_length, device, answer);
}

static void post(int event, int datum)
{
    guard(answer, ALL(answer));
    runtime_post(program, program_length, store, store_length, device, (uint16_t)event, (uint16_t)datum, answer);
}

static void burst(int count)
{
    guard(answer, ALL(answer));
    runtime_burst(program, program_length, store, store_length, device, (uint16_t)count, burst_words, answer);
}

static void step(void)
{
    guard(answer, ALL(answer));
    runtime_step(program, program_length, store, store_length, device, totals, answer);
}

static uint32_t run(uint32_t budget)
{
    guard(answer, ALL(answer));
    return runtime_run(program, program_length, store, store_length, device, totals, budget, answer);
}

static void lines_check(void)
{
    guard(answer, ALL(answer));
    runtime_lines_check(table, table_length, answer);
}

static void raise_line(int line, int level)
{
    guard(answer, ALL(answer));
    runtime_raise(program, program_length, store, store_length, device, table, table_length, (uint16_t)line,
                  (uint16_t)level, answer);
}

/* Whether a step answers this case of no body, and this word as stored. */
static int steps(int which, int stored)
{
    step();
    return answered(RUNTIME_STEP_ANSWER_WORDS, which, 0, 0, 0, 0, stored);
}

static int steps_body(int which, int kind, int number, int stored)
{
    step();
    return answered(RUNTIME_STEP_ANSWER_WORDS, which, kind, number, 0, 0, stored);
}

static int step_refuses(int number)
{
    step();
    return answered(RUNTIME_STEP_ANSWER_WORDS, RUNTIME_CASE_REFUSED, 0, number, 0, 0, RUNTIME_NO_STORE);
}

/* ---- Programs */

static void begin(int tasks, int events, int memory_words, int entry)
{
    memset(program, 0, sizeof program);
    program[RUNTIME_PROGRAM_MARK] = RUNTIME_PROGRAM_MARK_VALUE;
    program[RUNTIME_PROGRAM_TASKS] = (uint16_t)tasks;
    program[RUNTIME_PROGRAM_EVENTS] = (uint16_t)events;
    program[RUNTIME_PROGRAM_MEMORY_WORDS] = (uint16_t)memory_words;
    program[RUNTIME_PROGRAM_ENTRY] = (uint16_t)entry;
    program_length = (size_t)(6 + 3 * (tasks + events));
    program[RUNTIME_PROGRAM_TOTAL_WORDS] = (uint16_t)program_length;
}

/* The next body, with this number among all. */
static void body(int number, int transaction, const uint16_t *words, int instructions)
{
    uint16_t *row = program + 6 + 3 * number;

    row[0] = (uint16_t)program_length;
    row[1] = (uint16_t)instructions;
    row[2] = (uint16_t)transaction;
    memcpy(program + program_length, words, 2 * (size_t)instructions * sizeof *words);
    program_length += 2 * (size_t)instructions;
    program[RUNTIME_PROGRAM_TOTAL_WORDS] = (uint16_t)program_length;
}

/* So many tasks and events of so many instructions each: SET, then GO to task 0 or DONE. */
static void build(int tasks, int events, int memory_words, int entry, int instructions, int transaction)
{
    uint16_t words[1024] = {0};
    int number;

    begin(tasks, events, memory_words, entry);
    for (number = 0; number < tasks + events; number++) {
        words[2 * (instructions - 1)] = number < tasks ? 0x0F00 : 0x1000;
        body(number, number < tasks ? transaction : 0, words, instructions);
    }
}

/* A formatted store, and the device off. */
static void fresh(int log_pairs, int queue_records)
{
    store_length = RUNTIME_STORE_WORDS(program[RUNTIME_PROGRAM_MEMORY_WORDS], log_pairs, queue_records);
    format(log_pairs, queue_records);
    HOLDS(is(RUNTIME_CASE_DONE));
    cut();
    HOLDS(is(RUNTIME_CASE_DONE));
}

/* The last word of each array. */
static void lengths(void)
{
    HOLDS(RUNTIME_ANSWER_SECOND_PLACE == RUNTIME_ANSWER_WORDS - 1);
    HOLDS(RUNTIME_ANSWER_STORED == RUNTIME_STEP_ANSWER_WORDS - 1);
    HOLDS(RUNTIME_DEVICE_BURST + RUNTIME_BURST_WORDS == RUNTIME_DEVICE_WORDS);
    HOLDS(RUNTIME_BURST_WORDS == 2 * RUNTIME_MAX_BURST);
    HOLDS(RUNTIME_TOTALS_STORES == RUNTIME_TOTALS_NUMBERS - 1);
    HOLDS(RUNTIME_LINES_EVENT == RUNTIME_LINES_ROW_WORDS - 1);
}

/* ---- Limits, and refusals of programs and sizes */

#define T RUNTIME_MAX_TASKS
#define E RUNTIME_MAX_EVENTS
#define M RUNTIME_MAX_MEMORY_WORDS
#define L RUNTIME_MAX_LOG_PAIRS
#define Q RUNTIME_MAX_QUEUE_RECORDS
#define I RUNTIME_MAX_INSTRUCTIONS
#define TRANSACTION RUNTIME_MAX_TRANSACTION

static void program_limits(void)
{
    build(T, E, M, T - 1, I, TRANSACTION);
    HOLDS(program_length == RUNTIME_MAX_PROGRAM_WORDS);
    HOLDS((check(), is(RUNTIME_CASE_DONE)));
    build(T + 1, E, M, 0, I, TRANSACTION);
    HOLDS((check(), refuses(RUNTIME_REFUSAL_PROGRAM_SIZE, RUNTIME_PROGRAM_TASKS, 0)));
    build(T, E + 1, M, 0, I, TRANSACTION);
    HOLDS((check(), refuses(RUNTIME_REFUSAL_PROGRAM_SIZE, RUNTIME_PROGRAM_EVENTS, 0)));
    build(T, E, M + 1, 0, I, TRANSACTION);
    HOLDS((check(), refuses(RUNTIME_REFUSAL_PROGRAM_SIZE, RUNTIME_PROGRAM_MEMORY_WORDS, 0)));
    build(T, E, M, T, I, TRANSACTION);
    HOLDS((check(), refuses(RUNTIME_REFUSAL_PROGRAM_SIZE, RUNTIME_PROGRAM_ENTRY, 0)));
    build(T, E, M, 0, I + 1, TRANSACTION);
    HOLDS((check(), refuses(RUNTIME_REFUSAL_ROW, 0, 0)));
    build(T, E, M, 0, I, TRANSACTION);
    program[6 + 3 * 2 + 2] = TRANSACTION + 1;
    HOLDS((check(), refuses(RUNTIME_REFUSAL_ROW, 2, 0)));
}

static void program_refusals(void)
{
    build(3, 2, 5, 0, 4, 0);
    program_length--;
    HOLDS((check(), refuses(RUNTIME_REFUSAL_PROGRAM_LENGTH, 0, 0)));
    build(3, 2, 5, 0, 4, 0);
    program[RUNTIME_PROGRAM_MARK]++;
    HOLDS((check(), refuses(RUNTIME_REFUSAL_PROGRAM_MARK, 0, 0)));
    build(3, 2, 5, 0, 4, 0);
    program[6 + 3 * 5 + 8 + 4] = (RUNTIME_REGISTERS - 1) * 16; /* instruction 2 of task 1: SET of the last register */
    HOLDS((check(), is(RUNTIME_CASE_DONE)));
    program[6 + 3 * 5 + 8 + 4] = RUNTIME_REGISTERS * 16;
    HOLDS((check(), refuses(RUNTIME_REFUSAL_INSTRUCTION, 1, 2)));
}

static void store_limits(void)
{
    build(T, E, M, 0, I, 0);
    store_length = RUNTIME_STORE_WORDS(M, L, Q);
    HOLDS(store_length == RUNTIME_MAX_STORE_WORDS);
    HOLDS((format(L, Q), is(RUNTIME_CASE_DONE)));
    HOLDS((format(L + 1, Q), refuses(RUNTIME_REFUSAL_STORE_SIZE, 0, 0)));
    HOLDS((format(L, Q + 1), refuses(RUNTIME_REFUSAL_STORE_SIZE, 0, 0)));
    store_length--;
    HOLDS((format(L, Q), refuses(RUNTIME_REFUSAL_STORE_CONTENTS, 0, 0)));
}

static void contents(void)
{
    build(3, 2, 5, 2, 4, 0);
    fresh(3, 2);
    HOLDS(store[RUNTIME_STORE_MARK] == RUNTIME_STORE_MARK_VALUE);
    HOLDS(store[RUNTIME_STORE_MEMORY_WORDS] == 5);
    HOLDS(store[RUNTIME_STORE_LOG_PAIRS] == 3);
    HOLDS(store[RUNTIME_STORE_QUEUE_RECORDS] == 2);
    HOLDS(store[RUNTIME_STORE_CONTROL_START] == RUNTIME_STORE_PHASE);
    HOLDS(store[RUNTIME_STORE_MEMORY_START] == RUNTIME_STORE_MEMORY);
    HOLDS(store[RUNTIME_STORE_LOG_START] == RUNTIME_STORE_MEMORY + 5);
    HOLDS(store[RUNTIME_STORE_QUEUE_START] == RUNTIME_STORE_MEMORY + 5 + 2 * 3);
    HOLDS(store[RUNTIME_STORE_CURRENT_TASK] == 2);
    HOLDS(store[RUNTIME_STORE_BEGUN] == RUNTIME_BEGUN_NOTHING);
}

/* ---- One life: a task with a transaction, a second that ends it, an event. Each step's answer, word and device. */

/* The device that is on, with no body and the handler at rest. */
static void expect_on(void)
{
    guard(device_expected, ALL(device_expected));
    memset(device_expected, 0, RUNTIME_DEVICE_WORDS * sizeof *device_expected);
    device_expected[RUNTIME_DEVICE_ON] = 1;
    device_expected[RUNTIME_DEVICE_PLACE] = RUNTIME_PLACE_NO_BODY;
    device_expected[RUNTIME_DEVICE_HANDLER] = RUNTIME_HANDLER_AT_REST;
}

static void expect_body(int place, int kind, int number, int instruction)
{
    device_expected[RUNTIME_DEVICE_PLACE] = (uint16_t)place;
    device_expected[RUNTIME_DEVICE_KIND] = (uint16_t)kind;
    device_expected[RUNTIME_DEVICE_NUMBER] = (uint16_t)number;
    device_expected[RUNTIME_DEVICE_INSTRUCTION] = (uint16_t)instruction;
}

/* A handler with so many of the burst's events, and no store made. */
static void expect_burst(int count)
{
    device_expected[RUNTIME_DEVICE_HANDLER] = RUNTIME_HANDLER_STORING;
    device_expected[RUNTIME_DEVICE_BURST_LENGTH] = (uint16_t)count;
    device_expected[RUNTIME_DEVICE_HANDLER_STORES] = 0;
    memcpy(device_expected + RUNTIME_DEVICE_BURST, burst_words, 2 * (size_t)count * sizeof *burst_words);
}

/* Events 1 and 0 in turn, with data from 77 on, as many as there may be. */
static void build_burst(void)
{
    int number;

    guard(burst_words, ALL(burst_words));
    for (number = 0; number < RUNTIME_MAX_BURST; number++) {
        burst_words[2 * number] = (uint16_t)(1 - number % 2);
        burst_words[2 * number + 1] = (uint16_t)(77 + number);
    }
}

static int device_is_expected(void)
{
    return memcmp(device, device_expected, sizeof device) == 0;
}

/* Whether a step answers stored with this word, and the device then has so many stores made. */
static int steps_to_store(int word, int stores)
{
    device_expected[RUNTIME_DEVICE_STORES] = (uint16_t)stores;
    return steps(RUNTIME_CASE_STORED, word) && device_is_expected();
}

static void life_program(void)
{
    static const uint16_t counts[] = {0x0000, 100, 0x0010, 101, 0x0020, 102, 0x0030, 103, 0x0040, 104, 0x0050, 105,
                                      0x0060, 106, 0x0070, 107, 0x0930, 2,   0x0F00, 1}; /* SETs, SAVE 3 to 2, GO 1 */
    static const uint16_t ends[] = {0x0F00, 2};                                          /* GO 2 */
    static const uint16_t waits[] = {0x0C00, 0};                                         /* JUMP 0 */
    static const uint16_t done[] = {0x1000, 0};                                          /* DONE */
    static const uint16_t saves[] = {0x0900, 4, 0x1000, 0};                              /* SAVE 0 to 4, DONE */

    begin(3, 2, 5, 0);
    body(0, 7, counts, 10);
    body(1, 7, ends, 1);
    body(2, 0, waits, 1);
    body(3, 0, done, 1);
    body(4, 0, saves, 2);
}

/* Whether after a cut a boot leaves the device that is expected. */
static int taken_up(void)
{
    cut();
    boot();
    return is(RUNTIME_CASE_DONE) && device_is_expected();
}

/* Chosen, the instructions, half a SAVE and the rest of it. */
static void task_runs(void)
{
    int number;

    expect_on();
    HOLDS(steps_body(RUNTIME_CASE_CHOSEN, RUNTIME_KIND_TASK, 0, RUNTIME_STORE_BEGUN));
    HOLDS(store[RUNTIME_STORE_BEGUN] == RUNTIME_BEGUN_TASK);
    expect_body(RUNTIME_PLACE_RUNNING, RUNTIME_KIND_TASK, 0, 0);
    HOLDS(device_is_expected());
    HOLDS(taken_up());
    for (number = 0; number < RUNTIME_REGISTERS; number++) {
        device_expected[RUNTIME_DEVICE_REGISTER + number] = (uint16_t)(100 + number);
        expect_body(RUNTIME_PLACE_RUNNING, RUNTIME_KIND_TASK, 0, number + 1);
        HOLDS(steps(RUNTIME_CASE_WORKED, RUNTIME_NO_STORE));
        HOLDS(device_is_expected());
    }
    expect_body(RUNTIME_PLACE_HALF_SAVE, RUNTIME_KIND_TASK, 0, 8);
    HOLDS(steps_to_store(store[RUNTIME_STORE_LOG_START], 0));
    expect_body(RUNTIME_PLACE_RUNNING, RUNTIME_KIND_TASK, 0, 9);
    device_expected[RUNTIME_DEVICE_LOG_COUNT] = 1;
    HOLDS(steps_to_store(store[RUNTIME_STORE_LOG_START] + 1, 0));
}

/* The stores that end it, the commit store, the copy, and what follows. */
static void task_commits(void)
{
    HOLDS(steps_to_store(RUNTIME_STORE_COUNT, 1));
    HOLDS(steps_to_store(RUNTIME_STORE_PENDING_TASK, 2));
    HOLDS(steps_to_store(RUNTIME_STORE_PENDING_OPEN, 3));
    HOLDS(store[RUNTIME_STORE_PHASE] == RUNTIME_PHASE_RUNNING);
    HOLDS(steps_body(RUNTIME_CASE_COMMITTED, RUNTIME_KIND_TASK, 0, RUNTIME_STORE_PHASE));
    HOLDS(store[RUNTIME_STORE_PHASE] == RUNTIME_PHASE_TASK_COMMIT);
    HOLDS(store[RUNTIME_STORE_COUNT] == 1);
    HOLDS(store[RUNTIME_STORE_PENDING_TASK] == 1);
    HOLDS(store[RUNTIME_STORE_PENDING_OPEN] == 7);
    expect_on();
    HOLDS(device_is_expected());
    HOLDS(steps_to_store(RUNTIME_STORE_MEMORY + 2, 1));
    HOLDS(steps_to_store(RUNTIME_STORE_CURRENT_TASK, 2));
    HOLDS(steps_to_store(RUNTIME_STORE_OPEN, 3));
    HOLDS(store[RUNTIME_STORE_BEGUN] == RUNTIME_BEGUN_TASK);
    HOLDS(steps_to_store(RUNTIME_STORE_BEGUN, 4));
    HOLDS(store[RUNTIME_STORE_BEGUN] == RUNTIME_BEGUN_NOTHING);
    HOLDS(steps_to_store(RUNTIME_STORE_PHASE, 0));
    HOLDS(store[RUNTIME_STORE_PHASE] == RUNTIME_PHASE_RUNNING);
    HOLDS(store[RUNTIME_STORE_MEMORY + 2] == 103);
    HOLDS(store[RUNTIME_STORE_CURRENT_TASK] == 1);
    HOLDS(store[RUNTIME_STORE_OPEN] == 7);
}

/* The next task, which leaves the transaction: chosen, four stores, four stores. */
static void next_task(void)
{
    HOLDS(run(9) == 9);
    HOLDS(is(RUNTIME_CASE_SPENT));
    HOLDS(store[RUNTIME_STORE_CURRENT_TASK] == 2);
    HOLDS(store[RUNTIME_STORE_OPEN] == 0);
}

static void handler_works(void)
{
    HOLDS((post(1, 77), is(RUNTIME_CASE_DONE)));
    build_burst();
    expect_on();
    expect_burst(1);
    HOLDS(device_is_expected());
    HOLDS((post(1, 78), refuses(RUNTIME_REFUSAL_HANDLER_BUSY, 0, 0)));
    device_expected[RUNTIME_DEVICE_HANDLER_STORES] = 1;
    HOLDS(steps_to_store(store[RUNTIME_STORE_QUEUE_START], 0));
    device_expected[RUNTIME_DEVICE_HANDLER_STORES] = 2;
    HOLDS(steps_to_store(store[RUNTIME_STORE_QUEUE_START] + 1, 0));
    HOLDS(steps(RUNTIME_CASE_ACCEPTED, RUNTIME_STORE_TAIL));
    expect_on();
    HOLDS(device_is_expected());
    HOLDS(store[RUNTIME_STORE_TAIL] == 1);
    HOLDS(store[RUNTIME_STORE_HEAD] == 0);
}

static void event_commits(void)
{
    HOLDS(steps_body(RUNTIME_CASE_CHOSEN, RUNTIME_KIND_EVENT, 1, RUNTIME_STORE_BEGUN));
    HOLDS(store[RUNTIME_STORE_BEGUN] == RUNTIME_BEGUN_EVENT);
    expect_body(RUNTIME_PLACE_RUNNING, RUNTIME_KIND_EVENT, 1, 0);
    device_expected[RUNTIME_DEVICE_REGISTER] = 77;
    HOLDS(device_is_expected());
    HOLDS(taken_up());
    HOLDS(run(2) == 2); /* the SAVE */
    expect_body(RUNTIME_PLACE_RUNNING, RUNTIME_KIND_EVENT, 1, 1);
    device_expected[RUNTIME_DEVICE_LOG_COUNT] = 1;
    HOLDS(steps_to_store(RUNTIME_STORE_COUNT, 1));
    HOLDS(steps_to_store(RUNTIME_STORE_PENDING_HEAD, 2));
    HOLDS(steps_body(RUNTIME_CASE_COMMITTED, RUNTIME_KIND_EVENT, 1, RUNTIME_STORE_PHASE));
    HOLDS(store[RUNTIME_STORE_PHASE] == RUNTIME_PHASE_EVENT_COMMIT);
    HOLDS(store[RUNTIME_STORE_PENDING_HEAD] == 1);
    expect_on();
    HOLDS(steps_to_store(RUNTIME_STORE_MEMORY + 4, 1));
    HOLDS(steps_to_store(RUNTIME_STORE_HEAD, 2));
    HOLDS(steps_to_store(RUNTIME_STORE_BEGUN, 3));
    HOLDS(steps_to_store(RUNTIME_STORE_PHASE, 0));
    HOLDS(store[RUNTIME_STORE_BEGUN] == RUNTIME_BEGUN_NOTHING);
    HOLDS(store[RUNTIME_STORE_HEAD] == 1);
}

static void life(void)
{
    memset(totals, 0, sizeof totals);
    guard(device, ALL(device));
    life_program();
    fresh(3, 2);
    HOLDS((boot(), is(RUNTIME_CASE_DONE)));
    task_runs();
    task_commits();
    next_task();
    handler_works();
    event_commits();
    HOLDS(totals[RUNTIME_TOTALS_COMMITTED] == 3);
    HOLDS(totals[RUNTIME_TOTALS_ACCEPTED] == 1);
    HOLDS(totals[RUNTIME_TOTALS_STORES] == 12 + 9 + 3 + 10);
    device[RUNTIME_DEVICE_ON] = 2;
    HOLDS(steps(RUNTIME_CASE_NO_DEVICE, RUNTIME_NO_STORE));
}

/* ---- Refusals from the store and the state */

static void store_refusals(void)
{
    life_program();
    fresh(3, 2);
    store[RUNTIME_STORE_MARK]++;
    HOLDS((boot(), refuses(RUNTIME_REFUSAL_STORE_CONTENTS, 0, 0)));
    fresh(3, 2);
    store[RUNTIME_STORE_PHASE] = RUNTIME_PHASE_EVENT_COMMIT + 1;
    HOLDS((boot(), refuses(RUNTIME_REFUSAL_CONTROL, RUNTIME_STORE_PHASE, 0)));
    fresh(3, 2);
    store[RUNTIME_STORE_CURRENT_TASK] = 3;
    HOLDS((boot(), refuses(RUNTIME_REFUSAL_CONTROL, RUNTIME_STORE_CURRENT_TASK, 0)));
    fresh(3, 2);
    store[RUNTIME_STORE_BEGUN] = RUNTIME_BEGUN_EVENT; /* the queue is empty */
    HOLDS((boot(), refuses(RUNTIME_REFUSAL_CONTROL, RUNTIME_STORE_BEGUN, 0)));
    fresh(3, 2);
    store[RUNTIME_STORE_BEGUN] = RUNTIME_BEGUN_EVENT + 1;
    HOLDS((boot(), refuses(RUNTIME_REFUSAL_CONTROL, RUNTIME_STORE_BEGUN, 0)));
}

static void power_and_queue(void)
{
    life_program();
    fresh(3, 1);
    HOLDS(step_refuses(RUNTIME_REFUSAL_POWER_OFF));
    HOLDS((boot(), is(RUNTIME_CASE_DONE)));
    HOLDS((boot(), refuses(RUNTIME_REFUSAL_POWER_ON, 0, 0)));
    HOLDS((post(2, 0), refuses(RUNTIME_REFUSAL_NO_EVENT, 0, 0)));
    HOLDS((post(1, 0), is(RUNTIME_CASE_DONE)));
    HOLDS(run(4) == 4); /* accepted, and chosen */
    HOLDS((post(1, 0), refuses(RUNTIME_REFUSAL_QUEUE_FULL, 0, 0)));
    device[RUNTIME_DEVICE_LOG_COUNT] = 4;
    HOLDS(step_refuses(RUNTIME_REFUSAL_STATE));
    device[RUNTIME_DEVICE_LOG_COUNT] = 0;
    store[RUNTIME_STORE_BEGUN] = RUNTIME_BEGUN_TASK;
    HOLDS(step_refuses(RUNTIME_REFUSAL_STATE));
}

static void address_and_log(void)
{
    static const uint16_t past[] = {0x0010, 65535, 0x0A01, 1, 0x0F00, 0}; /* SET 1, LOADX 0 at 1 + register 1, GO 0 */
    static const uint16_t twice[] = {0x0900, 0, 0x0900, 1, 0x0F00, 0};    /* SAVE to 0, SAVE to 1, GO 0 */

    begin(1, 0, 2, 0);
    body(0, 0, past, 3);
    fresh(1, 1);
    boot();
    HOLDS(run(2) == 2); /* chosen, SET */
    HOLDS(step_refuses(RUNTIME_REFUSAL_ADDRESS));
    begin(1, 0, 2, 0);
    body(0, 0, twice, 3);
    fresh(1, 1);
    boot();
    HOLDS(run(3) == 3); /* chosen, the first SAVE */
    HOLDS(step_refuses(RUNTIME_REFUSAL_LOG_FULL));
}

/* ---- Bursts */

/* As many events as there may be: each stored, then its data, and all accepted by one store. */
static void burst_accepted(void)
{
    int number;

    memset(totals, 0, sizeof totals);
    guard(device, ALL(device));
    life_program();
    fresh(3, RUNTIME_MAX_BURST);
    HOLDS((boot(), is(RUNTIME_CASE_DONE)));
    build_burst();
    HOLDS((burst(RUNTIME_MAX_BURST), is(RUNTIME_CASE_DONE)));
    expect_on();
    expect_burst(RUNTIME_MAX_BURST);
    HOLDS(device_is_expected());
    for (number = 0; number < RUNTIME_BURST_WORDS; number++) {
        device_expected[RUNTIME_DEVICE_HANDLER_STORES]++;
        HOLDS(steps_to_store(store[RUNTIME_STORE_QUEUE_START] + number, 0));
    }
    HOLDS(steps(RUNTIME_CASE_ACCEPTED, RUNTIME_STORE_TAIL));
    expect_on();
    HOLDS(device_is_expected());
    HOLDS(store[RUNTIME_STORE_TAIL] == RUNTIME_MAX_BURST);
    HOLDS(totals[RUNTIME_TOTALS_ACCEPTED] == RUNTIME_MAX_BURST);
    HOLDS(totals[RUNTIME_TOTALS_STORES] == RUNTIME_BURST_WORDS + 1);
}

static void burst_refusals(void)
{
    guard(device, ALL(device));
    life_program();
    fresh(3, RUNTIME_MAX_BURST - 1);
    build_burst();
    HOLDS((burst(1), refuses(RUNTIME_REFUSAL_POWER_OFF, 0, 0)));
    HOLDS((boot(), is(RUNTIME_CASE_DONE)));
    HOLDS((burst(0), refuses(RUNTIME_REFUSAL_BURST_LENGTH, 0, 0)));
    HOLDS((burst(RUNTIME_MAX_BURST + 1), refuses(RUNTIME_REFUSAL_BURST_LENGTH, 0, 0)));
    HOLDS((burst(RUNTIME_MAX_BURST), refuses(RUNTIME_REFUSAL_QUEUE_FULL, 0, 0)));
    burst_words[2 * 2] = 2; /* of the third event */
    HOLDS((burst(RUNTIME_MAX_BURST), refuses(RUNTIME_REFUSAL_NO_EVENT, 2, 0)));
    HOLDS((burst(2), is(RUNTIME_CASE_DONE)));
    expect_on();
    expect_burst(2);
    HOLDS(device_is_expected());
    HOLDS((burst(1), refuses(RUNTIME_REFUSAL_HANDLER_BUSY, 0, 0)));
    device[RUNTIME_DEVICE_BURST_LENGTH] = RUNTIME_MAX_BURST; /* the queue has no room for it */
    HOLDS(step_refuses(RUNTIME_REFUSAL_STATE));
    device[RUNTIME_DEVICE_HANDLER] = RUNTIME_HANDLER_REPLACING + 1;
    HOLDS(steps(RUNTIME_CASE_NO_DEVICE, RUNTIME_NO_STORE));
}

/* A post to a full queue: head is stored first, then the record, and the accepting answer has the dropped one. */
static void record_dropped(void)
{
    memset(totals, 0, sizeof totals);
    guard(device, ALL(device));
    life_program();
    fresh(3, 1);
    HOLDS((boot(), is(RUNTIME_CASE_DONE)));
    HOLDS((post(0, 66), is(RUNTIME_CASE_DONE)));
    HOLDS(run(3) == 3);
    HOLDS((post(1, 77), is(RUNTIME_CASE_DONE)));
    build_burst();
    expect_on();
    expect_burst(1);
    device_expected[RUNTIME_DEVICE_HANDLER] = RUNTIME_HANDLER_DROPPING;
    HOLDS(device_is_expected());
    device_expected[RUNTIME_DEVICE_HANDLER] = RUNTIME_HANDLER_REPLACING;
    HOLDS(steps_to_store(RUNTIME_STORE_HEAD, 0));
    device_expected[RUNTIME_DEVICE_HANDLER_STORES] = 1;
    HOLDS(steps_to_store(store[RUNTIME_STORE_QUEUE_START] + 2, 0));
    device_expected[RUNTIME_DEVICE_HANDLER_STORES] = 2;
    HOLDS(steps_to_store(store[RUNTIME_STORE_QUEUE_START] + 3, 0));
    step();
    HOLDS(answered(RUNTIME_STEP_ANSWER_WORDS, RUNTIME_CASE_ACCEPTED, 1, 0, 66, 0, RUNTIME_STORE_TAIL));
    HOLDS(answer[RUNTIME_ANSWER_DROPPED] == 1);
    HOLDS(answer[RUNTIME_ANSWER_DROPPED_EVENT] == 0);
    HOLDS(answer[RUNTIME_ANSWER_DROPPED_DATA] == 66);
    expect_on();
    HOLDS(device_is_expected());
    HOLDS(totals[RUNTIME_TOTALS_ACCEPTED] == 2);
    HOLDS(totals[RUNTIME_TOTALS_STORES] == 3 + 4);
}

/* ---- Line tables */

static void no_rows(void)
{
    memset(line_words, 0, sizeof line_words);
    table_length = 0;
}

static void row(int line, int low, int high, int event)
{
    uint16_t *words = table + table_length;

    words[RUNTIME_LINES_LINE] = (uint16_t)line;
    words[RUNTIME_LINES_LOW] = (uint16_t)low;
    words[RUNTIME_LINES_HIGH] = (uint16_t)high;
    words[RUNTIME_LINES_EVENT] = (uint16_t)event;
    table_length += RUNTIME_LINES_ROW_WORDS;
}

/* As many rows as there may be, of 1024 levels each, on the last line; then one more, and a line past the last. */
static void lines_limits(void)
{
    int number;

    no_rows();
    HOLDS((lines_check(), is(RUNTIME_CASE_DONE)));
    for (number = 0; number < RUNTIME_MAX_LINES_ROWS; number++)
        row(RUNTIME_MAX_LINE, 1024 * number, 1024 * number + 1023, number);
    HOLDS((lines_check(), is(RUNTIME_CASE_DONE)));
    row(0, 0, 65535, 0);
    HOLDS((lines_check(), refuses(RUNTIME_REFUSAL_LINES_ROW, RUNTIME_MAX_LINES_ROWS, 0)));
    no_rows();
    row(RUNTIME_MAX_LINE, 0, 65535, 0);
    row(RUNTIME_MAX_LINE + 1, 0, 65535, 0);
    HOLDS((lines_check(), refuses(RUNTIME_REFUSAL_LINES_ROW, 1, 0)));
}

static void lines_refusals(void)
{
    no_rows();
    row(3, 0, 65535, 0);
    row(3, 9, 8, 0);
    HOLDS((lines_check(), refuses(RUNTIME_REFUSAL_LINES_ROW, 1, 0)));
    table_length = RUNTIME_LINES_ROW_WORDS + 1;
    HOLDS((lines_check(), refuses(RUNTIME_REFUSAL_LINES_ROW, 1, 0)));
    no_rows();
    row(3, 0, 65535, 0);
    row(5, 0, 99, 0);
    row(5, 101, 65535, 0);
    HOLDS((lines_check(), refuses(RUNTIME_REFUSAL_LINES_GAP, 5, 100)));
    no_rows();
    row(3, 0, 65535, 0);
    row(5, 0, 100, 0);
    row(5, 100, 65535, 0);
    HOLDS((lines_check(), refuses(RUNTIME_REFUSAL_LINES_OVERLAP, 5, 100)));
}

static void lines_raised(void)
{
    guard(device, ALL(device));
    life_program();
    fresh(3, 2);
    HOLDS((boot(), is(RUNTIME_CASE_DONE)));
    no_rows();
    row(4, 500, 65535, RUNTIME_LINES_NO_EVENT);
    row(4, 0, 499, 1);
    expect_on();
    HOLDS((raise_line(4, 500), is(RUNTIME_CASE_NOTHING_POSTED)));
    HOLDS((raise_line(5, 77), is(RUNTIME_CASE_NOTHING_POSTED)));
    HOLDS(device_is_expected());
    HOLDS((raise_line(4, 77), is(RUNTIME_CASE_DONE)));
    build_burst();
    expect_burst(1);
    HOLDS(device_is_expected());
    HOLDS((raise_line(4, 499), refuses(RUNTIME_REFUSAL_HANDLER_BUSY, 0, 0)));
    table_length -= RUNTIME_LINES_ROW_WORDS;
    HOLDS((raise_line(4, 500), refuses(RUNTIME_REFUSAL_LINES_GAP, 4, 0)));
}

int main(void)
{
    lengths();
    program_limits();
    program_refusals();
    store_limits();
    contents();
    life();
    store_refusals();
    power_and_queue();
    address_and_log();
    burst_accepted();
    burst_refusals();
    record_dropped();
    lines_limits();
    lines_refusals();
    lines_raised();
    return EXIT_SUCCESS;
}

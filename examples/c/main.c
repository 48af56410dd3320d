/* The counting program of document 01 on the library, from C. In the repository's root, after `tools/library.sh`:
 *
 *     cc -O2 -I include examples/c/main.c target/staticlib/libexports.a -o target/counting-c && target/counting-c
 */
#include "runtime.h"

#include <stdio.h>
#include <stdlib.h>

#define MEMORY_WORDS 2
#define LOG_PAIRS 1
#define QUEUE_RECORDS 1
#define PROGRAM_WORDS 26
#define STORE_WORDS RUNTIME_STORE_WORDS(MEMORY_WORDS, LOG_PAIRS, QUEUE_RECORDS)

static const uint16_t program[PROGRAM_WORDS] = {
    RUNTIME_PROGRAM_MARK_VALUE, 1, 1, MEMORY_WORDS, 0, PROGRAM_WORDS, /* one task, one event, entry 0 */
    12, 5, 0,                                                         /* the task's row */
    22, 2, 0,                                                         /* the event's row */
    0x0800, 0, 0x0010, 1, 0x0201, 0, 0x0900, 0, 0x0F00, 0,            /* adds 1 to word 0 */
    0x0900, 1, 0x1000, 0                                              /* saves its data in word 1 */
};

#define TABLE_WORDS (2 * RUNTIME_LINES_ROW_WORDS)

static uint16_t table[TABLE_WORDS] = {
    3, 0, 999, RUNTIME_LINES_NO_EVENT, /* line 3: silent below level 1000 */
    3, 1000, 65535, 0                  /* from there on it raises event 0 */
};

static uint16_t sample[RUNTIME_BURST_WORDS] = {0, 5, 0, 6}; /* a burst: event 0 with data 5, event 0 with data 6 */

static uint16_t store[STORE_WORDS];                /* nonvolatile: a cut leaves it as it is */
static uint16_t device[RUNTIME_DEVICE_WORDS];      /* lost at a cut; zeros are the device that is off */
static uint32_t totals[RUNTIME_TOTALS_NUMBERS];
static uint16_t answer[RUNTIME_STEP_ANSWER_WORDS]; /* long enough for a step's answer */

/* The answer of a call. The last word is a step's alone. */
static void print(const char *call, int is_step)
{
    const char *kind = answer[RUNTIME_ANSWER_KIND] == RUNTIME_KIND_TASK ? "task" : "event";
    unsigned number = answer[RUNTIME_ANSWER_NUMBER];

    printf("%-16s ", call);
    switch (answer[RUNTIME_ANSWER_CASE]) {
    case RUNTIME_CASE_DONE: printf("done"); break;
    case RUNTIME_CASE_CHOSEN: printf("chosen %s %u", kind, number); break;
    case RUNTIME_CASE_WORKED: printf("worked"); break;
    case RUNTIME_CASE_STORED: printf("stored"); break;
    case RUNTIME_CASE_COMMITTED: printf("committed %s %u", kind, number); break;
    case RUNTIME_CASE_ACCEPTED:
        printf("accepted");
        if (answer[RUNTIME_ANSWER_DROPPED])
            printf(", dropped %u %u", answer[RUNTIME_ANSWER_DROPPED_EVENT], answer[RUNTIME_ANSWER_DROPPED_DATA]);
        break;
    case RUNTIME_CASE_REFUSED:
        printf("refused %u, place %u %u", number, answer[RUNTIME_ANSWER_PLACE], answer[RUNTIME_ANSWER_SECOND_PLACE]);
        break;
    case RUNTIME_CASE_SPENT: printf("spent"); break;
    case RUNTIME_CASE_NO_DEVICE: printf("no device"); break;
    case RUNTIME_CASE_NOTHING_POSTED: printf("nothing posted"); break;
    default: printf("?"); break;
    }
    if (is_step && answer[RUNTIME_ANSWER_STORED] != RUNTIME_NO_STORE)
        printf(", word %u", answer[RUNTIME_ANSWER_STORED]);
    printf("\n");
}

static void print_memory(void)
{
    printf("                 memory %u %u, phase %u, begun %u, head %u, tail %u\n", store[RUNTIME_STORE_MEMORY],
           store[RUNTIME_STORE_MEMORY + 1], store[RUNTIME_STORE_PHASE], store[RUNTIME_STORE_BEGUN],
           store[RUNTIME_STORE_HEAD], store[RUNTIME_STORE_TAIL]);
}

static void steps(int count)
{
    while (count-- > 0) {
        runtime_step(program, PROGRAM_WORDS, store, STORE_WORDS, device, totals, answer);
        print("step", 1);
    }
}

static void boot(void)
{
    runtime_boot(program, PROGRAM_WORDS, store, STORE_WORDS, device, answer);
    print("boot", 0);
}

static void post(uint16_t event, uint16_t datum)
{
    runtime_post(program, PROGRAM_WORDS, store, STORE_WORDS, device, event, datum, answer);
    print("post", 0);
}

static void burst(uint16_t count)
{
    char line[32];

    runtime_burst(program, PROGRAM_WORDS, store, STORE_WORDS, device, count, sample, answer);
    sprintf(line, "burst of %u", (unsigned)count);
    print(line, 0);
}

static void check_lines(void)
{
    runtime_lines_check(table, TABLE_WORDS, answer);
    print("lines_check", 0);
}

static void raise_line(uint16_t line, uint16_t level)
{
    char text[32];

    runtime_raise(program, PROGRAM_WORDS, store, STORE_WORDS, device, table, TABLE_WORDS, line, level, answer);
    sprintf(text, "raise %u %u", (unsigned)line, (unsigned)level);
    print(text, 0);
}

static void run(uint32_t budget)
{
    uint32_t made = runtime_run(program, PROGRAM_WORDS, store, STORE_WORDS, device, totals, budget, answer);
    char line[32];

    sprintf(line, "run %lu: %lu", (unsigned long)budget, (unsigned long)made);
    print(line, 0);
}

/* A cut, a boot, then steps while a commit is unfinished. */
static void recover(void)
{
    runtime_cut(device, answer);
    print("cut", 0);
    boot();
    while (store[RUNTIME_STORE_PHASE] != RUNTIME_PHASE_RUNNING)
        steps(1);
    print_memory();
}

int main(void)
{
    runtime_check(program, PROGRAM_WORDS, answer);
    print("check", 0);
    runtime_format(program, PROGRAM_WORDS, LOG_PAIRS, QUEUE_RECORDS, store, STORE_WORDS, answer);
    print("format", 0);
    if (answer[RUNTIME_ANSWER_CASE] != RUNTIME_CASE_DONE)
        return EXIT_FAILURE;

    boot();
    steps(9);
    recover(); /* before the commit store: the task is taken up at its first instruction, nothing else of it is left */
    steps(9);
    recover(); /* after it: the commit is finished */

    post(0, 77);
    steps(3);
    post(0, 78); /* the queue is full: its one record is dropped */
    steps(5);
    post(0, 79); /* full again, and the event has begun: RUNTIME_REFUSAL_QUEUE_FULL */
    steps(7);
    recover(); /* between the head store and the last: head moves on by one slot in all */

    run(1500);
    print_memory();

    burst(2);      /* it doesn't fit into a queue of one record: RUNTIME_REFUSAL_QUEUE_FULL */
    sample[2] = 1; /* the program has event 0 alone: RUNTIME_REFUSAL_NO_EVENT, at position 1 */
    burst(2);
    burst(5);      /* RUNTIME_REFUSAL_BURST_LENGTH, whatever its events are */
    burst(1);      /* as a post: what stands behind its data isn't looked at */
    steps(2);
    recover(); /* before its last store: none of it came in */

    check_lines();
    raise_line(3, 999);  /* its row has no event */
    raise_line(4, 1000); /* no row names this line */
    raise_line(3, 1000); /* the post of event 0 with the level as data */
    steps(3);
    table[RUNTIME_LINES_HIGH] = 998; /* level 999 is in no row now: RUNTIME_REFUSAL_LINES_GAP */
    check_lines();
    raise_line(3, 1000);

    device[RUNTIME_DEVICE_ON] = 2; /* no device has this word */
    steps(1);
    printf("committed %lu, accepted %lu, stores %lu\n", (unsigned long)totals[RUNTIME_TOTALS_COMMITTED],
           (unsigned long)totals[RUNTIME_TOTALS_ACCEPTED], (unsigned long)totals[RUNTIME_TOTALS_STORES]);
    return EXIT_SUCCESS;
}

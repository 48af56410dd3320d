/* The functions of the library target/staticlib/libexports.a, which `tools/library.sh` writes, and names for the
 * numbers that go in and out. What each call takes, answers and refuses: docs/USING.md.
 *
 * For C from C89 on and C++ from C++98 on. Every name is a macro with a plain number, for #if, switch and array
 * lengths. conformance/header holds each number to the library; examples/rust/runtime.rs has the same names for Rust.
 */
#ifndef RUNTIME_H
#define RUNTIME_H

#include <stddef.h>
#include <stdint.h>

/* ---- Lengths */

#define RUNTIME_DEVICE_WORDS 26
#define RUNTIME_ANSWER_WORDS 5
#define RUNTIME_STEP_ANSWER_WORDS 6 /* a step's answer tells the word stored, too */
#define RUNTIME_TOTALS_NUMBERS 3
#define RUNTIME_REGISTERS 8
#define RUNTIME_BURST_WORDS 8       /* a burst: its first event, that event's data, its second event, .. */
#define RUNTIME_LINES_ROW_WORDS 4   /* a line table's rows */

/* The length of a store of M memory words, L log pairs and Q queue records. */
#define RUNTIME_STORE_WORDS(memory_words, log_pairs, queue_records) \
    (19 + (memory_words) + 2 * (log_pairs) + 2 * (queue_records))

/* ---- The largest values. The least is 1; of events that a program has, transaction numbers, lines and a line table's rows 0. */

#define RUNTIME_MAX_TASKS 32
#define RUNTIME_MAX_EVENTS 16
#define RUNTIME_MAX_MEMORY_WORDS 1024
#define RUNTIME_MAX_LOG_PAIRS 64
#define RUNTIME_MAX_QUEUE_RECORDS 32
#define RUNTIME_MAX_BURST 4          /* events of one burst */
#define RUNTIME_MAX_INSTRUCTIONS 256 /* of one body */
#define RUNTIME_MAX_TRANSACTION 255
#define RUNTIME_MAX_PROGRAM_WORDS 24726
#define RUNTIME_MAX_STORE_WORDS 1235
#define RUNTIME_MAX_LINE 15
#define RUNTIME_MAX_LINES_ROWS 64

/* ---- An answer's words. Every call writes them; what a case doesn't have is 0. */

#define RUNTIME_ANSWER_CASE 0
#define RUNTIME_ANSWER_KIND 1          /* the body's, of chosen and committed */
#define RUNTIME_ANSWER_NUMBER 2        /* the body's, or the refusal's */
#define RUNTIME_ANSWER_PLACE 3         /* the refusal's, first word */
#define RUNTIME_ANSWER_SECOND_PLACE 4  /* .. and second word */
#define RUNTIME_ANSWER_DROPPED 1       /* of accepted: 1 if a record was dropped for the event, 0 if none */
#define RUNTIME_ANSWER_DROPPED_EVENT 2 /* .. the dropped record's event */
#define RUNTIME_ANSWER_DROPPED_DATA 3  /* .. and its data */
#define RUNTIME_ANSWER_STORED 5        /* of a step alone: the index of the store's word that it stored, even where
                                        * the value stayed the same, or RUNTIME_NO_STORE */

#define RUNTIME_CASE_DONE 0           /* check, format, boot, post, burst, cut; lines_check; raise: the event was posted */
#define RUNTIME_CASE_CHOSEN 1         /* step: a body, with its kind and number */
#define RUNTIME_CASE_WORKED 2         /* step */
#define RUNTIME_CASE_STORED 3         /* step */
#define RUNTIME_CASE_COMMITTED 4      /* step: a body, with its kind and number */
#define RUNTIME_CASE_ACCEPTED 5       /* step: every event of the handler's burst, with the record dropped for it or none */
#define RUNTIME_CASE_REFUSED 6        /* all but cut: the refusal's number and place */
#define RUNTIME_CASE_SPENT 7          /* run */
#define RUNTIME_CASE_NO_DEVICE 8      /* boot, step, post, burst, run, raise: the device's words stand for no device state */
#define RUNTIME_CASE_NOTHING_POSTED 9 /* raise: the line has no rows, or its row has no event */

#define RUNTIME_KIND_TASK 0
#define RUNTIME_KIND_EVENT 1

#define RUNTIME_NO_STORE 65535

/* ---- Refusals. A refusal changes no word of store, device and totals; in a run this holds for the refused step, and
 * the steps before it stand. Nor does a call with no device change any; a run then has made 0 steps. Nor does a raise
 * that posts nothing. */

#define RUNTIME_REFUSAL_PROGRAM_LENGTH 1 /* under 6 words, or unlike word RUNTIME_PROGRAM_TOTAL_WORDS */
#define RUNTIME_REFUSAL_PROGRAM_MARK 2
#define RUNTIME_REFUSAL_PROGRAM_SIZE 3   /* tasks, events, memory words or entry; place: word index */
#define RUNTIME_REFUSAL_ROW 4            /* a body's row; place: body, tasks first */
#define RUNTIME_REFUSAL_INSTRUCTION 5    /* place: body, instruction */
#define RUNTIME_REFUSAL_STORE_CONTENTS 6 /* contents or length, or unlike the program's memory words */
#define RUNTIME_REFUSAL_CONTROL 7        /* control words, log addresses, records; place: the lowest word of a broken rule */
#define RUNTIME_REFUSAL_NO_EVENT 8       /* the program has no such event; place: its position in the burst, from 0 */
#define RUNTIME_REFUSAL_STORE_SIZE 9     /* log pairs or queue records, when formatting */
#define RUNTIME_REFUSAL_HANDLER_BUSY 20  /* a handler is at work */
#define RUNTIME_REFUSAL_QUEUE_FULL 21    /* no room for the whole burst; of one event: and the oldest record may not be
                                          * dropped, since RUNTIME_STORE_BEGUN or RUNTIME_STORE_PHASE is 2 */
#define RUNTIME_REFUSAL_POWER_OFF 22     /* step, post, burst or raise while off */
#define RUNTIME_REFUSAL_ADDRESS 23       /* past the memory words */
#define RUNTIME_REFUSAL_LOG_FULL 24      /* SAVE to an address not in the log, with all pairs used */
#define RUNTIME_REFUSAL_STATE 25         /* device state unlike program or store */
#define RUNTIME_REFUSAL_POWER_ON 26      /* boot while on */
#define RUNTIME_REFUSAL_LINES_ROW 30     /* a row that is one too many, incomplete or wrong; place: row */
#define RUNTIME_REFUSAL_LINES_GAP 31     /* no row has a level of a line that has rows; place: line, lowest such level */
#define RUNTIME_REFUSAL_LINES_OVERLAP 32 /* two rows have a level of a line; place: line, lowest such level */
#define RUNTIME_REFUSAL_BURST_LENGTH 33  /* a burst of no events, or of more than RUNTIME_MAX_BURST */

/* ---- The program's first words */

#define RUNTIME_PROGRAM_MARK 0
#define RUNTIME_PROGRAM_TASKS 1
#define RUNTIME_PROGRAM_EVENTS 2
#define RUNTIME_PROGRAM_MEMORY_WORDS 3
#define RUNTIME_PROGRAM_ENTRY 4
#define RUNTIME_PROGRAM_TOTAL_WORDS 5

#define RUNTIME_PROGRAM_MARK_VALUE 0xC0B1

/* ---- The store: contents, control, memory, log, queue. It is nonvolatile; the host keeps it. */

#define RUNTIME_STORE_MARK 0
#define RUNTIME_STORE_MEMORY_WORDS 1
#define RUNTIME_STORE_LOG_PAIRS 2
#define RUNTIME_STORE_QUEUE_RECORDS 3
#define RUNTIME_STORE_CONTROL_START 4
#define RUNTIME_STORE_MEMORY_START 5
#define RUNTIME_STORE_LOG_START 6
#define RUNTIME_STORE_QUEUE_START 7

#define RUNTIME_STORE_MARK_VALUE 0xC0A2

#define RUNTIME_STORE_PHASE 8
#define RUNTIME_STORE_CURRENT_TASK 9
#define RUNTIME_STORE_OPEN 10         /* the open transaction's number, 0 none */
#define RUNTIME_STORE_COUNT 11        /* the pairs of the commit */
#define RUNTIME_STORE_PENDING_TASK 12 /* phase 1 */
#define RUNTIME_STORE_PENDING_HEAD 12 /* phase 2 */
#define RUNTIME_STORE_PENDING_OPEN 13
#define RUNTIME_STORE_HEAD 14
#define RUNTIME_STORE_TAIL 15
#define RUNTIME_STORE_BEGUN 16        /* in phase 0: the kind of body that is chosen and not yet committed */

#define RUNTIME_STORE_MEMORY 17 /* the first memory word */

#define RUNTIME_PHASE_RUNNING 0
#define RUNTIME_PHASE_TASK_COMMIT 1
#define RUNTIME_PHASE_EVENT_COMMIT 2

#define RUNTIME_BEGUN_NOTHING 0
#define RUNTIME_BEGUN_TASK 1
#define RUNTIME_BEGUN_EVENT 2

/* ---- The device, lost at a cut. What a case doesn't have is 0, so the device that is off has zeros alone. */

#define RUNTIME_DEVICE_ON 0           /* 1 on, 0 off */
#define RUNTIME_DEVICE_REGISTER 1     /* register 0, then the others */
#define RUNTIME_DEVICE_PLACE 9
#define RUNTIME_DEVICE_KIND 10        /* of the body */
#define RUNTIME_DEVICE_NUMBER 11      /* of the body, among tasks or among events */
#define RUNTIME_DEVICE_INSTRUCTION 12 /* that the body stands at */
#define RUNTIME_DEVICE_STORES 13      /* no body: made since copying began; running: made of those that end the body */
#define RUNTIME_DEVICE_LOG_COUNT 14
#define RUNTIME_DEVICE_HANDLER 15
#define RUNTIME_DEVICE_BURST_LENGTH 16   /* the handler's: how many events; 1 of a handler that drops or has dropped */
#define RUNTIME_DEVICE_HANDLER_STORES 17 /* made of its burst's: of each event, of its data, and last of the tail; a store
                                          * of the head, which drops, isn't one of them */
#define RUNTIME_DEVICE_BURST 18          /* the handler's, RUNTIME_BURST_WORDS of them; 0 behind its last event's data */

#define RUNTIME_PLACE_NO_BODY 0
#define RUNTIME_PLACE_RUNNING 1
#define RUNTIME_PLACE_HALF_SAVE 2

#define RUNTIME_HANDLER_AT_REST 0
#define RUNTIME_HANDLER_STORING 1
#define RUNTIME_HANDLER_DROPPING 2  /* about to drop the oldest record, by a store of the head */
#define RUNTIME_HANDLER_REPLACING 3 /* it has dropped it, and stores the event in its place */

/* ---- The totals, which the host keeps. Each stays at its largest value. */

#define RUNTIME_TOTALS_COMMITTED 0 /* bodies */
#define RUNTIME_TOTALS_ACCEPTED 1  /* events, those for which a record was dropped too */
#define RUNTIME_TOTALS_STORES 2

/* ---- A line table: a row's words. A level from the low one to the high one, both included, is the row's. */

#define RUNTIME_LINES_LINE 0
#define RUNTIME_LINES_LOW 1
#define RUNTIME_LINES_HIGH 2
#define RUNTIME_LINES_EVENT 3

#define RUNTIME_LINES_NO_EVENT 65535 /* in the event's place: raising posts nothing */

/* ---- The functions. A program, a store and a line table are words with their number. No pointer is null. Store, device,
 * totals and answer don't overlap each other, the program, the table or the burst. */

#ifdef __cplusplus
extern "C" {
#endif

void runtime_check(const uint16_t *program, size_t program_length, uint16_t answer[RUNTIME_ANSWER_WORDS]);

void runtime_format(const uint16_t *program, size_t program_length, uint16_t log_pairs, uint16_t queue_records,
                    uint16_t *store, size_t store_length, uint16_t answer[RUNTIME_ANSWER_WORDS]);

void runtime_boot(const uint16_t *program, size_t program_length, const uint16_t *store, size_t store_length,
                  uint16_t device[RUNTIME_DEVICE_WORDS], uint16_t answer[RUNTIME_ANSWER_WORDS]);

void runtime_step(const uint16_t *program, size_t program_length, uint16_t *store, size_t store_length,
                  uint16_t device[RUNTIME_DEVICE_WORDS], uint32_t totals[RUNTIME_TOTALS_NUMBERS],
                  uint16_t answer[RUNTIME_STEP_ANSWER_WORDS]);

/* To a full queue it drops the oldest record, once the handler's first step is made, unless it is refused with 21. */
void runtime_post(const uint16_t *program, size_t program_length, const uint16_t *store, size_t store_length,
                  uint16_t device[RUNTIME_DEVICE_WORDS], uint16_t event, uint16_t datum,
                  uint16_t answer[RUNTIME_ANSWER_WORDS]);

/* As a post, of count events together: they are accepted by one store, all of them or none. Two or more drop nothing. The
 * words behind the last event's data aren't looked at. */
void runtime_burst(const uint16_t *program, size_t program_length, const uint16_t *store, size_t store_length,
                   uint16_t device[RUNTIME_DEVICE_WORDS], uint16_t count, const uint16_t burst[RUNTIME_BURST_WORDS],
                   uint16_t answer[RUNTIME_ANSWER_WORDS]);

void runtime_cut(uint16_t device[RUNTIME_DEVICE_WORDS], uint16_t answer[RUNTIME_ANSWER_WORDS]);

/* The number of steps made; a refused one isn't counted. What its steps told of dropped records isn't passed on. */
uint32_t runtime_run(const uint16_t *program, size_t program_length, uint16_t *store, size_t store_length,
                     uint16_t device[RUNTIME_DEVICE_WORDS], uint32_t totals[RUNTIME_TOTALS_NUMBERS], uint32_t budget,
                     uint16_t answer[RUNTIME_ANSWER_WORDS]);

void runtime_lines_check(const uint16_t *table, size_t table_length, uint16_t answer[RUNTIME_ANSWER_WORDS]);

/* The table is checked, and then the post of the event that it has for this level of the line, with the level as data. */
void runtime_raise(const uint16_t *program, size_t program_length, const uint16_t *store, size_t store_length,
                   uint16_t device[RUNTIME_DEVICE_WORDS], const uint16_t *table, size_t table_length, uint16_t line,
                   uint16_t level, uint16_t answer[RUNTIME_ANSWER_WORDS]);

#ifdef __cplusplus
}
#endif

#endif

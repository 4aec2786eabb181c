/* The proved register store for firmware, in C11 and C++ (x86-64 Linux). `firmware/install PREFIX`
 * installs it; then `cc main.c $(pkg-config --cflags --libs gondzselu)`. The rules are in
 * docs/RULES.md and cited by number ("RULES 8.5"): what the steps do, when they are refused, what
 * is promised of a run. firmware/c/k9.c is a first program; tickets.c there hands out numbers,
 * totals.c adds up a log, and load.c draws a load.
 *
 * Memory    A store is two memories that the caller lends, changed in place, aligned as uint32_t:
 *           7,508 bytes. Each has its type, so that swapped ones do not compile (older C compilers
 *           only warn: use -Werror). Any words are safe to lend (RULES 11.2). What lies where is in
 *           RULES 11.12; a store kept by a library of before 0.11.0 is no store here. The library
 *           keeps nothing elsewhere, and needs memcpy and memset and no other function.
 * Pointers  None is NULL, also where a length is 0. What a call writes overlaps nothing else that
 *           it is given (RULES 11.2).
 * Threads   One caller at a time for a store; an interrupt is a caller too. Calls that only read
 *           it, with const memories, may run side by side. Stores are independent (RULES 11.3).
 * Copying   Copy both memories whole, between calls; a gondzselu_store by `*b = *a`. Memories of
 *           different moments are a state made by hand (RULES 11.5).
 * Bytes     Memories are words in the machine's own order. Files and arguments are bytes in the
 *           order of RULES 3 and 4 on every machine.
 * Stack     See GONDZSELU_STACK_ANSWER. As x86-64 code may, the library uses the 128 bytes below
 *           the stack pointer and SSE registers: an interrupt on its stack spares the former and
 *           saves the latter. */
#ifndef GONDZSELU_H
#define GONDZSELU_H

#include <stddef.h>
#include <stdint.h>

#ifdef __cplusplus
extern "C" {
#endif

/* ---- version */

#define GONDZSELU_VERSION_MAJOR 0
#define GONDZSELU_VERSION_MINOR 11
#define GONDZSELU_VERSION_PATCH 0
#define GONDZSELU_VERSION \
    (GONDZSELU_VERSION_MAJOR * 1000000 + GONDZSELU_VERSION_MINOR * 1000 + GONDZSELU_VERSION_PATCH)

/* The library's version, to be compared with GONDZSELU_VERSION: the header may be of another. */
uint32_t gondzselu_version(void);

/* ---- limits (RULES 1.3, 3.2, 4.1, 7.5, 7.8, 11.1, 14.6) */

#define GONDZSELU_CARDS_MAX 8
#define GONDZSELU_REGISTERS_MAX 32
#define GONDZSELU_TASKS_MAX 16
#define GONDZSELU_STEPS_MAX 4096     /* of a run file; calls have no such limit */
#define GONDZSELU_REQUESTS_MAX 65535 /* of a store, from its start on */
#define GONDZSELU_BEHIND_MAX 24      /* broadcasts made that a card has yet to take */
#define GONDZSELU_FILE_MAX 36949     /* bytes of the longest run file */
#define GONDZSELU_ANSWER_MAX 20482   /* bytes of the longest answer file */
#define GONDZSELU_SENTENCE_MAX 55    /* bytes of the longest sentence; no zero byte ends it */
#define GONDZSELU_REGISTERS_WORDS 593
#define GONDZSELU_CHANNEL_WORDS 1284

/* Bytes of stack that a call uses at most: gondzselu_answer and gondzselu_answer_counted, which
 * have a store of their own there; and any other call. Measured by firmware/c/stack.c and rounded
 * up, not proved. */
#define GONDZSELU_STACK_ANSWER 10240
#define GONDZSELU_STACK_CALL 1024

/* ---- types */

typedef struct gondzselu_registers {
    uint32_t words[GONDZSELU_REGISTERS_WORDS];
} gondzselu_registers;

typedef struct gondzselu_channel {
    uint32_t words[GONDZSELU_CHANNEL_WORDS];
} gondzselu_channel;

/* Both memories of a store in one place. The calls take them one by one. */
typedef struct gondzselu_store {
    gondzselu_registers registers;
    gondzselu_channel channel;
} gondzselu_store;

/* Steps taken, with result 0, or 100 where step 8's message is held, and steps refused; 0 and 0 at
 * first. A count stays at its largest value (RULES 9). */
typedef struct gondzselu_tally {
    uint32_t taken;
    uint32_t refused;
} gondzselu_tally;

/* The ten steps (RULES 5). */
enum gondzselu_code {
    GONDZSELU_REQUEST_READ = 1,
    GONDZSELU_REQUEST_UPDATE = 2,
    GONDZSELU_PERFORM = 3,
    GONDZSELU_SEND_READ = 4,
    GONDZSELU_SEND_UPDATE = 5,
    GONDZSELU_DISPATCH = 6,
    GONDZSELU_TAKE_BROADCAST = 7,
    GONDZSELU_TAKE_SINGLE = 8,
    GONDZSELU_DELIVER = 9,
    GONDZSELU_REPORT = 10
};

/* What an update makes of a value and its operand (RULES 2). */
enum gondzselu_function {
    GONDZSELU_SET = 1,                  /* the operand */
    GONDZSELU_ADD_STAYS_AT_THE_TOP = 2, /* the sum, or 4,294,967,295 where that is smaller */
    GONDZSELU_LARGER = 3,               /* the larger, unsigned */
    GONDZSELU_OR = 4,                   /* the bitwise or */
    GONDZSELU_ADD_COMES_ROUND = 5       /* the sum modulo 4,294,967,296 */
};

/* What a task is doing (RULES 1.8). */
enum gondzselu_condition {
    GONDZSELU_QUIET = 0,
    GONDZSELU_ASKING_READ = 1,
    GONDZSELU_ASKING_UPDATE = 2,
    GONDZSELU_WAITING = 3,
    GONDZSELU_DONE_READ = 4,  /* with the value read */
    GONDZSELU_DONE_UPDATE = 5 /* with the value found: the copy's, just before the update */
};

/* What the calls give (RULES 8.2). A refusal changes nothing that is lent; but the value of a step,
 * the length of a sentence or of a written file and the total of a log are then 0, and a tally
 * counts the step. */
enum gondzselu_refusal {
    GONDZSELU_TAKEN = 0, /* no refusal: the step is taken; file, placement or log is accepted */
    GONDZSELU_HELD = 100, /* no refusal: step 8 is taken, and its message is held (RULES 5.8) */
    /* of a file, a placement or a log */
    GONDZSELU_FILE_TOO_SHORT = 1,
    GONDZSELU_FILE_TOO_LONG = 2,
    GONDZSELU_SIZE_OUT_OF_RANGE = 3, /* or tables, or the lists of a log, of unequal length */
    GONDZSELU_MISPLACED = 4, /* no copy, a copy or home on an absent card, a bad primary */
    /* of lent memory */
    GONDZSELU_OUTPUT_TOO_SHORT = 5,
    GONDZSELU_ILL_SIZED = 6, /* something else wrote the memories (RULES 8.9) */
    /* of a step's bytes */
    GONDZSELU_NO_SUCH_CODE = 10,
    GONDZSELU_BYTE_NOT_ZERO = 11, /* one that the code does not name */
    GONDZSELU_NO_SUCH_TASK = 12,
    GONDZSELU_NO_SUCH_REGISTER = 13,
    GONDZSELU_NO_SUCH_CARD = 14, /* of a log: a card number above 7 */
    GONDZSELU_NO_SUCH_FUNCTION = 15,
    /* of a task */
    GONDZSELU_NOT_QUIET = 20,
    GONDZSELU_WRONG_CONDITION = 21,  /* it does not ask for this; to report: it is not done */
    GONDZSELU_COPIES_OTHERWISE = 22, /* for this step the copies would have to lie otherwise */
    GONDZSELU_NO_REQUEST_LEFT = 23,
    /* of the next move */
    GONDZSELU_OUTBOX_EMPTY = 30,
    GONDZSELU_NO_BROADCAST = 31,
    GONDZSELU_NOT_IN_FLIGHT = 32,
    GONDZSELU_INBOX_EMPTY = 33,
    GONDZSELU_TOO_FAR_BEHIND = 34, /* some card is 24 broadcasts behind: it takes one first */
    GONDZSELU_INBOX_FULL = 35,     /* 32 undelivered broadcasts: the card delivers first */
    /* of a sentence */
    GONDZSELU_NO_PHRASE = 36 /* the number is no refusal of a step */
};

/* Whether a step with this result is taken: 1 for 0 and 100, else 0. Comparing a result with 0
 * alone would call a step refused whose message is held. */
static inline int gondzselu_taken(uint8_t result) {
    return result == GONDZSELU_TAKEN || result == GONDZSELU_HELD;
}

/* ---- a whole run */

/* Answers a run file (RULES 3) into an output of at least 2 + 5 * steps bytes (RULES 4): there the
 * result of a step is 0, or 100 where step 8's message is held, or its refusal. Gives 0, or 1 to 5
 * with the output as it was. Bytes past the answer stay as they were. */
uint8_t gondzselu_answer(const uint8_t *file, size_t file_length,
                         uint8_t *output, size_t output_length);

/* The same, and counts the run's steps in the tally. A refusal, 1 to 5, leaves it alone. */
uint8_t gondzselu_answer_counted(const uint8_t *file, size_t file_length,
                                 uint8_t *output, size_t output_length, gondzselu_tally *tally);

/* ---- a store */

/* Begins a store (RULES 10) on so many cards: the home card of each task; for each register the
 * set of cards that hold a copy (bit i for card i) and its primary card. The lengths are the number
 * of tasks and, twice, of registers. Sets every word of both memories. Gives 0, or 3 or 4 with both
 * as they were. */
uint8_t gondzselu_start(gondzselu_registers *registers, gondzselu_channel *channel,
                        uint32_t cards, const uint8_t *homes, size_t homes_length,
                        const uint8_t *copies, size_t copies_length,
                        const uint8_t *primaries, size_t primaries_length);

/* The same from the placement in a run file, whose steps are not taken. Gives 0, or 1 to 4 with
 * both memories as they were. */
uint8_t gondzselu_start_file(gondzselu_registers *registers, gondzselu_channel *channel,
                             const uint8_t *file, size_t file_length);

/* Takes a step: its code and its eight argument bytes (RULES 3.3), which gondzselu_fill_..
 * writes. First checks the whole state. Gives 0, or 100 where step 8's message is held; or 6 to 35
 * in the order of RULES 8.5 with both memories as they were. gondzselu_taken says which it is.
 * Writes the value in every case: at a taken report the value that was read, or that the update
 * found; else 0. So a counter hands out numbers: tasks that add 1 to a register, on whichever cards
 * they are, are told 0, 1, 2 and so on, none of them twice before the top (RULES 5.15). */
uint8_t gondzselu_step(gondzselu_registers *registers, gondzselu_channel *channel,
                       uint8_t code, const uint8_t argument[8], uint32_t *value);

/* The same, and counts its result in the tally: 0, or 100 where step 8's message is held, as taken;
 * every refusal, 6 too, as refused (RULES 9.3). */
uint8_t gondzselu_step_counted(gondzselu_registers *registers, gondzselu_channel *channel,
                               uint8_t code, const uint8_t argument[8], uint32_t *value,
                               gondzselu_tally *tally);

/* gondzselu_step without its check of the state, which in a large store is nearly all of its time:
 * some 20 ns instead of 0.15 microseconds. For a store that only this library has written since its
 * start: on every well-sized state (RULES 8.6) it does what gondzselu_step does and gives 0, or 100
 * where step 8's message is held, or 6 to 35. On other words it ends and stays inside what it is
 * lent; what it gives and writes then means nothing. */
uint8_t gondzselu_advance(gondzselu_registers *registers, gondzselu_channel *channel,
                          uint8_t code, const uint8_t argument[8], uint32_t *value);

/* ---- a step's bytes */

/* Writes all eight bytes; the operand low byte first. A number above 255 is written as 255, which
 * is absent everywhere, so that none wraps into a present one: the step is refused. */
static inline void gondzselu_fill_bytes(uint8_t argument[8], uint32_t byte0, uint32_t byte1,
                                        uint32_t byte2, uint32_t operand) {
    argument[0] = byte0 > 255 ? 255 : byte0 & 255;
    argument[1] = byte1 > 255 ? 255 : byte1 & 255;
    argument[2] = byte2 > 255 ? 255 : byte2 & 255;
    argument[3] = 0;
    for (int k = 4; k < 8; k++, operand >>= 8) argument[k] = operand & 255;
}

/* One for each step: writes its argument and gives its code, so that a step may be
 * gondzselu_step(&s.registers, &s.channel, gondzselu_fill_report(argument, task), argument, &v) */
static inline uint8_t gondzselu_fill_request_read(uint8_t argument[8], uint32_t task,
                                                  uint32_t register_number) {
    gondzselu_fill_bytes(argument, task, register_number, 0, 0);
    return GONDZSELU_REQUEST_READ;
}

/* The function is one of enum gondzselu_function. */
static inline uint8_t gondzselu_fill_request_update(uint8_t argument[8], uint32_t task,
                                                    uint32_t register_number,
                                                    uint32_t function, uint32_t operand) {
    gondzselu_fill_bytes(argument, task, register_number, function, operand);
    return GONDZSELU_REQUEST_UPDATE;
}

static inline uint8_t gondzselu_fill_perform(uint8_t argument[8], uint32_t task) {
    gondzselu_fill_bytes(argument, task, 0, 0, 0);
    return GONDZSELU_PERFORM;
}

static inline uint8_t gondzselu_fill_send_read(uint8_t argument[8], uint32_t task,
                                               uint32_t chosen_card) {
    gondzselu_fill_bytes(argument, task, chosen_card, 0, 0);
    return GONDZSELU_SEND_READ;
}

static inline uint8_t gondzselu_fill_send_update(uint8_t argument[8], uint32_t task) {
    gondzselu_fill_bytes(argument, task, 0, 0, 0);
    return GONDZSELU_SEND_UPDATE;
}

static inline uint8_t gondzselu_fill_dispatch(uint8_t argument[8], uint32_t card) {
    gondzselu_fill_bytes(argument, card, 0, 0, 0);
    return GONDZSELU_DISPATCH;
}

static inline uint8_t gondzselu_fill_take_broadcast(uint8_t argument[8], uint32_t card) {
    gondzselu_fill_bytes(argument, card, 0, 0, 0);
    return GONDZSELU_TAKE_BROADCAST;
}

/* The task whose message is in flight: the card that it goes to takes it (RULES 5.8). */
static inline uint8_t gondzselu_fill_take_single(uint8_t argument[8], uint32_t task) {
    gondzselu_fill_bytes(argument, task, 0, 0, 0);
    return GONDZSELU_TAKE_SINGLE;
}

static inline uint8_t gondzselu_fill_deliver(uint8_t argument[8], uint32_t card) {
    gondzselu_fill_bytes(argument, card, 0, 0, 0);
    return GONDZSELU_DELIVER;
}

static inline uint8_t gondzselu_fill_report(uint8_t argument[8], uint32_t task) {
    gondzselu_fill_bytes(argument, task, 0, 0, 0);
    return GONDZSELU_REPORT;
}

/* ---- writing a run file */

/* Writes the run file (RULES 15) of a placement, as gondzselu_start takes it, and of steps: their
 * codes, and their arguments one after another, so that arguments_length is 8 * codes_length. Steps
 * are carried as they are, right or wrong: the run judges them (RULES 3.4). GONDZSELU_FILE_MAX
 * bytes of output are always enough, and gondzselu_answer accepts every file that is written. Gives
 * 0; or 3 for a size out of range or tables of unequal length, then 4 for the placement, then 5 for
 * an output shorter than the file, with the output as it was. Bytes past the file stay as they
 * were. Writes the length in every case: of the file, or 0. */
uint8_t gondzselu_write(uint32_t cards, const uint8_t *homes, size_t homes_length,
                        const uint8_t *copies, size_t copies_length,
                        const uint8_t *primaries, size_t primaries_length,
                        const uint8_t *codes, size_t codes_length,
                        const uint8_t *arguments, size_t arguments_length,
                        uint8_t *output, size_t output_length, uint32_t *length);

/* Writes the load (RULES 17) of a seed: the run file of a placement, as gondzselu_start takes it,
 * and of so many steps, drawn one after the other from the seed. Whoever draws it gets the same
 * bytes. No step of it has a wrong code or argument, so none is refused with 10 to 15; other
 * refusals come often. GONDZSELU_FILE_MAX bytes of output are always enough, and gondzselu_answer
 * accepts every load. Gives 0; or 3 for a size out of range, the number of steps too, or copies and
 * primaries of unequal length, then 4 for the placement, then 5 for an output shorter than the
 * file, with the output as it was. Bytes past the file stay as they were. Writes the length in
 * every case: of the file, or 0. */
uint8_t gondzselu_load(uint32_t seed, uint32_t cards, const uint8_t *homes, size_t homes_length,
                       const uint8_t *copies, size_t copies_length,
                       const uint8_t *primaries, size_t primaries_length, uint32_t steps,
                       uint8_t *output, size_t output_length, uint32_t *length);

/* ---- a refusal in words */

/* Writes a sentence (RULES 14) of a step, by its place from 0 on, and its refusal: of 12 and 33
 * "step 12: the card has nothing to deliver". GONDZSELU_SENTENCE_MAX bytes are always enough, and
 * printf takes them by "%.*s". Gives 0; or 36 for a number that no step is refused with, 0 and 100
 * too, then 5 for an output shorter than the sentence, with the output as it was. Bytes past the
 * sentence stay as they were. Writes the length in every case: of the sentence, or 0. */
uint8_t gondzselu_sentence(uint32_t step, uint8_t refusal,
                           uint8_t *output, size_t output_length, uint32_t *length);

/* ---- totals by card */

/* Adds up a log of a register (RULES 16), modulo 4,294,967,296: two lists over updates of it by
 * function 5, the home card of each one's task and each one's operand. Any two lists may be handed
 * in, of any length. If the register's primary has applied these updates and no others, the total
 * is the value of its copy (RULES 16.7). Gives 0; or 3 for lists of unequal length, then 14 for a
 * card number above 7, whatever number of cards a store has. Writes the total in every case: the
 * sum, which is 0 for empty lists; 0 with a refusal. */
uint8_t gondzselu_total(const uint8_t *cards, size_t cards_length,
                        const uint32_t *operands, size_t operands_length, uint32_t *total);

/* The same, added up card by card, then over the eight cards. For every two lists both give the
 * same number and write the same total (RULES 16.5). */
uint8_t gondzselu_total_by_card(const uint8_t *cards, size_t cards_length,
                                const uint32_t *operands, size_t operands_length,
                                uint32_t *total);

/* ---- what a panel reads: these check nothing and refuse nothing, and write nothing but the words
 * that gondzselu_copies is lent (RULES 11.7). What is read with no step between is one moment. */

/* The value of a card's copy of a register; 0 for an absent card or register, and, in a store that
 * only this library wrote, for a card without a copy. */
uint32_t gondzselu_copy(const gondzselu_registers *registers, const gondzselu_channel *channel,
                        uint32_t card, uint32_t register_number);

/* The copies of a register on all cards at once, by card; they lie side by side (RULES 11.8). The
 * value of the card's copy; 0 for an absent card, for a card without a copy, in every store, and
 * for every card if the register is absent. Writes all eight words in every case. */
void gondzselu_copies(const gondzselu_registers *registers, const gondzselu_channel *channel,
                      uint32_t register_number, uint32_t copies[GONDZSELU_CARDS_MAX]);

/* What a task is doing, as enum gondzselu_condition; an absent task is quiet. */
uint32_t gondzselu_task(const gondzselu_registers *registers, const gondzselu_channel *channel,
                        uint32_t task);

/* The value read in GONDZSELU_DONE_READ, the value found in GONDZSELU_DONE_UPDATE, the operand in
 * GONDZSELU_ASKING_UPDATE, else 0. */
uint32_t gondzselu_task_value(const gondzselu_registers *registers,
                              const gondzselu_channel *channel, uint32_t task);

/* Broadcasts made, and those that a card has taken (0 for an absent card). */
uint32_t gondzselu_broadcasts(const gondzselu_channel *channel);
uint32_t gondzselu_broadcasts_taken(const gondzselu_channel *channel, uint32_t card);

/* Requests taken; with GONDZSELU_REQUESTS_MAX of them the next one is refused with 23. */
uint32_t gondzselu_requests(const gondzselu_registers *registers);

/* The words of the memories, to be compared with those above. */
size_t gondzselu_registers_words(void);
size_t gondzselu_channel_words(void);

#ifdef __cplusplus
}
#endif

#endif

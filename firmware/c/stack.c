/* The stack that the library's calls use, measured: they work on one filled with a pattern, through
 * 4,096 mixed steps, and where the pattern is gone it was used. Prints bytes, what the measuring
 * itself uses (less than 100) among them; ends with 1 where they are more than the header says. */
#define _XOPEN_SOURCE 700
#include <stdio.h>
#include <stdlib.h>
#include <ucontext.h>
#include "gondzselu.h"

enum { STEPS = GONDZSELU_STEPS_MAX, CODES = 5 + 16 + 2 * 32, PATTERN = 0xA5 };
static uint8_t f[GONDZSELU_FILE_MAX] = {8, 32, 16, STEPS % 256, STEPS / 256}; /* a run file */
static uint8_t out[GONDZSELU_FILE_MAX], stack[2 * GONDZSELU_STACK_ANSWER];
static gondzselu_registers r;
static gondzselu_channel c;
static gondzselu_tally tally;
static uint32_t v, bad, by_card[GONDZSELU_CARDS_MAX];

/* For each code the bits of its argument: tasks below 16, registers below 32, cards below 8. */
static const uint8_t bits[11][8] = {{0}, {15, 31}, {15, 31, 3, 0, 255, 255, 255, 255}, {15},
                                    {15, 7}, {15}, {7}, {7}, {15}, {7}, {15}};
static void fill(void) {
    uint8_t *code = f + CODES, *argument = code + STEPS;
    for (unsigned k = 0; k < 32; k++) f[5 + k % 16] = f[53 + k] = k % 8;
    for (unsigned k = 0; k < 32; k++) f[21 + k] = k % 2 ? 255 : (uint8_t)(1 << k % 8);
    for (int k = 0; k < STEPS; k++) code[k] = (uint8_t)(1 + rand() % 10);
    for (int k = 0; k < 8 * STEPS; k++) argument[k] = (uint8_t)rand() & bits[code[k / 8]][k % 8];
}

#define EACH for (uint8_t *k = f + CODES, *a = k + STEPS; a < f + sizeof f; k++, a += 8)
static void answer(void) { bad += gondzselu_answer_counted(f, sizeof f, out, sizeof out, &tally); }
static void start(void) { bad += gondzselu_start(&r, &c, 8, f + 5, 16, f + 21, 32, f + 53, 32); }
static void start_file(void) { bad += gondzselu_start_file(&r, &c, f, sizeof f); }
static void step(void) { EACH gondzselu_step_counted(&r, &c, *k, a, &v, &tally); }
static void advance(void) { EACH gondzselu_advance(&r, &c, *k, a, &v); }
static void sentence(void) {
    for (int k = 0; k < 256; k++) gondzselu_sentence(UINT32_MAX, (uint8_t)k, out, sizeof out, &v);
    bad += gondzselu_sentence(UINT32_MAX, GONDZSELU_INBOX_FULL, out, GONDZSELU_SENTENCE_MAX, &v);
}
static void write_file(void) {
    const uint8_t *codes = f + CODES;
    bad += gondzselu_write(8, f + 5, 16, f + 21, 32, f + 53, 32, codes, STEPS, codes + STEPS,
                           8 * STEPS, out, sizeof out, &v);
}
static void load(void) {
    bad += gondzselu_load(2026, 8, f + 5, 16, f + 21, 32, f + 53, 32, STEPS, out, sizeof out, &v);
}
static void totals(void) {
    bad += gondzselu_total(f + 53, 32, c.words, 32, &v);
    bad += gondzselu_total_by_card(f + 53, 32, c.words, 32, &v);
}
static void copies(void) { gondzselu_copies(&r, &c, 1, by_card); }
static void panel(void) { v = gondzselu_copy(&r, &c, 1, 1) + gondzselu_task_value(&r, &c, 1); }

static int above(const char *name, void (*call)(void), size_t limit) {
    static ucontext_t outside, inside;
    start();
    for (size_t k = 0; k < sizeof stack; k++) stack[k] = PATTERN;
    getcontext(&inside);
    inside.uc_stack = (stack_t){.ss_sp = stack, .ss_size = sizeof stack};
    inside.uc_link = &outside;
    makecontext(&inside, call, 0);
    swapcontext(&outside, &inside);
    const uint8_t *used = stack;
    while (used < stack + sizeof stack && *used == PATTERN) used++;
    printf("%s %td of %zu\n", name, stack + sizeof stack - used, limit);
    return stack + sizeof stack - used > (ptrdiff_t)limit;
}

int main(void) {
    fill();
    int over = above("answer", answer, GONDZSELU_STACK_ANSWER);
    void (*const calls[])(void) = {start,      start_file, step,   advance, sentence,
                                   write_file, load,       totals, copies,  panel};
    static const char *const names[] = {"start", "start_file", "step",   "advance", "sentence",
                                        "write", "load",       "totals", "copies",  "panel"};
    for (int k = 0; k < 10; k++) over += above(names[k], calls[k], GONDZSELU_STACK_CALL);
    return over > 0 || bad > 0 || tally.taken < 500; /* a refused file would measure nothing */
}

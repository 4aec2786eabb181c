/*
 * A counter hands out numbers (RULES 5.15): an update is told the value that it found, so tasks
 * that add 1 to one register have different numbers. Cards 0 and 1 hold a copy; card 2 holds none,
 * and its task is told by a reply of the primary, card 0. In each round all tasks send before a
 * message moves; then the cards take turns, another one first, and the order of their broadcasts is
 * that of the numbers. Ends with 1 if a call does otherwise or a write failed.
 */
#include <stdio.h>
#include "gondzselu.h"

enum { CARDS = 3, TASKS = 3, ROUNDS = 3, NUMBERS = TASKS * ROUNDS };
static const uint8_t homes[TASKS] = {0, 1, 2}, copies[] = {0x03}, primaries[] = {0};
static gondzselu_store s;
static uint8_t a[8]; /* the argument of the next step */
static uint32_t value, wrong;
static int fail(const char *why) { return fprintf(stderr, "tickets: %s\n", why), 1; }

/* Whether the step is taken; if it is not, its refusal must be the one that says why: nothing is
 * there to be moved. */
static int taken(uint8_t code, uint8_t nothing) {
    uint8_t result = gondzselu_step(&s.registers, &s.channel, code, a, &value);
    wrong += !gondzselu_taken(result) && result != nothing;
    return gondzselu_taken(result);
}

/* The cards take turns, from this one on, until nothing moves. */
static void settle(uint32_t first) {
    for (int moved = 1; moved > 0;) {
        moved = 0;
        for (uint32_t k = 0; k < CARDS; k++) {
            const uint32_t card = (first + k) % CARDS;
            moved += taken(gondzselu_fill_dispatch(a, card), GONDZSELU_OUTBOX_EMPTY);
            moved += taken(gondzselu_fill_take_broadcast(a, card), GONDZSELU_NO_BROADCAST);
            moved += taken(gondzselu_fill_deliver(a, card), GONDZSELU_INBOX_EMPTY);
        }
        for (uint32_t task = 0; task < TASKS; task++)
            moved += taken(gondzselu_fill_take_single(a, task), GONDZSELU_NOT_IN_FLIGHT);
    }
}

int main(void) {
    int handed[NUMBERS] = {0};
    uint32_t counts[GONDZSELU_CARDS_MAX]; /* the register's copies, by card */
    if (gondzselu_version() != GONDZSELU_VERSION) return fail("library and header differ");
    if (gondzselu_start(&s.registers, &s.channel, CARDS, homes, TASKS, copies, 1, primaries, 1))
        return fail("the placement is refused");
    for (uint32_t round = 0; round < ROUNDS; round++) {
        for (uint32_t task = 0; task < TASKS; task++) {
            const uint32_t add = GONDZSELU_ADD_COMES_ROUND;
            if (!taken(gondzselu_fill_request_update(a, task, 0, add, 1), GONDZSELU_TAKEN) ||
                !taken(gondzselu_fill_send_update(a, task), GONDZSELU_TAKEN))
                return fail("a task cannot ask");
        }
        settle(round);
        printf("round %u:", round);
        for (uint32_t task = 0; task < TASKS; task++) {
            const uint32_t doing = gondzselu_task(&s.registers, &s.channel, task);
            const uint32_t found = gondzselu_task_value(&s.registers, &s.channel, task);
            if (wrong || doing != GONDZSELU_DONE_UPDATE) return fail("an update is not done");
            if (!taken(gondzselu_fill_report(a, task), GONDZSELU_TAKEN) || value != found)
                return fail("a report is refused, or of another value");
            if (value >= NUMBERS || handed[value]++) return fail("a number too large, or twice");
            printf(" task %u has number %u%s", task, value, task + 1 < TASKS ? "," : "\n");
        }
    }
    gondzselu_copies(&s.registers, &s.channel, 0, counts);
    for (uint32_t card = 0; card < CARDS; card++) {
        const int holds = copies[0] >> card & 1; /* no call says it: the table does */
        if (holds) printf("card %u counts %u\n", card, counts[card]);
        if (counts[card] != (holds ? NUMBERS : 0)) return fail("a card counts otherwise");
    }
    return ferror(stdout) || fclose(stdout) ? fail("cannot write the output") : 0;
}

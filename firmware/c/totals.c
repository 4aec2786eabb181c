/*
 * A log of a register and its total (RULES 16): tasks on three cards add to it by function 5, and
 * the total of what its primary has applied is the value of the primary's copy. Cards 0 and 1 hold
 * a copy, and card 0 is the primary; card 2 holds none, and its task's updates are in the log too.
 * Who picks the steps knows which update the primary delivers: broadcasts are applied in the order
 * of their dispatch. Ends with 1 if a call does otherwise or a write failed.
 */
#include <stdio.h>
#include "gondzselu.h"

/* Task t lives on card t. */
enum { CARDS = 3, TASKS = CARDS, ROUNDS = 2, ENTRIES = TASKS * ROUNDS, PRIMARY = 0 };
static const uint8_t homes[TASKS] = {0, 1, 2}, copies[] = {0x03}, primaries[] = {PRIMARY};
static gondzselu_store s;
static uint8_t a[8]; /* the argument of the next step */
static uint32_t value, wrong;
/* An entry for each broadcast; the first so many are applied, and those are the log. */
static uint8_t cards[ENTRIES];
static uint32_t operands[ENTRIES], applied;
static uint32_t asked[TASKS]; /* the operand of each task's update */
static int fail(const char *why) { return fprintf(stderr, "totals: %s\n", why), 1; }

/* Whether the step is taken; if it is not, its refusal must be the one that says why: nothing is
 * there to be moved. */
static int taken(uint8_t code, uint8_t nothing) {
    uint8_t result = gondzselu_step(&s.registers, &s.channel, code, a, &value);
    wrong += !gondzselu_taken(result) && result != nothing;
    return gondzselu_taken(result);
}

/* Sends the card's next message: its task's update, if that makes a broadcast; or a reply. */
static int dispatch(uint32_t card) {
    const uint32_t made = gondzselu_broadcasts(&s.channel);
    const int moved = taken(gondzselu_fill_dispatch(a, card), GONDZSELU_OUTBOX_EMPTY);
    if (gondzselu_broadcasts(&s.channel) > made) {
        cards[made] = (uint8_t)card;
        operands[made] = asked[card];
    }
    return moved;
}

/* Delivers on the card. On the primary that is the next entry: it takes only broadcasts here. */
static int deliver(uint32_t card) {
    const int moved = taken(gondzselu_fill_deliver(a, card), GONDZSELU_INBOX_EMPTY);
    if (!moved || card != PRIMARY) return moved;
    const uint32_t k = applied++, copy = gondzselu_copy(&s.registers, &s.channel, PRIMARY, 0);
    uint32_t total = ~copy, by_card = ~copy; /* both are to be written */
    wrong += gondzselu_total(cards, applied, operands, applied, &total) > 0;
    wrong += gondzselu_total_by_card(cards, applied, operands, applied, &by_card) > 0;
    wrong += total != copy || by_card != copy;
    printf("card %u adds %u: total %u, by card %u, copy %u\n", cards[k], operands[k], total,
           by_card, copy);
    return moved;
}

/* The cards take turns, from this one on, until nothing moves. */
static void settle(uint32_t first) {
    for (int moved = 1; moved > 0;) {
        moved = 0;
        for (uint32_t k = 0; k < CARDS; k++) {
            const uint32_t card = (first + k) % CARDS;
            moved += dispatch(card);
            moved += taken(gondzselu_fill_take_broadcast(a, card), GONDZSELU_NO_BROADCAST);
            moved += deliver(card);
        }
        for (uint32_t task = 0; task < TASKS; task++)
            moved += taken(gondzselu_fill_take_single(a, task), GONDZSELU_NOT_IN_FLIGHT);
    }
}

int main(void) {
    if (gondzselu_version() != GONDZSELU_VERSION) return fail("library and header differ");
    if (gondzselu_start(&s.registers, &s.channel, CARDS, homes, TASKS, copies, 1, primaries, 1))
        return fail("the placement is refused");
    for (uint32_t round = 0; round < ROUNDS; round++) {
        for (uint32_t task = 0; task < TASKS; task++) {
            const uint32_t add = GONDZSELU_ADD_COMES_ROUND;
            asked[task] = 250000000 * (round + 1) * (task + 1); /* the last ones pass the top */
            const uint8_t request = gondzselu_fill_request_update(a, task, 0, add, asked[task]);
            if (!taken(request, GONDZSELU_TAKEN) ||
                !taken(gondzselu_fill_send_update(a, task), GONDZSELU_TAKEN))
                return fail("a task cannot ask");
        }
        settle(round);
        for (uint32_t task = 0; task < TASKS; task++)
            if (!taken(gondzselu_fill_report(a, task), GONDZSELU_TAKEN))
                return fail("an update is not done");
    }
    if (wrong || applied != ENTRIES) return fail("a step, or a total that is not the copy's value");
    uint32_t total = 1, by_card = 1;
    const uint8_t plain = gondzselu_total(cards, ENTRIES, operands, ENTRIES - 1, &total);
    const uint8_t other = gondzselu_total_by_card(cards, ENTRIES, operands, ENTRIES - 1, &by_card);
    if (plain != other || total || by_card) return fail("refused otherwise, or with a total");
    printf("%u cards and %u operands: refused with %u\n", ENTRIES, ENTRIES - 1, plain);
    return ferror(stdout) || fclose(stdout) ? fail("cannot write the output") : 0;
}

/* K9 step by step (RULES 3.5, 12.11, 13). Task 0 read 7 before it sent 9, so no card may show the
 * 9 without the 7. The 9 reaches card 1 first and is held until broadcast 1, the 7, has come. */
#include "gondzselu.h"
#include <stdio.h>
enum { CARDS = 3, REGISTERS = 2, TASKS = 3, STEPS = 16 };
/* Register 0 is copied on cards 0, 1, 2, register 1 on card 1 only (bit i: card i). */
static const uint8_t homes[] = {0, 1, 2}, copies[] = {0x07, 0x02}, primaries[] = {0, 1};
static const char *const doing[] = {
    [GONDZSELU_QUIET] = "quiet", [GONDZSELU_ASKING_READ] = "asking to read",
    [GONDZSELU_ASKING_UPDATE] = "asking to update", [GONDZSELU_WAITING] = "waiting",
    [GONDZSELU_DONE_READ] = "done with a read", [GONDZSELU_DONE_UPDATE] = "done with an update"};
static gondzselu_registers r; /* The store: 7,508 bytes in two memories, much for a small stack. */
static gondzselu_channel c;
static int fail(const char *why) { return fprintf(stderr, "k9: %s\n", why), 1; }

int main(void) {
    gondzselu_tally tally = {0, 0};
    uint8_t a[STEPS][8]; /* the argument of each step, filled while the table is made */
    const struct { const char *words; uint8_t code; } steps[STEPS] = {
        {"task 2 requests to set register 0 to 7",
            gondzselu_fill_request_update(a[0], 2, 0, GONDZSELU_SET, 7)},
        {"task 2 sends its update", gondzselu_fill_send_update(a[1], 2)}, /* to three holders: */
        {"card 2 dispatches it, as broadcast 1", gondzselu_fill_dispatch(a[2], 2)},
        {"card 0 takes broadcast 1", gondzselu_fill_take_broadcast(a[3], 0)},
        {"card 0 delivers the 7", gondzselu_fill_deliver(a[4], 0)}, /* so task 0 can read it */
        {"task 0 requests to read register 0", gondzselu_fill_request_read(a[5], 0, 0)},
        {"task 0 performs its read", gondzselu_fill_perform(a[6], 0)},
        {"task 0 reports", gondzselu_fill_report(a[7], 0)},
        /* To one holder goes a single message, tagged 1 since card 0 has taken broadcast 1. */
        {"task 0 requests to set register 1 to 9",
            gondzselu_fill_request_update(a[8], 0, 1, GONDZSELU_SET, 9)},
        {"task 0 sends its update", gondzselu_fill_send_update(a[9], 0)},
        {"card 0 dispatches it, with tag 1", gondzselu_fill_dispatch(a[10], 0)},
        {"card 1 takes task 0's message", gondzselu_fill_take_single(a[11], 0)}, /* held: 1 > 0 */
        {"card 1 delivers", gondzselu_fill_deliver(a[12], 1)}, /* the 9 is held, the inbox empty */
        {"card 1 takes broadcast 1", gondzselu_fill_take_broadcast(a[13], 1)}, /* frees the 9 */
        {"card 1 delivers the 7", gondzselu_fill_deliver(a[14], 1)},
        {"card 1 delivers the 9", gondzselu_fill_deliver(a[15], 1)}};
    if (gondzselu_version() != GONDZSELU_VERSION) return fail("library and header differ");
    if (gondzselu_start(&r, &c, CARDS, homes, TASKS, copies, REGISTERS, primaries, REGISTERS))
        return fail("the placement is refused");
    for (int i = 0; i < STEPS; i++, putchar('\n')) {
        uint32_t value; /* of a report: what was read, or what an update found; else 0 */
        uint8_t n = gondzselu_step_counted(&r, &c, steps[i].code, a[i], &value, &tally);
        const char *said = n == GONDZSELU_HELD ? "held" : gondzselu_taken(n) ? "taken" : "refused";
        printf("%2d  %-39s%3d %s", i, steps[i].words, n, said);
        if (steps[i].code == GONDZSELU_REPORT && gondzselu_taken(n)) printf(", value %u", value);
    }
    printf("requests %u, broadcasts %u\n", gondzselu_requests(&r), gondzselu_broadcasts(&c));
    for (unsigned i = 0; i < CARDS; i++, putchar('\n')) {
        printf("card %u: broadcasts taken %u", i, gondzselu_broadcasts_taken(&c, i));
        for (unsigned x = 0; x < REGISTERS; x++) /* no call says who holds a copy: the table does */
            if (copies[x] >> i & 1) printf(", register %u is %u", x, gondzselu_copy(&r, &c, i, x));
    }
    for (unsigned t = 0; t < TASKS; t++)
        printf("task %u: %s\n", t, doing[gondzselu_task(&r, &c, t)]);
    printf("steps: %u taken, %u refused\n", tally.taken, tally.refused);
    return ferror(stdout) || fclose(stdout) ? fail("cannot write the output") : 0;
}

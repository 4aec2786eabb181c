/*
 * Writes K9's run file (RULES 3.5) as a panel does, from the tables that it keeps, and answers it.
 * Then tries what is refused, which must leave the output as it was and give the length 0. Ends
 * with 1 if a call does otherwise or a write failed, with 2 if called wrongly. C11 and C++.
 *
 *   target/write FILE
 */
#include <stdio.h>
#include <string.h>
#include "gondzselu.h"

enum { CARDS = 3, REGISTERS = 2, TASKS = 3, STEPS = 16, BEFORE = 0xEE };
/* Register 0 is copied on cards 0, 1, 2, register 1 on card 1 only (bit i: card i). */
static const uint8_t homes[TASKS] = {0, 1, 2}, primaries[REGISTERS] = {0, 1};
static uint8_t copies[REGISTERS] = {0x07, 0x02}, codes[STEPS], arguments[8 * STEPS];
static uint8_t file[GONDZSELU_FILE_MAX], whole[GONDZSELU_FILE_MAX], answer[GONDZSELU_ANSWER_MAX];
static uint32_t length;
static int fail(const char *why) { return fprintf(stderr, "write: %s\n", why), 1; }

static void fill(void) {
    uint8_t *c = codes, *a = arguments; /* where the next step's are */
    *c++ = gondzselu_fill_request_update(a, 2, 0, GONDZSELU_SET, 7);
    *c++ = gondzselu_fill_send_update(a += 8, 2);
    *c++ = gondzselu_fill_dispatch(a += 8, 2);
    *c++ = gondzselu_fill_take_broadcast(a += 8, 0);
    *c++ = gondzselu_fill_deliver(a += 8, 0);
    *c++ = gondzselu_fill_request_read(a += 8, 0, 0);
    *c++ = gondzselu_fill_perform(a += 8, 0);
    *c++ = gondzselu_fill_report(a += 8, 0);
    *c++ = gondzselu_fill_request_update(a += 8, 0, 1, GONDZSELU_SET, 9);
    *c++ = gondzselu_fill_send_update(a += 8, 0);
    *c++ = gondzselu_fill_dispatch(a += 8, 0);
    *c++ = gondzselu_fill_take_single(a += 8, 0);
    *c++ = gondzselu_fill_deliver(a += 8, 1);
    *c++ = gondzselu_fill_take_broadcast(a += 8, 1);
    *c++ = gondzselu_fill_deliver(a += 8, 1);
    *c++ = gondzselu_fill_deliver(a += 8, 1);
}

/* Writes the tables, with these numbers of cards, of primaries and of bytes of arguments, into so
 * much room. */
static uint8_t compose(uint32_t cards, size_t registers, size_t bytes, size_t room) {
    memset(file, BEFORE, sizeof file);
    length = sizeof file + 1; /* that of no file: it is to be written */
    return gondzselu_write(cards, homes, TASKS, copies, REGISTERS, primaries, registers,
                           codes, STEPS, arguments, bytes, file, room, &length);
}

/* Whether the length is this and the output has so much of the file, and else is as it was. */
static int holds(uint32_t bytes) {
    for (size_t k = bytes; k < sizeof file; k++)
        if (file[k] != BEFORE) return 0;
    return length == bytes && memcmp(file, whole, bytes) == 0;
}

/* Keeps the file. Gives 0, or 1 after a message. */
static int keep(const char *name) {
    FILE *f = fopen(name, "wb");
    if (f == NULL) return perror(name), 1;
    size_t kept = fwrite(file, 1, length, f);
    if (fclose(f) != 0 || kept != length) return perror(name), 1; /* a full disk may show late */
    return 0;
}

/* Says what was refused. Gives 0, or 1 after a message. */
static int refused(const char *what, uint8_t refusal) {
    if (refusal == GONDZSELU_TAKEN || !holds(0)) return fail(what);
    return printf("%s: refused with %u\n", what, refusal), 0;
}

int main(int argc, char **argv) {
    const size_t all = sizeof arguments, room = sizeof file;
    if (argc != 2) return fprintf(stderr, "usage: write FILE\n"), 2;
    if (gondzselu_version() != GONDZSELU_VERSION) return fail("library and header differ");
    fill();
    if (compose(CARDS, REGISTERS, all, room)) return fail("the tables are refused");
    memcpy(whole, file, sizeof whole);
    const uint32_t full = length;
    if (full > room || !holds(full)) return fail("no length, or a byte past the file");
    if (keep(argv[1])) return 1;
    printf("%u bytes for %u steps\n", full, STEPS);

    gondzselu_tally tally = {0, 0};
    if (gondzselu_answer_counted(file, full, answer, sizeof answer, &tally))
        return fail("the file is refused");
    printf("answered: %u taken, %u refused\n", tally.taken, tally.refused);

    for (size_t k = 0; k < full + 8; k++) {
        int fits = k >= full, result = compose(CARDS, REGISTERS, all, k);
        if (result != (fits ? GONDZSELU_TAKEN : GONDZSELU_OUTPUT_TOO_SHORT))
            return fail("0 or 5 wrongly");
        if (!holds(fits ? full : 0)) return fail("not the same file, or a byte past it");
    }
    int wrong = refused("an output of 155 bytes", compose(CARDS, REGISTERS, all, 155));
    wrong += refused("one primary for two registers", compose(CARDS, 1, all, room));
    wrong += refused("arguments of 15 steps for 16", compose(CARDS, REGISTERS, 8 * 15, room));
    wrong += refused("259 cards", compose(256 + CARDS, REGISTERS, all, room)); /* none wraps */
    copies[1] = 0; /* and no room: 3 comes before 4, and 4 before 5 */
    wrong += refused("no copy, and 7 bytes for a step", compose(CARDS, REGISTERS, all - 1, 0));
    wrong += refused("no copy", compose(CARDS, REGISTERS, all, 0));
    if (ferror(stdout) || fclose(stdout)) return fail("cannot write the output");
    return wrong > 0;
}

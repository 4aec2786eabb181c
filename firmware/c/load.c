/*
 * Draws the load of a seed (RULES 17) for the placement of K9 (RULES 3.5) and writes its bytes to
 * standard output: whoever knows the seed and the number of steps has the same file. Ends with 1
 * after a message if called wrongly, if the load is refused or if a write failed. C11 and C++.
 *
 *   target/load 2026 4096 > target/load.run
 */
#include <stdio.h>
#include <stdlib.h>
#include <string.h>
#include "gondzselu.h"

enum { CARDS = 3, REGISTERS = 2, TASKS = 3 };
/* Register 0 is copied on cards 0, 1, 2, register 1 on card 1 only (bit i: card i). */
static const uint8_t homes[TASKS] = {0, 1, 2};
static const uint8_t copies[REGISTERS] = {0x07, 0x02}, primaries[REGISTERS] = {0, 1};
static uint8_t file[GONDZSELU_FILE_MAX]; /* always enough */
static int fail(const char *why) { return fprintf(stderr, "load: %s\n", why), 1; }

/* Whether the text is a number of 32 bits in decimal, which is then there. */
static int reads(const char *text, uint32_t *number) {
    const size_t digits = strspn(text, "0123456789");
    const unsigned long long is = strtoull(text, NULL, 10); /* the largest where it is larger */
    *number = (uint32_t)is;
    return digits > 0 && text[digits] == '\0' && is <= UINT32_MAX;
}

int main(int argc, char **argv) {
    uint32_t seed, steps, length;
    if (argc != 3 || !reads(argv[1], &seed) || !reads(argv[2], &steps))
        return fprintf(stderr, "usage: load SEED (0 to 4294967295) STEPS (0 to 4096)\n"), 1;
    if (gondzselu_version() != GONDZSELU_VERSION) return fail("library and header differ");
    const uint8_t refusal = gondzselu_load(seed, CARDS, homes, TASKS, copies, REGISTERS, primaries,
                                           REGISTERS, steps, file, sizeof file, &length);
    if (refusal) return fprintf(stderr, "load: refused with %u\n", refusal), 1;
    const size_t written = fwrite(file, 1, length, stdout);
    /* a full disk may show late */
    return fclose(stdout) || written != length ? fail("cannot write the output") : 0;
}

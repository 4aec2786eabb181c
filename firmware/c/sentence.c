/*
 * The sentences of a step by its place (RULES 14): a line for each refusal that has one. On the way
 * all numbers from 0 to 255 are tried, each in every room from 0 bytes to more than enough. Ends
 * with 1 if a call gives or writes anything else or a write failed, with 2 if called wrongly.
 *
 *   target/sentence 12
 */
#include <stdio.h>
#include <stdlib.h>
#include <string.h>
#include "gondzselu.h"

enum { ROOM = GONDZSELU_SENTENCE_MAX + 5, BEFORE = 0xEE };
static uint8_t text[ROOM], whole[ROOM];
static int fail(const char *why) { return fprintf(stderr, "sentence: %s\n", why), 1; }

/* Asks for a sentence in so much room at the start of the text. */
static uint8_t ask(uint32_t step, uint8_t refusal, size_t room, uint32_t *length) {
    memset(text, BEFORE, sizeof text);
    *length = ROOM + 1; /* that of no sentence: it is to be written */
    return gondzselu_sentence(step, refusal, text, room, length);
}

/* Whether the text begins with so many bytes of the whole sentence and else is as it was. */
static int holds(uint32_t length) {
    for (uint32_t k = length; k < ROOM; k++)
        if (text[k] != BEFORE) return 0;
    return memcmp(text, whole, length) == 0;
}

int main(int argc, char **argv) {
    size_t digits = argc == 2 ? strspn(argv[1], "0123456789") : 0;
    unsigned long long number = digits > 0 && digits < 11 ? strtoull(argv[1], NULL, 10) : -1ULL;
    if (number > UINT32_MAX || argv[1][digits] != '\0')
        return fprintf(stderr, "usage: sentence STEP (0 to 4294967295)\n"), 2;
    if (gondzselu_version() != GONDZSELU_VERSION) return fail("library and header differ");
    uint32_t step = (uint32_t)number, length, full;
    for (int k = 0; k < 256; k++) {
        uint8_t refusal = (uint8_t)k, most = ask(step, refusal, GONDZSELU_SENTENCE_MAX, &full);
        if (most != 0 && most != GONDZSELU_NO_PHRASE) return fail("neither 0 nor 36");
        if (full > GONDZSELU_SENTENCE_MAX || (full > 0) != (most == 0)) return fail("no length");
        memcpy(whole, text, sizeof whole);
        for (size_t room = 0; room <= ROOM; room++) {
            uint8_t wanted = room < full ? GONDZSELU_OUTPUT_TOO_SHORT : most;
            if (ask(step, refusal, room, &length) != wanted) return fail("0, 5 or 36 wrongly");
            if (length != (wanted == 0 ? full : 0)) return fail("not the sentence's length, or 0");
            if (!holds(length)) return fail("not the same text, or a byte past it");
        }
        if (most == 0) printf("%d %.*s\n", k, (int)full, (const char *)whole);
    }
    return ferror(stdout) || fclose(stdout) ? fail("cannot write the output") : 0;
}

/*
 * Both totals of logs that no run need have kept (RULES 16.1 to 16.5): none and many entries, every
 * card number, unequal lists, sums that pass the top more than once. Each call is to write the
 * total, and nothing past it. Ends with 1 if one does otherwise. C11 and C++.
 */
#include <stdio.h>
#include <stdlib.h>
#include "gondzselu.h"

enum { FEW = 20, MANY = 70000, BEFORE = 0xEE };
static uint8_t cards[MANY];
static uint32_t operands[MANY];

typedef uint8_t call(const uint8_t *, size_t, const uint32_t *, size_t, uint32_t *);
static call *const calls[2] = {gondzselu_total, gondzselu_total_by_card};

/* Of so many cards and operands both give this refusal and write this total. */
static void expect(const char *what, size_t entries, size_t length, int refusal, uint32_t sum) {
    for (int k = 0; k < 2; k++) {
        uint32_t total[3] = {BEFORE, ~sum, BEFORE}; /* another one: it is to be written */
        const int given = calls[k](cards, entries, operands, length, &total[1]);
        const int elsewhere = total[0] != BEFORE || total[2] != BEFORE;
        if (given == refusal && total[1] == sum && !elsewhere) continue;
        fprintf(stderr, "logs: %s: %zu cards, %zu operands, by card %d: gives %d, total %u\n", what,
                entries, length, k, given, total[1]);
        exit(1);
    }
}

/* A log of cards from 0 to 7 and any operands, and its sum. */
static uint32_t fill(size_t entries) {
    uint32_t sum = 0;
    for (size_t k = 0; k < entries; k++) {
        cards[k] = (uint8_t)(rand() % GONDZSELU_CARDS_MAX);
        operands[k] = (uint32_t)rand() << 16 ^ (uint32_t)rand();
        sum += operands[k];
    }
    return sum;
}

int main(void) {
    cards[0] = cards[2] = 2; /* RULES 16.9 */
    operands[0] = UINT32_MAX, operands[1] = 3, operands[2] = 5;
    expect("the example", 3, 3, GONDZSELU_TAKEN, 7);
    expect("its first entries", 2, 2, GONDZSELU_TAKEN, 2);
    for (size_t entries = 0; entries < FEW; entries++) {
        const uint32_t sum = fill(entries);
        expect("a log", entries, entries, GONDZSELU_TAKEN, sum);
        for (size_t k = 0; k < entries; k++) { /* a wrong card at each place, and then unequal */
            const uint8_t card = cards[k];
            for (int number = 0; number < 256; number++) {
                const int absent = number > 7;
                cards[k] = (uint8_t)number;
                expect("a card number", entries, entries,
                       absent ? GONDZSELU_NO_SUCH_CARD : GONDZSELU_TAKEN, absent ? 0 : sum);
                expect("3 before 14", entries, entries - 1, GONDZSELU_SIZE_OUT_OF_RANGE, 0);
                expect("3 before 14", entries, entries + 1, GONDZSELU_SIZE_OUT_OF_RANGE, 0);
            }
            cards[k] = card;
        }
        for (size_t length = 0; length < FEW; length++)
            if (length != entries)
                expect("unequal lists", entries, length, GONDZSELU_SIZE_OUT_OF_RANGE, 0);
    }
    static const size_t many[] = {255, 256, 257, 4095, 4096, 65535, 65536, 65537, MANY};
    for (size_t k = 0; k < sizeof many / sizeof *many; k++) {
        const size_t last = many[k] - 1;
        const uint32_t sum = fill(many[k]);
        expect("a long log", many[k], many[k], GONDZSELU_TAKEN, sum);
        cards[last] = 8;
        expect("8 at the end", many[k], many[k], GONDZSELU_NO_SUCH_CARD, 0);
        expect("8 past the end", last, last, GONDZSELU_TAKEN, sum - operands[last]);
        expect("unequal long lists", many[k], last, GONDZSELU_SIZE_OUT_OF_RANGE, 0);
    }
    for (size_t apart = 256; apart <= 65536; apart *= 256) { /* no length is cut */
        expect("more cards", FEW + apart, FEW, GONDZSELU_SIZE_OUT_OF_RANGE, 0);
        expect("more operands", FEW, FEW + apart, GONDZSELU_SIZE_OUT_OF_RANGE, 0);
    }
    for (size_t k = 0; k < MANY; k++) cards[k] = k % 8, operands[k] = UINT32_MAX;
    expect("all at the top", MANY, MANY, GONDZSELU_TAKEN, 0 - (uint32_t)MANY);
    return 0;
}

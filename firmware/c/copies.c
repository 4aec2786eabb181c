/*
 * The copies of a register at once (RULES 11.7 to 11.9), from words written here where the rules
 * say that copies and sets of holders lie: stores of every number of cards, every set of holders,
 * registers that are there and that are not, sizes above their limits. Each call is to write all
 * eight words, and nothing else. Ends with 1 if one does otherwise. C11 and C++.
 */
#include <stdio.h>
#include <stdlib.h>
#include <string.h>
#include "gondzselu.h"

static const uint32_t most_cards = GONDZSELU_CARDS_MAX, most_registers = GONDZSELU_REGISTERS_MAX;
static gondzselu_store s, before;

/* A register's packed word, and a card's copy (RULES 11.12). */
static uint32_t *packed(uint32_t x) { return &s.registers.words[33 + x]; }
static uint32_t *copy(uint32_t i, uint32_t x) { return &s.registers.words[65 + 8 * x + i]; }

static void fail(const char *what, uint32_t x, uint32_t i, uint32_t is) {
    fprintf(stderr, "copies: %s: %u cards, %u registers, register %u, card %u: %u\n", what,
            s.channel.words[0], s.channel.words[2], x, i, is);
    exit(1);
}

/* Holders that are there have their copies' values, all other cards 0. */
static void expect(const char *what, uint32_t x, uint32_t holders) {
    uint32_t lent[1 + GONDZSELU_CARDS_MAX + 1], *const copies = lent + 1;
    memset(lent, 0xEE, sizeof lent);
    gondzselu_copies(&s.registers, &s.channel, x, copies);
    for (uint32_t i = 0; i < most_cards; i++) {
        const int there = i < s.channel.words[0] && (holders >> i & 1);
        if (copies[i] != (there ? *copy(i, x) : 0)) fail(what, x, i, copies[i]);
        if (there && gondzselu_copy(&s.registers, &s.channel, i, x) != copies[i])
            fail("gondzselu_copy gives another", x, i, copies[i]);
    }
    if (lent[0] != 0xEEEEEEEE || lent[1 + GONDZSELU_CARDS_MAX] != 0xEEEEEEEE)
        fail("a word beside the eight", x, 0, 0);
}

/* The registers from this one on are absent; so are numbers that would wrap into present ones. */
static void expect_none(uint32_t registers) {
    static const uint32_t absent[] = {32,  33,    63,        64,         255,       256,
                                      257, 65536, 0x8000000, 0x20000000, UINT32_MAX};
    for (uint32_t x = registers; x < most_registers; x++) expect("an absent register", x, 0);
    for (size_t k = 0; k < sizeof absent / sizeof *absent; k++)
        expect("an absent register", absent[k], 0);
    if (memcmp(&s, &before, sizeof s) != 0) fail("the store is written", 0, 0, 0);
}

/* A store of zeros; one as it starts; and the same with 9 in every word for a copy, also where no
 * copy lies. */
static void try_start(void) {
    static const uint8_t home = 2, held[2] = {0x07, 0x02}, primaries[2] = {0, 1};
    expect_none(0);
    if (gondzselu_start(&s.registers, &s.channel, 3, &home, 1, held, 2, primaries, 2))
        fail("the placement is refused", 0, 0, 0);
    for (uint32_t value = 0; value <= 9; value += 9) {
        for (uint32_t i = 0; i < most_cards; i++) *copy(i, 0) = *copy(i, 1) = value;
        before = s;
        for (uint32_t x = 0; x < 2; x++) expect("as it starts", x, held[x]);
        expect_none(2);
    }
}

/* Stores of such sizes, in which every word of a copy is another one. A set of holders may have
 * bits that are no card's. */
static void try_sizes(uint32_t cards, uint32_t registers) {
    const uint32_t most = registers < most_registers ? registers : most_registers;
    for (uint32_t k = 0; k < GONDZSELU_REGISTERS_WORDS; k++)
        s.registers.words[k] = 0x10000000 + 0x10001 * k;
    s.channel.words[0] = cards, s.channel.words[2] = registers;
    for (uint32_t set = 0; set < 256; set++) {
        for (uint32_t x = 0; x < most_registers; x++)
            *packed(x) = x % 8 + 8 * ((set + x) % 256) + (x % 2 ? 0xFFFFF800 : 0);
        before = s;
        for (uint32_t x = 0; x < most; x++) expect("by hand", x, (set + x) % 256);
        expect_none(most);
    }
}

int main(void) {
    static const uint32_t sizes[] = {0, 1, 2, 31, 32, 33, 256, UINT32_MAX};
    static const uint32_t above[] = {9, 32, 33, 256, 0x80000000, UINT32_MAX}; /* count as 8 */
    try_start();
    for (uint32_t cards = 0; cards <= most_cards; cards++)
        for (size_t k = 0; k < sizeof sizes / sizeof *sizes; k++) try_sizes(cards, sizes[k]);
    for (size_t k = 0; k < sizeof above / sizeof *above; k++) try_sizes(above[k], most_registers);
    return 0;
}

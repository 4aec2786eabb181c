/*
 * Loads (RULES 17) against ones drawn here: of placements with sizes at both ends and of many
 * seeds, in outputs that are long enough and not. Each one is answered, and no step of it is
 * refused with 10 to 15. Then what is refused, 3 before 4 before 5, which must leave the output as
 * it was and give the length 0. Ends with 1 if a call does otherwise. C11 and C++.
 */
#include <stdio.h>
#include <stdlib.h>
#include <string.h>
#include "gondzselu.h"

enum { ROOM = GONDZSELU_FILE_MAX + 8, LONG = 65536 + 64, BEFORE = 0xEE };
static uint8_t homes[LONG], copies[LONG], primaries[LONG];
static uint8_t output[ROOM], wanted[ROOM], answer[GONDZSELU_ANSWER_MAX];

/* What is asked for; the tables are so much of those above. */
static uint32_t seed, cards, steps;
static size_t tasks, registers, of_primaries;

/* Good tables: every other register is copied on all cards, the rest on one. */
static void place(uint32_t c, size_t t, size_t r) {
    cards = c, tasks = t, registers = of_primaries = r;
    for (size_t k = 0; k < LONG; k++) {
        homes[k] = primaries[k] = (uint8_t)(k % c);
        copies[k] = (uint8_t)(k % 2 ? (1 << c) - 1 : 1 << k % c);
    }
}

/* The next draw, modulo a number. */
static uint32_t draw(uint32_t *state, uint32_t modulo) {
    *state = 1664525 * *state + 1013904223;
    return *state / 65536 % modulo;
}

/* Puts what is wanted at the start of it, and gives its length. */
static uint32_t drawn(void) {
    const uint32_t t = (uint32_t)tasks, r = (uint32_t)registers;
    const uint32_t sizes[5] = {cards, r, t, steps & 255, steps / 256};
    uint32_t state = seed;
    uint8_t *codes = wanted + 5 + t + 2 * r, *argument = codes + steps;
    for (int k = 0; k < 5; k++) wanted[k] = (uint8_t)sizes[k];
    memcpy(wanted + 5, homes, t);
    memcpy(wanted + 5 + t, copies, r);
    memcpy(wanted + 5 + t + r, primaries, r);
    for (uint32_t k = 0; k < steps; k++, argument += 8) {
        const uint32_t code = 1 + draw(&state, 10);
        const int of_card = code == 6 || code == 7 || code == 9;
        const uint32_t first = draw(&state, of_card ? cards : t);
        const uint32_t second = code <= 2   ? draw(&state, r)
                                : code == 4 ? draw(&state, cards)
                                            : 0;
        const uint32_t function = code == 2 ? 1 + draw(&state, 5) : 0;
        const uint32_t operand = code == 2 ? draw(&state, 65536) : 0;
        codes[k] = (uint8_t)code;
        gondzselu_fill_bytes(argument, first, second, function, operand);
    }
    return (uint32_t)(argument - wanted);
}

static void fail(const char *what, size_t room, int given) {
    fprintf(stderr, "loads: %s: seed %u, %u cards, %zu tasks, %zu registers, %zu primaries,", what,
            seed, cards, tasks, registers, of_primaries);
    fprintf(stderr, " %u steps in %zu bytes: gives %d\n", steps, room, given);
    exit(1);
}

/* In so much room it gives this, with the load that is wanted, or with all as it was. */
static void expect(const char *what, size_t room, int refusal) {
    uint32_t length[3] = {BEFORE, ROOM + 1, BEFORE}; /* that of no file: it is to be written */
    memset(output, BEFORE, sizeof output);
    memset(wanted, BEFORE, sizeof wanted);
    const uint32_t full = refusal ? 0 : drawn();
    const int given = gondzselu_load(seed, cards, homes, tasks, copies, registers, primaries,
                                     of_primaries, steps, output, room, &length[1]);
    const int elsewhere = length[0] != BEFORE || length[2] != BEFORE;
    if (given != refusal || length[1] != full || elsewhere) fail(what, room, given);
    if (memcmp(output, wanted, sizeof output) != 0) fail("other bytes", room, given);
}

/* The load, in outputs about its length; and its answer. */
static void try_load(void) {
    const size_t full = 5 + tasks + 2 * registers + 9 * steps;
    expect("a byte too short", full - 1, GONDZSELU_OUTPUT_TOO_SHORT);
    expect("a byte to spare", full + 1, GONDZSELU_TAKEN);
    expect("just enough", full, GONDZSELU_TAKEN);
    const int refusal = gondzselu_answer(output, full, answer, sizeof answer);
    if (refusal) fail("not accepted", full, refusal);
    for (uint32_t k = 0; k < steps; k++)
        if (answer[2 + k] > 0 && answer[2 + k] < 20) fail("a wrong step", full, answer[2 + k]);
}

/* Refused so, whatever room there is. */
static void refused(const char *what, int refusal) {
    expect(what, 0, refusal);
    expect(what, ROOM, refusal);
}

/* Each size out of range, one by one: 3, whatever else is wrong. None wraps into one in range. */
static void try_sizes(void) {
    static const uint32_t numbers[] = {0,   9,       17,    33,        255,
                                       256, 256 + 3, 65536, 65536 + 3, UINT32_MAX};
    const uint32_t c = cards, n = steps;
    const size_t t = tasks, r = registers;
    for (size_t k = 0; k < sizeof numbers / sizeof *numbers; k++) {
        const uint32_t number = numbers[k];
        cards = number, refused("so many cards", GONDZSELU_SIZE_OUT_OF_RANGE), cards = c;
        steps = number > 4096 ? number : 4097;
        refused("so many steps", GONDZSELU_SIZE_OUT_OF_RANGE), steps = n;
        if (number > LONG) continue; /* no table is so long */
        of_primaries = number, refused("primaries", GONDZSELU_SIZE_OUT_OF_RANGE), of_primaries = r;
        registers = number, refused("copies", GONDZSELU_SIZE_OUT_OF_RANGE), registers = r;
        if (number == 0 || number > GONDZSELU_TASKS_MAX)
            tasks = number, refused("tasks", GONDZSELU_SIZE_OUT_OF_RANGE), tasks = t;
        if (number == 0 || number > GONDZSELU_REGISTERS_MAX)
            registers = of_primaries = number, refused("both", GONDZSELU_SIZE_OUT_OF_RANGE);
        registers = of_primaries = r;
    }
}

int main(void) {
    static const uint8_t example[38] = {2, 2, 2, 3, 0, 0, 1, 3, 2, 0, 1, 2, 3, 6, /* RULES 17.8 */
                                        0, 1, 2, 0, 0x8D, 0xB7, 0, 0, 1};
    place(2, 2, 2), seed = 2, steps = 3, copies[0] = 3, copies[1] = 2;
    for (size_t room = 0; room < 50; room++)
        expect("the example", room, room < 38 ? GONDZSELU_OUTPUT_TOO_SHORT : GONDZSELU_TAKEN);
    if (memcmp(output, example, sizeof example) != 0) fail("not the example", 49, 0);

    static const uint32_t seeds[] = {0, 1, 2026, 0x80000000, UINT32_MAX};
    static const uint32_t numbers[] = {0, 1, 2, 255, 256, 257, 4095, 4096};
    static const uint8_t sizes[][3] = {{1, 1, 1}, {8, 16, 32}, {3, 3, 2}, {7, 13, 29}, {2, 1, 32}};
    for (size_t k = 0; k < sizeof sizes / sizeof *sizes; k++) {
        place(sizes[k][0], sizes[k][1], sizes[k][2]);
        for (size_t i = 0; i < sizeof seeds / sizeof *seeds; i++)
            for (size_t j = 0; j < sizeof numbers / sizeof *numbers; j++)
                seed = seeds[i], steps = numbers[j], try_load();
    }

    place(3, 3, 2), seed = 2026, steps = 16, try_sizes();
    uint8_t *const last[3] = {&homes[2], &copies[1], &primaries[1]};
    static const uint8_t misplaced[][2] = {{0, 3}, {0, 255}, {1, 0}, {1, 8 + 2}, {2, 0}, {2, 9}};
    for (size_t k = 0; k < sizeof misplaced / sizeof *misplaced; k++) {
        uint8_t *const byte = last[misplaced[k][0]];
        copies[1] = 2, *byte = misplaced[k][1];
        refused("misplaced", GONDZSELU_MISPLACED);
        try_sizes(); /* 3 comes before 4 */
        place(3, 3, 2);
    }
    return 0;
}

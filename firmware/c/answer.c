/*
 * Answers a run file: the result and the value of each step that is taken, and whether its message
 * is held, a sentence for each that is refused, then the tally. A refused file gets one line, its
 * refusal. Ends with 1 if a read or a write failed, with 2 if called wrongly.
 *
 *   firmware/install PREFIX
 *   export PKG_CONFIG_PATH=PREFIX/lib/pkgconfig
 *   cc -O2 -o target/answer firmware/c/answer.c $(pkg-config --cflags --libs gondzselu)
 *   target/answer examples/k9.run
 */
#include <inttypes.h>
#include <stdio.h>

#include "gondzselu.h"

/* One byte more than the longest file: what is longer gets its right refusal too. */
static uint8_t file[GONDZSELU_FILE_MAX + 1];
static uint8_t output[GONDZSELU_ANSWER_MAX];

/* Reads the file, as far as there is room. Gives 0, or 1 after a message. */
static int read_file(const char *name, size_t *length) {
    FILE *f = fopen(name, "rb");
    if (f == NULL) {
        perror(name);
        return 1;
    }
    *length = fread(file, 1, sizeof file, f);
    if (ferror(f)) {
        perror(name);
        fclose(f);
        return 1;
    }
    if (fclose(f) != 0) {
        perror(name);
        return 1;
    }
    return 0;
}

/* A refused step's sentence. A taken step has none: its result, 0 or 100, and its value. */
static void print_step(uint32_t step, uint8_t result, uint32_t value) {
    uint8_t text[GONDZSELU_SENTENCE_MAX];
    uint32_t length;
    if (gondzselu_sentence(step, result, text, sizeof text, &length) == 0)
        printf("%.*s\n", (int)length, (const char *)text);
    else
        printf("step %" PRIu32 ": %u, %" PRIu32 "%s\n", step, result, value,
               result == GONDZSELU_HELD ? " (held)" : "");
}

static void print_answer(size_t length) {
    gondzselu_tally tally = {0, 0};
    uint8_t refusal = gondzselu_answer_counted(file, length, output, sizeof output, &tally);
    if (refusal != GONDZSELU_TAKEN) {
        printf("refused: %u\n", refusal);
        return;
    }
    uint32_t steps = output[0] + 256 * (uint32_t)output[1];
    const uint8_t *results = output + 2, *values = results + steps;
    for (uint32_t k = 0; k < steps; k++) {
        const uint8_t *v = values + 4 * k; /* low byte first, on every machine */
        uint32_t value = v[0] | (uint32_t)v[1] << 8 | (uint32_t)v[2] << 16 | (uint32_t)v[3] << 24;
        print_step(k, results[k], value);
    }
    printf("taken %" PRIu32 ", refused %" PRIu32 "\n", tally.taken, tally.refused);
}

int main(int argc, char **argv) {
    size_t length;
    if (argc != 2) {
        fprintf(stderr, "usage: answer FILE\n");
        return 2;
    }
    if (gondzselu_version() != GONDZSELU_VERSION) {
        fprintf(stderr, "answer: the header is not the library's\n");
        return 1;
    }
    if (read_file(argv[1], &length) != 0)
        return 1;
    print_answer(length);
    /* A full disk may show only when the last bytes are written out. */
    int failed = ferror(stdout);
    if (fclose(stdout) != 0 || failed) {
        fprintf(stderr, "answer: standard output could not be written\n");
        return 1;
    }
    return 0;
}

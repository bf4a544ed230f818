/* Host bench: the exported arithmetic of one command against the original Rust; or one answer of it. */

#include <inttypes.h>
#include <stdint.h>
#include <stdio.h>
#include <stdlib.h>
#include <string.h>
#include <time.h>

uint64_t src32_alu(uint32_t command, uint32_t a, uint32_t b);
uint64_t oracle_alu(uint32_t command, uint32_t a, uint32_t b);

typedef uint64_t alu(uint32_t command, uint32_t a, uint32_t b);

enum {
    FIRST_COMMAND = 0x10,
    COMMANDS = 16,
    SMALL_COMMANDS = 0x200,
    ROUNDS = 176,
    BATCH = 65536,
    SHOWN = 8
};

static const uint32_t EDGE_WORDS[] = {
    0, 1, 2, 3, 7, 0x1f, 0x20, 0x21, 0xffff, 0x10000, 0x7fffffff, 0x80000000, 0x80000001,
    0xfffffff9, 0xfffffffe, 0xffffffff
};

static const uint32_t LARGE_COMMANDS[] = {
    0x1000, 0x10010, 0x1000001d, 0x7fffffff, 0x80000000, 0x80000010, 0xfffffff0, 0xffffffff
};

#define LENGTH(array) (sizeof(array) / sizeof((array)[0]))

/* One question. */
struct input {
    uint32_t command, a, b;
};

/* What has been asked and seen so far. */
struct totals {
    alu *original;
    uint64_t compared, timed, mismatches;
    uint64_t word_ns, original_ns;
};

static struct input inputs[BATCH];
static uint64_t word_answers[BATCH], original_answers[BATCH];

/* Gives a deliberately wrong answer: DIV with its operands swapped. */
static uint64_t broken_alu(uint32_t command, uint32_t a, uint32_t b)
{
    return command == 0x1d ? oracle_alu(command, b, a) : oracle_alu(command, a, b);
}

/* Gives the next 64 bits of a splitmix64 generator. */
static uint64_t next_bits(uint64_t *state)
{
    uint64_t mixed = *state += 0x9e3779b97f4a7c15;
    mixed = (mixed ^ (mixed >> 30)) * 0xbf58476d1ce4e5b9;
    mixed = (mixed ^ (mixed >> 27)) * 0x94d049bb133111eb;
    return mixed ^ (mixed >> 31);
}

/* Gives a word of any length in bits and of either sign. */
static uint32_t next_word(uint64_t *state)
{
    uint64_t bits = next_bits(state);
    uint32_t word = (uint32_t)(bits >> 32) >> (bits & 31);
    return bits & 32 ? -word : word;
}

/* Gives the monotonic clock in nanoseconds. */
static uint64_t now_ns(void)
{
    struct timespec now;
    clock_gettime(CLOCK_MONOTONIC, &now);
    return (uint64_t)now.tv_sec * 1000000000 + (uint64_t)now.tv_nsec;
}

/* Asks every question of the batch and gives the time taken. */
static __attribute__((noinline)) uint64_t ask(alu *asked, uint64_t *answers, size_t count)
{
    uint64_t start = now_ns();
    for (size_t i = 0; i < count; i++)
        answers[i] = asked(inputs[i].command, inputs[i].a, inputs[i].b);
    return now_ns() - start;
}

/* Compares the two rows of answers and shows the first that differ. */
static void compare(struct totals *totals, size_t count)
{
    for (size_t i = 0; i < count; i++) {
        if (word_answers[i] == original_answers[i])
            continue;
        if (totals->mismatches++ < SHOWN)
            printf("differs: command %" PRIx32 " on %" PRIx32 " %" PRIx32 " gives %" PRIx64
                   ", the Rust %" PRIx64 "\n", inputs[i].command, inputs[i].a, inputs[i].b,
                   word_answers[i], original_answers[i]);
    }
    totals->compared += count;
}

/* Fills one batch with random pairs, the commands taking turns, and times both sides on it. */
static void random_batch(struct totals *totals, uint64_t *state, int original_first)
{
    for (size_t i = 0; i < BATCH; i++) {
        inputs[i].command = FIRST_COMMAND + i % COMMANDS;
        inputs[i].a = next_word(state);
        inputs[i].b = next_word(state);
    }
    if (original_first)
        totals->original_ns += ask(totals->original, original_answers, BATCH);
    totals->word_ns += ask(src32_alu, word_answers, BATCH);
    if (!original_first)
        totals->original_ns += ask(totals->original, original_answers, BATCH);
    totals->timed += BATCH;
    compare(totals, BATCH);
}

/* Compares one command on every ordered pair of edge words. */
static void edge_pairs(struct totals *totals, uint32_t command)
{
    size_t count = 0;
    for (size_t i = 0; i < LENGTH(EDGE_WORDS); i++)
        for (size_t j = 0; j < LENGTH(EDGE_WORDS); j++)
            inputs[count++] = (struct input){command, EDGE_WORDS[i], EDGE_WORDS[j]};
    ask(src32_alu, word_answers, count);
    ask(totals->original, original_answers, count);
    compare(totals, count);
}

/* Says how the comparison ended. */
static int report(const struct totals *totals)
{
    double timed = (double)totals->timed;
    printf("compared %" PRIu64 "\n", totals->compared);
    printf("mismatches %" PRIu64 "\n", totals->mismatches);
    printf("src32_alu %.2f ns per call\n", (double)totals->word_ns / timed);
    printf("the Rust %.2f ns per call\n", (double)totals->original_ns / timed);
    return totals->mismatches != 0;
}

/* Reads a word in hexadecimal. */
static uint32_t word_of(const char *text)
{
    return (uint32_t)strtoul(text, NULL, 16);
}

/* Prints the arithmetic of one command on two words. */
static int answer(char **words)
{
    uint64_t result = src32_alu(word_of(words[1]), word_of(words[2]), word_of(words[3]));
    if (result > UINT32_MAX)
        printf("refused %" PRIu64 "\n", result - UINT32_MAX - 1);
    else
        printf("%08" PRIx64 "\n", result);
    return 0;
}

/* Runs every comparison; with --break the answers compared against are wrong on purpose. */
int main(int count, char **words)
{
    struct totals totals = {.original = oracle_alu};
    uint64_t state = 1;
    if (count == 4)
        return answer(words);
    if (count == 2 && strcmp(words[1], "--break") == 0) {
        totals.original = broken_alu;
    } else if (count != 1) {
        fprintf(stderr, "usage: alu [--break | COMMAND A B]\n");
        return 2;
    }
    for (uint32_t command = 0; command < SMALL_COMMANDS; command++)
        edge_pairs(&totals, command);
    for (size_t i = 0; i < LENGTH(LARGE_COMMANDS); i++)
        edge_pairs(&totals, LARGE_COMMANDS[i]);
    for (int round = 0; round < ROUNDS; round++)
        random_batch(&totals, &state, round % 2);
    return report(&totals);
}

/* How long a hire block takes in two builds of the shared library, in turns in one process, so that a change of the machine's clock meets
 * both alike:
 *
 *     turns BLOCK FIRST.so SECOND.so
 *
 * BLOCK is a full block that both accept. It is run with seeded noise of up to 1 ns on each measurement, 1000 times over, in 300 rounds; the order
 * changes each round. So are the track of its first four blocks, and both with a measurement outside its limit, the first or the last. Printed are, for
 * each of these, the least and the median in ns a block, and the median of the rounds' ratios with its tenth and ninetieth percentile. It ends with 1
 * where an answer is not that of its kind, 0 or 2, or two lines differ.
 */
#define _POSIX_C_SOURCE 200809L
#include <dlfcn.h>
#include <stdint.h>
#include <stdio.h>
#include <stdlib.h>
#include <string.h>
#include <time.h>

enum { BYTES = 8378, LINE = 113, BLOCKS = 1000, ROUNDS = 300, FIRST_MEASUREMENT = 58, MEASUREMENTS = 780, FEW = 4 };

/* Which blocks: how many of 15 measurements, and which measurement is outside, -1 for none. */
static const struct kind {
    const char *name;
    int n, outside;
} KINDS[] = {{"full blocks", 52, -1}, {"blocks of 4", FEW, -1}, {"full, the first measurement outside", 52, 0},
             {"full, the last measurement outside", 52, 779}, {"of 4, the first measurement outside", FEW, 0},
             {"of 4, the last measurement outside", FEW, 15 * FEW - 1}};

typedef uint32_t (*block_function)(const uint8_t *, size_t, uint8_t *, size_t);

static uint8_t whole[BLOCKS][BYTES], blocks[BLOCKS][BYTES];
static uint8_t lines[2][BLOCKS][LINE];
static uint32_t answers[2][BLOCKS];

static void fail(const char *text, const char *name)
{
    fprintf(stderr, "turns: %s: %s\n", name, text);
    exit(1);
}

static double now(void)
{
    struct timespec t;
    clock_gettime(CLOCK_THREAD_CPUTIME_ID, &t);
    return (double)t.tv_sec * 1e9 + (double)t.tv_nsec;
}

static int by_size(const void *one, const void *other)
{
    const double a = *(const double *)one, b = *(const double *)other;
    return (a > b) - (a < b);
}

/* Adds a seeded number from -1000 to 1000 to a measurement, 64 bits with the lowest byte first. */
static void disturb(uint8_t *at, uint64_t *seed)
{
    uint64_t value = 0;
    for (int i = 7; i >= 0; i--)
        value = value << 8 | at[i];
    *seed = *seed * 6364136223846793005u + 1442695040888963407u;
    value += (*seed >> 33) % 2001 - 1000;
    for (int i = 0; i < 8; i++)
        at[i] = (uint8_t)(value >> 8 * i);
}

static void fill(const char *name)
{
    uint64_t seed = 1;
    FILE *file = fopen(name, "rb");
    if (!file || fread(whole[0], 1, BYTES, file) != BYTES)
        fail("no full block", name);
    fclose(file);
    for (int i = 1; i < BLOCKS; i++)
        memcpy(whole[i], whole[0], BYTES);
    for (int i = 0; i < BLOCKS * MEASUREMENTS; i++)
        disturb(whole[i / MEASUREMENTS] + FIRST_MEASUREMENT + 8 * (i % MEASUREMENTS), &seed);
}

/* The blocks of a kind, and how long each is: sizes, labels and delays, n times 120 bytes of measurements and 40 of corrections. */
static size_t cut(const struct kind *kind)
{
    const size_t measured = (size_t)kind->n * 120, corrected = (size_t)kind->n * 40;
    for (int i = 0; i < BLOCKS; i++) {
        uint8_t *block = blocks[i];
        memcpy(block, whole[i], FIRST_MEASUREMENT + measured);
        memcpy(block + FIRST_MEASUREMENT + measured, whole[i] + FIRST_MEASUREMENT + 8 * MEASUREMENTS, corrected);
        block[0] = (uint8_t)(15 * kind->n);
        block[1] = (uint8_t)(15 * kind->n / 256);
        block[2] = (uint8_t)kind->n;
        block[3] = 0;
        if (kind->outside >= 0)
            block[FIRST_MEASUREMENT + 8 * kind->outside + 7] = 0x40;
    }
    return FIRST_MEASUREMENT + measured + corrected;
}

static block_function loaded(const char *name)
{
    union {
        void *object;
        block_function function;
    } found;
    void *library = dlopen(name, RTLD_NOW | RTLD_LOCAL);
    found.object = library ? dlsym(library, "trackline_block") : NULL;
    if (!found.object)
        fail(dlerror(), name);
    return found.function;
}

/* One pass over all blocks: ns a block. */
static double pass(block_function block, size_t bytes, int which)
{
    const double began = now();
    for (int i = 0; i < BLOCKS; i++)
        answers[which][i] = block(blocks[i], bytes, lines[which][i], LINE);
    return (now() - began) / BLOCKS;
}

static void compare(const struct kind *kind, char **names)
{
    const uint32_t expected = kind->outside < 0 ? 0 : 2;
    for (int i = 0; i < BLOCKS; i++) {
        for (int which = 0; which < 2; which++)
            if (answers[which][i] != expected)
                fail(expected ? "it does not answer 2" : "it refuses a block", names[which]);
        if (memcmp(lines[0][i], lines[1][i], LINE))
            fail("the lines of the two libraries differ", kind->name);
    }
}

static void run(const struct kind *kind, const block_function *block, char **names)
{
    static double times[2][ROUNDS], ratios[ROUNDS];
    const size_t bytes = cut(kind);
    memset(lines, 0, sizeof lines);
    for (int which = 0; which < 2; which++)
        pass(block[which], bytes, which);
    for (int round = 0; round < ROUNDS; round++) {
        const int first = round % 2;
        times[first][round] = pass(block[first], bytes, first);
        times[1 - first][round] = pass(block[1 - first], bytes, 1 - first);
        ratios[round] = times[1][round] / times[0][round];
    }
    compare(kind, names);
    for (int which = 0; which < 2; which++)
        qsort(times[which], ROUNDS, sizeof times[which][0], by_size);
    qsort(ratios, ROUNDS, sizeof ratios[0], by_size);
    printf("%-36s %5.0f %5.0f  %5.0f %5.0f  %.3f (%.3f to %.3f)\n", kind->name, times[0][0], times[0][ROUNDS / 2], times[1][0],
           times[1][ROUNDS / 2], ratios[ROUNDS / 2], ratios[ROUNDS / 10], ratios[ROUNDS * 9 / 10]);
}

int main(int count, char **words)
{
    block_function block[2];
    if (count != 4) {
        fprintf(stderr, "usage: turns BLOCK FIRST.so SECOND.so\n");
        return 2;
    }
    fill(words[1]);
    for (int which = 0; which < 2; which++)
        block[which] = loaded(words[2 + which]);
    printf("ns a block, least and median of %d rounds: first %s, second %s;\nthe median of second / first (eight of ten rounds)\n", ROUNDS,
           words[2], words[3]);
    for (size_t i = 0; i < sizeof KINDS / sizeof *KINDS; i++)
        run(&KINDS[i], block, words + 2);
    return 0;
}

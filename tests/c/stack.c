/*
 * How much stack each function takes, measured. A thread on a stack of our own fills what lies below its frame with one
 * byte, calls, and looks for the lowest byte that has changed. The manual page trackline(3) promises the figures in MOST, and
 * the header that of trackline_day; the test fails if a call takes more. tests/c/stack.py compares what is printed with the figures that documents give.
 *
 *     cc -std=c11 -Iinclude tests/c/stack.c libtrackline.a -pthread -Wl,-z,now -o stack && ./stack
 *
 * By -z now memset is bound before the calls: the loader saves the processor's registers on the stack of the first call otherwise, and
 * how many bytes that takes goes by the processor.
 */
#define _POSIX_C_SOURCE 200809L

#include <pthread.h>
#include <stdio.h>
#include <stdlib.h>

#include "trackline.h"

/* EDGE: bytes below the frame that are left alone, so that the frame itself is not filled. */
enum { STACK = 1 << 21, FILL = 0xA5, EDGE = 256 };

static uint8_t block[TRACKLINE_BLOCK_BYTES];
static uint8_t line[TRACKLINE_LINE_BYTES];
static const uint8_t commented[] = "G05 FF 50722 000200 0780 450 1800 +0000000010 +00000 +0000000010 +00000 "
                                   "0000 007 0000 +000 0000 +000 00 00 L1C 26 with a comment behind it";
static int64_t values[TRACKLINE_VALUES];
static uint8_t *stack;

static uint32_t call_block(void)
{
    return trackline_block(block, sizeof block, line, sizeof line);
}

static uint32_t call_line(void)
{
    return trackline_line('G', 5, 255, 0, 0, 'L', '1', 'C', 50722, 120, 450, 1800, 7, 10, 0, 10, 0, 0, 0, 0, 0, 0, 780,
                          line, sizeof line);
}

static uint32_t call_start(void)
{
    return trackline_start(50722, 120);
}

static uint32_t call_path(void)
{
    static double length;
    return trackline_path(15600123457, 7540654321, 20140777888, 4202777366, 171367999, 4778660203, &length);
}

static uint32_t call_read(void)
{
    return trackline_read(commented, sizeof commented - 1, values, TRACKLINE_VALUES);
}

static uint32_t call_comment(void)
{
    return trackline_comment(commented, sizeof commented - 1) != TRACKLINE_LINE_BYTES;
}

static uint32_t call_down(void)
{
    static uint8_t old[TRACKLINE_OLD_BYTES];
    return trackline_down(commented, sizeof commented - 1, old, sizeof old);
}

static uint32_t call_up(void)
{
    static const uint8_t old[] = " 05 FF 50722 000200 0780 450 1800 +0000000010 +00000 +0000000010 +00000 "
                                 "0000 007 0000 +000 0000 +000 1F with a comment behind it";
    return trackline_up(old, sizeof old - 1, 0, 'L', '1', 'C', line, sizeof line);
}

/* Two lines each, of which one is in both. */
#define ENDED(satellite, ck)                                                                                  \
    satellite " FF 50722 000200 0780 450 1800 +0000000010 +00000 +0000000010 +00000 0000 007 0000 +000 0000 " \
              "+000 00 00 L1C " ck "\r\n"
static const uint8_t first[] = ENDED("G05", "26") ENDED("G06", "27"), second[] = ENDED("G06", "27") ENDED("G07", "28");

static uint32_t call_merge(void)
{
    static uint8_t file[3 * TRACKLINE_FILE_LINE_BYTES];
    size_t written;
    return trackline_merge(first, sizeof first - 1, second, sizeof second - 1, file, sizeof file, &written);
}

static uint32_t call_view(void)
{
    static int64_t report[TRACKLINE_REPORT_NUMBERS];
    return trackline_view(first, sizeof first - 1, second, sizeof second - 1, report, TRACKLINE_REPORT_NUMBERS);
}

static uint32_t call_delays(void)
{
    static const uint8_t store[] = {1, 0, 1, 0, 7, 0, 0, 0, 1, 0, 0, 0, 0, 0, 0, 0, 2, 0, 0, 0, 0, 0, 0, 0, 3, 0, 0, 0, 0, 0, 0, 0};
    static int64_t delays[TRACKLINE_DELAYS_NUMBERS];
    return trackline_delays(store, sizeof store, 7, delays, TRACKLINE_DELAYS_NUMBERS);
}

static uint32_t call_append(void)
{
    static const uint8_t store[] = {2, 0, 0, 0};
    static uint8_t longer[TRACKLINE_STORE_BYTES_2_OF(1)];
    size_t written;
    return trackline_append(store, sizeof store, 7, 1, 2, 3, 4, longer, sizeof longer, &written);
}

/* One block takes as much as many. */
static uint32_t call_day_of_one(void)
{
    static uint8_t file[TRACKLINE_FILE_LINE_BYTES];
    size_t written, named;
    return trackline_day(block, sizeof block, file, sizeof file, &written, &named);
}

/* Many full blocks, of one satellite after the other. */
static uint32_t call_day(void)
{
    enum { MANY = 50 };
    static uint8_t blocks[MANY * TRACKLINE_BLOCK_BYTES], file[MANY * TRACKLINE_FILE_LINE_BYTES];
    size_t written, named;
    for (size_t i = 0; i < sizeof blocks; i++) {
        size_t number = i / sizeof block, at = i % sizeof block;
        blocks[i] = (uint8_t)(block[at] + (at == TRACKLINE_AT_SATELLITE ? number : 0));
    }
    return trackline_day(blocks, sizeof blocks, file, sizeof file, &written, &named);
}

static struct measured {
    const char *name;
    uint32_t (*call)(void);
    size_t most;  /* what trackline(3) or the header says */
    size_t bytes; /* what it took; EDGE if it is no more than that */
} MOST[] = {
    {"trackline_block", call_block, 16000, 0}, {"trackline_line", call_line, 1000, 0}, {"trackline_start", call_start, 1000, 0},
    {"trackline_path", call_path, 1000, 0},
    {"trackline_read", call_read, 1000, 0}, {"trackline_comment", call_comment, 1000, 0},
    {"trackline_down", call_down, 1000, 0}, {"trackline_up", call_up, 1000, 0},
    {"trackline_merge", call_merge, 2000, 0}, {"trackline_view", call_view, 2000, 0},
    {"trackline_delays", call_delays, 1000, 0}, {"trackline_append", call_append, 1000, 0},
    {"trackline_day", call_day, TRACKLINE_DAY_STACK, 0}, {"trackline_day of one block", call_day_of_one, TRACKLINE_DAY_STACK, 0}};

/* The thread. */
static void *measure(void *which)
{
    struct measured *m = which;
    volatile uint8_t frame = 0;
    size_t below = (size_t)((volatile uint8_t *)&frame - stack) - EDGE, lowest = 0;
    volatile uint8_t *bytes = stack;
    for (size_t i = 0; i < below; i++) {
        bytes[i] = FILL;
    }
    uint32_t answer = m->call();
    while (lowest < below && bytes[lowest] == FILL) {
        lowest++;
    }
    m->bytes = below - lowest + EDGE;
    return answer == TRACKLINE_ACCEPTED ? which : NULL;
}

static int measured(struct measured *m)
{
    pthread_attr_t with_stack;
    pthread_t thread;
    void *back = NULL;
    pthread_attr_init(&with_stack);
    pthread_attr_setstack(&with_stack, stack, STACK);
    int made = pthread_create(&thread, &with_stack, measure, m) == 0 && pthread_join(thread, &back) == 0;
    pthread_attr_destroy(&with_stack);
    return made && back == m;
}

int main(int argc, char **argv)
{
    FILE *file = fopen(argc > 1 ? argv[1] : "examples/worked.blk", "rb");
    if (file == NULL || fread(block, 1, sizeof block, file) != sizeof block) {
        fputs("stack: no block to call with\n", stderr);
        return 2;
    }
    fclose(file);
    void *room;
    if (posix_memalign(&room, 4096, STACK) != 0) {
        return 2;
    }
    stack = room;
    int failed = 0;
    for (size_t i = 0; i < sizeof MOST / sizeof MOST[0]; i++) {
        failed |= !measured(&MOST[i]) || MOST[i].bytes > MOST[i].most;
        const char *floor = MOST[i].bytes == EDGE ? "at most " : "";
        printf("stack: %s takes %s%zu bytes, promised %zu\n", MOST[i].name, floor, MOST[i].bytes, MOST[i].most);
    }
    free(room);
    return failed;
}

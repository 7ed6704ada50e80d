/*
 * Calls trackline_delays and trackline_append from C: every number and byte of what is lent and of what lies around it, the dates
 * beside each start, each fault at the first, a middle and the last entry, the order of two faults. Stores are written out byte by
 * byte, or number by number by `put` below, and what is expected by hand.
 *
 *     cc -std=c11 -Wall -Wextra -Werror -pedantic -Iinclude tests/c/delays_test.c libtrackline.a && ./a.out
 */
#define _DEFAULT_SOURCE

#include <inttypes.h>
#include <stdio.h>
#include <string.h>
#include <sys/mman.h>

#include "trackline.h"

/* Version 1, two entries: from 50722 (C622 hexadecimal) on 1, 2, 3; from 61000 (EE48) on -1, 256, 0. */
static const uint8_t OLD[60] = {1,    0,    2,    0,    0x22, 0xC6, 0,    0,    0x48, 0xEE, 0, 0, 1, 0, 0, 0, 0, 0, 0, 0,
                                2,    0,    0,    0,    0,    0,    0,    0,    3,    0,    0, 0, 0, 0, 0, 0,
                                0xFF, 0xFF, 0xFF, 0xFF, 0xFF, 0xFF, 0xFF, 0xFF, 0,    1,    0, 0, 0, 0, 0, 0, 0, 0, 0, 0, 0, 0, 0, 0};
/* Version 2, one entry: from 7 on -2, 10^10 (2540BE400), 5, 4. */
static const uint8_t NEW[40] = {2,    0,    1,    0,    7, 0, 0, 0, 0xFE, 0xFF, 0xFF, 0xFF, 0xFF, 0xFF, 0xFF, 0xFF, 0x00, 0xE4, 0x0B, 0x54,
                                0x02, 0x00, 0x00, 0x00, 5, 0, 0, 0, 0,    0,    0,    0,    4,    0,    0,    0,    0,    0,    0,    0};
static const uint8_t NONE_1[4] = {1, 0, 0, 0}, NONE_2[4] = {2, 0, 0, 0};

enum { EDGE = 16, ROOM = 40000 };

static int failed, checked;
static uint8_t room[EDGE + ROOM + EDGE];
static int64_t row[EDGE + 8 + EDGE];

static void expect_true(const char *what, int holds)
{
    checked++;
    if (!holds) {
        failed++;
        printf("delays: %s\n", what);
    }
}

static void expect(const char *what, uint32_t answer, uint32_t wanted)
{
    checked++;
    if (answer != wanted) {
        failed++;
        printf("delays: %s is answered %" PRIu32 ", not %" PRIu32 "\n", what, answer, wanted);
    }
}

/* A lookup with so many numbers lent; all around them, and all of them where it is refused, stay. */
static uint32_t look(const char *what, const uint8_t *store, size_t length, uint32_t mjd, size_t lent, const int64_t *wanted)
{
    for (size_t i = 0; i < sizeof row / sizeof row[0]; i++) {
        row[i] = (int64_t)i * 1000003 - 77;
    }
    uint32_t answer = trackline_delays(store, length, mjd, row + EDGE, lent);
    for (size_t i = 0; i < sizeof row / sizeof row[0]; i++) {
        int written = answer == 0 && i >= EDGE && i < EDGE + 4;
        int64_t value = written && wanted != NULL ? wanted[i - EDGE] : (int64_t)i * 1000003 - 77;
        expect_true(what, written && wanted == NULL ? 1 : row[i] == value);
    }
    return answer;
}

/* An append with so many bytes lent; what is written is the wanted store, and nothing where there is none. */
static uint32_t add(const char *what, const uint8_t *store, size_t length, uint32_t mjd, const int64_t *new, size_t lent,
                    const uint8_t *wanted, size_t wanted_length)
{
    size_t written[3] = {11, 22, 33};
    for (size_t i = 0; i < sizeof room; i++) {
        room[i] = (uint8_t)(7 * i + 3);
    }
    uint32_t answer = trackline_append(store, length, mjd, new[0], new[1], new[2], new[3], lent == 0 ? NULL : room + EDGE, lent, &written[1]);
    size_t bytes = answer == 0 ? wanted_length : 0, wrong = 0;
    for (size_t i = 0; i < sizeof room; i++) {
        int inside = i >= EDGE && i < EDGE + bytes;
        wrong += room[i] != (inside ? wanted[i - EDGE] : (uint8_t)(7 * i + 3));
    }
    expect_true(what, wrong == 0);
    expect_true(what, written[0] == 11 && written[1] == (answer == 0 ? wanted_length : 22) && written[2] == 33);
    return answer;
}

/* Puts a number's bytes, the lowest first. */
static void put(uint8_t *at, uint64_t value, size_t width)
{
    for (size_t i = 0; i < width; i++) {
        at[i] = (uint8_t)(value >> (8 * i));
    }
}

/* So many entries: entry k starts on 1000 + 2k and has the delays 10k + 1, 10k + 2, 10k + 3 and, in version 2, 10k + 4. */
static size_t fill(uint8_t *store, int version, size_t count)
{
    size_t wide = version == 1 ? 3 : 4;
    put(store, (uint64_t)version, 2);
    put(store + 2, count, 2);
    for (size_t k = 0; k < count; k++) {
        put(store + 4 + 4 * k, 1000 + 2 * k, 4);
        for (size_t j = 0; j < wide; j++) {
            put(store + 4 + 4 * count + 8 * (wide * k + j), 10 * k + j + 1, 8);
        }
    }
    return 4 + 4 * count + 8 * wide * count;
}

static void by_hand(void)
{
    static const int64_t FIRST[4] = {1, 2, 3, 0}, SECOND[4] = {-1, 256, 0, 0}, ONLY[4] = {-2, 10000000000, 5, 4};
    expect("before the first start", look("before", OLD, 60, 50721, 4, NULL), 21);
    expect("on the first start", look("first", OLD, 60, 50722, 4, FIRST), 0);
    expect("before the second start", look("between", OLD, 60, 60999, 5, FIRST), 0);
    expect("on the second start", look("second", OLD, 60, 61000, 8, SECOND), 0);
    expect("on the last date", look("last", OLD, 60, UINT32_MAX, 4, SECOND), 0);
    expect("version 2", look("version 2", NEW, 40, 7, 4, ONLY), 0);
    expect("version 2 before", look("version 2", NEW, 40, 6, 4, NULL), 21);
    expect("no entry", look("no entry", NONE_1, 4, UINT32_MAX, 4, NULL), 21);
    expect("no entry", look("no entry", NONE_2, 4, 0, 4, NULL), 21);
    for (size_t lent = 0; lent < 4; lent++) {
        expect("too few lent", look("too few", OLD, 60, 60000, lent, NULL), 9);
        expect("21 before 9", look("too few", OLD, 60, 1, lent, NULL), 21);
        expect("20 before 9", look("too few", OLD, 59, 60000, lent, NULL), 20);
    }
    expect("no byte", trackline_delays(NULL, 0, 60000, row, 4), 20);
    expect("NULL lent", trackline_delays(OLD, 60, 60000, NULL, 0), 9);
}

static void appended_by_hand(void)
{
    static const int64_t SECOND[4] = {-1, 256, 0, 0}, ONLY[4] = {-2, 10000000000, 5, 4};
    uint8_t one[32];
    memcpy(one, OLD, 8);
    one[2] = 1;
    memcpy(one + 8, OLD + 12, 24);
    expect("second of version 1", add("version 1", one, 32, 61000, SECOND, 60, OLD, 60), 0);
    expect("second of version 1, more room", add("version 1", one, 32, 61000, SECOND, 77, OLD, 60), 0);
    expect("a byte too few", add("version 1", one, 32, 61000, SECOND, 59, OLD, 60), 9);
    expect("first of version 2", add("version 2", NONE_2, 4, 7, ONLY, 40, NEW, 40), 0);
    expect("a byte too few", add("version 2", NONE_2, 4, 7, ONLY, 39, NEW, 40), 9);
    expect("nothing lent", add("version 2", NONE_2, 4, 7, ONLY, 0, NEW, 40), 9);
    expect("the same date", add("22", OLD, 60, 61000, SECOND, 100, NULL, 0), 22);
    expect("22 before 9", add("22", OLD, 60, 60999, SECOND, 0, NULL, 0), 22);
    expect("GD in version 1", add("20", OLD, 60, 61001, ONLY, 100, NULL, 0), 20);
    expect("20 before 22", add("20", OLD, 60, 61000, ONLY, 0, NULL, 0), 20);
    expect("no byte", add("20", NULL, 0, 61000, SECOND, 100, NULL, 0), 20);
}

/* Each new delay at its limit and one beyond it. */
static void new_delays(void)
{
    static const int64_t EDGES[][2] = {{10000000000, 0}, {-10000000000, 0}, {10000000001, 20}, {-10000000001, 20}, {INT64_MAX, 20}, {INT64_MIN, 20}};
    for (size_t place = 0; place < 4; place++) {
        for (size_t i = 0; i < sizeof EDGES / sizeof EDGES[0]; i++) {
            int64_t new[4] = {0, 0, 0, 0};
            uint8_t longer[40] = {2, 0, 1, 0, 9};
            new[place] = EDGES[i][0];
            put(longer + 8 + 8 * place, (uint64_t)new[place], 8);
            expect("a new delay", add("a new delay", NONE_2, 4, 9, new, 40, longer, 40), (uint32_t)EDGES[i][1]);
        }
    }
}

/* Entries one behind the other, to 1000, and what is asked of them. */
static void thousand(int version)
{
    static uint8_t store[ROOM], longer[ROOM];
    size_t wide = version == 1 ? 3 : 4;
    for (size_t count = 0; count <= 1000; count += count < 4 || count >= 996 ? 1 : 124) {
        size_t length = fill(store, version, count), next = fill(longer, version, count + 1);
        int64_t k = (int64_t)count, last = k - 1;
        int64_t new[4] = {10 * k + 1, 10 * k + 2, 10 * k + 3, wide == 4 ? 10 * k + 4 : 0};
        int64_t in_force[4] = {10 * last + 1, 10 * last + 2, 10 * last + 3, wide == 4 ? 10 * last + 4 : 0};
        int64_t first[4] = {1, 2, 3, wide == 4 ? 4 : 0};
        uint32_t start = 1000 + 2 * (uint32_t)count;
        expect("one more", add("one more", store, length, start, new, next, longer, next), count < 1000 ? 0 : 22);
        expect("the last", look("the last", store, length, start, 4, in_force), count > 0 ? 0 : 21);
        expect("the last", look("the last", store, length, start - 1, 4, in_force), count > 0 ? 0 : 21);
        expect("the first", look("the first", store, length, 1001, 4, first), count > 0 ? 0 : 21);
        expect("too early", look("too early", store, length, 999, 4, NULL), 21);
        expect("a byte short", look("a byte short", store, length - 1, start, 4, NULL), 20);
        expect("a byte over", look("a byte over", store, length + 1, start, 4, NULL), 20);
    }
    expect("1001 entries", look("1001 entries", store, fill(store, version, 1001), 5000, 4, NULL), 20);
}

/* One fault at an entry of seven: its start is that of the one before it, or a delay is beyond its limit. */
static void faults(int version)
{
    static const size_t PLACES[] = {0, 3, 6};
    static const int64_t ZERO[4];
    size_t wide = version == 1 ? 3 : 4;
    uint8_t store[400];
    for (size_t i = 0; i < 3; i++) {
        size_t k = PLACES[i] == 0 ? 1 : PLACES[i];
        size_t length = fill(store, version, 7);
        put(store + 4 + 4 * k, 1000 + 2 * (k - 1), 4);
        expect("equal starts", look("equal starts", store, length, 5000, 4, NULL), 20);
        expect("20 before 21", look("equal starts", store, length, 0, 4, NULL), 20);
        expect("20 before 22", add("equal starts", store, length, 0, ZERO, 400, NULL, 0), 20);
        for (size_t j = 0; j < wide; j++) {
            fill(store, version, 7);
            put(store + 32 + 8 * (wide * PLACES[i] + j), 10000000001, 8);
            expect("a delay beyond", look("a delay beyond", store, length, 5000, 4, NULL), 20);
            put(store + 32 + 8 * (wide * PLACES[i] + j), (uint64_t)-10000000001, 8);
            expect("a delay beyond", look("a delay beyond", store, length, 999, 4, NULL), 20);
            expect("a delay beyond", add("a delay beyond", store, length, 1, ZERO, 0, NULL, 0), 20);
        }
    }
    for (uint64_t other = 0; other < 65536; other += other < 300 ? 1 : 251) {
        size_t length = fill(store, version, 7);
        put(store, other, 2);
        if (other != (uint64_t)version) {
            expect("another version", trackline_delays(store, length, 5000, row, 4), 20);
        }
    }
}

/* What is lent and given ends where a page begins that can't be touched. */
static void at_a_page(void)
{
    size_t page = 65536;
    uint8_t *memory = mmap(NULL, 3 * page, PROT_READ | PROT_WRITE, MAP_PRIVATE | MAP_ANONYMOUS, -1, 0);
    if (memory == MAP_FAILED || mprotect(memory + 2 * page, page, PROT_NONE) != 0) {
        expect_true("no page", 0);
        return;
    }
    for (int version = 1; version <= 2; version++) {
        static uint8_t store[ROOM];
        size_t length = fill(store, version, 999), next = length + (version == 1 ? 28 : 36), written = 0;
        uint8_t *given = memory + page - length, *lent = memory + 2 * page - next;
        memcpy(given, store, length);
        expect("at a page", trackline_append(given, length, 9000, 1, 2, 3, 0, lent, next, &written), 0);
        expect_true("at a page", written == next && memcmp(given, store, length) == 0);
        int64_t *numbers = (int64_t *)(void *)(memory + 2 * page) - 4;
        expect("at a page", trackline_delays(given, length, 9000, numbers, 4), 0);
        expect_true("at a page", numbers[0] == 9981 && numbers[1] == 9982 && numbers[2] == 9983);
    }
    munmap(memory, 3 * page);
}

int main(void)
{
    by_hand();
    appended_by_hand();
    new_delays();
    for (int version = 1; version <= 2; version++) {
        thousand(version);
        faults(version);
    }
    at_a_page();
    expect_true("the header's sizes", TRACKLINE_STORE_BYTES_1_OF(2) == sizeof OLD && TRACKLINE_STORE_BYTES_2_OF(1) == sizeof NEW);
    printf("delays: %d checks, %d failed\n", checked, failed);
    return failed != 0;
}

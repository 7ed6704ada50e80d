/*
 * Calls trackline_day from C: every byte of a lent file of all the lengths that matter and of the bytes around it, each refusal
 * at the first, a middle and the last block, every two of them, cut blocks, and a set longer than the library keeps lines of.
 * Expected answers are written out here; the tracks are the paper's sample with other keys and lengths, and the CK of their lines
 * was worked out by hand from its 26.
 *
 *     cc -std=c11 -Wall -Wextra -Werror -pedantic -Iinclude tests/c/day_test.c libtrackline.a && ./a.out
 */
#include <inttypes.h>
#include <stdio.h>
#include <stdlib.h>
#include <string.h>

#include "trackline.h"

#define LINE(satellite, date, clock, trkl, fr, ck)                                                          \
    satellite " FF " date " " clock " " trkl " 450 1800 +0000000010 +00000 +0000000010 +00000 0000 007 " \
              "0000 +000 0000 +000 " fr " 00 L1C " ck "\r\n"

/* Tracks in their order, and the lines of a full one and of one of four blocks: 6 for 7 and 8, so that its CK is 9 less. */
static const struct track {
    uint8_t letter, satellite, fr;
    uint32_t mjd, start;
    const char *full, *least;
} TRACKS[] = {
    {'C', 5, 0, 50722, 120, LINE("C05", "50722", "000200", "0780", "00", "22"), LINE("C05", "50722", "000200", "0060", "00", "19")},
    {'G', 5, 0, 50722, 120, LINE("G05", "50722", "000200", "0780", "00", "26"), LINE("G05", "50722", "000200", "0060", "00", "1D")},
    {'G', 6, 0, 50722, 120, LINE("G06", "50722", "000200", "0780", "00", "27"), LINE("G06", "50722", "000200", "0060", "00", "1E")},
    {'R', 5, 1, 50722, 120, LINE("R05", "50722", "000200", "0780", "01", "32"), LINE("R05", "50722", "000200", "0060", "01", "29")},
    {'C', 5, 0, 50722, 1080, LINE("C05", "50722", "001800", "0780", "00", "29"), LINE("C05", "50722", "001800", "0060", "00", "20")},
    {'C', 5, 0, 50723, 840, LINE("C05", "50723", "001400", "0780", "00", "26"), LINE("C05", "50723", "001400", "0060", "00", "1D")},
};
enum { COUNT = sizeof TRACKS / sizeof TRACKS[0], ENDED = TRACKLINE_FILE_LINE_BYTES, EDGE = 32, LENT = 8 * ENDED };
enum { ROOM = 8 * TRACKLINE_BLOCK_BYTES };

static int failed, checked;

/* Blocks back to back, and where each begins. */
struct set {
    uint8_t bytes[ROOM];
    size_t length, at[8], count;
};

static void put(uint8_t *at, uint64_t number, size_t width)
{
    for (size_t i = 0; i < width; i++) {
        at[i] = (uint8_t)(number >> 8 * i);
    }
}

static void put_ps(uint8_t *at, int64_t ps)
{
    put(at, (uint64_t)ps, TRACKLINE_WIDTH_PS);
}

/* The sample's block with a track's keys and so many groups. Answers its length. */
static size_t put_block(uint8_t *block, const struct track *track, size_t groups)
{
    size_t length = TRACKLINE_BLOCK_BYTES_OF(groups);
    memset(block, 0, length);
    put(block + TRACKLINE_AT_MEASUREMENTS_SIZE, TRACKLINE_MEASUREMENTS_OF(groups), TRACKLINE_WIDTH_MEASUREMENTS_SIZE);
    put(block + TRACKLINE_AT_GROUPS_SIZE, groups, TRACKLINE_WIDTH_GROUPS_SIZE);
    block[TRACKLINE_AT_CONSTELLATION] = track->letter;
    block[TRACKLINE_AT_SATELLITE] = track->satellite;
    block[TRACKLINE_AT_CL] = 255;
    block[TRACKLINE_AT_FR] = track->fr;
    memcpy(block + TRACKLINE_AT_FRC, "L1C", TRACKLINE_WIDTH_FRC);
    put(block + TRACKLINE_AT_MJD, track->mjd, TRACKLINE_WIDTH_MJD);
    put(block + TRACKLINE_AT_START, track->start, TRACKLINE_WIDTH_START);
    put(block + TRACKLINE_AT_ELV, 450, TRACKLINE_WIDTH_ELV);
    put(block + TRACKLINE_AT_AZTH, 1800, TRACKLINE_WIDTH_AZTH);
    put(block + TRACKLINE_AT_IOE, 7, TRACKLINE_WIDTH_IOE);
    for (size_t i = 0; i < TRACKLINE_MEASUREMENTS_OF(groups); i++) {
        put_ps(block + TRACKLINE_AT_MEASUREMENTS + TRACKLINE_WIDTH_PS * i, 1000);
    }
    return length;
}

/* The tracks that a text names: A is the first of TRACKS in full, a the same of four blocks. */
static void of(const char *names, struct set *set)
{
    set->length = set->count = 0;
    for (; *names != '\0'; names++) {
        int full = *names < 'a';
        set->at[set->count++] = set->length;
        set->length += put_block(set->bytes + set->length, &TRACKS[*names - (full ? 'A' : 'a')],
                                 full ? TRACKLINE_GROUPS : TRACKLINE_LEAST_GROUPS);
    }
}

static void lines_of(const char *names, uint8_t *file)
{
    for (; *names != '\0'; names++, file += ENDED) {
        memcpy(file, *names < 'a' ? TRACKS[*names - 'A'].full : TRACKS[*names - 'a'].least, ENDED);
    }
}

static uint8_t pattern(size_t i)
{
    return (uint8_t)(i * 167 + 89);
}

static void expect_true(const char *what, int holds)
{
    checked++;
    if (!holds) {
        failed++;
        printf("FAILED %s\n", what);
    }
}

/* With so many bytes lent: the answer, these lines written or nothing and the block that is named, all else as it was. */
static void expect_day(const char *what, const struct set *set, size_t lent, uint32_t wanted, size_t named, const char *lines)
{
    static uint8_t room[EDGE + LENT + EDGE], file[LENT];
    static struct set before;
    size_t numbers[5] = {77, 77, 77, 77, 77}, length = wanted == 0 ? ENDED * strlen(lines) : 0;
    before = *set;
    lines_of(wanted == 0 ? lines : "", file);
    for (size_t i = 0; i < sizeof room; i++) {
        room[i] = pattern(i);
    }
    uint32_t got = trackline_day(set->length > 0 ? set->bytes : NULL, set->length, lent > 0 ? room + EDGE : NULL, lent, &numbers[1],
                                 &numbers[3]);
    checked++;
    if (got != wanted) {
        failed++;
        printf("FAILED %s: answered %" PRIu32 " with block %zu, should be %" PRIu32 " with %zu\n", what, got, numbers[3], wanted, named);
    }
    int right = 1;
    for (size_t i = 0; i < sizeof room; i++) {
        right &= room[i] == (i >= EDGE && i < EDGE + length ? file[i - EDGE] : pattern(i));
    }
    expect_true(what, right);
    expect_true(what, numbers[1] == (wanted == 0 ? length : 77) && numbers[3] == (wanted == 0 ? 77 : named));
    expect_true(what, numbers[0] == 77 && numbers[2] == 77 && numbers[4] == 77);
    expect_true(what, memcmp(&before, set, sizeof before) == 0);
}

/* Accepted with all the rooms that matter. */
static void accepted(const char *names)
{
    static struct set set;
    size_t count = strlen(names), length = ENDED * count;
    of(names, &set);
    size_t few[] = {0, 1, ENDED * (count - 1), length - 2, length - 1}, enough[] = {length, length + 1, length + ENDED};
    for (size_t i = 0; i < sizeof few / sizeof few[0]; i++) {
        expect_day(names, &set, few[i], TRACKLINE_LENT, count, "");
    }
    for (size_t i = 0; i < sizeof enough / sizeof enough[0]; i++) {
        expect_day(names, &set, enough[i], TRACKLINE_ACCEPTED, 0, names);
    }
}

static void test_accepted(void)
{
    static struct set none;
    char one[2] = "A";
    for (size_t lent = 0; lent < 3; lent++) {
        expect_day("no blocks", &none, lent * 58, TRACKLINE_ACCEPTED, 0, "");
    }
    for (int i = 0; i < COUNT; i++) {
        one[0] = (char)('A' + i);
        accepted(one);
        one[0] = (char)('a' + i);
        accepted(one);
    }
    accepted("AB");
    accepted("aB");
    accepted("Ab");
    accepted("ABCDEF");
    accepted("abcdef");
    accepted("AbCdEf");
    accepted("acF");
}

/* Every two tracks, full or of four blocks: the second follows the first where its letter is later. */
static void test_order(void)
{
    static const char NAMES[] = "ABCDEFabcdef";
    static struct set set;
    for (const char *one = NAMES; *one != '\0'; one++) {
        for (const char *other = NAMES; *other != '\0'; other++) {
            char names[3] = {*one, *other, '\0'};
            int follows = (*one - 'A') % 32 < (*other - 'A') % 32;
            of(names, &set);
            expect_day(names, &set, LENT, follows ? 0 : TRACKLINE_ORDER, 1, names);
            expect_day(names, &set, 0, follows ? TRACKLINE_LENT : TRACKLINE_ORDER, follows ? 2 : 1, "");
        }
    }
    of("ACB", &set);
    expect_day("third block before the second", &set, LENT, TRACKLINE_ORDER, 2, "");
    of("ABAC", &set);
    expect_day("fourth after the third alone", &set, LENT, TRACKLINE_ORDER, 2, "");
}

static void put_corrections(uint8_t *block, size_t in_group, const int64_t *four, int64_t step)
{
    for (size_t j = 0; j < TRACKLINE_GROUPS; j++) {
        put_ps(block + TRACKLINE_AT_GROUPS + TRACKLINE_WIDTH_GROUP * j + in_group, four[j % 4] + step * (int64_t)j);
    }
}

/* Puts one fault into a full block, by its number. */
static void spoil(uint8_t *block, uint32_t number)
{
    static const int64_t FAR[] = {-200000000000, -200000000000, -200000000000, -200000000000}, NONE[] = {0, 0, 0, 0},
                         BELOW[] = {-1000, -1000, -1000, -1000}, WAVE[] = {1000000000, -1000000000, -1000000000, 1000000000};
    switch (number) {
    case TRACKLINE_COUNT: /* 45 and 3 */
        put(block + TRACKLINE_AT_MEASUREMENTS_SIZE, 45, TRACKLINE_WIDTH_MEASUREMENTS_SIZE);
        put(block + TRACKLINE_AT_GROUPS_SIZE, 3, TRACKLINE_WIDTH_GROUPS_SIZE);
        break;
    case TRACKLINE_LIMIT:
        put_ps(block + TRACKLINE_AT_GD, TRACKLINE_MOST_CORRECTION + 1);
        break;
    case TRACKLINE_MIDPOINT: /* 10^12 and 2 x 10^11 are 12000000000 x 0.1 ns */
        for (size_t i = 0; i < TRACKLINE_MEASUREMENTS; i++) {
            put_ps(block + TRACKLINE_AT_MEASUREMENTS + TRACKLINE_WIDTH_PS * i, TRACKLINE_MOST_MEASUREMENT);
        }
        put_corrections(block, TRACKLINE_IN_GROUP_GEOMETRY, FAR, 0);
        break;
    case TRACKLINE_SLOPE: /* 10^8 ps in 15 s */
        put_corrections(block, TRACKLINE_IN_GROUP_CLOCK, NONE, 100000000);
        break;
    case TRACKLINE_DELAY:
        put_corrections(block, TRACKLINE_IN_GROUP_TROPOSPHERE, BELOW, 0);
        break;
    case TRACKLINE_SCATTER: /* 10^9 ps are 10^7 x 0.1 ns */
        put_corrections(block, TRACKLINE_IN_GROUP_CLOCK, WAVE, 0);
        break;
    case TRACKLINE_LABEL:
        block[TRACKLINE_AT_SATELLITE] = 0;
        break;
    default: /* TRACKLINE_START: one second late */
        put(block + TRACKLINE_AT_START, (uint64_t)(block[TRACKLINE_AT_START] | block[TRACKLINE_AT_START + 1] << 8) + 1, TRACKLINE_WIDTH_START);
    }
}

static const uint32_t NUMBERS[] = {TRACKLINE_COUNT, TRACKLINE_LIMIT,   TRACKLINE_MIDPOINT, TRACKLINE_SLOPE,
                                   TRACKLINE_DELAY, TRACKLINE_SCATTER, TRACKLINE_LABEL,    TRACKLINE_START};
enum { KINDS = sizeof NUMBERS / sizeof NUMBERS[0] };

/* Each refusal at the first, a middle and the last block, with room and without. */
static void test_places(void)
{
    static const size_t PLACES[] = {0, 1, 3, 5};
    static struct set set;
    for (int kind = 0; kind < KINDS; kind++) {
        for (size_t i = 0; i < sizeof PLACES / sizeof PLACES[0]; i++) {
            of("ABCDEF", &set);
            spoil(set.bytes + set.at[PLACES[i]], NUMBERS[kind]);
            expect_day("one fault", &set, LENT, NUMBERS[kind], PLACES[i], "");
            expect_day("one fault and no room", &set, 0, NUMBERS[kind], PLACES[i], "");
        }
    }
}

/* Every two: the earlier block's decides, whatever its number; in one block its own before 16. */
static void test_two(void)
{
    static struct set set;
    for (int one = 0; one < KINDS; one++) {
        for (int other = 0; other < KINDS; other++) {
            of("ABCDEF", &set);
            spoil(set.bytes + set.at[1], NUMBERS[one]);
            spoil(set.bytes + set.at[3], NUMBERS[other]);
            expect_day("two faults", &set, LENT, NUMBERS[one], 1, "");
        }
        of("ABB", &set);
        spoil(set.bytes + set.at[2], NUMBERS[one]);
        expect_day("a fault where the keys are the same", &set, LENT, NUMBERS[one], 2, "");
        of("ABBD", &set);
        spoil(set.bytes + set.at[3], NUMBERS[one]);
        expect_day("the same keys before a fault", &set, LENT, TRACKLINE_ORDER, 2, "");
        of("ABDD", &set);
        spoil(set.bytes + set.at[1], NUMBERS[one]);
        expect_day("a fault before the same keys", &set, LENT, NUMBERS[one], 1, "");
    }
}

/* Bytes behind the last block: those of another, cut, or zeros, which are no sizes. */
static void test_trailing(void)
{
    static const size_t LENGTHS[] = {1, 2, 3, 4, 58, TRACKLINE_BLOCK_BYTES - 1};
    static struct set set;
    for (size_t i = 0; i < sizeof LENGTHS / sizeof LENGTHS[0]; i++) {
        of("ABC", &set);
        set.length = set.at[2] + LENGTHS[i];
        expect_day("a cut last block", &set, LENT, TRACKLINE_LENGTH, 2, "");
        memset(set.bytes + set.at[2], 0, LENGTHS[i]);
        expect_day("zeros behind", &set, LENT, LENGTHS[i] < 4 ? TRACKLINE_LENGTH : TRACKLINE_COUNT, 2, "");
        of("A", &set);
        set.length = LENGTHS[i];
        expect_day("a cut block alone", &set, 0, TRACKLINE_LENGTH, 0, "");
    }
    /* a block that lost 8 bytes takes the first 8 of the next for its last clock, a number beyond its limit */
    of("ABC", &set);
    memmove(set.bytes + set.at[1] - 8, set.bytes + set.at[1], set.length - set.at[1]);
    set.length -= 8;
    expect_day("8 bytes lost", &set, LENT, TRACKLINE_LIMIT, 0, "");
}

/* More blocks than lines are kept of: each line is that of trackline_block, and the block that offends is found behind them. */
static void test_long(void)
{
    enum { MANY = TRACKLINE_DAY_KEPT + 4, BYTES = TRACKLINE_BLOCK_BYTES_OF(TRACKLINE_LEAST_GROUPS) };
    uint8_t *blocks = malloc((size_t)MANY * BYTES), *file = malloc((size_t)MANY * ENDED + 1);
    size_t written = 77, block = 77;
    if (blocks == NULL || file == NULL) {
        exit(2);
    }
    for (uint32_t i = 0; i < MANY; i++) {
        /* 99 satellites at each of the 89 starts of a date; those of the next date begin at 00:14 */
        uint32_t later = i / (89 * 99), start = i / 99 % 89;
        struct track track = {'G', (uint8_t)(1 + i % 99), 0, 50722 + later, (later ? 840 : 120) + 960 * start, NULL, NULL};
        put_block(blocks + (size_t)i * BYTES, &track, TRACKLINE_LEAST_GROUPS);
    }
    file[(size_t)MANY * ENDED] = 77;
    uint32_t answer = trackline_day(blocks, (size_t)MANY * BYTES, file, (size_t)MANY * ENDED, &written, &block);
    expect_true("a long set", answer == TRACKLINE_ACCEPTED && written == (size_t)MANY * ENDED && block == 77);
    int right = file[(size_t)MANY * ENDED] == 77;
    for (size_t i = 0; i < MANY; i++) {
        uint8_t line[TRACKLINE_LINE_BYTES];
        right &= trackline_block(blocks + i * BYTES, BYTES, line, sizeof line) == TRACKLINE_ACCEPTED
              && memcmp(file + i * ENDED, line, sizeof line) == 0 && memcmp(file + i * ENDED + sizeof line, "\r\n", 2) == 0;
    }
    expect_true("its lines", right);
    blocks[(size_t)(MANY - 1) * BYTES + TRACKLINE_AT_SATELLITE] = 0;
    memset(file, 77, (size_t)MANY * ENDED);
    answer = trackline_day(blocks, (size_t)MANY * BYTES, file, (size_t)MANY * ENDED, &written, &block);
    expect_true("a long set's last block", answer == TRACKLINE_LABEL && block == MANY - 1 && written == (size_t)MANY * ENDED);
    right = 1;
    for (size_t i = 0; i < (size_t)MANY * ENDED; i++) {
        right &= file[i] == 77;
    }
    expect_true("nothing of a refused long set", right);
    free(blocks);
    free(file);
}

int main(void)
{
    test_accepted();
    test_order();
    test_places();
    test_two();
    test_trailing();
    test_long();
    printf("c day: %d checks, %d failed\n", checked, failed);
    return failed != 0;
}

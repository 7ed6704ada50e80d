/*
 * Calls the functions on line files from C: every byte of a lent file of all the lengths that matter and of the bytes
 * around it, each refusal at each line, and the order of two faults. Expected answers are written out here; the lines are
 * the paper's sample with other keys, and their CK was worked out by hand from its 26.
 *
 *     cc -std=c11 -Wall -Wextra -Werror -pedantic -Iinclude tests/c/files_test.c libtrackline.a && ./a.out
 */
#include <inttypes.h>
#include <stdio.h>
#include <string.h>

#include "trackline.h"

#define LINE(satellite, date, clock, class, fr, ck)                                                           \
    satellite " " class " " date " " clock " 0780 450 1800 +0000000010 +00000 +0000000010 +00000 0000 007 " \
              "0000 +000 0000 +000 " fr " 00 L1C " ck "\r\n"

/* In their order: by date, start, letter, satellite. MJD 50723 has 00:14, which is before 50722's 00:18 by the clock. */
static const char *const LINES[] = {
    LINE("C05", "50722", "000200", "FF", "00", "22"), LINE("G05", "50722", "000200", "FF", "00", "26"),
    LINE("G06", "50722", "000200", "FF", "00", "27"), LINE("R05", "50722", "000200", "FF", "01", "32"),
    LINE("C05", "50722", "001800", "FF", "00", "29"), LINE("C05", "50723", "001400", "FF", "00", "26"),
};
enum { COUNT = sizeof LINES / sizeof LINES[0], ENDED = 115, ROOM = 2048, EDGE = 32 };

/* Lines that are refused where they stand, or behind others. */
static const struct faulty {
    const char *line;
    uint32_t number;
} FAULTY[] = {
    {LINE("G05", "50722", "000200", "FF", "00", "25"), 14},   /* another CK */
    {LINE(" 05", "50722", "000200", "FF", "00", "FF"), 13},   /* no constellation: 20 for 47 hexadecimal */
    {LINE("G00", "50722", "000200", "FF", "00", "21"), 7},    /* satellite 0 */
    {LINE("G05", "50722", "000201", "FF", "00", "27"), 8},    /* no start */
    {"G05 FF 50722 000200 0780 450 1800 +0000000010 +00000 +0000000010 +00000 0000 007 0000 +000 0000 +000 00 00 L1C 26\n\r", 13},
};
enum { FAULTS = sizeof FAULTY / sizeof FAULTY[0] };
/* The keys of the second of LINES, and another class: 'F' twice, 8C, for '0' twice, 60. */
static const char OTHER[] = LINE("G05", "50722", "000200", "00", "00", "FA");

static int failed, checked;
static uint8_t room[EDGE + ROOM + EDGE];
static size_t numbers[3];

static uint8_t pattern(size_t i)
{
    return (uint8_t)(i * 167 + 89);
}

static void expect_true(const char *what, int holds)
{
    checked++;
    if (!holds) {
        failed++;
        printf("FAILED %s\n", what);
    }
}

/* A file that is put together line by line. */
struct file {
    uint8_t bytes[ROOM];
    size_t length;
};

static void add(struct file *file, const char *text, size_t length)
{
    memcpy(file->bytes + file->length, text, length);
    file->length += length;
}

/* The lines that a text names: A is the first of LINES. */
static struct file of(const char *names)
{
    struct file file = {{0}, 0};
    for (; *names != '\0'; names++) {
        add(&file, LINES[*names - 'A'], ENDED);
    }
    return file;
}

/* Merges with so many bytes lent: the answer, these lines written or nothing, all else as it was. */
static void expect_merge(const char *what, const struct file *first, const struct file *second, size_t lent, uint32_t wanted,
                         const char *lines)
{
    struct file result = of(lines), one = *first, other = *second;
    for (size_t i = 0; i < sizeof room; i++) {
        room[i] = pattern(i);
    }
    numbers[0] = numbers[1] = numbers[2] = 77;
    uint32_t got = trackline_merge(first->length > 0 ? first->bytes : NULL, first->length, second->length > 0 ? second->bytes : NULL,
                                   second->length, lent > 0 ? room + EDGE : NULL, lent, &numbers[1]);
    checked++;
    if (got != wanted) {
        failed++;
        printf("FAILED %s: answered %" PRIu32 ", should be %" PRIu32 "\n", what, got, wanted);
    }
    int right = 1;
    for (size_t i = 0; i < sizeof room; i++) {
        int written = wanted == 0 && i >= EDGE && i < EDGE + result.length;
        right &= room[i] == (written ? result.bytes[i - EDGE] : pattern(i));
    }
    expect_true(what, right);
    expect_true(what, numbers[0] == 77 && numbers[1] == (wanted == 0 ? result.length : 77) && numbers[2] == 77);
    expect_true(what, memcmp(&one, first, sizeof one) == 0 && memcmp(&other, second, sizeof other) == 0);
}

/* Both ways round, with all the rooms that matter. */
static void merged(const char *first_lines, const char *second_lines, const char *lines)
{
    struct file first = of(first_lines), second = of(second_lines);
    size_t length = ENDED * strlen(lines);
    const size_t rooms[] = {0, 1, length > 0 ? length - 1 : 0, length, length + 1, length + ENDED, ROOM};
    for (size_t i = 0; i < sizeof rooms / sizeof rooms[0]; i++) {
        uint32_t wanted = rooms[i] < length ? 17 : 0;
        expect_merge(lines, &first, &second, rooms[i], wanted, lines);
        expect_merge(lines, &second, &first, rooms[i], wanted, lines);
    }
}

static void files(void)
{
    merged("", "", "");
    merged("A", "", "A");
    merged("A", "A", "A");
    merged("A", "F", "AF");
    merged("ACE", "BDF", "ABCDEF");
    merged("ABC", "DEF", "ABCDEF");
    merged("ABCDEF", "", "ABCDEF");
    merged("ABCDEF", "ABCDEF", "ABCDEF");
    merged("ABCDEF", "BE", "ABCDEF");
    merged("ABCD", "CDEF", "ABCDEF");
    merged("AF", "BCDE", "ABCDEF");
}

/* Every two lines that do not ascend, in either file, with room and without; behind an accepted file, before a faulty one. */
static void orders(void)
{
    struct file empty = of(""), good = of("AB"), falling = of("BA");
    for (char i = 'A'; i < 'A' + COUNT; i++) {
        for (char j = 'A'; j <= i; j++) {
            const char names[] = {i, j, '\0'};
            struct file file = of(names);
            expect_merge("not ascending", &file, &empty, ROOM, 16, "");
            expect_merge("not ascending", &empty, &file, ROOM, 16, "");
            expect_merge("not ascending", &good, &file, 0, 16, "");
            expect_merge("not ascending", &file, &falling, 0, 16, "");
        }
    }
}

/* A faulty line at each place of a file, the other file good, faulty or falling. */
static void faults(void)
{
    struct file good = of("ACE"), falling = of("BA");
    for (size_t i = 0; i < FAULTS; i++) {
        for (size_t at = 0; at <= COUNT; at++) {
            struct file file = {{0}, 0};
            for (size_t k = 0; k <= COUNT; k++) {
                if (k == at) {
                    add(&file, FAULTY[i].line, ENDED);
                }
                if (k < COUNT) {
                    add(&file, LINES[k], ENDED);
                }
            }
            expect_merge("first file", &file, &good, ROOM, FAULTY[i].number, "");
            expect_merge("second file", &good, &file, ROOM, FAULTY[i].number, "");
            expect_merge("first file, no room", &file, &falling, 0, FAULTY[i].number, "");
            expect_merge("second file behind one that falls", &falling, &file, ROOM, 16, "");
        }
    }
}

/* Of two faulty lines in a row the first decides; behind them and before them, a tail. */
static void order_of_lines(void)
{
    struct file good = of("A");
    for (size_t i = 0; i < FAULTS; i++) {
        for (size_t j = 0; j < FAULTS; j++) {
            struct file file = of("A");
            add(&file, FAULTY[i].line, ENDED);
            add(&file, FAULTY[j].line, ENDED);
            add(&file, LINES[0], 100);
            expect_merge("two faults", &file, &good, ROOM, FAULTY[i].number, "");
            expect_merge("two faults", &good, &file, ROOM, FAULTY[i].number, "");
        }
    }
}

static void tails(void)
{
    struct file good = of("AC"), falling = of("BA");
    for (size_t tail = 1; tail < ENDED; tail++) {
        struct file alone = of(""), file = of("AB"), wrong = of("BA");
        add(&alone, LINES[0], tail);
        add(&file, LINES[2], tail);
        add(&wrong, LINES[2], tail);
        expect_merge("a tail alone", &alone, &good, ROOM, 12, "");
        expect_merge("a tail in the first file", &file, &falling, ROOM, 12, "");
        expect_merge("a tail in the second file", &good, &file, 0, 12, "");
        expect_merge("16 before a tail", &wrong, &good, 0, 16, "");
    }
}

/* 15 after both files' refusals, and before 17. */
static void lines_that_differ(void)
{
    struct file first = of("ABC"), other = of("A"), alone = of(""), twice = of("AB"), falling = of("CA");
    add(&other, OTHER, ENDED);
    add(&alone, OTHER, ENDED);
    add(&twice, OTHER, ENDED);
    for (size_t lent = 0; lent <= 5 * ENDED; lent++) {
        expect_merge("lines that differ", &first, &other, lent, 15, "");
        expect_merge("lines that differ", &other, &first, lent, 15, "");
    }
    expect_merge("one line of each", &alone, &first, ROOM, 15, "");
    expect_merge("in one file", &twice, &other, ROOM, 16, "");
    expect_merge("behind a faulty file", &falling, &other, ROOM, 16, "");
    expect_merge("before a faulty file", &other, &falling, ROOM, 16, "");
}

static void header(void)
{
    expect_true("the header's bytes of a line", TRACKLINE_FILE_LINE_BYTES == ENDED);
    expect_true("the header's names", TRACKLINE_DIFFER == 15 && TRACKLINE_ORDER == 16 && TRACKLINE_ROOM == 17);
    for (size_t i = 0; i < COUNT; i++) {
        expect_true("a line's bytes", strlen(LINES[i]) == ENDED);
    }
}

int main(void)
{
    header();
    files();
    orders();
    faults();
    order_of_lines();
    tails();
    lines_that_differ();
    printf("c files: %d checks, %d failed\n", checked, failed);
    return failed != 0;
}

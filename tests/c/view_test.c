/*
 * Calls trackline_view from C: every number of the lent report and of those around it, each refusal at each line, the order of
 * two faults, the longest files. Expected answers are written out here; the lines are the paper's sample with other keys,
 * track lengths and REFSYS, and their CK was worked out by hand from its 26.
 *
 *     cc -std=c11 -Wall -Wextra -Werror -pedantic -Iinclude tests/c/view_test.c libtrackline.a && ./a.out
 */
#define _DEFAULT_SOURCE

#include <inttypes.h>
#include <stdio.h>
#include <string.h>
#include <sys/mman.h>

#include "trackline.h"

#define LINE(satellite, date, clock, trkl, refsys, fr, ck)                                                                   \
    satellite " FF " date " " clock " " trkl " 450 1800 +0000000010 +00000 " refsys " +00000 0000 007 0000 +000 0000 +000 " \
              fr " 00 L1C " ck "\r\n"

/* Six tracks as one receiver saw them, A to F, and as another did, a to f; 1 to 6 are A to F with another track length. */
static const char *const LINES[3][6] = {
    {LINE("C05", "50722", "000200", "0780", "+0000000315", "00", "2A"),
     LINE("G05", "50722", "000200", "0780", "-0000000040", "00", "2B"),
     LINE("G06", "50722", "000200", "0780", "+0000000007", "00", "2D"),
     LINE("R05", "50722", "000200", "0780", "+9999999999", "01", "8B"),
     LINE("C05", "50722", "001800", "0780", "-9999999999", "00", "84"),
     LINE("C05", "50723", "001400", "0780", "+0000000000", "00", "25")},
    {LINE("C05", "50722", "000200", "0780", "+0000000300", "00", "24"),
     LINE("G05", "50722", "000200", "0780", "+0000000002", "00", "27"),
     LINE("G06", "50722", "000200", "0780", "+0000000007", "00", "2D"),
     LINE("R05", "50722", "000200", "0780", "-9999999999", "01", "8D"),
     LINE("C05", "50722", "001800", "0780", "+9999999999", "00", "82"),
     LINE("C05", "50723", "001400", "0780", "+0000000001", "00", "26")},
    {LINE("C05", "50722", "000200", "0765", "+0000000315", "00", "2D"),
     LINE("G05", "50722", "000200", "0765", "-0000000040", "00", "2E"),
     LINE("G06", "50722", "000200", "0765", "+0000000007", "00", "30"),
     LINE("R05", "50722", "000200", "0765", "+9999999999", "01", "8E"),
     LINE("C05", "50722", "001800", "0765", "-9999999999", "00", "87"),
     LINE("C05", "50723", "001400", "0765", "+0000000000", "00", "28")},
};
enum { COUNT = 6, ENDED = 115, ROOM = 1024, EDGE = 8, MOST_NUMBERS = 9, LONGEST = 1150000 };

/* Lines that are refused where they stand. */
#define SAMPLE \
    "G05 FF 50722 000200 0780 450 1800 +0000000010 +00000 +0000000010 +00000 0000 007 0000 +000 0000 +000 00 00 L1C 26"
static const struct faulty {
    const char *line;
    uint32_t number;
} FAULTY[] = {
    {LINE("G05", "50722", "000200", "0780", "+0000000010", "00", "25"), 14}, /* another CK */
    {LINE("G05", "50722", "000200", "0780", "-0000000000", "00", "27"), 13}, /* a minus before a zero */
    {LINE("G00", "50722", "000200", "0780", "+0000000010", "00", "21"), 7},  /* satellite 0 */
    {LINE("G05", "50722", "000200", "0781", "+0000000010", "00", "27"), 7},  /* no track length */
    {LINE("G05", "50722", "000201", "0780", "+0000000010", "00", "27"), 8},  /* no start */
    {SAMPLE "\n\r", 13},
    {SAMPLE " \n", 13},
    {SAMPLE "\r ", 13},
};
enum { FAULTS = sizeof FAULTY / sizeof FAULTY[0] };

/* Pairs, sum, smallest, largest; nothing where no pair exists. */
static const struct known {
    const char *first, *second;
    int64_t report[4];
} KNOWN[] = {
    {"A", "a", {1, 15, 15, 15}},
    {"B", "b", {1, -42, -42, -42}},
    {"C", "c", {1, 0, 0, 0}},
    {"D", "d", {1, 19999999998, 19999999998, 19999999998}},
    {"F", "f", {1, -1, -1, -1}},
    {"AB", "ab", {2, -27, -42, 15}},
    {"BF", "bf", {2, -43, -42, -1}},
    {"AD", "ad", {2, 20000000013, 15, 19999999998}},
    {"DE", "de", {2, 0, -19999999998, 19999999998}},
    {"ABC", "abc", {3, -27, -42, 15}},
    {"ABCDEF", "abcdef", {6, -28, -19999999998, 19999999998}},
    {"ACE", "abcdef", {3, -19999999983, -19999999998, 15}},
    {"ABCDEF", "bd", {2, 19999999956, -42, 19999999998}},
    {"AB", "bc", {1, -42, -42, -42}},
    {"ADF", "aef", {2, 14, -1, 15}},
    {"ABCDEF", "ABCDEF", {6, 0, 0, 0}},
    {"123456", "123456", {6, 0, 0, 0}},
    {"1B", "ab", {1, -42, -42, -42}},
    {"A2C", "abc", {2, 15, 0, 15}},
    {"12345F", "abcdef", {1, -1, -1, -1}},
    {"", "", {0, 0, 0, 0}},
    {"A", "", {0, 0, 0, 0}},
    {"ABCDEF", "", {0, 0, 0, 0}},
    {"A", "b", {0, 0, 0, 0}},
    {"A", "1", {0, 0, 0, 0}},
    {"ACE", "bdf", {0, 0, 0, 0}},
    {"ABC", "def", {0, 0, 0, 0}},
    {"ABCDEF", "123456", {0, 0, 0, 0}},
};

static int failed, checked;
static int64_t numbers[EDGE + MOST_NUMBERS + EDGE];
static const int64_t NOTHING[4];

static int64_t pattern(size_t i)
{
    return (int64_t)i * 1000003 - 77;
}

static void expect_true(const char *what, int holds)
{
    checked++;
    if (!holds) {
        failed++;
        printf("FAILED %s\n", what);
    }
}

/* A file that is put together line by line. */
struct file {
    uint8_t bytes[ROOM];
    size_t length;
};

static void add(struct file *file, const char *text, size_t length)
{
    memcpy(file->bytes + file->length, text, length);
    file->length += length;
}

static const char *line_of(char name)
{
    return name >= 'a' ? LINES[1][name - 'a'] : name >= 'A' ? LINES[0][name - 'A'] : LINES[2][name - '1'];
}

static struct file of(const char *names)
{
    struct file file = {{0}, 0};
    for (; *names != '\0'; names++) {
        add(&file, line_of(*names), ENDED);
    }
    return file;
}

/* So many numbers lent, or NULL: the answer, the report in the first four or nothing, all else as it was. */
static void expect_call(const char *what, const uint8_t *first, size_t first_len, const uint8_t *second, size_t second_len,
                        size_t lent, uint32_t wanted, const int64_t report[4])
{
    for (size_t i = 0; i < sizeof numbers / sizeof numbers[0]; i++) {
        numbers[i] = pattern(i);
    }
    uint32_t got = trackline_view(first, first_len, second, second_len, lent > 0 ? numbers + EDGE : NULL, lent);
    checked++;
    if (got != wanted) {
        failed++;
        printf("FAILED %s: answered %" PRIu32 ", should be %" PRIu32 "\n", what, got, wanted);
    }
    int right = 1;
    for (size_t i = 0; i < sizeof numbers / sizeof numbers[0]; i++) {
        int written = wanted == 0 && i >= EDGE && i < EDGE + 4;
        right &= numbers[i] == (written ? report[i - EDGE] : pattern(i));
    }
    expect_true(what, right);
}

/* An empty file is NULL. */
static void expect_view(const char *what, const struct file *first, const struct file *second, size_t lent, uint32_t wanted,
                        const int64_t report[4])
{
    struct file one = *first, other = *second;
    expect_call(what, first->length > 0 ? first->bytes : NULL, first->length, second->length > 0 ? second->bytes : NULL,
                second->length, lent, wanted, report);
    expect_true(what, memcmp(&one, first, sizeof one) == 0 && memcmp(&other, second, sizeof other) == 0);
}

/* Both ways round, with all the reports that matter. */
static void reports(void)
{
    for (size_t i = 0; i < sizeof KNOWN / sizeof KNOWN[0]; i++) {
        const int64_t *report = KNOWN[i].report;
        const int64_t turned[4] = {report[0], -report[1], -report[3], -report[2]};
        struct file first = of(KNOWN[i].first), second = of(KNOWN[i].second);
        for (size_t lent = 0; lent <= MOST_NUMBERS; lent++) {
            uint32_t wanted = report[0] == 0 ? 18 : lent < 4 ? 9 : 0;
            expect_view(KNOWN[i].first, &first, &second, lent, wanted, report);
            expect_view(KNOWN[i].second, &second, &first, lent, wanted, turned);
        }
    }
}

/* A file with a faulty line, beside one that is good, empty, without a pair or falling. */
static void expect_fault(const struct file *file, uint32_t number)
{
    struct file good = of("ace"), empty = of(""), falling = of("ba");
    expect_view("first file", file, &good, 4, number, NOTHING);
    expect_view("second file", &good, file, 4, number, NOTHING);
    expect_view("first file, 18 and 9 behind it", file, &empty, 0, number, NOTHING);
    expect_view("second file, 18 and 9 behind it", &empty, file, 3, number, NOTHING);
    expect_view("first file before one that falls", file, &falling, 4, number, NOTHING);
    expect_view("second file behind one that falls", &falling, file, 4, 16, NOTHING);
}

/* A faulty line behind so many lines of A to F, and the others behind it. */
static void fault_at(const struct faulty *faulty, size_t at)
{
    struct file file = of(""), all = of("ABCDEF");
    add(&file, (const char *)all.bytes, ENDED * at);
    add(&file, faulty->line, ENDED);
    add(&file, (const char *)all.bytes + ENDED * at, all.length - ENDED * at);
    expect_fault(&file, faulty->number);
}

/* At each place of a file. */
static void faults(void)
{
    for (size_t i = 0; i < FAULTS * (COUNT + 1); i++) {
        fault_at(&FAULTY[i / (COUNT + 1)], i % (COUNT + 1));
    }
}

/* Every two lines that do not ascend, also by another track length or REFSYS alone, in either file. */
static void orders(void)
{
    struct file empty = of(""), good = of("abc");
    for (char i = 0; i < COUNT; i++) {
        for (char j = 0; j <= i; j++) {
            for (const char *kind = "Aa1"; *kind != '\0'; kind++) {
                const char names[] = {(char)('A' + i), (char)(*kind + j), '\0'};
                struct file file = of(names);
                expect_view("not ascending", &file, &good, 4, 16, NOTHING);
                expect_view("not ascending", &good, &file, 4, 16, NOTHING);
                expect_view("not ascending", &empty, &file, 0, 16, NOTHING);
            }
        }
    }
}

static void tails(void)
{
    struct file good = of("ac"), falling = of("BA"), empty = of("");
    for (size_t tail = 1; tail < ENDED; tail++) {
        struct file alone = of(""), file = of("AB"), wrong = of("BA");
        add(&alone, LINES[0][0], tail);
        add(&file, LINES[0][2], tail);
        add(&wrong, LINES[0][2], tail);
        expect_view("a tail alone", &alone, &good, 4, 12, NOTHING);
        expect_view("a tail beside nothing", &empty, &alone, 0, 12, NOTHING);
        expect_view("a tail in the first file", &file, &falling, 4, 12, NOTHING);
        expect_view("a tail in the second file", &good, &file, 3, 12, NOTHING);
        expect_view("16 before a tail", &wrong, &good, 4, 16, NOTHING);
    }
}

static uint8_t high[LONGEST + ENDED], low[LONGEST + ENDED];

/* Line i of a long file: 198 satellites at each start of MJD 50722. */
static void long_line(uint8_t *to, int i, const char *refsys)
{
    char text[256], ck[8];
    int minute = 2 + 16 * (i / 198), satellite = i % 198;
    snprintf(text, sizeof text,
             "%c%02d FF 50722 %02d%02d00 0780 450 1800 +0000000010 +00000 %s +00000 0000 007 0000 +000 0000 +000 00 00 L1C ",
             satellite < 99 ? 'G' : 'J', satellite % 99 + 1, minute / 60, minute % 60, refsys);
    unsigned sum = 0;
    for (size_t k = 0; k < 111; k++) {
        sum += (unsigned char)text[k];
    }
    snprintf(ck, sizeof ck, "%02X\r\n", sum % 256);
    memcpy(to, text, 111);
    memcpy(to + 111, ck, 4);
}

/* 10,000 lines and one more: the largest differences, and lengths beside the longest. */
static void longest(void)
{
    static const int64_t above[4] = {10000, 199999999980000, 19999999998, 19999999998};
    static const int64_t below[4] = {10000, -199999999980000, -19999999998, -19999999998};
    static const int64_t same[4] = {10000, 0, 0, 0}, last[4] = {1, 19999999998, 19999999998, 19999999998};
    for (int i = 0; i <= 10000; i++) {
        long_line(high + ENDED * i, i, "+9999999999");
        long_line(low + ENDED * i, i, "-9999999999");
    }
    expect_call("the largest differences", high, LONGEST, low, LONGEST, 4, 0, above);
    expect_call("the smallest differences", low, LONGEST, high, LONGEST, 5, 0, below);
    expect_call("a file with itself", high, LONGEST, high, LONGEST, 4, 0, same);
    expect_call("the last line of 10,000", high, LONGEST, low + LONGEST - ENDED, ENDED, 4, 0, last);
    expect_call("a line more is in no pair", high + LONGEST, ENDED, low, LONGEST, 4, 18, NOTHING);
    const size_t lengths[] = {LONGEST - 1, LONGEST, LONGEST + 1, LONGEST + ENDED};
    for (size_t i = 0; i < 4; i++) {
        for (size_t j = 0; j < 4; j++) {
            uint32_t wanted = i > 1 || j > 1 ? 19 : i == 0 || j == 0 ? 12 : 0;
            expect_call("a length beside the longest", high, lengths[i], low, lengths[j], 4, wanted, above);
            expect_call("a report too short", high, lengths[i], low, lengths[j], 3, wanted == 0 ? 9 : wanted, NOTHING);
        }
        expect_call("beside nothing", high, lengths[i], NULL, 0, 4, i > 1 ? 19 : i == 0 ? 12 : 18, NOTHING);
        expect_call("beside nothing", NULL, 0, low, lengths[i], 0, i > 1 ? 19 : i == 0 ? 12 : 18, NOTHING);
    }
}

/* 19 comes before a byte is read: of memory that can't be read. */
static void not_read(void)
{
    uint8_t *closed = mmap(NULL, 4 * LONGEST, PROT_NONE, MAP_PRIVATE | MAP_ANONYMOUS, -1, 0);
    expect_true("memory that can't be read", closed != MAP_FAILED);
    if (closed == MAP_FAILED) {
        return;
    }
    expect_call("neither file read", closed, LONGEST + 1, closed, LONGEST + 1, 4, 19, NOTHING);
    expect_call("the first file not read before the second's length", closed, LONGEST, closed, LONGEST + 1, 4, 19, NOTHING);
    expect_call("the second file not read", closed, 4 * LONGEST, closed, ENDED, 4, 19, NOTHING);
    expect_call("no report read or written", closed, LONGEST + 1, NULL, 0, 0, 19, NOTHING);
    munmap(closed, 4 * LONGEST);
}

static void header(void)
{
    expect_true("the header's names", TRACKLINE_NO_PAIR == 18 && TRACKLINE_FILE_LENGTH == 19);
    expect_true("the header's longest file", TRACKLINE_FILE_MOST_LINES * TRACKLINE_FILE_LINE_BYTES == LONGEST);
    expect_true("the header's places of a report", TRACKLINE_REPORT_PAIRS == 0 && TRACKLINE_REPORT_SUM == 1 &&
                TRACKLINE_REPORT_SMALLEST == 2 && TRACKLINE_REPORT_LARGEST == 3 && TRACKLINE_REPORT_NUMBERS == 4);
    for (size_t i = 0; i < 3 * COUNT; i++) {
        expect_true("a line's bytes", strlen(LINES[i / COUNT][i % COUNT]) == ENDED);
    }
}

int main(void)
{
    header();
    reports();
    faults();
    orders();
    tails();
    longest();
    fflush(stdout); /* a program that reads what it may not ends here */
    not_read();
    printf("c view: %d checks, %d failed\n", checked, failed);
    return failed != 0;
}

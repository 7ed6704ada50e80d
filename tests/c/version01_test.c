/*
 * Calls trackline_down and trackline_up from C: lines of both forms, every length of what is given and of what is lent, every byte
 * in every column, each refusal and each two of them, every HC and every byte of FRC, and both ways one after the other. Expected
 * answers are written out here; CK of the old lines was worked out by hand from that of the paper's sample, 26.
 *
 *     cc -std=c11 -Wall -Wextra -Werror -pedantic -Iinclude tests/c/version01_test.c libtrackline.a && ./a.out
 */
#include <inttypes.h>
#include <stdio.h>
#include <string.h>

#include "trackline.h"

/* Columns 2 to 101 of the sample, and of a line without a zero in its numbers. */
#define SAMPLE "05 FF 50722 000200 0780 450 1800 +0000000010 +00000 +0000000010 +00000 0000 007 0000 +000 0000 +000 "
#define BUSY "24 8D 50723 001400 0780 899 3598 -9876543210 -98765 +8999912392 +78799 9889 195 9819 -899 8699 +898 "

enum { OURS = TRACKLINE_LINE_BYTES, OLD = TRACKLINE_OLD_BYTES, EDGE = 32, LENT = 300, GIVEN = 4096 };
/* What columns 2 to 101 may hold. */
static const char KINDS[] = "99 FF 99999 999999 9999 999 9999 +9999999999 +99999 +9999999999 +99999 9999 999 9999 +999 9999 +999 ";

static int checks, failures;

/* What one call is given, by the way that it goes. */
struct call {
    int up;
    const uint8_t *line;
    size_t length;
    uint8_t hc, frc[3];
};

static uint32_t made(const struct call *call, uint8_t *lent, size_t room)
{
    return call->up ? trackline_up(call->line, call->length, call->hc, call->frc[0], call->frc[1], call->frc[2], lent, room)
                    : trackline_down(call->line, call->length, lent, room);
}

/* The answer, and every byte of what is lent and of the bytes around it. */
static void expect(const struct call *call, size_t room, uint32_t wanted, const char *text)
{
    uint8_t lent[LENT + 2 * EDGE], left[LENT + 2 * EDGE];
    for (size_t i = 0; i < sizeof lent; i++) {
        lent[i] = left[i] = (uint8_t)(7 * i + room + 128);
    }
    if (wanted == TRACKLINE_ACCEPTED) {
        memcpy(left + EDGE, text, call->up ? OURS : OLD);
    }
    uint32_t answer = made(call, lent + EDGE, room);
    checks++;
    if (answer != wanted || memcmp(lent, left, sizeof lent) != 0) {
        printf("version 01: %s of %zu bytes, \"%.*s\", with %zu lent: answered %" PRIu32 ", not %" PRIu32 "%s\n", call->up ? "up" : "down",
               call->length, (int)(call->length < 140 ? call->length : 140), (const char *)call->line, room, answer, wanted,
               memcmp(lent, left, sizeof lent) != 0 ? ", and other bytes are lent back" : "");
        failures++;
    }
}

static struct call down(const char *line, size_t length)
{
    return (struct call){0, (const uint8_t *)line, length, 0, {0, 0, 0}};
}

static struct call up(const char *old, size_t length, unsigned hc, const char *frc)
{
    return (struct call){1, (const uint8_t *)old, length, (uint8_t)hc, {(uint8_t)frc[0], (uint8_t)frc[1], (uint8_t)frc[2]}};
}

/* Both with as much room as they ask for, or less. */
static void expect_down(const char *line, size_t length, uint32_t wanted, const char *text)
{
    struct call call = down(line, length);
    expect(&call, OLD, wanted, text);
    expect(&call, OLD - 1, wanted == TRACKLINE_ACCEPTED ? TRACKLINE_LENT : wanted, NULL);
}

static void expect_up(const char *old, size_t length, unsigned hc, const char *frc, uint32_t wanted, const char *text)
{
    struct call call = up(old, length, hc, frc);
    expect(&call, OURS, wanted, text);
    expect(&call, OURS - 1, wanted == TRACKLINE_ACCEPTED ? TRACKLINE_LENT : wanted, NULL);
}

/* Puts CK behind so many columns. */
static void put_check(char *line, size_t columns)
{
    static const char DIGITS[] = "0123456789ABCDEF";
    unsigned sum = 0;
    for (size_t i = 0; i < columns; i++) {
        sum += (uint8_t)line[i];
    }
    line[columns] = DIGITS[sum / 16 % 16];
    line[columns + 1] = DIGITS[sum % 16];
}

/* The old sample with a text from a column on, counted from 1, and its CK. */
static void old_with(char *old, size_t column, const char *text)
{
    memcpy(old, " " SAMPLE, OLD - 2);
    memcpy(old + column - 1, text, strlen(text));
    put_check(old, OLD - 2);
}

static void try_lines(void)
{
    static const struct {
        const char *old, *line, *frc;
        unsigned hc;
    } ROWS[] = {{" " SAMPLE "1F", "G" SAMPLE "00 00 L1C 26", "L1C", 0},  {" " SAMPLE "1F", "G" SAMPLE "00 98 Z9Z 64", "Z9Z", 98},
                {" " SAMPLE "1F", "G" SAMPLE "00 07 A0B 20", "A0B", 7},  {" " SAMPLE "1F", "G" SAMPLE "00 99 000 08", "000", 99},
                {" " BUSY "86", "G" BUSY "00 98 Z9Z CB", "Z9Z", 98}};
    for (size_t i = 0; i < sizeof ROWS / sizeof ROWS[0]; i++) {
        expect_down(ROWS[i].line, OURS, TRACKLINE_ACCEPTED, ROWS[i].old);
        expect_up(ROWS[i].old, OLD, ROWS[i].hc, ROWS[i].frc, TRACKLINE_ACCEPTED, ROWS[i].line);
    }
}

/* Every length up to some hundred, good up to its longest, with every room. */
static void try_lengths(void)
{
    char line[GIVEN], old[GIVEN];
    memset(line, '~', sizeof line);
    memset(old, ' ', sizeof old);
    memcpy(line, "G" SAMPLE "00 00 L1C 26", OURS);
    memcpy(old, " " SAMPLE "1F", OLD);
    for (size_t length = 0; length <= 200; length++) {
        int long_enough = length >= OURS && length <= TRACKLINE_LONGEST_LINE, old_enough = length >= OLD && length <= TRACKLINE_LONGEST_OLD;
        for (size_t room = 95; room <= 120; room++) {
            struct call one = down(line, length), other = up(old, length, 0, "L1C");
            expect(&one, room, !long_enough ? TRACKLINE_LINE_LENGTH : room < OLD ? TRACKLINE_LENT : TRACKLINE_ACCEPTED, old);
            expect(&other, room, !old_enough ? TRACKLINE_LINE_LENGTH : room < OURS ? TRACKLINE_LENT : TRACKLINE_ACCEPTED, line);
        }
    }
    expect_down(line, sizeof line, TRACKLINE_LINE_LENGTH, NULL);
    expect_up(old, sizeof old, 0, "L1C", TRACKLINE_LINE_LENGTH, NULL);
    for (size_t room = 0; room <= LENT; room++) {
        struct call one = down(line, OURS), other = up(old, OLD, 0, "L1C");
        expect(&one, room, room < OLD ? TRACKLINE_LENT : TRACKLINE_ACCEPTED, old);
        expect(&other, room, room < OURS ? TRACKLINE_LENT : TRACKLINE_ACCEPTED, line);
    }
}

static void expect_number(const char *what, uint32_t answer, uint32_t wanted)
{
    checks++;
    if (answer != wanted) {
        printf("version 01: %s is answered %" PRIu32 ", not %" PRIu32 "\n", what, answer, wanted);
        failures++;
    }
}

/* NULL with length 0 is empty. */
static void try_null(void)
{
    const uint8_t *line = (const uint8_t *)"G" SAMPLE "00 00 L1C 26", *old = (const uint8_t *)" " SAMPLE "1F";
    uint8_t lent[OURS];
    expect_number("down of NULL", trackline_down(NULL, 0, lent, sizeof lent), TRACKLINE_LINE_LENGTH);
    expect_number("up of NULL", trackline_up(NULL, 0, 0, 'L', '1', 'C', lent, sizeof lent), TRACKLINE_LINE_LENGTH);
    expect_number("down to NULL", trackline_down(line, OURS, NULL, 0), TRACKLINE_LENT);
    expect_number("up to NULL", trackline_up(old, OLD, 0, 'L', '1', 'C', NULL, 0), TRACKLINE_LENT);
    expect_number("down of and to NULL", trackline_down(NULL, 0, NULL, 0), TRACKLINE_LINE_LENGTH);
}

/* Of all pairs of bytes one alone is CK. */
static void try_checks(void)
{
    char old[OLD];
    memcpy(old, " " SAMPLE "1F", OLD);
    for (unsigned pair = 0; pair < 65536; pair++) {
        old[OLD - 2] = (char)(pair / 256);
        old[OLD - 1] = (char)(pair % 256);
        struct call call = up(old, OLD, 0, "L1C");
        expect(&call, OURS, pair == 256 * '1' + 'F' ? TRACKLINE_ACCEPTED : TRACKLINE_CHECKSUM, "G" SAMPLE "00 00 L1C 26");
    }
}

static int allowed(char kind, unsigned byte)
{
    switch (kind) {
    case '9': return byte >= '0' && byte <= '9';
    case 'F': return (byte >= '0' && byte <= '9') || (byte >= 'A' && byte <= 'F');
    case '+': return byte == '+' || byte == '-';
    default: return byte == ' ';
    }
}

/* Every byte in every column, CK put right: what is not allowed is 13, and in the numbers of BUSY any other digit or sign is taken. */
static void try_columns(void)
{
    char old[OLD], line[OURS];
    for (size_t column = 1; column <= OLD - 2; column++) {
        int number = column >= 35 && (column < 78 || column > 81);
        for (unsigned byte = 0; byte < 256; byte++) {
            memcpy(old, " " BUSY, OLD - 2);
            old[column - 1] = (char)byte;
            put_check(old, OLD - 2);
            if (!(column == 1 ? byte == ' ' : allowed(KINDS[column - 2], byte))) {
                expect_up(old, OLD, 0, "L1C", TRACKLINE_CHARACTER, NULL);
            } else if (number) {
                memcpy(line, old, OLD - 2);
                line[0] = 'G';
                memcpy(line + OLD - 2, "00 98 Z9Z ", 10);
                put_check(line, OURS - 2);
                expect_up(old, OLD, 98, "Z9Z", TRACKLINE_ACCEPTED, line);
                expect_down(line, OURS, TRACKLINE_ACCEPTED, old);
            }
        }
    }
}

static void try_comments(void)
{
    char old[TRACKLINE_LONGEST_OLD], line[TRACKLINE_LONGEST_LINE];
    for (unsigned byte = 0; byte < 256; byte++) {
        uint32_t wanted = byte >= 0x20 && byte <= 0x7E ? TRACKLINE_ACCEPTED : TRACKLINE_CHARACTER;
        for (size_t at = OLD; at < sizeof old; at++) {
            memset(old, 'x', sizeof old);
            memcpy(old, " " SAMPLE "1F", OLD);
            old[at] = (char)byte;
            expect_up(old, sizeof old, 0, "L1C", wanted, "G" SAMPLE "00 00 L1C 26");
        }
        memset(line, 'x', sizeof line);
        memcpy(line, "G" SAMPLE "00 00 L1C 26", OURS);
        line[sizeof line - 1] = (char)byte;
        expect_down(line, sizeof line, wanted, " " SAMPLE "1F");
    }
}

static void try_supplied(void)
{
    char line[OURS];
    for (unsigned byte = 0; byte < 256; byte++) {
        int code = (byte >= 'A' && byte <= 'Z') || (byte >= '0' && byte <= '9');
        memcpy(line, "G" SAMPLE "00 00 L1C ", OURS - 2);
        line[104] = (char)('0' + byte / 10 % 10);
        line[105] = (char)('0' + byte % 10);
        put_check(line, OURS - 2);
        expect_up(" " SAMPLE "1F", OLD, byte, "L1C", byte <= 99 ? TRACKLINE_ACCEPTED : TRACKLINE_LABEL, line);
        for (int place = 0; place < 3; place++) {
            char frc[] = "L1C";
            frc[place] = (char)byte;
            memcpy(line, "G" SAMPLE "00 00 ", 107);
            memcpy(line + 107, frc, 3);
            line[110] = ' ';
            put_check(line, OURS - 2);
            expect_up(" " SAMPLE "1F", OLD, 0, frc, code ? TRACKLINE_ACCEPTED : TRACKLINE_LABEL, line);
        }
    }
}

/* Texts in the old sample, by their column and number. */
static const struct fault {
    size_t column;
    const char *text;
    uint32_t number;
} FAULTS[] = {
    {1, "G", 13},      {2, " 5", 13},     {5, "ff", 13},           {35, "-0000000000", 13}, {47, "-00000", 13}, {54, "-0000000000", 13},
    {66, "-00000", 13}, {87, "-000", 13}, {97, "-000", 13},        {101, "0", 13},          {2, "00", 7},       {8, "50721", 7},
    {21, "0045", 7},   {21, "0795", 7},   {21, "0779", 7},         {26, "901", 7},          {30, "3600", 7},    {78, "256", 7},
    {78, "999", 7},    {14, "000201", 8}, {14, "000300", 8},       {14, "240200", 8},       {14, "006200", 8},  {14, "000160", 8},
    {14, "234200", 8},
};
enum { COUNT = sizeof FAULTS / sizeof FAULTS[0] };

/* 13, then 7, then 8, of two that stand in other columns; what is supplied is a 7 too, and 14 comes before all. */
static void try_two(const struct fault *one, const struct fault *other)
{
    char old[OLD];
    uint32_t numbers[] = {TRACKLINE_CHARACTER, TRACKLINE_LABEL, TRACKLINE_START}, wanted = 0;
    size_t length = strlen(one->text), other_length = strlen(other->text);
    if (one != other && one->column < other->column + other_length && other->column < one->column + length) {
        return;
    }
    old_with(old, one->column, one->text);
    memcpy(old + other->column - 1, other->text, other_length);
    put_check(old, OLD - 2);
    for (int i = 2; i >= 0; i--) {
        wanted = one->number == numbers[i] || other->number == numbers[i] ? numbers[i] : wanted;
    }
    expect_up(old, OLD, 0, "L1C", wanted, NULL);
    expect_up(old, OLD, 100, "L1C", wanted == TRACKLINE_START ? TRACKLINE_LABEL : wanted, NULL);
    expect_up(old, OLD, 0, "L1 ", wanted == TRACKLINE_START ? TRACKLINE_LABEL : wanted, NULL);
    expect_up(old, OLD - 1, 0, "L1C", TRACKLINE_LINE_LENGTH, NULL);
    old[OLD - 1] ^= 1;
    expect_up(old, OLD, 100, "L1C", TRACKLINE_CHECKSUM, NULL);
}

/* The other letters are 25, behind what the reader says and before 9. */
static void try_letters(void)
{
    static const char *const LETTERS = "RECJ";
    char line[TRACKLINE_LONGEST_LINE + 1];
    for (const char *letter = LETTERS; *letter != '\0'; letter++) {
        memset(line, ' ', sizeof line);
        memcpy(line, "G" SAMPLE "00 00 L1C ", OURS - 2);
        line[0] = *letter;
        line[102] = *letter == 'R' ? '1' : '0';
        put_check(line, OURS - 2);
        expect_down(line, OURS, TRACKLINE_NOT_GPS, NULL);
        expect_down(line, TRACKLINE_LONGEST_LINE, TRACKLINE_NOT_GPS, NULL);
        expect_down(line, TRACKLINE_LONGEST_LINE + 1, TRACKLINE_LINE_LENGTH, NULL);
        line[18] = '1';
        expect_down(line, OURS, TRACKLINE_CHECKSUM, NULL);
        put_check(line, OURS - 2);
        expect_down(line, OURS, TRACKLINE_START, NULL);
        memcpy(line + 25, "901", 3);
        put_check(line, OURS - 2);
        expect_down(line, OURS, TRACKLINE_LABEL, NULL);
        line[1] = ' ';
        put_check(line, OURS - 2);
        expect_down(line, OURS, TRACKLINE_CHARACTER, NULL);
    }
}

/* Lines of the library's own, down and up again with their HC and FRC. */
static void try_there_and_back(void)
{
    uint8_t line[OURS], old[OLD], back[OURS];
    for (uint32_t i = 0; i < 2000; i++) {
        uint32_t mjd = 50722 + 359 * (i % 100);
        uint8_t letter = (uint8_t)('A' + i % 26), hc = (uint8_t)(i % 100);
        int64_t n = i;
        uint32_t answer = trackline_line('G', (uint8_t)(1 + i % 99), (uint8_t)i, 0, hc, letter, (uint8_t)('0' + i % 10), 'Z', mjd,
                                         60 * (2 + 16 * (i % 89)), (uint16_t)(i % 901), (uint16_t)(7 * i % 3600), (uint16_t)(i % 256),
                                         1234567 * n - 999999999, 97 * (n % 1000) - 48000, -4654321 * n, 5 - n, n, n % 1999 - 999,
                                         9998 - n, 999 - n % 1999, n, 60 + 15 * (n % 49), line, sizeof line);
        expect_number("a line", answer, TRACKLINE_ACCEPTED);
        expect_number("its way down", trackline_down(line, sizeof line, old, sizeof old), TRACKLINE_ACCEPTED);
        expect_number("its columns", old[0] != ' ' || memcmp(old + 1, line + 1, 100) != 0, 0);
        expect_number("its way up", trackline_up(old, sizeof old, hc, letter, line[108], 'Z', back, sizeof back), TRACKLINE_ACCEPTED);
        expect_number("what came up", memcmp(line, back, sizeof line) != 0, 0);
    }
}

int main(void)
{
    try_lines();
    try_lengths();
    try_null();
    try_checks();
    try_columns();
    try_comments();
    try_supplied();
    for (size_t one = 0; one < COUNT; one++) {
        for (size_t other = 0; other < COUNT; other++) {
            try_two(&FAULTS[one], &FAULTS[other]);
        }
    }
    try_letters();
    try_there_and_back();
    printf("version 01: %d checks, %d wrong\n", checks, failures);
    return failures != 0;
}

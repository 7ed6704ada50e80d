/*
 * Calls the functions from C, as a receiver's control program does: the paper's cases, each refusal, the order of two
 * faults, and every byte of lent lines, and every lent value, of all the lengths that matter. Expected answers and lines
 * are written out here and come from the paper or were worked out by hand.
 *
 *     cc -std=c11 -Wall -Wextra -Werror -pedantic -Iinclude tests/c/boundary_test.c libtrackline.a && ./a.out
 */
#include <inttypes.h>
#include <stdio.h>
#include <string.h>

#include "trackline.h"

static const char SAMPLE[] = "G05 FF 50722 000200 0780 450 1800 +0000000010 +00000 +0000000010 +00000 "
                             "0000 007 0000 +000 0000 +000 00 00 L1C 26";
static const char WIDEST[] = "R99 0A 50723 235400 0780 900 3599 -9999999999 +99999 +9999999999 -99999 "
                             "9999 096 9999 -999 0007 +999 24 99 0Z9 FB";

static int failed, checked;

static void expect(const char *what, uint32_t got, uint32_t wanted)
{
    checked++;
    if (got != wanted) {
        failed++;
        printf("FAILED %s: answered %" PRIu32 ", should be %" PRIu32 "\n", what, got, wanted);
    }
}

static void expect_true(const char *what, int holds)
{
    checked++;
    if (!holds) {
        failed++;
        printf("FAILED %s\n", what);
    }
}

/* What trackline_line is given. */
struct given {
    uint8_t constellation, satellite, cl, fr, hc, frc[3];
    uint32_t mjd, start;
    uint16_t elv, azth, ioe;
    int64_t refsv, srsv, refsys, srsys, mdtr, smdt, mdio, smdi, dsg, trkl;
};

static const struct given GOOD = {
    'G', 5, 255, 0, 0, {'L', '1', 'C'}, 50722, 120, 450, 1800, 7, 10, 0, 10, 0, 0, 0, 0, 0, 0, 780};
static const struct given FULL = {
    'R', 99, 10, 24, 99, {'0', 'Z', '9'}, 50723, 86040, 900, 3599, 96,
    -9999999999, 99999, 9999999999, -99999, 9999, -999, 7, 999, 9999, 780};

static uint32_t line_of(const struct given *g, uint8_t *line, size_t length)
{
    return trackline_line(g->constellation, g->satellite, g->cl, g->fr, g->hc, g->frc[0], g->frc[1], g->frc[2],
                          g->mjd, g->start, g->elv, g->azth, g->ioe, g->refsv, g->srsv, g->refsys, g->srsys,
                          g->mdtr, g->smdt, g->mdio, g->smdi, g->dsg, g->trkl, line, length);
}

/* The sample's hire block with n blocks of 15 seconds. */
static void sample_of(uint8_t *block, size_t n)
{
    static const uint8_t labels[26] = {0x0C, 0x03, 52, 0, 'G', 5, 255, 0, 0, 'L', '1', 'C', 0x22, 0xC6, 0, 0,
                                       120, 0, 0, 0, 0xC2, 0x01, 0x08, 0x07, 7, 0};
    memset(block, 0, 58 + 160 * n);
    memcpy(block, labels, sizeof labels);
    block[0] = (uint8_t)(15 * n);
    block[1] = (uint8_t)(15 * n / 256);
    block[2] = (uint8_t)n;
    for (size_t i = 0; i < 15 * n; i++) {
        block[58 + 8 * i] = 0xE8;
        block[59 + 8 * i] = 0x03;
    }
}

static void sample_block(uint8_t *block)
{
    sample_of(block, 52);
}

/* Puts a signed number of eight bytes, the lowest first. */
static void put_ps(uint8_t *block, size_t at, int64_t value)
{
    for (int i = 0; i < 8; i++) {
        block[at + (size_t)i] = (uint8_t)((uint64_t)value >> (8 * i));
    }
}

enum { ROOM = 4096, EDGE = 32 };
static uint8_t room[EDGE + ROOM + EDGE];

static uint8_t pattern(size_t i)
{
    return (uint8_t)(i * 167 + 89);
}

/* The room as it was filled, but for this text at the lent line's start. */
static int kept_but(const char *text, size_t count)
{
    for (size_t i = 0; i < sizeof room; i++) {
        int written = i >= EDGE && i < EDGE + count;
        uint8_t wanted = written ? (uint8_t)text[i - EDGE] : pattern(i);
        if (room[i] != wanted) {
            return 0;
        }
    }
    return 1;
}

static void fill(void)
{
    for (size_t i = 0; i < sizeof room; i++) {
        room[i] = pattern(i);
    }
}

/* Line and Block with a lent line of this length. */
static void try_length(size_t length)
{
    static uint8_t block[TRACKLINE_BLOCK_BYTES];
    uint32_t wanted = length < 113 ? 9 : 0;
    size_t count = length < 113 ? 0 : 113;
    uint8_t *line = room + EDGE;

    fill();
    expect("Line by lent length", line_of(&GOOD, line, length), wanted);
    expect_true("Line: every byte of the lent line", kept_but(SAMPLE, count));
    fill();
    expect("Line with the widest numbers", line_of(&FULL, line, length), wanted);
    expect_true("Line: every byte, widest numbers", kept_but(WIDEST, count));
    fill();
    sample_block(block);
    expect("Block by lent length", trackline_block(block, sizeof block, line, length), wanted);
    expect_true("Block: every byte of the lent line", kept_but(SAMPLE, count));
    block[5] = 0;
    fill();
    expect("Block refused", trackline_block(block, sizeof block, line, length), 7);
    expect_true("Block refused: every byte kept", kept_but("", 0));
}

static void lengths(void)
{
    static uint8_t block[TRACKLINE_BLOCK_BYTES];
    static const size_t tried[] = {0, 1, 112, 113, 114, ROOM};
    for (size_t i = 0; i < sizeof tried / sizeof tried[0]; i++) {
        try_length(tried[i]);
    }
    sample_block(block);
    expect("Line, no lent line", line_of(&GOOD, NULL, 0), 9);
    expect("Block, no lent line", trackline_block(block, sizeof block, NULL, 0), 9);
    expect("Block, no block", trackline_block(NULL, 0, room, sizeof room), 11);
    expect("Block, nothing at all", trackline_block(NULL, 0, NULL, 0), 11);
}

static void starts(void)
{
    static const uint32_t cases[][3] = {
        {50722, 120, 0}, {50722, 84600, 0}, {50722, 85560, 8}, {50723, 840, 0}, {50723, 86040, 0}, {50723, 86280, 8},
        {50723, 120, 8}, {56842, 840, 0}, {56842, 1800, 0}, {56842, 2760, 0}, {56842, 120, 8}, {57000, 360, 0},
        {51081, 120, 0}, {51082, 120, 8}, {51082, 86280, 8}, {99999, 600, 0},
        {50721, 120, 7}, {100000, 120, 7}, {UINT32_MAX, 120, 7}, {50722, 86280, 8}, {50722, 86520, 8}, {50722, 121, 8},
        {50722, UINT32_MAX, 8}, {50721, 121, 7}};
    for (size_t i = 0; i < sizeof cases / sizeof cases[0]; i++) {
        expect("start", trackline_start(cases[i][0], cases[i][1]), cases[i][2]);
    }
    int count = 0;
    for (uint32_t second = 0; second < 86400; second++) {
        count += trackline_start(60000, second) == 0;
    }
    expect_true("89 starts a day", count == 89);
}

/* Puts one fault of Line into what is given; the lent line's length is the fault of 9. */
static void spoil(struct given *g, size_t *length, uint32_t fault)
{
    switch (fault) {
    case 7: g->trkl = 781; break;
    case 8: g->start = 86040 + 86400; break;
    case 3: g->refsys = INT64_MIN; break;
    case 4: g->smdt = 1000; break;
    case 5: g->mdio = -1; break;
    case 6: g->dsg = INT64_MAX; break;
    default: *length = 112; break;
    }
}

static void order_of_line(void)
{
    static const uint32_t order[] = {7, 8, 3, 4, 5, 6, 9};
    for (size_t i = 0; i < 7; i++) {
        for (size_t j = i; j < 7; j++) {
            struct given g = FULL;
            size_t length = 113;
            spoil(&g, &length, order[i]);
            spoil(&g, &length, order[j]);
            fill();
            expect("order of Line", line_of(&g, room + EDGE, length), order[i]);
            expect_true("refused: nothing written", kept_but("", 0));
        }
    }
}

static void labels(void)
{
    struct given g;
#define LABEL(change)                                               \
    g = GOOD;                                                       \
    g.change;                                                       \
    fill();                                                         \
    expect(#change, line_of(&g, room + EDGE, 113), 7);              \
    expect_true(#change " writes nothing", kept_but("", 0))
    LABEL(constellation = 'S');
    LABEL(constellation = 'g');
    LABEL(satellite = 0);
    LABEL(satellite = 100);
    LABEL(fr = 1);
    LABEL(hc = 100);
    LABEL(frc[0] = 'l');
    LABEL(frc[1] = ' ');
    LABEL(frc[2] = 0);
    LABEL(mjd = 50721);
    LABEL(mjd = 100000);
    LABEL(elv = 901);
    LABEL(azth = 3600);
    LABEL(ioe = 256);
    LABEL(ioe = 65535);
    LABEL(trkl = 781);
    LABEL(trkl = 779);
    LABEL(trkl = 795);
    LABEL(trkl = 61);
    LABEL(trkl = 52);
    LABEL(trkl = 45);
    LABEL(trkl = 0);
    LABEL(trkl = -60);
    LABEL(trkl = -780);
    LABEL(trkl = 780 + (INT64_C(1) << 32));
    LABEL(trkl = INT64_MIN);
    LABEL(trkl = INT64_MAX);
    LABEL(constellation = 'R');
#undef LABEL
}

/* 11 comes at two places: for a block that has no sizes, and for one that is not as long as its sizes make it. */
enum { NO_SIZES = 1100 };

/* Puts one fault of Block into the sample. */
static void spoil_block(uint8_t *block, size_t *block_len, size_t *line_len, uint32_t fault)
{
    switch (fault) {
    case NO_SIZES: *block_len = 3; break;
    case 11: *block_len = *block_len < 8377 ? *block_len : 8377; break;
    case 1: block[2] = 51; break;
    case 2: put_ps(block, 50, INT64_MIN); break;
    case 3:
        for (int i = 0; i < 780; i++) {
            put_ps(block, (size_t)(58 + 8 * i), 1000000000000);
            put_ps(block, (size_t)(6298 + 40 * (i / 15)), -200000000000);
        }
        break;
    case 4: put_ps(block, 6298 + 40 * 51 + 24, 2000000); break;
    case 5:
        for (int j = 0; j < 52; j++) {
            put_ps(block, (size_t)(6298 + 40 * j + 16), 1000000);
        }
        break;
    case 6:
        for (int j = 0; j < 52; j++) {
            put_ps(block, (size_t)(6298 + 40 * j + 32), j % 4 == 0 || j % 4 == 3 ? 999950 : -999950);
        }
        break;
    case 7: block[8] = 100; break;
    case 8: block[16] = 121; break;
    default: *line_len = 112; break;
    }
}

static void order_of_block(void)
{
    static const uint32_t order[] = {NO_SIZES, 1, 11, 2, 3, 4, 5, 6, 7, 8, 9};
    static uint8_t block[TRACKLINE_BLOCK_BYTES];
    for (size_t i = 0; i < 11; i++) {
        for (size_t j = i; j < 11; j++) {
            size_t block_len = sizeof block, line_len = 113;
            sample_block(block);
            spoil_block(block, &block_len, &line_len, order[i]);
            spoil_block(block, &block_len, &line_len, order[j]);
            fill();
            uint32_t wanted = order[i] == NO_SIZES ? 11 : order[i];
            expect("order of Block", trackline_block(block, block_len, room + EDGE, line_len), wanted);
            expect_true("refused: nothing written", kept_but("", 0));
        }
    }
}

/* Each correction once, so that a wrong sign shows: REFSV 2030, REFSYS 2220, MDTR 130, MDIO 110. */
static void corrections(void)
{
    static const char wanted[] = "G05 FF 50722 000200 0780 450 1800 +0000002030 +00000 +0000002220 +00000 "
                                 "0000 007 0130 +000 0110 +000 00 00 L1C 35";
    static const int64_t delays[4] = {100000, 200000, 50000, 30000};
    static const int64_t columns[5] = {500000, 7000, 11000, 13000, 19000};
    static uint8_t block[TRACKLINE_BLOCK_BYTES];
    sample_block(block);
    for (size_t i = 0; i < 780; i++) {
        put_ps(block, 58 + 8 * i, 1000000);
    }
    for (size_t k = 0; k < 4; k++) {
        put_ps(block, 26 + 8 * k, delays[k]);
    }
    for (size_t i = 0; i < 260; i++) {
        put_ps(block, 6298 + 8 * i, columns[i % 5]);
    }
    fill();
    expect("corrections", trackline_block(block, sizeof block, room + EDGE, 113), 0);
    expect_true("corrections: the line", kept_but(wanted, 113));
}

/*
 * Each number of a block has a value of its own, so that a wrong offset, stride or block of seconds shows. At second t the
 * measurement is 1000000 + 100 t, so block j smooths to 1000700 + 1500 j; the corrections climb with j as well:
 *   A = 1000700 - (100000 + 200000 - 50000) - 500000 + 7000 - 11000 - 13000 - 30000 + (1500 - 300 + 30 - 6 - 9) j
 *     = 203700 + 1215 j       midpoint 234682.5 ps: 2347       slope 1215 / 15 = 81 ps/s: 810
 *   B = A + 19000 - 75 j      midpoint 251770 ps: 2518         slope 1140 / 15 = 76 ps/s: 760
 *   C = 13000 + 9 j           midpoint 13229.5 ps: 132         slope 9 / 15 = 0.6 ps/s: 6
 *   D = 11000 + 6 j           midpoint 11153 ps: 112           slope 6 / 15 = 0.4 ps/s: 4
 */
static void places(void)
{
    static const char wanted[] = "R24 8D 50723 001400 0780 899 3598 +0000002347 +00810 +0000002518 +00760 "
                                 "0000 095 0132 +006 0112 +004 23 98 Z9A C0";
    static const uint8_t sizes_and_labels[26] = {0x0C, 0x03, 0x34, 0x00, 'R', 24, 0x8D, 23, 98, 'Z', '9', 'A',
                                                 0x23, 0xC6, 0x00, 0x00, 0x48, 0x03, 0x00, 0x00,
                                                 0x83, 0x03, 0x0E, 0x0E, 0x5F, 0x00};
    static const int64_t delays[4] = {100000, 200000, 50000, 30000};
    static const int64_t first[5] = {500000, 7000, 11000, 13000, 19000};
    static const int64_t step[5] = {300, 30, 6, 9, -75};
    static uint8_t block[TRACKLINE_BLOCK_BYTES];
    memcpy(block, sizes_and_labels, sizeof sizes_and_labels);
    for (size_t k = 0; k < 4; k++) {
        put_ps(block, 26 + 8 * k, delays[k]);
    }
    for (size_t t = 0; t < 780; t++) {
        put_ps(block, 58 + 8 * t, 1000000 + 100 * (int64_t)t);
    }
    for (size_t i = 0; i < 260; i++) {
        put_ps(block, 6298 + 8 * i, first[i % 5] + step[i % 5] * (int64_t)(i / 5));
    }
    fill();
    expect("places", trackline_block(block, sizeof block, room + EDGE, 113), 0);
    expect_true("places: the line", kept_but(wanted, 113));
}

/* ---- short tracks */

/* The line's 113 columns from its first 110: a space and the sum of the 111 go behind them. */
static void finish(char *line)
{
    unsigned sum = 0;
    line[110] = ' ';
    for (size_t i = 0; i < 111; i++) {
        sum += (uint8_t)line[i];
    }
    sprintf(line + 111, "%02X", sum % 256);
}

/* The nearest whole number to this many halves of a ps over 100 ps, a tie going up. */
static int64_t tenths(int64_t halves)
{
    int64_t doubled = halves + 100;
    return doubled / 200 - (doubled % 200 < 0);
}

/*
 * The numbers of places(), of which n blocks were measured, at their places in a block of n. The values lie on lines, so the
 * slopes stay, the midpoints are those of the middle of n, as A = 203700 + 1215 j with j = (n - 1) / 2, and DSG is 0.
 */
static void places_of(size_t n)
{
    static const int64_t delays[4] = {100000, 200000, 50000, 30000};
    static const int64_t first[5] = {500000, 7000, 11000, 13000, 19000};
    static const int64_t step[5] = {300, 30, 6, 9, -75};
    static uint8_t block[8378];
    char wanted[128];
    int64_t last = (int64_t)n - 1;
    sample_of(block, n);
    for (size_t k = 0; k < 4; k++) {
        put_ps(block, 26 + 8 * k, delays[k]);
    }
    for (size_t t = 0; t < 15 * n; t++) {
        put_ps(block, 58 + 8 * t, 1000000 + 100 * (int64_t)t);
    }
    for (size_t i = 0; i < 5 * n; i++) {
        put_ps(block, 58 + 120 * n + 8 * i, first[i % 5] + step[i % 5] * (int64_t)(i / 5));
    }
    sprintf(wanted, "G05 FF 50722 000200 %04d 450 1800 %+011" PRId64 " +00810 %+011" PRId64 " +00760 0000 007 %04" PRId64
            " +006 %04" PRId64 " +004 00 00 L1C", (int)(15 * n), tenths(407400 + 1215 * last), tenths(445400 + 1140 * last),
            tenths(26000 + 9 * last), tenths(22000 + 6 * last));
    finish(wanted);
    fill();
    expect("places of a short track", trackline_block(block, 58 + 160 * n, room + EDGE, 113), 0);
    expect_true("places of a short track: the line", kept_but(wanted, 113));
}

/* Every length near that of n blocks, and every size near its own. */
static void sizes_of(size_t n)
{
    static uint8_t block[8378 + 320];
    sample_of(block, n);
    for (size_t length = 58 + 160 * n - 170; length <= 58 + 160 * n + 170; length++) {
        fill();
        expect("length of a short track", trackline_block(block, length, room + EDGE, 113), length == 58 + 160 * n ? 0 : 11);
        expect_true("length of a short track: the line", (length == 58 + 160 * n) == !kept_but("", 0));
    }
    for (int by = -16; by <= 16; by++) {
        sample_of(block, n);
        block[0] = (uint8_t)(15 * n + (size_t)by);
        block[1] = (uint8_t)((15 * n + (size_t)by) / 256);
        expect("first size", trackline_block(block, 58 + 160 * n, room, 113), by == 0 ? 0 : 1);
        sample_of(block, n);
        block[2] = (uint8_t)(n + (size_t)by);
        expect("second size", trackline_block(block, 58 + 160 * n, room, 113), by == 0 ? 0 : 1);
    }
}

/*
 * B is 0 but for its last value, 100000 ps. By hand, for four values: S = 100000 and T = 3 S, so the midpoint is S / 400 and
 * the slope 4 T / 60; the line is 25000 + 15000 (2j - 3), the residuals are 20000, -10000, -40000, 30000, and their root mean
 * square is 27386 ps. For five: midpoint S / 500, T = 4 S, slope 4 T / 120; the line is 20000 + 10000 (2j - 4), the residuals
 * are 20000, 0, -20000, -40000, 40000, and their root mean square is 28284 ps.
 */
static void few_values(void)
{
    static const struct {
        size_t n;
        const char *columns;
    } cases[] = {
        {4, "G05 FF 50722 000200 0060 450 1800 +0000000000 +00000 +0000000250 +20000 0274 007 0000 +000 0000 +000 00 00 L1C"},
        {5, "G05 FF 50722 000200 0075 450 1800 +0000000000 +00000 +0000000200 +13333 0283 007 0000 +000 0000 +000 00 00 L1C"}};
    for (size_t i = 0; i < sizeof cases / sizeof cases[0]; i++) {
        static uint8_t block[8378];
        size_t n = cases[i].n;
        char wanted[128];
        strcpy(wanted, cases[i].columns);
        finish(wanted);
        sample_of(block, n);
        for (size_t t = 0; t < 15 * n; t++) {
            put_ps(block, 58 + 8 * t, 0);
        }
        put_ps(block, 58 + 160 * n - 8, 100000);
        fill();
        expect("few values", trackline_block(block, 58 + 160 * n, room + EDGE, 113), 0);
        expect_true("few values: the line", kept_but(wanted, 113));
    }
}

/* a, -a, -a, a over and over has a as its root mean square where n is a multiple of 4: the ties of DSG. */
static void scatter_of(size_t n)
{
    static const struct {
        int64_t a;
        uint32_t wanted;
        const char *dsg;
    } cases[] = {{49, 0, "0000"}, {50, 0, "0001"}, {149, 0, "0001"}, {150, 0, "0002"}, {999949, 0, "9999"}, {999950, 6, ""},
                 {INT64_C(1) << 32, 6, ""}};
    static uint8_t block[8378];
    for (size_t i = 0; i < sizeof cases / sizeof cases[0]; i++) {
        sample_of(block, n);
        for (size_t j = 0; j < n; j++) {
            put_ps(block, 58 + 120 * n + 40 * j + 32, j % 4 == 0 || j % 4 == 3 ? cases[i].a : -cases[i].a);
        }
        expect("scatter", trackline_block(block, 58 + 160 * n, room, 113), cases[i].wanted);
        expect_true("scatter: DSG", memcmp(room + 72, cases[i].dsg, strlen(cases[i].dsg)) == 0);
    }
}

/* ---- tenths of a picosecond */

/* Block j of a track of n: fifteen measurements of a level, the middle one higher. */
static void put_block(uint8_t *block, size_t j, int64_t level, int64_t higher)
{
    for (size_t i = 0; i < 15; i++) {
        put_ps(block, 58 + 8 * (15 * j + i), level + (i == 7 ? higher : 0));
    }
}

/* Columns 35 to 76 of the line of a block, or the refusal. */
static void figures(const char *what, const uint8_t *block, size_t n, uint32_t refusal, const char *wanted)
{
    fill();
    expect(what, trackline_block(block, 58 + 160 * n, room + EDGE, 113), refusal);
    expect_true(what, refusal ? kept_but("", 0) : memcmp(room + EDGE + 34, wanted, 42) == 0);
}

/*
 * 4 ps more in the middle of a block are 4 * 167 / 1105 = 0.6045 ps, six tenths: 49.6 ps in every block are 0.496 of a unit and
 * -50.4 ps are -0.504, where 50 and -50 ps are ties, which go up; 999999999949.6 ps fit ten digits, and 999999999950 do not. Where 4
 * divides n, 49.6 ps up and down is a root mean square below half a unit.
 */
static void middle_of(size_t n)
{
    static uint8_t block[8378];
    static const struct {
        int64_t level, higher;
        uint32_t refusal;
        const char *wanted;
    } cases[] = {
        {49, 4, 0, "+0000000000 +00000 +0000000000 +00000 0000"}, {50, 0, 0, "+0000000001 +00000 +0000000001 +00000 0000"},
        {-51, 4, 0, "-0000000001 +00000 -0000000001 +00000 0000"}, {-50, 0, 0, "+0000000000 +00000 +0000000000 +00000 0000"},
        {31149, 4, 0, "+0000000311 +00000 +0000000311 +00000 0000"}, {31150, 0, 0, "+0000000312 +00000 +0000000312 +00000 0000"},
        {999999999949, 4, 0, "+9999999999 +00000 +9999999999 +00000 0000"}, {999999999950, 0, 3, ""}};
    sample_of(block, n);
    for (size_t i = 0; i < sizeof cases / sizeof cases[0]; i++) {
        for (size_t j = 0; j < n; j++) {
            put_block(block, j, cases[i].level, cases[i].higher);
        }
        figures("a middle measurement", block, n, cases[i].refusal, cases[i].wanted);
    }
    for (size_t i = 0; i < 2 && n % 4 == 0; i++) {
        for (size_t j = 0; j < n; j++) {
            int64_t sign = j % 4 == 0 || j % 4 == 3 ? 1 : -1;
            put_block(block, j, sign * (49 + (int64_t)i), i == 0 ? 4 * sign : 0);
        }
        figures("DSG of tenths", block, n, 0, i == 0 ? "+0000000000 +00000 +0000000000 +00000 0000"
                                                      : "+0000000000 +00000 +0000000000 +00000 0001");
    }
}

/*
 * Four blocks of 0, 0, -1 and 2.6 ps: T is -1 + 3 * 2.6 = 6.8 ps, and the slope T / 15 = 0.45; the residuals are below 2 ps. Three
 * blocks of 49.5 ps (3 ps more in the middle are 0.4534, five tenths) and one of 52: their sum is 200.5 ps, a midpoint of 1. With
 * the 52 in the second place T is -2.5 ps, and the slope -0.17.
 */
static void four_blocks(void)
{
    static uint8_t block[698];
    sample_of(block, 4);
    put_block(block, 0, 0, 0);
    put_block(block, 1, 0, 0);
    put_block(block, 2, -1, 0);
    put_block(block, 3, 2, 4);
    figures("a slope of tenths", block, 4, 0, "+0000000000 +00000 +0000000000 +00000 0000");
    for (size_t j = 0; j < 4; j++) {
        put_block(block, j, j == 1 ? 52 : 49, j == 1 ? 0 : 3);
    }
    figures("a midpoint of tenths", block, 4, 0, "+0000000001 +00000 +0000000001 +00000 0000");
}

/* Block j with the measurements and the corrections that make A and B largest, of this sign; 0 for a sign of 0. */
static void put_largest(uint8_t *block, size_t n, size_t j, int64_t sign)
{
    static const int64_t tops[5] = {-200000000000, 10000000000, -10000000000, -10000000000, 10000000000};
    for (size_t i = 0; i < 15; i++) {
        int outer = i < 2 || i > 12;
        put_ps(block, 58 + 8 * (15 * j + i), sign * (outer ? -1000000000000 : 1000000000000));
    }
    for (size_t k = 0; k < 5; k++) {
        put_ps(block, 58 + 120 * n + 40 * j + 8 * k, sign * tops[k]);
    }
}

/* The largest numbers that are legal: A and B of one sign are 3, by the side of the mean date 4, up and down 6. */
static void largest_of(size_t n, int64_t sign)
{
    static uint8_t one[8378], sides[8378], waves[8378];
    sample_of(one, n);
    sample_of(sides, n);
    sample_of(waves, n);
    for (size_t j = 0; j < n; j++) {
        put_largest(one, n, j, sign);
        put_largest(sides, n, j, 2 * j + 1 == n ? 0 : 2 * j + 1 > n ? sign : -sign);
        put_block(waves, j, sign * (j % 4 == 0 || j % 4 == 3 ? 1000000000000 : -1000000000000), 0);
    }
    figures("the largest values", one, n, 3, "");
    figures("the largest values by their side", sides, n, 4, "");
    if (n % 4 == 0) {
        figures("the largest values up and down", waves, n, 6, "");
    }
}

static void short_tracks(void)
{
    static uint8_t block[58 + 160 * 53];
    for (size_t n = 4; n <= 52; n++) {
        char wanted[128];
        struct given g = GOOD;
        sprintf(wanted, "G05 FF 50722 000200 %04d 450 1800 +0000000010 +00000 +0000000010 +00000 "
                        "0000 007 0000 +000 0000 +000 00 00 L1C", (int)(15 * n));
        finish(wanted);
        g.trkl = (int64_t)(15 * n);
        sample_of(block, n);
        fill();
        expect("Block of a short track", trackline_block(block, 58 + 160 * n, room + EDGE, 113), 0);
        expect_true("Block of a short track: the line", kept_but(wanted, 113));
        fill();
        expect("Line of a short track", line_of(&g, room + EDGE, 113), 0);
        expect_true("Line of a short track: the line", kept_but(wanted, 113));
        expect_true("the header's numbers", TRACKLINE_BLOCK_BYTES_OF(n) == 58 + 160 * n
                    && TRACKLINE_AT_GROUPS_OF(n) == 58 + 120 * n && TRACKLINE_MEASUREMENTS_OF(n) == 15 * n);
        places_of(n);
        sizes_of(n);
        middle_of(n);
        largest_of(n, 1);
        largest_of(n, -1);
        if (n % 4 == 0) {
            scatter_of(n);
        }
    }
    for (size_t n = 3; n <= 53; n += 50) {
        sample_of(block, n);
        expect("3 or 53 blocks", trackline_block(block, 58 + 160 * n, room, 113), 1);
    }
    memset(block, 0, sizeof block);
    for (size_t length = 0; length <= 8380; length++) {
        expect("bytes of 0", trackline_block(block, length, room, 113), length < 4 ? 11 : 1);
    }
    few_values();
    four_blocks();
}

/* ---- reading a line back */

static const int64_t SAMPLE_VALUES[23] = {
    'G', 5, 255, 0, 0, 'L', '1', 'C', 50722, 120, 450, 1800, 7, 10, 0, 10, 0, 0, 0, 0, 0, 0, 780};
static const int64_t WIDEST_VALUES[23] = {
    'R', 99, 10, 24, 99, '0', 'Z', '9', 50723, 86040, 900, 3599, 96,
    -9999999999, 99999, 9999999999, -99999, 9999, -999, 7, 999, 9999, 780};

enum { PLACES = 32 };

/* Reads into so many lent values: the answer, these values in the first places, and all else as it was. */
static void read_as(const char *what, const uint8_t *line, size_t length, size_t lent, uint32_t wanted, const int64_t *values)
{
    int64_t places[PLACES];
    for (size_t i = 0; i < PLACES; i++) {
        places[i] = -1 - (int64_t)i;
    }
    expect(what, trackline_read(line, length, places, lent), wanted);
    int right = 1;
    for (size_t i = 0; i < PLACES; i++) {
        right &= places[i] == (wanted == 0 && i < 23 ? values[i] : -1 - (int64_t)i);
    }
    expect_true(what, right);
    expect_true("where the comment begins", trackline_comment(line, length) == (wanted == 0 || wanted == 9 ? 113 : length));
}

static void values_of_lines(void)
{
    const uint8_t *sample = (const uint8_t *)SAMPLE, *widest = (const uint8_t *)WIDEST;
    static const size_t tried[] = {23, 24, PLACES};
    for (size_t i = 0; i < 3; i++) {
        read_as("the sample line", sample, 113, tried[i], 0, SAMPLE_VALUES);
        read_as("the widest line", widest, 113, tried[i], 0, WIDEST_VALUES);
    }
    read_as("22 values", sample, 113, 22, 9, NULL);
    read_as("no value", sample, 113, 0, 9, NULL);
    expect("NULL for values", trackline_read(sample, 113, NULL, 0), 9);
    expect("NULL for a line", trackline_read(NULL, 0, NULL, 0), 12);
    expect_true("the comment of no line", trackline_comment(NULL, 0) == 0);
    expect_true("the header's places", TRACKLINE_VALUE_CONSTELLATION == 0 && TRACKLINE_VALUE_MJD == 8
                && TRACKLINE_VALUE_REFSV == 13 && TRACKLINE_VALUE_TRKL == 22 && TRACKLINE_VALUES == 23);
}

/* The sample line with a comment of so many bytes behind it; the reader is given just as many. */
static void comments(void)
{
    static const char behind[] = " tilde ~, space and !\"#$%&'()*";
    uint8_t line[150];
    memcpy(line, SAMPLE, 113);
    for (size_t length = 100; length <= 145; length++) {
        size_t comment = length < 113 ? 0 : length - 113;
        for (size_t i = 0; i < comment; i++) {
            line[113 + i] = (uint8_t)behind[i % (sizeof behind - 1)];
        }
        read_as("by its length", line, length, 23, length < 113 || length > 140 ? 12 : 0, SAMPLE_VALUES);
    }
    for (unsigned byte = 0; byte < 256; byte++) {
        line[139] = (uint8_t)byte;
        read_as("the last byte of a comment", line, 140, 23, byte >= 0x20 && byte <= 0x7E ? 0 : 13, SAMPLE_VALUES);
    }
}

/* The sample line with another text from a column on, and its CK, worked out by hand from 26. */
static const struct spoiled {
    size_t column;
    const char *text, *ck;
    uint32_t wanted;
} SPOILED[] = {
    {112, "27", "27", 14}, {112, "62", "62", 14}, {112, "  ", "  ", 14},
    {2, " 5", "26", 14},        /* a blank, and CK as it was */
    {2, " 5", "16", 13},        /* blank fill */
    {5, "ff", "66", 13},        /* small hexadecimal digits */
    {1, "S", "32", 13},         /* no constellation */
    {4, "-", "33", 13},         /* no space */
    {47, "-", "28", 13},        /* a minus before a zero */
    {35, "-", "28", 0},         /* and before a ten */
    {35, "0", "2B", 13},        /* no sign */
    {108, "l", "46", 13},       /* a small letter in FRC */
    {21, "0781", "27", 7},      /* the track length */
    {21, "0795", "2C", 7},      /* 53 blocks */
    {21, "0045", "20", 7},      /* 3 blocks */
    {21, "0000", "17", 7},
    {21, "9999", "3B", 7},
    {21, "078O", "45", 13},     /* a letter for a digit */
    {21, "+780", "21", 13},
    {21, " 780", "16", 13},
    {2, "00", "21", 7},         /* satellite 0 */
    {8, "50721", "25", 7},      /* the date */
    {78, "256", "2C", 7},       /* IOE of G */
    {102, "01", "27", 7},       /* FR of G */
    {14, "000201", "27", 8},    /* no start */
    {14, "240200", "2C", 8},    /* an hour above 23 */
    {14, "006200", "2C", 8},    /* a minute above 59 */
    {14, "000160", "2B", 8},    /* a second above 59: the total is 120, a start */
};

static void refused_lines(void)
{
    uint8_t line[113];
    for (size_t i = 0; i < sizeof SPOILED / sizeof SPOILED[0]; i++) {
        int64_t ten_below[23];
        memcpy(ten_below, SAMPLE_VALUES, sizeof ten_below);
        ten_below[13] = -10;
        memcpy(line, SAMPLE, 113);
        memcpy(line + SPOILED[i].column - 1, SPOILED[i].text, strlen(SPOILED[i].text));
        memcpy(line + 111, SPOILED[i].ck, 2);
        read_as(SPOILED[i].text, line, 113, 23, SPOILED[i].wanted, ten_below);
        read_as("with 22 values", line, 113, 22, SPOILED[i].wanted == 0 ? 9 : SPOILED[i].wanted, NULL);
    }
    for (int seconds = 0; seconds <= 9999; seconds++) {
        char short_line[128];
        int64_t values[23];
        memcpy(short_line, SAMPLE, 113);
        sprintf(short_line + 20, "%04d", seconds);
        short_line[24] = ' ';
        finish(short_line);
        memcpy(values, SAMPLE_VALUES, sizeof values);
        values[22] = seconds;
        int fits = seconds % 15 == 0 && seconds >= 60 && seconds <= 780;
        read_as("the track length", (const uint8_t *)short_line, 113, 23, fits ? 0 : 7, values);
    }
    memcpy(line, WIDEST, 113);
    line[112] = 'f';
    read_as("a small letter in CK", line, 113, 23, 14, NULL);
}

/* Two faults: the earlier of 12, 14, 13, 7, 8 is answered. */
static void order_of_read(void)
{
    static const struct {
        const char *minus, *satellite, *clock, *ck;
        size_t length;
        uint32_t wanted;
    } cases[] = {
        {"-", "00", "000201", "24", 112, 12}, {"-", "00", "000201", "25", 113, 14}, {"-", "00", "000201", "24", 113, 13},
        {"+", "00", "000201", "22", 113, 7}, {"+", "05", "000201", "27", 113, 8}, {"+", "05", "000200", "26", 113, 0}};
    uint8_t line[113];
    for (size_t i = 0; i < sizeof cases / sizeof cases[0]; i++) {
        memcpy(line, SAMPLE, 113);
        memcpy(line + 46, cases[i].minus, 1);
        memcpy(line + 1, cases[i].satellite, 2);
        memcpy(line + 13, cases[i].clock, 6);
        memcpy(line + 111, cases[i].ck, 2);
        read_as("order of the reader", line, cases[i].length, 23, cases[i].wanted, SAMPLE_VALUES);
    }
}

/* The header's list has each number from 1 to 25 once, but for the retired 10; so a table by number has NULL there and a text elsewhere. */
static void list_of_refusals(void)
{
#define LISTED(number, name, text) number,
#define BY_NUMBER(number, name, text) [number] = text,
    static const uint32_t listed[] = {TRACKLINE_REFUSALS(LISTED)};
    static const char *const texts[] = {TRACKLINE_REFUSALS(BY_NUMBER)};
#undef LISTED
#undef BY_NUMBER
    expect("numbers in the list", sizeof listed / sizeof listed[0], 24);
    expect("end of a table", sizeof texts / sizeof texts[0], 26);
    for (uint32_t number = 0; number < 26; number++) {
        uint32_t times = 0, wanted = number != 0 && number != 10;
        for (size_t i = 0; i < sizeof listed / sizeof listed[0]; i++) {
            times += listed[i] == number;
        }
        expect("times that a number is in the list", times, wanted);
        expect("a text in a table by number", number < sizeof texts / sizeof texts[0] && texts[number] != NULL, wanted);
    }
}

int main(void)
{
    list_of_refusals();
    lengths();
    starts();
    labels();
    order_of_line();
    order_of_block();
    corrections();
    places();
    short_tracks();
    values_of_lines();
    comments();
    refused_lines();
    order_of_read();
    printf("c boundary: %d checks, %d failed\n", checked, failed);
    return failed != 0;
}

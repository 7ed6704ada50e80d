/*
 * Calls trackline_path from C: lengths, the floor beside perfect squares, every kind of double in every place, the order of 23 and
 * 24, and what is lent on a refusal. Expected answers are written out here.
 *
 *     cc -std=c11 -Wall -Wextra -Werror -pedantic -Iinclude tests/c/path_test.c libtrackline.a && ./a.out
 */
#include <float.h>
#include <inttypes.h>
#include <math.h>
#include <stdio.h>
#include <string.h>

#include "trackline.h"

enum { COORDINATES = 6 };
static const double MOST = TRACKLINE_MOST_COORDINATE;
static int checks, failures;

static uint64_t bits_of(double number)
{
    uint64_t bits;
    memcpy(&bits, &number, sizeof bits);
    return bits;
}

static double with_bits(uint64_t bits)
{
    double number;
    memcpy(&number, &bits, sizeof number);
    return number;
}

static void complain(const double *v, const char *what, uint32_t answer, double length)
{
    printf("path: %a %a %a %a %a %a: %s, and it is answered %" PRIu32 " with %a\n", v[0], v[1], v[2], v[3], v[4], v[5], what, answer,
           length);
    failures++;
}

/* The answer, and all bits of the lent number and of those beside it. */
static void expect(const double *v, uint32_t wanted, double length)
{
    const double before = with_bits(UINT64_C(0xFFF4123456789ABC));
    double lent[3] = {before, before, before};
    uint32_t answer = trackline_path(v[0], v[1], v[2], v[3], v[4], v[5], &lent[1]);
    uint64_t left = bits_of(wanted == TRACKLINE_ACCEPTED ? length : before);
    checks++;
    if (answer != wanted) {
        complain(v, "another answer", answer, lent[1]);
    } else if (bits_of(lent[1]) != left) {
        complain(v, "another length", answer, lent[1]);
    } else if (bits_of(lent[0]) != bits_of(before) || bits_of(lent[2]) != bits_of(before)) {
        complain(v, "written beside the length", answer, lent[1]);
    }
}

/* Both ways round. */
static void expect_both(const double *v, uint32_t wanted, double length)
{
    double turned[COORDINATES] = {v[3], v[4], v[5], v[0], v[1], v[2]};
    expect(v, wanted, length);
    expect(turned, wanted, length);
}

static void try_lengths(void)
{
    static const struct {
        double coordinates[COORDINATES], length;
    } ROWS[] = {
        {{3, 4, 0, 0, 0, 0}, 5},
        {{1, 2, 2, 0, 0, 0}, 3},
        {{0, 0, 0, 2, -3, 6}, 7},
        {{-10, 5, 7, -7, 1, 19}, 13},
        {{1, 1, 1, 0, 0, 0}, 1},   /* 1.73 */
        {{2, 2, 0, 0, 0, 0}, 2},   /* 2.83 */
        {{10, 10, 10, 3, 3, 3}, 12}, /* 12.12 */
        {{7, 0, 0, 0, 24, 0}, 25},
        {{0, 7, 0, 0, 0, 24}, 25},
        {{0, 0, 7, 24, 0, 0}, 25},
        {{5, 5, 5, 5, 5, 5}, 0},
        /* squares of more than 53 bits: k^2 - 1, k^2, k^2 + 1 */
        {{20000000000, 200000, 0, 0, 0, 0}, 20000000000},
        {{20000000001, 0, 0, 0, 0, 0}, 20000000001},
        {{20000000001, 0, 0, 0, 0, 1}, 20000000001},
        {{30000000000, 40000000000, 0, 0, 0, 0}, 50000000000},
        /* a satellite as it may stand, and an antenna: the sum is 420200538581439027190 */
        {{15600123457, 7540654321, 20140777888, 4202777366, 171367999, 4778660203}, 20498793588},
        {{50000000000, 0, 0, -50000000000, 0, 0}, 100000000000},
        {{50000000000, -50000000000, 0, -50000000000, 50000000000, 0}, 141421356237},
        {{50000000000, 50000000000, -50000000000, -50000000000, -50000000000, 50000000000}, 173205080756},
    };
    for (size_t i = 0; i < sizeof ROWS / sizeof ROWS[0]; i++) {
        expect_both(ROWS[i].coordinates, TRACKLINE_ACCEPTED, ROWS[i].length);
    }
}

/* The largest k for which there are points whose squared differences make k^2 - 1, k^2 and k^2 + 1. */
static void try_largest_squares(void)
{
    static const double ROWS[][4] = {{99999999373, 99999980321, 99999992027, 173205064429},
                                     {99999998346, 99999969003, 99999993926, 173205058399},
                                     {99999999167, 99999990231, 99999998800, 173205073943}};
    for (size_t i = 0; i < sizeof ROWS / sizeof ROWS[0]; i++) {
        double six[COORDINATES] = {ROWS[i][0] - MOST, ROWS[i][1] - MOST, ROWS[i][2] - MOST, -MOST, -MOST, -MOST};
        expect_both(six, TRACKLINE_ACCEPTED, ROWS[i][3]);
    }
}

/* Minus zero counts as zero, in every place and in each two, and no length is minus zero. */
static void try_zeros(void)
{
    for (unsigned signs = 0; signs < 64; signs++) {
        double six[COORDINATES], same[COORDINATES];
        for (int i = 0; i < COORDINATES; i++) {
            six[i] = signs >> i & 1 ? -0.0 : 0.0;
            same[i] = i % 3 == 0 ? -7 : six[i];
        }
        expect(six, TRACKLINE_ACCEPTED, 0.0);
        expect(same, TRACKLINE_ACCEPTED, 0.0);
    }
}

/* Doubles that are refused, each with both signs. */
static const struct refused {
    double coordinate;
    uint32_t number;
} REFUSED[] = {
    {0.5, 23}, {1.5, 23}, {0.1, 23}, {49999999999.5, 23}, {50000000000.5, 23}, {4503599627370495.5, 23},
    {DBL_EPSILON, 23}, {1 + DBL_EPSILON, 23}, {1 - DBL_EPSILON, 23}, {DBL_MIN, 23}, {5e-324, 23}, {DBL_MIN - 5e-324, 23},
    {INFINITY, 23}, {NAN, 23},
    {50000000001, 24}, {100000000000, 24}, {4503599627370497, 24}, {9007199254740992, 24},
    {9223372036854775808.0, 24}, {18446744073709551616.0, 24}, {1e22, 24}, {1e300, 24}, {DBL_MAX, 24},
};
enum { KINDS = sizeof REFUSED / sizeof REFUSED[0] };

/* One of each two is refused, or both are: 23 comes first. */
static void try_two(size_t one, size_t other)
{
    for (int i = 0; i < COORDINATES; i++) {
        for (int k = 0; k < COORDINATES; k++) {
            double six[COORDINATES] = {3, -4, 12, 0, -0.0, 7};
            six[k] = -REFUSED[other].coordinate;
            six[i] = REFUSED[one].coordinate;
            uint32_t wanted = i != k && REFUSED[other].number < REFUSED[one].number ? REFUSED[other].number : REFUSED[one].number;
            expect(six, wanted, 0);
        }
    }
}

/* Not-a-numbers of other bits: the first signals. */
static void try_other_bits(void)
{
    static const uint64_t BITS[] = {UINT64_C(0x7FF0000000000001), UINT64_C(0xFFF0000000000001), UINT64_C(0x7FF7FFFFFFFFFFFF),
                                    UINT64_C(0xFFFFFFFFFFFFFFFF), UINT64_C(0x7FF8000000000000), UINT64_C(0x8000000000000001)};
    for (size_t b = 0; b < sizeof BITS / sizeof BITS[0]; b++) {
        for (int i = 0; i < COORDINATES; i++) {
            double six[COORDINATES] = {1e300, 1e300, 1e300, 1e300, 1e300, 1e300};
            six[i] = with_bits(BITS[b]);
            expect(six, TRACKLINE_NOT_WHOLE, 0);
        }
    }
}

/* At the limit, to both sides and in every place. */
static void try_limits(void)
{
    for (int i = 0; i < COORDINATES; i++) {
        for (int side = -1; side <= 1; side += 2) {
            double six[COORDINATES] = {0};
            six[i] = side * MOST;
            expect(six, TRACKLINE_ACCEPTED, MOST);
            six[i] = side * (MOST + 1);
            expect(six, TRACKLINE_COORDINATE, 0);
            six[i] = side * (MOST - 0.5);
            expect(six, TRACKLINE_NOT_WHOLE, 0);
            six[i] = with_bits(bits_of(side * MOST) + 1); /* the next double beyond */
            expect(six, TRACKLINE_NOT_WHOLE, 0);
        }
    }
}

int main(void)
{
    try_lengths();
    try_largest_squares();
    try_zeros();
    for (size_t one = 0; one < KINDS; one++) {
        for (size_t other = 0; other < KINDS; other++) {
            try_two(one, other);
        }
    }
    try_other_bits();
    try_limits();
    printf("path: %d checks, %d wrong\n", checks, failures);
    return failures != 0;
}

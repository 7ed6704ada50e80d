/* The header's limits are the library's: each is accepted, and one more to either side is refused with its number. */
#include <inttypes.h>
#include <stdio.h>
#include <string.h>

#include "trackline.h"

/* What trackline_line is given, by the places of its values. */
static uint32_t made(const int64_t *v)
{
    uint8_t line[TRACKLINE_LINE_BYTES];
    return trackline_line((uint8_t)v[0], (uint8_t)v[1], (uint8_t)v[2], (uint8_t)v[3], (uint8_t)v[4], (uint8_t)v[5], (uint8_t)v[6],
                          (uint8_t)v[7], (uint32_t)v[8], (uint32_t)v[9], (uint16_t)v[10], (uint16_t)v[11], (uint16_t)v[12], v[13], v[14],
                          v[15], v[16], v[17], v[18], v[19], v[20], v[21], v[22], line, sizeof line);
}

static const int64_t SAMPLE[TRACKLINE_VALUES] = {'G', 5, 255, 0, 0, 'L', '1', 'C', 50722, 120, 450, 1800, 7,
                                                 10,  0, 10,  0, 0, 0,   0,   0,   0,     780};

static int failures;

static void expect(const char *what, int64_t value, uint32_t answer, uint32_t wanted)
{
    if (answer != wanted) {
        printf("limits: %s of %" PRId64 " is answered %" PRIu32 ", not %" PRIu32 "\n", what, value, answer, wanted);
        failures++;
    }
}

/* The first start of a date, found by the library. */
static uint32_t start_of(uint32_t mjd)
{
    uint32_t second = 0;
    while (second < 86400 && trackline_start(mjd, second) != TRACKLINE_ACCEPTED) {
        second += 60;
    }
    return second;
}

static void try_label(const char *what, int64_t letter, enum trackline_value place, int64_t value, uint32_t wanted)
{
    int64_t values[TRACKLINE_VALUES];
    memcpy(values, SAMPLE, sizeof values);
    values[TRACKLINE_VALUE_CONSTELLATION] = letter;
    values[TRACKLINE_VALUE_FR] = letter == 'R' ? TRACKLINE_LEAST_FR_R : 0;
    values[place] = value;
    values[TRACKLINE_VALUE_START] = start_of((uint32_t)values[TRACKLINE_VALUE_MJD]);
    expect(what, value, made(values), wanted);
}

/* From low to high is accepted, and what lies beside is refused with this number. A label has none below 0. */
static void try_range(const char *what, int64_t letter, enum trackline_value place, int64_t low, int64_t high, uint32_t refusal)
{
    try_label(what, letter, place, low, TRACKLINE_ACCEPTED);
    try_label(what, letter, place, high, TRACKLINE_ACCEPTED);
    try_label(what, letter, place, high + 1, refusal);
    if (low != 0 || refusal != TRACKLINE_LABEL) {
        try_label(what, letter, place, low - 1, refusal);
    }
}

static void try_labels(void)
{
#define LABEL(letter, name, low, high) try_range(#name, letter, TRACKLINE_VALUE_##name, low, high, TRACKLINE_LABEL)
    LABEL('G', SATELLITE, TRACKLINE_LEAST_SATELLITE, TRACKLINE_MOST_SATELLITE);
    LABEL('G', HC, 0, TRACKLINE_MOST_HC);
    LABEL('R', FR, TRACKLINE_LEAST_FR_R, TRACKLINE_MOST_FR_R);
    LABEL('G', MJD, TRACKLINE_FIRST_MJD, TRACKLINE_LAST_MJD);
    LABEL('G', ELV, 0, TRACKLINE_MOST_ELV);
    LABEL('G', AZTH, 0, TRACKLINE_MOST_AZTH);
    LABEL('G', IOE, 0, TRACKLINE_MOST_IOE_G);
    LABEL('J', IOE, 0, TRACKLINE_MOST_IOE_J);
    LABEL('E', IOE, 0, TRACKLINE_MOST_IOE_E);
    LABEL('C', IOE, 0, TRACKLINE_MOST_IOE_C);
    LABEL('R', IOE, TRACKLINE_LEAST_IOE_R, TRACKLINE_MOST_IOE_R);
#undef LABEL
}

static void try_numbers(void)
{
#define SIGNED(name, most, refusal) try_range(#name, 'G', TRACKLINE_VALUE_##name, -(int64_t)(most), most, refusal)
    SIGNED(REFSV, TRACKLINE_MOST_MIDPOINT, TRACKLINE_MIDPOINT);
    SIGNED(REFSYS, TRACKLINE_MOST_MIDPOINT, TRACKLINE_MIDPOINT);
    SIGNED(SRSV, TRACKLINE_MOST_SLOPE, TRACKLINE_SLOPE);
    SIGNED(SRSYS, TRACKLINE_MOST_SLOPE, TRACKLINE_SLOPE);
    SIGNED(SMDT, TRACKLINE_MOST_DELAY_SLOPE, TRACKLINE_SLOPE);
    SIGNED(SMDI, TRACKLINE_MOST_DELAY_SLOPE, TRACKLINE_SLOPE);
#undef SIGNED
    try_range("MDTR", 'G', TRACKLINE_VALUE_MDTR, 0, TRACKLINE_MOST_DELAY, TRACKLINE_DELAY);
    try_range("MDIO", 'G', TRACKLINE_VALUE_MDIO, 0, TRACKLINE_MOST_DELAY, TRACKLINE_DELAY);
    try_range("DSG", 'G', TRACKLINE_VALUE_DSG, 0, TRACKLINE_MOST_DSG, TRACKLINE_SCATTER);
}

static void put(uint8_t *block, size_t at, size_t width, int64_t number)
{
    for (size_t i = 0; i < width; i++) {
        block[at + i] = (uint8_t)((uint64_t)number >> 8 * i);
    }
}

/* A number in ps at its limit is refused for something else, or accepted; beyond it the block is refused with 2. */
static void try_ps(const char *what, size_t at, int64_t most)
{
    uint8_t block[TRACKLINE_BLOCK_BYTES_OF(TRACKLINE_LEAST_GROUPS)] = {0}, line[TRACKLINE_LINE_BYTES];
    put(block, TRACKLINE_AT_MEASUREMENTS_SIZE, 2, TRACKLINE_MEASUREMENTS_OF(TRACKLINE_LEAST_GROUPS));
    put(block, TRACKLINE_AT_GROUPS_SIZE, 2, TRACKLINE_LEAST_GROUPS);
    for (int side = -1; side <= 1; side += 2) {
        put(block, at, TRACKLINE_WIDTH_PS, side * most);
        expect(what, side * most, trackline_block(block, sizeof block, line, sizeof line) == TRACKLINE_LIMIT, 0);
        put(block, at, TRACKLINE_WIDTH_PS, side * (most + 1));
        expect(what, side * (most + 1), trackline_block(block, sizeof block, line, sizeof line), TRACKLINE_LIMIT);
    }
}

/* Every number in ps from one place to before another. */
static void try_each(const char *what, size_t from, size_t to, int64_t most)
{
    for (size_t at = from; at < to; at += TRACKLINE_WIDTH_PS) {
        try_ps(what, at, most);
    }
}

static void try_all_ps(void)
{
    size_t groups = TRACKLINE_AT_GROUPS_OF(TRACKLINE_LEAST_GROUPS);
    try_ps("a measurement", TRACKLINE_AT_MEASUREMENTS, TRACKLINE_MOST_MEASUREMENT);
    try_ps("geometry", groups + TRACKLINE_IN_GROUP_GEOMETRY, TRACKLINE_MOST_GEOMETRY);
    try_each("a correction", groups + TRACKLINE_IN_GROUP_RELATIVITY, groups + TRACKLINE_WIDTH_GROUP, TRACKLINE_MOST_CORRECTION);
    try_each("a delay", TRACKLINE_AT_INT, TRACKLINE_AT_MEASUREMENTS, TRACKLINE_MOST_CORRECTION);
}

/* Every coordinate of a path, at its limit and one mm beyond it. */
static void try_coordinates(void)
{
    const int64_t most = TRACKLINE_MOST_COORDINATE, values[] = {-most - 1, -most, most, most + 1};
    for (int i = 0; i < 24; i++) {
        double v[6] = {0}, length;
        int64_t value = values[i % 4];
        v[i / 4] = (double)value;
        expect("a coordinate", value, trackline_path(v[0], v[1], v[2], v[3], v[4], v[5], &length),
               i % 4 == 0 || i % 4 == 3 ? TRACKLINE_COORDINATE : TRACKLINE_ACCEPTED);
    }
}

/* The minutes of a date's starts by the header's formula. */
static void note_starts(uint32_t mjd, uint8_t *starts)
{
    memset(starts, 0, 1440);
    for (int64_t i = 1; i <= 89; i++) {
        int64_t minute = (2 + 16 * (i - 1) - 4 * ((int64_t)mjd - 50722)) % 1436;
        starts[minute < 0 ? minute + 1436 : minute] = 1;
    }
}

static void try_date(uint32_t mjd)
{
    uint8_t starts[1440];
    note_starts(mjd, starts);
    for (uint32_t second = 0; second < 86400; second++) {
        uint32_t wanted = second % 60 == 0 && starts[second / 60] ? TRACKLINE_ACCEPTED : TRACKLINE_START;
        expect("a start", second, trackline_start(mjd, second), wanted);
    }
}

/* Every second of some dates. */
static void try_starts(void)
{
    static const uint32_t DATES[] = {TRACKLINE_FIRST_MJD, 50723, 50724, 51080, 51081, 56842, 57000, 60774, TRACKLINE_LAST_MJD};
    for (size_t d = 0; d < sizeof DATES / sizeof DATES[0]; d++) {
        try_date(DATES[d]);
    }
}

int main(void)
{
    try_labels();
    try_numbers();
    try_all_ps();
    try_coordinates();
    try_starts();
    printf("limits: %d wrong\n", failures);
    return failures != 0;
}

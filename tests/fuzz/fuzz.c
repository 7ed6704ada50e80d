/*
 * Fuzz target of the C boundary: each input makes a call of one of the functions, and the archive's answer and every
 * byte of what is lent must be those of the plain Rust implementation.
 *
 * The archive is compiled without AddressSanitizer. So what it is lent lies against a page that nobody may touch, in
 * front or behind, and what it is given in memory that can't be written: a byte read or written outside is a fault at
 * once.
 */
#define _GNU_SOURCE
#include <inttypes.h>
#include <stdio.h>
#include <stdlib.h>
#include <string.h>
#include <sys/mman.h>
#include <unistd.h>

#include "trackline.h"

enum { LEAST_BLOCKS = 4, MOST_BLOCKS = 52, LONGEST_BLOCK = 16384, LONGEST_LINE = 4096, EDITS = 64 };
enum { COLUMNS = 113, OLD_COLUMNS = 103, LONGEST_READ = 200, VALUES = 23, REPORT = 4, MOST_VALUES = 512 };
enum { INT_AT = 26, MEASUREMENTS_AT = 58 };

/* What trackline_line is given; the numbers in their fixed order. */
struct given {
    uint8_t constellation, satellite, cl, fr, hc, frc[3];
    uint32_t mjd, start;
    uint16_t elv, azth, ioe;
    int64_t numbers[10];
};

uint32_t reference_block(const uint8_t *block, size_t block_len, uint8_t *line, size_t line_len);
uint32_t reference_line(const struct given *given, uint8_t *line, size_t line_len);
uint32_t reference_start(uint32_t mjd, uint32_t second);
uint32_t reference_path(const double *coordinates, double *length);
uint32_t reference_read(const uint8_t *line, size_t line_len, int64_t *values, size_t values_len);
size_t reference_comment(const uint8_t *line, size_t line_len);
uint32_t reference_merge(const uint8_t *first, size_t first_len, const uint8_t *second, size_t second_len,
                         uint8_t *file, size_t file_len, size_t *written);
uint32_t reference_view(const uint8_t *first, size_t first_len, const uint8_t *second, size_t second_len,
                        int64_t *report, size_t report_len);
uint32_t reference_delays(const uint8_t *store, size_t store_len, uint32_t mjd, int64_t *delays, size_t delays_len);
uint32_t reference_append(const uint8_t *store, size_t store_len, uint32_t mjd, const int64_t *set, uint8_t *longer,
                          size_t longer_len, size_t *written);
uint32_t reference_day(const uint8_t *blocks, size_t blocks_len, uint8_t *file, size_t file_len, size_t *written, size_t *block);
uint32_t reference_down(const uint8_t *line, size_t line_len, uint8_t *old, size_t old_len);
uint32_t reference_up(const uint8_t *old, size_t old_len, uint8_t hc, const uint8_t *frc, uint8_t *line, size_t line_len);
int LLVMFuzzerInitialize(int *argc, char ***argv);
int LLVMFuzzerTestOneInput(const uint8_t *data, size_t size);

/* ---- the fuzzer's bytes, taken from the left; 0 behind their end ---- */

struct bytes {
    const uint8_t *at;
    size_t left;
};

static uint64_t take(struct bytes *b, size_t count)
{
    uint64_t value = 0;
    for (size_t i = 0; i < count && b->left > 0; i++, b->at++, b->left--) {
        value |= (uint64_t)*b->at << (8 * i);
    }
    return value;
}

static size_t below(struct bytes *b, size_t count)
{
    return take(b, 2) % count;
}

/* A number: small, any, or near a limit of the paper. */
static int64_t number(struct bytes *b)
{
    static const int64_t edges[] = {0, 15, 49, 60, 345, 765, 780, 999, 9999, 99999, 999949, 9999999999, 10000000000,
                                    200000000000, 999999999949, 1000000000000, INT64_MAX};
    size_t kind = take(b, 1);
    switch (kind & 3) {
    case 0: return (int16_t)take(b, 2);
    case 1: return (int32_t)take(b, 4);
    case 2: return (int64_t)take(b, 8);
    default: break;
    }
    uint64_t edge = (uint64_t)edges[(kind >> 3) % (sizeof edges / sizeof *edges)];
    uint64_t off = (uint64_t)(int64_t)(int8_t)take(b, 1);
    return (int64_t)(((kind & 4) ? -edge : edge) + off);
}

/* ---- memory with a page in front and one behind that nobody may touch ---- */

struct guarded {
    uint8_t *lent; /* what the archive sees */
    uint8_t *own;  /* the same bytes, to be written here */
    size_t size;
};

/* for what is given, a lent line and lent values; for a second file that is given, and a lent one */
static struct guarded given_memory, line_memory, values_memory, second_memory, file_memory;
/* for a store that is given, and a longer one that is lent */
static struct guarded store_memory, longer_memory;
/* for a set of blocks that is given, and a file of its lines that is lent */
static struct guarded set_memory, day_memory;
/* for a file of which nothing may be read */
static struct guarded closed_memory;

static void *must(void *mapped)
{
    if (mapped == MAP_FAILED) {
        perror("mmap");
        exit(1);
    }
    return mapped;
}

static struct guarded guard(size_t size, int protection)
{
    size_t page = (size_t)sysconf(_SC_PAGESIZE);
    int file = memfd_create("guarded", 0);
    if (file < 0 || ftruncate(file, (off_t)size) != 0) {
        perror("memfd_create");
        exit(1);
    }
    uint8_t *outer = must(mmap(NULL, size + 2 * page, PROT_NONE, MAP_PRIVATE | MAP_ANONYMOUS, -1, 0));
    uint8_t *lent = must(mmap(outer + page, size, protection, MAP_SHARED | MAP_FIXED, file, 0));
    uint8_t *own = must(mmap(NULL, size, PROT_READ | PROT_WRITE, MAP_SHARED, file, 0));
    return (struct guarded){lent, own, size};
}

/* Where so many bytes lie: against the page in front, or against the one behind. */
static size_t offset(const struct guarded *g, size_t length, int front)
{
    return front ? 0 : g->size - length;
}

/* ---- what was reached ---- */

enum function { BLOCK, LINE, START, READ, MERGE, VIEW, DELAYS, APPEND, DAY, PATH, DOWN, UP, FUNCTIONS };
enum { ANSWERS = 26 };
static const char *const NAMES[FUNCTIONS] = {"trackline_block", "trackline_line", "trackline_start", "trackline_read",
                                             "trackline_merge", "trackline_view", "trackline_delays", "trackline_append",
                                             "trackline_day", "trackline_path", "trackline_down", "trackline_up"};
static uint64_t reached[FUNCTIONS][ANSWERS];

static void report(void)
{
    for (int f = 0; f < FUNCTIONS; f++) {
        printf("%s:", NAMES[f]);
        for (int answer = 0; answer < ANSWERS; answer++) {
            if (reached[f][answer] > 0) {
                printf(" %d:%" PRIu64, answer, reached[f][answer]);
            }
        }
        printf("\n");
    }
}

static void judge(enum function f, uint32_t got, uint32_t wanted)
{
    if (wanted < ANSWERS) {
        reached[f][wanted]++;
    }
    if (got != wanted) {
        printf("DIFFERENT: %s answered %" PRIu32 ", should be %" PRIu32 "\n", NAMES[f], got, wanted);
        abort();
    }
}

/* ---- the lent line ---- */

struct lines {
    uint8_t *got, *wanted;
    size_t length;
};

/* A lent line of some length, most often as much as is enough, with the same bytes for both. */
static struct lines lend_about(size_t enough, struct bytes *b)
{
    const size_t lengths[] = {enough, enough, enough, enough + 1, enough - 1, 0, LONGEST_LINE};
    size_t kind = take(b, 1);
    size_t which = kind % 8;
    size_t length = which < 7 ? lengths[which] : take(b, 1);
    uint8_t fill = (uint8_t)take(b, 1);
    struct lines l = {line_memory.lent + offset(&line_memory, length, (kind & 8) != 0), malloc(length ? length : 1), length};
    for (size_t i = 0; i < length; i++) {
        l.got[i] = l.wanted[i] = (uint8_t)(fill + 7 * i);
    }
    if (length == 0 && (kind & 16)) {
        l.got = NULL;
    }
    return l;
}

static struct lines lend(struct bytes *b)
{
    return lend_about(COLUMNS, b);
}

static void settle(struct lines l)
{
    if (l.length > 0 && memcmp(l.got, l.wanted, l.length) != 0) {
        printf("DIFFERENT lines:\n  %.*s\n  %.*s\n", (int)l.length, (const char *)l.got, (int)l.length,
               (const char *)l.wanted);
        abort();
    }
    free(l.wanted);
}

/* ---- blocks ---- */

static void put(uint8_t *to, uint64_t value, int count)
{
    for (int i = 0; i < count; i++) {
        to[i] = (uint8_t)(value >> (8 * i));
    }
}

static uint64_t get(const uint8_t *from, int count)
{
    uint64_t value = 0;
    for (int i = 0; i < count; i++) {
        value |= (uint64_t)from[i] << (8 * i);
    }
    return value;
}

/* A block of n blocks of 15 seconds, whatever its sizes say after an edit. */
struct hire {
    uint8_t bytes[LONGEST_BLOCK];
    size_t n, length;
};

static uint8_t *measurement(struct hire *h, size_t i)
{
    return h->bytes + MEASUREMENTS_AT + 8 * i;
}

static uint8_t *correction(struct hire *h, size_t column, size_t j)
{
    return measurement(h, 15 * h->n) + 40 * j + 8 * column;
}

static void put_sizes(struct hire *h, size_t seconds, size_t blocks)
{
    put(h->bytes, seconds, 2);
    put(h->bytes + 2, blocks, 2);
}

static uint32_t a_start(uint32_t mjd, size_t track)
{
    int64_t minute = 2 + 16 * (int64_t)(track % 89) - 4 * ((int64_t)mjd - 50722);
    return (uint32_t)(60 * (((minute % 1436) + 1436) % 1436));
}

/* The paper's sample with n blocks, which is accepted. */
static void sample(struct hire *h, size_t n)
{
    static const uint8_t labels[22] = {'G', 5, 255, 0, 0, 'L', '1', 'C', 0x22, 0xC6, 0, 0,
                                       120, 0, 0, 0, 0xC2, 0x01, 0x08, 0x07, 7, 0};
    memset(h->bytes, 0, sizeof h->bytes);
    h->n = n;
    h->length = (size_t)(correction(h, 0, n) - h->bytes);
    put_sizes(h, 15 * n, n);
    memcpy(h->bytes + 4, labels, sizeof labels);
    for (size_t i = 0; i < 15 * n; i++) {
        put(measurement(h, i), 1000, 8);
    }
}

/* Sizes of other blocks, near their own, or any. */
static void resize(struct hire *h, struct bytes *b)
{
    size_t other = 2 + below(b, 53);
    switch (take(b, 1) % 6) {
    case 0: put_sizes(h, 15 * other, other); break;
    case 1: put_sizes(h, 15 * h->n, other); break;
    case 2: put_sizes(h, 15 * other, h->n); break;
    case 3: put_sizes(h, h->n, 15 * h->n); break;
    case 4: put_sizes(h, 15 * h->n + below(b, 3) - 1, h->n + below(b, 3) - 1); break;
    default: put_sizes(h, take(b, 2), take(b, 2));
    }
}

/* Another length: a little more or less, that of another number of blocks, or next to nothing. */
static void cut(struct hire *h, struct bytes *b)
{
    size_t kind = take(b, 1) % 4;
    if (kind < 2) {
        h->length = (size_t)((int64_t)h->length + (int8_t)take(b, 1)) % (LONGEST_BLOCK + 1);
    } else {
        h->length = kind == 2 ? 58 + 160 * below(b, 60) : below(b, 60);
    }
}

/* A line through the measurements, with noise of its own. */
static void measure(struct hire *h, struct bytes *b)
{
    uint64_t level = (uint64_t)number(b), slope = (uint64_t)number(b), noise = take(b, 4);
    for (size_t i = 0; i < 15 * h->n; i++) {
        uint64_t mixed = (i + 1) * UINT64_C(0x9E3779B97F4A7C15) >> 33;
        put(measurement(h, i), level + slope * i + (noise ? mixed % noise : 0), 8);
    }
}

/* Some ps more in the middle of a block, or in the middle of each, from one to the next by a step: parts of a ps. */
static void raise_middle(struct hire *h, struct bytes *b)
{
    size_t first = below(b, 2 * h->n);
    uint64_t more = (uint64_t)(int64_t)(int8_t)take(b, 1), step = take(b, 1);
    for (size_t j = first < h->n ? first : 0; j < (first < h->n ? first + 1 : h->n); j++) {
        uint8_t *at = measurement(h, 15 * j + 7);
        put(at, get(at, 8) + more + step * j, 8);
    }
}

/*
 * A line through a column, or a wave a, -a, -a, a added to it, which where 4 divides n changes neither its sum nor its
 * slope.
 */
static void correct(struct hire *h, struct bytes *b, int wave)
{
    size_t column = below(b, 5);
    uint64_t level = (uint64_t)number(b), step = wave ? 0 : (uint64_t)number(b);
    for (size_t j = 0; j < h->n; j++) {
        uint8_t *at = correction(h, column, j);
        uint64_t wave_value = (j % 4 == 0 || j % 4 == 3) ? level : 0 - level;
        put(at, wave ? get(at, 8) + wave_value : level + step * (2 * j + 1 - h->n), 8);
    }
}

/* Labels that fit together. */
static void label(uint8_t *block, struct bytes *b)
{
    static const uint8_t code[] = "ABCDEFGHIJKLMNOPQRSTUVWXYZ0123456789";
    uint32_t mjd = 50722 + (uint32_t)(take(b, 3) % 49278);
    block[4] = (uint8_t)"GRECJ"[below(b, 5)];
    block[5] = (uint8_t)(1 + below(b, 99));
    block[6] = (uint8_t)take(b, 1);
    block[7] = block[4] == 'R' ? (uint8_t)(1 + below(b, 24)) : 0;
    block[8] = (uint8_t)below(b, 100);
    for (size_t i = 0; i < 3; i++) {
        block[9 + i] = code[below(b, 36)];
    }
    put(block + 12, mjd, 4);
    put(block + 16, a_start(mjd, below(b, 89)), 4);
    put(block + 20, below(b, 901), 2);
    put(block + 22, below(b, 3600), 2);
    put(block + 24, 1 + below(b, 23), 2);
}

/* One change to a block. */
static void edit(struct hire *h, struct bytes *b)
{
    uint8_t *block = h->bytes;
    size_t at;
    switch (take(b, 1) % 15) {
    case 0: at = below(b, 64); block[at < 26 ? at : 4 + at % 22] = (uint8_t)take(b, 1); break;
    case 1: put(block + 16, a_start((uint32_t)get(block + 12, 4), below(b, 89)), 4); break;
    case 2: put(block + 12, (uint32_t)number(b), 4); break;
    case 3: put(block + 16, (uint32_t)number(b), 4); break;
    case 4: at = 20 + 2 * below(b, 3); put(block + at, take(b, 2), 2); break;
    case 5: at = below(b, 4); put(block + INT_AT + 8 * at, (uint64_t)number(b), 8); break;
    case 6: at = below(b, 15 * h->n); put(measurement(h, at), (uint64_t)number(b), 8); break;
    case 7: measure(h, b); break;
    case 8: at = below(b, 5 * h->n); put(correction(h, 0, 0) + 8 * at, (uint64_t)number(b), 8); break;
    case 9: correct(h, b, 0); break;
    case 10: correct(h, b, 1); break;
    case 11:
    case 12: label(block, b); break;
    case 13: raise_middle(h, b); break;
    default:
        if (take(b, 1) % 2 > 0) {
            resize(h, b);
        } else {
            cut(h, b);
        }
    }
}

/* What is given, where the archive sees it. */
static const uint8_t *give(const uint8_t *bytes, size_t length, struct bytes *b)
{
    size_t kind = take(b, 1);
    size_t at = offset(&given_memory, length, (kind & 1) != 0);
    memmove(given_memory.own + at, bytes, length);
    return length == 0 && (kind & 2) ? NULL : given_memory.lent + at;
}

static void call_block(const uint8_t *bytes, size_t length, struct bytes *b)
{
    const uint8_t *given = give(bytes, length, b);
    struct lines l = lend(b);
    uint32_t wanted = reference_block(bytes, length, l.length ? l.wanted : NULL, l.length);
    judge(BLOCK, trackline_block(given, length, l.got, l.length), wanted);
    settle(l);
}

static void edited_block(struct bytes *b)
{
    static struct hire h;
    /* what is lent comes first, so that edits at the end do not move it */
    struct bytes lent = {b->at, b->left < 4 ? b->left : 4};
    take(b, 4);
    sample(&h, LEAST_BLOCKS + take(b, 1) % (MOST_BLOCKS - LEAST_BLOCKS + 1));
    for (int i = 0; i < EDITS && b->left > 0; i++) {
        edit(&h, b);
    }
    call_block(h.bytes, h.length, &lent);
}

static void raw_block(struct bytes *b)
{
    struct bytes lent = {b->at, b->left < 4 ? b->left : 4};
    take(b, 4);
    call_block(b->at, b->left < LONGEST_BLOCK ? b->left : LONGEST_BLOCK, &lent);
}

/* ---- lines and starts ---- */

static uint32_t call_line(const struct given *g, uint8_t *line, size_t length)
{
    const int64_t *n = g->numbers;
    return trackline_line(g->constellation, g->satellite, g->cl, g->fr, g->hc, g->frc[0], g->frc[1], g->frc[2],
                          g->mjd, g->start, g->elv, g->azth, g->ioe,
                          n[0], n[1], n[2], n[3], n[4], n[5], n[6], n[7], n[8], n[9], line, length);
}

/* What trackline_line is given for the labels of a block and some track length. */
static struct given given_by(const uint8_t *labels, struct bytes *b)
{
    int64_t trkl = 15 * (int64_t)(LEAST_BLOCKS + below(b, MOST_BLOCKS - LEAST_BLOCKS + 1));
    struct given g = {.constellation = labels[4], .satellite = labels[5], .cl = labels[6], .fr = labels[7],
                      .hc = labels[8], .mjd = (uint32_t)get(labels + 12, 4), .start = (uint32_t)get(labels + 16, 4),
                      .elv = (uint16_t)get(labels + 20, 2), .azth = (uint16_t)get(labels + 22, 2),
                      .ioe = (uint16_t)get(labels + 24, 2), .numbers = {[9] = trkl}};
    memcpy(g.frc, labels + 9, 3);
    return g;
}

static void line(struct bytes *b)
{
    struct lines l = lend(b);
    uint8_t labels[26] = {0};
    label(labels, b);
    struct given g = given_by(labels, b);
    for (int i = 0; i < EDITS && b->left > 0; i++) {
        switch (take(b, 1) % 16) {
        case 0: g.constellation = (uint8_t)take(b, 1); break;
        case 1: g.satellite = (uint8_t)take(b, 1); break;
        case 2: g.fr = (uint8_t)take(b, 1); break;
        case 3: g.hc = (uint8_t)take(b, 1); break;
        case 4: g.frc[below(b, 3)] = (uint8_t)take(b, 1); break;
        case 5: g.mjd = (uint32_t)number(b); break;
        case 6: g.start = (uint32_t)number(b); break;
        case 7: g.elv = (uint16_t)take(b, 2); break;
        case 8: g.azth = (uint16_t)take(b, 2); break;
        case 9: g.ioe = (uint16_t)take(b, 2); break;
        default: g.numbers[below(b, 10)] = number(b);
        }
    }
    uint32_t wanted = reference_line(&g, l.length ? l.wanted : NULL, l.length);
    judge(LINE, call_line(&g, l.got, l.length), wanted);
    settle(l);
}

static void start(struct bytes *b)
{
    uint32_t mjd = (uint32_t)take(b, 4);
    size_t kind = take(b, 1);
    mjd = kind & 1 ? 50720 + mjd % 49285 : mjd;
    uint32_t second = kind & 2 ? a_start(mjd, below(b, 90)) + (uint32_t)(int8_t)take(b, 1) : (uint32_t)take(b, 4);
    judge(START, trackline_start(mjd, second), reference_start(mjd, second));
}

/* ---- paths ---- */

/* A coordinate: a whole number, of any size or near the limit or a power of two, some binary places behind it, or any bits. */
static double a_coordinate(struct bytes *b)
{
    size_t kind = take(b, 1), places = kind >> 3 & 15;
    uint64_t bits = take(b, 8);
    int64_t number = (int64_t)bits;
    double value = (double)(number % INT64_C(50000000001));
    switch (kind & 7) {
    case 0:
    case 1: break;
    case 2: value = (double)(int16_t)number; break;
    case 3: value = (double)(INT64_C(50000000000) + number % 3); break;
    case 4: value = (double)((INT64_C(1) << 4 * places) + number % 3); break;
    case 5: value = (double)(number >> 11) / (double)(UINT64_C(1) << 4 * places); break;
    case 6: value /= (double)(1 << places); break;
    default: memcpy(&value, &bits, sizeof value);
    }
    return kind & 128 ? -value : value;
}

/* The length lies against the page behind, and in front of it stands a number that nobody may touch. */
static void path(struct bytes *b)
{
    double six[6], *length = (double *)(void *)(values_memory.lent + values_memory.size - sizeof *length), wanted_length;
    uint64_t fill = take(b, 8), before = ~fill, after;
    for (size_t i = 0; i < 6; i++) {
        six[i] = a_coordinate(b);
    }
    memcpy(length, &fill, sizeof fill);
    memcpy(length - 1, &before, sizeof before);
    memcpy(&wanted_length, &fill, sizeof fill);
    uint32_t wanted = reference_path(six, &wanted_length);
    judge(PATH, trackline_path(six[0], six[1], six[2], six[3], six[4], six[5], length), wanted);
    memcpy(&after, length - 1, sizeof after);
    if (memcmp(length, &wanted_length, sizeof *length) != 0 || after != before) {
        printf("DIFFERENT lengths: %a, should be %a\n", *length, wanted_length);
        abort();
    }
}

/* ---- lines read back ---- */

/* A lent row of numbers. */
struct row {
    int64_t *got, *lent; /* lent is got, or NULL */
    int64_t wanted[MOST_VALUES];
    size_t count;
};

/* One that is long enough, or not, with the same numbers for both. */
static void lend_row(struct row *row, size_t enough, struct bytes *b)
{
    const size_t counts[] = {enough, enough, enough + 1, enough - 1, 0, MOST_VALUES};
    size_t kind = take(b, 1);
    row->count = kind % 8 < 6 ? counts[kind % 8] : take(b, 1);
    size_t bytes = row->count * sizeof *row->got;
    row->got = (int64_t *)(void *)(values_memory.lent + offset(&values_memory, bytes, (kind & 8) != 0));
    row->lent = row->count == 0 && (kind & 16) ? NULL : row->got;
    for (size_t i = 0; i < row->count; i++) {
        row->got[i] = row->wanted[i] = -1 - (int64_t)(kind * i);
    }
}

static int same_row(const struct row *row)
{
    return memcmp(row->got, row->wanted, row->count * sizeof *row->got) == 0;
}

static void call_read(const uint8_t *line, size_t length, struct bytes *b)
{
    const uint8_t *given = give(line, length, b);
    struct row row;
    lend_row(&row, VALUES, b);
    uint32_t answer = reference_read(line, length, row.wanted, row.count);
    judge(READ, trackline_read(given, length, row.lent, row.count), answer);
    size_t comment = trackline_comment(given, length);
    if (comment != reference_comment(line, length) || !same_row(&row)) {
        printf("DIFFERENT reading: comment from %zu of\n  %.*s\n", comment, (int)length, (const char *)line);
        abort();
    }
}

/* Puts CK right, the last two of so many columns. */
static void repair_last(uint8_t *line, size_t columns)
{
    static const char digits[] = "0123456789ABCDEF";
    uint8_t sum = 0;
    for (size_t i = 0; i < columns - 2; i++) {
        sum = (uint8_t)(sum + line[i]);
    }
    line[columns - 2] = (uint8_t)digits[sum >> 4];
    line[columns - 1] = (uint8_t)digits[sum & 15];
}

static void repair(uint8_t *line)
{
    repair_last(line, COLUMNS);
}

/* A line that the plain Rust implementation writes. */
static void written(uint8_t *line, struct bytes *b)
{
    static const int64_t limits[10] = {9999999999, 99999, 9999999999, 99999, 9999, 999, 9999, 999, 9999, 0};
    uint8_t labels[26] = {0};
    label(labels, b);
    struct given g = given_by(labels, b);
    for (size_t i = 0; i < 9; i++) {
        int64_t n = number(b) % (limits[i] + 1);
        g.numbers[i] = n < 0 && (i == 4 || i == 6 || i == 8) ? -n : n;
    }
    reference_line(&g, line, COLUMNS);
}

/* A start of the line's day by the clock, or by one that shows a minute from 60, a second of 60 or an hour from 24. */
static void set_clock(uint8_t *line, size_t columns, struct bytes *b)
{
    char clock[32];
    uint32_t mjd = 0;
    for (size_t i = 7; i < 12; i++) {
        mjd = 10 * mjd + (line[i] & 15);
    }
    unsigned minute = a_start(mjd, below(b, 90)) / 60, hour = minute / 60, second = 0;
    size_t kind = take(b, 1);
    minute %= 60;
    if ((kind & 1) && hour > 0 && minute < 40) {
        hour--;
        minute += 60;
    }
    if ((kind & 2) && minute > 0) {
        minute--;
        second = 60;
    }
    hour += kind & 4 ? 24 : 0;
    snprintf(clock, sizeof clock, "%02u%02u%02u", hour, minute, second);
    memcpy(line + 13, clock, 6);
    repair_last(line, columns);
}

/* One change to a line of so many columns; gives its length. */
static size_t edit_line(uint8_t *line, size_t columns, size_t length, struct bytes *b)
{
    static const char texts[][8] = {"00", "240000", "006200", "000160", "0045", "0060", "0790", "0795", "-000",
                                    "-00000", " 0", "a", "+", "-"};
    const char *text = texts[below(b, sizeof texts / sizeof *texts)];
    size_t at = below(b, LONGEST_READ);
    switch (take(b, 1) % 8) {
    case 0: line[at] = (uint8_t)take(b, 1); break;
    case 1: line[at] = (uint8_t)"0123456789"[below(b, 10)]; break;
    case 2: memcpy(line + at % (columns - 8), text, strlen(text)); break;
    case 3: line[columns - 2 + at % 2] |= 0x20; break;
    case 4: length = columns + at % 32; break;
    case 5: length = at; break;
    case 6: set_clock(line, columns, b); break;
    default: repair_last(line, columns);
    }
    return length;
}

static void edited_line(struct bytes *b)
{
    uint8_t line[LONGEST_READ];
    struct bytes lent = {b->at, b->left < 4 ? b->left : 4};
    take(b, 4);
    memset(line, '.', sizeof line);
    written(line, b);
    size_t length = COLUMNS + take(b, 1) % 28;
    for (int i = 0; i < EDITS && b->left > 0; i++) {
        length = edit_line(line, COLUMNS, length, b);
    }
    call_read(line, length, &lent);
}

static void raw_line(struct bytes *b)
{
    struct bytes lent = {b->at, b->left < 4 ? b->left : 4};
    take(b, 4);
    call_read(b->at, b->left < LONGEST_READ ? b->left : LONGEST_READ, &lent);
}

/* ---- lines of version 01 ---- */

/* A character of FRC, or now and then any byte. */
static uint8_t a_code(struct bytes *b)
{
    uint8_t byte = (uint8_t)take(b, 1);
    return byte < 216 ? (uint8_t)"ABCDEFGHIJKLMNOPQRSTUVWXYZ0123456789"[byte % 36] : byte;
}

static void call_down(const uint8_t *line, size_t length, struct bytes *b)
{
    const uint8_t *given = give(line, length, b);
    struct lines l = lend_about(OLD_COLUMNS, b);
    uint32_t wanted = reference_down(line, length, l.wanted, l.length);
    judge(DOWN, trackline_down(given, length, l.got, l.length), wanted);
    settle(l);
}

static void call_up(const uint8_t *old, size_t length, struct bytes *b)
{
    const uint8_t *given = give(old, length, b);
    struct lines l = lend(b);
    uint8_t hc = (uint8_t)take(b, 1) % 128, frc[3] = {a_code(b), a_code(b), a_code(b)};
    uint32_t wanted = reference_up(old, length, hc, frc, l.wanted, l.length);
    judge(UP, trackline_up(given, length, hc, frc[0], frc[1], frc[2], l.got, l.length), wanted);
    settle(l);
}

/* A line that is written, mostly of GPS, of either form, with some changes. */
static void edited_way(enum function f, struct bytes *b)
{
    uint8_t line[LONGEST_READ];
    size_t columns = f == DOWN ? COLUMNS : OLD_COLUMNS;
    struct bytes asked = {b->at, b->left < 8 ? b->left : 8};
    take(b, 8);
    memset(line, '.', sizeof line);
    written(line, b);
    size_t kind = take(b, 1), length = columns + kind % 26;
    if (f == UP) {
        line[0] = ' ';
        memset(line + columns, '.', sizeof line - columns);
    } else if (kind >= 64) {
        line[0] = 'G';
    }
    repair_last(line, columns);
    for (int i = 0; i < EDITS && b->left > 0; i++) {
        length = edit_line(line, columns, length, b);
    }
    (f == DOWN ? call_down : call_up)(line, length, &asked);
}

/* ---- two line files ---- */

enum { ENDED = COLUMNS + 2, MOST_LINES = 30, LONGEST_FILE = 4096, LONGEST_VIEWED = 1150000, CLOSED = 1 << 21 };

struct file {
    uint8_t bytes[LONGEST_FILE];
    size_t length;
};

static int by_keys(const void *line, const void *other)
{
    const uint8_t *a = line, *b = other;
    int date = memcmp(a + 7, b + 7, 5), clock = memcmp(a + 13, b + 13, 6);
    return date != 0 ? date : clock != 0 ? clock : memcmp(a, b, 3);
}

/* A line with its line end, of few dates, starts and satellites. */
static void ended_line(uint8_t *line, struct bytes *b)
{
    char text[32];
    uint32_t mjd = 50722 + (uint32_t)below(b, 3), minute = a_start(mjd, below(b, 4)) / 60;
    written(line, b);
    snprintf(text, sizeof text, "%05" PRIu32 " %02" PRIu32 "%02" PRIu32 "00", mjd, minute / 60, minute % 60);
    memcpy(line + 7, text, 12);
    line[1] = '0';
    line[2] = (uint8_t)('1' + below(b, 3));
    repair(line);
    memcpy(line + COLUMNS, "\r\n", 2);
}

static void add(struct file *file, const uint8_t *line)
{
    memcpy(file->bytes + file->length, line, ENDED);
    file->length += ENDED;
}

/* Another REFSYS, or another track length, as another receiver's line of the same track may have. */
static void vary(uint8_t *line, struct bytes *b)
{
    char text[32];
    size_t kind = take(b, 1);
    if (kind % 4 > 0) {
        snprintf(text, sizeof text, "%+011" PRId64, number(b) % INT64_C(10000000000));
        memcpy(line + 53, text, 11);
    }
    if (kind % 8 == 7) {
        snprintf(text, sizeof text, "%04u", 15 * (unsigned)(LEAST_BLOCKS + below(b, MOST_BLOCKS - LEAST_BLOCKS + 1)));
        memcpy(line + 20, text, 4);
    }
    repair(line);
}

/*
 * Lines in their order, each to one of two files or to both; to the second as it is, with another digit or, for a view,
 * varied.
 */
static void share(struct file *files, enum function f, struct bytes *b)
{
    static uint8_t lines[MOST_LINES][ENDED];
    size_t count = below(b, MOST_LINES + 1);
    for (size_t i = 0; i < count; i++) {
        ended_line(lines[i], b);
    }
    qsort(lines, count, ENDED, by_keys);
    for (size_t i = 0; i < count; i++) {
        size_t whose = take(b, 1);
        if (i > 0 && by_keys(lines[i - 1], lines[i]) == 0 && whose > 0) {
            continue;
        }
        if (whose % 4 != 1) {
            add(&files[0], lines[i]);
        }
        if (whose % 16 == 15) {
            lines[i][104] = lines[i][104] == '7' ? '8' : '7';
            repair(lines[i]);
        }
        if (f == VIEW) {
            vary(lines[i], b);
        }
        if (whose % 4 != 0) {
            add(&files[1], lines[i]);
        }
    }
}

/* One change to a file. */
static void edit_file(struct file *file, struct bytes *b)
{
    size_t count = file->length / ENDED, kind = take(b, 1) % 8;
    uint8_t *line = file->bytes + ENDED * (count > 0 ? below(b, count) : 0), *other = file->bytes;
    uint8_t kept[ENDED];
    other += ENDED * (count > 0 ? below(b, count) : 0);
    switch (count > 0 ? kind : 7) {
    case 0: memcpy(kept, line, ENDED); memmove(line, other, ENDED); memcpy(other, kept, ENDED); break;
    case 1: memmove(line, other, ENDED); break;
    case 2: line[below(b, ENDED)] = (uint8_t)take(b, 1); break;
    case 3: line[below(b, COLUMNS - 2)] = (uint8_t)"0123456789GRECJ"[below(b, 15)]; repair(line); break;
    case 4: line[COLUMNS + below(b, 2)] = (uint8_t)take(b, 1); break;
    case 5: set_clock(line, COLUMNS, b); break;
    case 6: edit_line(line, COLUMNS, COLUMNS, b); break;
    default: file->length = below(b, LONGEST_FILE + 1);
    }
}

/* A file where the archive sees it. */
static const uint8_t *lay(const struct guarded *memory, const struct file *file, size_t kind)
{
    size_t at = offset(memory, file->length, (kind & 1) != 0);
    memmove(memory->own + at, file->bytes, file->length);
    return file->length == 0 && (kind & 2) ? NULL : memory->lent + at;
}

static void call_merge(const struct file *files, struct bytes *b)
{
    static uint8_t wanted_file[2 * LONGEST_FILE];
    const uint8_t *first = lay(&given_memory, &files[0], take(b, 1)), *second = lay(&second_memory, &files[1], take(b, 1));
    size_t *written = (size_t *)(void *)(values_memory.lent + values_memory.size - sizeof *written), wanted_written = 77;
    size_t kind = take(b, 1), room = kind & 1 ? 2 * LONGEST_FILE : kind & 2 ? ENDED * below(b, 71) : below(b, 2 * LONGEST_FILE);
    uint8_t *got = file_memory.lent + offset(&file_memory, room, (kind & 4) != 0);
    for (size_t i = 0; i < room; i++) {
        got[i] = wanted_file[i] = (uint8_t)(kind + 7 * i);
    }
    *written = wanted_written;
    uint32_t wanted = reference_merge(files[0].bytes, files[0].length, files[1].bytes, files[1].length, wanted_file, room,
                                      &wanted_written);
    judge(MERGE, trackline_merge(first, files[0].length, second, files[1].length, room == 0 && (kind & 8) ? NULL : got, room, written),
          wanted);
    if (*written != wanted_written || memcmp(got, wanted_file, room) != 0) {
        printf("DIFFERENT files: %zu bytes written, should be %zu\n", *written, wanted_written);
        abort();
    }
}

/* A file as the archive is given it, and as the plain Rust implementation is. */
struct handed {
    const uint8_t *archive, *plain;
    size_t length;
};

/* Now and then one that is too long for a view: the archive is then given memory that can't be read. */
static struct handed hand(const struct guarded *memory, const struct file *file, struct bytes *b)
{
    static const uint8_t zeros[CLOSED];
    size_t kind = take(b, 1);
    if (kind % 32 == 31) {
        size_t length = LONGEST_VIEWED + 1 + below(b, ENDED);
        return (struct handed){closed_memory.lent + offset(&closed_memory, length, (kind & 32) != 0), zeros, length};
    }
    return (struct handed){lay(memory, file, kind), file->bytes, file->length};
}

static void call_view(const struct file *files, struct bytes *b)
{
    struct handed first = hand(&given_memory, &files[0], b), second = hand(&second_memory, &files[1], b);
    struct row row;
    lend_row(&row, REPORT, b);
    uint32_t wanted = reference_view(first.plain, first.length, second.plain, second.length, row.wanted, row.count);
    judge(VIEW, trackline_view(first.archive, first.length, second.archive, second.length, row.lent, row.count), wanted);
    if (!same_row(&row)) {
        printf("DIFFERENT report of files of %zu and %zu bytes\n", first.length, second.length);
        abort();
    }
}

static void edited_files(enum function f, struct bytes *b)
{
    static struct file files[2];
    struct bytes lent = {b->at, b->left < 8 ? b->left : 8};
    take(b, 8);
    memset(files, 0, sizeof files);
    share(files, f, b);
    for (int i = 0; i < 8 && b->left > 0; i++) {
        edit_file(&files[take(b, 1) % 2], b);
    }
    if (f == VIEW) {
        call_view(files, &lent);
    } else {
        call_merge(files, &lent);
    }
}

/* ---- stores of delays ---- */

enum { MOST_ENTRIES = 1024, LONGEST_STORE = 4 + 36 * MOST_ENTRIES + 64, STORE_PAGES = 40960, SET = 4 };

struct store {
    uint8_t bytes[LONGEST_STORE];
    size_t length;
};

/* A store as it should be: few entries, or now and then about a thousand, whose starts rise by steps of the fuzzer's. */
static void fill_store(struct store *s, struct bytes *b)
{
    size_t kind = take(b, 1), wide = kind & 1 ? 3 : 4, count = kind % 16 > 13 ? 998 + below(b, 4) : below(b, 12);
    uint32_t start = kind & 2 ? 50722 : (uint32_t)take(b, 4);
    put(s->bytes, kind & 1 ? 1 : 2, 2);
    put(s->bytes + 2, count, 2);
    for (size_t k = 0; k < count; k++) {
        put(s->bytes + 4 + 4 * k, start, 4);
        start += 1 + (uint32_t)take(b, 1);
        for (size_t j = 0; j < wide; j++) {
            put(s->bytes + 4 + 4 * count + 8 * (wide * k + j), (uint64_t)(int64_t)(int32_t)take(b, 3), 8);
        }
    }
    s->length = 4 + (4 + 8 * wide) * count;
}

/* One change to a store, not always one that spoils it. */
static void edit_store(struct store *s, struct bytes *b)
{
    size_t count = (size_t)get(s->bytes + 2, 2), known = count % MOST_ENTRIES, at = 4 + 4 * below(b, known + 1);
    size_t delay = 4 + 4 * known + 8 * below(b, 4 * known + 1);
    switch (take(b, 1) % 8) {
    case 0: put(s->bytes, take(b, 2), 2); break;
    case 1: put(s->bytes + 2, count + take(b, 1) % 3 - 1, 2); break;
    case 2: put(s->bytes + at, get(s->bytes + at, 4) + take(b, 1) - 2, 4); break;
    case 3: put(s->bytes + at, take(b, 4), 4); break;
    case 4:
    case 5: put(s->bytes + delay, (uint64_t)number(b), 8); break;
    case 6: s->length += take(b, 1) % 3 - 1; break;
    default: s->length = below(b, LONGEST_STORE);
    }
    s->length = s->length > LONGEST_STORE ? 0 : s->length;
}

/* A date at or beside a start, or any. */
static uint32_t a_date(const struct store *s, struct bytes *b)
{
    size_t count = (size_t)get(s->bytes + 2, 2) % MOST_ENTRIES, kind = take(b, 1);
    size_t entry = kind & 1 ? (count > 0 ? count - 1 : 0) : below(b, count + 1);
    return kind % 8 == 7 ? (uint32_t)take(b, 4) : (uint32_t)(get(s->bytes + 4 + 4 * entry, 4) + kind / 8 % 3 - 1);
}

static const uint8_t *lay_store(const struct store *s, size_t kind)
{
    size_t at = offset(&store_memory, s->length, (kind & 1) != 0);
    memmove(store_memory.own + at, s->bytes, s->length);
    return s->length == 0 && (kind & 2) ? NULL : store_memory.lent + at;
}

static void call_delays(const struct store *s, struct bytes *b)
{
    const uint8_t *given = lay_store(s, take(b, 1));
    uint32_t mjd = a_date(s, b);
    struct row row;
    lend_row(&row, SET, b);
    uint32_t wanted = reference_delays(s->bytes, s->length, mjd, row.wanted, row.count);
    judge(DELAYS, trackline_delays(given, s->length, mjd, row.lent, row.count), wanted);
    if (!same_row(&row)) {
        printf("DIFFERENT delays of a store of %zu bytes on %" PRIu32 "\n", s->length, mjd);
        abort();
    }
}

static void call_append(const struct store *s, struct bytes *b)
{
    static uint8_t wanted_store[LONGEST_STORE];
    const uint8_t *given = lay_store(s, take(b, 1));
    uint32_t mjd = a_date(s, b);
    size_t *written = (size_t *)(void *)(values_memory.lent + values_memory.size - sizeof *written), wanted_written = 77;
    size_t kind = take(b, 1), most = s->length + 40 < LONGEST_STORE ? s->length + 40 : LONGEST_STORE;
    size_t room = kind & 1 ? most : kind & 2 ? most - below(b, most + 1) : most - (kind >> 4) % 13;
    uint8_t *got = longer_memory.lent + offset(&longer_memory, room, (kind & 4) != 0);
    int64_t set[SET] = {number(b), number(b), number(b), kind & 8 ? 0 : number(b)};
    for (size_t i = 0; i < room; i++) {
        got[i] = wanted_store[i] = (uint8_t)(kind + 7 * i);
    }
    *written = wanted_written;
    uint32_t wanted = reference_append(s->bytes, s->length, mjd, set, wanted_store, room, &wanted_written);
    judge(APPEND, trackline_append(given, s->length, mjd, set[0], set[1], set[2], set[3], got, room, written), wanted);
    if (*written != wanted_written || memcmp(got, wanted_store, room) != 0) {
        printf("DIFFERENT stores: %zu bytes written, should be %zu\n", *written, wanted_written);
        abort();
    }
}

static void edited_store(enum function f, struct bytes *b)
{
    static struct store store;
    struct bytes asked = {b->at, b->left < 48 ? b->left : 48};
    take(b, 8), take(b, 8), take(b, 8), take(b, 8), take(b, 8), take(b, 8);
    memset(&store, 0, sizeof store);
    fill_store(&store, b);
    for (int i = 0; i < 4 && b->left > 0; i++) {
        edit_store(&store, b);
    }
    if (f == DELAYS) {
        call_delays(&store, &asked);
    } else {
        call_append(&store, &asked);
    }
}

/* ---- a day of blocks ---- */

enum { MOST_SET = 48, LONGEST_SET = 1 << 16, LONGEST_DAY = 8192 };

struct set {
    uint8_t bytes[LONGEST_SET];
    size_t length;
};

/* A block whose keys rise with its place; now and then edited, or at another's place. */
static void member(struct hire *h, size_t place, struct bytes *b)
{
    size_t kind = take(b, 1);
    sample(h, kind % 8 == 7 ? LEAST_BLOCKS + below(b, MOST_BLOCKS - LEAST_BLOCKS + 1) : LEAST_BLOCKS);
    place = kind / 8 % 8 == 7 ? below(b, MOST_SET) : place;
    h->bytes[5] = (uint8_t)(1 + place % 3);
    put(h->bytes + 16, a_start(50722, place / 3), 4);
    for (size_t i = 0; i < kind / 64 && kind % 4 == 3; i++) {
        edit(h, b);
    }
}

static void fill_set(struct set *s, struct bytes *b)
{
    static struct hire h;
    size_t count = below(b, MOST_SET + 1);
    s->length = 0;
    for (size_t i = 0; i < count; i++) {
        member(&h, i, b);
        if (s->length + h.length <= LONGEST_SET) {
            memcpy(s->bytes + s->length, h.bytes, h.length);
            s->length += h.length;
        }
    }
    if (take(b, 1) % 4 == 3) {
        size_t less = below(b, 1000);
        s->length -= less < s->length ? less : s->length;
    }
}

static void call_day(const struct set *s, struct bytes *b)
{
    static uint8_t wanted_file[LONGEST_DAY];
    size_t *numbers = (size_t *)(void *)(values_memory.lent + values_memory.size - 2 * sizeof *numbers), wanted_numbers[2] = {77, 78};
    size_t kind = take(b, 1), at = offset(&set_memory, s->length, (kind & 1) != 0);
    size_t room = kind & 2 ? LONGEST_DAY : kind & 4 ? ENDED * below(b, MOST_SET + 2) : below(b, LONGEST_DAY);
    uint8_t *got = day_memory.lent + offset(&day_memory, room, (kind & 8) != 0);
    memmove(set_memory.own + at, s->bytes, s->length);
    for (size_t i = 0; i < room; i++) {
        got[i] = wanted_file[i] = (uint8_t)(kind + 7 * i);
    }
    memcpy(numbers, wanted_numbers, sizeof wanted_numbers);
    uint32_t wanted = reference_day(s->bytes, s->length, wanted_file, room, &wanted_numbers[0], &wanted_numbers[1]);
    judge(DAY, trackline_day(s->length == 0 && (kind & 16) ? NULL : set_memory.lent + at, s->length, room == 0 && (kind & 32) ? NULL : got,
                             room, &numbers[0], &numbers[1]), wanted);
    if (memcmp(numbers, wanted_numbers, sizeof wanted_numbers) != 0 || memcmp(got, wanted_file, room) != 0) {
        printf("DIFFERENT day: written %zu, block %zu, should be %zu and %zu\n", numbers[0], numbers[1], wanted_numbers[0], wanted_numbers[1]);
        abort();
    }
}

static void edited_set(struct bytes *b)
{
    static struct set set;
    struct bytes lent = {b->at, b->left < 8 ? b->left : 8};
    take(b, 8);
    fill_set(&set, b);
    call_day(&set, &lent);
}

int LLVMFuzzerInitialize(int *argc, char ***argv)
{
    (void)argc;
    (void)argv;
    given_memory = guard(LONGEST_BLOCK, PROT_READ);
    line_memory = guard(LONGEST_LINE, PROT_READ | PROT_WRITE);
    values_memory = guard(MOST_VALUES * sizeof(int64_t), PROT_READ | PROT_WRITE);
    second_memory = guard(LONGEST_FILE, PROT_READ);
    file_memory = guard(2 * LONGEST_FILE, PROT_READ | PROT_WRITE);
    closed_memory = guard(CLOSED, PROT_NONE);
    store_memory = guard(STORE_PAGES, PROT_READ);
    longer_memory = guard(STORE_PAGES, PROT_READ | PROT_WRITE);
    set_memory = guard(LONGEST_SET, PROT_READ);
    day_memory = guard(LONGEST_DAY, PROT_READ | PROT_WRITE);
    setvbuf(stdout, NULL, _IOLBF, 0); /* abort does not write what is still held back */
    atexit(report);
    return 0;
}

int LLVMFuzzerTestOneInput(const uint8_t *data, size_t size)
{
    struct bytes b = {data, size};
    switch (take(&b, 1) % 28) {
    case 0: raw_block(&b); break;
    case 1: start(&b); break;
    case 2:
    case 3: line(&b); break;
    case 4: raw_line(&b); break;
    case 5:
    case 6:
    case 7: edited_line(&b); break;
    case 12:
    case 13: edited_files(MERGE, &b); break;
    case 14:
    case 15: edited_files(VIEW, &b); break;
    case 16:
    case 17: edited_store(DELAYS, &b); break;
    case 18:
    case 19: edited_store(APPEND, &b); break;
    case 20:
    case 21: edited_set(&b); break;
    case 22:
    case 23: path(&b); break;
    case 24:
    case 25: edited_way(DOWN, &b); break;
    case 26:
    case 27: edited_way(UP, &b); break;
    default: edited_block(&b);
    }
    return 0;
}

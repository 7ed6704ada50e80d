/*
 * How a receiver's control program gets the delays of a date from a store (share/doc/trackline/DELAYS.md), and how it begins a
 * store and adds a calibration. Copy what you need. With the library installed:
 *
 *     cc -std=c11 delays.c $(pkg-config --cflags --libs trackline) \
 *         -Wl,-rpath,$(pkg-config --variable=libdir trackline) -o delays
 *
 * "./delays delays.store 60600" prints the delays in force on MJD 60600; without words it makes a store of two entries in memory and
 * asks it.
 */
#include <inttypes.h>
#include <stdio.h>
#include <stdlib.h>

#include <trackline.h>

/* The text of a refusal, from the header's own list. */
static const char *text_of(uint32_t refusal)
{
#define TEXT(number, name, text) \
    if (refusal == number) {     \
        return text;             \
    }
    TRACKLINE_REFUSALS(TEXT)
#undef TEXT
    return "accepted";
}

static int print_delays(const uint8_t *store, size_t length, uint32_t mjd)
{
    int64_t delays[TRACKLINE_DELAYS_NUMBERS];
    uint32_t refusal = trackline_delays(store, length, mjd, delays, TRACKLINE_DELAYS_NUMBERS);
    if (refusal != TRACKLINE_ACCEPTED) {
        fprintf(stderr, "refused %" PRIu32 ": %s\n", refusal, text_of(refusal));
        return 1;
    }
    printf("%" PRId64 " %" PRId64 " %" PRId64 " %" PRId64 "\n", delays[TRACKLINE_DELAYS_INT], delays[TRACKLINE_DELAYS_CAB],
           delays[TRACKLINE_DELAYS_REF], delays[TRACKLINE_DELAYS_GD]);
    return 0;
}

/* A store of version 2 without an entry is four bytes. Each append writes to the other buffer. */
static int made_in_memory(void)
{
    static uint8_t first[TRACKLINE_STORE_MOST_BYTES] = {2, 0, 0, 0}, second[TRACKLINE_STORE_MOST_BYTES];
    size_t length = TRACKLINE_STORE_BYTES_2_OF(0);
    uint32_t refusal = trackline_append(first, length, 60472, 38600, 181200, 76300, -8380, second, sizeof second, &length);
    if (refusal == TRACKLINE_ACCEPTED) {
        refusal = trackline_append(second, length, 60810, 38655, 181200, 79020, -8380, first, sizeof first, &length);
    }
    if (refusal != TRACKLINE_ACCEPTED) {
        fprintf(stderr, "refused %" PRIu32 ": %s\n", refusal, text_of(refusal));
        return 1;
    }
    return print_delays(first, length, 60600) | print_delays(first, length, 60810);
}

/* Whether the word is a number of 32 bits, to its last character: strtoull takes blanks and a sign before it, too. */
static int read_mjd(const char *word, uint32_t *mjd)
{
    char *end;
    unsigned long long value = strtoull(word, &end, 10);
    *mjd = (uint32_t)value;
    return word[0] >= '0' && word[0] <= '9' && *end == '\0' && value <= UINT32_MAX;
}

int main(int argc, char **argv)
{
    static uint8_t store[TRACKLINE_STORE_MOST_BYTES + 1];
    if (argc == 1) {
        return made_in_memory();
    }
    uint32_t mjd;
    FILE *file = argc == 3 && read_mjd(argv[2], &mjd) ? fopen(argv[1], "rb") : NULL;
    if (file == NULL) {
        fputs("usage: delays [STORE MJD], STORE has to be there and MJD to be 0 to 4294967295\n", stderr);
        return 2;
    }
    size_t length = fread(store, 1, sizeof store, file);
    fclose(file);
    return print_delays(store, length, mjd);
}

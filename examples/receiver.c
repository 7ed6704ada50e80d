/*
 * How a receiver's control program gets the data line of a track: it packs what it measured into a hire block, hands
 * the block over, and sends the line on. A satellite that sets early leaves a shorter track, which has a shorter block.
 * Copy what you need. With the library installed (pkg-config may have to be told
 * where, by PKG_CONFIG_PATH=PREFIX/lib/pkgconfig):
 *
 *     cc -std=c11 receiver.c $(pkg-config --cflags --libs trackline) \
 *         -Wl,-rpath,$(pkg-config --variable=libdir trackline) -o receiver
 *
 * The run path (-rpath) lets the program find the shared library below any PREFIX; where ldconfig knows its folder it can
 * be left out.
 *
 * The track here is the sample: every measurement 1000 ps, no corrections. "./receiver 307" is what is left of it when the
 * satellite sets after 307 seconds: 20 blocks of 15 seconds, the 7 seconds over are of no use. A track that is interrupted ends
 * before the interruption too, as its seconds have to follow each other from the start on.
 */
#include <errno.h>
#include <inttypes.h>
#include <stdio.h>
#include <stdlib.h>
#include <string.h>

#include <trackline.h>

/* One smoothed value's corrections, in ps. */
struct corrections {
    int64_t geometry;    /* path and Sagnac */
    int64_t relativity;
    int64_t ionosphere;
    int64_t troposphere;
    int64_t clock;       /* satellite minus system time */
};

struct track {
    char constellation;  /* G, R, E, C or J */
    uint8_t satellite;
    uint8_t cl;          /* common-view class */
    uint8_t fr;          /* GLONASS channel, 0 for the others */
    uint8_t hc;          /* receiver channel */
    char frc[3];         /* observation code */
    uint32_t mjd;
    uint32_t start;      /* second of the day */
    uint16_t elv, azth;  /* 0.1 degree, in the middle of the track */
    uint16_t ioe;
    int64_t int_dly, cab_dly, ref_dly, gd; /* ps */
    size_t groups;       /* how many blocks of 15 seconds were measured, TRACKLINE_LEAST_GROUPS to TRACKLINE_GROUPS */
    int64_t measurements[TRACKLINE_MEASUREMENTS]; /* ps, one a second from the start on, without a gap */
    struct corrections corrections[TRACKLINE_GROUPS];
};

/* Puts a number of so many bytes into the block, the lowest first. */
static void put(uint8_t *block, size_t at, size_t width, uint64_t value)
{
    for (size_t i = 0; i < width; i++) {
        block[at + i] = (uint8_t)(value >> (8 * i));
    }
}

static void put_ps(uint8_t *block, size_t at, int64_t value)
{
    put(block, at, TRACKLINE_WIDTH_PS, (uint64_t)value);
}

static void put_labels(uint8_t *block, const struct track *t)
{
    put(block, TRACKLINE_AT_CONSTELLATION, TRACKLINE_WIDTH_CONSTELLATION, (uint8_t)t->constellation);
    put(block, TRACKLINE_AT_SATELLITE, TRACKLINE_WIDTH_SATELLITE, t->satellite);
    put(block, TRACKLINE_AT_CL, TRACKLINE_WIDTH_CL, t->cl);
    put(block, TRACKLINE_AT_FR, TRACKLINE_WIDTH_FR, t->fr);
    put(block, TRACKLINE_AT_HC, TRACKLINE_WIDTH_HC, t->hc);
    memcpy(block + TRACKLINE_AT_FRC, t->frc, TRACKLINE_WIDTH_FRC);
    put(block, TRACKLINE_AT_MJD, TRACKLINE_WIDTH_MJD, t->mjd);
    put(block, TRACKLINE_AT_START, TRACKLINE_WIDTH_START, t->start);
    put(block, TRACKLINE_AT_ELV, TRACKLINE_WIDTH_ELV, t->elv);
    put(block, TRACKLINE_AT_AZTH, TRACKLINE_WIDTH_AZTH, t->azth);
    put(block, TRACKLINE_AT_IOE, TRACKLINE_WIDTH_IOE, t->ioe);
}

static void put_corrections(uint8_t *group, const struct corrections *c)
{
    put_ps(group, TRACKLINE_IN_GROUP_GEOMETRY, c->geometry);
    put_ps(group, TRACKLINE_IN_GROUP_RELATIVITY, c->relativity);
    put_ps(group, TRACKLINE_IN_GROUP_IONOSPHERE, c->ionosphere);
    put_ps(group, TRACKLINE_IN_GROUP_TROPOSPHERE, c->troposphere);
    put_ps(group, TRACKLINE_IN_GROUP_CLOCK, c->clock);
}

/*
 * Packs a track into a hire block, in a room of TRACKLINE_BLOCK_BYTES bytes, and answers how many of them it takes. A track of
 * more than TRACKLINE_GROUPS groups has no room in it: 0 is answered, and nothing is written.
 */
static size_t pack(uint8_t *block, const struct track *t)
{
    if (t->groups > TRACKLINE_GROUPS) {
        return 0;
    }
    size_t measurements = TRACKLINE_MEASUREMENTS_OF(t->groups), at_groups = TRACKLINE_AT_GROUPS_OF(t->groups);
    put(block, TRACKLINE_AT_MEASUREMENTS_SIZE, TRACKLINE_WIDTH_MEASUREMENTS_SIZE, measurements);
    put(block, TRACKLINE_AT_GROUPS_SIZE, TRACKLINE_WIDTH_GROUPS_SIZE, t->groups);
    put_labels(block, t);
    put_ps(block, TRACKLINE_AT_INT, t->int_dly);
    put_ps(block, TRACKLINE_AT_CAB, t->cab_dly);
    put_ps(block, TRACKLINE_AT_REF, t->ref_dly);
    put_ps(block, TRACKLINE_AT_GD, t->gd);
    for (size_t i = 0; i < measurements; i++) {
        put_ps(block, TRACKLINE_AT_MEASUREMENTS + TRACKLINE_WIDTH_PS * i, t->measurements[i]);
    }
    for (size_t j = 0; j < t->groups; j++) {
        put_corrections(block + at_groups + TRACKLINE_WIDTH_GROUP * j, &t->corrections[j]);
    }
    return TRACKLINE_BLOCK_BYTES_OF(t->groups);
}

/* The refusals' texts come from the header. */
static const char *meaning(uint32_t refusal)
{
    switch (refusal) {
#define MEANING(number, name, text) \
    case name:                      \
        return text;
        TRACKLINE_REFUSALS(MEANING)
#undef MEANING
    default:
        return "a number that this program does not know";
    }
}

/* The sample, of which so many seconds were measured: only whole blocks count, and not more than a full track has. */
static void sample(struct track *t, unsigned long seconds)
{
    unsigned long groups = seconds / TRACKLINE_MEASUREMENTS_OF(1);
    memset(t, 0, sizeof *t);
    t->groups = groups < TRACKLINE_GROUPS ? groups : TRACKLINE_GROUPS;
    t->constellation = 'G';
    t->satellite = 5;
    t->cl = 255;
    memcpy(t->frc, "L1C", 3);
    t->mjd = 50722;
    t->start = 120;
    t->elv = 450;
    t->azth = 1800;
    t->ioe = 7;
    for (size_t i = 0; i < TRACKLINE_MEASUREMENTS_OF(t->groups); i++) {
        t->measurements[i] = 1000;
    }
}

/* A number of seconds in decimal digits. Answers whether it is one. */
static int read_seconds(const char *text, unsigned long *seconds)
{
    char *end;
    if (text[0] < '0' || text[0] > '9') { /* strtoul takes blanks and a sign, too */
        return 0;
    }
    errno = 0;
    *seconds = strtoul(text, &end, 10);
    return *end == '\0' && errno == 0;
}

int main(int argc, char **argv)
{
    static struct track track;
    static uint8_t block[TRACKLINE_BLOCK_BYTES];
    uint8_t line[TRACKLINE_LINE_BYTES];
    unsigned long seconds = TRACKLINE_MEASUREMENTS;

    if (argc > 2 || (argc == 2 && !read_seconds(argv[1], &seconds))) {
        fprintf(stderr, "usage: receiver [SECONDS]\n");
        return 2;
    }
    sample(&track, seconds);
    if (track.groups < TRACKLINE_LEAST_GROUPS) {
        fprintf(stderr, "no line: %lu s were measured, and a track has %d s or more\n", seconds,
                TRACKLINE_MEASUREMENTS_OF(TRACKLINE_LEAST_GROUPS));
        return 1;
    }
    size_t length = pack(block, &track);
    uint32_t answer = trackline_block(block, length, line, sizeof line);
    if (answer != TRACKLINE_ACCEPTED) {
        fprintf(stderr, "refused %" PRIu32 ": %s\n", answer, meaning(answer));
        return 1;
    }
    /* the line has no zero at its end */
    printf("%.*s\r\n", (int)sizeof line, (const char *)line);
    return 0;
}

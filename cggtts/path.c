/* The length of the straight path between a satellite and an antenna, and how long light takes for it. */
#include "cggtts.h"

#include <inttypes.h>
#include <math.h>
#include <string.h>
#include <strings.h>

enum { COORDINATES = 6, SPEED_OF_LIGHT = 299792458, PS_A_MILLISECOND = 1000000000 };
static const char *const NAMES[COORDINATES] = {"X of the satellite", "Y of the satellite", "Z of the satellite",
                                               "X of the antenna",   "Y of the antenna",   "Z of the antenna"};

/* More digits than the largest coordinate has, and so few that a double holds every such number; and a power beyond any word's length. */
enum { MOST_DIGITS = 15, MOST_POWER = 1000000000 };
/* The powers of ten of metres and kilometres in mm. */
enum { METRES = 3, KILOMETRES = 6 };

/* A decimal exactly as it is written: digits times ten to a power, the last digit not 0. The digits are kept while they are few enough. */
struct decimal {
    int minus;
    int64_t digits, count, power; /* no digit: zero */
    int64_t kept;                 /* how many of the count are in digits; those up to MOST_DIGITS that are not kept are 0 */
    int64_t last;                 /* the power of the last digit as it is written, be it 0 */
};

static int64_t times_ten(int64_t value, int64_t power)
{
    for (; power > 0; power--) {
        value *= 10;
    }
    return value;
}

/* Digits with a point before, among or behind them. Answers whether there is a digit. */
static int read_digits(const char **at, struct decimal *d)
{
    int any = 0, behind_point = 0;
    int64_t zeros = 0;
    for (; (**at >= '0' && **at <= '9') || (**at == '.' && !behind_point); ++*at) {
        if (**at == '.') {
            behind_point = 1;
            continue;
        }
        any = 1;
        d->power -= behind_point;
        zeros++;
        if (**at != '0') {
            d->count += d->count > 0 ? zeros : 1;
            if (d->count <= MOST_DIGITS) {
                d->digits = times_ten(d->digits, zeros) + (**at - '0');
                d->kept = d->count;
            }
            zeros = 0;
        }
    }
    d->last = d->power;
    d->power += zeros;
    return any;
}

/* An exponent, if there is one. Answers whether nothing else follows. */
static int read_power(const char *at, struct decimal *d)
{
    if (*at != 'e' && *at != 'E') {
        return *at == '\0';
    }
    int64_t power = 0;
    int minus = *++at == '-', any = 0;
    at += minus || *at == '+';
    for (; *at >= '0' && *at <= '9'; at++, any = 1) {
        power = power < MOST_POWER ? 10 * power + (*at - '0') : power;
    }
    d->power += minus ? -power : power;
    d->last += minus ? -power : power;
    return any && *at == '\0';
}

/*
 * What the library is handed for a decimal. A whole number of few digits goes as it is. One of more stands as another that is
 * outside too, and what is not whole as a half, as a double could not hold each of them and would be rounded to another number.
 */
static double handed(const struct decimal *d)
{
    double size = 0.0;
    if (d->count > 0 && d->power < 0) {
        size = 0.5;
    } else if (d->count > 0) {
        size = d->count + d->power > MOST_DIGITS ? 1e300 : (double)times_ten(d->digits, d->power);
    }
    return d->minus ? -size : size;
}

/* A coordinate, which may also be a word for an infinity or for no number. Answers whether it is one. */
static int read_coordinate(const char *word, struct decimal *d, double *value)
{
    *d = (struct decimal){.minus = *word == '-'};
    word += *word == '-' || *word == '+';
    if (strcasecmp(word, "nan") == 0) {
        *value = NAN;
        return 1;
    }
    if (strcasecmp(word, "inf") == 0 || strcasecmp(word, "infinity") == 0) {
        *value = d->minus ? -INFINITY : INFINITY;
        return 1;
    }
    if (!read_digits(&word, d) || !read_power(word, d)) {
        return 0;
    }
    *value = handed(d);
    return 1;
}

/* What stands behind the subcommand. */
struct given {
    int count, light; /* how many coordinates there are, and whether --ps is given */
    const char *words[COORDINATES];
    struct decimal decimals[COORDINATES];
    double values[COORDINATES];
};

/* A word that is no coordinate. A minus before what is no digit makes an option. */
static int wrong_word(const char *word, int coordinates_only)
{
    if (!coordinates_only && word[0] == '-' && strchr(".0123456789", word[1]) == NULL) {
        return wrong_use("path: no option '%s'", word);
    }
    return wrong_use("path: '%s' is no number%s", word,
                     strpbrk(word, ",'_") != NULL ? ": decimals have a point before them, and thousands no mark" : "");
}

static int read_words(int argc, char **argv, struct given *given)
{
    int coordinates_only = 0;
    *given = (struct given){0};
    for (int i = 1; i < argc; i++) {
        struct decimal decimal;
        double value;
        if (!coordinates_only && (strcmp(argv[i], "--") == 0 || strcmp(argv[i], "--ps") == 0)) {
            coordinates_only |= argv[i][2] == '\0';
            given->light |= argv[i][2] != '\0';
            continue;
        }
        if (!read_coordinate(argv[i], &decimal, &value)) {
            return wrong_word(argv[i], coordinates_only);
        }
        if (given->count == COORDINATES) {
            return wrong_use("path: '%s' is one word too many", argv[i]);
        }
        given->words[given->count] = argv[i];
        given->decimals[given->count] = decimal;
        given->values[given->count++] = value;
    }
    return given->count == COORDINATES ? ACCEPTED
                                       : wrong_use("path: %d of 6 coordinates: X Y Z of the satellite, then of the antenna",
                                                   given->count);
}

enum fit { OUTSIDE, IN_PARTS, IN_WHOLE };

/* Whether a decimal of a unit is within the limit, and then whether it is whole mm; and how many, cut to whole ones. */
static enum fit fit_in(const struct decimal *d, int64_t unit, int64_t *mm)
{
    int64_t places = d->count + d->power + unit;
    int whole = d->power + unit >= 0;
    if (places > MOST_DIGITS) {
        return OUTSIDE;
    }
    *mm = times_ten(d->digits, places - d->kept);
    for (int64_t more = d->kept - places; more > 0 && *mm > 0; more--) {
        *mm /= 10;
    }
    if (*mm > TRACKLINE_MOST_COORDINATE || (*mm == TRACKLINE_MOST_COORDINATE && !whole)) {
        return OUTSIDE;
    }
    return whole ? IN_WHOLE : IN_PARTS;
}

/* Whether the point of a coordinate may be in km, as in SP3 files: all of its coordinates that are not whole are then within the limit. */
static int may_be_km(const struct given *given, int of)
{
    int first = of - of % 3;
    int64_t mm;
    for (int i = first; i < first + 3; i++) {
        if (given->decimals[i].power < 0 && fit_in(&given->decimals[i], KILOMETRES, &mm) == OUTSIDE) {
            return 0;
        }
    }
    return 1;
}

/*
 * A coordinate that is not whole, and the unit that it may be in: km, if it has four to six decimals and its point may; else metres, if it
 * has up to three that are not 0. With more it has parts of a mm in either. Answers the smallest unit that is told, or 0.
 */
static int explain_fraction(const struct given *given, int i)
{
    const struct decimal *d = &given->decimals[i];
    const char *sign = d->minus ? "-" : "";
    int64_t mm, m;
    int km = d->last < -METRES && may_be_km(given, i);
    enum fit metres = fit_in(d, METRES, &m);
    if (d->count > 0 && km && fit_in(d, KILOMETRES, &mm) == IN_WHOLE) {
        explain("%s is %s; if that is km, it is %s%" PRId64 " mm", NAMES[i], given->words[i], sign, mm);
        return KILOMETRES;
    }
    if (d->count == 0 || metres == OUTSIDE) {
        explain("%s is %s", NAMES[i], given->words[i]);
        return 0;
    }
    if (metres == IN_WHOLE) {
        explain("%s is %s; if that is metres, it is %s%" PRId64 " mm", NAMES[i], given->words[i], sign, m);
    } else {
        explain("%s is %s; if that is %smetres, it has parts of a mm: round it to whole mm", NAMES[i], given->words[i], km ? "km or " : "");
    }
    return METRES;
}

/* Whoever mends the coordinates that are told must not leave a whole one in another unit, nor change one that is in mm; 0 is 0 in any. */
static void explain_whole(const struct given *given, int unit)
{
    int inside = 0, outside = 0;
    for (int i = 0; i < COORDINATES; i++) {
        const struct decimal *d = &given->decimals[i];
        int64_t mm;
        if (d->count > 0 && d->power >= 0) {
            int fits = fit_in(d, unit, &mm) == IN_WHOLE;
            inside += fits;
            outside += !fits;
        }
    }
    if (inside > 0 && outside > 0) {
        explain("one that is whole may be in that unit too; but one that would then be outside is in mm already, or in another unit");
    } else if (inside > 0) {
        explain("a coordinate that is whole may be in that unit too");
    } else if (outside > 0) {
        explain("those that are whole are in mm already, or in another unit: in that one they would be outside");
    }
}

/* Each coordinate that is refused so by itself, and what the others may be. */
static void explain_coordinates(const struct given *given, uint32_t number)
{
    int unit = 0, others = 0;
    for (int i = 0; i < COORDINATES; i++) {
        double length;
        if (trackline_path(given->values[i], 0, 0, 0, 0, 0, &length) != number) {
            others += given->decimals[i].count > 0;
        } else if (number == TRACKLINE_COORDINATE) {
            explain("%s is %s, not -%" PRId64 " to %" PRId64, NAMES[i], given->words[i], (int64_t)TRACKLINE_MOST_COORDINATE,
                    (int64_t)TRACKLINE_MOST_COORDINATE);
        } else {
            int told = explain_fraction(given, i);
            unit = unit == 0 || (told != 0 && told < unit) ? told : unit;
        }
    }
    if (number == TRACKLINE_COORDINATE && others > 0) {
        explain("if that is in a smaller unit than mm, a coordinate inside may be in that unit too");
    } else if (unit != 0) {
        explain_whole(given, unit);
    }
}

/*
 * In whole ps, to the nearest, by whole numbers alone. Light goes as many mm in a ms as m in a s. Whole ms are parted off, so that
 * nothing is too large.
 */
static int64_t light_time(int64_t length)
{
    int64_t whole = length / SPEED_OF_LIGHT, rest = length % SPEED_OF_LIGHT;
    return PS_A_MILLISECOND * whole + nearest(PS_A_MILLISECOND * rest, SPEED_OF_LIGHT);
}

/* Coordinates in whole metres or km are accepted as mm, and the length then has too few digits for a satellite. */
static void remark(int64_t length)
{
    enum { NEAR = 1000000000 };
    if (length > 0 && length < NEAR) {
        flush_output();
        explain("a remark: a path to a navigation satellite has eleven digits in mm, and this one under ten; are all coordinates in mm?");
    }
}

int path_command(int argc, char **argv)
{
    struct given given;
    double length = 0;
    if (read_words(argc, argv, &given) != ACCEPTED) {
        return FAILED;
    }
    const double *v = given.values;
    uint32_t answer = trackline_path(v[0], v[1], v[2], v[3], v[4], v[5], &length);
    if (answer != TRACKLINE_ACCEPTED) {
        report_refusal("path", answer);
        explain_coordinates(&given, answer);
        return REFUSED;
    }
    print_form("%" PRId64 " mm\n", (int64_t)length);
    if (given.light) {
        print_form("%" PRId64 " ps\n", light_time((int64_t)length));
    }
    remark((int64_t)length);
    return ACCEPTED;
}

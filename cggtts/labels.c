/* Refusal 7: which labels are out of their range. All of them are named, as there is no order among them. */
#include "cggtts.h"

#include <inttypes.h>
#include <stdio.h>

struct range {
    const char *name;
    size_t at, width;
    uint32_t low, high;
};

#define RANGE(name, low, high) {#name, TRACKLINE_AT_##name, TRACKLINE_WIDTH_##name, low, high}

static const struct range RANGES[] = {
    {"satellite", TRACKLINE_AT_SATELLITE, TRACKLINE_WIDTH_SATELLITE, TRACKLINE_LEAST_SATELLITE, TRACKLINE_MOST_SATELLITE},
    RANGE(HC, 0, TRACKLINE_MOST_HC),
    RANGE(MJD, FIRST_MJD, LAST_MJD),
    RANGE(ELV, 0, TRACKLINE_MOST_ELV),
    RANGE(AZTH, 0, TRACKLINE_MOST_AZTH),
};

/* The letters, their names and the ranges that go by them. */
static const struct constellation {
    uint8_t letter;
    const char *name;
    struct range ioe, fr;
} CONSTELLATIONS[] = {
    {'G', "GPS", RANGE(IOE, 0, TRACKLINE_MOST_IOE_G), RANGE(FR, 0, 0)},
    {'R', "GLONASS", RANGE(IOE, TRACKLINE_LEAST_IOE_R, TRACKLINE_MOST_IOE_R), RANGE(FR, TRACKLINE_LEAST_FR_R, TRACKLINE_MOST_FR_R)},
    {'E', "Galileo", RANGE(IOE, 0, TRACKLINE_MOST_IOE_E), RANGE(FR, 0, 0)},
    {'C', "BeiDou", RANGE(IOE, 0, TRACKLINE_MOST_IOE_C), RANGE(FR, 0, 0)},
    {'J', "QZSS", RANGE(IOE, 0, TRACKLINE_MOST_IOE_J), RANGE(FR, 0, 0)},
};
enum { LETTERS = sizeof CONSTELLATIONS / sizeof CONSTELLATIONS[0] };

/* By its letter, which is that of an accepted line. */
const char *constellation_name(uint8_t letter)
{
    const struct constellation *of = CONSTELLATIONS;
    while (of < CONSTELLATIONS + LETTERS - 1 && of->letter != letter) {
        of++;
    }
    return of->name;
}

/* `of` ends the message: what the range goes by. */
static void explain_range(const uint8_t *block, const struct range *range, const char *of)
{
    uint64_t value = unsigned_at(block, range->at, range->width);
    if (value >= range->low && value <= range->high) {
        return;
    }
    if (range->low == range->high) {
        explain("%s is %" PRIu64 ", not %" PRIu32 "%s", range->name, value, range->low, of);
    } else {
        explain("%s is %" PRIu64 ", not %" PRIu32 " to %" PRIu32 "%s", range->name, value, range->low, range->high, of);
    }
}

/* A byte as it can be shown: what is no visible character, and the backslash, as \x and two digits. */
const char *shown(uint8_t byte, char *room)
{
    int visible = byte > ' ' && byte < 0x7F && byte != '\\';
    sprintf(room, visible ? "%c" : "\\x%02X", byte);
    return room;
}

static void explain_constellation(const uint8_t *block)
{
    uint8_t letter = block[TRACKLINE_AT_CONSTELLATION];
    char room[8], of[] = " for ?";
    for (size_t i = 0; i < LETTERS; i++) {
        if (CONSTELLATIONS[i].letter == letter) {
            of[5] = (char)letter;
            explain_range(block, &CONSTELLATIONS[i].fr, of);
            explain_range(block, &CONSTELLATIONS[i].ioe, of);
            return;
        }
    }
    explain("constellation is %s, not G, R, E, C or J", shown(letter, room));
}

static void explain_code(const uint8_t *block)
{
    const uint8_t *code = block + TRACKLINE_AT_FRC;
    char rooms[TRACKLINE_WIDTH_FRC][8];
    int fits = 1;
    for (int i = 0; i < TRACKLINE_WIDTH_FRC; i++) {
        fits &= (code[i] >= 'A' && code[i] <= 'Z') || (code[i] >= '0' && code[i] <= '9');
    }
    if (!fits) {
        explain("FRC is %s%s%s, not three of A to Z and 0 to 9",
                shown(code[0], rooms[0]), shown(code[1], rooms[1]), shown(code[2], rooms[2]));
    }
}

void explain_labels(const uint8_t *block)
{
    explain_constellation(block);
    explain_code(block);
    for (size_t i = 0; i < sizeof RANGES / sizeof RANGES[0]; i++) {
        explain_range(block, &RANGES[i], "");
    }
}

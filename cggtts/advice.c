/* The command that helps with a file that is refused, as it can be typed. */
#include "cggtts.h"

#include <ctype.h>
#include <stdio.h>
#include <string.h>

static int is_plain(const char *name)
{
    while (isalnum((unsigned char)*name) || (*name != '\0' && strchr("-_./+,:@%", *name) != NULL)) {
        name++;
    }
    return *name == '\0';
}

/* A file's name as a shell reads it, in a room of NAME_ROOM bytes; one that is too long or can't be shown is called FILE. */
static const char *typed(const char *name, char *room)
{
    size_t length = 0;
    while (isprint((unsigned char)name[length]) && name[length] != '\'') {
        length++;
    }
    if (is_plain(name) && name[0] != '\0' && length + 3 < NAME_ROOM) {
        snprintf(room, NAME_ROOM, "%s%s", name[0] == '-' && name[1] != '\0' ? "./" : "", name);
    } else if (name[length] == '\0' && length > 0 && length + 3 < NAME_ROOM) {
        snprintf(room, NAME_ROOM, "'%s'", name);
    } else {
        snprintf(room, NAME_ROOM, "FILE");
    }
    return room;
}

/* Below a refusal: what the file is, and the command for it. */
void advise_convert(const char *name, const char *what)
{
    char room[NAME_ROOM];
    explain("%s; this makes a line file of it:", what);
    explain("  cggtts convert %s -o LINES", typed(name, room));
}

/* The same for lines of version 01. */
void advise_old(const char *name, const char *what, const struct arguments *given)
{
    char room[NAME_ROOM], hc[NAME_ROOM], frc[NAME_ROOM];
    explain("%s; this makes a line file of it:", what);
    explain("  cggtts convert %s --hc %s --frc %s -o LINES", typed(name, room), given != NULL ? typed(given->hc, hc) : "N",
            given != NULL ? typed(given->frc, frc) : "XYZ");
}

void advise_header(const char *name, const struct bytes *file)
{
    if (has_old_header(file)) {
        advise_old(name, "the file begins with a header of version 01, and a line file has data lines of ours alone", NULL);
    } else {
        advise_convert(name, "the file begins with a header, and a line file has data lines alone");
    }
}

void advise_parted(const char *first, const char *second)
{
    char one[NAME_ROOM], other[NAME_ROOM];
    explain("longer files are viewed date by date, and their reports joined, by");
    explain("  cggtts view --parted %s %s", typed(first, one), typed(second, other));
}

/* A line that is refused for its fills or what stands behind it, where convert can take it. */
int advise_line(const struct line_file *file, const uint8_t *line, size_t length)
{
    static const struct arguments NO_CODES;
    struct taken taken;
    struct fault fault;
    int helps = take_line(line, length, &NO_CODES, &taken, &fault) == ACCEPTED;
    if (helps) {
        advise_convert(file->name, "convert puts fills and line ends right, and leaves comments out");
    }
    return helps;
}

/* A line that convert can take with another code in the place of its FRC, which is seen and typed as it stands. */
int advise_code(const struct line_file *file, const uint8_t *line, size_t length)
{
    char codes[] = "OLD=NEW", room[NAME_ROOM], typed_codes[NAME_ROOM];
    struct arguments given = {.codes = {codes}, .codes_count = 1};
    struct taken taken;
    struct fault fault;
    if (length < TRACKLINE_LINE_BYTES) {
        return 0;
    }
    memcpy(codes, line + TRACKLINE_LINE_BYTES - 3 - FRC_WIDTH, FRC_WIDTH);
    if (strcmp(typed(codes, typed_codes), "FILE") == 0 || take_line(line, length, &given, &taken, &fault) != ACCEPTED) {
        return 0;
    }
    explain("convert puts NEW, three of A to Z and 0 to 9, in the place of its FRC; this makes a line file of it:");
    explain("  cggtts convert %s --frc %s -o LINES", typed(file->name, room), typed_codes);
    return 1;
}

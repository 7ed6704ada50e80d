/* Messages on standard error. What is on its way to standard output goes first, so that the two stay in order. */
#include "cggtts.h"

#include <inttypes.h>
#include <stdarg.h>
#include <stdio.h>
#include <string.h>

/* A file's name in a sentence. In front of a refusal it stands as it was given. */
const char *called(const char *file)
{
    return strcmp(file, "-") == 0 ? "standard input" : file;
}

/* How many bytes make the character that a text begins with, UTF-8 or ASCII, or 0 for a control or what is no character. */
static size_t character_at(const uint8_t *text)
{
    if (text[0] < 0x80) {
        return text[0] >= ' ' && text[0] != 0x7F;
    }
    size_t length = text[0] >= 0xF0 ? 4 : text[0] >= 0xE0 ? 3 : 2, i = 1;
    if (text[0] < 0xC2 || text[0] > 0xF4 || (text[0] == 0xC2 && text[1] < 0xA0)) {
        return 0;
    }
    while (i < length && (text[i] & 0xC0) == 0x80) {
        i++;
    }
    return i == length ? length : 0;
}

/* A text as a terminal can show it: what a file's name may have beside characters as \x and two digits. It stands until the next call. */
const char *clean(const char *text)
{
    static char room[CLEAN_ROOM];
    char *end = room;
    while (*text != '\0' && end < room + sizeof room - 8) {
        size_t length = character_at((const uint8_t *)text);
        if (length > 0) {
            memcpy(end, text, length);
            end += length;
        } else {
            end += sprintf(end, "\\x%02X", (uint8_t)*text);
        }
        text += length > 0 ? length : 1;
    }
    *end = '\0';
    return room;
}

/* A line to standard error. */
static void say(const char *before, const char *form, va_list given, const char *behind)
{
    char text[3 * NAME_ROOM];
    vsnprintf(text, sizeof text, form, given);
    fprintf(stderr, "%s%s%s\n", before, clean(text), behind);
}

/* A file, or the program, and what is wrong with it. */
void complain(const char *file, const char *reason)
{
    flush_output();
    fprintf(stderr, "cggtts: %s: ", clean(file));
    fprintf(stderr, "%s\n", clean(reason));
}

void complain_of_error(const char *file, int error)
{
    complain(file, strerror(error));
}

static const char *meaning(uint32_t number)
{
    switch (number) {
#define MEANING(number, name, text) \
    case name:                      \
        return text;
        TRACKLINE_REFUSALS(MEANING)
#undef MEANING
    default:
        return number == 10 ? "the number is retired" : "the number is unknown to this version";
    }
}

void report_refusal(const char *file, uint32_t number)
{
    flush_output();
    fprintf(stderr, "%s: refused %" PRIu32 ": %s\n", clean(file), number, meaning(number));
}

/* A line below a refusal. */
void explain(const char *form, ...)
{
    va_list given;
    va_start(given, form);
    say("  ", form, given, "");
    va_end(given);
}

/* Why the command line can't be used. */
int wrong_use(const char *form, ...)
{
    va_list given;
    va_start(given, form);
    flush_output();
    say("cggtts: ", form, given, "; try cggtts --help");
    va_end(given);
    return FAILED;
}

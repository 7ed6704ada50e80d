/*
 * The picture of a common view: the differences over time, with their mean, the smallest and the largest. Coordinates are
 * whole tenths of a pixel, so that the same files give the same bytes everywhere.
 */
#include "cggtts.h"

#include <inttypes.h>
#include <stdarg.h>
#include <stdio.h>
#include <string.h>

/* In pixels; the frame in tenths of one, with room on the left for two thousand million. */
enum { WIDTH = 960, HEIGHT = 525, LEFT = 1320, RIGHT = 9300, TOP = 960, BOTTOM = 4660 };
/* So many ticks at most, the longest name of a file, whose end is shown, and how far apart names in the legend stand. */
enum { TICKS = 8, LONGEST_NAME = 36, LEGEND = 1590 };
/* So many characters of the heading fit beside each other, 9 pixels each; so many lines at most, and how far apart. */
enum { LONGEST_LINE = (WIDTH - LEFT / 10) / 9, SUMMARY_LINES = 4, LINE_HEIGHT = 20 };
/* The least room beside the first and the last point: 0.05 days, and 0.5 ns. */
enum { TIME_ROOM = DAY / 20, DIFFERENCE_ROOM = 5 };

static const char STYLE[] = "text{font-family:Helvetica,Arial,\"Liberation Sans\",\"DejaVu Sans\",sans-serif;font-size:14px}"
                            ".head{font-size:16px;font-weight:bold}";
static const char BLACK[] = "#000", GREY[] = "#767676", PALE[] = "#e4e4e4", RED[] = "#c8400a";

static const struct {
    uint8_t letter;
    const char *colour;
} COLOURS[] = {{'C', "#b35900"}, {'E', "#0057a8"}, {'G', "#00805c"}, {'J', "#a8528c"}, {'R', "#5a4fcf"}};
enum { LETTERS = sizeof COLOURS / sizeof COLOURS[0] };

/* What is drawn so far; after a failure nothing more is. */
struct drawing {
    struct bytes *bytes;
    int status;
};

static void put(struct drawing *drawing, const char *form, ...)
{
    char text[512];
    va_list given;
    va_start(given, form);
    vsnprintf(text, sizeof text, form, given);
    va_end(given);
    if (drawing->status == ACCEPTED) {
        drawing->status = append_bytes(drawing->bytes, text, strlen(text));
    }
}

/* Values from low to high over coordinates from one to another, and ticks at multiples of a step. */
struct axis {
    int64_t low, high, step, unit; /* unit: what the last decimal of a label stands for */
    int places;                    /* how many decimals a unit has */
    int from, to;
};

/* The smallest of 1, 2, 5, 10 .. units that parts the span at most so often. */
static int64_t step_of(int64_t unit, int64_t span)
{
    int64_t step = unit;
    for (int k = 0; span / step > TICKS; k++) {
        step = k % 3 == 1 ? step / 2 * 5 : 2 * step;
    }
    return step;
}

/* An axis over these values with some room on both sides. */
static struct axis axis_over(int64_t first, int64_t last, int64_t room, int64_t unit, int places)
{
    int64_t share = (last - first) / 24;
    room = share > room ? share : room;
    struct axis axis = {first - room, last + room, step_of(unit, last - first + 2 * room), unit, places, 0, 0};
    return axis;
}

/* Where a fraction, over a divisor, lies on the axis. */
static int place_of(const struct axis *axis, int64_t numerator, int64_t divisor)
{
    int64_t above = numerator - axis->low * divisor;
    return axis->from + (int)nearest(above * (axis->to - axis->from), (axis->high - axis->low) * divisor);
}

static int64_t first_tick(const struct axis *axis)
{
    int64_t tick = axis->low / axis->step * axis->step;
    return tick < axis->low ? tick + axis->step : tick;
}

/* With as many decimals as the step has. */
static const char *tick_text(const struct axis *axis, int64_t tick, char *room)
{
    int64_t units = tick / axis->unit, step = axis->step / axis->unit;
    int places = axis->places;
    for (; places > 0 && step % 10 == 0; places--) {
        units /= 10;
        step /= 10;
    }
    return decimal_text(units, places, room);
}

static void put_stroke(struct drawing *drawing, const int *ends, const char *colour, const char *more)
{
    char room[4][DECIMAL_ROOM];
    for (int i = 0; i < 4; i++) {
        decimal_text(ends[i], 1, room[i]);
    }
    put(drawing, "<line x1=\"%s\" y1=\"%s\" x2=\"%s\" y2=\"%s\" stroke=\"%s\"%s/>\n", room[0], room[1], room[2], room[3],
        colour, more);
}

/* A line through the frame at a height. */
static void put_level(struct drawing *drawing, int y, const char *colour, const char *more)
{
    const int ends[] = {LEFT, y, RIGHT, y};
    put_stroke(drawing, ends, colour, more);
}

static void put_words(struct drawing *drawing, int x, int y, const char *anchor, const char *words)
{
    char across[DECIMAL_ROOM], down[DECIMAL_ROOM];
    put(drawing, "<text x=\"%s\" y=\"%s\" text-anchor=\"%s\">%s</text>\n", decimal_text(x, 1, across),
        decimal_text(y, 1, down), anchor, words);
}

/* A character as SVG has it: what is neither a blank nor visible ASCII as \x and two digits. */
static const char *marked_up(char character, char *room)
{
    switch (character) {
    case '&': return "&amp;";
    case '<': return "&lt;";
    case '>': return "&gt;";
    case ' ': return " ";
    default: return shown((uint8_t)character, room);
    }
}

/* How many bytes at their ends two names have in common; none where they are the same. */
static size_t common_end(const char *name, const char *other)
{
    size_t length = strlen(name), others = strlen(other), common = 0;
    while (common < length && common < others && name[length - common - 1] == other[others - common - 1]) {
        common++;
    }
    return common == length && common == others ? 0 : common;
}

/* A name from its last slash on, or, where the other has the same there, from the slash before the folder that differs. */
static const char *tail_of(const char *name, const char *other)
{
    size_t common = common_end(name, other);
    const char *tail = name + strlen(name) - common;
    if (common == strlen(other) && tail > name && tail[-1] == '/') {
        tail--;
    }
    while (tail > name && tail[-1] != '/') {
        tail--;
    }
    return tail;
}

/* The end of a file's name, as far as it tells the file from the other. */
static void put_name(struct drawing *drawing, const char *name, const char *other)
{
    const char *tail = tail_of(name, other);
    int cut = strlen(tail) > LONGEST_NAME;
    put(drawing, cut ? "..." : "");
    for (tail += cut ? strlen(tail) - LONGEST_NAME : 0; *tail != '\0'; tail++) {
        char room[8];
        put(drawing, "%s", marked_up(*tail, room));
    }
}

static void put_title(struct drawing *drawing, const struct view *view)
{
    const char *first = called(view->first->name), *second = called(view->second->name);
    put(drawing, "REFSYS of ");
    put_name(drawing, first, second);
    put(drawing, " minus REFSYS of ");
    put_name(drawing, second, first);
}

/* Whether a fraction, over a divisor, is among what is drawn. */
static int is_inside(const struct range_of_picture *range, int64_t numerator, int64_t divisor)
{
    return !range->given || (numerator >= range->low * divisor && numerator <= range->high * divisor);
}

/* The lines of the heading below its title, each short enough for the picture's width. */
struct summary {
    char lines[SUMMARY_LINES][2 * LONGEST_LINE];
    int count;
};

/* Puts words behind the last line with a blank, or on a new one where that would be too long. */
static void add_words(struct summary *summary, const char *form, ...)
{
    char words[LONGEST_LINE];
    va_list given;
    va_start(given, form);
    vsnprintf(words, sizeof words, form, given);
    va_end(given);
    char *line = summary->lines[summary->count > 0 ? summary->count - 1 : 0];
    int fits = summary->count > 0 && strlen(line) + 1 + strlen(words) <= LONGEST_LINE;
    if (fits) {
        strcat(strcat(line, " "), words);
    } else {
        strcpy(summary->lines[summary->count++], words);
    }
}

static int64_t pairs_outside(const struct view *view)
{
    int64_t outside = 0;
    for (int64_t i = 0; i < view->report[TRACKLINE_REPORT_PAIRS]; i++) {
        outside += !is_inside(&view->range, view->pairs[i].difference, 1);
    }
    return outside;
}

/* How many pairs there are, and how many are not drawn, where a range is given. */
static void add_pairs(struct summary *summary, const struct view *view)
{
    char low[DECIMAL_ROOM], high[DECIMAL_ROOM];
    int64_t pairs = view->report[TRACKLINE_REPORT_PAIRS];
    add_words(summary, "%" PRId64 " pair%s%s", pairs, pairs == 1 ? "" : "s", view->range.given ? "," : ":");
    if (view->range.given) {
        add_words(summary, "%" PRId64 " outside %s to %s ns:", pairs_outside(view), decimal_text(view->range.low, 1, low),
                  decimal_text(view->range.high, 1, high));
    }
}

/* The three figures, and how the line of each is drawn, if it is. */
static void summarize(struct summary *summary, const struct view *view)
{
    static const char OUTSIDE[] = " (outside)", DASHED[] = " (dashed)";
    const int64_t *report = view->report;
    char smallest[DECIMAL_ROOM], largest[DECIMAL_ROOM];
    int low = is_inside(&view->range, report[TRACKLINE_REPORT_SMALLEST], 1);
    int high = is_inside(&view->range, report[TRACKLINE_REPORT_LARGEST], 1);
    int mean = is_inside(&view->range, report[TRACKLINE_REPORT_SUM], report[TRACKLINE_REPORT_PAIRS]);
    add_pairs(summary, view);
    add_words(summary, "smallest %s ns%s and largest %s ns%s,", decimal_text(report[TRACKLINE_REPORT_SMALLEST], 1, smallest),
              low && high ? "" : low ? DASHED : OUTSIDE, decimal_text(report[TRACKLINE_REPORT_LARGEST], 1, largest),
              high ? DASHED : OUTSIDE);
    add_words(summary, "mean %" PRId64 "/%" PRId64 " x 0.1 ns%s", report[TRACKLINE_REPORT_SUM], report[TRACKLINE_REPORT_PAIRS],
              mean ? " (red)" : OUTSIDE);
}

/* Each line beyond the first makes the picture higher at its top, where coordinates are then below 0. */
static void put_head(struct drawing *drawing, const struct view *view)
{
    struct summary summary = {.count = 0};
    summarize(&summary, view);
    int more = LINE_HEIGHT * (summary.count - 1), top = -more;
    put(drawing, "<svg xmlns=\"http://www.w3.org/2000/svg\" width=\"%d\" height=\"%d\" viewBox=\"0 %d %d %d\">\n<title>", WIDTH,
        HEIGHT + more, top, WIDTH, HEIGHT + more);
    put_title(drawing, view);
    put(drawing, "</title>\n<style>%s</style>\n<rect", STYLE);
    if (more > 0) {
        put(drawing, " y=\"%d\"", top);
    }
    put(drawing, " width=\"%d\" height=\"%d\" fill=\"#fff\"/>\n", WIDTH, HEIGHT + more);
    put(drawing, "<text x=\"%d\" y=\"%d\" class=\"head\">", LEFT / 10, 28 - more);
    put_title(drawing, view);
    put(drawing, "</text>\n");
    for (int i = 0; i < summary.count; i++) {
        put(drawing, "<text x=\"%d\" y=\"%d\">%s</text>\n", LEFT / 10, 52 - more + LINE_HEIGHT * i, summary.lines[i]);
    }
}

static void put_times(struct drawing *drawing, const struct axis *times)
{
    char room[DECIMAL_ROOM];
    for (int64_t tick = first_tick(times); tick <= times->high; tick += times->step) {
        int x = place_of(times, tick, 1);
        const int ends[] = {x, BOTTOM, x, BOTTOM + 50};
        put_stroke(drawing, ends, BLACK, "");
        put_words(drawing, x, BOTTOM + 200, "middle", tick_text(times, tick, room));
    }
    put_words(drawing, (LEFT + RIGHT) / 2, BOTTOM + 430, "middle", "MJD at the start of the track");
}

/* The name of the axis stands left of the longest label, and inside the picture. */
static void put_differences(struct drawing *drawing, const struct axis *differences)
{
    char room[DECIMAL_ROOM];
    int longest = 0;
    for (int64_t tick = first_tick(differences); tick <= differences->high; tick += differences->step) {
        int y = place_of(differences, tick, 1);
        const int ends[] = {LEFT - 50, y, LEFT, y};
        put_level(drawing, y, tick == 0 ? BLACK : PALE, "");
        put_stroke(drawing, ends, BLACK, "");
        put_words(drawing, LEFT - 90, y + 50, "end", tick_text(differences, tick, room));
        longest = (int)strlen(room) > longest ? (int)strlen(room) : longest;
    }
    int x = LEFT / 10 - 18 - 9 * longest;
    x = x < 14 ? 14 : x;
    put(drawing, "<text x=\"%d\" y=\"%d\" text-anchor=\"middle\" transform=\"rotate(-90 %d %d)\">difference in ns</text>\n", x,
        (TOP + BOTTOM) / 20, x, (TOP + BOTTOM) / 20);
}

static void put_levels(struct drawing *drawing, const struct axis *differences, const struct view *view)
{
    static const char DASHED[] = " stroke-dasharray=\"6 4\"", THICK[] = " stroke-width=\"1.6\"";
    const int64_t *report = view->report;
    const struct {
        int64_t numerator, divisor;
        const char *colour, *more;
    } levels[] = {{report[TRACKLINE_REPORT_SMALLEST], 1, GREY, DASHED},
                  {report[TRACKLINE_REPORT_LARGEST], 1, GREY, DASHED},
                  {report[TRACKLINE_REPORT_SUM], report[TRACKLINE_REPORT_PAIRS], RED, THICK}};
    for (size_t i = 0; i < sizeof levels / sizeof levels[0]; i++) {
        if (is_inside(&view->range, levels[i].numerator, levels[i].divisor)) {
            put_level(drawing, place_of(differences, levels[i].numerator, levels[i].divisor), levels[i].colour, levels[i].more);
        }
    }
}

static int64_t time_of(const struct pair *pair)
{
    return (int64_t)DAY * pair->mjd + pair->start;
}

static void put_point(struct drawing *drawing, int x, int y, const char *radius)
{
    char across[DECIMAL_ROOM], down[DECIMAL_ROOM];
    put(drawing, "<circle cx=\"%s\" cy=\"%s\" r=\"%s\">", decimal_text(x, 1, across), decimal_text(y, 1, down), radius);
}

/* A point that says which pair it is. */
static void put_pair(struct drawing *drawing, const struct pair *pair, const struct axis *axes, const char *radius)
{
    const char *columns = (const char *)pair->line;
    char difference[DECIMAL_ROOM];
    put_point(drawing, place_of(&axes[0], time_of(pair), 1), place_of(&axes[1], pair->difference, 1), radius);
    put(drawing, "<title>%.5s %.6s %.3s %s ns</title></circle>\n", columns + 7, columns + 13, columns,
        decimal_text(pair->difference, 1, difference));
}

static void put_legend(struct drawing *drawing, int which, int64_t count, int x)
{
    char words[64];
    snprintf(words, sizeof words, "%s: %" PRId64 " pair%s", constellation_name(COLOURS[which].letter), count,
             count == 1 ? "" : "s");
    put_words(drawing, x + 100, 770, "start", words);
}

/* The pairs of one constellation, and its name in the legend. Answers how far the legend has come. */
static int put_constellation(struct drawing *drawing, const struct view *view, const struct axis *axes, int which, int legend)
{
    int64_t pairs = view->report[TRACKLINE_REPORT_PAIRS], count = 0;
    const char *radius = pairs <= 300 ? "3.2" : pairs <= 2000 ? "2.2" : "1.4";
    put(drawing, "<g fill=\"%s\" fill-opacity=\"0.75\">\n", COLOURS[which].colour);
    for (int64_t i = 0; i < pairs; i++) {
        const struct pair *pair = &view->pairs[i];
        if (*pair->line == COLOURS[which].letter && is_inside(&view->range, pair->difference, 1)) {
            put_pair(drawing, pair, axes, radius);
            count++;
        }
    }
    if (count > 0) {
        put_point(drawing, legend, 720, "4");
        put(drawing, "</circle>\n");
    }
    put(drawing, "</g>\n");
    if (count > 0) {
        put_legend(drawing, which, count, legend);
    }
    return count > 0 ? legend + LEGEND : legend;
}

/* Over all differences with some room, or over the range that is given. */
static struct axis axis_of_differences(const struct view *view)
{
    const struct range_of_picture *range = &view->range;
    struct axis given = {range->low, range->high, step_of(1, range->high - range->low), 1, 1, 0, 0};
    return range->given ? given
                        : axis_over(view->report[TRACKLINE_REPORT_SMALLEST], view->report[TRACKLINE_REPORT_LARGEST],
                                    DIFFERENCE_ROOM, 1, 1);
}

/* The first pair is the earliest, as lines ascend by their dates. */
int draw_view(const struct view *view, struct bytes *picture)
{
    struct drawing drawing = {picture, ACCEPTED};
    const struct pair *last = &view->pairs[view->report[TRACKLINE_REPORT_PAIRS] - 1];
    struct axis axes[] = {axis_over(time_of(&view->pairs[0]), time_of(last), TIME_ROOM, DAY / 100, 2), axis_of_differences(view)};
    axes[0].from = LEFT;
    axes[0].to = RIGHT;
    axes[1].from = BOTTOM;
    axes[1].to = TOP;
    put_head(&drawing, view);
    put_differences(&drawing, &axes[1]);
    put_times(&drawing, &axes[0]);
    put_levels(&drawing, &axes[1], view);
    for (int which = 0, legend = LEFT + 40; which < LETTERS; which++) {
        legend = put_constellation(&drawing, view, axes, which, legend);
    }
    put(&drawing, "<rect x=\"%d\" y=\"%d\" width=\"%d\" height=\"%d\" fill=\"none\" stroke=\"%s\"/>\n</svg>\n", LEFT / 10, TOP / 10,
        (RIGHT - LEFT) / 10, (BOTTOM - TOP) / 10, BLACK);
    return drawing.status;
}

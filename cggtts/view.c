/*
 * cggtts view: the common view of two line files. Its four numbers are the library's. The mean is printed as a fraction, which
 * is exact; a decimal is for about.c.
 */
#include "cggtts.h"

#include <inttypes.h>
#include <stdio.h>
#include <stdlib.h>

static void print_difference(const char *name, int64_t difference)
{
    char text[DECIMAL_ROOM];
    print_form("  %-14s %" PRId64 " x 0.1 ns = %s ns\n", name, difference, decimal_text(difference, 1, text));
}

/* A row where lines of two codes make pairs. */
static void print_codes(const struct view *view)
{
    size_t count = pairs_of_two_codes(&view->first->bytes, &view->second->bytes);
    if (count > 0) {
        print_form("  %-14s in %zu of %" PRId64 " pair%s\n", "another FRC", count, view->report[TRACKLINE_REPORT_PAIRS],
                   view->report[TRACKLINE_REPORT_PAIRS] == 1 ? "" : "s");
    }
}

/* A row where the files were parted. */
static void print_parts(const struct view *view)
{
    if (view->parts > 0) {
        print_form("  %-14s by date, and %zu report%s joined\n", "parted", view->parts, view->parts == 1 ? "" : "s");
    }
}

static void print_report(const struct view *view)
{
    const int64_t *report = view->report;
    int64_t pairs = report[TRACKLINE_REPORT_PAIRS], sum = report[TRACKLINE_REPORT_SUM];
    size_t lines = lines_of(&view->first->bytes), others = lines_of(&view->second->bytes);
    print_text("REFSYS of ");
    print_name(called(view->first->name));
    print_text(" minus REFSYS of ");
    print_name(called(view->second->name));
    print_text("\n");
    print_form("  %-14s %" PRId64 "\n", "pairs", pairs);
    print_form("  %-14s %" PRId64 " x 0.1 ns\n", "sum", sum);
    print_difference("smallest", report[TRACKLINE_REPORT_SMALLEST]);
    print_difference("largest", report[TRACKLINE_REPORT_LARGEST]);
    print_form("  %-14s %" PRId64 "/%" PRId64 " x 0.1 ns\n", "mean", sum, pairs);
    print_form("  %-14s %zu of %zu lines of the first, %zu of %zu of the second\n", "without a pair", lines - (size_t)pairs, lines,
               others - (size_t)pairs, others);
    print_codes(view);
    print_parts(view);
}

/* What --pairs has of both lines of a pair behind the difference. The lines are accepted, and their TRKL is the same. */
static void print_both(const struct pair *pair)
{
    int64_t one[TRACKLINE_VALUES], other[TRACKLINE_VALUES];
    trackline_read(pair->line, TRACKLINE_LINE_BYTES, one, TRACKLINE_VALUES);
    trackline_read(pair->other, TRACKLINE_LINE_BYTES, other, TRACKLINE_VALUES);
    print_form(" %" PRId64 " %" PRId64 " %" PRId64 " %" PRId64, one[TRACKLINE_VALUE_ELV], other[TRACKLINE_VALUE_ELV],
               one[TRACKLINE_VALUE_DSG], other[TRACKLINE_VALUE_DSG]);
    print_form(" %.3s %.3s %" PRId64 " %" PRId64 " %" PRId64 "\n", (const char *)pair->line + 107, (const char *)pair->other + 107,
               one[TRACKLINE_VALUE_TRKL], one[TRACKLINE_VALUE_REFSYS], other[TRACKLINE_VALUE_REFSYS]);
}

/* A row for each pair, and above them a remark that plotting programs skip. */
static void print_pairs(const struct view *view)
{
    print_text("# MJD start satellite difference/0.1ns MJD-with-fraction ELV-1 ELV-2 DSG-1 DSG-2 FRC-1 FRC-2 TRKL REFSYS-1 "
               "REFSYS-2\n");
    for (int64_t i = 0; i < view->report[TRACKLINE_REPORT_PAIRS]; i++) {
        const struct pair *pair = &view->pairs[i];
        char date[DECIMAL_ROOM];
        int64_t millionths = 1000000 * (int64_t)pair->mjd + nearest(1000000 * (int64_t)pair->start, DAY);
        print_form("%05" PRIu32 " %02" PRIu32 "%02" PRIu32 "%02" PRIu32 " %.3s %" PRId64 " %s", pair->mjd, pair->start / 3600,
                   pair->start / 60 % 60, pair->start % 60, (const char *)pair->line, pair->difference,
                   decimal_text(millionths, 6, date));
        print_both(pair);
    }
}

/* 19: how long a file is that is too long. */
static void report_long(const struct line_file *file)
{
    size_t lines = file->bytes.length / TRACKLINE_FILE_LINE_BYTES, rest = file->bytes.length % TRACKLINE_FILE_LINE_BYTES;
    if (file->bytes.length <= (size_t)TRACKLINE_FILE_MOST_LINES * TRACKLINE_FILE_LINE_BYTES) {
        return;
    }
    report_refusal(file->name, TRACKLINE_FILE_LENGTH);
    if (rest == 0) {
        explain("it has %zu bytes, %zu lines", file->bytes.length, lines);
    } else {
        explain("it has %zu bytes, %zu lines and %zu byte%s", file->bytes.length, lines, rest, rest == 1 ? "" : "s");
    }
    if (begins_with_header(&file->bytes)) {
        advise_header(file->name, &file->bytes);
    } else {
        explain_no_lines(&file->bytes);
    }
}

static void report_files(const struct line_file *first, const struct line_file *second, uint32_t answer)
{
    char both[2 * NAME_ROOM];
    switch (answer) {
    case TRACKLINE_FILE_LENGTH:
        report_long(first);
        report_long(second);
        advise_parted(first->name, second->name);
        break;
    case TRACKLINE_NO_PAIR:
        snprintf(both, sizeof both, "%s and %s", first->name, second->name);
        report_refusal(both, answer);
        explain_no_pair(first, second);
        break;
    default: /* 9 does not arise, as the whole report is lent */
        report_file(first, second, answer);
    }
}

static int write_picture(const struct view *view, const char *name)
{
    struct bytes picture = {NULL, 0, 0};
    int status = draw_view(view, &picture);
    if (status == ACCEPTED) {
        status = write_file(name, &picture);
    }
    free_bytes(&picture);
    return status;
}

/* Why the options can't be used together. */
static int wrong_options(const struct arguments *given)
{
    struct range_of_picture range;
    if (given->count != 2) {
        return wrong_use("view: two files are needed, not %d", given->count);
    }
    if (given->pairs && given->about) {
        return wrong_use("view: --pairs prints rows alone, and --about a report: give one of the two");
    }
    if (given->range != NULL && given->picture == NULL) {
        return wrong_use("view: --range is for a picture, and --svg is not given");
    }
    if (given->range != NULL && !read_range(given->range, &range)) {
        return wrong_use("view: --range '%s' is not LOW:HIGH in ns, with up to one decimal", given->range);
    }
    return ACCEPTED;
}

/* Prints the report or the pairs, and then writes the picture. */
static int show_view(struct view *view, const struct arguments *given)
{
    int status = given->pairs || given->about || given->picture != NULL ? find_pairs(view) : ACCEPTED;
    if (status != ACCEPTED) {
        return status;
    }
    if (given->pairs) {
        print_pairs(view);
    } else {
        print_report(view);
        status = given->about ? print_about(view) : ACCEPTED;
    }
    if (status != ACCEPTED) {
        return status;
    }
    return given->picture != NULL ? write_picture(view, given->picture) : ACCEPTED;
}

static int view_files(const struct line_file *first, const struct line_file *second, const struct arguments *given)
{
    const struct bytes *one = &first->bytes, *other = &second->bytes;
    struct view view = {first, second, {0}, NULL, {0, 0, 0}, 0};
    if (given->range != NULL) {
        read_range(given->range, &view.range);
    }
    uint32_t answer = given->parted
        ? view_parted(one, other, view.report, &view.parts)
        : trackline_view(one->at, one->length, other->at, other->length, view.report, TRACKLINE_REPORT_NUMBERS);
    if (answer != TRACKLINE_ACCEPTED) {
        report_files(first, second, answer);
        return REFUSED;
    }
    int status = show_view(&view, given);
    free(view.pairs);
    return status;
}

int view_command(int argc, char **argv)
{
    struct arguments given;
    if (read_arguments(argc, argv, WITH_VIEW, &given) != ACCEPTED) {
        return FAILED;
    }
    if (wrong_options(&given) != ACCEPTED) {
        return FAILED;
    }
    struct line_file first = {given.names[0], {NULL, 0, 0}}, second = {given.names[1], {NULL, 0, 0}};
    int status = read_files(&first, &second);
    if (status == ACCEPTED) {
        status = view_files(&first, &second, &given);
    }
    free_files(&first, &second);
    return status;
}

/*
 * cggtts down and cggtts up: GPS lines in the form of version 01, and back, line by line in the order of the files. The library
 * makes each line. Those that it refuses are named, and then nothing is written.
 */
#include "cggtts.h"

#include <stdio.h>
#include <string.h>

/* HC and FRC by the bytes before them, as columns 105 to 110 have them; so many refused lines of a file are named. */
enum { HC_AT = 104, HC_WIDTH = 2, FRC_AT = 107, LINE_END = 2, NAMED = 20 };

struct work {
    const struct arguments *given;
    int down;                    /* the way: down, or up */
    uint8_t hc;                  /* what goes up with each line */
    struct bytes lines, origins; /* those that are made, with their line ends, and a struct origin for each */
    size_t made, left, comments; /* lines that are made and left out; comments that are dropped */
    size_t refused;              /* lines of the file */
    int parted, mended, over;    /* --gps is advised, a convert command is; no other line is to be looked at */
    int hc_differs, frc_differs; /* from line to line */
    char dropped_hc[HC_WIDTH], dropped_frc[FRC_WIDTH];
};

/* How many columns the line has that is given, or the one that is made. */
static size_t columns_of(const struct work *work, int given)
{
    return work->down == given ? TRACKLINE_LINE_BYTES : TRACKLINE_OLD_BYTES;
}

/* The line of the other form, by the library. */
static uint32_t turn(const struct work *work, const struct text *line, uint8_t *made)
{
    const uint8_t *frc = (const uint8_t *)work->given->frc;
    return work->down ? trackline_down(line->at, line->length, made, TRACKLINE_OLD_BYTES)
                      : trackline_up(line->at, line->length, work->hc, frc[0], frc[1], frc[2], made, TRACKLINE_LINE_BYTES);
}

/* Whether HC and FRC of a line that comes down are those of the lines before it. */
static void note_dropped(struct work *work, const uint8_t *line)
{
    if (work->made == 0) {
        memcpy(work->dropped_hc, line + HC_AT, HC_WIDTH);
        memcpy(work->dropped_frc, line + FRC_AT, FRC_WIDTH);
    }
    work->hc_differs |= memcmp(work->dropped_hc, line + HC_AT, HC_WIDTH) != 0;
    work->frc_differs |= memcmp(work->dropped_frc, line + FRC_AT, FRC_WIDTH) != 0;
}

static int keep_line(struct work *work, struct origin origin, const struct text *line, const uint8_t *made)
{
    if (work->down) {
        note_dropped(work, line->at);
        memcpy(origin.frc, line->at + FRC_AT, FRC_WIDTH);
    }
    work->made++;
    work->comments += line->length > columns_of(work, 1);
    int status = append_bytes(&work->lines, made, columns_of(work, 0));
    status = status == ACCEPTED ? append_bytes(&work->lines, "\r\n", LINE_END) : status;
    return status == ACCEPTED ? append_bytes(&work->origins, &origin, sizeof origin) : status;
}

/* Whether convert takes a line of version 01 that is refused, as one that is only filled with blanks. */
static int advise_fills(const struct work *work, const char *name, const struct text *line)
{
    struct taken taken;
    struct fault fault;
    int helps = take_line(line->at, line->length, work->given, &taken, &fault) == ACCEPTED;
    if (helps) {
        advise_old(name, "convert puts fills right and leaves comments out", work->given);
    }
    return helps;
}

/* The command for a file whose other lines convert takes. */
static void advise_leaving(const struct work *work, const char *name, const char *what)
{
    if (work->down) {
        advise_convert(name, what);
    } else {
        advise_old(name, what, work->given);
    }
}

/* Below the first line of a file that convert would mend or leave out, the command for it. */
static void advise_mending(struct work *work, const struct line_file *file, const struct text *line, uint32_t answer)
{
    if (work->mended || (answer != TRACKLINE_CHARACTER && !is_empty_line(line))) {
        return;
    }
    if (is_empty_line(line)) {
        advise_leaving(work, file->name, "convert leaves empty lines out");
        work->mended = 1;
    } else if (work->down) {
        work->mended = advise_line(file, line->at, line->length) || advise_code(file, line->at, line->length);
    } else {
        work->mended = advise_fills(work, file->name, line);
    }
}

/* What a line that was to come down is refused for. */
static void explain_down(struct work *work, const struct text *line, uint32_t answer)
{
    if (answer == TRACKLINE_NOT_GPS) {
        explain("its letter is %c, of %s%s", line->at[0], constellation_name(line->at[0]),
                work->parted ? "" : "; --gps leaves such lines out");
        work->parted = 1;
    } else if (!explain_other_line(line->at, line->length)) {
        explain_line(line->at, line->length, answer);
    }
}

/* A header, which is not taken, and the command for it. */
static void explain_header(const struct work *work, const struct line_file *file)
{
    if (!work->down) {
        advise_old(file->name, "the file begins with a header, and lines are taken alone", work->given);
        return;
    }
    if (has_old_header(&file->bytes)) {
        explain("it is version 01 already");
    }
    advise_header(file->name, &file->bytes);
}

/* Reports the refusal of a line, as read does. */
static void report_text(struct work *work, const struct line_file *file, size_t number, const struct text *line, uint32_t answer)
{
    report_line(file, number, answer);
    if (begins_with_header(&file->bytes) && number == 1) {
        explain_header(work, file);
        work->over = 1;
    } else if (explain_no_lines(&file->bytes)) {
        work->over = 1;
    } else if (!explain_same_form(line->at, line->length, work->down)) {
        if (work->down) {
            explain_down(work, line, answer);
        } else {
            explain_old_line(line->at, line->length, answer);
        }
        advise_mending(work, file, line, answer);
    }
}

static int turn_line(struct work *work, const struct line_file *file, size_t number, const struct text *line)
{
    uint8_t made[TRACKLINE_LINE_BYTES];
    uint32_t answer = turn(work, line, made);
    if (answer == TRACKLINE_ACCEPTED) {
        return keep_line(work, (struct origin){.file = file->name, .line = number}, line, made);
    }
    if (answer == TRACKLINE_NOT_GPS && work->given->gps) {
        work->left++;
        return ACCEPTED;
    }
    if (work->refused++ < NAMED) {
        report_text(work, file, number, line, answer);
    }
    return REFUSED;
}

/* The lines of a file. Each ends with line feed, or carriage return and line feed; the last one need not. */
static int turn_file(struct work *work, const char *name)
{
    struct line_file file = {name, {NULL, 0, 0}};
    struct text line;
    size_t from = 0, number = 0;
    int status = read_file(name, &file.bytes);
    if (status == ACCEPTED && file.bytes.length == 0) {
        complain(name, "a remark: it is empty, and so has no line");
    }
    work->refused = 0;
    work->over = work->parted = work->mended = 0;
    while (status != FAILED && !work->over && text_at(&file.bytes, from, &line)) {
        int one = turn_line(work, &file, ++number, &line);
        status = one > status ? one : status;
        from = line.next;
    }
    if (work->refused > NAMED) {
        explain("and %zu more line%s refused", work->refused - NAMED, work->refused == NAMED + 1 ? " is" : "s are");
    }
    free_bytes(&file.bytes);
    return status;
}

/* HC and FRC that are dropped, each by itself where not all lines have the same, and how they are had again. */
static void put_dropped(const struct work *work, char *text, size_t size)
{
    const char *hc = work->dropped_hc, *frc = work->dropped_frc;
    if (!work->hc_differs && !work->frc_differs) {
        snprintf(text, size, "HC %.2s and FRC %.3s are dropped, and cggtts up --hc %d --frc %.3s puts them in again", hc, frc,
                 10 * (hc[0] - '0') + hc[1] - '0', frc);
    } else {
        snprintf(text, size, "HC and FRC are dropped: HC %s%.*s in all lines, FRC %s%.*s in all lines", work->hc_differs ? "is not the same" : "is ",
                 work->hc_differs ? 0 : HC_WIDTH, hc, work->frc_differs ? "is not the same" : "is ", work->frc_differs ? 0 : FRC_WIDTH, frc);
    }
}

static void sum_up_down(const struct work *work)
{
    char left[80] = "", dropped[200];
    if (work->given->gps) {
        snprintf(left, sizeof left, ", %zu of other constellations left out", work->left);
    }
    put_dropped(work, dropped, sizeof dropped);
    fprintf(stderr, "cggtts: %zu line%s of version 01 written%s, %zu comment%s dropped; %s\n", work->made, work->made == 1 ? "" : "s", left,
            work->comments, work->comments == 1 ? "" : "s", dropped);
}

static void sum_up_up(const struct work *work)
{
    fprintf(stderr, "cggtts: %zu line%s written with HC %02u and FRC %.3s, %zu comment%s dropped\n", work->made, work->made == 1 ? "" : "s",
            (unsigned)work->hc, work->given->frc, work->comments, work->comments == 1 ? "" : "s");
}

/* What was made, and what is to be known of it. */
static void sum_up(const struct work *work)
{
    size_t width = columns_of(work, 0) + LINE_END;
    flush_output();
    (work->down ? sum_up_down : sum_up_up)(work);
    remark_on_order(&work->lines, width, &work->origins);
    remark_on_same_keys(&work->lines, width, &work->origins);
}

/* No line, so that a file which stands already is not emptied. */
static int write_nothing(const struct work *work, const char *command)
{
    char reason[120] = "nothing is written, as there is no line";
    if (work->left > 0) {
        snprintf(reason, sizeof reason, "nothing is written, as no line is left: %zu of other constellations %s left out", work->left,
                 work->left == 1 ? "is" : "are");
    }
    complain(command, reason);
    return REFUSED;
}

static int turn_files(struct work *work, const char *command)
{
    int status = ACCEPTED;
    for (int i = 0; i < work->given->count; i++) {
        int one = turn_file(work, work->given->names[i]);
        status = one > status ? one : status;
    }
    if (status == ACCEPTED && work->made == 0) {
        status = write_nothing(work, command);
    } else if (status == ACCEPTED) {
        status = write_file(work->given->output != NULL ? work->given->output : "-", &work->lines);
        if (status == ACCEPTED) {
            sum_up(work);
        }
    }
    free_bytes(&work->lines);
    free_bytes(&work->origins);
    return status;
}

int down_command(int argc, char **argv)
{
    struct arguments given;
    if (read_arguments(argc, argv, WITH_OUTPUT | WITH_DOWN, &given) != ACCEPTED) {
        return FAILED;
    }
    struct work work = {.given = &given, .down = 1};
    return turn_files(&work, argv[0]);
}

int up_command(int argc, char **argv)
{
    struct arguments given;
    int64_t hc = 0;
    if (read_arguments(argc, argv, WITH_OUTPUT | WITH_UP, &given) != ACCEPTED || check_supplied(argv[0], &given, 1) != ACCEPTED) {
        return FAILED;
    }
    read_ps(given.hc, &hc);
    struct work work = {.given = &given, .hc = (uint8_t)hc};
    return turn_files(&work, argv[0]);
}

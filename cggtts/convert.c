/*
 * cggtts convert: one line file of files as laboratories and receivers publish them. Every line that was read is one of a
 * header, empty, taken or named; where all that is missing is HC and FRC, the first of a file is named and the others are
 * counted. The library makes the lines that are written and puts them in their order.
 */
#include "cggtts.h"

#include <errno.h>
#include <stdio.h>
#include <stdlib.h>
#include <string.h>

/* Where a line stands: the file by its place on the command line, from 0, and the line counted from 1. */
struct place {
    int file;
    size_t line;
};

struct conversion {
    const struct arguments *given;
    struct bytes lines, places;               /* the lines that are taken, with their line ends, and a struct place for each */
    size_t read, header, empty, refused;      /* lines */
    size_t filled, coded, commented, headers; /* lines of other fills, FRC put in, a comment; headers whose CKSUM is not right */
    size_t old;                               /* lines of version 01 */
    size_t lacking;                           /* lines of the file that are of version 01, where HC and FRC are not given */
};

static size_t taken_of(const struct conversion *all)
{
    return all->places.length / sizeof(struct place);
}

static const char *place_text(const struct conversion *all, struct place place, char *room)
{
    snprintf(room, NAME_ROOM, "%s:%zu", all->given->names[place.file], place.line);
    return room;
}

static void name_line(const struct conversion *all, struct place place, const struct fault *fault)
{
    char room[NAME_ROOM], reason[NAME_ROOM];
    snprintf(reason, sizeof reason, "column %zu: %s", fault->column, fault->reason);
    flush_output();
    fprintf(stderr, "%s: %s\n", clean(place_text(all, place, room)), reason);
}

/* A header whose CKSUM is missing or wrong, so that any of its lines may have been changed: all are named. */
static void name_header(struct conversion *all, struct place place, const struct header *header)
{
    size_t first = place.line, last = first + header->lines - 1;
    struct fault fault = {.column = 1};
    if (header->check_line == 0) {
        snprintf(fault.reason, sizeof fault.reason, "the header, lines %zu to %zu, has no CKSUM", first, last);
    } else {
        place.line = last;
        snprintf(fault.reason, sizeof fault.reason,
                 "CKSUM is not %02X, the sum of the header, lines %zu to %zu, which was changed after that", header->sum % 256, first, last);
    }
    all->headers++;
    name_line(all, place, &fault);
}

static void note_header(struct conversion *all, struct place *place, const struct header *header)
{
    if (!header->fits) {
        name_header(all, *place, header);
    }
    all->read += header->lines;
    all->header += header->lines;
    place->line += header->lines;
}

/* Puts a line behind those that are taken. */
static int keep_line(struct conversion *all, struct place place, const struct taken *taken)
{
    all->filled += (size_t)taken->filled;
    all->coded += (size_t)taken->coded;
    all->commented += (size_t)taken->commented;
    all->old += (size_t)taken->old;
    int status = append_bytes(&all->lines, taken->line, sizeof taken->line);
    if (status == ACCEPTED) {
        status = append_bytes(&all->lines, "\r\n", 2);
    }
    return status == ACCEPTED ? append_bytes(&all->places, &place, sizeof place) : status;
}

static int convert_line(struct conversion *all, struct place place, const struct text *line)
{
    struct taken taken;
    struct fault fault;
    all->read++;
    if (is_empty_line(line)) {
        all->empty++;
        return ACCEPTED;
    }
    if (take_line(line->at, line->length, all->given, &taken, &fault) != ACCEPTED) {
        all->refused++;
        all->lacking += (size_t)fault.lacking;
        if (!fault.lacking || all->lacking == 1) {
            name_line(all, place, &fault);
        }
        return ACCEPTED;
    }
    return keep_line(all, place, &taken);
}

static int convert_text(struct conversion *all, int file, const struct bytes *bytes)
{
    struct place place = {file, 1};
    struct header header;
    struct text line;
    int status = ACCEPTED;
    size_t from = text_begin(bytes);
    while (status == ACCEPTED && text_at(bytes, from, &line)) {
        if (find_header(bytes, from, &header)) {
            note_header(all, &place, &header);
            from = header.next;
        } else {
            status = convert_line(all, place, &line);
            place.line++;
            from = line.next;
        }
    }
    return status;
}

/* What is packed has no lines to be named one by one. */
static int convert_file(struct conversion *all, int file)
{
    static const uint8_t PACKED[] = {0x1F, 0x8B};
    static const struct fault FAULT = {.column = 1, .reason = "a gzip file, which has to be unpacked first"};
    struct bytes bytes;
    int status = read_file(all->given->names[file], &bytes);
    if (status == ACCEPTED && bytes.length >= sizeof PACKED && memcmp(bytes.at, PACKED, sizeof PACKED) == 0) {
        name_line(all, (struct place){file, 1}, &FAULT);
        all->read++;
        all->refused++;
    } else if (status == ACCEPTED) {
        all->lacking = 0;
        status = convert_text(all, file, &bytes);
        if (all->lacking > 1) {
            explain("so %s %zu more line%s of this file", all->lacking == 2 ? "is" : "are", all->lacking - 1, all->lacking == 2 ? "" : "s");
        }
    }
    free_bytes(&bytes);
    return status;
}

static int convert_files(struct conversion *all)
{
    int status = ACCEPTED;
    for (int file = 0; file < all->given->count; file++) {
        int one = convert_file(all, file);
        status = one > status ? one : status;
    }
    return status;
}

/* Lines that ascend already are one piece. Answers how many there are. */
static size_t part_in_runs(const struct bytes *lines, struct bytes *pieces)
{
    size_t count = 0;
    for (size_t number = 1; number <= lines_of(lines); number++) {
        uint8_t *line = lines->at + TRACKLINE_FILE_LINE_BYTES * (number - 1);
        if (number == 1 || compare_keys(line_at(lines, number - 1), line) >= 0) {
            pieces[count++] = (struct bytes){line, 0, 0};
        }
        pieces[count - 1].length += TRACKLINE_FILE_LINE_BYTES;
    }
    return count;
}

static int order_lines(const struct conversion *all, struct bytes *ordered, uint32_t *answer)
{
    struct bytes *pieces = calloc(taken_of(all) + 1, sizeof *pieces);
    if (pieces == NULL) {
        complain_of_error("output", errno);
        return FAILED;
    }
    int status = join_files(pieces, part_in_runs(&all->lines, pieces), ordered, answer);
    free(pieces);
    return status;
}

/* A line that is taken, and where it stood. */
struct entry {
    const uint8_t *line;
    struct place place;
};

static int compare_entries(const void *one, const void *other)
{
    const struct entry *first = one, *second = other;
    int keys = compare_keys(first->line, second->line);
    int files = (first->place.file > second->place.file) - (first->place.file < second->place.file);
    int lines = (first->place.line > second->place.line) - (first->place.line < second->place.line);
    return keys != 0 ? keys : files != 0 ? files : lines;
}

/* 15: two lines of the same keys, if they differ. Answers whether they do. */
static size_t report_entries(const struct conversion *all, const struct entry *one, const struct entry *other)
{
    char place[NAME_ROOM], other_place[NAME_ROOM];
    size_t column = column_of_difference(one->line, other->line);
    if (column > 0) {
        report_refusal(place_text(all, one->place, place), TRACKLINE_DIFFER);
        explain_difference(place, one->line, place_text(all, other->place, other_place), other->line);
    }
    return column > 0;
}

/* Each line that differs from the first of the same keys. */
static size_t report_sorted(const struct conversion *all, const struct entry *entries, size_t count)
{
    size_t first = 0, found = 0;
    for (size_t i = 1; i < count; i++) {
        if (compare_keys(entries[first].line, entries[i].line) != 0) {
            first = i;
        }
        found += report_entries(all, &entries[first], &entries[i]);
    }
    return found;
}

static int report_conflicts(const struct conversion *all, size_t *found)
{
    size_t count = taken_of(all);
    const struct place *places = (const struct place *)(const void *)all->places.at;
    struct entry *entries = calloc(count + 1, sizeof *entries);
    if (entries == NULL) {
        complain_of_error("output", errno);
        return FAILED;
    }
    for (size_t i = 0; i < count; i++) {
        entries[i] = (struct entry){line_at(&all->lines, i + 1), places[i]};
    }
    qsort(entries, count, sizeof *entries, compare_entries);
    *found = report_sorted(all, entries, count);
    free(entries);
    return REFUSED;
}

/* What was read, as one sentence; `end` says what became of it. */
static void sum_up(const struct conversion *all, const char *end)
{
    char headers[80] = "", old[80] = "";
    if (all->headers > 0) {
        snprintf(headers, sizeof headers, ", CKSUM wrong or missing in %zu header%s", all->headers, all->headers == 1 ? "" : "s");
    }
    if (all->old > 0) {
        snprintf(old, sizeof old, ", %zu of version 01 with HC and FRC put in", all->old);
    }
    flush_output();
    fprintf(stderr, "cggtts: read %zu line%s: %zu header, %zu empty, %zu data%s; %s; ", all->read, all->read == 1 ? "" : "s", all->header,
            all->empty, all->refused + taken_of(all), headers, end);
    fprintf(stderr, "of the data lines %zu with other fills, %zu with a comment, %zu with another FRC put in%s\n", all->filled,
            all->commented, all->coded, old);
}

static int write_lines(const struct conversion *all, const struct bytes *ordered)
{
    char end[200];
    size_t lines = lines_of(ordered);
    int status = write_file(all->given->output != NULL ? all->given->output : "-", ordered);
    if (status == ACCEPTED) {
        snprintf(end, sizeof end, "%zu written, %zu equal to a written one, %zu left out", lines, taken_of(all) - lines,
                 all->refused);
        sum_up(all, end);
    }
    return status;
}

/* Those that are taken, in order, or what is to blame that they have none. */
static int finish(const struct conversion *all)
{
    struct bytes ordered = {NULL, 0, 0};
    uint32_t answer;
    size_t found = 0;
    int status = order_lines(all, &ordered, &answer);
    if (status == ACCEPTED && answer == TRACKLINE_DIFFER) {
        char end[200];
        status = report_conflicts(all, &found);
        snprintf(end, sizeof end, "nothing is written, as %zu differ%s from another of the same keys", found,
                 found == 1 ? "s" : "");
        sum_up(all, end);
    } else if (status == ACCEPTED && answer != TRACKLINE_ACCEPTED) {
        report_refusal("output", answer);
        status = FAILED;
    } else if (status == ACCEPTED) {
        status = write_lines(all, &ordered);
    }
    free_bytes(&ordered);
    return status;
}

/* Why nothing is written, and what --skip would do about it. */
static int write_nothing(const struct conversion *all)
{
    const char *many = all->headers == 1 ? "" : "s", *its = all->headers == 1 ? "its" : "their";
    char end[200];
    if (taken_of(all) == 0) {
        snprintf(end, sizeof end, "nothing is written, as no data line is taken");
    } else if (all->headers == 0) {
        snprintf(end, sizeof end, "nothing is written, as %zu can't be taken; --skip goes on without them", all->refused);
    } else if (all->refused == 0) {
        snprintf(end, sizeof end, "nothing is written, as CKSUM is not right in %zu header%s; --skip takes %s data lines all the same",
                 all->headers, many, its);
    } else {
        snprintf(end, sizeof end,
                 "nothing is written, as %zu can't be taken and CKSUM is not right in %zu header%s; --skip goes on without the former, "
                 "and takes the header%s data lines",
                 all->refused, all->headers, many, all->headers == 1 ? "'s" : "s'");
    }
    sum_up(all, end);
    return REFUSED;
}

int convert_command(int argc, char **argv)
{
    struct arguments given;
    if (read_arguments(argc, argv, WITH_OUTPUT | WITH_CONVERT, &given) != ACCEPTED || check_supplied(argv[0], &given, 0) != ACCEPTED) {
        return FAILED;
    }
    struct conversion all = {.given = &given};
    int status = convert_files(&all);
    if (status == ACCEPTED && (taken_of(&all) == 0 || (all.refused + all.headers > 0 && !given.skip))) {
        status = write_nothing(&all);
    } else if (status == ACCEPTED) {
        status = finish(&all);
    }
    free_bytes(&all.lines);
    free_bytes(&all.places);
    return status;
}

/*
 * cggtts day: one line file of hire blocks, which stand in any number in any number of files. All of them are one set, in the
 * order of the files. The library judges it; a long set goes to it in parts, each from the last block of the one before on, so
 * that the order across them is judged too.
 */
#include "cggtts.h"

#include <errno.h>
#include <stdio.h>
#include <stdlib.h>
#include <string.h>

/* A block of the set, with its file by its place on the command line and its place in that file and in the set, all from 0. */
struct member {
    const uint8_t *at;
    size_t length;
    size_t file, place, index;
};

struct set {
    char **names;
    struct bytes *files;
    size_t count;         /* of files */
    struct bytes members; /* a struct member for each block */
    struct member unfit;  /* the first block that is cut or has no sizes; NULL at its place where there is none */
    int sorted;
};

static size_t size_of(const struct set *set)
{
    return set->members.length / sizeof(struct member);
}

static struct member *member_of(const struct set *set, size_t i)
{
    return (struct member *)(void *)set->members.at + i;
}

/* How many bytes the block has that a row of bytes begins with, or 0 where it is cut or its sizes are none. */
static size_t own_length(const uint8_t *at, size_t length)
{
    if (length < TRACKLINE_AT_CONSTELLATION || !sizes_fit(measurements_of(at), groups_of(at))) {
        return 0;
    }
    size_t own = TRACKLINE_BLOCK_BYTES_OF(groups_of(at));
    return own <= length ? own : 0;
}

static int add_member(struct set *set, const struct member *member)
{
    return append_bytes(&set->members, member, sizeof *member);
}

/* Parts a file into its blocks. What is no block is the rest of its file, and nothing behind it can be told. */
static int part_file(struct set *set, size_t file)
{
    const struct bytes *bytes = &set->files[file];
    size_t from = 0;
    int status = ACCEPTED;
    for (size_t place = 0; from < bytes->length && status == ACCEPTED; place++) {
        size_t own = own_length(bytes->at + from, bytes->length - from);
        struct member member = {bytes->at + from, own > 0 ? own : bytes->length - from, file, place, size_of(set)};
        if (own > 0) {
            status = add_member(set, &member);
        } else if (set->unfit.at == NULL) {
            set->unfit = member;
        }
        from += member.length;
    }
    return status;
}

/* MJD, start, constellation letter and satellite, then the place in the set. */
static int compare_members(const void *one, const void *other)
{
    static const size_t KEYS[][2] = {{TRACKLINE_AT_MJD, TRACKLINE_WIDTH_MJD},
                                     {TRACKLINE_AT_START, TRACKLINE_WIDTH_START},
                                     {TRACKLINE_AT_CONSTELLATION, TRACKLINE_WIDTH_CONSTELLATION},
                                     {TRACKLINE_AT_SATELLITE, TRACKLINE_WIDTH_SATELLITE}};
    const struct member *a = one, *b = other;
    for (size_t i = 0; i < sizeof KEYS / sizeof KEYS[0]; i++) {
        uint64_t x = unsigned_at(a->at, KEYS[i][0], KEYS[i][1]), y = unsigned_at(b->at, KEYS[i][0], KEYS[i][1]);
        if (x != y) {
            return x < y ? -1 : 1;
        }
    }
    return a->index < b->index ? -1 : a->index > b->index;
}

/* --sort: puts the blocks in order, and says how many it moved. */
static void sort_members(struct set *set)
{
    size_t count = size_of(set), moved = 0;
    if (count > 0) {
        qsort(set->members.at, count, sizeof(struct member), compare_members);
    }
    for (size_t i = 0; i < count; i++) {
        moved += member_of(set, i)->index != i;
    }
    char text[NAME_ROOM];
    snprintf(text, sizeof text, "%zu of %zu block%s moved to put them in order", moved, count, count == 1 ? "" : "s");
    complain("--sort", moved == 0 ? "the blocks stood in order" : text);
}

/* All blocks of all files; the set ends with the first that is none, as it is refused there at the latest. */
static int gather(struct set *set)
{
    int status = ACCEPTED;
    for (size_t i = 0; i < set->count && status == ACCEPTED && (set->sorted || set->unfit.at == NULL); i++) {
        status = part_file(set, i);
    }
    if (status == ACCEPTED && set->sorted) {
        sort_members(set);
    }
    return status == ACCEPTED && set->unfit.at != NULL ? add_member(set, &set->unfit) : status;
}

/* Where a block stands. */
static void explain_place(const struct set *set, size_t i)
{
    const struct member *member = member_of(set, i);
    size_t from = (size_t)(member->at - set->files[member->file].at);
    explain("block %zu of the %sset and block %zu of this file, both counted from 0; it begins at byte %zu", i,
            set->sorted ? "sorted " : "", member->place, from);
}

/* 16: the keys of the block and of the one before it. Both have lines, as their own refusals come first. */
static void explain_follow(const struct set *set, size_t i)
{
    const struct member *member = member_of(set, i), *before = member_of(set, i - 1);
    uint8_t line[TRACKLINE_LINE_BYTES], line_before[TRACKLINE_LINE_BYTES];
    char keys[KEYS_ROOM], keys_before[KEYS_ROOM];
    trackline_block(member->at, member->length, line, sizeof line);
    trackline_block(before->at, before->length, line_before, sizeof line_before);
    keys_of(line, keys);
    keys_of(line_before, keys_before);
    const char *name = called(set->names[before->file]);
    if (compare_keys(line, line_before) == 0) {
        int same = member->length == before->length && memcmp(member->at, before->at, member->length) == 0;
        explain("it has %s, as the block before it has, block %zu of %s%s", keys, before->place, name,
                same ? ": it is that block once more" : ", which is another");
    } else {
        explain("it has %s, and the block before it, block %zu of %s, %s", keys, before->place, name, keys_before);
        explain("cggtts day --sort puts blocks in order first");
    }
}

/* What cggtts check says of the block. */
static void report_member(const struct set *set, size_t i, uint32_t answer)
{
    const struct member *member = member_of(set, i);
    report_refusal(set->names[member->file], answer);
    explain_place(set, i);
    if (answer == TRACKLINE_ORDER) {
        explain_follow(set, i);
    } else {
        struct bytes block = {(uint8_t *)(uintptr_t)member->at, member->length, 0};
        explain_refusal(&block, answer);
    }
}

/* The bytes of blocks from one on to before another, back to back. */
static int join_members(const struct set *set, size_t from, size_t to, struct bytes *part)
{
    int status = ACCEPTED;
    part->length = 0;
    for (size_t i = from; i < to && status == ACCEPTED; i++) {
        status = append_bytes(part, member_of(set, i)->at, member_of(set, i)->length);
    }
    return status;
}

/* Writes the lines of all parts to their places in a file that has room for all. */
static int write_parts(const struct set *set, struct bytes *lines)
{
    size_t count = size_of(set), from = 0, to = 0;
    struct bytes part = {NULL, 0, 0};
    int status = ACCEPTED;
    while (to < count && status == ACCEPTED) {
        from = to > 0 ? to - 1 : 0;
        to = count - from > TRACKLINE_DAY_KEPT ? from + TRACKLINE_DAY_KEPT : count;
        status = join_members(set, from, to, &part);
        if (status != ACCEPTED) {
            break;
        }
        size_t at = TRACKLINE_FILE_LINE_BYTES * from, written, block;
        uint32_t answer = trackline_day(part.at, part.length, lines->at + at, lines->room - at, &written, &block);
        if (answer == TRACKLINE_ACCEPTED) {
            lines->length = at + written;
            show_progress(to, count, "blocks");
        } else {
            end_progress();
            report_member(set, from + block, answer); /* no 9: there is room for all lines */
            status = REFUSED;
        }
    }
    end_progress();
    free_bytes(&part);
    return status;
}

static int write_day(const struct set *set, const char *output)
{
    size_t room = TRACKLINE_FILE_LINE_BYTES * size_of(set);
    struct bytes lines = {malloc(room + 1), 0, room};
    if (lines.at == NULL) {
        complain_of_error(output, errno);
        return FAILED;
    }
    int status = write_parts(set, &lines);
    if (status == ACCEPTED) {
        status = write_file(output, &lines);
    }
    free_bytes(&lines);
    return status;
}

/* A file without a byte has no block, which may not have been meant. */
static int read_blocks(struct set *set)
{
    int status = ACCEPTED;
    for (size_t i = 0; i < set->count; i++) {
        int one = read_file(set->names[i], &set->files[i]);
        status = one > status ? one : status;
        if (one == ACCEPTED && set->files[i].length == 0) {
            complain(set->names[i], "a remark: it is empty, and so has no block");
        }
    }
    return status;
}

static void free_set(struct set *set)
{
    for (size_t i = 0; set->files != NULL && i < set->count; i++) {
        free_bytes(&set->files[i]);
    }
    free(set->files);
    free_bytes(&set->members);
}

int day_command(int argc, char **argv)
{
    struct arguments given;
    begin_progress();
    if (read_arguments(argc, argv, WITH_OUTPUT | WITH_DAY, &given) != ACCEPTED) {
        return FAILED;
    }
    const char *output = given.output != NULL ? given.output : "-";
    struct set set = {given.names, NULL, (size_t)given.count, {NULL, 0, 0}, {NULL, 0, 0, 0, 0}, given.sort};
    int status = FAILED;
    set.files = calloc(set.count, sizeof *set.files);
    if (set.files == NULL) {
        complain_of_error(output, errno);
    } else {
        status = read_blocks(&set);
    }
    if (status == ACCEPTED) {
        status = gather(&set);
    }
    if (status == ACCEPTED) {
        status = write_day(&set, output);
    }
    free_set(&set);
    return status;
}

/* cggtts merge: one line file from two or more. */
#include "cggtts.h"

#include <errno.h>
#include <stdlib.h>

/* 15: the first line of each file that is to blame. */
static void report_two_lines(const struct line_file *first, const struct line_file *second)
{
    size_t number = blamed_line(&first->bytes, &second->bytes);
    struct bytes part = head_of(&first->bytes, number);
    size_t other_number = blamed_line(&second->bytes, &part);
    report_line(first, number, TRACKLINE_DIFFER);
    explain_two_lines(first, number, second, other_number);
}

/* The number that a file is refused with by itself, or 0. */
static uint32_t refusal_of(const struct line_file *file)
{
    size_t written;
    uint32_t answer = trackline_merge(file->bytes.at, file->bytes.length, NULL, 0, NULL, 0, &written);
    return answer == TRACKLINE_ROOM ? TRACKLINE_ACCEPTED : answer;
}

/* The first file that is refused by itself. Answers whether there is one. */
static int report_one(const struct line_file *files, size_t count)
{
    static const struct line_file NONE = {"", {NULL, 0, 0}};
    size_t i = 0;
    while (i < count && refusal_of(&files[i]) == TRACKLINE_ACCEPTED) {
        i++;
    }
    return i < count && report_file(&files[i], &NONE, refusal_of(&files[i]));
}

/* The first file that can't be merged with this one, or none. */
static size_t against(const struct line_file *files, size_t count, const struct line_file *other)
{
    size_t i = 0;
    while (i < count && !files_refused(&files[i].bytes, &other->bytes)) {
        i++;
    }
    return i;
}

/* 15: the first two files, in their order, that can't be merged with each other. */
static void report_two_files(const struct line_file *files, size_t count)
{
    for (size_t i = 1; i < count; i++) {
        size_t other = against(files, i, &files[i]);
        if (other < i) {
            report_two_lines(&files[other], &files[i]);
            return;
        }
    }
}

static int merge(const struct line_file *files, size_t count, struct bytes *pieces, const char *output)
{
    struct bytes merged = {NULL, 0, 0};
    uint32_t answer;
    int status = join_files(pieces, count, &merged, &answer);
    if (status == ACCEPTED && answer == TRACKLINE_ACCEPTED) {
        status = write_file(output, &merged);
    } else if (status == ACCEPTED) {
        status = REFUSED;
        if (!report_one(files, count)) {
            report_two_files(files, count);
        }
    }
    free_bytes(&merged);
    return status;
}

static int read_all(char **names, size_t count, struct line_file *files)
{
    int status = ACCEPTED;
    for (size_t i = 0; i < count; i++) {
        files[i].name = names[i];
        int one = read_file(names[i], &files[i].bytes);
        status = one > status ? one : status;
    }
    return status;
}

static void free_all(struct line_file *files, struct bytes *pieces, size_t count)
{
    for (size_t i = 0; files != NULL && i < count; i++) {
        free_bytes(&files[i].bytes);
    }
    free(files);
    free(pieces);
}

static int merge_files(char **names, size_t count, const char *output)
{
    struct line_file *files = calloc(count, sizeof *files);
    struct bytes *pieces = calloc(count, sizeof *pieces);
    int status = FAILED;
    if (files == NULL || pieces == NULL) {
        complain_of_error(output, errno);
    } else {
        status = read_all(names, count, files);
    }
    for (size_t i = 0; i < count && status == ACCEPTED; i++) {
        pieces[i] = files[i].bytes;
    }
    if (status == ACCEPTED) {
        status = merge(files, count, pieces, output);
    }
    free_all(files, pieces, count);
    return status;
}

int merge_command(int argc, char **argv)
{
    struct arguments given;
    if (read_arguments(argc, argv, WITH_OUTPUT | REPLACING, &given) != ACCEPTED) {
        return FAILED;
    }
    if (given.count < 2) {
        return wrong_use("merge: two or more files are needed, not %d", given.count);
    }
    return merge_files(given.names, (size_t)given.count, given.output != NULL ? given.output : "-");
}

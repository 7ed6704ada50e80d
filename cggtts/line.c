/* cggtts line: the data line of each hire block, ended as in a line file by carriage return and line feed. */
#include "cggtts.h"

#include <string.h>

enum { LINE_END = 2, LINE_ROOM = TRACKLINE_LINE_BYTES + LINE_END };

/* Puts the line of one block behind the others. */
static int put_line(const char *name, struct bytes *lines)
{
    struct bytes block;
    uint8_t line[LINE_ROOM];
    int status = read_file(name, &block);
    if (status != ACCEPTED) {
        return status;
    }
    uint32_t answer = trackline_block(block.at, block.length, line, TRACKLINE_LINE_BYTES);
    if (answer != TRACKLINE_ACCEPTED) {
        report_refusal(name, answer);
        explain_bytes(&block, answer);
    }
    free_bytes(&block);
    if (answer != TRACKLINE_ACCEPTED) {
        return REFUSED;
    }
    memcpy(line + TRACKLINE_LINE_BYTES, "\r\n", LINE_END);
    return append_bytes(lines, line, sizeof line);
}

/* Prints each line as soon as there is one. */
static int print_lines(int count, char **names)
{
    int status = ACCEPTED;
    for (int i = 0; i < count; i++) {
        struct bytes line = {NULL, 0, 0};
        int one = put_line(names[i], &line);
        if (one == ACCEPTED) {
            print_bytes(line.at, line.length);
        }
        free_bytes(&line);
        status = one > status ? one : status;
    }
    return status;
}

/* Writes the lines to a file, or nothing at all if there is one that can't be had. */
static int write_lines(const char *output, int count, char **names)
{
    struct bytes lines = {NULL, 0, 0};
    int status = ACCEPTED;
    for (int i = 0; i < count; i++) {
        int one = put_line(names[i], &lines);
        status = one > status ? one : status;
    }
    if (status == ACCEPTED) {
        status = write_file(output, &lines);
    }
    free_bytes(&lines);
    return status;
}

int line_command(int argc, char **argv)
{
    struct arguments given;
    if (read_arguments(argc, argv, WITH_OUTPUT, &given) != ACCEPTED) {
        return FAILED;
    }
    return given.output == NULL ? print_lines(given.count, given.names)
                                : write_lines(given.output, given.count, given.names);
}

/* cggtts check: whether each hire block is accepted, and what is to blame if not. */
#include "cggtts.h"

/* Refusal 1: the sizes that were found, and what would go with them. */
static void explain_sizes(const uint8_t *block)
{
    size_t measurements = measurements_of(block), groups = groups_of(block);
    if (sizes_fit(groups, measurements)) {
        explain("the sizes are %zu and %zu: they are exchanged", measurements, groups);
    } else if (groups >= TRACKLINE_LEAST_GROUPS && groups <= TRACKLINE_GROUPS) {
        explain("the sizes are %zu and %zu: with %zu groups go %zu measurements", measurements, groups, groups,
                TRACKLINE_MEASUREMENTS_OF(groups));
    } else {
        explain("the sizes are %zu and %zu: a track has %d to %d groups", measurements, groups, TRACKLINE_LEAST_GROUPS,
                TRACKLINE_GROUPS);
    }
}

/* Whether the bytes from a place on begin as a block does. */
static int block_begins_at(const struct bytes *bytes, size_t at)
{
    return bytes->length - at >= TRACKLINE_AT_CONSTELLATION
        && sizes_fit(measurements_of(bytes->at + at), groups_of(bytes->at + at));
}

/* Refusal 11: how many bytes there are, how many its sizes make, and so how many are missing or too many. */
static void explain_length(const struct bytes *block)
{
    explain("it has %zu byte%s", block->length, block->length == 1 ? "" : "s");
    if (block->length < TRACKLINE_AT_CONSTELLATION) {
        return;
    }
    size_t measurements = measurements_of(block->at), groups = groups_of(block->at);
    size_t makes = TRACKLINE_BLOCK_BYTES_OF(groups);
    if (block->length < makes) {
        explain("its sizes, %zu and %zu, make %zu: %zu missing", measurements, groups, makes, makes - block->length);
    } else {
        explain("its sizes, %zu and %zu, make %zu: %zu too many%s", measurements, groups, makes, block->length - makes,
                block_begins_at(block, makes) ? ", as if another block followed: cggtts day takes several" : "");
    }
}

/* A block has bytes of 0, as its sizes are small numbers, and so is no text. */
static int explain_text(const struct bytes *block)
{
    if (explain_no_block(block)) {
        return 1;
    }
    if (!looks_like_text(block)) {
        return 0;
    }
    explain("this may be a text, which 'hireblock pack' packs");
    return 1;
}

/* What is wrong with the bytes as a whole: cut, too long, or a text. Answers whether they look like a text. */
int explain_bytes(const struct bytes *block, uint32_t number)
{
    if (number == TRACKLINE_LENGTH) {
        explain_length(block);
    }
    return explain_text(block);
}

/* What a refused block is refused for. Only a block whose sizes and length are right is looked into. */
void explain_refusal(const struct bytes *block, uint32_t number)
{
    switch (number) {
    case TRACKLINE_LENGTH:
        explain_bytes(block, number);
        break;
    case TRACKLINE_COUNT:
        if (!explain_bytes(block, number)) {
            explain_sizes(block->at);
        }
        break;
    case TRACKLINE_LIMIT:
        explain_limits(block->at);
        break;
    case TRACKLINE_MIDPOINT:
    case TRACKLINE_SLOPE:
    case TRACKLINE_DELAY:
    case TRACKLINE_SCATTER:
        explain_figures(block->at, number);
        if (number == TRACKLINE_SLOPE || number == TRACKLINE_SCATTER) {
            explain_farthest(block->at, number);
        }
        break;
    case TRACKLINE_LABEL:
        explain_labels(block->at);
        break;
    case TRACKLINE_START:
        explain_start(block->at);
        break;
    default: /* 9 does not arise: the line is long enough */
        break;
    }
}

/* A track whose values scatter by more than 10 ns is accepted, and hardly one to be used unseen. */
static void remark(const uint8_t *block, const uint8_t *line)
{
    enum { MUCH = 100 };
    int64_t values[TRACKLINE_VALUES];
    char scatter[DECIMAL_ROOM];
    uint32_t answer = trackline_read(line, TRACKLINE_LINE_BYTES, values, TRACKLINE_VALUES);
    if (answer != TRACKLINE_ACCEPTED || values[TRACKLINE_VALUE_DSG] <= MUCH) {
        return;
    }
    flush_output();
    explain("a remark: DSG is %s ns, above 10 ns; look at the track before it is used",
            decimal_text(values[TRACKLINE_VALUE_DSG], 1, scatter));
    explain_farthest(block, TRACKLINE_SCATTER);
}

static int check(const char *name)
{
    struct bytes block;
    uint8_t line[TRACKLINE_LINE_BYTES];
    int status = read_file(name, &block);
    if (status != ACCEPTED) {
        return status;
    }
    uint32_t answer = trackline_block(block.at, block.length, line, sizeof line);
    if (answer == TRACKLINE_ACCEPTED) {
        print_name(name);
        print_text(": accepted\n");
        remark(block.at, line);
    } else {
        report_refusal(name, answer);
        explain_refusal(&block, answer);
        status = REFUSED;
    }
    free_bytes(&block);
    return status;
}

int check_command(int argc, char **argv)
{
    struct arguments given;
    int status = ACCEPTED;
    if (read_arguments(argc, argv, 0, &given) != ACCEPTED) {
        return FAILED;
    }
    for (int i = 0; i < given.count; i++) {
        int one = check(given.names[i]);
        status = one > status ? one : status;
    }
    return status;
}

/*
 * How a program makes a line file of many hire blocks, which stand back to back in a file. trackline_day is called in a thread
 * that is made with stack enough for it, as a program's own thread may have less. Copy what you need. With the library installed:
 *
 *     cc -std=c11 -pthread day.c $(pkg-config --cflags --libs trackline) \
 *         -Wl,-rpath,$(pkg-config --variable=libdir trackline) -o day
 *
 * "./day oneday.blk > lines.cggtts" writes the lines. Where the set is refused it writes none, and says which block offends and why.
 */
#define _POSIX_C_SOURCE 200809L

#include <inttypes.h>
#include <pthread.h>
#include <stdio.h>
#include <stdlib.h>

#include <trackline.h>

/* What a call is given, and what it gives. */
struct call {
    uint8_t *blocks, *file;
    size_t blocks_len, file_len, written, block;
    uint32_t refusal;
};

/* The text of a refusal, from the header's own list. */
static const char *text_of(uint32_t refusal)
{
    switch (refusal) {
#define TEXT(number, name, text) \
    case name:                   \
        return text;
        TRACKLINE_REFUSALS(TEXT)
#undef TEXT
    default:
        return "accepted";
    }
}

/* The bytes of a file to its end, in memory of their own, or NULL. */
static uint8_t *read_all(FILE *file, size_t *length)
{
    uint8_t *bytes = NULL;
    size_t room = 0;
    *length = 0;
    do {
        room = 2 * room + 65536;
        uint8_t *more = realloc(bytes, room);
        if (more == NULL) {
            free(bytes);
            return NULL;
        }
        bytes = more;
        *length += fread(bytes + *length, 1, room - *length, file);
    } while (*length == room);
    if (ferror(file)) {
        free(bytes);
        return NULL;
    }
    return bytes;
}

/* The thread. */
static void *make_lines(void *given)
{
    struct call *call = given;
    call->refusal = trackline_day(call->blocks, call->blocks_len, call->file, call->file_len, &call->written, &call->block);
    return NULL;
}

/* Whether the call was made. Twice what it needs leaves room for what the thread itself takes. */
static int call_in_thread(struct call *call)
{
    pthread_attr_t with_stack;
    pthread_t thread;
    if (pthread_attr_init(&with_stack) != 0) {
        return 0;
    }
    int made = pthread_attr_setstacksize(&with_stack, 2 * TRACKLINE_DAY_STACK) == 0 &&
               pthread_create(&thread, &with_stack, make_lines, call) == 0;
    pthread_attr_destroy(&with_stack);
    return made && pthread_join(thread, NULL) == 0;
}

/* The lines, or what is wrong. No block is shorter than one of 4 groups, so that there is room for a line of each. */
static int write_lines(struct call *call)
{
    size_t most = call->blocks_len / TRACKLINE_BLOCK_BYTES_OF(TRACKLINE_LEAST_GROUPS) + 1;
    call->file_len = most * TRACKLINE_FILE_LINE_BYTES;
    call->file = malloc(call->file_len);
    if (call->file == NULL || !call_in_thread(call)) {
        fputs("day: there is no memory or no thread\n", stderr);
        return 2;
    }
    if (call->refusal != TRACKLINE_ACCEPTED) {
        fprintf(stderr, "block %zu, counted from 0: refused %" PRIu32 ": %s\n", call->block, call->refusal, text_of(call->refusal));
        return 1;
    }
    int whole = fwrite(call->file, 1, call->written, stdout) == call->written && fflush(stdout) == 0;
    if (!whole) {
        fputs("day: the lines can't be written\n", stderr);
    }
    return whole ? 0 : 2;
}

int main(int argc, char **argv)
{
    struct call call = {0};
    FILE *file = argc == 2 ? fopen(argv[1], "rb") : NULL;
    if (file != NULL) {
        call.blocks = read_all(file, &call.blocks_len);
        fclose(file);
    }
    if (call.blocks == NULL) {
        fputs("usage: day BLOCKS, a file of hire blocks that can be read\n", stderr);
        return 2;
    }
    int status = write_lines(&call);
    free(call.file);
    free(call.blocks);
    return status;
}

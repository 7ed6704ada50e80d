/* One line file from any number of them, by the library's merge of two: neighbours first, then what was made of them. */
#include "cggtts.h"

#include <errno.h>
#include <stdlib.h>

/* Merges neighbours, two and two, to a room that has bytes enough for all. Answers the library's refusal. */
static uint32_t merge_neighbours(struct bytes *pieces, size_t *count, uint8_t *room)
{
    size_t made = 0;
    for (size_t i = 0; i < *count; i += 2) {
        struct bytes last = {NULL, 0, 0}, *one = &pieces[i], *other = i + 1 < *count ? &pieces[i + 1] : &last;
        size_t both = one->length + other->length, written;
        uint32_t answer = trackline_merge(one->at, one->length, other->at, other->length, room, both, &written);
        if (answer != TRACKLINE_ACCEPTED) {
            return answer;
        }
        pieces[made++] = (struct bytes){room, written, written};
        room += written;
    }
    *count = made;
    return TRACKLINE_ACCEPTED;
}

/* From one room to the other, until one file is left; the room that it is not in is freed. */
static uint32_t merge_all(struct bytes *pieces, size_t count, uint8_t *rooms[2], struct bytes *joined)
{
    int to = 0;
    uint32_t answer = merge_neighbours(pieces, &count, rooms[to]);
    while (answer == TRACKLINE_ACCEPTED && count > 1) {
        to = 1 - to;
        answer = merge_neighbours(pieces, &count, rooms[to]);
    }
    *joined = (struct bytes){rooms[to], answer == TRACKLINE_ACCEPTED && count == 1 ? pieces[0].length : 0, 0};
    free(rooms[1 - to]);
    return answer;
}

static size_t length_of(const struct bytes *pieces, size_t count)
{
    size_t length = 0;
    for (size_t i = 0; i < count; i++) {
        length += pieces[i].length;
    }
    return length;
}

/* The pieces are used up. What is joined is freed by the caller. */
int join_files(struct bytes *pieces, size_t count, struct bytes *joined, uint32_t *answer)
{
    size_t length = length_of(pieces, count);
    uint8_t *rooms[2] = {malloc(length + 1), malloc(length + 1)};
    if (rooms[0] == NULL || rooms[1] == NULL) {
        complain_of_error("output", errno);
        free(rooms[0]);
        free(rooms[1]);
        return FAILED;
    }
    *answer = merge_all(pieces, count, rooms, joined);
    return ACCEPTED;
}

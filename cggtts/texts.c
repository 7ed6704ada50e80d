/* The lines of a text, as other programs write it. */
#include "cggtts.h"

#include <string.h>

/* Some editors put three bytes in front of a text, which are no character of it. */
size_t text_begin(const struct bytes *file)
{
    static const uint8_t MARK[] = {0xEF, 0xBB, 0xBF};
    return file->length >= sizeof MARK && memcmp(file->at, MARK, sizeof MARK) == 0 ? sizeof MARK : 0;
}

/* Nothing but blanks; some systems end a text with a byte of 1A. */
int is_empty_line(const struct text *line)
{
    size_t i = 0;
    while (i < line->length && (line->at[i] == ' ' || line->at[i] == '\t' || line->at[i] == 0x1A)) {
        i++;
    }
    return i == line->length;
}

/* The line that begins at a byte. Answers whether there is one. */
int text_at(const struct bytes *file, size_t from, struct text *line)
{
    if (from >= file->length) {
        return 0;
    }
    line->at = file->at + from;
    const uint8_t *end = memchr(line->at, '\n', file->length - from);
    line->length = end != NULL ? (size_t)(end - line->at) : file->length - from;
    line->next = from + line->length + (end != NULL);
    line->length -= line->length > 0 && line->at[line->length - 1] == '\r';
    return 1;
}

/* Standard output. A disk may be full and a close may fail: the first error is kept and told at the end. */
#include "cggtts.h"

#include <errno.h>
#include <stdarg.h>
#include <stdio.h>
#include <string.h>

static int first_error;

static void note(int failed)
{
    if (failed && first_error == 0) {
        first_error = errno != 0 ? errno : EIO;
    }
}

void print_bytes(const void *bytes, size_t length)
{
    errno = 0;
    note(fwrite(bytes, 1, length, stdout) != length);
}

void print_text(const char *text)
{
    print_bytes(text, strlen(text));
}

/* A file's name, as messages have it. */
void print_name(const char *file)
{
    print_text(clean(file));
}

void print_form(const char *form, ...)
{
    va_list given;
    va_start(given, form);
    errno = 0;
    note(vprintf(form, given) < 0);
    va_end(given);
}

/* What is on its way goes out now. Answers FAILED where anything printed so far did not, which is told at the end. */
int flush_output(void)
{
    errno = 0;
    note(fflush(stdout) != 0);
    return first_error == 0 ? ACCEPTED : FAILED;
}

int close_output(void)
{
    flush_output();
    note(ferror(stdout));
    note(fclose(stdout) != 0);
    if (first_error == 0) {
        return ACCEPTED;
    }
    fprintf(stderr, "cggtts: standard output: %s\n", strerror(first_error));
    return FAILED;
}

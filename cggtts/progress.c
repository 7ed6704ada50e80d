/* How far a long work has come: on standard error, where that is a terminal and a second has passed. */
#include "cggtts.h"

#include <stdio.h>
#include <time.h>
#include <unistd.h>

enum { WIDTH = 60 };

static struct timespec begun;
static int on_screen;

void begin_progress(void)
{
    clock_gettime(CLOCK_MONOTONIC, &begun);
}

static int is_long(void)
{
    struct timespec now;
    clock_gettime(CLOCK_MONOTONIC, &now);
    long more = now.tv_nsec < begun.tv_nsec ? 1 : 0;
    return now.tv_sec - begun.tv_sec - more >= 1;
}

void show_progress(size_t done, size_t all, const char *what)
{
    if (is_long() && isatty(STDERR_FILENO)) {
        on_screen = 1;
        fprintf(stderr, "\r  %zu of %zu %s", done, all, what);
    }
}

/* The line is taken away, so that nothing but messages stays. */
void end_progress(void)
{
    if (on_screen) {
        on_screen = 0;
        fprintf(stderr, "\r%*s\r", WIDTH, "");
    }
}

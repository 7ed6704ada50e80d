/* What --range names: the lowest and the highest difference of the picture, in ns with up to one decimal, LOW:HIGH. */
#include "cggtts.h"

/* No difference is as large, in 0.1 ns. */
static const int64_t MOST = 20000000000;

/* A number in tenths. Goes on to what stands behind it, and answers whether there is one. */
static int read_tenths(const char **at, int64_t *tenths)
{
    int minus = **at == '-', digits = 0;
    *tenths = 0;
    *at += minus || **at == '+';
    for (; **at >= '0' && **at <= '9' && *tenths <= MOST; ++*at, digits++) {
        *tenths = 10 * *tenths + (**at - '0');
    }
    *tenths *= 10;
    if (digits > 0 && **at == '.' && (*at)[1] >= '0' && (*at)[1] <= '9') {
        *tenths += (*at)[1] - '0';
        *at += 2;
    }
    *tenths = minus ? -*tenths : *tenths;
    return digits > 0 && *tenths >= -MOST && *tenths <= MOST;
}

int read_range(const char *word, struct range_of_picture *range)
{
    int low = read_tenths(&word, &range->low), between = *word == ':';
    word += between;
    int high = low && between && read_tenths(&word, &range->high);
    range->given = high && *word == '\0' && range->low < range->high;
    return range->given;
}

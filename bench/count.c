/* Lists each line of standard input as often as the argument says, and prints the nanoseconds a read. Its instructions less those of 0
   rounds are those of the list call alone. */
#include "lister.h"
#include <stdio.h>
#include <stdlib.h>
#include <string.h>
#include <time.h>
#include <unistd.h>

enum { LINES = 10000 };
static uint8_t in[1 << 20];
static uint16_t list[3 * LINES];

int main(int argc, char **argv)
{
    long rounds = argc > 1 ? atol(argv[1]) : 0, calls = 0;
    size_t n = 0;
    struct timespec from, to;
    for (ssize_t got; (got = read(0, in + n, sizeof in - n)) > 0;) n += got;
    clock_gettime(CLOCK_MONOTONIC, &from);
    for (uint8_t *at = in, *stop; at < in + n && (stop = memchr(at, '\n', in + n - at)); at = stop + 1)
        for (long r = 0; r < rounds; r++, calls++)
            list_repeats(at, stop - at, list, LINES);
    clock_gettime(CLOCK_MONOTONIC, &to);
    printf("%.0f\n", calls ? ((to.tv_sec - from.tv_sec) * 1e9 + (to.tv_nsec - from.tv_nsec)) / calls : 0);
    return 0;
}

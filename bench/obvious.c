/* The obvious comparison at each distance: at distance p, how far from each position on the bytes equal those p further. An N, which could not be
   read, equals no other; so no motif that is compared has one. */
#include "lister.h"
#include <string.h>

static uint16_t far[MOST + 2];

/* is the motif of p bytes no shorter string written twice or more? */
static int primitive(const uint8_t *u, size_t p)
{
    for (size_t d = 1; 2 * d <= p; d++)
        if (p % d == 0 && memcmp(u, u + d, p - d) == 0) return 0;
    return 1;
}

size_t list_repeats(const uint8_t *x, size_t n, uint16_t *list, size_t room)
{
    size_t count = 0;
    for (size_t p = 1; 2 * p <= n; p++) {
        far[n - p] = 0;
        for (size_t i = n - p; i-- > 0;) far[i] = x[i] == x[i + p] && x[i] != 'N' ? far[i + 1] + 1 : 0;
        for (size_t i = 0; i + 2 * p <= n; i++) {
            if (far[i] < p || !primitive(x + i, p)) continue;
            if (count < room) {
                list[3 * count] = i + 1;
                list[3 * count + 1] = p;
                list[3 * count + 2] = far[i] / p + 1;
            }
            count++;
        }
    }
    return count;
}

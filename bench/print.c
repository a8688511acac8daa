/* The printing program of document 01 over list_repeats. A line may be longer than memory: its first MOST + 1 bytes are kept, the rest is
   counted. */
#include "lister.h"
#include <string.h>
#include <unistd.h>

enum { LINES = 10000 };
static uint8_t in[65536], line[MOST + 1], out[262144];
static uint16_t list[3 * LINES];
static size_t used;

static void flush(void)
{
    for (size_t done = 0; done < used;) {
        ssize_t k = write(1, out + done, used - done);
        if (k <= 0) _exit(1);
        done += k;
    }
    used = 0;
}

static void word(const char *s)
{
    size_t n = strlen(s);
    memcpy(out + used, s, n);
    used += n;
}

static void number(size_t v, char end)
{
    uint8_t text[21], *at = text + 20;
    *at = end;
    do *--at = '0' + v % 10; while (v /= 10);
    size_t n = text + 21 - at;
    memcpy(out + used, at, n);
    used += n;
}

static void refuse(size_t refusal, size_t value)
{
    word("refused ");
    number(refusal, ' ');
    number(value, '\n');
}

static void answer(size_t n)
{
    if (used > sizeof out - 18 * LINES - 64) flush();
    if (n > MOST) {
        refuse(1, n);
        return;
    }
    size_t count = list_repeats(line, n, list, LINES);
    if (count > LINES) {
        refuse(3, count);
        return;
    }
    word("read ");
    number(n, ' ');
    word("repeats ");
    number(count, '\n');
    for (size_t k = 0; k < count; k++) {
        number(list[3 * k], ' ');
        number(list[3 * k + 1], ' ');
        number(list[3 * k + 2], '\n');
    }
}

int main(void)
{
    size_t n = 0;
    ssize_t got;
    while ((got = read(0, in, sizeof in)) > 0)
        for (uint8_t *at = in, *end = in + got; at < end;) {
            uint8_t *stop = memchr(at, '\n', end - at);
            size_t part = (stop ? stop : end) - at;
            if (n < sizeof line) memcpy(line + n, at, part < sizeof line - n ? part : sizeof line - n);
            n += part;
            at += part;
            if (stop) {
                answer(n);
                n = 0;
                at++;
            }
        }
    if (got == 0 && n > 0) answer(n);
    flush();
    return 0;
}

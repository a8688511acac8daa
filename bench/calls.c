/* Makes one call on each line of standard input as often as the second argument says. Its instructions less those of 0 rounds are those of the call
   alone: what a call is handed is made before. */
#include "../c/sorunggyeo.h"
#include <stdio.h>
#include <stdlib.h>
#include <string.h>
#include <unistd.h>

enum { MOST = SORUNGGYEO_MOST, ALL = 3 * MOST * MOST / 2 };
static uint8_t in[1 << 20];
static uint16_t out[3 * 10000], log_[ALL];
static uint8_t turned[SORUNGGYEO_PRIMER_MOST];
static uint64_t beside[4 * SORUNGGYEO_PERIODS];
static size_t numbers, lines, entries;

/* the read's own log */
static void own(const uint8_t *x, size_t n) { numbers = 3 * sorunggyeo_log(x, n, log_, ALL).value; }

/* a log in which all positions move at all widths */
static void all(const uint8_t *x, size_t n)
{
    (void)x;
    numbers = 0;
    for (size_t w = 1; w < n / 2; w++)
        for (size_t i = 1; i < n; i++, numbers += 3)
            log_[numbers] = w, log_[numbers + 1] = 1, log_[numbers + 2] = i;
}

/* the list, and how many entries its index has */
static void lined(const uint8_t *x, size_t n)
{
    sorunggyeo_answer a = sorunggyeo_list_index(x, n, 0, out, 3 * 10000, beside, 4 * SORUNGGYEO_PERIODS);
    lines = a.value, entries = a.more;
}

static void nothing(const uint8_t *x, size_t n) { (void)x, (void)n; }
static void list(const uint8_t *x, size_t n) { sorunggyeo_list(x, n, 0, out, 3 * 10000); }
static void runs(const uint8_t *x, size_t n) { sorunggyeo_runs(x, n, out, 3 * 10000); }
static void table(const uint8_t *x, size_t n) { sorunggyeo_group_table(x, n, n / 2, out, MOST); }
static void replay(const uint8_t *x, size_t n) { sorunggyeo_replay(x, n, log_, numbers, n / 2, out, MOST); }
static void both(const uint8_t *x, size_t n) { sorunggyeo_list_index(x, n, 0, out, 3 * 10000, beside, 4 * SORUNGGYEO_PERIODS); }
static void both_exact(const uint8_t *x, size_t n) { sorunggyeo_list_index(x, n, 0, out, 3 * 10000, beside, 4 * entries); }
static void alone(const uint8_t *x, size_t n) { (void)x, (void)n, sorunggyeo_index(out, 3 * lines, beside, 4 * entries); }
static void lookup(const uint8_t *x, size_t n) { (void)x, (void)n, sorunggyeo_lookup(beside, 4 * entries, 0); }
static void claim(const uint8_t *x, size_t n) { sorunggyeo_claim(x, n, 1, n / 2, 2); }
static void claim_bases(const uint8_t *x, size_t n) { sorunggyeo_claim(x, n, 1, 1, n); }
static const uint8_t any[SORUNGGYEO_PRIMER_MOST + 1] = "NNNNNNNNNNNNNNNNNNNNNNNNNNNNNNNNNNNNNNNNNNNNNNNNNNNNNNNNNNNN";
static void find(const uint8_t *x, size_t n) { sorunggyeo_find_primer(x, n, x, 20, out, MOST); }
static void find_long(const uint8_t *x, size_t n) { sorunggyeo_find_primer(x, n, x, SORUNGGYEO_PRIMER_MOST, out, MOST); }
static void find_any(const uint8_t *x, size_t n) { sorunggyeo_find_primer(x, n, any, SORUNGGYEO_PRIMER_MOST, out, MOST); }
static void find_base(const uint8_t *x, size_t n) { sorunggyeo_find_primer(x, n, any, 1, out, MOST); }
static void turn(const uint8_t *x, size_t n) { (void)n, sorunggyeo_reverse_complement(x, SORUNGGYEO_PRIMER_MOST, turned, SORUNGGYEO_PRIMER_MOST); }
/* a marker of the read's ends and a motif, which is AC or, of a quarter of the read, A .. A C; a house list of 1,000 lines that are AC */
static uint8_t motif[MOST], house[3 * MOST];
static size_t period;
static void of_two(const uint8_t *x, size_t n)
{
    (void)x, (void)n;
    period = 2, motif[0] = 'A', motif[1] = 'C';
    for (size_t k = 0; k < sizeof house; k++) house[k] = "AC\n"[k % 3];
}
static void of_quarter(const uint8_t *x, size_t n) { (void)x, period = n / 4, memset(motif, 'A', period), motif[period - 1] = 'C'; }
static void score(const uint8_t *x, size_t n) { sorunggyeo_score(x, n, x, 20, x + n - 20, 20, motif, period, 5); }
static void score_ends(const uint8_t *x, size_t n) { sorunggyeo_score(x, n, x, 1, x + n - 1, 1, motif, period, 5); }
static void shown(const uint8_t *x, size_t n) { sorunggyeo_shown(x, n, house, sizeof house, 999, x, 1, x + n - 1, 1, motif, period); }
static void claim_whole(const uint8_t *x, size_t n) { sorunggyeo_claim(x, n, 1, n, 1); }

static const struct { const char *name; void (*before)(const uint8_t *, size_t), (*call)(const uint8_t *, size_t); } calls[] = {
    {"list", nothing, list}, {"runs", nothing, runs}, {"table", nothing, table}, {"log", nothing, own}, {"replay", own, replay}, {"replay_all", all, replay},
    {"list_index", nothing, both}, {"list_index_exact", lined, both_exact}, {"index", lined, alone}, {"lookup", lined, lookup},
    {"claim", nothing, claim}, {"claim_bases", nothing, claim_bases}, {"claim_whole", nothing, claim_whole},
    {"find", nothing, find}, {"find_long", nothing, find_long}, {"find_any", nothing, find_any}, {"find_base", nothing, find_base}, {"turn", nothing, turn},
    {"score", of_two, score}, {"score_ends", of_two, score_ends}, {"score_quarter", of_quarter, score_ends}, {"shown", of_two, shown}};

int main(int argc, char **argv)
{
    long rounds = argc > 2 ? atol(argv[2]) : 0;
    size_t n = 0;
    for (ssize_t got; (got = read(0, in + n, sizeof in - n)) > 0;) n += got;
    for (size_t k = 0; k < sizeof calls / sizeof *calls; k++)
        if (argc > 1 && !strcmp(calls[k].name, argv[1]))
            for (uint8_t *at = in, *stop; at < in + n && (stop = memchr(at, '\n', in + n - at)); at = stop + 1) {
                calls[k].before(at, stop - at);
                for (long r = 0; r < rounds; r++) calls[k].call(at, stop - at);
            }
    return 0;
}

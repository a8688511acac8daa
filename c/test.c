/* Runs the calls from C and prints what the slow program prints, for c/check to compare:
     test lists|leading|logs < READS           every read's list, leading repeats, or log
     test runs < READS                         every read's runs
     test claims < READS                       what claims all over every read are told, summed up
     test two_letters                          the runs of all words of A and C up to 12 letters, summed up length by length
     test indexes < READS                      every read's period index, made with the list and from the list alone
     test primers PRIMERS < READS              the places of the primers that the file PRIMERS has for every read, and their reverse complements
     test markers MARKERS < READS              the scores by the markers that the file MARKERS has for every read, and the motifs shown
     test tables TABLES < READS                every read's tables at the widths that the file TABLES has
     test calls                                what crates/run_calls prints, and the calls on empty slices that are null
   Besides, no answer but three has a second value, in `indexes` each period is looked up, in `lists` each line is claimed, also with a copy more or less, and its motif taken, in `runs` each is looked at base by base, there and in `two_letters` beside the read's list, in `logs` the log is walked by the reader, in `primers` each primer is looked for on the other strand too, in `markers` each score is found again by the leading list, and in
   `tables` the replay of the read's own log must give the same table; what fails prints a line that no stored output has. All runs on a thread with as
   small a stack as docs/C.md says will do: a call that takes more ends the program. */
#include "sorunggyeo.h"
#include <pthread.h>
#include <stdio.h>
#include <stdlib.h>
#include <string.h>

enum { LINES = 10000, WIDE = 70000 };
static uint8_t read[WIDE];
static uint64_t beside[4 * SORUNGGYEO_PERIODS], alone[4 * SORUNGGYEO_PERIODS];
static uint16_t list[LINES * SORUNGGYEO_LINE], log_[SORUNGGYEO_LOG_MOST], table[SORUNGGYEO_MOST], other[SORUNGGYEO_MOST];

_Static_assert(SORUNGGYEO_VERSION == 4 && sizeof(sorunggyeo_answer) == 24, "the header that this program was written for");

static void expect(int ok, const char *what)
{
    if (!ok) printf("wrong: %s\n", what);
}

/* an answer of one value, as all are but that of list and index in one, of a claim, and of a score */
static sorunggyeo_answer one(sorunggyeo_answer a)
{
    expect(a.more == 0, "there is no second value");
    return a;
}

static void same(sorunggyeo_answer a, uint32_t number, uint64_t value)
{
    expect(one(a).number == number && a.value == value, "the answer on an empty slice");
}

/* the next line of standard input without its newline; 0 once there is none */
static int next_read(size_t *n)
{
    int c = getchar();
    if (c == EOF) return 0;
    for (*n = 0; c != EOF && c != '\n'; c = getchar())
        if (*n < WIDE) read[(*n)++] = c;
    return 1;
}

static void numbers(const uint16_t *a, size_t n)
{
    for (size_t i = 0; i < n; i++) printf(" %u", a[i]);
    printf("\n");
}

static void wide_numbers(const uint64_t *a, size_t n)
{
    for (size_t i = 0; i < n; i++) printf(" %llu", (unsigned long long)a[i]);
    printf("\n");
}

/* ---- every read against the stored results */

/* is the claim told this? */
static int told(size_t n, uint32_t i, uint32_t p, uint32_t e, uint64_t verdict, uint64_t number)
{
    sorunggyeo_answer a = sorunggyeo_claim(read, n, i, p, e);
    return a.number == SORUNGGYEO_OK && a.value == verdict && a.more == number;
}

static void claim_line(size_t n, uint32_t i, uint32_t p, uint32_t e)
{
    sorunggyeo_part u = sorunggyeo_motif(read, n, i, p, e), v = sorunggyeo_motif(read, n, i, 2 * p, 1);
    int fits = i + p * (e + 1) <= n + 1;
    expect(told(n, i, p, e, SORUNGGYEO_CLAIM_YES, 0), "a line of the list is a true claim");
    expect(told(n, i, p, e + 1, fits ? SORUNGGYEO_CLAIM_COPIES : SORUNGGYEO_CLAIM_OUTSIDE, fits ? e : 0), "with a copy more it is not");
    expect(told(n, i, p, e - 1, SORUNGGYEO_CLAIM_COPIES, e), "nor with one less");
    expect(told(n, i, 2 * p, e / 2, SORUNGGYEO_CLAIM_SHORTER, p), "nor as the motif twice over, whose root is the motif");
    expect(u.from == i - 1 && u.count == p && v.from == u.from && v.count == p, "its motif is that part of the read, by both");
    expect(!memchr(read + i - 1, 'N', p * e), "no repeat rests on an unread base");
}

static void print_list(size_t n, uint32_t mode)
{
    sorunggyeo_answer a = one(sorunggyeo_list(read, n, mode, list, LINES * SORUNGGYEO_LINE));
    if (a.number != SORUNGGYEO_OK) {
        printf("refused %u %llu\n", a.number, (unsigned long long)a.value);
        return;
    }
    printf("read %zu repeats %llu\n", n, (unsigned long long)a.value);
    for (size_t k = 0; k < a.value; k++) {
        const uint16_t *line = list + SORUNGGYEO_LINE * k;
        printf("%u %u %u\n", line[0], line[1], line[2]);
        claim_line(n, line[0], line[1], line[2]);
    }
}

/* p is a period of the stretch from a to b, positions from 1 */
static int has_period(size_t a, size_t b, size_t p)
{
    for (size_t k = a; k + p <= b; k++)
        if (read[k - 1] == 'N' || read[k - 1] != read[k + p - 1]) return 0;
    return 1;
}

static void look_at_run(size_t n, size_t a, size_t b, size_t p)
{
    expect(1 <= a && a + 2 * p <= b + 1 && b <= n && has_period(a, b, p), "a run has its period, at least twice");
    for (size_t d = 1; d < p; d++) expect(!has_period(a, b, d), "no smaller one");
    expect(a == 1 || !has_period(a - 1, b, p), "and stops on its left");
    expect(b == n || !has_period(a, b + 1, p), "and on its right");
}

static uint16_t maximal[SORUNGGYEO_MOST * SORUNGGYEO_RUN];

/* a line of the list beside the runs: one counts it, and it lies whole in no other of its period */
static void look_at_line(uint32_t i, uint32_t p, uint32_t e, size_t runs)
{
    size_t counting = 0, holding = 0;
    for (const uint16_t *run = maximal; run < maximal + SORUNGGYEO_RUN * runs; run += SORUNGGYEO_RUN) {
        if (run[2] != p) continue;
        counting += run[0] <= i && i <= run[1] && (run[1] + 1u - i) / p == e;
        holding += run[0] <= i && i + p * e - 1 <= run[1];
    }
    expect(e >= 2 && counting == 1 && holding == 1, "a repeat lies whole in one run of its period, and is counted to its end");
}

static int rises(const uint16_t *line, const uint16_t *next)
{
    return line[1] < next[1] || (line[1] == next[1] && line[0] < next[0]);
}

/* repeats and runs agree: each line is counted by a run, no line stands twice, and there are as many as the runs count */
static void look_at_both(size_t n, size_t runs)
{
    sorunggyeo_answer a = one(sorunggyeo_list(read, n, 0, list, LINES * SORUNGGYEO_LINE));
    size_t counted = 0;
    expect(a.number == SORUNGGYEO_OK, "there is room for the list");
    for (size_t k = 0; k < a.value; k++) {
        const uint16_t *line = list + SORUNGGYEO_LINE * k;
        look_at_line(line[0], line[1], line[2], runs);
        expect(k == 0 || rises(line - SORUNGGYEO_LINE, line), "the list rises by period, then start");
    }
    for (const uint16_t *run = maximal; run < maximal + SORUNGGYEO_RUN * runs; run += SORUNGGYEO_RUN)
        for (uint32_t i = run[0]; i <= run[1]; i++) counted += (run[1] + 1u - i) / run[2] >= 2;
    expect(counted == a.value, "there are as many repeats as the runs count");
}

static void print_runs(size_t n)
{
    sorunggyeo_answer a = one(sorunggyeo_runs(read, n, maximal, SORUNGGYEO_MOST * SORUNGGYEO_RUN));
    printf("read %zu runs %llu\n", n, (unsigned long long)a.value);
    for (size_t k = 0; k < a.value; k++) {
        const uint16_t *run = maximal + SORUNGGYEO_RUN * k;
        printf("%u %u %u\n", run[0], run[1], run[2]);
        look_at_run(n, run[0], run[1], run[2]);
    }
    look_at_both(n, a.value);
}

/* a number more of a sum in which a place that differs is seen (FNV-1a) */
static void add(uint32_t *sum, uint32_t number)
{
    *sum = (*sum ^ number) * 16777619u;
}

/* starts and periods over the read and past it, up to 26 of each, with 0 to 4 copies */
static void print_claims(size_t n)
{
    uint32_t counts[5] = {0}, sum = 2166136261u, step = 1 + n / 24;
    for (uint32_t i = 0; i < n + 2; i += step)
        for (uint32_t p = 0; p < n + 2; p += step)
            for (uint32_t e = 0; e < 5; e++) {
                sorunggyeo_answer a = sorunggyeo_claim(read, n, i, p, e);
                sorunggyeo_part u = sorunggyeo_motif(read, n, i, p, e);
                counts[a.number == SORUNGGYEO_OK && a.value < 5 ? a.value : 0]++;
                add(&sum, a.number), add(&sum, a.value), add(&sum, a.more), add(&sum, u.from), add(&sum, u.count);
            }
    printf("read %zu claims %u %u %u %u sum %u\n", n, counts[1], counts[2], counts[3], counts[4], sum);
}

/* of all words of a length: how many runs they have, and their numbers summed up */
static void two_letters(size_t n)
{
    uint32_t count = 0, sum = 2166136261u;
    for (uint32_t word = 0; word < 1u << n; word++) {
        for (size_t i = 0; i < n; i++) read[i] = word >> (n - 1 - i) & 1 ? 'C' : 'A';
        size_t found = one(sorunggyeo_runs(read, n, maximal, SORUNGGYEO_MOST)).value;
        count += found;
        for (size_t k = 0; k < SORUNGGYEO_RUN * found; k++) add(&sum, maximal[k]);
        add(&sum, 0); /* after each word */
        look_at_both(n, found);
    }
    printf("length %zu runs %u sum %u\n", n, count, sum);
}

/* one line for the moves of a width under a name */
static void print_log(size_t n)
{
    size_t needed = one(sorunggyeo_log(read, n, log_, 0)).value;
    sorunggyeo_answer a = one(sorunggyeo_log(read, n, log_, SORUNGGYEO_LOG_MOST));
    unsigned width = 0, name = 0;
    size_t at = 0;
    if (n < 2) needed = 0;
    printf("read %zu moves %llu room %zu", n, (unsigned long long)a.value, needed / SORUNGGYEO_MOVE);
    for (sorunggyeo_move m; (m = sorunggyeo_next(log_, SORUNGGYEO_MOVE * a.value, at)).found; at = m.at) {
        if (m.width != width || m.name != name) printf("\n%u %u:", m.width, m.name);
        printf(" %u", m.position);
        width = m.width;
        name = m.name;
    }
    printf("\n");
    expect(at == a.value, "the reader gives every move");
}

/* the entries that come with the list, those of the list alone, and each looked up */
static void print_index(size_t n)
{
    sorunggyeo_answer a = sorunggyeo_list_index(read, n, 0, list, LINES * SORUNGGYEO_LINE, beside, 4 * SORUNGGYEO_PERIODS);
    sorunggyeo_answer b = one(sorunggyeo_index(list, SORUNGGYEO_LINE * a.value, alone, 4 * a.more));
    printf("read %zu lines %llu periods %llu\n", n, (unsigned long long)a.value, (unsigned long long)a.more);
    expect(b.number == SORUNGGYEO_OK && b.value == a.more && !memcmp(alone, beside, 4 * a.more * sizeof *alone), "both ways give the index");
    for (size_t k = 0; k < a.more; k++) {
        const uint64_t *entry = beside + SORUNGGYEO_ENTRY * k;
        sorunggyeo_entry e = sorunggyeo_lookup(beside, SORUNGGYEO_ENTRY * a.more, entry[0]);
        printf("%llu %llu %llu %llu\n", (unsigned long long)entry[0], (unsigned long long)entry[1], (unsigned long long)entry[2], (unsigned long long)entry[3]);
        expect(e.found && e.place == k && e.first == entry[1] && e.lines == entry[2] && e.largest == entry[3], "a period is looked up");
    }
    expect(!sorunggyeo_lookup(beside, SORUNGGYEO_ENTRY * a.more, 0).found, "no repeat has the period 0");
}

/* the other strand of a read; a byte that is no letter stays what it is */
static uint8_t strand[SORUNGGYEO_MOST];

static void turn_read(size_t n)
{
    static const char letters[] = "ACGTRYSWKMBDHVN", turned[] = "TGCAYRSWMKVHDBN";
    for (size_t i = 0; i < n; i++) {
        const char *at = read[i] ? strchr(letters, read[i]) : NULL;
        strand[n - 1 - i] = at ? (uint8_t)turned[at - letters] : read[i];
    }
}

/* a primer, its reverse complement, its places; and the same places on the other strand */
static void print_primer(size_t n, const char *letters)
{
    const uint8_t *primer = (const uint8_t *)letters;
    size_t m = strlen(letters);
    static uint8_t turned[SORUNGGYEO_PRIMER_MOST], back[SORUNGGYEO_PRIMER_MOST];
    sorunggyeo_answer a = one(sorunggyeo_reverse_complement(primer, m, turned, m)), b = one(sorunggyeo_reverse_complement(turned, m, back, m));
    expect(a.value == m && b.value == m && !memcmp(primer, back, m), "taken twice it gives the primer back");
    a = one(sorunggyeo_find_primer(read, n, primer, m, table, SORUNGGYEO_MOST));
    turn_read(n);
    b = one(sorunggyeo_find_primer(strand, n, turned, m, other, SORUNGGYEO_MOST));
    expect(a.number == SORUNGGYEO_OK && b.number == SORUNGGYEO_OK && a.value == b.value, "as many places on the other strand");
    for (size_t k = 0; k < a.value; k++) expect(table[k] + other[a.value - 1 - k] == n + 2 - m, "each mirrored");
    printf("%s %.*s", letters, (int)m, (const char *)turned);
    numbers(table, a.value);
    if (a.value == 0) return;
    b = one(sorunggyeo_find_primer(read, n, primer, m, table, a.value - 1));
    expect(b.number == SORUNGGYEO_LIST_FULL && b.value == a.value && (a.value == 1 || !table[a.value - 2]), "with room for one less, none");
}

static void print_primers(FILE *stored)
{
    size_t n = 0;
    char word[SORUNGGYEO_PRIMER_MOST + 1];
    while (fscanf(stored, "%60s", word) == 1) {
        if (!strcmp(word, "read")) {
            if (!next_read(&n)) return;
            printf("read %zu\n", n);
        } else {
            print_primer(n, word);
        }
        for (int c; (c = getc(stored)) != '\n' && c != EOF;) {}
    }
}

/* a marker with its number, and the house list for all of them: the words of the stored file's first line */
struct marker { char left[SORUNGGYEO_PRIMER_MOST + 1], right[SORUNGGYEO_PRIMER_MOST + 1]; unsigned start, period, reference, number; };
static struct marker marker;
static uint8_t house[256];
static size_t house_bytes, leading;

static void add_house(const char *line)
{
    size_t m = strlen(line), gap = house_bytes > 0;
    if (house_bytes + gap + m > sizeof house) return;
    if (gap) house[house_bytes] = '\n';
    memcpy(house + house_bytes + gap, line, m);
    house_bytes += gap + m;
}

static sorunggyeo_answer score_marker(size_t n)
{
    return sorunggyeo_score(read, n, (const uint8_t *)marker.left, strlen(marker.left), (const uint8_t *)marker.right, strlen(marker.right), read + marker.start - 1, marker.period, marker.reference);
}

static sorunggyeo_shown_part show_marker(size_t n, size_t bytes)
{
    return sorunggyeo_shown(read, n, bytes ? house : NULL, bytes, marker.number, (const uint8_t *)marker.left, strlen(marker.left), (const uint8_t *)marker.right, strlen(marker.right), read + marker.start - 1, marker.period);
}

/* how often a primer sits; the last place is written */
static size_t seats(size_t n, const char *letters, size_t *place)
{
    size_t found = one(sorunggyeo_find_primer(read, n, (const uint8_t *)letters, strlen(letters), table, SORUNGGYEO_MOST)).value;
    if (found) *place = table[found - 1];
    return found;
}

/* the number once more, by the places of the primers and the lines of the leading list; and the line that is scored */
static uint32_t score_again(size_t n, const uint16_t **line)
{
    size_t low = 0, high = 0, found = 0, a = seats(n, marker.left, &low), b = seats(n, marker.right, &high), p = marker.period;
    low += strlen(marker.left);
    if (!a || !b) return SORUNGGYEO_MISSING;
    if (a > 1 || b > 1) return SORUNGGYEO_MORE_THAN_ONCE;
    if (high < low) return SORUNGGYEO_OUT_OF_ORDER;
    for (const uint16_t *l = list; l < list + SORUNGGYEO_LINE * leading; l += SORUNGGYEO_LINE)
        if (l[1] == p && !memcmp(read + l[0] - 1, read + marker.start - 1, p) && low <= l[0] && l[0] + p * l[2] <= high) found++, *line = l;
    return found == 1 ? SORUNGGYEO_OK : found ? SORUNGGYEO_SEVERAL : SORUNGGYEO_NO_REPEAT;
}

static void print_marker(size_t n)
{
    sorunggyeo_answer a = score_marker(n);
    sorunggyeo_shown_part s = show_marker(n, house_bytes), plain = show_marker(n, 0);
    const uint16_t *line = list;
    printf("%s %s %u %u %u %u: %u %llu %lld | %u %zu %zu\n", marker.left, marker.right, marker.start, marker.period, marker.reference, marker.number, a.number, (unsigned long long)a.value,
           (long long)(int64_t)a.more, s.house, s.from, s.count);
    expect(score_again(n, &line) == a.number, "the leading list gives the number");
    expect(!memcmp((s.house ? house : read) + s.from, read + marker.start - 1, s.count), "the part shown is the motif");
    expect(!plain.house && plain.count == s.count && (s.house || plain.from == s.from), "without a house list it is of the read");
    if (a.number == SORUNGGYEO_OK) expect(a.value == line[2] && plain.from == line[0] - 1u && plain.count == marker.period, "and the line");
    else expect(!a.more && !plain.from && !plain.count, "of a read not scored nothing is shown");
}

static void print_markers(FILE *stored)
{
    size_t n = 0;
    while (fscanf(stored, "%60s", marker.left) == 1) {
        if (!strcmp(marker.left, "house")) {
            while (getc(stored) == ' ' && fscanf(stored, "%60s", marker.right) == 1) add_house(marker.right);
            printf("house ");
            for (size_t k = 0; k < house_bytes; k++) putchar(house[k] == '\n' ? ' ' : house[k]);
            printf("\n");
            continue;
        }
        if (!strcmp(marker.left, "read")) {
            if (!next_read(&n)) return;
            printf("read %zu\n", n);
            leading = one(sorunggyeo_list(read, n, 1, list, LINES * SORUNGGYEO_LINE)).value;
        } else if (fscanf(stored, "%60s %u %u %u %u", marker.right, &marker.start, &marker.period, &marker.reference, &marker.number) == 5) {
            print_marker(n);
        }
        for (int c; (c = getc(stored)) != '\n' && c != EOF;) {}
    }
}

static void print_table(size_t n, unsigned width)
{
    sorunggyeo_answer a = one(sorunggyeo_group_table(read, n, width, table, SORUNGGYEO_MOST));
    printf("%u:", width);
    numbers(table, a.value);
    if (width > 1 && width > n / 2) return;
    a = one(sorunggyeo_log(read, n, log_, SORUNGGYEO_LOG_MOST));
    a = one(sorunggyeo_replay(read, n, log_, SORUNGGYEO_MOVE * a.value, width, other, SORUNGGYEO_MOST));
    expect(a.number == SORUNGGYEO_OK && !memcmp(table, other, n * sizeof *table), "the replay gives the table");
}

static void print_tables(FILE *stored)
{
    size_t n = 0;
    unsigned width;
    for (int c; (c = getc(stored)) != EOF;) {
        ungetc(c, stored);
        if (c == 'r') {
            if (!next_read(&n)) return;
            printf("read %zu\n", n);
        } else if (fscanf(stored, "%u", &width) == 1) {
            print_table(n, width);
        }
        while ((c = getc(stored)) != '\n' && c != EOF) {}
    }
}

/* ---- the calls of crates/run_calls: each on a slice of sevens, with the slice before and after */

static uint16_t slice[LINES * SORUNGGYEO_LINE];

static void begin(const char *call, size_t n)
{
    printf("%s\nslice", call);
    for (size_t i = 0; i < n; i++) slice[i] = 7;
    numbers(slice, n);
}

static void answered(sorunggyeo_answer a)
{
    printf("answer %u %llu\n", a.number, (unsigned long long)one(a).value);
}

static void end(sorunggyeo_answer a, size_t n)
{
    answered(a);
    printf("slice");
    numbers(slice, n);
}

static void list_on(const char *x, size_t n, uint32_t mode, size_t room)
{
    begin("list", room);
    end(sorunggyeo_list((const uint8_t *)x, n, mode, slice, room), room);
}

static void runs_on(const char *x, size_t n, size_t room)
{
    begin("runs", room);
    end(sorunggyeo_runs((const uint8_t *)x, n, slice, room), room);
}

static void table_on(const char *x, size_t n, uint32_t width, size_t room)
{
    begin("table", room);
    end(sorunggyeo_group_table((const uint8_t *)x, n, width, slice, room), room);
}

static void log_on(const char *x, size_t n, size_t room)
{
    begin("log", room);
    end(sorunggyeo_log((const uint8_t *)x, n, slice, room), room);
}

static void replay_on(const char *x, const uint16_t *l, size_t count, uint32_t width, size_t room)
{
    begin("replay", room);
    end(sorunggyeo_replay((const uint8_t *)x, strlen(x), l, count, width, slice, room), room);
}

/* an answer of two values */
static void answered_both(sorunggyeo_answer a)
{
    printf("answer %u %llu %llu\n", a.number, (unsigned long long)a.value, (unsigned long long)a.more);
}

static void claim_in(const uint8_t *x, size_t n, uint32_t i, uint32_t p, uint32_t e)
{
    printf("claim\n");
    answered_both(sorunggyeo_claim(x, n, i, p, e));
    sorunggyeo_part u = sorunggyeo_motif(x, n, i, p, e);
    printf("%.*s\n", (int)u.count, (const char *)x + u.from);
}

static void claim_on(const char *x, uint32_t i, uint32_t p, uint32_t e)
{
    claim_in((const uint8_t *)x, strlen(x), i, p, e);
}

static uint64_t wide[4 * SORUNGGYEO_PERIODS];

static void list_index_on(const char *x, uint32_t mode, size_t room, size_t index_room)
{
    begin("list_index", room);
    for (size_t i = 0; i < index_room; i++) wide[i] = 7;
    printf("slice"), wide_numbers(wide, index_room);
    answered_both(sorunggyeo_list_index((const uint8_t *)x, strlen(x), mode, slice, room, wide, index_room));
    printf("slice"), numbers(slice, room);
    printf("slice"), wide_numbers(wide, index_room);
}

static void index_on(const uint16_t *l, size_t count, size_t room)
{
    printf("index\nslice");
    for (size_t i = 0; i < room; i++) wide[i] = 7;
    wide_numbers(wide, room);
    answered(sorunggyeo_index(l, count, wide, room));
    printf("slice"), wide_numbers(wide, room);
}

static void lookup_on(const uint64_t *index, size_t count, uint64_t period)
{
    sorunggyeo_entry e = sorunggyeo_lookup(index, count, period);
    printf("lookup\n");
    if (e.found) printf("entry %llu %llu %llu %llu\n", (unsigned long long)e.place, (unsigned long long)e.first, (unsigned long long)e.lines, (unsigned long long)e.largest);
    else printf("none\n");
}

static void index_calls(void)
{
    const char *x = "ACAACACA";
    uint16_t r5[12] = {3, 1, 2, 4, 2, 2, 5, 2, 2, 1, 3, 2}, equal[6] = {3, 1, 2, 3, 1, 2}, falls[7] = {1, 2, 2, 5, 1, 2, 4};
    uint16_t starts[6] = {5, 2, 2, 4, 2, 2}, odd[9] = {1, 0, 0, 9, 0, 65535, 1, 65535, 0};
    uint64_t own[12] = {1, 0, 1, 2, 2, 1, 2, 2, 3, 3, 1, 2}, twice[9] = {2, 5, 6, 7, 2, 8, 9, 9, 3}, most[4] = {UINT64_MAX, 1, 2, UINT64_MAX};
    list_index_on(x, 0, 12, 16), list_index_on(x, 0, 13, 15), list_index_on(x, 0, 12, 12), list_index_on(x, 0, 12, 11);
    list_index_on(x, 0, 11, 16), list_index_on(x, 0, 11, 11), list_index_on(x, 2, 11, 3);
    list_index_on("AAAA", 0, 9, 8), list_index_on("AAAA", 0, 9, 4), list_index_on("AAAA", 0, 9, 3), list_index_on("AAAA", 1, 4, 4);
    list_index_on("", 0, 0, 0), list_index_on("", 1, 2, 3);
    list_index_on("ACACNACAC", 0, 6, 4), list_index_on("ACACNACAC", 0, 6, 3), list_index_on("NNNN", 0, 0, 0), list_index_on("nnnn", 0, 9, 4);
    index_on(r5, 12, 13), index_on(r5, 12, 12), index_on(r5, 12, 11), index_on(r5, 12, 0), index_on(r5, 0, 0), index_on(r5, 0, 3);
    index_on(r5, 1, 4), index_on(r5, 2, 4), index_on(r5, 10, 16), index_on(r5, 11, 0);
    index_on(equal, 6, 8), index_on(falls, 6, 8), index_on(starts, 6, 0), index_on(falls, 7, 8), index_on(odd, 9, 8);
    lookup_on(own, 12, 1), lookup_on(own, 12, 2), lookup_on(own, 12, 3), lookup_on(own, 12, 4), lookup_on(own, 12, 0);
    lookup_on(own, 11, 3), lookup_on(own, 3, 1), lookup_on(own, 0, 0), lookup_on(twice, 9, 2), lookup_on(twice, 9, 3);
    lookup_on(most, 4, UINT64_MAX);
    memset(read, 'A', WIDE);
    const size_t given[4][4] = {{1000, 0, 2997, 2000}, {1000, 0, 2997, 4}, {1000, 1, 2, 4}, {1001, 2, 1, 1}};
    for (int k = 0; k < 4; k++) answered_both(sorunggyeo_list_index(read, given[k][0], given[k][1], slice, given[k][2], wide, given[k][3]));
}

static void unread_calls(void)
{
    const char *x = "ACACNACAC";
    const uint16_t own[9] = {1, 2, 1, 1, 3, 2, 1, 4, 3}, foreign[9] = {1, 8, 1, 1, 8, 7, 3, 1, 1};
    list_on("NNNN", 4, 0, 0), list_on("NNNN", 4, 1, 2), list_on(x, 9, 0, 7), list_on(x, 9, 0, 5), list_on(x, 9, 1, 6), list_on("nnnn", 4, 0, 8);
    table_on(x, 9, 2, 10), table_on("NNNN", 4, 1, 3), log_on("NNNN", 4, 28), log_on("NNNN", 4, 26);
    replay_on("NNNN", own, 9, 1, 4), replay_on("NNNN", own, 9, 2, 5), replay_on("NNNN", own, 9, 3, 4), replay_on("nnnn", own, 9, 2, 4);
    replay_on("NNNN", own, 0, 2, 4), replay_on("nnnn", own, 0, 2, 4);
    replay_on("ANANANAN", foreign, 9, 1, 8), replay_on("ANANANAN", foreign, 9, 3, 8), replay_on("ANANANAN", foreign, 9, 4, 8);
    replay_on("NNNNNNNN", foreign, 9, 4, 8);
    claim_on(x, 1, 2, 2), claim_on(x, 6, 2, 2), claim_on(x, 1, 2, 4), claim_on(x, 1, 5, 2), claim_on(x, 5, 1, 1), claim_on("NN", 1, 1, 2);
    claim_on("nn", 1, 1, 2), claim_on("N", 1, 1, 1), claim_on("ACNACN", 1, 3, 2), claim_on("ACnACn", 1, 3, 2), claim_on("ANAN", 1, 2, 2);
    claim_on("NANA", 1, 2, 2), claim_on("ACNACA", 1, 3, 2), claim_on("NNNN", 1, 1, UINT32_MAX);
}

static void runs_calls(void)
{
    runs_on("ACACACA", 7, 4), runs_on("ACACACA", 7, 3), runs_on("ACACACA", 7, 2), runs_on("ACACACA", 7, 0);
    runs_on("AACAACCACC", 10, 18), runs_on("AACAACCACC", 10, 17), runs_on("AAAA", 4, 5), runs_on("NNNN", 4, 0), runs_on("", 0, 2);
    memset(read, 'A', WIDE);
    const char *long_read = (const char *)read;
    runs_on(long_read, 1000, 3), runs_on(long_read, 1000, 2), runs_on(long_read, 1001, 4), runs_on(long_read, 1001, 2);
}

static void claim_calls(void)
{
    const char *x = "ACAC", *y = "ACACACAC", *a = "AAAAAAAA", *u = "ACNACA";
    claim_on(x, 1, 2, 2), claim_on(x, 1, 4, 1), claim_on(x, 1, 2, 1), claim_on(x, 1, 2, 3), claim_on(x, 3, 1, 2), claim_on(x, 4, 1, 1), claim_on(x, 4, 1, 2);
    claim_on(x, 5, 1, 1), claim_on(x, 0, 2, 2), claim_on(x, 1, 0, 2), claim_on(x, 1, 2, 0), claim_on(x, 1, 4, 2);
    claim_on(y, 1, 4, 2), claim_on(y, 1, 8, 1), claim_on(y, 2, 4, 1), claim_on(y, 2, 6, 1), claim_on(y, 3, 2, 3), claim_on(y, 3, 2, 2), claim_on(y, 3, 2, 1), claim_on(y, 5, 4, 2);
    claim_on("ACACAC", 1, 4, 2), claim_on("ACACAC", 1, 4, 1), claim_on(a, 1, 8, 1), claim_on(a, 3, 6, 1), claim_on(a, 1, 4, 3), claim_on("AACAAC", 1, 6, 1), claim_on("AACAAC", 1, 2, 1);
    claim_on(u, 1, 3, 1), claim_on(u, 1, 3, 2), claim_on(u, 2, 3, 1), claim_on(u, 3, 1, 1), claim_on(u, 1, 6, 1), claim_on(u, 1, 2, 1), claim_on(u, 4, 2, 1), claim_on(u, 1, 3, 3);
    claim_on("NNNN", 1, 2, 1), claim_on("NNNN", 1, 4, 1), claim_on("NNNN", 1, 1, 4), claim_on("nnnn", 1, 4, 1), claim_on("nnnn", 1, 1, 4);
    claim_on(x, UINT32_MAX, UINT32_MAX, UINT32_MAX), claim_on(x, 1, 65536, 65536), claim_on(x, 1, 2147483648u, 2), claim_on(x, 1, 1431655766, 3);
    claim_on(x, UINT32_MAX, 1, 2), claim_on(x, 1, UINT32_MAX, 1), claim_on(x, 1, 1, UINT32_MAX), claim_on(x, 2, UINT32_MAX, UINT32_MAX);
    claim_on("", 1, 1, 1), claim_on("", 0, 1, 1), claim_on("", 1, 0, 0);
    memset(read, 'A', WIDE);
    claim_in(read, 1000, 1, 1, 1000), claim_in(read, 1000, 1, 1, 999), claim_in(read, 1000, 1, 1000, 1), claim_in(read, 1000, 1, 500, 2);
    claim_in(read, 1000, 501, 500, 1), claim_in(read, 1000, 501, 500, 2), claim_in(read, 1000, 1000, 1, 1), claim_in(read, 1000, 1000, 1, 2);
    read[479] = read[959] = 'C';
    claim_in(read, 960, 1, 480, 2), claim_in(read, 960, 1, 480, 1), claim_in(read, 960, 1, 960, 1), claim_in(read, 960, 2, 480, 1);
    claim_in(read, 960, 481, 480, 1), claim_in(read, 960, 481, 480, 2);
    memset(read, 'A', WIDE);
    claim_in(read, 1001, 1, 1, 1001), claim_in(read, 1001, 0, 1, 2), claim_in(read, 1001, 1, 0, 2), claim_in(read, 1001, 1, 2, 0);
    claim_in(read, 1001, UINT32_MAX, UINT32_MAX, UINT32_MAX);
}

static void find_in(const uint8_t *x, size_t n, const char *u, size_t m, size_t room)
{
    begin("find_primer", room);
    end(sorunggyeo_find_primer(x, n, (const uint8_t *)u, m, slice, room), room);
}

static void find_on(const char *x, const char *u, size_t room)
{
    find_in((const uint8_t *)x, strlen(x), u, strlen(u), room);
}

static void bytes(const uint8_t *a, size_t n)
{
    printf("slice");
    for (size_t i = 0; i < n; i++) printf(" %u", a[i]);
    printf("\n");
}

static void turn_in(const char *u, size_t m, size_t room)
{
    static uint8_t letters[61];
    memset(letters, 7, sizeof letters);
    printf("reverse_complement\n"), bytes(letters, room);
    answered(sorunggyeo_reverse_complement((const uint8_t *)u, m, letters, room));
    bytes(letters, room);
}

static void turn_on(const char *u, size_t room)
{
    turn_in(u, strlen(u), room);
}

static void primer_calls(void)
{
    const char *x = "ACGTACGT", *code = "ABCDGHKMNRSTVWY";
    static char primer[61], foreign[61];
    static uint8_t all[256];
    memset(primer, 'A', 61), memset(foreign, 'A', 61), foreign[59] = 'U';
    for (int b = 0; b < 256; b++) all[b] = (uint8_t)b;
    find_on(x, "AC", 3), find_on(x, "AC", 2), find_on(x, "AC", 1), find_on(x, "AC", 0), find_on(x, "RY", 4), find_on(x, "RY", 3), find_on(x, "GT", 2);
    find_on("AAAA", "AA", 3), find_on("AC", "AC", 1), find_on("AC", "ACG", 1), find_on("AC", "ACG", 0), find_on("", "A", 0), find_on("", "N", 2);
    for (int k = 0; k < 15; k++) find_in((const uint8_t *)code, 15, code + k, 1, 15);
    find_on("AUGT", "N", 4), find_on("acgtn", "N", 5), find_on("A C", "NNN", 1), find_on("A C", "N", 3);
    find_on("ANGT", "N", 4), find_on("ANGT", "A", 4), find_on("ANGT", "AB", 4), find_on("ANGT", "AN", 4);
    find_in((const uint8_t *)"A\0C", 3, "N", 1, 3), find_in((const uint8_t *)"A\0C", 3, "NNN", 3, 1), find_in(all, 256, "N", 1, 16), find_in(all, 256, "B", 1, 14);
    find_on("AAAA", "U", 0), find_on("AAAA", "aA", 1), find_on("AAAA", "Aa", 1), find_on("AAAA", "ANnU", 0), find_on("AAAA", "A A", 2);
    turn_on("U", 0), turn_on("ACn", 2), turn_on("A.CU", 4);
    const uint8_t *four = (const uint8_t *)"AAAA";
    find_on("AAAA", "", 4), find_on("AAAA", "", 0), find_on("", "", 0);
    find_in(four, 4, primer, 60, 1), find_in(four, 4, primer, 61, 1), find_in(four, 4, foreign, 60, 1), find_in(four, 4, foreign, 61, 0);
    turn_on("", 1), turn_on("", 0), turn_in(primer, 60, 60), turn_in(primer, 60, 59), turn_in(primer, 61, 61), turn_in(foreign, 60, 59), turn_in(foreign, 61, 0);
    memset(read, 'A', WIDE);
    find_in(read, 1000, "A", 1, 1000), find_in(read, 1000, "A", 1, 999), find_in(read, 1000, primer, 60, 941), find_in(read, 1000, primer, 60, 940), find_in(read, 1000, "C", 1, 0);
    find_in(read, 1001, "A", 1, 3), find_in(read, 1001, "", 0, 2), find_in(read, 1001, foreign, 61, 0);
    turn_on("ACN", 4), turn_on("ACN", 3), turn_on("ACN", 2), turn_on("ACN", 0), turn_on("A", 1), turn_on("ACGT", 4), turn_on(code, 15), turn_on("RWBASYNKMDCHGVT", 15);
}

static void score_in(const uint8_t *x, size_t n, const char *u, size_t a, const char *v, size_t b, const uint8_t *m, size_t p, uint8_t reference)
{
    printf("score\n");
    answered_both(sorunggyeo_score(x, n, (const uint8_t *)u, a, (const uint8_t *)v, b, m, p, reference));
}

static void score_on(const char *x, const char *u, const char *v, const char *m, uint8_t reference)
{
    score_in((const uint8_t *)x, strlen(x), u, strlen(u), v, strlen(v), (const uint8_t *)m, strlen(m), reference);
}

static const char *marked = "GTTACACACTGG";

/* primers of up to so many letters on that read, with the motif AC */
static void long_on(const char *u, size_t a, const char *v, size_t b)
{
    score_in((const uint8_t *)marked, strlen(marked), u, a, v, b, (const uint8_t *)"AC", 2, 3);
}

static void primers_on(const char *u, const char *v)
{
    long_on(u, strlen(u), v, strlen(v));
}

static void shown_in(const uint8_t *x, size_t n, const uint8_t *h, size_t count, uint32_t number, const char *u, const char *v, const char *m)
{
    sorunggyeo_shown_part s = sorunggyeo_shown(x, n, h, count, number, (const uint8_t *)u, strlen(u), (const uint8_t *)v, strlen(v), (const uint8_t *)m, strlen(m));
    printf("shown\npart %u %zu %zu\n", s.house, s.from, s.count);
    bytes((s.house ? h : x) + s.from, s.count);
}

static void shown_on(const char *x, const char *h, uint32_t number, const char *u, const char *v, const char *m)
{
    shown_in((const uint8_t *)x, strlen(x), (const uint8_t *)h, strlen(h), number, u, v, m);
}

static void house_on(const char *h, uint32_t number)
{
    shown_on(marked, h, number, "GTT", "TGG", "AC");
}

static void score_calls(void)
{
    const char *x = marked, *l = "GTT", *r = "TGG", *twice = "GTTACACGACACTGG", *thrice = "GTTACACGACACGACACTGG";
    score_on(x, l, r, "AC", 3), score_on(x, l, r, "AC", 2), score_on(x, l, r, "AC", 4), score_on(x, l, r, "AC", 0), score_on(x, l, r, "AC", 255), score_on(x, l, r, "CA", 255);
    score_on(x, l, r, "", 0), score_on(x, l, r, "ACAC", 0), score_on(x, l, r, "ACACAC", 3), score_on(x, l, r, "A", 0), score_on(x, l, r, "T", 0), score_on(x, l, r, "G", 0);
    score_on(x, l, r, "ac", 0), score_on(x, l, r, "AN", 0), score_on(x, l, r, "N", 0), score_on(x, l, r, "ACACACT", 0), score_on(x, l, r, x, 0), score_on(x, l, r, "GTTACACACTGGG", 0);
    score_on(x, "GT", "GG", "AC", 3), score_on(x, "GTTA", r, "AC", 3), score_on(x, l, "CTGG", "AC", 3), score_on(x, "GTTA", "CTGG", "AC", 3);
    score_on(x, "GTTA", "CTGG", "CA", 3), score_on(x, "GTTAC", "CTGG", "CA", 3), score_on(x, "GTTA", "ACTGG", "CA", 3);
    score_on("GGACACACTT", "GA", "CT", "CA", 3), score_on("GGACACACTT", "GA", "CT", "AC", 3), score_on("GGACACACACTT", "GA", "TT", "AC", 3), score_on("GGACACACACTT", "GA", "TT", "CA", 3);
    score_on("GTTACACACACTGG", l, r, "AC", 3), score_on("GTTAAAATGG", l, r, "A", 3);
    score_on(twice, l, r, "AC", 3), score_on(twice, "GTTA", r, "AC", 3), score_on(twice, l, "CTGG", "AC", 3), score_on(twice, "GTTA", "CTGG", "AC", 3), score_on(twice, l, r, "CA", 3);
    score_on(thrice, l, r, "AC", 3), score_on(thrice, l, r, "ACACG", 3), score_on("ACACGACACTACAC", "G", "T", "AC", 3);
    score_on("GTTACACACNCTGG", l, r, "AC", 3), score_on("GTTACACNACACTGG", l, r, "AC", 3), score_on("GTTACNACACTGG", l, r, "AC", 3), score_on("GTTANANANTGG", l, r, "AN", 3);
    score_on("GTTAnAnAnTGG", l, r, "An", 3), score_on("GTTARARARTGG", l, r, "AR", 3), score_on("GTNACACACTGG", l, r, "AC", 3), score_on("GTNACACACTGG", "GTN", r, "AC", 3);
}

static void seat_calls(void)
{
    static char longer[61], foreign[60];
    memset(longer, 'A', 61), memset(foreign, 'A', 60), foreign[59] = 'U';
    primers_on("KTT", "TSS"), primers_on("GNT", "YRG"), primers_on("N", "TGG"), primers_on("GTT", "VC");
    primers_on("", ""), long_on("", 0, longer, 61), long_on(longer, 61, "", 0), primers_on("U", ""), long_on("U", 1, longer, 61), long_on(longer, 61, "U", 1);
    primers_on("GTU", "U"), primers_on("U", "TGu"), long_on(foreign, 60, "U", 1), long_on("GTT", 3, foreign, 60), primers_on("AAA", "TGu"), long_on(longer, 60, "TGG", 3), long_on("GTT", 3, longer, 60);
    primers_on("AAA", "AAA"), primers_on("AAA", "AC"), primers_on("AAA", "TGG"), primers_on("AC", "AAA"), primers_on("GTT", "AAA");
    primers_on("AC", "CA"), primers_on("AC", "TGG"), primers_on("AC", "GTT"), primers_on("GTT", "AC"), primers_on("TGG", "AC");
    score_on("GAAAT", "AA", "T", "A", 0), score_on("", "A", "T", "A", 0), score_on("", "", "T", "", 0);
    primers_on("GTT", "GTT"), primers_on("TGG", "GTT"), primers_on("GTTACACACT", "TT"), primers_on("TT", "GTTA"), primers_on("GT", "GTT"), primers_on(marked, "TGG");
    primers_on("GTTACA", "ACACT"), primers_on("GTTAC", "ACACT"), primers_on("GTTACACAC", "TGG");
}

/* on so many bytes of the long read, with the front of a motif */
static void front_on(size_t n, const char *u, const char *v, const uint8_t *m, size_t p, uint8_t reference)
{
    score_in(read, n, u, strlen(u), v, strlen(v), m, p, reference);
}

static void limit_calls(void)
{
    static uint8_t half[499];
    const uint8_t *text = (const uint8_t *)"C\nA", *a = text + 2;
    memset(read, 'A', WIDE), memset(half, 'A', 498), half[498] = 'C';
    front_on(1000, "A", "C", a, 1, 0), front_on(1000, "A", "A", a, 1, 0);
    read[0] = 'G', read[999] = 'T';
    front_on(1000, "G", "T", a, 1, 255), shown_in(read, 1000, text, 3, 1, "G", "T", "A"), shown_in(read, 1000, text, 3, 0, "G", "T", "A");
    read[499] = read[998] = 'C';
    front_on(1000, "G", "T", half, 499, 0), front_on(1000, "G", "T", half, 498, 0);
    memset(read, 'A', WIDE);
    front_on(1001, "C", "A", a, 1, 0), front_on(1001, "U", "", a, 0, 255), shown_in(read, 1001, a, 1, 0, "C", "A", "A");
}

static void shown_calls(void)
{
    const char *x = marked, *l = "GTT", *r = "TGG";
    house_on("AC", 0), house_on("AC\n", 0), house_on("AC\nCA\nG", 0), house_on("CA\nAC", 1), house_on("CA\nAC\n", 1), house_on("CAC\nAC\nG", 1), house_on("\n\nAC", 2), house_on("\nAC\n\n", 1);
    house_on("AC\nAC", 0), house_on("AC\nAC", 1);
    house_on("CA\nAC", 0), house_on("AC\nCA", 1), house_on("CA\nAC", 2), house_on("CA\nAC\n", 2), house_on("CA\nAC\n", 3), house_on("AC", 1), house_on("AC", UINT32_MAX);
    house_on("\n\nAC", 0), house_on("\n\nAC", 1), house_on("", 0), house_on("", 1), house_on("", UINT32_MAX);
    house_on("ACA\nAC", 0), house_on("ACAC", 0), house_on("A\nC", 0), house_on("A\nC", 1), house_on("CA", 0), house_on("ac", 0), house_on("GAC", 0), house_on("GACT\nAC", 0), house_on("AC ", 0);
    house_on("AC\r\nCA", 0), house_on("CA\n\rAC", 1);
    shown_on("GTTA\nA\nA\nTGG", "A\nA\n", 0, l, r, "A\n"), shown_on("GTT\n\n\nTGG", "\n\n", 0, l, r, "\n"), shown_on("GTT\n\n\nTGG", "\n\n", 1, l, r, "\n");
    shown_on(x, "AC\nCA", 1, l, r, "CA"), shown_on(x, "AC\nCA", 0, l, r, "CA");
    shown_on(x, "AC", 0, "", r, "AC"), shown_on(x, "AC", 0, l, "TGu", "AC"), shown_on(x, "AC", 0, "AAA", r, "AC"), shown_on(x, "AC", 0, l, "AC", "AC"), shown_on(x, "AC", 0, r, l, "AC");
    shown_on(x, "ACAC", 0, l, r, "ACAC"), shown_on(x, "", 0, l, r, ""), shown_on("GTTACACGACACTGG", "AC", 0, l, r, "AC"), shown_on("", "A", 0, "A", "A", "A");
    static uint8_t text[2000];
    memset(text, '\n', 1998), text[1998] = 'A', text[1999] = 'C';
    for (int k = 0; k < 3; k++) shown_in((const uint8_t *)x, 12, text, 2000, k == 0 ? 1998 : k == 1 ? 1997 : 1999, l, r, "AC");
}

static void marker_calls(void)
{
    score_calls(), seat_calls(), limit_calls(), shown_calls();
}

/* a list of more lines than a u16 number can count: 70,000, of seven periods */
static void long_list(void)
{
    enum { MANY = 70000, EACH = 10000 };
    static uint16_t many[3 * MANY];
    for (size_t k = 0; k < MANY; k++) many[3 * k] = k % EACH + 1, many[3 * k + 1] = k / EACH + 1, many[3 * k + 2] = k % 777;
    sorunggyeo_answer a = one(sorunggyeo_index(many, 3 * MANY, wide, 28));
    expect(a.number == SORUNGGYEO_OK && a.value == 7, "an index of 70,000 lines");
    for (size_t p = 0; p < 7; p++)
        expect(wide[4 * p] == p + 1 && wide[4 * p + 1] == EACH * p && wide[4 * p + 2] == EACH && wide[4 * p + 3] == 776, "its entries");
    many[3 * (MANY - 1)] = 1;
    a = one(sorunggyeo_index(many, 3 * MANY, wide, 0));
    expect(a.number == SORUNGGYEO_OUT_OF_PLACE && a.value == MANY - 1, "its last line out of place");
    a = one(sorunggyeo_index(many, 3 * (MANY - 1) + 1, wide, 0));
    expect(a.number == SORUNGGYEO_OUT_OF_PLACE && a.value == MANY - 1, "its last line cut");
}

static void short_calls(void)
{
    const char *x = "ACAACACA", *y = "ACACACAC";
    uint16_t own[33] = {1, 1, 2, 1, 1, 3, 1, 1, 5, 1, 1, 7, 1, 2, 1, 1, 2, 4, 1, 2, 6, 2, 3, 2, 2, 8, 7, 3, 5, 4, 3, 7, 6};
    uint16_t foreign[9] = {1, 8, 1, 1, 8, 7, 3, 1, 1};
    list_on(x, 8, 0, 12), list_on(x, 8, 0, 11), list_on(x, 8, 1, 14), list_on(x, 8, 2, 11);
    list_on("AAAA", 4, 0, 9), list_on("AAAA", 4, 1, 9), list_on("ACACACA", 7, 1, 12), list_on("", 0, 0, 2);
    table_on(x, 8, 8, 9), table_on(x, 8, 0, 9), table_on(x, 8, 9, 9), table_on(x, 8, UINT32_MAX, 2);
    table_on(x, 8, 3, 8), table_on(x, 8, 3, 7), table_on("", 0, 1, 2);
    log_on(x, 8, 85), log_on(x, 8, 83), log_on("AAAA", 4, 27), log_on("ACGT", 4, 28), log_on("A", 1, 2), log_on("", 0, 1);
    replay_on(x, own, 33, 1, 9), replay_on(x, own, 33, 3, 8), replay_on(x, own, 33, 4, 8), replay_on(x, own, 33, 5, 8);
    replay_on(x, own, 33, 0, 8), replay_on(x, own, 32, 4, 8);
    own[5] = 2;
    replay_on(x, own, 33, 1, 8), replay_on(x, own, 33, 1, 7), replay_on(x, own, 33, 5, 7);
    own[5] = 3;
    replay_on("AAAAAAAA", foreign, 9, 3, 8), replay_on("AAAAAAAA", foreign, 9, 4, 8);
    claim_on(y, 1, 2, 4), claim_on(y, 1, 4, 2), claim_on(y, 1, 2, 3), claim_on(y, 2, 2, 3), claim_on(y, 2, 2, 4);
    claim_on(y, UINT32_MAX, UINT32_MAX, UINT32_MAX), claim_on("AA", 1, 1, UINT32_MAX), claim_on("", 0, 0, 0);
    size_t at = 0;
    for (int call = 0; call < 12; call++) {
        sorunggyeo_move m = sorunggyeo_next(own, 32, at);
        if (m.found) printf("move %u %u %u\n", m.width, m.name, m.position);
        else printf("ended\n");
        at = m.at;
    }
}

static void long_calls(void)
{
    uint16_t nine = 9;
    memset(read, 'A', WIDE);
    answered(sorunggyeo_list(read, 1000, 0, slice, 30000));
    answered(sorunggyeo_list(read, 1000, 1, slice, 3));
    answered(sorunggyeo_list(read, 1001, 2, slice, 1));
    answered(sorunggyeo_log(read, 1000, slice, 29970));
    answered(sorunggyeo_log(read, 1000, slice, 29969));
    answered(sorunggyeo_log(read, 1001, slice, 1));
    answered(sorunggyeo_group_table(read, 1000, 1000, slice, 1000));
    answered(sorunggyeo_group_table(read, 1001, 0, slice, 1));
    answered(sorunggyeo_replay(read, 1001, &nine, 1, 0, slice, 1));
}

static void byte_calls(void)
{
    static char all[256];
    for (int b = 0; b < 256; b++) all[b] = (char)b;
    list_on(all, 256, 0, 3), table_on(all, 256, 1, 257), log_on(all, 256, 6885);
}

/* an empty slice may be null, as that of an empty vector of C++ is */
static void null_calls(void)
{
    const uint8_t *aaaa = (const uint8_t *)"AAAA";
    uint16_t names[4] = {7, 7, 7, 7};
    same(sorunggyeo_list(NULL, 0, 0, NULL, 0), 0, 0), same(sorunggyeo_list(NULL, 0, 2, NULL, 0), 2, 2);
    same(sorunggyeo_list(aaaa, 4, 0, NULL, 0), 3, 3), same(sorunggyeo_list(NULL, 0, 0, names, 4), 0, 0);
    same(sorunggyeo_runs(NULL, 0, NULL, 0), 0, 0), same(sorunggyeo_runs(aaaa, 4, NULL, 0), 3, 1), same(sorunggyeo_runs(NULL, 0, names, 4), 0, 0);
    same(sorunggyeo_group_table(NULL, 0, 1, NULL, 0), 2, 1), same(sorunggyeo_group_table(aaaa, 4, 1, NULL, 0), 4, 4);
    same(sorunggyeo_log(NULL, 0, NULL, 0), 0, 0), same(sorunggyeo_log(aaaa, 1, NULL, 0), 0, 0), same(sorunggyeo_log(aaaa, 4, NULL, 0), 4, 27);
    same(sorunggyeo_replay(NULL, 0, NULL, 0, 1, NULL, 0), 2, 1), same(sorunggyeo_replay(aaaa, 4, NULL, 0, 1, NULL, 0), 4, 4);
    expect(names[0] == 7 && names[3] == 7, "an empty list leaves the slice as it was");
    same(sorunggyeo_replay(aaaa, 4, NULL, 0, 2, names, 4), 0, 4);
    expect(names[0] == 1 && names[3] == 1, "nothing moves by an empty log");
    sorunggyeo_answer both = sorunggyeo_list_index(aaaa, 4, 0, slice, 9, NULL, 0);
    expect(both.number == SORUNGGYEO_INDEX_FULL && both.value == 1 && both.more == 0, "an index without room");
    both = sorunggyeo_list_index(NULL, 0, 0, NULL, 0, NULL, 0);
    expect(both.number == SORUNGGYEO_OK && both.value == 0 && both.more == 0, "list and index of an empty read");
}

/* the same for the calls that take little stack: apart, so that the frame above those that take much stays small */
static void null_others(void)
{
    const uint8_t *aaaa = (const uint8_t *)"AAAA";
    const uint16_t line[3] = {1, 1, 4};
    same(sorunggyeo_find_primer(NULL, 0, NULL, 0, NULL, 0), 8, 0), same(sorunggyeo_find_primer(NULL, 0, aaaa, 4, NULL, 0), 0, 0), same(sorunggyeo_find_primer(aaaa, 4, aaaa, 4, NULL, 0), 3, 1);
    same(sorunggyeo_reverse_complement(NULL, 0, NULL, 0), 8, 0), same(sorunggyeo_reverse_complement(aaaa, 4, NULL, 0), 4, 4);
    same(sorunggyeo_score(NULL, 0, NULL, 0, NULL, 0, NULL, 0, 0), 8, 0), same(sorunggyeo_score(NULL, 0, aaaa, 1, aaaa, 1, NULL, 0, 0), 10, 1);
    same(sorunggyeo_score((const uint8_t *)"GAAT", 4, (const uint8_t *)"G", 1, (const uint8_t *)"T", 1, NULL, 0, 0), 13, 0);
    sorunggyeo_shown_part s = sorunggyeo_shown(NULL, 0, NULL, 0, 0, NULL, 0, NULL, 0, NULL, 0);
    expect(!s.house && !s.from && !s.count, "an empty read shows nothing");
    s = sorunggyeo_shown((const uint8_t *)"GAAT", 4, NULL, 0, 0, (const uint8_t *)"G", 1, (const uint8_t *)"T", 1, aaaa, 1);
    expect(!s.house && s.from == 1 && s.count == 1, "no house list has the marker");
    same(sorunggyeo_claim(NULL, 0, 0, 0, 0), 0, SORUNGGYEO_CLAIM_OUTSIDE), same(sorunggyeo_claim(NULL, 0, 1, 1, 2), 0, SORUNGGYEO_CLAIM_OUTSIDE);
    sorunggyeo_part u = sorunggyeo_motif(NULL, 0, 1, 1, 2);
    expect(u.from == 0 && u.count == 0, "an empty read has no motif");
    sorunggyeo_move m = sorunggyeo_next(NULL, 0, 5);
    expect(!m.found && m.at == 5, "an empty log has ended");
    same(sorunggyeo_index(NULL, 0, NULL, 0), 0, 0), same(sorunggyeo_index(line, 3, NULL, 0), 7, 1), same(sorunggyeo_index(NULL, 0, wide, 4), 0, 0);
    expect(!sorunggyeo_lookup(NULL, 0, 0).found, "an empty index has no entry");
}

static int run(int argc, char **argv)
{
    const char *what = argc > 1 ? argv[1] : "";
    size_t n;
    if (!strcmp(what, "lists")) {
        while (next_read(&n)) print_list(n, 0);
    } else if (!strcmp(what, "leading")) {
        while (next_read(&n)) print_list(n, 1);
    } else if (!strcmp(what, "runs")) {
        while (next_read(&n)) print_runs(n);
    } else if (!strcmp(what, "claims")) {
        while (next_read(&n)) print_claims(n);
    } else if (!strcmp(what, "two_letters")) {
        for (n = 0; n <= 12; n++) two_letters(n);
    } else if (!strcmp(what, "logs")) {
        while (next_read(&n)) print_log(n);
    } else if (!strcmp(what, "indexes")) {
        while (next_read(&n)) print_index(n);
    } else if (!strcmp(what, "tables") && argc > 2) {
        FILE *stored = fopen(argv[2], "r");
        if (!stored) return 1;
        print_tables(stored);
    } else if (!strcmp(what, "primers") && argc > 2) {
        FILE *stored = fopen(argv[2], "r");
        if (!stored) return 1;
        print_primers(stored);
    } else if (!strcmp(what, "markers") && argc > 2) {
        FILE *stored = fopen(argv[2], "r");
        if (!stored) return 1;
        print_markers(stored);
    } else if (!strcmp(what, "calls")) {
        short_calls(), long_calls(), byte_calls(), index_calls(), unread_calls(), runs_calls(), claim_calls(), primer_calls(), marker_calls(), null_calls(), null_others(), long_list();
    } else {
        return 1;
    }
    return 0;
}

enum { WORKER = 32 * 1024 };
struct job { int argc; char **argv; int status; };

static void *work(void *given)
{
    struct job *job = given;
    job->status = run(job->argc, job->argv);
    return NULL;
}

int main(int argc, char **argv)
{
    struct job job = {argc, argv, 1};
    pthread_attr_t attr;
    pthread_t thread;
    if (pthread_attr_init(&attr) || pthread_attr_setstacksize(&attr, WORKER) || pthread_create(&thread, &attr, work, &job)) return 1;
    pthread_join(thread, NULL);
    return job.status;
}

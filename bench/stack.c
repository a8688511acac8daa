/* How much stack each call takes: below the caller's frame the stack is filled with one byte, and what the call changed is counted. */
#include "../c/sorunggyeo.h"
#include <pthread.h>
#include <stdio.h>
#include <string.h>

enum { ROOM = 1 << 20, FILL = 0xa5, NEAR = 256 };
static uint8_t stack[ROOM] __attribute__((aligned(4096)));
static uint8_t read[SORUNGGYEO_MOST], marked[SORUNGGYEO_MOST]; /* the second has primers G and T at its ends, and AC between them */
static uint16_t out[30000], log_[SORUNGGYEO_LOG_MOST];
static uint8_t turned[SORUNGGYEO_PRIMER_MOST];
static uint64_t beside[4 * SORUNGGYEO_PERIODS];
static size_t moves;

static void list(void) { sorunggyeo_list(read, sizeof read, 0, out, 30000); }
static void runs(void) { sorunggyeo_runs(read, sizeof read, out, 30000); }
static void list_index(void) { sorunggyeo_list_index(read, sizeof read, 0, out, 30000, beside, 4 * SORUNGGYEO_PERIODS); }
static void counted_first(void) { sorunggyeo_list_index(read, sizeof read, 0, out, 30000, beside, 8); }
static void index_(void) { sorunggyeo_index(out, 6, beside, 4 * SORUNGGYEO_PERIODS); }
static void lookup(void) { sorunggyeo_lookup(beside, 8, 3); }
static void group_table(void) { sorunggyeo_group_table(read, sizeof read, 500, out, 1000); }
static void make_log(void) { moves = sorunggyeo_log(read, sizeof read, log_, SORUNGGYEO_LOG_MOST).value; }
static void replay(void) { sorunggyeo_replay(read, sizeof read, log_, 3 * moves, 500, out, 1000); }
static void claim(void) { sorunggyeo_claim(read, sizeof read, 1, 2, 250); }
static void motif(void) { sorunggyeo_motif(read, sizeof read, 1, 2, 250); }
static void find(void) { sorunggyeo_find_primer(read, sizeof read, read, SORUNGGYEO_PRIMER_MOST, out, 1000); }
static void turn(void) { sorunggyeo_reverse_complement(read, SORUNGGYEO_PRIMER_MOST, turned, SORUNGGYEO_PRIMER_MOST); }
static void score(void) { sorunggyeo_score(marked, sizeof marked, marked, 1, marked + sizeof marked - 1, 1, marked + 1, 2, 5); }
static void shown(void) { sorunggyeo_shown(marked, sizeof marked, read, 0, 0, marked, 1, marked + sizeof marked - 1, 1, marked + 1, 2); }
static void next(void) { sorunggyeo_next(log_, 3 * moves, 0); }

static const struct { const char *name; void (*call)(void); } calls[] = {
    {"list", list}, {"runs", runs}, {"list_index", list_index}, {"list_index, counted first", counted_first}, {"index", index_}, {"lookup", lookup},
    {"group_table", group_table}, {"log", make_log}, {"replay", replay}, {"claim", claim}, {"motif", motif}, {"find_primer", find}, {"reverse_complement", turn},
    {"score", score}, {"shown", shown}, {"next", next}};

/* what a call leaves alone within NEAR bytes of the caller's frame is not seen */
static void *measure(void *unused)
{
    uint8_t here;
    size_t frame = &here - stack;
    for (size_t k = 0; k < sizeof calls / sizeof *calls; k++) {
        size_t low = 0;
        memset(stack, FILL, frame - NEAR);
        calls[k].call();
        while (stack[low] == FILL && low < frame - NEAR) low++;
        printf("%s %zu\n", calls[k].name, frame - low);
    }
    return unused;
}

int main(void)
{
    pthread_attr_t attr;
    pthread_t thread;
    for (size_t i = 0; i < sizeof read; i++) read[i] = "ACCA"[i % 2 + (i < 500 ? 0 : 2)];
    for (size_t i = 0; i < sizeof marked; i++) marked[i] = i == 0 ? 'G' : i + 1 == sizeof marked ? 'T' : "CA"[i % 2];
    pthread_attr_init(&attr);
    pthread_attr_setstack(&attr, stack, ROOM);
    pthread_create(&thread, &attr, measure, NULL);
    pthread_join(thread, NULL);
    return 0;
}

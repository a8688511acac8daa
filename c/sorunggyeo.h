/* Sorunggyeo for C: the public calls of documents 01 and 02, proved (crates/sorunggyeo). docs/C.md is the guide.

   Positions in a read count from 1; places of lines, entries and bytes count from 0. A read is any bytes; bytes are compared as bytes, but for a
   capital N, a base that could not be read: it equals nothing but itself at its own position. A call answers every input, checks its refusals
   in the order of their numbers, but where it says another, and touches nothing but the slices that it writes. It holds nothing from call to call, so any number of threads
   may call. A pointer with a count of 0 is never followed, and may be null. */
#ifndef SORUNGGYEO_H
#define SORUNGGYEO_H

#include <stddef.h>
#include <stdint.h>

/* Raised by one whenever a struct, a call's arguments, the meaning of a number or the answer to the same input changes. A program that tests it (#if)
   when it is compiled tells this header from one that it was not written for. Version 1 is the header before this number, whose answers had one value;
   in version 2 N was a letter like any other; in version 3 a claim was answered 1 for yes and 0 for no. */
#define SORUNGGYEO_VERSION 4

#ifdef __cplusplus
extern "C" {
#endif

enum {
    SORUNGGYEO_MOST = 1000,       /* the most bytes that a read may have */
    SORUNGGYEO_LINE = 3,          /* a line of a list: start, period, copies */
    SORUNGGYEO_RUN = 3,           /* a run: start, end, period */
    SORUNGGYEO_MOVE = 3,          /* a move of a log: width, name, position */
    SORUNGGYEO_ENTRY = 4,         /* an entry of a period index: period, place of its first line, number of lines, largest copy count */
    SORUNGGYEO_PERIODS = 500,     /* room that does for the entries of any read's list: top(1000) */
    SORUNGGYEO_LOG_MOST = 29970,  /* room that does for the log of any read: 3·M(1000) */
    SORUNGGYEO_PRIMER_MOST = 60   /* the most letters that a primer may have */
};

enum {
    SORUNGGYEO_OK = 0,
    SORUNGGYEO_TOO_LONG = 1,      /* the read has more than 1,000 bytes; the value is its length; nothing is changed */
    SORUNGGYEO_BAD_NUMBER = 2,    /* the mode or width is none; the value is that number; nothing is changed */
    SORUNGGYEO_LIST_FULL = 3,     /* the list has room for fewer lines, runs or places than there are; the value is how many there are; the whole list is 0 */
    SORUNGGYEO_TOO_SHORT = 4,     /* the log or table, or the room for letters, is too short; the value is the numbers or letters needed; nothing is changed */
    SORUNGGYEO_BAD_ENTRY = 5,     /* the log is ill-formed; the value is the index of its first bad entry; nothing is changed */
    SORUNGGYEO_OUT_OF_PLACE = 6,  /* the list handed in is not strictly in order, or is cut; the value is the first line out of place; nothing is changed */
    SORUNGGYEO_INDEX_FULL = 7,    /* the index has room for fewer entries than there are; the value is the entries; nothing is changed, the list neither */
    SORUNGGYEO_BAD_LENGTH = 8,    /* the primer has no letter, or more than 60; the value is its length; nothing is changed */
    SORUNGGYEO_FOREIGN = 9,       /* the primer has a byte that is no letter of the code; the value is the index of the first, from 0; nothing is changed */
    SORUNGGYEO_MISSING = 10,      /* a primer sits nowhere in the read; the value is 1 for the left one, else 2 */
    SORUNGGYEO_MORE_THAN_ONCE = 11, /* a primer sits more than once; the value is 1 for the left one, else 2 */
    SORUNGGYEO_OUT_OF_ORDER = 12, /* the right primer does not start behind the left one's end: they are out of order, or overlap; the value is 0 */
    SORUNGGYEO_NO_REPEAT = 13,    /* no leading repeat has the motif and lies wholly between the primers; the value is 0 */
    SORUNGGYEO_SEVERAL = 14       /* more than one does; the value is 0 */
};

/* what a claim is told: the value of sorunggyeo_claim where it is not refused. There is no 0: a program that took 0 for no must be written anew */
enum {
    SORUNGGYEO_CLAIM_YES = 1,     /* it is a repeat */
    SORUNGGYEO_CLAIM_COPIES = 2,  /* no: `more` is how often the motif stands there in a row, 1 or more; a claim of one copy is never a repeat */
    SORUNGGYEO_CLAIM_SHORTER = 3, /* no: the motif is a shorter one repeated; `more` is the length of its primitive root */
    SORUNGGYEO_CLAIM_OUTSIDE = 4  /* no: a 0 among the three, or a last byte beyond the read */
};

/* 0 for success or the number of a refusal, and what is returned with it */
typedef struct {
    uint32_t number;
    uint64_t value;
    uint64_t more; /* a second value, of sorunggyeo_list_index, of sorunggyeo_claim and, signed, of sorunggyeo_score; 0 where there is none */
} sorunggyeo_answer;

/* a part of a read: `count` bytes from read + from on */
typedef struct {
    size_t from;
    size_t count;
} sorunggyeo_part;

/* a part of the house list where `house` is 1, of the read where it is 0: `count` bytes from house + from or read + from on; all 0 of a read not scored */
typedef struct {
    uint32_t house;
    size_t from;
    size_t count;
} sorunggyeo_shown_part;

/* an entry of a log where found is 1, all 0 where it is 0; `at` is the place to go on from */
typedef struct {
    size_t at;
    uint16_t found;
    uint16_t width;
    uint16_t name;
    uint16_t position;
} sorunggyeo_move;

/* an entry of a period index where found is 1, all 0 where it is 0: its place in the index, the place of the period's first line, the number of its
   lines, its largest copy count */
typedef struct {
    uint64_t found;
    uint64_t place;
    uint64_t first;
    uint64_t lines;
    uint64_t largest;
} sorunggyeo_entry;

/* The list of the read's repeats to the front of `list`, all (mode 0) or only the leading ones (mode 1), by period, then start. The value
   is the number of lines. Refuses by 1, 2, 3. */
sorunggyeo_answer sorunggyeo_list(const uint8_t *read, size_t n, uint32_t mode, uint16_t *list, size_t room);

/* The runs of the read to the front of `runs`, by period, then start: each stretch at least two of its least periods long that cannot be stretched by a base on
   either side with the same period. A run ends with its last base, partial copy and all. The value is the number of runs. Refuses by 1, 3. The list of mode 0 is what
   the runs give, in this order: at each position i of a run, the copies are (end + 1 - i) / period, and it is a line as long as they are 2 or more. */
sorunggyeo_answer sorunggyeo_runs(const uint8_t *read, size_t n, uint16_t *runs, size_t room);

/* The name of each position's group at a width of 1 to n, its least position, to the front of `table`. The value is n. Refuses by 1, 2, 4. */
sorunggyeo_answer sorunggyeo_group_table(const uint8_t *read, size_t n, uint32_t width, uint16_t *table, size_t room);

/* All moves of the read, by width, then name, then position, to the front of `log`, which has room for 3·M(n) numbers. The value is the
   number of moves. Refuses by 1, 4. */
sorunggyeo_answer sorunggyeo_log(const uint8_t *read, size_t n, uint16_t *log, size_t room);

/* The groups at a width of 1 to top, by the width 1 groups of the read and the moves of the log alone, to the front of `table`. The value is
   n. The log need not be the read's own, and the whole log is judged. Refuses by 1, 2, 4, 5. */
sorunggyeo_answer sorunggyeo_replay(const uint8_t *read, size_t n, const uint16_t *log, size_t numbers, uint32_t width,
                                    uint16_t *table, size_t room);

/* Is (start, period, copies) a repeat of the read? The value is the verdict, SORUNGGYEO_CLAIM_.., and `more` the number told with it; judged outside, then shorter, then
   by the count. Refuses by 1. */
sorunggyeo_answer sorunggyeo_claim(const uint8_t *read, size_t n, uint32_t start, uint32_t period, uint32_t copies);

/* The motif of a true claim as that part of the read; the root from the claimed start on where the verdict is SORUNGGYEO_CLAIM_SHORTER; the empty part at the read's front
   for any other claim, or a read over the limit. */
sorunggyeo_part sorunggyeo_motif(const uint8_t *read, size_t n, uint32_t start, uint32_t period, uint32_t copies);

/* All positions at which the primer sits in the read, ascending, one number each, to the front of `places`. Both use the fifteen capital IUPAC letters without U, each a set of
   bases: the primer sits where the set of each read letter lies inside that of the primer's letter. So N in a read sits under N alone, and any other byte of a read, small letters
   too, under nothing. A primer longer than the read sits nowhere. The value is the number of places. Refuses by 1, 8, 9, 3, in this order. */
sorunggyeo_answer sorunggyeo_find_primer(const uint8_t *read, size_t n, const uint8_t *primer, size_t m, uint16_t *places, size_t room);

/* The reverse complement of the primer to the front of `letters`, which must not be the primer itself; taken twice it gives the primer back. The value is the number of letters.
   Refuses by 8, 9, 4, in this order. */
sorunggyeo_answer sorunggyeo_reverse_complement(const uint8_t *primer, size_t m, uint8_t *letters, size_t room);

/* The score of the read by a marker of a left and a right primer, a motif and a reference count, any byte: each primer sits exactly once, left before right without overlap, and
   exactly one leading repeat of the whole read has that motif and lies wholly between them. The value is its copies, and `more` how many more than the reference they are, signed:
   (int64_t)a.more. The motif is any bytes; no repeat has one that is empty, holds an N, or is a shorter one repeated. Refuses by 1, 8, 9, 10, 11, 12, 13, 14; 8 to 11 each for the left
   primer first. */
sorunggyeo_answer sorunggyeo_score(const uint8_t *read, size_t n, const uint8_t *left, size_t left_letters, const uint8_t *right, size_t right_letters,
                                   const uint8_t *motif, size_t period, uint8_t reference);

/* The motif shown for a marker of this number: the line of the house list if that line is the motif, otherwise the first copy of the repeat that is scored; of a read not scored the
   empty part at its front. The house list is `bytes` bytes of text, one motif a line, split at newlines alone, lines counted from 0. */
sorunggyeo_shown_part sorunggyeo_shown(const uint8_t *read, size_t n, const uint8_t *house, size_t bytes, uint32_t number, const uint8_t *left, size_t left_letters,
                                       const uint8_t *right, size_t right_letters, const uint8_t *motif, size_t period);

/* The next whole entry of a log as it stands, and the place one further; or that the log has ended, and the place kept. */
sorunggyeo_move sorunggyeo_next(const uint16_t *log, size_t numbers, size_t at);

/* The list as sorunggyeo_list makes it, and beside it the period index of that list to the front of `index`: an entry for each period that occurs, ascending.
   The value is the number of lines, `more` the number of entries. Refuses by 1, 2, 3, 7; by 3 the index is as it was, by 7 both are. */
sorunggyeo_answer sorunggyeo_list_index(const uint8_t *read, size_t n, uint32_t mode, uint16_t *list, size_t room, uint64_t *index,
                                        size_t index_room);

/* The period index of a list alone, all of whose numbers are the list, to the front of `index`. The value is the number of entries. Only the order of the
   lines is judged, and whether the last one is cut. Refuses by 6, 7. */
sorunggyeo_answer sorunggyeo_index(const uint16_t *list, size_t numbers, uint64_t *index, size_t index_room);

/* The first entry of a period in an index, or in any numbers. */
sorunggyeo_entry sorunggyeo_lookup(const uint64_t *index, size_t numbers, uint64_t period);

#ifdef __cplusplus
}
#endif

#endif

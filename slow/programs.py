# What each program of crates/ is given on standard input, and what it must write.

import re
from itertools import groupby
from reads import Dice, DNA, every, few_unread, fibonacci, known, partial
from rules import (LIMIT, LINES, agree, answer_claim, answer_find, answer_group_table, answer_index, answer_list, answer_list_index, answer_log, answer_replay, answer_runs,
                   answer_score, answer_turn, entries, flat, groups_of, lines_of_groups, log, lookup, motif, moves, printed, replay, repeats, runs, shown_part, small, table, top)

def text(reads):
    return b"".join(x + b"\n" for x in reads)

def walk_widths(x):
    lines = ["read %d\n" % len(x)]
    for w in range(1, len(x) + 1):
        count = len(moves(x, w)) if w < len(x) else 0  # at width n the step counts 0
        for word, numbers in [("table", table(x, w)), ("small", small(x, w)), ("moves", [count])]:
            lines.append(" ".join(map(str, [w, word] + numbers)) + "\n")
    return "".join(lines).encode()

def words(first, numbers):
    return " ".join(map(str, [first] + numbers)) + "\n"

def sevens(name, call, n):
    # one call on a slice of sevens: the slice before, the answer, the slice after
    before = [7] * n
    number, value, after = call(before)
    return name + "\n" + words("slice", before) + words("answer", [number, value]) + words("slice", after)

def claimed(x, i, p, e):
    number, values = answer_claim(x, i, p, e)
    start, count = motif(x, i, p, e)
    return "claim\n" + words("answer", [number, *values]) + x[start:start + count].decode() + "\n"

def short_calls():
    x, top32 = b"ACAACACA", 2 ** 32 - 1
    own = flat(log(x))
    twice = own[:5] + [2] + own[6:]
    foreign = [1, 8, 1, 1, 8, 7, 3, 1, 1]
    for read, mode, n in [(x, 0, 12), (x, 0, 11), (x, 1, 14), (x, 2, 11), (b"AAAA", 0, 9), (b"AAAA", 1, 9), (b"ACACACA", 1, 12), (b"", 0, 2)]:
        yield sevens("list", lambda out: answer_list(read, mode, out), n)
    for read, w, n in [(x, 8, 9), (x, 0, 9), (x, 9, 9), (x, top32, 2), (x, 3, 8), (x, 3, 7), (b"", 1, 2)]:
        yield sevens("table", lambda out: answer_group_table(read, w, out), n)
    for read, n in [(x, 85), (x, 83), (b"AAAA", 27), (b"ACGT", 28), (b"A", 2), (b"", 1)]:
        yield sevens("log", lambda out: answer_log(read, out), n)
    for read, l, w, n in [(x, own, 1, 9), (x, own, 3, 8), (x, own, 4, 8), (x, own, 5, 8), (x, own, 0, 8), (x, own[:32], 4, 8),
                          (x, twice, 1, 8), (x, twice, 1, 7), (x, twice, 5, 7), (b"A" * 8, foreign, 3, 8), (b"A" * 8, foreign, 4, 8)]:
        yield sevens("replay", lambda out: answer_replay(read, l, w, out), n)
    y = b"ACACACAC"
    for claim_of in [(y, 1, 2, 4), (y, 1, 4, 2), (y, 1, 2, 3), (y, 2, 2, 3), (y, 2, 2, 4), (y, top32, top32, top32), (b"AA", 1, 1, top32), (b"", 0, 0, 0)]:
        yield claimed(*claim_of)
    walked = [words("move", list(move)) for move in entries(own[:32])]
    yield "".join(walked + ["ended\n"] * (12 - len(walked)))

def long_calls():
    x, over = b"A" * 1000, b"A" * 1001
    calls = [answer_list(x, 0, [7] * 30000), answer_list(x, 1, [7] * 3), answer_list(over, 2, [7]),
             answer_log(x, [7] * 29970), answer_log(x, [7] * 29969), answer_log(over, [7]),
             answer_group_table(x, 1000, [7] * 1000), answer_group_table(over, 0, [7]),
             answer_replay(over, [9], 0, [7])]
    for number, value, _ in calls:
        yield words("answer", [number, value])

def byte_calls():
    x = bytes(range(256))
    yield sevens("list", lambda out: answer_list(x, 0, out), 3)
    yield sevens("table", lambda out: answer_group_table(x, 1, out), 257)
    yield sevens("log", lambda out: answer_log(x, out), 6885)

def both_sevens(x, mode, n, m):
    # the same for the call that is lent two slices
    before, beside = [7] * n, [7] * m
    number, values, after, index = answer_list_index(x, mode, before, beside)
    slices = [words("slice", numbers) for numbers in (before, beside, after, index)]
    return "list_index\n" + slices[0] + slices[1] + words("answer", [number, *values]) + slices[2] + slices[3]

def looked(numbers, period):
    found = lookup(numbers, period)
    return "lookup\n" + (words("entry", list(found)) if found else "none\n")

R5 = [3, 1, 2, 4, 2, 2, 5, 2, 2, 1, 3, 2]

def index_calls():
    # document 02, item 1
    x, top64 = b"ACAACACA", 2 ** 64 - 1
    for read, mode, n, m in [(x, 0, 12, 16), (x, 0, 13, 15), (x, 0, 12, 12), (x, 0, 12, 11), (x, 0, 11, 16), (x, 0, 11, 11), (x, 2, 11, 3),
                             (b"AAAA", 0, 9, 8), (b"AAAA", 0, 9, 4), (b"AAAA", 0, 9, 3), (b"AAAA", 1, 4, 4), (b"", 0, 0, 0), (b"", 1, 2, 3),
                             (b"ACACNACAC", 0, 6, 4), (b"ACACNACAC", 0, 6, 3), (b"NNNN", 0, 0, 0), (b"nnnn", 0, 9, 4)]:
        yield both_sevens(read, mode, n, m)
    for l, m in [(R5, 13), (R5, 12), (R5, 11), (R5, 0), ([], 0), ([], 3), (R5[:1], 4), (R5[:2], 4), (R5[:10], 16), (R5[:11], 0),
                 ([3, 1, 2, 3, 1, 2], 8), ([1, 2, 2, 5, 1, 2], 8), ([5, 2, 2, 4, 2, 2], 0), ([1, 2, 2, 5, 1, 2, 4], 8),
                 ([1, 0, 0, 9, 0, 65535, 1, 65535, 0], 8)]:
        yield sevens("index", lambda beside: answer_index(l, beside), m)
    own = [1, 0, 1, 2, 2, 1, 2, 2, 3, 3, 1, 2]
    for numbers, period in [(own, 1), (own, 2), (own, 3), (own, 4), (own, 0), (own[:11], 3), (own[:3], 1), ([], 0),
                            ([2, 5, 6, 7, 2, 8, 9, 9, 3], 2), ([2, 5, 6, 7, 2, 8, 9, 9, 3], 3), ([top64, 1, 2, top64], top64)]:
        yield looked(numbers, period)
    within, over = b"A" * 1000, b"A" * 1001
    for given in [(within, 0, [7] * 2997, [7] * 2000), (within, 0, [7] * 2997, [7] * 4), (within, 1, [7] * 2, [7] * 4), (over, 2, [7], [7])]:
        number, values, _, _ = answer_list_index(*given)
        yield words("answer", [number, *values])

def unread_calls():
    # document 02, item 2
    x, foreign, top32 = b"ACACNACAC", [1, 8, 1, 1, 8, 7, 3, 1, 1], 2 ** 32 - 1
    for read, mode, n in [(b"NNNN", 0, 0), (b"NNNN", 1, 2), (x, 0, 7), (x, 0, 5), (x, 1, 6), (b"nnnn", 0, 8)]:
        yield sevens("list", lambda out: answer_list(read, mode, out), n)
    for read, w, n in [(x, 2, 10), (b"NNNN", 1, 3)]:
        yield sevens("table", lambda out: answer_group_table(read, w, out), n)
    for n in (28, 26):
        yield sevens("log", lambda out: answer_log(b"NNNN", out), n)
    own = flat(log(b"NNNN"))
    for read, l, w, n in [(b"NNNN", own, 1, 4), (b"NNNN", own, 2, 5), (b"NNNN", own, 3, 4), (b"nnnn", own, 2, 4), (b"NNNN", [], 2, 4), (b"nnnn", [], 2, 4),
                          (b"ANANANAN", foreign, 1, 8), (b"ANANANAN", foreign, 3, 8), (b"ANANANAN", foreign, 4, 8), (b"NNNNNNNN", foreign, 4, 8)]:
        yield sevens("replay", lambda out: answer_replay(read, l, w, out), n)
    for claim_of in [(x, 1, 2, 2), (x, 6, 2, 2), (x, 1, 2, 4), (x, 1, 5, 2), (x, 5, 1, 1), (b"NN", 1, 1, 2), (b"nn", 1, 1, 2), (b"N", 1, 1, 1), (b"ACNACN", 1, 3, 2),
                     (b"ACnACn", 1, 3, 2), (b"ANAN", 1, 2, 2), (b"NANA", 1, 2, 2), (b"ACNACA", 1, 3, 2), (b"NNNN", 1, 1, top32)]:
        yield claimed(*claim_of)

def runs_calls():
    # document 02, item 3
    for read, n in [(b"ACACACA", 4), (b"ACACACA", 3), (b"ACACACA", 2), (b"ACACACA", 0), (b"AACAACCACC", 18), (b"AACAACCACC", 17), (b"AAAA", 5), (b"NNNN", 0), (b"", 2),
                    (b"A" * 1000, 3), (b"A" * 1000, 2), (b"A" * 1001, 4), (b"A" * 1001, 2)]:
        yield sevens("runs", lambda out: answer_runs(read, out), n)

def claim_calls():
    # document 02, item 4
    acac, y, unread, top32 = b"ACAC", b"ACACACAC", b"ACNACA", 2 ** 32 - 1
    for claim_of in [(1, 2, 2), (1, 4, 1), (1, 2, 1), (1, 2, 3), (3, 1, 2), (4, 1, 1), (4, 1, 2), (5, 1, 1), (0, 2, 2), (1, 0, 2), (1, 2, 0), (1, 4, 2)]:
        yield claimed(acac, *claim_of)
    for claim_of in [(1, 4, 2), (1, 8, 1), (2, 4, 1), (2, 6, 1), (3, 2, 3), (3, 2, 2), (3, 2, 1), (5, 4, 2)]:
        yield claimed(y, *claim_of)
    for claim_of in [(b"ACACAC", 1, 4, 2), (b"ACACAC", 1, 4, 1), (b"AAAAAAAA", 1, 8, 1), (b"AAAAAAAA", 3, 6, 1), (b"AAAAAAAA", 1, 4, 3), (b"AACAAC", 1, 6, 1), (b"AACAAC", 1, 2, 1)]:
        yield claimed(*claim_of)
    for claim_of in [(1, 3, 1), (1, 3, 2), (2, 3, 1), (3, 1, 1), (1, 6, 1), (1, 2, 1), (4, 2, 1), (1, 3, 3)]:
        yield claimed(unread, *claim_of)
    for claim_of in [(b"NNNN", 1, 2, 1), (b"NNNN", 1, 4, 1), (b"NNNN", 1, 1, 4), (b"nnnn", 1, 4, 1), (b"nnnn", 1, 1, 4)]:
        yield claimed(*claim_of)
    # products and sums that leave 32 bits
    for claim_of in [(top32, top32, top32), (1, 65536, 65536), (1, 2 ** 31, 2), (1, 1431655766, 3), (top32, 1, 2), (1, top32, 1), (1, 1, top32), (2, top32, top32)]:
        yield claimed(acac, *claim_of)
    for claim_of in [(1, 1, 1), (0, 1, 1), (1, 0, 0)]:
        yield claimed(b"", *claim_of)
    for claim_of in [(1, 1, 1000), (1, 1, 999), (1, 1000, 1), (1, 500, 2), (501, 500, 1), (501, 500, 2), (1000, 1, 1), (1000, 1, 2)]:
        yield claimed(b"A" * 1000, *claim_of)
    for claim_of in [(1, 480, 2), (1, 480, 1), (1, 960, 1), (2, 480, 1), (481, 480, 1), (481, 480, 2)]:
        yield claimed((b"A" * 479 + b"C") * 2, *claim_of)
    for claim_of in [(1, 1, 1001), (0, 1, 2), (1, 0, 2), (1, 2, 0), (top32, top32, top32)]:
        yield claimed(b"A" * 1001, *claim_of)

CODE = b"ABCDGHKMNRSTVWY"

def primer_calls():
    # document 02, item 6
    primer, foreign = b"A" * 61, b"A" * 59 + b"UA"
    def find(x, u, n):
        return sevens("find_primer", lambda out: answer_find(x, u, out), n)
    def turn(u, n):
        return sevens("reverse_complement", lambda out: answer_turn(u, out), n)
    x = b"ACGTACGT"
    for found in [(x, b"AC", 3), (x, b"AC", 2), (x, b"AC", 1), (x, b"AC", 0), (x, b"RY", 4), (x, b"RY", 3), (x, b"GT", 2), (b"AAAA", b"AA", 3),
                  (b"AC", b"AC", 1), (b"AC", b"ACG", 1), (b"AC", b"ACG", 0), (b"", b"A", 0), (b"", b"N", 2)]:
        yield find(*found)
    for letter in CODE:
        yield find(CODE, bytes([letter]), 15)
    # bytes of a read that are no letters of the code
    for found in [(b"AUGT", b"N", 4), (b"acgtn", b"N", 5), (b"A C", b"NNN", 1), (b"A C", b"N", 3), (b"ANGT", b"N", 4), (b"ANGT", b"A", 4), (b"ANGT", b"AB", 4), (b"ANGT", b"AN", 4),
                  (b"A\0C", b"N", 3), (b"A\0C", b"NNN", 1), (bytes(range(256)), b"N", 16), (bytes(range(256)), b"B", 14)]:
        yield find(*found)
    for u, n in [(b"U", 0), (b"aA", 1), (b"Aa", 1), (b"ANnU", 0), (b"A A", 2)]:
        yield find(b"AAAA", u, n)
    for u, n in [(b"U", 0), (b"ACn", 2), (b"A.CU", 4)]:
        yield turn(u, n)
    for found in [(b"AAAA", b"", 4), (b"AAAA", b"", 0), (b"", b"", 0), (b"AAAA", primer[:60], 1), (b"AAAA", primer, 1), (b"AAAA", foreign[:60], 1), (b"AAAA", foreign, 0)]:
        yield find(*found)
    for u, n in [(b"", 1), (b"", 0), (primer[:60], 60), (primer[:60], 59), (primer, 61), (foreign[:60], 59), (foreign, 0)]:
        yield turn(u, n)
    within, over = b"A" * 1000, b"A" * 1001
    for found in [(within, b"A", 1000), (within, b"A", 999), (within, primer[:60], 941), (within, primer[:60], 940), (within, b"C", 0),
                  (over, b"A", 3), (over, b"", 2), (over, foreign, 0)]:
        yield find(*found)
    for u, n in [(b"ACN", 4), (b"ACN", 3), (b"ACN", 2), (b"ACN", 0), (b"A", 1), (b"ACGT", 4), (CODE, 15), (b"RWBASYNKMDCHGVT", 15)]:
        yield turn(u, n)

def score_calls():
    # document 02, item 7
    primer, longer, foreign = b"A" * 60, b"A" * 61, b"A" * 59 + b"U"
    def score(x, u, v, m, reference):
        number, (value, difference) = answer_score(x, u, v, m, reference)
        return "score\n" + words("answer", [number, value, difference % 2 ** 64])  # a negative one in two's complement
    x = b"GTTACACACTGG"
    for m, reference in [(b"AC", 3), (b"AC", 2), (b"AC", 4), (b"AC", 0), (b"AC", 255), (b"CA", 255), (b"", 0), (b"ACAC", 0), (b"ACACAC", 3), (b"A", 0), (b"T", 0), (b"G", 0),
                         (b"ac", 0), (b"AN", 0), (b"N", 0), (b"ACACACT", 0), (x, 0), (x + b"G", 0)]:
        yield score(x, b"GTT", b"TGG", m, reference)
    for u, v, m in [(b"GT", b"GG", b"AC"), (b"GTTA", b"TGG", b"AC"), (b"GTT", b"CTGG", b"AC"), (b"GTTA", b"CTGG", b"AC"), (b"GTTA", b"CTGG", b"CA"), (b"GTTAC", b"CTGG", b"CA"),
                    (b"GTTA", b"ACTGG", b"CA")]:
        yield score(x, u, v, m, 3)
    shorter, chain, twice, thrice = b"GGACACACTT", b"GGACACACACTT", b"GTTACACGACACTGG", b"GTTACACGACACGACACTGG"
    for read, v, m in [(shorter, b"CT", b"CA"), (shorter, b"CT", b"AC"), (chain, b"TT", b"AC"), (chain, b"TT", b"CA")]:
        yield score(read, b"GA", v, m, 3)
    for marked in [(b"GTTACACACACTGG", b"GTT", b"TGG", b"AC"), (b"GTTAAAATGG", b"GTT", b"TGG", b"A"),
                   (twice, b"GTT", b"TGG", b"AC"), (twice, b"GTTA", b"TGG", b"AC"), (twice, b"GTT", b"CTGG", b"AC"), (twice, b"GTTA", b"CTGG", b"AC"), (twice, b"GTT", b"TGG", b"CA"),
                   (thrice, b"GTT", b"TGG", b"AC"), (thrice, b"GTT", b"TGG", b"ACACG"), (b"ACACGACACTACAC", b"G", b"T", b"AC")]:
        yield score(*marked, 3)
    for read, u, m in [(b"GTTACACACNCTGG", b"GTT", b"AC"), (b"GTTACACNACACTGG", b"GTT", b"AC"), (b"GTTACNACACTGG", b"GTT", b"AC"), (b"GTTANANANTGG", b"GTT", b"AN"),
                       (b"GTTAnAnAnTGG", b"GTT", b"An"), (b"GTTARARARTGG", b"GTT", b"AR"), (b"GTNACACACTGG", b"GTT", b"AC"), (b"GTNACACACTGG", b"GTN", b"AC")]:
        yield score(read, u, b"TGG", m, 3)
    for u, v in [(b"KTT", b"TSS"), (b"GNT", b"YRG"), (b"N", b"TGG"), (b"GTT", b"VC"),
                 (b"", b""), (b"", longer), (longer, b""), (b"U", b""), (b"U", longer), (longer, b"U"), (b"GTU", b"U"), (b"U", b"TGu"), (foreign, b"U"), (b"GTT", foreign), (b"AAA", b"TGu"),
                 (primer, b"TGG"), (b"GTT", primer),
                 (b"AAA", b"AAA"), (b"AAA", b"AC"), (b"AAA", b"TGG"), (b"AC", b"AAA"), (b"GTT", b"AAA"), (b"AC", b"CA"), (b"AC", b"TGG"), (b"AC", b"GTT"), (b"GTT", b"AC"), (b"TGG", b"AC")]:
        yield score(x, u, v, b"AC", 3)
    for marked in [(b"GAAAT", b"AA", b"T", b"A", 0), (b"", b"A", b"T", b"A", 0), (b"", b"", b"T", b"", 0)]:
        yield score(*marked)
    for u, v in [(b"GTT", b"GTT"), (b"TGG", b"GTT"), (b"GTTACACACT", b"TT"), (b"TT", b"GTTA"), (b"GT", b"GTT"), (x, b"TGG"), (b"GTTACA", b"ACACT"), (b"GTTAC", b"ACACT"), (b"GTTACACAC", b"TGG")]:
        yield score(x, u, v, b"AC", 3)
    within, most, longest, over = b"A" * 1000, b"G" + b"A" * 998 + b"T", b"G" + (b"A" * 498 + b"C") * 2 + b"T", b"A" * 1001
    yield score(within, b"A", b"C", b"A", 0) + score(within, b"A", b"A", b"A", 0)
    yield score(most, b"G", b"T", b"A", 255) + "".join(showing(most, b"C\nA", k, b"G", b"T", b"A") for k in (1, 0))
    yield score(longest, b"G", b"T", longest[1:500], 0) + score(longest, b"G", b"T", longest[1:499], 0)
    yield score(over, b"C", b"A", b"A", 0) + score(over, b"U", b"", b"", 255) + showing(over, b"A", 0, b"C", b"A", b"A")

def showing(x, house, k, u, v, m):
    of_house, start, count = shown_part(x, house, k, u, v, m)
    return "shown\n" + words("part", [of_house, start, count]) + words("slice", list((house if of_house else x)[start:start + count]))

def shown_calls():
    x, top32 = b"GTTACACACTGG", 2 ** 32 - 1
    def house(text, k):
        return showing(x, text, k, b"GTT", b"TGG", b"AC")
    for listed in [(b"AC", 0), (b"AC\n", 0), (b"AC\nCA\nG", 0), (b"CA\nAC", 1), (b"CA\nAC\n", 1), (b"CAC\nAC\nG", 1), (b"\n\nAC", 2), (b"\nAC\n\n", 1), (b"AC\nAC", 0), (b"AC\nAC", 1),
                   (b"CA\nAC", 0), (b"AC\nCA", 1), (b"CA\nAC", 2), (b"CA\nAC\n", 2), (b"CA\nAC\n", 3), (b"AC", 1), (b"AC", top32), (b"\n\nAC", 0), (b"\n\nAC", 1),
                   (b"", 0), (b"", 1), (b"", top32),
                   (b"ACA\nAC", 0), (b"ACAC", 0), (b"A\nC", 0), (b"A\nC", 1), (b"CA", 0), (b"ac", 0), (b"GAC", 0), (b"GACT\nAC", 0), (b"AC ", 0), (b"AC\r\nCA", 0), (b"CA\n\rAC", 1)]:
        yield house(*listed)
    for read, text, k, m in [(b"GTTA\nA\nA\nTGG", b"A\nA\n", 0, b"A\n"), (b"GTT\n\n\nTGG", b"\n\n", 0, b"\n"), (b"GTT\n\n\nTGG", b"\n\n", 1, b"\n"),
                             (x, b"AC\nCA", 1, b"CA"), (x, b"AC\nCA", 0, b"CA")]:
        yield showing(read, text, k, b"GTT", b"TGG", m)
    for read, text, u, v, m in [(x, b"AC", b"", b"TGG", b"AC"), (x, b"AC", b"GTT", b"TGu", b"AC"), (x, b"AC", b"AAA", b"TGG", b"AC"), (x, b"AC", b"GTT", b"AC", b"AC"), (x, b"AC", b"TGG", b"GTT", b"AC"),
                                (x, b"ACAC", b"GTT", b"TGG", b"ACAC"), (x, b"", b"GTT", b"TGG", b""), (b"GTTACACGACACTGG", b"AC", b"GTT", b"TGG", b"AC"), (b"", b"A", b"A", b"A", b"A")]:
        yield showing(read, text, 0, u, v, m)
    for k in (1998, 1997, 1999):
        yield house(b"\n" * 1998 + b"AC", k)

def run_calls():
    calls = [short_calls, long_calls, byte_calls, index_calls, unread_calls, runs_calls, claim_calls, primer_calls, score_calls, shown_calls]
    return "".join(text for some in calls for text in some()).encode()

def row(word, numbers):
    return "  %s %s\n" % (word, " ".join(map(str, numbers)))

def view_width(names, moved, lines, maximal):
    # one width at the bench: the groups, the moves, the lines, the runs
    groups = groups_of(names)
    for s, some in sorted(groups.items()):
        if len(some) > 1:
            yield row("group %d:" % s, some)
    alone = [i for some in groups.values() if len(some) == 1 for i in some]
    if alone:
        yield row("alone:", sorted(alone))
    for s, some in groupby(moved, lambda move: move[1]):
        yield row("moved under %d:" % s, [j for _, _, j in some])
    for line in lines:
        yield row("repeat", line)
    for run in maximal:
        yield row("run", run)

def shown(x):
    # what a terminal could obey, what is blank or beyond ASCII, and the backslash, by its number
    return re.sub(rb"[^!-~]|\\", lambda found: b"\\x%02x" % found[0][0], x)

def view(x):
    lines = repeats(x, 0) if len(x) <= LIMIT else []
    if len(x) > LIMIT: return b"refused 1 %d\n" % len(x)
    if len(lines) > LINES: return b"refused 3 %d\n" % len(lines)
    own, maximal, text, differ = log(x), runs(x), [], []
    widths = range(1, top(len(x)) + 1) if x else []
    for w in widths:
        names = replay(x, flat(own), w)
        part = [line for line in lines if line[1] == w]
        text += ["width %d\n" % w, *view_width(names, [move for move in own if move[0] == w], part, [run for run in maximal if run[2] == w])]
        if part != lines_of_groups(names, w):
            differ.append(w)
    groups = "differ at width %d" % differ[0] if differ else "agree at every width"
    text += ["list and groups %s\n" % groups, "repeats and runs %s\n" % ("agree" if agree(lines, maximal) else "differ")]
    return b"read %d %s\n" % (len(x), shown(x)) + "".join(text).encode()

def bench_view():
    dice = Dice(7019)
    reads = known() + few_unread() + partial() + [fibonacci()[7], dice.word(DNA, 40), dice.word(DNA, 57), b"\0\xff\0\0\xff\0\xff\0",
                       b"\x1b[2J\x1b[2J\t\r \x7f\x9b\\x1b~!", b"", b"T",
                       b"A" * 1001, b"ACGTTACGTT" * 250]
    last = b"ACGTACG"
    return text(reads) + last, b"".join(map(view, reads + [last]))

def print_repeats():
    # all known, Fibonacci and seeded reads, then bytes of any value and lines at the edges: empty, of 1,000, 1,001 and 70,000 bytes
    others = bytes(b for b in range(256) if b != 10)
    lines = every() + [others, b"", b"CA" * 500, b"CA" * 500 + b"C", b"ACGTA" * 14000, b"", b"A"]
    last = b"ACAACACA"  # without a newline
    return text(lines) + last, "".join(printed(x, 0) for x in lines + [last]).encode()

def programs():
    short = [x for x in every() if len(x) <= 34]
    return {"walk_widths": (text(short), b"".join(map(walk_widths, short))),
            "run_calls": (b"", run_calls()),
            "print_repeats": print_repeats(),
            "bench_view": bench_view()}

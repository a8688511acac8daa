# The definitions of document 01 as pure functions over a bytes read x, positions from 1, with those of document 02. N is an unread base (its item 2).

from collections import Counter
from functools import lru_cache

LIMIT = 1000  # the largest read length
LINES = 10000  # the printing program's room

def marks(x):
    # the read as it compares: each N is a mark of its own, which no byte is and no other N; primitive, copies and leads are given marks
    return "".join(chr(256 + i) if byte == ord("N") else chr(byte) for i, byte in enumerate(x))

@lru_cache(maxsize=1000)  # a long read shows the same motif at many starts
def primitive(u):
    p = len(u)
    return not any(p % d == 0 and u[:d] * (p // d) == u for d in range(1, p))

def copies(x, i, p):
    u = x[i - 1:i - 1 + p]
    e = 1
    # a slice cut short by the read's end is shorter than u, so it never matches
    while x[i - 1 + e * p:i - 1 + (e + 1) * p] == u:
        e += 1
    return e

def leads(x, i, p):
    return i <= p or x[i - p - 1:i - 1] != x[i - 1:i - 1 + p]

def repeats(x, mode):
    x, found = marks(x), []
    for p in range(1, len(x) // 2 + 1):  # two copies of a longer motif do not fit
        for i in range(1, len(x) - 2 * p + 2):  # nor do two copies from a later start
            e = copies(x, i, p)
            if e >= 2 and primitive(x[i - 1:i - 1 + p]) and (mode == 0 or leads(x, i, p)):
                found.append((i, p, e))
    return found

# document 02, item 4: the verdicts of a claim
YES, COPIES, SHORTER, OUTSIDE = 1, 2, 3, 4

def verdict(x, i, p, e):
    # this comes first so that no huge string is ever built
    if 0 in (i, p, e) or i + p * e - 1 > len(x): return OUTSIDE, 0
    rest = marks(x)[i - 1:]
    u = rest[:p]
    # behind its front a string stands first in its own square where its root has been passed
    root = (u + u).find(u, 1)
    if root < p: return SHORTER, root
    count = max(k for k in range(1, len(rest) // p + 1) if rest.startswith(u * k))
    return (YES, 0) if count == e >= 2 else (COPIES, count)

def motif(x, i, p, e):
    # the part of the read that is handed back: its place from 0, and how many bytes
    found, number = verdict(x, i, p, e) if len(x) <= LIMIT else (OUTSIDE, 0)
    count = p if found == YES else number if found == SHORTER else 0
    return (i - 1, count) if count else (0, 0)

def top(n):
    return max(1, n // 2)

@lru_cache(maxsize=2)  # small and moves ask again for two widths; no caller changes a table
def table(x, w):
    x, least, names = marks(x), {}, []
    for i in range(1, len(x) + 1):
        stretch = x[i - 1:i - 1 + w]
        # a stretch that does not fit leaves its position alone
        names.append(least.setdefault(stretch, i) if len(stretch) == w else i)
    return names

def small(x, w):
    size = Counter(table(x, w))
    if w == 1:
        return sorted(size)
    before = table(x, w - 1)
    parts = {}
    for s in size:
        parts.setdefault(before[s - 1], []).append(s)
    # the largest part is big; where parts tie, the one with the smallest name
    big = {min(names, key=lambda s: (-size[s], s)) for names in parts.values()}
    return sorted(s for s in size if s not in big)

def moves(x, w):
    names = table(x, w)
    chosen = set(small(x, w))
    # position 1 has no left neighbour to move
    return sorted((w, s, j - 1) for j, s in enumerate(names, 1) if j >= 2 and s in chosen)

def log(x):
    return [move for w in range(1, top(len(x))) for move in moves(x, w)]

def M(n):
    return (n - 1) * n.bit_length() if n >= 2 else 0  # n.bit_length() is 1 + L

def flat(triples):
    return [number for triple in triples for number in triple]

def entries(numbers):
    return [tuple(numbers[k:k + 3]) for k in range(0, len(numbers) - 2, 3)]

def first_bad(n, numbers):
    whole, moved = entries(numbers), set()
    for k, (w, s, j) in enumerate(whole):
        inside = 1 <= w <= top(n) - 1 and 1 <= s <= n and 1 <= j <= n - 1
        after = k == 0 or whole[k - 1] < whole[k]
        if not inside or not after or (w, j) in moved:
            return k
        moved.add((w, j))
    return len(whole) if len(numbers) % 3 else None  # leftover numbers are one bad entry

def replay(x, numbers, w):
    # to share at w is to share at width 1 and to have moved alike at each width below w
    history = [[mark] for mark in marks(x)]
    for v, s, j in entries(numbers):
        if v < w:
            history[j - 1].append((v, s))
    least = {}
    return [least.setdefault(tuple(h), i) for i, h in enumerate(history, 1)]

def index(lines):
    # document 02, item 1: one entry a period, from the places and copy counts of its lines
    found = {}
    for k, (_, p, e) in enumerate(lines):
        found.setdefault(p, []).append((k, e))
    return [(p, min(k for k, _ in found[p]), len(found[p]), max(e for _, e in found[p])) for p in sorted(found)]

def first_loose(numbers):
    whole = entries(numbers)
    keys = [(p, i) for i, p, _ in whole]
    for k in range(1, len(keys)):
        if not keys[k - 1] < keys[k]:
            return k
    return len(whole) if len(numbers) % 3 else None  # leftover numbers are a cut line

def lookup(numbers, period):
    # the first entry with that period: its place and its three other numbers; leftover numbers are no entry
    for k in range(len(numbers) // 4):
        if numbers[4 * k] == period:
            return (k, *numbers[4 * k + 1:4 * k + 4])
    return None

def least_periods(x):
    # of each prefix of x: its length less that of the longest border, which is found from the borders before it
    border, periods = [0] * len(x), []
    for k in range(len(x)):
        b = border[k - 1] if k else 0
        while b and x[b] != x[k]:
            b = border[b - 1]
        border[k] = b + 1 if k and x[b] == x[k] else 0
        periods.append(k + 1 - border[k])
    return periods

def runs(x):
    # document 02, item 3, by document 004's (i) and (ii): least periods of the stretches from a, and of those from a - 1
    x, found, before = marks(x), [], []
    for a in range(1, len(x) + 1):
        here = least_periods(x[a - 1:])  # here[k] is of the stretch from a to a + k
        for k, p in enumerate(here):
            if 2 * p <= k + 1 and (a == 1 or before[k + 1] > p) and (k + 1 == len(here) or here[k + 1] > p):
                found.append((a, a + k, p))
        before = here
    return sorted(found, key=lambda line: (line[2], line[0]))

# document 02, item 6: the bases that each letter stands for, by name
BASES = {letter: set(bases) for letter, bases in zip(b"ACGTRYSWKMBDHVN", [b"A", b"C", b"G", b"T", b"AG", b"CT", b"CG", b"AT", b"GT", b"AC", b"CGT", b"AGT", b"ACT", b"ACG", b"ACGT"])}
OTHER_STRAND = bytes.maketrans(b"ACGTRYSWKMBDHVN", b"TGCAYRSWMKVHDBN")
LONGEST = 60  # the most letters of a primer

def sits(x, u, i):
    there = x[i - 1:i - 1 + len(u)]
    # a byte of the read that is no letter matches nothing, and a stretch cut short by the read's end is too short
    return len(there) == len(u) and all(b in BASES and BASES[b] <= BASES[c] for b, c in zip(there, u))

def places(x, u):
    return [i for i in range(1, len(x) + 1) if sits(x, u, i)]

def reverse_complement(u):
    return u[::-1].translate(OTHER_STRAND)

@lru_cache(maxsize=1)  # all markers of a read ask for the same lines; no caller changes them
def leading(x):
    return repeats(x, 1)

def between(x, m, low, high):
    # document 02, item 7: the leading lines of the whole list whose bytes are the motif m over and over, and which lie from low on and before high
    return [(i, p, e) for i, p, e in leading(x) if x[i - 1:i - 1 + p * e] == m * e and low <= i and i + p * e <= high]

def house_place(house, k, m):
    # where the line of number k starts, from 0, if it is the motif
    lines = house.split(b"\n")
    return sum(len(line) + 1 for line in lines[:k]) if lines[k:k + 1] == [m] else None

# document 02, item 8
def lies_whole(line, maximal):
    # the runs of its own period that hold the first and the last byte of a line
    i, p, e = line
    return [(a, b, q) for a, b, q in maximal if q == p and a <= i and i + p * e - 1 <= b]

def agree(lines, maximal):
    # both sentences, of a list and of runs: which (i, p, e) there are, in order, and that each lies whole in exactly one run
    counted = [(i, p, (b + 1 - i) // p) for a, b, p in maximal for i in range(a, b + 1) if (b + 1 - i) // p >= 2]
    return lines == sorted(counted, key=lambda line: (line[1], line[0])) and all(len(lies_whole(line, maximal)) == 1 for line in lines)

def front(numbers, buffer):
    return numbers + buffer[len(numbers):]

# Each answer is (number, value, buffer after); number 0 is success.

def answer_list(x, mode, buffer):
    n = len(x)
    if n > LIMIT: return 1, n, buffer
    if mode not in (0, 1): return 2, mode, buffer
    lines = repeats(x, mode)
    if len(buffer) // 3 < len(lines): return 3, len(lines), [0] * len(buffer)
    return 0, len(lines), front(flat(lines), buffer)

def answer_runs(x, buffer):
    n = len(x)
    if n > LIMIT: return 1, n, buffer
    lines = runs(x)
    if len(buffer) // 3 < len(lines): return 3, len(lines), [0] * len(buffer)
    return 0, len(lines), front(flat(lines), buffer)

def answer_index(numbers, beside):
    bad = first_loose(numbers)
    if bad is not None: return 6, bad, beside
    made = index(entries(numbers))
    if len(beside) // 4 < len(made): return 7, len(made), beside
    return 0, len(made), front(flat(made), beside)

# this one is lent two buffers, and returns two counts where it succeeds
def answer_list_index(x, mode, buffer, beside):
    number, value, after = answer_list(x, mode, buffer)
    if number: return number, (value, 0), after, beside
    made = index(repeats(x, mode))
    if len(beside) // 4 < len(made): return 7, (len(made), 0), buffer, beside
    return 0, (value, len(made)), after, front(flat(made), beside)

def answer_group_table(x, w, buffer):
    n = len(x)
    if n > LIMIT: return 1, n, buffer
    if not 1 <= w <= n: return 2, w, buffer
    if len(buffer) < n: return 4, n, buffer
    return 0, n, front(table(x, w), buffer)

def answer_log(x, buffer):
    n = len(x)
    if n > LIMIT: return 1, n, buffer
    if len(buffer) < 3 * M(n): return 4, 3 * M(n), buffer
    numbers = flat(log(x))
    return 0, len(numbers) // 3, front(numbers, buffer)

def answer_replay(x, numbers, w, buffer):
    n = len(x)
    if n > LIMIT: return 1, n, buffer
    if n == 0 or not 1 <= w <= top(n): return 2, w, buffer
    if len(buffer) < n: return 4, n, buffer
    bad = first_bad(n, numbers)
    if bad is not None: return 5, bad, buffer
    return 0, n, front(replay(x, numbers, w), buffer)

def answer_claim(x, i, p, e):
    if len(x) > LIMIT: return 1, (len(x), 0)
    return 0, verdict(x, i, p, e)  # this call is lent no buffer

def bad_primer(u):
    if not 1 <= len(u) <= LONGEST: return 8, len(u)
    foreign = [k for k, letter in enumerate(u) if letter not in BASES]
    return (9, foreign[0]) if foreign else None

def answer_find(x, u, buffer):
    if len(x) > LIMIT: return 1, len(x), buffer
    bad = bad_primer(u)
    if bad: return (*bad, buffer)
    found = places(x, u)
    if len(buffer) < len(found): return 3, len(found), [0] * len(buffer)
    return 0, len(found), front(found, buffer)

def answer_turn(u, buffer):
    bad = bad_primer(u)
    if bad: return (*bad, buffer)
    if len(buffer) < len(u): return 4, len(u), buffer
    return 0, len(u), front(list(reverse_complement(u)), buffer)

def scored_line(x, u, v, m):
    # 0 and the leading repeat that is scored, or a refusal
    if len(x) > LIMIT: return 1, len(x)
    # of what is wrong with the primers the least number comes first, and of the same for both the left one
    bad = [found for found in map(bad_primer, (u, v)) if found]
    if bad: return min(bad, key=lambda found: found[0])
    seats = [places(x, u), places(x, v)]
    bad = [(11 if some else 10, side) for side, some in enumerate(seats, 1) if len(some) != 1]
    if bad: return min(bad)
    low, high = seats[0][0] + len(u), seats[1][0]
    if high < low: return 12, 0
    lines = between(x, m, low, high)
    if len(lines) != 1: return (14 if lines else 13), 0
    return 0, lines[0]

def answer_score(x, u, v, m, reference):
    number, found = scored_line(x, u, v, m)
    return (number, (found, 0)) if number else (0, (found[2], found[2] - reference))

def shown_part(x, house, k, u, v, m):
    # 1 for a part of the house list or 0 for one of the read, its place from 0, and how many bytes
    number, found = scored_line(x, u, v, m)
    if number: return 0, 0, 0
    place = house_place(house, k, m)
    return (0, found[0] - 1, len(m)) if place is None else (1, place, len(m))

def printed(x, mode):
    number, value, buffer = answer_list(x, mode, [0] * (3 * LINES))
    if number:
        return "refused %d %d\n" % (number, value)
    lines = ["%d %d %d\n" % line for line in entries(buffer[:3 * value])]
    return "read %d repeats %d\n" % (len(x), value) + "".join(lines)

def groups_of(names):
    # the groups of a table: each name with its positions
    members = {}
    for i, s in enumerate(names, 1):
        members.setdefault(s, []).append(i)
    return members

def lines_of_groups(names, p):
    # the lines that the groups of width p give: a start is p before the next position of its group
    places = groups_of(names).values()
    starts = {i for some in places for i, j in zip(some, some[1:]) if j - i == p}
    found = []
    for i in sorted(starts):
        e = 2
        while i + (e - 1) * p in starts:
            e += 1
        found.append((i, p, e))
    return found

# The reads that the stored results are made from: known, Fibonacci words, seeded ones, reads with unread bases and with partial copies; the primers looked for in them, and the
# markers that they are scored by.

from rules import BASES, leading, places, reverse_complement

ROUNDS = 33  # reads of each seeded kind
DNA = b"ACGT"

class Dice:
    # Written out so that the reads never depend on a Python version: xorshift, 32 bits.
    def __init__(self, seed):
        self.state = seed

    def below(self, k):
        self.state ^= self.state << 13 & 0xFFFFFFFF
        self.state ^= self.state >> 17
        self.state ^= self.state << 5 & 0xFFFFFFFF
        return self.state % k

    def between(self, low, high):
        return low + self.below(high - low + 1)

    def word(self, letters, n):
        return bytes(letters[self.below(len(letters))] for _ in range(n))

def known():
    # R6 and R7 are about the read of R5, so it stands three times
    return [b"", b"A", b"AA", b"AAAA", b"ACAACACA", b"ACAACACA", b"ACAACACA",
            b"ACACACA", b"ACGTACGT", b"ACGT", b"ACACACAC", b"NNNN"]

def fibonacci():
    words = [b"A", b"AC"]
    while len(words[-1]) < 987:
        words.append(words[-1] + words[-2])
    return words

def dna(dice):
    return dice.word(DNA, dice.between(1, 60))

def two_letters(dice):
    return dice.word(b"AC", dice.between(1, 60))

def all_bytes(dice):
    # byte 10 would end the line, so it becomes 11
    return dice.word(bytes(range(256)), dice.between(1, 60)).replace(b"\n", b"\x0b")

def microsatellite(dice):
    return dice.word(DNA, dice.between(1, 6)) * dice.between(2, 12)

def planted(dice):
    before = dice.word(DNA, dice.between(0, 15))
    return before + microsatellite(dice) + dice.word(DNA, dice.between(0, 15))

def power_with_error(dice):
    x = bytearray(dice.word(DNA, dice.between(1, 5)) * dice.between(2, 10))
    x[dice.below(len(x))] = dice.word(DNA + b"N", 1)[0]
    return bytes(x)

def palindrome(dice):
    half = dice.word(DNA, dice.between(1, 20))
    return half + half[::-1][dice.below(2):]  # of even or odd length

def ends_in_zero(dice):
    # an unused place of a work room may hold 0 too, so 0 also stands inside
    return dice.word(b"\0A", dice.between(0, 20)) + b"\0" * dice.between(1, 5)

def one_letter(dice):
    return dice.word(b"ACGTN", 1) * dice.between(1, 40)

def there_and_back(dice):
    k = dice.between(1, 15)
    return b"AC" * k + b"CA" * k

def many_planted(dice, n):
    x = b""
    while len(x) < n:
        x += planted(dice)
    return x[:n]

def long_ones(dice):
    return [dice.word(DNA, 150), dice.word(b"AC", 150), many_planted(dice, 150),
            b"ACGTT" * 17 + b"G" + b"ACGTT" * 12 + b"ACGT",
            dice.word(DNA, 1000), many_planted(dice, 1000), b"A" * 1000,
            b"AC" * 250 + b"CA" * 250]

def seeded():
    dice = Dice(20011)
    kinds = [dna, two_letters, all_bytes, planted, power_with_error, palindrome,
             ends_in_zero, one_letter, there_and_back]
    return [kind(dice) for _ in range(ROUNDS) for kind in kinds] + long_ones(dice)

# document 02, item 2: N is an unread base, and n a letter like any other
def few_unread():
    return [b"N", b"NN", b"nnnn", b"NnNn", b"ACACNACAC", b"NACAC", b"ACACN", b"ANCANC", b"ACNACA", b"NACNACN", b"nACnACn"]

def at_every_place(x):
    return [x[:k] + b"N" + x[k + 1:] for k in range(len(x))]

def several_unread(dice):
    x = bytearray(planted(dice))
    for _ in range(dice.between(1, 4)):
        x[dice.below(len(x))] = b"NNNn"[dice.below(4)]
    return bytes(x)

def unread():
    # drawn from dice of their own, so that the reads before stay what they were
    dice = Dice(20026)
    long = bytearray(many_planted(dice, 1000))
    for _ in range(20):
        long[dice.below(1000)] = ord("N")
    return (few_unread() + [x for whole in (b"AAAAA", b"ACACACAC", b"ACGACGACG", b"ACAACACA") for x in at_every_place(whole)]
            + [several_unread(dice) for _ in range(ROUNDS)] + [bytes(long), b"AC" * 249 + b"NA" + b"AC" * 250, b"N" * 1000])

# document 02, item 3: document 004's word, runs of one period that overlap by one base or more, two periods and a part, a part of one base, an end in byte 0
def partial():
    return [b"1011010110110", b"AACAACCACC", b"AACAACACAC", b"ACACA", b"ACGACGA", b"GACACACT", b"ACGTACGTACG", b"ACACGACAC", b"CACA\0\0", b"A\0A\0A\0"]

def lettered(x):
    # the read with N for each byte that is no letter of the code
    return bytes(b if b in BASES else ord("N") for b in x)

def widened(dice, u):
    # letters that let in more
    return bytes(dice.word([c for c in BASES if BASES[b] <= BASES[c]], 1)[0] for b in u)

# document 02, item 6: primers to look for in a read: a stretch of it, the same with letters that let in more, on the other strand, the end of the read, and two short ones
def primers(dice, x):
    own, found = lettered(x), [dice.word(bytes(BASES), dice.between(1, 3)), dice.word(DNA, dice.between(1, 2))]
    if x:
        m = dice.between(1, min(60, len(x)))
        i = dice.below(len(x) - m + 1)
        u = own[i:i + m]
        found += [u, widened(dice, u), reverse_complement(u), own[-m:]]
    return found

# document 02, item 7: a house list for all reads, and markers to score a read by
HOUSE = [b"A", b"C", b"G", b"T", b"AC", b"CA", b"AG", b"GA", b"AT", b"TA", b"CG", b"GC", b"CT", b"TC", b"GT", b"TG", b"ACG", b"CGA", b"GAC", b"AAC", b"ACC", b"ACGT", b"ACGTT"]
LENGTHS = (1, 2, 3, 5, 8, 13, 21, 34, 60)

def sole(x, primers):
    # the first that sits once in the read, else the last
    return next((u for u in primers if len(places(x, u)) == 1), primers[-1])

def before(x, own, k):
    # letters of the read up to before its byte k, from 0
    return sole(x, [own[max(0, k - m):max(0, k)] for m in LENGTHS])

def behind(x, own, k):
    return sole(x, [own[k:k + m] for m in LENGTHS])

def numbered(dice, m):
    # for two motifs of three that the house list has the number of its line, else any, also past the last line
    return HOUSE.index(m) if m in HOUSE and dice.below(3) else dice.below(len(HOUSE) + 2)

def markers(dice, x):
    # both primers, start and period of the motif, reference count and number: around a leading repeat, with up to three bases free, one byte inside it on the left and on the right, with
    # the motif of the next start, with wider letters, primers exchanged, and from the ends of the read
    n, own = len(x), lettered(x)
    lines = leading(x) or [(1, 1, 1)]
    lines = [(i, p, e) for i, p, e in lines if 1 < i and i + p * e <= n] or lines
    for kind in range(8 if x else 0):
        i, p, e = lines[dice.below(len(lines))]
        a, b = i - 1, i - 1 + p * e
        if kind == 1: a, b = a - dice.below(4), b + dice.below(4)
        if kind == 2: a += 1
        if kind == 3: b -= 1
        if kind == 4 and i + p <= n: i += 1
        u, v = (before(x, own, a), behind(x, own, b)) if kind < 7 else (behind(x, own, 0), before(x, own, n))
        u, v = u or dice.word(DNA, 1), v or dice.word(DNA, 1)
        if kind == 5: u, v = widened(dice, own[max(0, a - 20):a] or u), widened(dice, own[b:b + 20] or v)
        if kind == 6: u, v = v, u
        yield u, v, i, p, dice.below(12), numbered(dice, x[i - 1:i - 1 + p])

def every():
    return known() + fibonacci() + seeded() + unread() + partial()

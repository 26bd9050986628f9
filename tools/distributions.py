"""The distributions of rules, written from docs/RULES.md: the tables come from Python's logarithm and its normal quantiles, and no
line from the program."""
from decimal import Decimal, getcontext
from statistics import NormalDist

getcontext().prec = 50
MOST = 2**64 - 1
LOGS = [round(-(1 - Decimal(i) / 512).ln() * 2**32) for i in range(257)]
QUANTILES = [round(-NormalDist().inv_cdf((1 - i % 16 / 32) / 2 ** (i // 16 + 1)) * 2**28) for i in range(513)]
# how many words each draws
WORDS = {"draw": 1, "exponential": 1, "geometric": 1, "normal": 1, "triangular": 2, "choose": 1}


def halvings(v):
    """Returns how often v, below 2^33, has to be doubled to be at least 2^32, and how far it then lies below 2^33, in units of 2^-32
    of the way down to the half."""
    count = 0
    while v < 2**32:
        count, v = count + 1, 2 * v
    return count, 2**33 - v - 1


def between(table, parts, place, way):
    """Returns what lies between entries, `way` of 2^32 behind an entry, where a halving has 2^parts entries."""
    step = 2 ** (32 - parts)
    at = place * 2**parts + way // step
    return table[at] + (table[at + 1] - table[at]) * (way % step) // step


def logarithm(word):
    """Returns minus the logarithm of (2 word + 1) / 2^33, in units of 2^-32."""
    count, way = halvings(2 * word + 1)
    return count * LOGS[256] + between(LOGS, 8, 0, way)


def exponential(mean, word):
    return min((mean * logarithm(word) + 2**31) // 2**32, MOST)


def geometric(mean, word):
    if mean == 0:
        return 0
    correction = 163840 * (2 * mean + 1) // (60 * mean * (mean + 1) + 11) if mean < 8192 else 0
    return min(logarithm(word) * (65536 * mean + 32768 - correction) // 2**48, MOST)


def normal(mean, deviation, word):
    count, way = halvings(4 * (word % 2**31) + 2)
    far = (deviation * between(QUANTILES, 4, count, way) + 2**27) // 2**28
    return max(mean - far, 0) if word < 2**31 else min(mean + far, MOST)


def triangular(least, mode, most, one, two):
    most = max(least, most)
    mode = min(max(least, mode), most)
    return least + ((mode - least) * max(one, two) + (most - mode) * min(one, two) + 2**31) // 2**32


def choose(weights, word):
    left = min(sum(weights), MOST) * word // 2**32
    for place, weight in enumerate(weights):
        if left < weight:
            return place
        left -= weight
    return 0

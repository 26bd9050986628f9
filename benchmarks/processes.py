"""What emergency.py and packets.py share: processes that draw words, their messages, and the lines that `timewarp seq` prints.

Words and distributions are those of docs/RULES.md, and their tables those of crates/rules/src/quantiles.rt."""
import os
import random
import sys
from heapq import heappop, heappush

ROOT = os.path.dirname(os.path.dirname(os.path.realpath(__file__)))
MULTIPLIER = 6364136223846793005
ALL = 2**64 - 1


def table(name):
    with open(f"{ROOT}/crates/rules/src/quantiles.rt", encoding="utf-8") as file:
        numbers = file.read().partition(f"const {name}:")[2].partition("= [")[2].partition("]")[0]
    return [int(word) for word in numbers.replace(",", " ").split()]


LOGS, QUANTILES = table("EXPONENTIAL"), table("NORMAL")


def between(entries, at, way, bits):
    """What lies between an entry and the next one, `way` of 2^bits behind the first."""
    return entries[at] + ((entries[at + 1] - entries[at]) * way >> bits)


def halvings(v):
    """How often v, below 2^33, has to be doubled to be at least 2^32, and how far it then lies below 2^33."""
    count = 33 - v.bit_length()
    return count, 2**33 - 1 - (v << count)


class Process:
    """A process draws from its key, and has a new one after each message. `words` are the names of its words of state."""
    words = ()
    number, key, now, drawn, sent, pending = 0, 0, 0, 0, 0, None

    def word(self):
        """The first word of PCG's XSH RR 64/32 generator for the key, with a stream for each word of a handling."""
        increment = (16 * self.number + self.drawn) << 1 | 1
        self.drawn += 1
        state = ((self.key + increment) * MULTIPLIER + increment) & ALL
        mixed = ((state >> 18 ^ state) >> 27) & 0xFFFFFFFF
        turn = state >> 59
        return mixed >> turn | mixed << (32 - turn) & 0xFFFFFFFF

    def next_key(self):
        self.key = self.word() << 32 | self.word()
        self.drawn = 0

    def exponential(self, mean):
        count, way = halvings(2 * self.word() + 1)
        log = count * LOGS[256] + between(LOGS, way >> 24, way & 0xFFFFFF, 24)
        return (mean * log + 2**31) >> 32

    def normal(self, mean, deviation):
        word = self.word()
        count, way = halvings(4 * (word & 0x7FFFFFFF) + 2)
        far = (deviation * between(QUANTILES, 16 * count + (way >> 28), way & 0xFFFFFFF, 28) + 2**27) >> 28
        return mean + far if word >> 31 else max(mean - far, 0)

    def triangular(self, least, mode, most):
        one, two = self.word(), self.word()
        return least + (((mode - least) * max(one, two) + (most - mode) * min(one, two) + 2**31) >> 32)

    def choose(self, weights):
        left = sum(weights) * self.word() >> 32
        for place, weight in enumerate(weights):
            if left < weight:
                return place
            left -= weight

    def send(self, after, to, sort=0, b=0, c=0):
        """Sends a message, which arrives after so many ticks, and at least one: its content is a sort and two words."""
        heappush(self.pending, (self.now + max(after, 1), self.number, self.sent, to, sort, b, c))
        self.sent += 1

    def start(self):
        pass

    def state(self):
        return [getattr(self, name) for name in self.words]


def packed(elements, bits):
    """The words of an array: in each the first element has the lowest bits."""
    each = 64 // bits
    return [sum(element << bits * place for place, element in enumerate(elements[first:first + each])) for first in range(0, len(elements), each)]


def line(message):
    time, sender, number, to, sort, b, c = message
    return f"{time} {sender} {number} {to.number} {sort} {b} {c} 0\n"


def run(processes, end, seed):
    """Simulates the processes up to a tick, and prints the events, the states and the messages that are left."""
    pending, write = [], sys.stdout.write
    if seed is None:
        # the words of Python's own generator, and no keys
        Process.word, Process.next_key, seed = lambda _: random.getrandbits(32), lambda _: None, 0
    for number, process in enumerate(processes):
        process.number, process.key, process.pending = number, seed, pending
        process.start()
        process.next_key()
    while pending and pending[0][0] < end:
        message = heappop(pending)
        write(line(message))
        time, _, _, to, sort, b, c = message
        to.now = time
        to.handle(sort, b, c)
        to.next_key()
    write(f"virtual time {end}\n")
    states = [[process.key, *process.state()] for process in processes]
    width = max(map(len, states))
    for process, state in zip(processes, states):
        write(f"lp {process.number} sent {process.sent} state {' '.join(map(str, state + [0] * (width - len(state))))}\n")
    for message in sorted(pending):
        write(f"pending {line(message)}")


def arguments(end, seed):
    """The end and the seed that a program is given, or those of the example; the seed `own` is None."""
    given = sys.argv[1:]
    if given:
        end = int(given[0])
    if len(given) > 1:
        seed = None if given[1] == "own" else int(given[1])
    return end, seed

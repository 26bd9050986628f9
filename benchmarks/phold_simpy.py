#!/usr/bin/env python3
"""PHOLD in SimPy: a process of SimPy is a message, which waits by env.timeout and then draws its destination.

Drawing words in Python takes much of the time. With `words` it handles EVENTS messages without SimPy, process after process, to measure
this part.

Usage: phold_simpy.py LPS END POPULATION SPREAD SEED, or phold_simpy.py words EVENTS LPS END POPULATION SPREAD SEED; without words it
prints the version of SimPy
"""
import sys

MULTIPLIER = 6364136223846793005
ALL = 2**64 - 1


def word(key, lp, j):
    """The first word of PCG's XSH RR 64/32 generator for this key, with stream `16 * lp + j`."""
    increment = (16 * lp + j) << 1 | 1
    state = ((key + increment) * MULTIPLIER + increment) & ALL
    mixed = ((state >> 18 ^ state) >> 27) & 0xFFFFFFFF
    turn = state >> 59
    return mixed >> turn | mixed << (32 - turn) & 0xFFFFFFFF


def next_key(key, lp, j):
    return word(key, lp, j) << 32 | word(key, lp, j + 1)


class Phold:
    def __init__(self, lps, end, population, spread, seed):
        self.lps, self.end, self.population, self.spread, self.seed = lps, end, population, spread, seed
        self.keys = [next_key(seed, lp, population) for lp in range(lps)]
        self.counts = [0] * lps
        self.sum = 0

    def first_delay(self, lp, k):
        return 1 + word(self.seed, lp, k) % self.spread

    def handle(self, time, lp):
        """The destination of a message, and the number of ticks until it arrives."""
        key = self.keys[lp]
        self.keys[lp] = next_key(key, lp, 2)
        self.counts[lp] += 1
        self.sum += time * 31 + lp
        return word(key, lp, 0) % self.lps, 1 + word(key, lp, 1) % self.spread

    def report(self):
        states = sum((lp + 1) * (key ^ count) for lp, (key, count) in enumerate(zip(self.keys, self.counts)))
        print(f"events {sum(self.counts)} sum {self.sum & ALL} states {states & ALL}")


class Message:
    """Its number, and how often it was handled."""
    __slots__ = ("number", "handled")

    def __init__(self, number):
        self.number, self.handled = number, 0


def travel(env, phold, message, lp, delay):
    while True:
        yield env.timeout(delay)
        message.handled += 1
        lp, delay = phold.handle(env.now, lp)


def main():
    import simpy

    if len(sys.argv) == 1:
        print(simpy.__version__)
        return
    phold = Phold(*map(int, sys.argv[1:]))
    env = simpy.Environment()
    for lp in range(phold.lps):
        for k in range(phold.population):
            env.process(travel(env, phold, Message(lp * phold.population + k), lp, phold.first_delay(lp, k)))
    # handles nothing at the end itself
    env.run(until=phold.end)
    phold.report()


def words():
    phold = Phold(*map(int, sys.argv[3:]))
    for event in range(int(sys.argv[2])):
        phold.handle(event, event % phold.lps)
    phold.report()


if sys.argv[1:2] == ["words"]:
    words()
else:
    main()

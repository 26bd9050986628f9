#!/usr/bin/env python3
"""The model of examples/packets.toml in plain Python: packets in a ring of four switches with drop-tail queues. A tick is a microsecond.

It prints what `timewarp seq` prints. With the seed `own` the words are those of Python's own generator, and so the run is another one.

Usage: packets.py [END [SEED | own]]: those of the example by default; past 2^20 ticks the times in queues have 21 bits
"""
from processes import Process, arguments, packed, run

END, SEED = arguments(200_000, 7)
GAP, SERVICE, LINK, ROOM = 60, 12, 5, 24
DONE, PACKET, TICK = range(3)
TIME_BITS = 20 if END <= 2**20 else 21


class Source(Process):
    """Sends packets to a switch, each for a drawn sink."""
    words = "made",

    def __init__(self, switch, goals):
        self.switch, self.goals, self.made = switch, goals, 0

    def start(self):
        self.send(1 + self.word() % GAP, self, TICK)

    def handle(self, _sort, _b, _c):
        self.made += 1
        self.send(self.exponential(GAP), self, TICK)
        self.send(LINK, self.switch, PACKET, self.now, self.word() % self.goals)


class Switch(Process):
    """Forwards packets in order, to its own sink or to the next switch; one that finds the queue full is dropped."""

    def __init__(self, place, sink):
        self.place, self.sink, self.next = place, sink, None
        self.first = self.waiting = self.dropped = self.most = 0
        self.births, self.goals = [0] * ROOM, [0] * ROOM

    def handle(self, sort, born, goal):
        if sort == PACKET:
            self.take(born, goal)
        else:
            self.forward()

    def take(self, born, goal):
        if self.waiting == ROOM:
            self.dropped += 1
            return
        if self.waiting == 0:
            self.send(SERVICE, self, DONE)
        last = (self.first + self.waiting) % ROOM
        self.births[last], self.goals[last] = born, goal
        self.waiting += 1
        self.most = max(self.most, self.waiting)

    def forward(self):
        born, goal = self.births[self.first], self.goals[self.first]
        self.send(LINK, self.sink if goal == self.place else self.next, PACKET, born, goal)
        self.first = (self.first + 1) % ROOM
        self.waiting -= 1
        if self.waiting:
            self.send(SERVICE, self, DONE)

    def state(self):
        return [self.first, self.waiting, self.dropped, self.most, *packed(self.births, TIME_BITS), *packed(self.goals, 2)]


class Sink(Process):
    """Counts packets, and how long they were under way."""
    words = "got", "spent", "slowest"

    def __init__(self):
        self.got = self.spent = self.slowest = 0

    def handle(self, _sort, born, _goal):
        self.got += 1
        self.spent += self.now - born
        self.slowest = max(self.slowest, self.now - born)


def main():
    sinks = [Sink() for _ in range(4)]
    switches = [Switch(place, sink) for place, sink in enumerate(sinks)]
    for switch, following in zip(switches, switches[1:] + switches[:1]):
        switch.next = following
    sources = [Source(switches[place % len(switches)], len(sinks)) for place in range(8)]
    run([*sources, *switches, *sinks], END, SEED)


main()

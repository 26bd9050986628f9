#!/usr/bin/env python3
"""The model of examples/emergency.toml in plain Python: an emergency room with triage, doctors on shifts, a laboratory and beds. A tick is a second.

It prints what `timewarp seq` prints. With the seed `own` the words are those of Python's own generator, and so the run is another one.

Usage: emergency.py [END [SEED | own]]: those of the example by default; past 2^18 ticks the times in queues have 21 bits
"""
from processes import Process, arguments, packed, run

END, SEED = arguments(172_800, 2026)
HOUR, PLACES, BEDS = 3600, 36, 12
CALL, COME, FREE, LEAVE, WAIT = range(5)
TIME_BITS = 18 if END <= 2**18 else 21
# by the hour of the day
ARRIVALS = [3, 2, 2, 1, 1, 2, 3, 5, 8, 10, 11, 10, 9, 9, 9, 8, 8, 9, 10, 9, 8, 6, 5, 4]
ON_DUTY = [2, 2, 2, 2, 2, 2, 3, 3, 4, 5, 5, 5, 5, 5, 5, 5, 5, 5, 5, 4, 4, 3, 3, 2]
# by the grade of a patient, from in danger to slight: how many of 20, and the mean seconds of a treatment
GRADES, TREATMENT = [1, 4, 10, 5], [2400, 1500, 900, 400]
# of 100 of a grade, who goes to the laboratory, and who gets a bed
TESTED, KEPT = [80, 50, 25, 5], [70, 20, 3, 0]


class Door(Process):
    """Patients come by the hour, and a nurse says how ill they are."""
    words = "came", "free_at", "waited"

    def __init__(self, lines):
        self.lines = lines
        self.came = self.free_at = self.waited = 0

    def start(self):
        self.send(1, self)

    def handle(self, _sort, _b, _c):
        self.send(self.exponential(HOUR // ARRIVALS[self.now // HOUR % 24]), self)
        begin = max(self.now, self.free_at)
        grade = self.choose(GRADES)
        self.came += 1
        self.waited += begin - self.now
        self.free_at = begin + self.triangular(60, 90, 300)
        self.send(self.free_at - self.now, self.lines[grade], COME, self.now, grade)


class Line(Process):
    """The patients of a grade wait in order; one who finds no place goes home."""

    def __init__(self, grade, desk, doctors):
        self.grade, self.desk, self.doctors = grade, desk, doctors
        self.first = self.waiting = self.lost = 0
        self.queue = [0] * PLACES

    def handle(self, sort, word, _c):
        if sort == CALL:
            self.send(1, self.doctors[word], COME, self.queue[self.first], self.grade)
            self.first = (self.first + 1) % PLACES
            self.waiting -= 1
        elif self.waiting == PLACES:
            self.lost += 1
        else:
            self.queue[(self.first + self.waiting) % PLACES] = word
            self.waiting += 1
            self.send(1, self.desk, WAIT, 0, self.grade)

    def state(self):
        return [self.first, self.waiting, self.lost, *packed(self.queue, TIME_BITS)]


class Desk(Process):
    """Calls the most urgent patient as soon as a doctor on duty is idle."""

    def __init__(self):
        self.lines = []
        self.urgent = self.idle = 0
        self.busy, self.waits = [0] * 5, [0] * 4

    def handle(self, sort, who, grade):
        if sort == WAIT:
            self.waits[grade] += 1
        else:
            self.busy[who] = 0
        self.urgent = next((grade for grade, count in enumerate(self.waits) if count), 4)
        self.idle = next((who for who in range(ON_DUTY[self.now // HOUR % 24]) if not self.busy[who]), 5)
        if self.urgent < 4 and self.idle < 5:
            self.busy[self.idle] = 1
            self.waits[self.urgent] -= 1
            self.send(1, self.lines[self.urgent], CALL, self.idle)

    def state(self):
        return [self.urgent, self.idle, *packed(self.busy, 1), *packed(self.waits, 8)]


class Doctor(Process):
    """Treats a patient, who then goes to the laboratory or to the ward."""
    words = "seen", "waited"

    def __init__(self, place, desk, laboratory, ward):
        self.place, self.desk, self.laboratory, self.ward = place, desk, laboratory, ward
        self.seen = self.waited = 0

    def handle(self, _sort, born, grade):
        takes = 60 + self.normal(TREATMENT[grade], TREATMENT[grade] // 4)
        self.seen += 1
        self.waited += self.now - born
        self.send(takes, self.desk, FREE, self.place)
        self.send(takes, self.laboratory if self.word() % 100 < TESTED[grade] else self.ward, COME, born, grade)


class Laboratory(Process):
    """Makes tests in the order of arrival."""
    words = "free_at", "made"

    def __init__(self, ward):
        self.ward = ward
        self.free_at = self.made = 0

    def handle(self, _sort, born, grade):
        self.free_at = max(self.now, self.free_at) + 240 + self.exponential(180)
        self.made += 1
        self.send(self.free_at - self.now, self.ward, COME, born, grade)


class Ward(Process):
    """Some patients get a bed if one is free, the others go home."""
    words = "taken", "left", "stayed"

    def __init__(self):
        self.taken = self.left = self.stayed = 0

    def handle(self, sort, born, grade):
        # the rule draws for each message, also for one who leaves
        lot = self.word() % 100
        if sort == COME and lot < KEPT[grade] and self.taken < BEDS:
            self.taken += 1
            self.send(4 * HOUR + self.exponential(6 * HOUR), self, LEAVE, born)
            return
        self.left += 1
        self.stayed += self.now - born
        if sort == LEAVE:
            self.taken -= 1


def main():
    ward, desk = Ward(), Desk()
    laboratory = Laboratory(ward)
    doctors = [Doctor(place, desk, laboratory, ward) for place in range(5)]
    desk.lines = [Line(grade, desk, doctors) for grade in range(4)]
    run([Door(desk.lines), *desk.lines, desk, *doctors, laboratory, ward], END, SEED)


main()

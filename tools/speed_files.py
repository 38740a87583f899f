#!/usr/bin/env python3
"""Writes a scenario for ./speed: a model of the line makes events that can be, always the same ones for the same words.

usage: tools/speed_files.py NAME EVENTS      the scenario goes to standard output; NAME is a key of FILES
"""

import itertools
import random
import sys

CONTROLLERS = 8
FARTHEST = 1_000_000_000
HIGHEST_WISH = 10_000
LENGTH = 800


class Train:
    """The true front of a train, and what its unit knows of it."""

    def __init__(self, front, end):
        self.front = self.low = self.high = front
        self.end = end
        self.speed = 0

    def come(self, speed, blur):
        self.speed = speed
        if speed > 0:
            self.front += speed
            self.low = max(0, self.low + speed - blur)
            self.high += speed + blur


class Line:
    """A line as docs/FORMATS.md has it. Each event is a method, which does it and answers its line of the scenario."""

    def __init__(self, trains, brake, blur, foremost, apart, gain):
        self.brake, self.blur, self.gain = brake, blur, gain
        self.trains = []
        for number in range(trains):
            end = self.trains[-1].front - LENGTH if self.trains else FARTHEST
            self.trains.append(Train(foremost - number * apart, end))
        self.known = [[0] * trains for _ in range(CONTROLLERS)]
        # What was sent: whether it is a grant, its train and its place. The grants also by their numbers.
        self.sent = []
        self.grants = []
        self.distances = [0] * (HIGHEST_WISH + 1)
        for speed in range(brake + 1, HIGHEST_WISH + 1):
            left = speed - brake
            self.distances[speed] = left + blur + self.distances[left]

    def head(self):
        yield f"brake {self.brake}"
        yield f"blur {self.blur}"
        for train in self.trains:
            yield f"train {train.low} {train.front} {train.high} {train.end} {LENGTH}"

    def tick(self, number, wish):
        """The train has the highest speed that it can have, but gains at most `gain`."""
        train = self.trains[number]
        lets = wish == 0 or train.high + wish + self.blur + self.distances[wish] <= train.end
        most = wish if lets else max(0, train.speed - self.brake)
        speed = min(most, train.speed + self.gain)
        train.come(speed, self.blur)
        return f"tick {number} wish {wish} speed {speed}"

    def mark(self, number):
        train = self.trains[number]
        train.low = train.high = train.front
        return f"mark {number}"

    def report(self, number):
        self.sent.append((False, number, max(0, self.trains[number].low - LENGTH)))
        return f"report {number}"

    def hear(self, controller, message):
        is_grant, train, place = self.sent[message]
        if not is_grant:
            self.known[controller][train] = max(self.known[controller][train], place)
        return f"hear {controller} message {message}"

    def tell(self, controller, number):
        self.sent.append((False, number, self.known[controller][number]))
        return f"tell {controller} train {number}"

    def grant(self, controller, number):
        self.grants.append(len(self.sent))
        self.sent.append((True, number + 1, self.known[controller][number]))
        return f"grant {controller} train {number}"

    def take(self, message):
        _, number, place = self.sent[message]
        self.trains[number].end = max(self.trains[number].end, place)
        return f"take message {message}"

    def restart(self, controller):
        self.known[controller] = [0] * len(self.trains)
        return f"restart {controller}"

    def newest(self):
        return len(self.sent) - 1


def granted(line, controller, number):
    """A report of a train is heard and granted on, and the train behind takes the grant."""
    yield line.report(number)
    yield line.hear(controller, line.newest())
    yield line.grant(controller, number)
    yield line.take(line.newest())


def handed_over(line, controller, number):
    """A controller tells the next one what it knows of a train."""
    yield line.tell(controller, number)
    yield line.hear((controller + 1) % CONTROLLERS, line.newest())


def stale(line, chance):
    """A message of long ago is heard, and an old grant comes once more."""
    yield line.hear(chance.randrange(CONTROLLERS), chance.randrange(len(line.sent)))
    yield line.take(chance.choice(line.grants))


def mixed(line, chance, wishes):
    """All kinds of events, without end: about half of them ticks where `wishes` gives each driver a wish."""
    count = len(line.trains)
    for turn in itertools.count(1):
        for number in range(count):
            yield line.tick(number, wishes(chance, number))
        if turn % 4 == 0:
            for number in range(count - 1):
                yield from granted(line, number * CONTROLLERS // count, number)
        if turn % 8 == 0:
            number = chance.randrange(count)
            yield from handed_over(line, number * CONTROLLERS // count, number)
            yield from stale(line, chance)
        if turn % 16 == 0:
            for number in range(count):
                yield line.mark(number)
        if turn % 256 == 0:
            yield line.restart(chance.randrange(CONTROLLERS))


def radio_only(line, chance):
    """Messages, without end, while all trains stand: each is heard twice, and old ones come again."""
    count = len(line.trains)
    for turn in itertools.count(1):
        number = turn % (count - 1)
        controller = chance.randrange(CONTROLLERS)
        yield from granted(line, controller, number)
        yield line.hear(controller, line.newest() - 1)
        yield line.take(line.newest())
        yield from handed_over(line, controller, number)
        yield from stale(line, chance)
        if turn % 100 == 0:
            yield line.restart(chance.randrange(CONTROLLERS))


def usual_wish(chance, number):
    """The foremost train wishes less than those behind it, which have to brake now and then; some wish to stand."""
    if chance.randrange(50) == 0:
        return 0
    return chance.randint(250, 350) if number == 0 else chance.randint(300, 600)


def high_wish(chance, number):
    return chance.randint(9_000, HIGHEST_WISH)


def ordinary(chance):
    line = Line(trains=8, brake=7, blur=5, foremost=200_000, apart=5_000, gain=10)
    return line, mixed(line, chance, usual_wish)


def many_trains(chance):
    line = Line(trains=64, brake=7, blur=5, foremost=500_000, apart=5_000, gain=10)
    return line, mixed(line, chance, usual_wish)


def brake_1(chance):
    line = Line(trains=4, brake=1, blur=10, foremost=400_000_000, apart=100_000_000, gain=HIGHEST_WISH)
    return line, mixed(line, chance, high_wish)


def radio(chance):
    line = Line(trains=8, brake=7, blur=5, foremost=200_000, apart=5_000, gain=10)
    return line, radio_only(line, chance)


FILES = {"ordinary": ordinary, "many-trains": many_trains, "brake-1": brake_1, "radio": radio}


def main(name, events):
    line, traffic = FILES[name](random.Random(name))
    for said in itertools.chain(line.head(), itertools.islice(traffic, events)):
        sys.stdout.write(f"{said}\n")


if __name__ == "__main__":
    if len(sys.argv) != 3 or sys.argv[1] not in FILES or not sys.argv[2].isdecimal():
        sys.exit(__doc__)
    main(sys.argv[1], int(sys.argv[2]))

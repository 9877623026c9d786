#!/usr/bin/env python3
"""Holds plan.py against the plain definitions on small random cases: selfcheck.py COUNT SEED

Supply: the least sum of the speeds of t successive microseconds, over all places to begin. Search: every candidate is
built and tried on its own, and the first of the cheapest is taken, with costs as fractions. EDF is asked at every time.
"""

import random
import sys
from fractions import Fraction
from math import lcm

from files import Processor
from plan import POLICIES, Fixed, Pair, Plan, Task


def speeds(pair):
    """The speed in each microsecond of a frame."""
    low = [0] * pair.down + [pair.low_speed] * (pair.low_time - pair.down)
    high = [0] * pair.up + [pair.high_speed] * (pair.high_time - pair.up)
    return low + high


def least_window(pattern, t):
    return min(sum(pattern[(start + k) % len(pattern)] for k in range(t)) for start in range(len(pattern)))


def all_drives(processor):
    """Every candidate in the order in which ties are broken."""
    drives = [Fixed(number, *processor.modes[number]) for number in sorted(processor.modes)]
    for frame in sorted(processor.frames, reverse=True):
        for low in sorted(processor.modes):
            for high in sorted(processor.modes):
                if (low, high) in processor.switches and (high, low) in processor.switches:
                    for high_time in range(frame + 1):
                        (a, p), (b, q) = processor.modes[low], processor.modes[high]
                        up, down = processor.switches[low, high], processor.switches[high, low]
                        low_time = frame - high_time
                        gains = a * (low_time - down) + b * (high_time - up) > a * frame
                        if a < b and low_time > down and high_time > up and gains:
                            drives.append(Pair(low, high, a, b, p, q, up, down, frame, high_time))
    return drives


class Supply:
    """What a drive supplies at least, by the definition, worked out once for each time."""

    def __init__(self, drive):
        self.pattern = [drive.speed] if isinstance(drive, Fixed) else speeds(drive)
        self.known = {}

    def at(self, t):
        if t not in self.known:
            self.known[t] = least_window(self.pattern, t)
        return self.known[t]


def charge(task, drive):
    return task.cycles + task.fixed * drive.peak()


def fits_edf(tasks, drive, supply):
    for t in range(1, lcm(*(task.period for task in tasks)) + 1):
        demand = sum(
            ((t - task.deadline) // task.period + 1) * charge(task, drive) for task in tasks if t >= task.deadline
        )
        if demand > supply.at(t):
            return False
    return True


def fits_fp(tasks, drive, supply):
    for task in tasks:
        before = [other for other in tasks if other.rank < task.rank]
        if not any(
            charge(task, drive) + sum(-(-t // other.period) * charge(other, drive) for other in before) <= supply.at(t)
            for t in range(1, task.deadline + 1)
        ):
            return False
    return True


FITS = {"edf": fits_edf, "fp": fits_fp}


def cheapest(policy, drives, tasks):
    fitting = [drive for drive, supply in drives if FITS[policy](tasks, drive, supply)]
    return min(fitting, key=lambda drive: Fraction(*drive.cost()), default=None)


def small_processor(rng):
    processor = Processor()
    for number in rng.sample(range(1, 17), rng.randint(1, 4)):
        processor.modes[number] = (rng.choice([0, 1, 2, 3, 5, 8]), rng.randint(0, 6))
    for start in processor.modes:
        for end in processor.modes:
            if start != end and rng.random() < 0.9:
                processor.switches[start, end] = rng.randint(0, 3)
    processor.frames = rng.sample(range(1, 13), rng.randint(0, 3))
    return processor


def check_supply(rng):
    """The supply of a lawful pair, against the definition."""
    while True:
        speed = rng.randint(0, 5)
        pair = Pair(1, 2, speed, speed + rng.randint(1, 5), 0, 0, rng.randint(0, 4), rng.randint(0, 4), rng.randint(2, 16), rng.randint(1, 15))
        if pair.low_time > 0 and pair.lawful():
            break
    for t in range(3 * pair.frame + 1):
        if pair.supply(t) != least_window(speeds(pair), t):
            sys.exit(f"supply differs: {pair} at {t}")


def check_plan(policy, rng):
    """The drive and the answers of a plan, against a search that leaves nothing out; answers how many pairs came up."""
    processor = small_processor(rng)
    drives = [(drive, Supply(drive)) for drive in all_drives(processor)]
    plan = Plan(POLICIES[policy], processor)
    tasks = []
    pairs = 0
    for rank in rng.sample(range(1, 9), rng.randint(1, 4)):
        period = rng.choice([2, 3, 4, 6, 8, 12])
        task = Task(rank, rng.randint(1, 2 * period), rng.choice([0, 0, 0, 1]), period, rng.randint(1, period))
        wanted = cheapest(policy, drives, tasks + [task])
        answer, _ = plan.admit(task)
        if wanted is not None:
            tasks.append(task)
        if (answer == 25) != (wanted is None) or plan.drive != cheapest(policy, drives, tasks):
            sys.exit(f"plan differs: {policy} {processor.__dict__} {tasks} {task}: {plan.drive}, {wanted}")
        pairs += isinstance(plan.drive, Pair)
    return pairs


def self_check(count, seed):
    rng = random.Random(seed)
    pairs = 0
    for _ in range(count):
        check_supply(rng)
        for policy in POLICIES:
            pairs += check_plan(policy, rng)
    return pairs


if __name__ == "__main__":
    if len(sys.argv) != 3:
        sys.exit("selfcheck.py COUNT SEED")
    found = self_check(int(sys.argv[1]), int(sys.argv[2]))
    print(f"{sys.argv[1]} cases agree with the definitions; the drive was a pair {found} times")

"""The plan: the tasks that were let in, and the cheapest drive on which all of them meet their deadlines.

Time is in whole microseconds, speed in MHz (so that a microsecond at speed a does a cycles), power in mW.
"""

from math import lcm
from typing import NamedTuple

LONGEST_SPAN = 1_000_000
MOST_TASKS = 16
LAST_TICKET = 65535


class Task(NamedTuple):
    rank: int
    cycles: int
    fixed: int
    period: int
    deadline: int

    def within_limits(self):
        return (
            1 <= self.rank <= 255
            and 1 <= self.cycles <= 100_000_000
            and 0 <= self.fixed <= 1_000_000
            and 1 <= self.period <= 1_000_000
            and 1 <= self.deadline <= self.period
        )


class Fixed(NamedTuple):
    """One mode for good."""

    number: int
    speed: int
    power: int

    def peak(self):
        return self.speed

    def supply(self, t):
        return self.speed * t

    def cost(self):
        return self.power, 1

    def fields(self):
        return [self.number, self.number, 0, 0, self.power, 1]


class Pair(NamedTuple):
    """Two modes in turn: the switch down and the low mode take low_time, then the switch up and the high mode high_time."""

    low: int
    high: int
    low_speed: int
    high_speed: int
    low_power: int
    high_power: int
    up: int
    down: int
    frame: int
    high_time: int

    @property
    def low_time(self):
        return self.frame - self.high_time

    def low_work(self):
        return self.low_speed * (self.low_time - self.down)

    def frame_work(self):
        return self.low_work() + self.high_speed * (self.high_time - self.up)

    def lawful(self):
        return (
            self.low_speed < self.high_speed
            and self.low_time > self.down
            and self.high_time > self.up
            and self.frame_work() > self.low_speed * self.frame
        )

    def peak(self):
        return self.high_speed

    def supply(self, t):
        """The least work in t microseconds, wherever they begin (selfcheck.py holds it against the definition)."""
        frames, rest = divmod(t, self.frame)
        gap = max(self.up, self.down)
        if rest < gap:
            part = 0
        elif rest < gap + self.low_time - self.down:
            part = self.low_speed * (rest - gap)
        elif rest < self.low_time + self.up:
            part = self.low_work()
        else:
            part = self.low_work() + self.high_speed * (rest - self.low_time - self.up)
        return frames * self.frame_work() + part

    def cost(self):
        """Energy of a frame, and the frame: their quotient is the mean power."""
        return self.low_power * self.low_time + self.high_power * self.high_time, self.frame

    def fields(self):
        return [self.low, self.high, self.low_time, self.high_time, *self.cost()]


def cheaper(cost, other):
    """Whether one cost, a fraction, is below another."""
    return cost[0] * other[1] < other[0] * cost[1]


def fixed_drives(processor):
    return [Fixed(number, *processor.modes[number]) for number in sorted(processor.modes)]


class PairStream:
    """The lawful pairs of two modes and a frame. Their costs do not fall, and of equal costs the shorter high time comes first."""

    def __init__(self, processor, low, high, frame):
        low_speed, low_power = processor.modes[low]
        high_speed, high_power = processor.modes[high]
        up, down = processor.switches[low, high], processor.switches[high, low]
        self.figures = (low, high, low_speed, high_speed, low_power, high_power, up, down, frame)
        lawful = [time for time in range(1, frame) if Pair(*self.figures, time).lawful()]
        self.high_times = lawful if low_power <= high_power else lawful[::-1]

    def __iter__(self):
        return (Pair(*self.figures, high_time) for high_time in self.high_times)


def pair_streams(processor):
    """All lawful pairs, in the order in which ties are broken."""
    return [
        PairStream(processor, low, high, frame)
        for frame in sorted(processor.frames, reverse=True)
        for low in sorted(processor.modes)
        for high in sorted(processor.modes)
        if (low, high) in processor.switches and (high, low) in processor.switches
    ]


class Edf:
    """Earliest deadline first."""

    @staticmethod
    def in_span(tasks):
        return lcm(*(task.period for task in tasks)) <= LONGEST_SPAN

    @staticmethod
    def needs(tasks):
        """What the supply must meet: for each of these lists, at one of its times, the cycles and fixed time until then."""
        end = lcm(*(task.period for task in tasks))
        times = {end}
        for task in tasks:
            times.update(range(task.deadline, end + 1, task.period))
        needs = []
        for t in sorted(times):
            cycles = fixed = 0
            for task in tasks:
                if t >= task.deadline:
                    jobs = (t - task.deadline) // task.period + 1
                    cycles += jobs * task.cycles
                    fixed += jobs * task.fixed
            needs.append([(t, cycles, fixed)])
        return needs


class Fp:
    """Fixed priorities: a smaller rank goes first."""

    @staticmethod
    def in_span(tasks):
        return True

    @staticmethod
    def needs(tasks):
        needs = []
        for task in tasks:
            before = [other for other in tasks if other.rank < task.rank]
            times = {task.deadline}
            for other in before:
                times.update(range(other.period, task.deadline + 1, other.period))
            choices = []
            for t in sorted(times):
                cycles, fixed = task.cycles, task.fixed
                for other in before:
                    jobs = -(-t // other.period)
                    cycles += jobs * other.cycles
                    fixed += jobs * other.fixed
                choices.append((t, cycles, fixed))
            needs.append(choices)
        return needs


POLICIES = {"edf": Edf, "fp": Fp}


class Demands:
    """The needs of some tasks at each peak speed, the one that failed last in front, since it fails most often."""

    def __init__(self, needs):
        self.needs = needs
        self.at_peak = {}

    def met_by(self, drive):
        peak = drive.peak()
        if peak not in self.at_peak:
            self.at_peak[peak] = [[(t, cycles + fixed * peak) for t, cycles, fixed in choices] for choices in self.needs]
        demands = self.at_peak[peak]
        for at, choices in enumerate(demands):
            if not any(work <= drive.supply(t) for t, work in choices):
                demands.insert(0, demands.pop(at))
                return False
        return True


class Plan:
    def __init__(self, policy, processor):
        self.policy = policy
        self.fixed = fixed_drives(processor)
        self.streams = pair_streams(processor)
        self.tasks = []
        self.tickets = 0
        self.drive = self.cheapest([], (0, 1))

    def cheapest(self, tasks, least):
        """The cheapest drive on which the tasks fit, and none that is cheaper than the least cost."""
        demands = Demands(self.policy.needs(tasks))
        best = None
        for stream in [[drive] for drive in self.fixed] + self.streams:
            for drive in stream:
                cost = drive.cost()
                if best is not None and not cheaper(cost, best.cost()):
                    break
                if not cheaper(cost, least) and demands.met_by(drive):
                    best = drive
                    break
        return best

    def admit(self, task):
        """The refusal or 0, and the ticket or 0."""
        if not task.within_limits():
            return 20, 0
        if any(task.rank == other.rank for other in self.tasks):
            return 21, 0
        if len(self.tasks) == MOST_TASKS:
            return 22, 0
        if self.tickets == LAST_TICKET:
            return 23, 0
        tasks = self.tasks + [task]
        if not self.policy.in_span(tasks):
            return 24, 0
        # More tasks never fit on a drive on which fewer do not: nothing below the present cost is tried again.
        drive = self.cheapest(tasks, self.drive.cost())
        if drive is None:
            return 25, 0
        self.tasks = tasks
        self.drive = drive
        self.tickets += 1
        return 0, self.tickets

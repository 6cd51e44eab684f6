"""`play` by the rules: the runner tick by tick, and each record's bound by the finish rule as it is written."""

import sys

from servers import CEILING
from sheets import Line, Refused, lines_of, read

CALL_HEADING = b"call task value"
MOST_VALUE, MOST_WAITING, LAST_CLOCK, TOLD_FIRINGS = 999_999_999, 65_535, 1_000_000_000, 256

sys.setrecursionlimit(100_000)


class Bounds:
    """F over the arrivals accepted so far, each found once."""

    def __init__(self, sheet):
        self.tasks = [(task.server(), task.time, task.inlet) for task in sheet.tasks]
        self.into = [[edge for edge in sheet.edges if edge.target == task] for task in range(len(sheet.tasks))]
        self.arrivals = [[] for _ in sheet.tasks]
        self.known = {}

    def ready(self, task, firing):
        times = [0]
        if self.tasks[task][2]:
            times.append(self.arrivals[task][firing])
        times += [self.finish(edge.source, firing - edge.tokens) for edge in self.into[task] if firing >= edge.tokens]
        return max(times)

    def finish(self, task, firing):
        if (task, firing) not in self.known:
            server, time, _ = self.tasks[task]
            self.known[task, firing] = max(
                self.ready(task, k) + server.worst((firing - k + 1) * time) for k in range(firing + 1)
            )
        return self.known[task, firing]

    def told(self, task, firing):
        if firing >= TOLD_FIRINGS:
            return 0
        bound = self.finish(task, firing)
        return bound if bound <= CEILING else 0


class Runner:
    def __init__(self, sheet):
        self.sheet, self.clock = sheet, 0
        self.servers = [task.server() for task in sheet.tasks]
        self.tokens = [edge.tokens for edge in sheet.edges]
        self.waiting = [0 for _ in sheet.tasks]
        self.needs = [task.time for task in sheet.tasks]
        self.left = [0 for _ in sheet.tasks]
        self.fired = [0 for _ in sheet.tasks]

    def arrive(self, task):
        if not self.sheet.tasks[task].inlet:
            raise Refused("runner", 13)
        if self.waiting[task] == MOST_WAITING:
            raise Refused("runner", 15)
        self.waiting[task] += 1

    def need(self, task, ticks):
        if not 1 <= ticks <= self.sheet.tasks[task].time:
            raise Refused("runner", 14)
        self.needs[task] = ticks

    def is_ready(self, task):
        edges = [held for edge, held in zip(self.sheet.edges, self.tokens) if edge.target == task]
        return self.left[task] == 0 and all(edges) and (not self.sheet.tasks[task].inlet or self.waiting[task] > 0)

    def begin(self, task):
        for at, edge in enumerate(self.sheet.edges):
            self.tokens[at] -= edge.target == task
        self.waiting[task] -= self.sheet.tasks[task].inlet
        self.left[task] = self.needs[task]

    def tick(self, claimed):
        """The records that the tick puts: task, firing, clock."""
        if self.clock == LAST_CLOCK:
            raise Refused("runner", 16)
        places = range(len(self.servers))
        ready = [self.is_ready(task) for task in places]
        granted = [server.tick(claimed) for server in self.servers]
        ended = []
        for task in places:
            if granted[task] and ready[task]:
                self.begin(task)
            if granted[task] and self.left[task]:
                self.left[task] -= 1
                if self.left[task] == 0:
                    ended.append(task)
        self.clock += 1
        return [self.end(task) for task in ended]

    def end(self, task):
        for at, edge in enumerate(self.sheet.edges):
            self.tokens[at] += edge.source == task
        self.fired[task] += 1
        return task, self.fired[task] - 1, self.clock


class Player:
    def __init__(self, sheet):
        self.sheet, self.runner, self.bounds = sheet, Runner(sheet), Bounds(sheet)
        self.names = [task.name for task in sheet.tasks]

    def tick(self, claimed):
        for task, firing, clock in self.runner.tick(claimed):
            bound = self.bounds.told(task, firing)
            assert bound == 0 or clock <= bound, "a firing later than its bound"
            yield b"%s %d %d %d\n" % (self.names[task], firing, clock, bound)

    def arrive(self, task):
        self.runner.arrive(task)
        self.bounds.arrivals[task].append(self.runner.clock)

    def call(self, word, name, value):
        """What a line of calls writes, a refusal of the runner too."""
        try:
            if word in (b"quiet", b"busy"):
                for _ in range(value):
                    yield from self.tick(word == b"busy")
                return
            if name not in self.names:
                raise Refused("runner", 13)
            task = self.names.index(name)
            if word == b"need":
                self.runner.need(task, value)
            else:
                for _ in range(value):
                    self.arrive(task)
        except Refused as fault:
            yield fault.text


def read_call(line):
    if not line.text:
        line.refuse(3)
    line.split(3)
    word = line.word_at(1, (b"arrive", b"need", b"quiet", b"busy"))
    name = line.name_at(2) if word in (b"arrive", b"need") else line.word_at(2, (b"all",))
    return word, name, line.number_at(3, 0, MOST_VALUE)


def play(text, calls):
    """What `play` writes of a sheet and calls, piece by piece."""
    try:
        player = Player(read(text))
        yield b"task firing finish bound\n"
        lines = lines_of(calls)
        if not lines:
            raise Refused("reader", 3, 1)
        Line(lines[0], 1).be(CALL_HEADING)
        for number, line in enumerate(lines[1:], 2):
            yield from player.call(*read_call(Line(line, number)))
    except Refused as fault:
        yield fault.text

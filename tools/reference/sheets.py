"""Sheets by the rules: a text is a sheet, or has the one fault that comes first."""

import re
import string
from dataclasses import dataclass

from servers import CEILING, Fixed, Float, Inner, Own

FORMAT = frozenset((string.ascii_lowercase + string.digits + " ").encode())
TASK_HEADING = b"task time kind period slice phase inner inslice inphase inlet"
EDGE_HEADING = b"from to tokens"
MOST_TASKS, MOST_EDGES, MOST_BYTES = 16, 48, 8192
FIRST_TASK_LINE = 5


class Refused(Exception):
    def __init__(self, layer, number, line=0, field=0):
        super().__init__(f"refused {layer} {number} {line} {field}\n".encode())

    @property
    def text(self):
        return self.args[0]


@dataclass
class Task:
    name: bytes
    time: int
    settings: tuple
    inlet: bool

    def server(self):
        """A server as it begins."""
        kind, period, slice, phase, inner = self.settings
        below = {b"own": Own, b"fixed": lambda: Fixed(period, slice, phase), b"float": lambda: Float(period, slice)}[kind]()
        return below if inner == (0, 0, 0) else Inner(below, Fixed(*inner))


@dataclass
class Edge:
    source: int
    target: int
    tokens: int


@dataclass
class Sheet:
    goal: int
    tasks: list
    edges: list


def lines_of(text):
    """The lines, each with its end; the last may lack it."""
    return re.findall(rb"[^\n]*\n|[^\n]+$", text)


class Line:
    """A line whose bytes are in order; its checks name its place."""

    def __init__(self, text, number):
        self.number = number
        if not text.endswith(b"\n") or not FORMAT.issuperset(text[:-1]):
            raise Refused("reader", 2, number)
        self.text = text[:-1]

    def refuse(self, number, field=0, layer="reader"):
        raise Refused(layer, number, self.number, field)

    def be(self, text):
        if self.text != text:
            self.refuse(3)

    def split(self, count):
        self.fields = self.text.split(b" ")
        if len(self.fields) != count or b"" in self.fields:
            self.refuse(4)

    def number_at(self, field, least, most):
        text = self.fields[field - 1]
        if not re.fullmatch(rb"0|[1-9][0-9]{0,8}", text) or not least <= int(text) <= most:
            self.refuse(5, field)
        return int(text)

    def name_at(self, field):
        text = self.fields[field - 1]
        if not re.fullmatch(rb"[a-z][a-z0-9]{0,11}", text):
            self.refuse(6, field)
        return text

    def word_at(self, field, words):
        text = self.fields[field - 1]
        if text not in words:
            self.refuse(6, field)
        return text


class Lines:
    def __init__(self, text):
        self.texts, self.read = lines_of(text), 0

    def more(self):
        return self.read < len(self.texts)

    def next(self):
        if not self.more():
            raise Refused("reader", 3, self.read + 1)
        self.read += 1
        return Line(self.texts[self.read - 1], self.read)


def is_slice(period, slice, phase):
    return 1 <= slice <= period <= 65535 and phase < period


def is_server(kind, period, slice, phase, inner):
    if inner != (0, 0, 0) and not is_slice(*inner):
        return False
    if kind == b"own":
        return (period, slice, phase) == (1, 1, 0)
    return is_slice(period, slice, phase) and (kind == b"fixed" or phase == 0)


def read_task(line, tasks):
    if len(tasks) == MOST_TASKS:
        line.refuse(9)
    line.split(10)
    name = line.name_at(1)
    time = line.number_at(2, 1, 65535)
    kind = line.word_at(3, (b"own", b"fixed", b"float"))
    period, slice = line.number_at(4, 1, 65535), line.number_at(5, 1, 65535)
    phase = line.number_at(6, 0, 65534)
    inner = line.number_at(7, 0, 65535), line.number_at(8, 0, 65535), line.number_at(9, 0, 65534)
    inlet = line.number_at(10, 0, 1)
    if any(task.name == name for task in tasks):
        line.refuse(7, 1)
    settings = kind, period, slice, phase, inner
    if not is_server(*settings):
        line.refuse(10, layer="server")
    return Task(name, time, settings, inlet == 1)


def read_edge(line, names, count):
    if not line.text:
        line.refuse(3)
    if count == MOST_EDGES:
        line.refuse(9)
    line.split(3)
    ends = []
    for field in 1, 2:
        name = line.name_at(field)
        if name not in names:
            line.refuse(8, field)
        ends.append(names.index(name))
    return Edge(*ends, line.number_at(3, 0, 255))


def read_goal(line):
    if not line.text:
        line.refuse(3)
    line.split(1)
    return line.number_at(1, 1, 999_999_999)


def check_rings(sheet):
    """11 at the topmost task that comes back to itself over edges without a token."""
    free = {(edge.source, edge.target) for edge in sheet.edges if edge.tokens == 0}
    for task in range(len(sheet.tasks)):
        reached = {target for source, target in free if source == task}
        for _ in sheet.tasks:
            reached |= {target for source, target in free if source in reached}
        if task in reached:
            raise Refused("graph", 11, FIRST_TASK_LINE + task)


def check_figures(sheet):
    for at, task in enumerate(sheet.tasks):
        server = task.server()
        if max(server.worst(task.time), server.lead + server.pace(task.time)) > CEILING:
            raise Refused("graph", 12, FIRST_TASK_LINE + at)


def read(text):
    if not 1 <= len(text) <= MOST_BYTES:
        raise Refused("reader", 1)
    lines = Lines(text)
    lines.next().be(b"goal")
    goal = read_goal(lines.next())
    lines.next().be(b"")
    lines.next().be(TASK_HEADING)
    tasks = []
    while (line := lines.next()).text:
        tasks.append(read_task(line, tasks))
    if not tasks:
        line.refuse(9)
    lines.next().be(EDGE_HEADING)
    names, edges = [task.name for task in tasks], []
    while lines.more():
        edges.append(read_edge(lines.next(), names, len(edges)))
    sheet = Sheet(goal, tasks, edges)
    check_rings(sheet)
    check_figures(sheet)
    return sheet

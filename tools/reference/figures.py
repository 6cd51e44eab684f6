"""Cycle, parts, start figures and the report, by listing every ring: for sheets whose rings are few."""

from fractions import Fraction

from sheets import Refused, read


def spans_of(sheet):
    """Lead, pace and what a firing takes alone, of each task."""
    servers = [(task.server(), task.time) for task in sheet.tasks]
    return [(server.lead, server.pace(time), server.worst(time)) for server, time in servers]


def rings_of(sheet, spans):
    """Every ring as the tasks from its first in the sheet, along its edges, with its ticks for each token.

    Of parallel edges the one with the fewest tokens counts, since all weigh the same.
    """
    fewest = {}
    for edge in sheet.edges:
        hop = edge.source, edge.target
        fewest[hop] = min(edge.tokens, fewest.get(hop, edge.tokens))
    after = [[] for _ in sheet.tasks]
    for (source, target), tokens in sorted(fewest.items()):
        after[source].append((target, tokens))

    def on(path, weight, tokens):
        for target, held in after[path[-1]]:
            lead, pace, _ = spans[target]
            if target == path[0]:
                yield tuple(path), Fraction(weight + lead + pace, tokens + held)
            elif target > path[0] and target not in path:
                yield from on(path + [target], weight + lead + pace, tokens + held)

    for task, (_, pace, _) in enumerate(spans):
        yield (task,), Fraction(pace)
        yield from on([task], 0, 0)


def cycle_of(sheet, spans):
    """Cycle ÷ parts, and the task lists of all rings that reach it."""
    rings = list(rings_of(sheet, spans))
    most = max(ratio for _, ratio in rings)
    return most, sorted({tasks for tasks, ratio in rings if ratio == most})


def starts_of(sheet, spans, ratio):
    """The least start figures: raised from below until nothing is asked for any more."""
    cycle, parts = ratio.numerator, ratio.denominator
    starts = [parts * (lead + pace) for lead, pace, _ in spans]
    while True:
        raised = list(starts)
        for edge in sheet.edges:
            lead, pace, _ = spans[edge.target]
            raised[edge.target] = max(raised[edge.target], raised[edge.source] + parts * (lead + pace) - cycle * edge.tokens)
        if raised == starts:
            return starts
        starts = raised


def half_up(x):
    return (2 * x.numerator + x.denominator) // (2 * x.denominator)


def report(text):
    """What `bounds` writes, and how many rings it could have told as critical."""
    try:
        sheet = read(text)
    except Refused as fault:
        return fault.text, 1
    spans = spans_of(sheet)
    ratio, rings = cycle_of(sheet, spans)
    margin = sheet.goal * ratio.denominator - ratio.numerator
    starts = starts_of(sheet, spans, ratio)
    names = [task.name.decode() for task in sheet.tasks]
    out = ["goal cycle parts margin verdict"]
    out.append(f"{sheet.goal} {ratio.numerator} {ratio.denominator} {margin} {'late' if margin < 0 else 'keeps'}")
    out += ["", "task lead pace alone start load"]
    for name, (lead, pace, alone), start in zip(names, spans, starts):
        out.append(f"{name} {lead} {pace} {alone} {start} {half_up(1000 * pace / ratio)}")
    out += ["", "critical"] + [names[task] for task in rings[0]]
    return "".join(line + "\n" for line in out).encode(), len(rings)

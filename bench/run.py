#!/usr/bin/env python3
"""Times the repository's programs against plain Rust programs of the same work, and compares what they write.

    bench/run.py [--repeats N] [--cpu] [--bounds PROGRAM] [--sheet-cases PROGRAM] [--play PROGRAM] [--finish PROGRAM]
    bench/run.py --inputs FOLDER            only writes the inputs there

A program that is not there is left out. README.md beside this file says what the figures mean.
"""
import argparse
import random
import resource
import statistics
import subprocess
import sys
import tempfile
import time
from dataclasses import dataclass
from pathlib import Path

HERE = Path(__file__).resolve().parent
CRATES = HERE.parent / "crates"
PLAIN = HERE / "target" / "release"

TASK_HEADING = "task time kind period slice phase inner inslice inphase inlet"
TASKS, EDGES = 16, 48
SHEETS, RUNS, TICKS = 3000, 200, 10_000_000


# Inputs, the same at each run.


def sheet(goal, tasks, edges):
    lines = ["goal", goal, "", TASK_HEADING, *tasks, "", "from to tokens", *edges]
    return "".join(f"{line}\n" for line in lines)


def names(rng):
    letters = "abcdefghijklmnopqrstuvwxyz"
    return ["".join(rng.choice(letters) for _ in range(11)) + letters[at] for at in range(TASKS)]


def slice_of(rng, most, thin):
    """A period, a slice of at least its thin-th part, and a phase."""
    period = rng.randint(most // 2, most)
    return period, rng.randint(-(-period // thin), period), rng.randrange(period)


def server(rng, kind, most, thin, layered):
    period, slice, phase = (1, 1, 0) if kind == "own" else slice_of(rng, most, thin)
    inner = slice_of(rng, most, thin) if layered else (0, 0, 0)
    return " ".join(map(str, (kind, period, slice, 0 if kind == "float" else phase, *inner)))


def any_edges(rng, called, most):
    """Edges between any tasks; those that go back hold a token, so that no ring is without."""
    for _ in range(EDGES):
        source, target = rng.randrange(TASKS), rng.randrange(TASKS)
        yield f"{called[source]} {called[target]} {rng.randint(source >= target, most)}"


def chained_edges(rng, called):
    """A chain of all tasks without a token, and edges back along it, so that many rings come close to each other."""
    for at in range(TASKS - 1):
        yield f"{called[at]} {called[at + 1]} 0"
    for _ in range(EDGES - TASKS + 1):
        first, last = sorted(rng.sample(range(TASKS), 2))
        tokens = (last - first + 1) * rng.randint(11, 13) + rng.randint(-5, 5)
        yield f"{called[last]} {called[first]} {tokens}"


def long_tasks(rng, called):
    """Tasks whose own pace is the slowest thing, with the largest figures."""
    for name in called:
        settings = server(rng, rng.choice(("own", "fixed", "float")), 65_535, 100, rng.random() < 0.5)
        yield f"{name} {rng.randint(30_000, 65_535)} {settings} {rng.randint(0, 1)}"


def short_tasks(rng, called):
    """Tasks that wait long and work little, so that rings are slower than any task by itself."""
    for name in called:
        yield f"{name} {rng.randint(1, 99)} fixed 65535 {rng.randint(32_000, 34_000)} 1 0 0 0 1"


def large_sheet(rng, number):
    """One of three in turn: the largest figures, rings of any kind, rings along a chain."""
    called = names(rng)
    rng.shuffle(called)
    tasks = short_tasks(rng, called) if number % 3 else long_tasks(rng, called)
    edges = chained_edges(rng, called) if number % 3 == 2 else any_edges(rng, called, 255 if number % 3 == 0 else 9)
    return sheet(rng.randint(1, 999_999_999), tasks, edges)


def played_sheet(rng, longest):
    """16 tasks, two of them with an inlet, that go on for as long as arrivals come."""
    called = names(rng)
    kinds = ["own", "fixed", "float", "fixed"] * (TASKS // 4)
    tasks = [
        f"{name} {rng.randint(1, longest)} {server(rng, kind, 100, 3, at % 3 == 2)} {int(at < 2)}"
        for at, (name, kind) in enumerate(zip(called, kinds))
    ]
    return called, sheet(999, tasks, any_edges(rng, called, 3))


def calls(called, ticks):
    out = ["call task value"]
    for word in ("quiet", "busy") * 10:
        out += [f"arrive {name} 2000" for name in called[:2]]
        out.append(f"{word} all {ticks // 20}")
    return "".join(f"{line}\n" for line in out)


def table_sheet(rng):
    called = names(rng)
    tasks = [
        f"{name} {rng.randint(100, 9999)} {server(rng, 'fixed', 9999, 4, False)} {int(at % 4 == 0)}"
        for at, name in enumerate(called)
    ]
    return sheet(12_345, tasks, any_edges(rng, called, 9))


def write_inputs(folder):
    sheets = [large_sheet(random.Random(number), number) for number in range(SHEETS)]
    inputs = {"one": sheets[2], "list": "".join(text.replace("\n", "/") + "\n" for text in sheets)}
    inputs["table"] = table_sheet(random.Random("table"))
    for name, longest, ticks in ("play", 200, TICKS), ("often", 5, TICKS // 10):
        (folder / name).mkdir(exist_ok=True)
        called, text = played_sheet(random.Random(name), longest)
        inputs |= {f"{name}/sheet": text, f"{name}/calls": calls(called, ticks)}
    for name, text in inputs.items():
        (folder / name).write_text(text)


# Timing.


@dataclass
class Work:
    what: str
    ours: Path
    plain: str
    given: str
    folder: str = "."
    runs: int = 1
    most: float = 1.5


def works(args):
    return [
        Work(f"bounds, {SHEETS} largest sheets", args.sheet_cases, "sheet_cases", "list"),
        Work(f"bounds, {RUNS} runs on one", args.bounds, "bounds", "one", runs=RUNS),
        Work(f"play, {TICKS:,} ticks", args.play, "play", "play/calls", "play"),
        Work(f"play, {TICKS // 10:,} ticks, short tasks", args.play, "play", "often/calls", "often"),
        Work("finish table, 400 tables", args.finish, "finish", "table", most=0.5),
    ]


def processor_time():
    """The seconds that programs run so far have taken on a processor."""
    used = resource.getrusage(resource.RUSAGE_CHILDREN)
    return used.ru_utime + used.ru_stime


def spent(program, inputs, work, out, cpu):
    """The seconds of a program's runs; what the last one wrote stands in `out`."""
    clock = processor_time if cpu else time.perf_counter
    begin = clock()
    for _ in range(work.runs):
        with open(inputs / work.given, "rb") as given, open(out, "wb") as written:
            subprocess.run([program], stdin=given, stdout=written, cwd=inputs / work.folder, check=True)
    return clock() - begin


def compare(work, inputs, repeats, cpu):
    """A line of the table: both programs in turn, each repeat."""
    ours, plain, outs = [], [], [inputs / "out-ours", inputs / "out-plain"]
    same = True
    for _ in range(repeats):
        ours.append(spent(work.ours, inputs, work, outs[0], cpu))
        plain.append(spent(PLAIN / work.plain, inputs, work, outs[1], cpu))
        same = same and outs[0].read_bytes() == outs[1].read_bytes()
    best, median = min(ours) / min(plain), statistics.median(ours) / statistics.median(plain)
    times = f"{min(ours):.3f} {statistics.median(ours):.3f} | {min(plain):.3f} {statistics.median(plain):.3f}"
    written = f"{outs[1].stat().st_size:,} bytes, {'same' if same else 'NOT THE SAME'}"
    return f"| {work.what} | {times} | {best:.2f} | {median:.2f} | {work.most} | {written} |"


def main():
    parser = argparse.ArgumentParser(description=__doc__, formatter_class=argparse.RawDescriptionHelpFormatter)
    parser.add_argument("--repeats", type=int, default=7)
    parser.add_argument("--cpu", action="store_true", help="processor time in place of the clock's")
    parser.add_argument("--inputs", type=Path)
    for name in "bounds", "sheet-cases", "play", "finish":
        crate = {"finish": "table_timing"}.get(name, name.replace("-", "_"))
        parser.add_argument(f"--{name}", type=Path, default=CRATES / crate / "out" / crate)
    args = parser.parse_args()
    if args.inputs:
        args.inputs.mkdir(exist_ok=True)
        return write_inputs(args.inputs)
    subprocess.run(["cargo", "build", "--release", "--quiet"], cwd=HERE, check=True)
    print("| work | ours, best and median s | plain, best and median s | ratio of best | of median | at most | output |")
    print("|---|---|---|---|---|---|---|")
    with tempfile.TemporaryDirectory() as folder:
        write_inputs(Path(folder))
        for work in works(args):
            work.ours = work.ours.resolve()
            if work.ours.exists():
                print(compare(work, Path(folder), args.repeats, args.cpu), flush=True)
            else:
                print(f"{work.what}: no program {work.ours}", file=sys.stderr)


main()

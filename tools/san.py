#!/usr/bin/env python3
"""What is made of many runs: intervals, sweeps, curves, tables and plots.

Needs Python 3.8 or later and nothing else; `plot` draws SVG itself, and PNG where matplotlib is
there. The programs are found on the path, or in the folder that --bin or SAN_BIN names. Numbers
of the programs are whole and stay whole: sums are exact, and only what is printed is rounded.
"""
import argparse
import concurrent.futures
import csv
import hashlib
import itertools
import math
import os
import re
import subprocess
import sys
from dataclasses import dataclass
from fractions import Fraction
from typing import Dict, Iterable, List, Optional, Tuple

# The most runs that one call of sanbatch makes, and the rewards that one text may have.
MOST_RUNS = 10_000
MOST_REWARDS = 64


class Fault(Exception):
    """What went wrong, in words for the one who called."""


# Batches


@dataclass(frozen=True)
class Summary:
    """A reward over many runs; squares are None where a number was too wide to be squared."""

    name: str
    count: int
    total: int
    squares: Optional[int]
    least: Optional[int]
    greatest: Optional[int]

    def mean(self) -> Optional[Fraction]:
        return Fraction(self.total, self.count) if self.count else None

    def variance(self) -> Optional[Fraction]:
        """The variance of one run, with COUNT - 1 below."""
        if self.count < 2 or self.squares is None:
            return None
        return Fraction(self.count * self.squares - self.total**2, self.count * (self.count - 1))

    def half_width(self, level: float) -> Optional[float]:
        """Half of Student's interval of the mean."""
        variance = self.variance()
        if variance is None:
            return None
        return student(self.count - 1, level) * math.sqrt(variance / self.count)


@dataclass(frozen=True)
class Batch:
    """Many runs: how many there were, how many stopped, and each reward."""

    runs: int
    stopped: int
    rewards: Tuple[Summary, ...]


def number_or(word: str, other: str) -> Optional[int]:
    return None if word == other else int(word)


def read_batch(text: str) -> Batch:
    """The batch that a text of sanbatch tells."""
    lines = [line.split() for line in text.splitlines() if line.strip()]
    try:
        (first, runs, second, stopped), *rest = lines
        if (first, second) != ("runs", "stopped") or any(line[0] != "batch" for line in rest):
            raise ValueError
        rewards = tuple(
            Summary(
                name,
                int(count),
                int(total),
                number_or(squares, "wide"),
                number_or(least, "none"),
                number_or(greatest, "none"),
            )
            for _, name, count, total, squares, least, greatest in rest
        )
        return Batch(int(runs), int(stopped), rewards)
    except ValueError:
        raise Fault("this isn't a text of sanbatch") from None


def written(batch: Batch) -> str:
    """The text of a batch, as sanbatch writes it."""
    lines = [f"runs {batch.runs} stopped {batch.stopped}"]
    for r in batch.rewards:
        squares = "wide" if r.squares is None else r.squares
        least = "none" if r.least is None else r.least
        greatest = "none" if r.greatest is None else r.greatest
        lines.append(f"batch {r.name} {r.count} {r.total} {squares} {least} {greatest}")
    return "\n".join(lines) + "\n"


def known(numbers: Iterable[Optional[int]]) -> List[int]:
    return [n for n in numbers if n is not None]


def joined_summary(parts: List[Summary]) -> Summary:
    squares = [p.squares for p in parts]
    return Summary(
        parts[0].name,
        sum(p.count for p in parts),
        sum(p.total for p in parts),
        None if None in squares else sum(known(squares)),
        min(known(p.least for p in parts), default=None),
        max(known(p.greatest for p in parts), default=None),
    )


def joined(batches: List[Batch]) -> Batch:
    """The batch of all runs of batches of one model."""
    names = [[r.name for r in b.rewards] for b in batches]
    if any(n != names[0] for n in names):
        raise Fault("the batches are of different rewards")
    columns = zip(*(b.rewards for b in batches))
    return Batch(
        sum(b.runs for b in batches),
        sum(b.stopped for b in batches),
        tuple(joined_summary(list(column)) for column in columns),
    )


# Quantiles, from the standard library alone


def beta_part(a: float, b: float, x: float) -> float:
    """The incomplete beta function over the whole one, by its continued fraction."""
    if x <= 0.0:
        return 0.0
    if x >= 1.0:
        return 1.0
    if x > (a + 1) / (a + b + 2):
        return 1.0 - beta_part(b, a, 1.0 - x)
    front = math.exp(
        math.lgamma(a + b) - math.lgamma(a) - math.lgamma(b) + a * math.log(x) + b * math.log1p(-x)
    )
    tiny = 1e-300
    c, d = 1.0, 1.0 / max(1.0 - (a + b) * x / (a + 1), tiny)
    value = d
    for m in range(1, 500):
        for term in (
            m * (b - m) * x / ((a + 2 * m - 1) * (a + 2 * m)),
            -(a + m) * (a + b + m) * x / ((a + 2 * m) * (a + 2 * m + 1)),
        ):
            d = 1.0 + term * d
            d = 1.0 / (d if abs(d) > tiny else tiny)
            c = 1.0 + term / c
            c = c if abs(c) > tiny else tiny
            value *= c * d
        if abs(c * d - 1.0) < 1e-14:
            break
    return front * value / a


def student(freedom: int, level: float) -> float:
    """The t for which Student's distribution lies within -t and t with this chance."""
    low, high = 0.0, 1.0

    def within(t: float) -> float:
        return 1.0 - beta_part(freedom / 2, 0.5, freedom / (freedom + t * t))

    while within(high) < level:
        high *= 2
    for _ in range(200):
        middle = (low + high) / 2
        low, high = (middle, high) if within(middle) < level else (low, middle)
    return (low + high) / 2


def wilson(hits: int, runs: int, level: float) -> Tuple[float, float]:
    """Wilson's interval of a chance of which so many of the runs hit."""
    z = student(10**7, level)
    p = hits / runs
    middle = p + z * z / (2 * runs)
    spread = z * math.sqrt(p * (1 - p) / runs + z * z / (4 * runs * runs))
    whole = 1 + z * z / runs
    return max(0.0, (middle - spread) / whole), min(1.0, (middle + spread) / whole)


# Programs and models


def program(name: str, folder: Optional[str]) -> str:
    folder = folder or os.environ.get("SAN_BIN")
    return os.path.join(folder, name) if folder else name


def call(words: List[str], text: str) -> str:
    """What a program prints of a text; a fault where it ends with another status than 0 or 6."""
    try:
        done = subprocess.run(words, input=text.encode(), stdout=subprocess.PIPE, stderr=subprocess.PIPE)
    except OSError as fault:
        raise Fault(f"{words[0]} can't be run: {fault.strerror}") from None
    if done.returncode not in (0, 6):
        raise Fault(f"{os.path.basename(words[0])}: {done.stderr.decode().strip() or done.returncode}")
    return done.stdout.decode()


def read_text(path: str) -> str:
    try:
        if path == "-":
            return sys.stdin.read()
        with open(path, encoding="utf-8") as file:
            return file.read()
    except OSError as fault:
        raise Fault(f"{path}: {fault.strerror}") from None


def run_words(options: argparse.Namespace) -> List[str]:
    """The limits of a run, as the programs want them."""
    words = ["--horizon", str(options.horizon)]
    for name in ("burst", "events"):
        if getattr(options, name) is not None:
            words += [f"--{name}", str(getattr(options, name))]
    return words


def make_batch(options: argparse.Namespace, text: str, seed: int, runs: int, workers: int = 0) -> Batch:
    """A batch of any number of runs from a seed on."""
    parts = []
    for first in range(0, runs, MOST_RUNS):
        words = [program("sanbatch", options.bin), *run_words(options)]
        words += ["--seed", str(seed + first), "--runs", str(min(MOST_RUNS, runs - first))]
        words += ["--workers", str(workers or options.workers)]
        parts.append(read_batch(call(words, text)))
    return joined(parts)


def without_comments(text: str) -> str:
    return re.sub(r"#[^\n]*", "", text)


def lengths(text: str) -> Dict[str, int]:
    """The ticks of each mean reward of a model text."""
    found = re.findall(r"\breward\s+(\w+)\s+on\s+\w+\s+mean\s+(\d+)\s+(\d+)", without_comments(text))
    return {name: int(end) - int(start) for name, start, end in found}


def shown(number: Optional[float]) -> str:
    return "none" if number is None else f"{float(number):.6g}"


def interval_line(r: Summary, ticks: int, level: float, stopped: int, runs: int) -> str:
    mean, half = r.mean(), r.half_width(level)
    if mean is None:
        return f"{r.name} no run has a number"
    words = [r.name, "mean", shown(mean / ticks)]
    if half is None:
        words.append("no interval: " + ("a number is too wide" if r.squares is None else "one run"))
    else:
        words += ["half-width", shown(half / ticks)]
        words += ["relative", shown(half / abs(mean)) if mean else "none"]
    words += ["least", shown(Fraction(r.least or 0) / ticks), "greatest", shown(Fraction(r.greatest or 0) / ticks)]
    if r.count < runs:
        others = runs - stopped - r.count
        words.append(f"of {r.count} runs: {stopped} stopped and {others} without a number are left out")
    return " ".join(words)


def intervals(options: argparse.Namespace) -> None:
    batch = read_batch(read_text(options.file))
    ticks = lengths(read_text(options.model)) if options.model else {}
    for pair in options.ticks:
        name, _, number = pair.partition("=")
        if not number.isdigit() or int(number) == 0:
            raise Fault(f"--ticks {pair}: say NAME=N")
        ticks[name] = int(number)
    for r in batch.rewards:
        print(interval_line(r, ticks.get(r.name, 1), options.level / 100, batch.stopped, batch.runs))


def merge(options: argparse.Namespace) -> None:
    batches, spans = [], []
    for word in options.files:
        path, at, seed = word.rpartition("@")
        if not at or not seed.isdigit():
            raise Fault(f"{word}: say FILE@SEED, with the first seed of the batch")
        batch = read_batch(read_text(path))
        batches.append(batch)
        spans.append((int(seed), int(seed) + batch.runs, path))
    spans.sort()
    for before, after in zip(spans, spans[1:]):
        if after[0] < before[1]:
            raise Fault(f"{before[2]} and {after[2]} have seed {after[0]} both")
    print(written(joined(batches)), end="")


def bound(word: str) -> Tuple[Fraction, bool]:
    """A half-width that is asked for, and whether it is a share of the mean."""
    try:
        if word.endswith("%"):
            return Fraction(word[:-1]) / 100, True
        return Fraction(word), False
    except (ValueError, ZeroDivisionError):
        raise Fault(f"--within {word}: say a number, or a number with %") from None


def find(batch: Batch, name: str) -> Summary:
    for r in batch.rewards:
        if r.name == name:
            return r
    raise Fault(f"the model has no reward {name}")


def until(options: argparse.Namespace) -> None:
    text, (width, relative) = read_text(options.model), bound(options.within)
    ticks = lengths(text).get(options.reward, 1)
    batch: Optional[Batch] = None
    done = 0
    while done < options.most:
        block = min(options.block, options.most - done)
        made = make_batch(options, text, options.seed + done, block)
        batch, done = made if batch is None else joined([batch, made]), done + block
        r = find(batch, options.reward)
        mean, half = r.mean(), r.half_width(options.level / 100)
        if mean is not None and half is not None and half / ticks <= width * (abs(mean) / ticks if relative else 1):
            break
    if batch is None:
        raise Fault("no run was asked for")
    print(written(batch), end="")
    line = interval_line(find(batch, options.reward), ticks, options.level / 100, batch.stopped, batch.runs)
    print(f"{line}\n(runs went on until the interval was narrow enough, so it is a little too narrow)", file=sys.stderr)


# Sweeps


def values(word: str) -> List[int]:
    """The numbers of `1,2,4..64` or `0..1000/50`."""
    numbers = []
    for item in word.split(","):
        match = re.fullmatch(r"(-?\d+)(?:\.\.(-?\d+)(?:/(\d+))?)?", item)
        if not match or match.group(3) == "0":
            raise Fault(f"{word}: say numbers as 1,2,4..64 or 0..1000/50")
        first, last, step = match.group(1), match.group(2) or match.group(1), match.group(3) or "1"
        numbers += range(int(first), int(last) + 1, int(step))
    return numbers


def settings(words: List[str]) -> Dict[str, List[int]]:
    found = {}
    for word in words:
        name, equals, numbers = word.partition("=")
        if not equals:
            raise Fault(f"--set {word}: say NAME=VALUES")
        found[name] = values(numbers)
    return found


def filled(text: str, combination: Dict[str, int]) -> str:
    """The text with a number for each ${NAME}."""
    names = set(re.findall(r"\$\{(\w+)\}", text))
    missing, unused = names - combination.keys(), combination.keys() - names
    if missing or unused:
        name = sorted(missing or unused)[0]
        raise Fault(f"${{{name}}} " + ("has no --set" if missing else "isn't in the model"))
    return re.sub(r"\$\{(\w+)\}", lambda m: str(combination[m.group(1)]), text)


REWARD_COLUMNS = ["reward", "runs", "stopped", "count", "sum", "squares", "least", "greatest", "mean", "half_width"]


def reward_row(r: Summary, batch: Batch, ticks: int, level: float) -> List[str]:
    mean, half = r.mean(), r.half_width(level)
    cells = [r.name, batch.runs, batch.stopped, r.count, r.total]
    cells += ["wide" if r.squares is None else r.squares, r.least, r.greatest]
    return ["" if c is None else str(c) for c in cells] + [
        "" if mean is None else shown(mean / ticks),
        "" if half is None else shown(half / ticks),
    ]


def done_before(path: Optional[str], names: List[str]) -> set:
    """The combinations whose rows stand in a table already."""
    if not path or not os.path.exists(path):
        return set()
    with open(path, newline="", encoding="utf-8") as file:
        return {tuple(row[n] for n in [*names, "seed"]) for row in csv.DictReader(file)}


def sweep(options: argparse.Namespace) -> None:
    text, sets = read_text(options.model), settings(options.set)
    names = list(sets)
    standing = done_before(options.out, names)
    jobs = []
    for index, numbers in enumerate(itertools.product(*sets.values())):
        seed = options.seed + (index * options.runs if options.own_seeds else 0)
        if tuple(map(str, [*numbers, seed])) not in standing:
            jobs.append((numbers, seed, filled(text, dict(zip(names, numbers)))))

    def rows(job) -> List[List[str]]:
        numbers, seed, made = job
        batch, ticks = make_batch(options, made, seed, options.runs), lengths(made)
        return [
            [*map(str, numbers), str(seed), *reward_row(r, batch, ticks.get(r.name, 1), options.level / 100)]
            for r in batch.rewards
        ]

    out = open(options.out, "a", newline="", encoding="utf-8") if options.out else sys.stdout
    table = csv.writer(out, lineterminator="\n")
    if not standing:
        table.writerow([*names, "seed", *REWARD_COLUMNS])
    with concurrent.futures.ThreadPoolExecutor(options.jobs) as pool:
        for made in pool.map(rows, jobs):
            table.writerows(made)
            out.flush()


# Single runs


@dataclass(frozen=True)
class Report:
    """A report: completions, the words of the ending, and the rewards."""

    events: List[Tuple[int, int, str, int]]
    ending: List[str]
    rewards: Dict[str, str]


def read_report(text: str) -> Report:
    events, ending, rewards = [], [], {}
    for line in text.splitlines():
        words = line.split()
        if words[0].isdigit():
            events.append((int(words[0]), int(words[1]), words[2], int(words[3])))
        elif words[0] == "reward":
            rewards[words[1]] = words[2]
        else:
            ending = words
    if not ending:
        raise Fault("this isn't a report")
    return Report(events, ending, rewards)


def report_of(options: argparse.Namespace, text: str, seed: int) -> str:
    return call([program("sanplain", options.bin), "--seed", str(seed), *run_words(options)], text)


def each_seed(options: argparse.Namespace, make) -> Iterable:
    seeds = range(options.seed, options.seed + options.runs)
    with concurrent.futures.ThreadPoolExecutor(options.jobs) as pool:
        yield from zip(seeds, pool.map(make, seeds))


def runs(options: argparse.Namespace) -> None:
    text = read_text(options.model)
    table = csv.writer(sys.stdout, lineterminator="\n")
    names: Optional[List[str]] = None
    for seed, report in each_seed(options, lambda s: read_report(report_of(options, text, s))):
        if names is None:
            names = list(report.rewards)
            table.writerow(["seed", "ending", "events", *names])
        table.writerow([seed, report.ending[0], report.ending[-1], *(report.rewards[n] for n in names)])


def fingerprint(options: argparse.Namespace) -> None:
    lines = []
    for path in options.models:
        text = read_text(path)
        for seed in values(options.seeds):
            digest = hashlib.sha256(report_of(options, text, seed).encode()).hexdigest()
            lines.append(f"{digest}  {os.path.basename(path)} {seed}")
    if not options.check:
        print("\n".join(lines))
        return
    stored = read_text(options.check).splitlines()
    changed = [line for line in lines if line not in stored]
    for line in changed:
        print("changed:", line.split("  ")[1])
    if changed:
        raise Fault(f"{len(changed)} of {len(lines)} runs changed")
    print(f"{len(lines)} runs are as they were")


def curve(options: argparse.Namespace) -> None:
    text = read_text(options.model)
    pattern = r"\breward\s+" + re.escape(options.reward) + r"\s+on\s+(\w+)\s+(?:over|mean|at)[\s\d]+\{([^}]*)\}"
    found = re.search(pattern, without_comments(text))
    if not found:
        raise Fault(f"the model has no reward {options.reward}")
    front = re.sub(r"\breward\s[^}]*\}", "", without_comments(text))
    table = csv.writer(sys.stdout, lineterminator="\n")
    table.writerow(["tick", "count", "mean", "half_width"])
    ticks = values(options.at)
    for first in range(0, len(ticks), MOST_REWARDS):
        some = ticks[first : first + MOST_REWARDS]
        lines = [f"reward at_{t} on {found.group(1)} at {t} {{{found.group(2)}}}" for t in some]
        batch = make_batch(options, front + "\n".join(lines) + "\n", options.seed, options.runs)
        for tick, r in zip(some, batch.rewards):
            table.writerow([tick, r.count, shown(r.mean()), shown(r.half_width(options.level / 100))])


def report_table(options: argparse.Namespace) -> None:
    report = read_report(read_text(options.file))
    table = csv.writer(sys.stdout, lineterminator="\n")
    table.writerow(["number", "tick", "activity", "case"])
    table.writerows(report.events)
    table.writerow([report.ending[-1], report.ending[-2], " ".join(report.ending[:-2]), ""])
    table.writerows(["", "", f"reward {name}", worth] for name, worth in report.rewards.items())


# Places by their paths


class Model:
    """The places and the composition of a model text that the programs accept."""

    def __init__(self, text: str) -> None:
        self.words = re.findall(r"[a-z]\w*|\d+|[^\s\w]", without_comments(text))
        self.at = 3
        self.atomics: Dict[str, List[Tuple[str, int]]] = {}
        self.reps: Dict[str, Tuple[str, int, List[str]]] = {}
        self.joins: Dict[str, Tuple[List[Tuple[str, str]], List[Tuple[str, List[Tuple[str, str]]]]]] = {}
        while self.peek() in ("atomic", "join", "rep"):
            {"atomic": self.atomic, "join": self.join, "rep": self.rep}[self.take()]()
        self.take()
        self.system = self.take()

    def peek(self) -> str:
        return self.words[self.at]

    def take(self) -> str:
        self.at += 1
        return self.words[self.at - 1]

    def skip(self, word: str) -> None:
        while self.take() != word:
            pass

    def names(self) -> List[str]:
        found = [self.take()]
        while self.take() == ",":
            found.append(self.take())
        return found

    def atomic(self) -> None:
        name, places = self.take(), []
        self.take()
        while self.peek() == "place":
            self.take()
            place, length = self.take(), 0
            if self.peek() == "[":
                length = int(self.words[self.at + 1])
            places.append((place, length))
            self.skip(";")
        self.atomics[name] = places
        depth = 1
        while depth:
            depth += {"{": 1, "}": -1}.get(self.take(), 0)

    def rep(self) -> None:
        name, _, model, _, copies = (self.take() for _ in range(5))
        shares = []
        if self.take() == "{":
            while self.take() == "share":
                shares += self.names()
        self.reps[name] = (model, int(copies), shares)

    def join(self) -> None:
        name, children, shares = self.take(), [], []
        self.take()
        while self.peek() != "}":
            kind, own = self.take(), self.take()
            self.take()
            if kind == "child":
                children.append((own, self.take()))
                self.take()
            else:
                shares.append((own, self.share()))
        self.take()
        self.joins[name] = (children, shares)

    def share(self) -> List[Tuple[str, str]]:
        parts = []
        while True:
            child, _, place = self.take(), self.take(), self.take()
            parts.append((child, place))
            if self.take() == ";":
                return parts

    def cells(self, model: str, path: str, homes: Dict[str, tuple]) -> Iterable[Tuple[str, tuple]]:
        """The path and the home of each cell below a node, whose parent gives some names a home."""
        if model in self.atomics:
            for place, length in self.atomics[model]:
                home = homes.get(place, (path, place))
                for k in range(length or 1):
                    yield f"{path}.{place}" + (f"[{k}]" if length else ""), (home, k)
        elif model in self.reps:
            inner, copies, shares = self.reps[model]
            shared = {s: homes.get(s, (path, s)) for s in shares}
            for k in range(copies):
                yield from self.cells(inner, f"{path}[{k}]", shared)
        else:
            children, shares = self.joins[model]
            for child, inner in children:
                shared = {p: homes.get(s, (path, s)) for s, parts in shares for c, p in parts if c == child}
                yield from self.cells(inner, f"{path}.{child}", shared)

    def places(self) -> Dict[str, int]:
        """The number of each cell: the shared ones first, each kind in order of appearance."""
        cells = list(self.cells(self.system, self.system, {}))
        many: Dict[tuple, set] = {}
        for path, home in cells:
            many.setdefault(home, set()).add(path.rpartition(".")[0])
        order = [h for h in many if len(many[h]) > 1] + [h for h in many if len(many[h]) == 1]
        numbers = {home: n for n, home in enumerate(order)}
        return {path: numbers[home] for path, home in cells}


def place(options: argparse.Namespace) -> None:
    numbers = Model(call([program("sanshow", options.bin)], read_text(options.model))).places()
    if not options.path:
        for path, number in numbers.items():
            print(number, path)
    elif options.path in numbers:
        print(numbers[options.path])
    else:
        raise Fault(f"there is no place {options.path}")


# First passages


def passage_of(text: str) -> str:
    """The tick that a text of sanfirst tells of one run, or how that run ended without it."""
    try:
        first, second = (line.split() for line in text.splitlines())
        reached, never, stopped = (int(first[k]) for k in (3, 5, 7))
        if reached + never + stopped != 1 or second[0] != "first":
            raise ValueError
    except (ValueError, IndexError):
        raise Fault("this isn't a text of sanfirst for one run") from None
    return second[1] if reached else "never" if never else "stopped"


def shares(ticks: List[int], runs: int) -> List[Tuple[int, Fraction]]:
    """For each tick of a passage, the share of the runs that had theirs by then."""
    return [(tick, Fraction(sum(t <= tick for t in ticks), runs)) for tick in sorted(set(ticks))]


def place_number(options: argparse.Namespace, text: str) -> str:
    if options.place.isdigit():
        return options.place
    numbers = Model(call([program("sanshow", options.bin)], text)).places()
    if options.place not in numbers:
        raise Fault(f"there is no place {options.place}")
    return str(numbers[options.place])


def passages(options: argparse.Namespace) -> None:
    text = read_text(options.model)
    words = [program("sanfirst", options.bin), *run_words(options), "--runs", "1", "--workers", "1"]
    words += ["--place", place_number(options, text), "--least", str(options.least)]
    found = list(each_seed(options, lambda s: passage_of(call([*words, "--seed", str(s)], text))))
    ticks = [int(passage) for _, passage in found if passage.isdigit()]
    stopped = sum(passage == "stopped" for _, passage in found)
    table = csv.writer(sys.stdout, lineterminator="\n")
    if options.distribution:
        table.writerow(["tick", "share"])
        table.writerows([tick, shown(share)] for tick, share in shares(ticks, len(found) - stopped))
    else:
        table.writerow(["seed", "passage"])
        table.writerows(found)
    print(passage_line(ticks, len(found) - stopped, stopped, options.level / 100), file=sys.stderr)


def passage_line(ticks: List[int], runs: int, stopped: int, level: float) -> str:
    """The chance of a passage by the horizon, and the mean tick of those that came."""
    if not runs:
        return "every run stopped"
    low, high = wilson(len(ticks), runs, level)
    words = [f"reached {len(ticks)} of {runs}: chance {shown(len(ticks) / runs)}, {shown(low)} to {shown(high)}"]
    summary = Summary("", len(ticks), sum(ticks), sum(t * t for t in ticks), None, None)
    mean, half = summary.mean(), summary.half_width(level)
    if mean is not None:
        words.append(f"mean tick of these {shown(mean)}" + (f", half-width {shown(half)}" if half is not None else ""))
    if len(ticks) < runs:
        words.append("the others come later than the horizon, so their ticks are unknown")
    if stopped:
        words.append(f"{stopped} stopped runs are left out")
    return "; ".join(words)


# Plots

WIDTH, HEIGHT, MARGIN = 720, 440, 60
COLOURS = ["#1b6ca8", "#c8553d", "#588157", "#7b5ea7", "#b08900", "#3a3a3a"]


@dataclass
class Series:
    label: str
    points: List[Tuple[float, float, float]]


def series_of(options: argparse.Namespace) -> List[Series]:
    found: Dict[str, Series] = {}
    for row in csv.DictReader(read_text(options.file).splitlines()):
        label = " ".join(row[name] for name in options.by)
        if (options.only and options.only not in row.values()) or row.get(options.y) in ("", "none", None):
            continue
        half = row.get("half_width") or "0"
        point = (float(row[options.x]), float(Fraction(row[options.y])), float(half) if half != "none" else 0.0)
        found.setdefault(label, Series(label, [])).points.append(point)
    if not found:
        raise Fault("there is nothing to draw")
    return list(found.values())


def scale(low: float, high: float, first: float, last: float):
    wide = (high - low) or 1.0
    return lambda v: first + (v - low) / wide * (last - first)


def svg(lines: List[Series], x: str, y: str) -> str:
    points = [p for s in lines for p in s.points]
    left, right = min(p[0] for p in points), max(p[0] for p in points)
    low, high = min(p[1] - p[2] for p in points), max(p[1] + p[2] for p in points)
    across, up = scale(left, right, MARGIN, WIDTH - MARGIN), scale(low, high, HEIGHT - MARGIN, MARGIN)
    parts = [f'<svg xmlns="http://www.w3.org/2000/svg" width="{WIDTH}" height="{HEIGHT}" font-family="sans-serif" font-size="12">']
    parts.append(f'<rect width="{WIDTH}" height="{HEIGHT}" fill="white"/>')
    parts.append(f'<path d="M{MARGIN} {MARGIN}V{HEIGHT - MARGIN}H{WIDTH - MARGIN}" fill="none" stroke="#444"/>')
    for k in range(5):
        v, w = left + (right - left) * k / 4, low + (high - low) * k / 4
        parts.append(f'<text x="{across(v):.1f}" y="{HEIGHT - MARGIN + 18}" text-anchor="middle">{v:.4g}</text>')
        parts.append(f'<text x="{MARGIN - 6}" y="{up(w) + 4:.1f}" text-anchor="end">{w:.4g}</text>')
    parts.append(f'<text x="{WIDTH / 2}" y="{HEIGHT - 14}" text-anchor="middle">{x}</text>')
    parts.append(f'<text x="{MARGIN}" y="{MARGIN - 16}">{y}</text>')
    for index, line in enumerate(lines):
        colour = COLOURS[index % len(COLOURS)]
        path = "L".join(f"{across(px):.1f} {up(py):.1f}" for px, py, _ in sorted(line.points))
        parts.append(f'<path d="M{path}" fill="none" stroke="{colour}"/>')
        for px, py, half in line.points:
            parts.append(f'<path d="M{across(px):.1f} {up(py - half):.1f}V{up(py + half):.1f}" stroke="{colour}"/>')
            parts.append(f'<circle cx="{across(px):.1f}" cy="{up(py):.1f}" r="2.5" fill="{colour}"/>')
        parts.append(f'<text x="{WIDTH - MARGIN + 4}" y="{MARGIN + 16 * index}" fill="{colour}">{line.label}</text>')
    return "\n".join([*parts, "</svg>"]) + "\n"


def png(lines: List[Series], x: str, y: str, path: str) -> None:
    try:
        import matplotlib
    except ImportError:
        raise Fault("a PNG needs matplotlib; name an .svg file, which needs nothing") from None
    matplotlib.use("Agg")
    from matplotlib import pyplot

    for line in lines:
        across, up, half = zip(*sorted(line.points))
        pyplot.errorbar(across, up, yerr=half, label=line.label)
    pyplot.xlabel(x)
    pyplot.ylabel(y)
    pyplot.legend()
    pyplot.savefig(path)


def plot(options: argparse.Namespace) -> None:
    lines = series_of(options)
    if options.out.endswith(".png"):
        png(lines, options.x, options.y, options.out)
        return
    with open(options.out, "w", encoding="utf-8") as file:
        file.write(svg(lines, options.x, options.y))


# The command line


def limits_options(parser: argparse.ArgumentParser, runs_of: Optional[int] = None) -> None:
    parser.add_argument("--horizon", type=int, required=True, help="the last tick")
    parser.add_argument("--burst", type=int, help="as of the programs")
    parser.add_argument("--events", type=int, help="as of the programs")
    parser.add_argument("--seed", type=int, default=1, help="the first seed (1)")
    parser.add_argument("--workers", type=int, default=4, help="threads of one sanbatch (4)")
    if runs_of is not None:
        parser.add_argument("--runs", type=int, default=runs_of, help=f"how many runs ({runs_of})")


def parser() -> argparse.ArgumentParser:
    whole = argparse.ArgumentParser(prog="san.py", description=__doc__.splitlines()[0])
    whole.add_argument("--bin", help="the folder of the programs")
    commands = whole.add_subparsers(dest="command", required=True)

    def command(name: str, does, text: str) -> argparse.ArgumentParser:
        made = commands.add_parser(name, help=text, description=text)
        made.set_defaults(does=does)
        return made

    def level(made: argparse.ArgumentParser) -> None:
        made.add_argument("--level", type=float, default=95, help="the chance of the interval in percent (95)")

    c = command("intervals", intervals, "means with Student's intervals, from a text of sanbatch")
    c.add_argument("file", nargs="?", default="-")
    c.add_argument("--model", help="the model, for the ticks of its mean rewards")
    c.add_argument("--ticks", action="append", default=[], metavar="NAME=N", help="divide a reward by so many ticks")
    level(c)
    c = command("merge", merge, "one batch of several with different seeds, each as FILE@SEED")
    c.add_argument("files", nargs="+", metavar="FILE@SEED")
    c = command("until", until, "runs until a reward's interval is narrow enough")
    c.add_argument("model")
    c.add_argument("--reward", required=True)
    c.add_argument("--within", required=True, help="the half-width: 0.5, or 1%% of the mean")
    c.add_argument("--block", type=int, default=1000, help="runs between two looks (1000)")
    c.add_argument("--most", type=int, default=100_000, help="the most runs (100000)")
    limits_options(c)
    level(c)
    c = command("sweep", sweep, "a table over all values of the ${NAME} of a model")
    c.add_argument("model")
    c.add_argument("--set", action="append", required=True, metavar="NAME=1,2,4..64")
    c.add_argument("--own-seeds", action="store_true", help="other seeds for each combination")
    c.add_argument("--jobs", type=int, default=1, help="how many sanbatch at once (1)")
    c.add_argument("--out", help="the table; rows that stand there aren't made again")
    limits_options(c, 1000)
    level(c)
    c = command("runs", runs, "a table with one row for each seed")
    c.add_argument("model")
    c.add_argument("--jobs", type=int, default=4)
    limits_options(c, 100)
    c = command("passages", passages, "for each seed the tick at which a place first has at least a value")
    c.add_argument("model")
    c.add_argument("--place", required=True, help="the place's path or number")
    c.add_argument("--least", type=int, required=True, help="the value")
    c.add_argument("--distribution", action="store_true", help="the share of runs by each tick, in place of a line a seed")
    c.add_argument("--jobs", type=int, default=4)
    limits_options(c, 100)
    level(c)
    c = command("curve", curve, "a reward's mean at many ticks")
    c.add_argument("model")
    c.add_argument("--reward", required=True)
    c.add_argument("--at", required=True, metavar="0..1000/50")
    limits_options(c, 1000)
    level(c)
    c = command("csv", report_table, "a report as a table")
    c.add_argument("file", nargs="?", default="-")
    c = command("plot", plot, "lines with error bars from a table, as SVG")
    c.add_argument("file")
    c.add_argument("--x", required=True)
    c.add_argument("--y", default="mean")
    c.add_argument("--by", action="append", default=[], help="a column; a line for each of its values")
    c.add_argument("--only", help="only rows in which this value stands")
    c.add_argument("--out", required=True, metavar="FILE.svg")
    c = command("place", place, "the number of a place by its path, or of all places")
    c.add_argument("model")
    c.add_argument("path", nargs="?")
    c = command("fingerprint", fingerprint, "the SHA-256 of reports, and which of them changed")
    c.add_argument("models", nargs="+")
    c.add_argument("--seeds", default="1..20")
    c.add_argument("--check", help="a file with earlier lines")
    limits_options(c)
    return whole


def main(words: Optional[List[str]] = None) -> int:
    options = parser().parse_args(words)
    try:
        options.does(options)
    except Fault as fault:
        print(f"san.py: {fault}", file=sys.stderr)
        return 2
    except BrokenPipeError:
        sys.stderr.close()
        return 1
    return 0


if __name__ == "__main__":
    sys.exit(main())

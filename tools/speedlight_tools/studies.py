"""Plans of studies: the grid of runs, their inputs, and what their reports add up to."""

import copy
import csv
import itertools
import math
import os
import re
import subprocess
import sys
import tomllib
from pathlib import Path

from . import program
from .inputs import Refusal, check, parse, text_of
from .looks import COLOURS, pyplot, svg_of
from .reports import VERDICTS, NoReport, read_report

# What a grid may vary: the key of the input that each name stands for.
KEYS = {name: ("snapshot", name) for name in ("bits", "window", "ring", "count", "retries", "credits", "version")}
KEYS |= {name: ("loss", name) for name in ("seed", "cable", "crossbar", "init", "notice")}
# And what it may vary of the parameters of a topology.
PARAMETERS = ("every", "passes")
# The most points of a grid.
MOST_RUNS = 20_000
# The most inputs that are made of one topology.
MOST_PACES = 200
COMMANDS = ("step", "run")
LOSSES = ("cable", "crossbar", "init", "notice")
COUNTS = (*VERDICTS, "issued", "collected", "resent", "sent", "delivered", *(f"lost_{sort}" for sort in LOSSES))


class NoPlan(Exception):
    """The plan can't be followed; the message says why."""


class Plan:
    """A plan: the document of its input, the values of its grid, and its pictures."""

    def __init__(self, path):
        self.path = Path(path)
        with open(path, "rb") as file:
            try:
                doc = tomllib.load(file)
            except (tomllib.TOMLDecodeError, UnicodeDecodeError) as error:
                raise NoPlan(f"{path}: this is no TOML document: {error}") from None
            except (RecursionError, ValueError) as error:
                raise NoPlan(f"{path}: this is no plan: {str(error)[:80]}") from None
        allowed = {"title", "input", "topology", "command", "grid", "picture"}
        only(doc, allowed, "the plan")
        for key in ("title", "input", "topology"):
            if not isinstance(doc.get(key, ""), str):
                raise NoPlan(f"`{key}` is a text in quotes, not {doc[key]}")
        rows = doc.get("picture", [])
        if not isinstance(rows, list) or not all(isinstance(row, dict) for row in rows):
            raise NoPlan("pictures are tables: each begins with [[picture]]")
        self.title = doc.get("title", self.path.stem)
        self.grid = self.read_grid(doc.get("grid"), "topology" in doc)
        if "command" in doc:
            self.grid.setdefault("command", [doc["command"]])
        self.grid.setdefault("command", ["step"])
        if not set(self.grid["command"]) <= set(COMMANDS):
            raise NoPlan(f"command is {' or '.join(COMMANDS)}, not {self.grid['command']}")
        self.bases = self.read_bases(doc)
        self.pictures = [self.read_picture(i, row) for i, row in enumerate(doc.get("picture", []))]
        if len({p["name"] for p in self.pictures}) != len(self.pictures):
            raise NoPlan("two pictures have one name")

    def read_grid(self, grid, with_topology):
        if not isinstance(grid, dict) or not grid:
            raise NoPlan("a plan has a table [grid], such as window = [1, 2, 3]")
        for name in PARAMETERS:
            if name in grid and not with_topology:
                raise NoPlan(f"[grid] has `{name}`, which goes with `topology`: of an input, another pace is another input, with a plan of its own")
        only(grid, {*KEYS, *PARAMETERS, "command"}, "[grid]")
        return {name: values_of(name, values) for name, values in grid.items()}

    def read_bases(self, doc):
        """The documents that the points change, by the point's values of PARAMETERS."""
        if ("input" in doc) == ("topology" in doc):
            raise NoPlan("a plan has one of `input`, a file beside it, and `topology`, parameters of tools/topology")
        if "input" in doc:
            return {(): parse((self.path.parent / doc["input"]).read_bytes())}
        names = [name for name in self.grid if name in PARAMETERS]
        if math.prod(len(self.grid[name]) for name in names) > MOST_PACES:
            raise NoPlan(f"[grid] has more than {MOST_PACES} pairs of {' and '.join(names)}")
        paces = itertools.product(*(self.grid[name] for name in names))
        return {pace: self.made(doc["topology"], dict(zip(names, pace))) for pace in paces}

    def made(self, topology, parameters):
        words = [word for name, value in parameters.items() for word in (f"--{name}", str(value))]
        call = [sys.executable, str(program.script("topology")), *topology.split(), *words]
        done = subprocess.run(call, capture_output=True, env={**os.environ, "PYTHONPATH": str(program.PACKAGE.parent)})
        if done.returncode:
            raise NoPlan(f"topology: {done.stderr.decode().strip().splitlines()[-1]}")
        return parse(done.stdout)

    def read_picture(self, number, row):
        only(row, {"name", "across", "up", "where"}, f"picture {number}")
        for key in ("across", "up"):
            if not isinstance(row.get(key), str) or row[key] not in self.grid:
                raise NoPlan(f"picture {number}: `{key}` is one of the grid's {', '.join(self.grid)}")
        where = row.get("where", {})
        if not isinstance(where, dict) or not isinstance(row.get("name", ""), str):
            raise NoPlan(f"picture {number}: `where` is a table and `name` a text")
        for name, value in where.items():
            if value not in self.grid.get(name, []):
                raise NoPlan(f"picture {number}: the grid has no {name} = {value}")
        name = row.get("name", f"picture{number}")
        if not re.fullmatch(r"[A-Za-z0-9_-]+", name):
            raise NoPlan(f"picture {number}: a name has letters, digits, `_` and `-`")
        return {"name": name, "across": row["across"], "up": row["up"], "where": where}

    def runs(self):
        """The runs of the grid, by name, each with its values and its input; and how many points are no input."""
        runs, refused = {}, {}
        points = math.prod(map(len, self.grid.values()))
        if points > MOST_RUNS:
            sizes = " x ".join(f"{len(values)} {name}" for name, values in self.grid.items() if len(values) > 1)
            raise NoPlan(f"the grid has {points} points ({sizes}), and a study takes at most {MOST_RUNS} runs")
        for point in itertools.product(*self.grid.values()):
            values = dict(zip(self.grid, point))
            doc = copy.deepcopy(self.bases[tuple(value for name, value in values.items() if name in PARAMETERS)])
            for name, value in values.items():
                if name in KEYS:
                    table, key = KEYS[name]
                    doc.setdefault(table, {})[key] = value
            try:
                check(doc)
            except Refusal as refusal:
                refused.setdefault(self.why(refusal, doc), []).append(values)
                continue
            runs["_".join(f"{name}-{value}" for name, value in values.items())] = (values, text_of(doc))
        if not runs:
            raise NoPlan(f"no point of the grid is an input that the program takes: {', '.join(refused)}")
        return runs, refused


    def why(self, refusal, doc):
        """Why a point is no input, in words."""
        line = refusal.line.removeprefix("speedlight: ")
        if line.startswith("I6 snapshot.ring ") and "ring" not in self.grid and "window" in self.grid:
            return f"the window is above ring {doc['snapshot']['ring']}: add `ring` to [grid]"
        return line.rsplit(" ", 1)[0]


def only(table, allowed, where):
    wrong = [key for key in table if key not in allowed]
    if wrong:
        raise NoPlan(f"{where} has `{wrong[0]}`; it may have {', '.join(sorted(allowed))}")


def values_of(name, values):
    """The values of a name in the grid: a list, one value, or a text such as `1-10`."""
    if isinstance(values, str) and name != "command":
        found = re.fullmatch(r"(\d+)-(\d+)", values)
        if not found or int(found[1]) > int(found[2]):
            raise NoPlan(f'[grid] {name}: a range is written such as "1-10"')
        number = int(found[2]) - int(found[1]) + 1
        if number > MOST_RUNS:
            raise NoPlan(f"[grid] {name}: `{values}` are {number} values, and a study takes at most {MOST_RUNS} runs")
        return list(range(int(found[1]), int(found[2]) + 1))
    values = values if isinstance(values, list) else [values]
    kind = str if name == "command" else int
    if (
        not values
        or any(not isinstance(v, kind) or isinstance(v, bool) for v in values)
        or len(set(values)) != len(values)
    ):
        raise NoPlan(f"[grid] {name}: a list of different {'words' if kind is str else 'whole numbers'}")
    return values


def row_of(report):
    """What a report adds to the table."""
    verdicts = {v: sum(s.verdict == v for s in report.snapshots) for v in VERDICTS}
    hosts = list(report.host_counts.values())
    return {
        **verdicts,
        "issued": report.issued,
        "collected": report.collected,
        "resent": report.resent,
        "sent": sum(h[0] for h in hosts),
        "delivered": sum(h[1] for h in hosts),
        **{f"lost_{sort}": report.lost[sort] for sort in LOSSES},
    }


def write_table(values, reports, path):
    """The table of the runs as CSV: the values of each, then what its report says.

    Answers the runs that are not in it, each with what is wrong with its report, or with an empty text where it left none.
    """
    missing = {}
    with open(path, "w", newline="", encoding="utf-8") as file:
        table = csv.writer(file, lineterminator="\n")
        names = list(next(iter(values.values())))
        table.writerow([*names, *(c.replace(" ", "_") for c in COUNTS)])
        for name, point in values.items():
            report = Path(reports, f"{name}.report")
            if not report.exists():
                missing[name] = ""
                continue
            try:
                row = row_of(read_report(report.read_text(encoding="utf-8")))
            except (NoReport, UnicodeDecodeError) as fault:
                missing[name] = f"its report is no whole one ({fault})"
                continue
            table.writerow([*point.values(), *(row[c] for c in COUNTS)])
    return missing


def shares(rows, picture):
    """For each pair of values of the two axes, the snapshots of each verdict."""
    cells = {}
    for row in rows:
        if all(row[name] == str(value) for name, value in picture["where"].items()):
            cell = cells.setdefault((row[picture["across"]], row[picture["up"]]), dict.fromkeys(VERDICTS, 0))
            for verdict in VERDICTS:
                cell[verdict] += int(row[verdict.replace(" ", "_")])
    return cells


def write_picture(title, picture, table, path):
    """The share of each verdict over the two axes, a panel for each verdict, as SVG."""
    from matplotlib.colors import LinearSegmentedColormap

    with open(table, newline="") as file:
        rows = list(csv.DictReader(file))
    cells = shares(rows, picture)
    order = lambda place: sorted({cell[place] for cell in cells}, key=lambda v: (int(v) if v.isdecimal() else 0, v))
    xs, ys = order(0), order(1)
    shown = [v for v in VERDICTS if v != "not issued" or any(cell[v] for cell in cells.values())]
    plot = pyplot()
    wide, high = 1.2 + 0.52 * len(xs), 1.4 + 0.42 * len(ys)
    figure, axes = plot.subplots(1, len(shown), figsize=(wide * len(shown), high), squeeze=False, sharey=True)
    for axis, verdict in zip(axes[0], shown):
        colours = LinearSegmentedColormap.from_list(verdict, ["#ffffff", COLOURS[verdict]])
        grid = [[share(cells.get((x, y)), verdict) for x in xs] for y in ys]
        axis.imshow(grid, origin="lower", cmap=colours, vmin=0, vmax=100, aspect="auto")
        for j, row in enumerate(grid):
            for i, value in enumerate(row):
                if value == value:
                    axis.text(
                        i,
                        j,
                        f"{value:.0f}",
                        ha="center",
                        va="center",
                        fontsize=8,
                        color="white" if value > 60 else "black",
                    )
        axis.set_xticks(range(len(xs)), xs)
        axis.set_yticks(range(len(ys)), ys)
        axis.set_xlabel(axis_name(picture["across"]))
        axis.set_title(verdict, fontsize=10, color=COLOURS[verdict])
    axes[0][0].set_ylabel(axis_name(picture["up"]))
    where = "".join(f", {name} = {value}" for name, value in picture["where"].items())
    figure.suptitle(f"{title}: % of the snapshots{where}", fontsize=11, x=0.02, ha="left")
    figure.tight_layout()
    Path(path).write_text(svg_of(figure), encoding="utf-8")
    plot.close(figure)


def axis_name(name):
    return f"{name}: lost of a thousand" if name in LOSSES else name


def share(cell, verdict):
    total = sum(cell.values()) if cell else 0
    return 100 * cell[verdict] / total if total else float("nan")

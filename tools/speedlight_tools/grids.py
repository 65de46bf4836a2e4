"""Numbers of units over snapshots, as tables of text and as pictures."""

from .looks import COLOURS, pyplot, svg_of
from .reports import NoReport

# A picture of more snapshots has no numbers in its cells, but a scale beside them.
MOST_NUMBERS = 40


def chosen(names, words):
    """The names that the words choose, parted by commas: a unit, a port, a switch, or a whole name; all where there are no words."""
    if words is None:
        return list(names)
    found = []
    for word in words.split(","):
        word = word.strip()
        such = [n for n in names if word in (n, *parts_of(n))]
        if not such:
            raise NoReport(f"no unit, port or switch `{word}` here: the first is `{next(iter(names), 'none')}`")
        found += such
    return [n for n in names if n in found]


def parts_of(name):
    """The unit, the port and the switch of a name such as `in a.0` or `in a.0 cable`."""
    words = name.split(" ")
    port = words[1] if len(words) > 1 else words[0]
    return " ".join(words[:2]), port, port.rpartition(".")[0]


def largest(rows, number):
    """The rows with the greatest last values, in their order; all where there is no number."""
    if number is None:
        return rows
    last = lambda name: rows[name][max(rows[name])] if rows[name] else 0
    kept = sorted(rows, key=lambda name: -last(name))[:number]
    return {name: values for name, values in rows.items() if name in kept}


def changes(rows):
    """By how much each value is above that of the consistent snapshot before it."""
    found = {}
    for name, values in rows.items():
        numbers = sorted(values)
        found[name] = {n: values[n] - (values[numbers[i - 1]] if i else 0) for i, n in enumerate(numbers)}
    return found


def table(rows, head, with_changes):
    """A row for each name, a column for each snapshot; beside a total its change since the snapshot before."""
    numbers = sorted({n for values in rows.values() for n in values})
    since = changes(rows) if with_changes else {}
    cell = lambda name, n: "" if n not in rows[name] else str(rows[name][n]) + (f" (+{since[name][n]})" if with_changes else "")
    columns = [[head, *rows], *([str(n), *(cell(name, n) for name in rows)] for n in numbers)]
    wide = [max(map(len, column)) for column in columns]
    lines = []
    for i in range(len(rows) + 1):
        first, *rest = (column[i] for column in columns)
        lines.append((first.ljust(wide[0]) + "".join(f"  {word.rjust(w)}" for word, w in zip(rest, wide[1:]))).rstrip())
    return "\n".join(lines) + "\n"


def faults_behind(axis, report):
    """A pale stripe, in the colour of its verdict, for each snapshot that is not consistent."""
    used = []
    for s in report.snapshots:
        if s.verdict != "consistent":
            label = s.verdict if s.verdict not in used else None
            used.append(s.verdict)
            axis.axvspan(s.number - 0.5, s.number + 0.5, color=COLOURS[s.verdict], alpha=0.18, lw=0, label=label)


def one_grid(figure, axis, report, rows, title):
    faults_behind(axis, report)
    grid = [[values.get(n, float("nan")) for n in range(1, report.wanted + 1)] for values in rows.values()]
    most = max(max(values.values(), default=0) for values in rows.values())
    extent = (0.5, report.wanted + 0.5, len(rows) - 0.5, -0.5)
    shown = axis.imshow(grid, aspect="auto", cmap="Purples", vmin=0, vmax=max(most, 1), extent=extent)
    if report.wanted > MOST_NUMBERS:
        figure.colorbar(shown, ax=axis, label="packets", shrink=0.8)
    else:
        for y, values in enumerate(rows.values()):
            for n, value in values.items():
                if value:
                    axis.text(n, y, value, ha="center", va="center", fontsize=8, color="white" if value > most / 2 else "black")
    axis.set_xlabel("snapshot")
    axis.xaxis.get_major_locator().set_params(integer=True)
    axis.set_title(title, loc="left")


def picture(report, rows, title, with_changes):
    """A grid of numbers, a row for each name and a column for each snapshot; beside it the changes between the snapshots."""
    plot = pyplot()
    panels = 2 if with_changes else 1
    wide = 2.5 + 0.42 * min(report.wanted, 40)
    figure, axes = plot.subplots(
        1, panels, figsize=(wide * panels, 1 + 0.28 * len(rows)), squeeze=False, sharey=True, layout="constrained"
    )
    one_grid(figure, axes[0][0], report, rows, title)
    if with_changes:
        one_grid(figure, axes[0][1], report, changes(rows), "since the consistent snapshot before")
    axes[0][0].set_yticks(range(len(rows)), list(rows), fontsize=8)
    if any(s.verdict != "consistent" for s in report.snapshots):
        axes[0][-1].legend(loc="upper left", bbox_to_anchor=(1.01 if report.wanted <= MOST_NUMBERS else 1.25, 1), fontsize=8, frameon=False)
    return svg_of(figure)


def bars(values, label, title, colours=None):
    """One number for each name, as bars."""
    plot = pyplot()
    figure, axis = plot.subplots(figsize=(7, 0.8 + 0.24 * max(len(values), 1)))
    axis.bar_label(axis.barh(list(values), list(values.values()), color=colours or COLOURS["consistent"]), padding=3, fontsize=8)
    axis.invert_yaxis()
    axis.xaxis.get_major_locator().set_params(integer=True)
    axis.set_xlabel(label)
    axis.set_title(title, loc="left")
    return svg_of(figure)


def lines(series, label, title):
    """Numbers over snapshots, a line for each name."""
    plot = pyplot()
    figure, axis = plot.subplots(figsize=(7, 4))
    for name, values in series.items():
        axis.plot(list(values), list(values.values()), marker="o", markersize=3, label=name)
    axis.set_xlabel("snapshot")
    axis.set_ylabel(label)
    axis.set_ylim(bottom=0)
    axis.xaxis.get_major_locator().set_params(integer=True)
    axis.set_title(title, loc="left")
    axis.legend(loc="upper left", bbox_to_anchor=(1.01, 1), fontsize=8, frameon=False, ncol=1 + len(series) // 24)
    return svg_of(figure)

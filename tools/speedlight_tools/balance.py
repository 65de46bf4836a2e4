"""Whether the counts of a snapshot add up: over each cable, and inside each switch."""

from dataclasses import dataclass

from .nets import device_of
from .reports import NoReport


@dataclass
class Row:
    """What was sent before the cut, taken before it, in flight across it, and what is missing; packets and bytes."""

    name: str
    sent: tuple
    taken: tuple
    flight: tuple

    @property
    def missing(self):
        return tuple(s - t - f for s, t, f in zip(self.sent, self.taken, self.flight))


def counts_of(snapshot, unit):
    counts = snapshot.of(unit)
    if counts is None:
        raise NoReport(f"the report has no unit `{unit}`: is it of this input?")
    return counts


def cables(net, snapshot):
    """A row for each direction of each cable, in the order of the input."""
    rows = []
    for a, b in net.cables:
        for (d, p), (e, q) in ((a, b), (b, a)):
            sender, taker = counts_of(snapshot, f"out {d}.{p}"), counts_of(snapshot, f"in {e}.{q}")
            if "cable" not in taker.channels:
                raise NoReport(f"the report has no cable at `in {e}.{q}`: is it of this input?")
            sent, taken = (sender.packets, sender.size), (taker.packets, taker.size)
            rows.append(Row(f"{d}.{p} to {e}.{q}", sent, taken, taker.channels["cable"]))
    return rows


def switches(net, snapshot):
    """A row for each switch: what its ingress units counted, what its egress units counted, what was between."""
    rows = []
    for device in net.devices:
        units = [counts_of(snapshot, u) for u in net.units if device_of(u) == device]
        add = lambda pairs: tuple(map(sum, zip((0, 0), *pairs)))
        ins = add((c.packets, c.size) for c in units if c.unit.startswith("in "))
        outs = add((c.packets, c.size) for c in units if c.unit.startswith("out "))
        flight = add(v for c in units if c.unit.startswith("out ") for v in c.channels.values())
        rows.append(Row(device, ins, outs, flight))
    return rows


def check(report, net):
    """Raises NoReport where the report can't be of this net."""
    shape = (report.devices, report.units, report.hosts)
    if shape != (len(net.devices), len(net.units), len(net.hosts)):
        raise NoReport(
            f"the report has {shape[0]} devices, {shape[1]} units and {shape[2]} hosts: is it of this input?"
        )

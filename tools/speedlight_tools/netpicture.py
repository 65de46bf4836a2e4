"""A picture of a net: switches with their units, hosts and cables, by graphviz."""

from html import escape

import graphviz
import networkx

from . import balance
from .looks import COLOURS

PLAIN, PALE = "#f2f2f2", {"consistent": "#d8efdf"}


class Picture:
    def __init__(self, net, report, number):
        self.net, self.report = net, report
        self.snapshot = report.snapshots[number - 1] if report is not None and number is not None else None
        if report is not None:
            balance.check(report, net)
        self.marks, self.notes = {}, {}
        self.mark()

    def mark(self):
        """The colour of each unit, and what is written in it."""
        if self.report is None:
            return
        shown = [self.snapshot] if self.snapshot is not None else self.report.snapshots
        if any(s.verdict == "consistent" for s in shown):
            self.marks = {u: PALE["consistent"] for u in self.net.units}
        faults = {}
        for s in shown:
            if s.verdict in ("skipped", "miscredited", "pending") or (s.verdict == "not issued" and s.unit):
                faults.setdefault(s.unit, []).append(s.verdict)
        for unit, verdicts in faults.items():
            worst = next(v for v in COLOURS if v in verdicts)
            self.marks[unit] = COLOURS[worst]
            if self.snapshot is None:
                self.notes[unit] = f"{len(verdicts)}x"
        if self.snapshot is not None:
            self.notes |= {c.unit: str(c.packets) for c in self.snapshot.counts}

    def layers(self):
        """The switches by their distance from those with hosts; None where there is but one layer."""
        graph = networkx.Graph()
        graph.add_nodes_from(self.net.devices)
        graph.add_edges_from((a[0], b[0]) for a, b in self.net.cables)
        edges = {d for d, _ in self.net.host_port.values()}
        if not edges:
            return None
        far = networkx.multi_source_dijkstra_path_length(graph, edges)
        found = {}
        for device in self.net.devices:
            found.setdefault(far.get(device, 0), []).append(device)
        return found if len(found) > 1 else None

    def draw(self):
        layers = self.layers()
        is_round = (
            layers is None
            and len(self.net.devices) > 2
            and all(sum(d in (a[0], b[0]) for a, b in self.net.cables) == 2 for d in self.net.devices)
        )
        dot = graphviz.Graph(engine="dot" if layers else "circo" if is_round else "neato")
        dot.attr(
            overlap="false",
            splines="true" if layers else "line",
            nodesep="0.35",
            ranksep="0.9",
            sep="+8",
            mindist="0.4",
            label=self.title(),
            labelloc="t",
            fontname="DejaVu Sans",
            fontsize="13",
        )
        dot.attr("node", fontname="DejaVu Sans", fontsize="10", shape="plain")
        dot.attr("edge", fontname="DejaVu Sans", fontsize="9", color="#555555", len="1.7")
        for far in sorted(layers or {0: None}, reverse=True):
            with dot.subgraph() as part:
                if layers:
                    part.attr(rank="same")
                for device in layers[far] if layers else self.net.devices:
                    part.node(device, self.switch(device))
        for host in self.net.hosts:
            dot.node(f"host {host}", self.host(host))
        self.cables(dot, {d: far for far, devices in (layers or {}).items() for d in devices})
        for host, (device, port) in self.net.host_port.items():
            if layers:
                dot.edge(f"{device}:p{port}:s", f"host {host}:n")
            else:
                dot.edge(device, f"host {host}", len="0.9", **self.port_labels(port))
        return dot.pipe(format="svg").decode()

    def title(self):
        if self.snapshot is not None:
            return self.snapshot.line
        if self.report is None:
            net = self.net
            return f"{len(net.devices)} switches, {len(net.cables)} cables, {len(net.hosts)} hosts"
        counts = {v: sum(s.verdict == v for s in self.report.snapshots) for v in COLOURS}
        return "snapshots: " + (", ".join(f"{n} {v}" for v, n in counts.items() if n) or "none")

    def switch(self, device):
        """A switch as a table: its name, and for each used port its two units."""
        ports = self.net.used[device]
        head = f'<tr><td colspan="{max(len(ports), 1)}" border="0"><b>{escape(device)}</b></td></tr>'
        cells = "".join(f"<td{self.id_of(p)}>{self.port(device, p)}</td>" for p in ports)
        row = f"<tr>{cells}</tr>" if cells else ""
        return f'<<table border="1" cellborder="0" cellspacing="2" cellpadding="1" color="#555555" bgcolor="white">{head}{row}</table>>'

    @staticmethod
    def id_of(port):
        return f' port="p{port}"'

    def port(self, device, port):
        rows = ""
        for side in ("in", "out"):
            unit = f"{side} {device}.{port}"
            colour = self.marks.get(unit, PLAIN)
            ink = "white" if colour in COLOURS.values() and colour != COLOURS["pending"] else "black"
            note = f" {self.notes[unit]}" if unit in self.notes else ""
            rows += f'<tr><td bgcolor="{colour}"><font color="{ink}" point-size="8">{side}{note}</font></td></tr>'
        return (
            '<table border="0" cellborder="0" cellspacing="1" cellpadding="2">'
            f'<tr><td><font point-size="8" color="#777777">{port}</font></td></tr>{rows}</table>'
        )

    def host(self, host):
        counts = ""
        if self.report is not None and host in self.report.host_counts:
            sent, delivered = self.report.host_counts[host]
            counts = f'<br/><font point-size="8">sent {sent}, got {delivered}</font>'
        return f'<<table border="0" cellborder="0" cellpadding="3"><tr><td bgcolor="#e3ebf5">{escape(host)}{counts}</td></tr></table>>'

    @staticmethod
    def port_labels(tail, head=None):
        """The numbers of the ports at the ends of an edge."""
        labels = {"taillabel": f" {tail} ", "labelfontsize": "8", "labelfontcolor": "#777777", "labeldistance": "1.3"}
        return labels if head is None else labels | {"headlabel": f" {head} "}

    def cables(self, dot, layer):
        flight = {}
        if self.snapshot is not None and self.snapshot.verdict == "consistent":
            flight = {row.name: row for row in balance.cables(self.net, self.snapshot)}
        for (d, p), (e, q) in self.net.cables:
            words, colour = [], "#555555"
            for name, end in ((f"{d}.{p} to {e}.{q}", e), (f"{e}.{q} to {d}.{p}", d)):
                row = flight.get(name)
                told = (
                    [f"{v} {what}" for v, what in ((row.flight[0], "in flight"), (row.missing[0], "missing")) if v]
                    if row
                    else []
                )
                if told:
                    words.append(f"to {end}: " + ", ".join(told))
                if row and row.missing[0]:
                    colour = COLOURS["skipped"]
            look = {
                "label": "\n".join(words),
                "color": colour,
                "fontcolor": colour,
                "penwidth": "1" if colour == "#555555" else "2",
            }
            if not layer:
                dot.edge(d, e, **look, **self.port_labels(p, q))
            elif layer[d] == layer[e]:
                dot.edge(f"{d}:p{p}:n", f"{e}:p{q}:n", constraint="false", **look)
            else:
                (d, p), (e, q) = sorted(((d, p), (e, q)), key=lambda end: -layer[end[0]])
                dot.edge(f"{d}:p{p}:s", f"{e}:p{q}:n", **look)


def picture(net, report=None, number=None):
    """The picture as the text of an SVG."""
    return Picture(net, report, number).draw()

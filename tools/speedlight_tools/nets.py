"""The network of an input: its devices, actors, links and shortest ways, in the program's order."""

from collections import deque

LOSSY = ("cable", "crossbar", "init", "notice")


class Link:
    """A link from one actor to another. Its spelling is that of the choice that takes from it."""

    def __init__(self, number, spelling, source, target, sort):
        self.number, self.spelling, self.source, self.target, self.sort = number, spelling, source, target, sort


class Net:
    """Actors and links in the program's order. An actor is its spelling; a link has that of its choice."""

    def __init__(self, doc):
        self.devices = [d["name"] for d in doc["device"]]
        self.ports = {d["name"]: d["ports"] for d in doc["device"]}
        self.cables = [(port_of(c["a"]), port_of(c["b"])) for c in doc.get("cable", [])]
        self.port_cable, self.port_host, self.host_port = {}, {}, {}
        for a, b in self.cables:
            self.port_cable[a], self.port_cable[b] = b, a
        for host in doc.get("host", []):
            self.port_host[port_of(host["at"])] = host["name"]
            self.host_port[host["name"]] = port_of(host["at"])
        self.hosts = list(self.host_port)
        taken = [*self.port_cable, *self.port_host]
        self.used = {d: sorted(p for (e, p) in taken if e == d) for d in self.devices}
        self.actors, self.units = ["observer"], []
        for d in self.devices:
            units = [f"{side} {d}.{p}" for p in self.used[d] for side in ("in", "out")]
            self.actors += [f"control {d}", *units]
            self.units += units
        self.actors += [f"host {h}" for h in self.hosts]
        self.links, self.out = {}, {a: [] for a in self.actors}
        self.outs, self.data_channels = {}, {}
        for actor in self.actors:
            for choice, source, sort in self.incoming(actor):
                spelling = f"{actor} {choice}"
                link = Link(len(self.links), spelling, source, actor, sort)
                self.links[spelling] = link
                self.out[source].append(link)

    def incoming(self, actor):
        """The links into an actor: choice, sender and sort, in the order of its choices."""
        kind, _, name = actor.partition(" ")
        if kind == "observer":
            return [(f"done:{d}", f"control {d}", "done") for d in self.devices]
        if kind == "control":
            found = [("begin", "observer", "begin")]
            for p in self.used[name]:
                for side in ("in", "out"):
                    for sort in ("notice", "dump"):
                        found.append((f"{sort}:{side}.{p}", f"{side} {name}.{p}", sort))
            return found
        if kind == "host":
            d, p = self.host_port[name]
            return [("net", f"out {d}.{p}", "net")]
        d, p = port_of(name)
        if kind == "out":
            found = [(f"x{q}", f"in {d}.{q}", "crossbar") for q in self.used[d]]
        elif (d, p) in self.port_host:
            found = [("host", f"host {self.port_host[d, p]}", "host"), ("init", f"control {d}", "init")]
        else:
            e, q = self.port_cable[d, p]
            found = [("cable", f"out {e}.{q}", "cable"), ("init", f"control {d}", "init")]
        return [*found, ("poll", f"control {d}", "poll")]

    def channels(self, unit):
        """The data channels of a unit, as a report names them, in its order."""
        if unit not in self.data_channels:
            self.data_channels[unit] = [c for c, _, sort in self.incoming(unit) if sort in ("cable", "crossbar")]
        return self.data_channels[unit]

    def sender(self, unit, channel):
        """The unit at the other end of a data channel."""
        return self.links[f"{unit} {channel}"].source

    def out_of(self, actor, *sorts):
        if (actor, sorts) not in self.outs:
            self.outs[actor, sorts] = [link for link in self.out[actor] if link.sort in sorts]
        return self.outs[actor, sorts]

    def choices(self):
        """Each spelling of a choice, in order: links, then the actions of their actor."""
        actions = {"observer": ("issue", "resend"), "control": ("sweep",), "host": ("inject",)}
        for actor in self.actors:
            for choice, _, _ in self.incoming(actor):
                yield f"{actor} {choice}"
            for action in actions.get(actor.split(" ")[0], ()):
                yield f"{actor} {action}"

    def distances(self, device):
        """The number of cables from the device to each that can be reached from it."""
        far, todo = {device: 0}, deque([device])
        while todo:
            d = todo.popleft()
            for p in self.used[d]:
                e = self.port_cable.get((d, p), (None,))[0]
                if e is not None and e not in far:
                    far[e] = far[d] + 1
                    todo.append(e)
        return far

    def next_port(self, device, host):
        """The port by which a shortest way to the host leaves the device, the lowest; or None."""
        home, port = self.host_port[host]
        if device == home:
            return port
        far = self.distances(home)
        for p in self.used[device]:
            e = self.port_cable.get((device, p), (None,))[0]
            if e in far and device in far and far[e] + 1 == far[device]:
                return p
        return None


def port_of(text):
    device, _, port = text.rpartition(".")
    return device, int(port)


def device_of(unit):
    """The device of a unit such as `in a.0`."""
    return unit.split(" ")[1].rpartition(".")[0]


def net_fault(doc):
    """The first fault of the devices, cables and hosts, such as `N5 cable.0`; or None."""
    devices, cables, hosts = doc["device"], doc.get("cable", []), doc.get("host", [])
    if not devices:
        return "N1"
    if len(devices) > 64:
        return f"N2 {len(devices)}"
    for i, device in enumerate(devices):
        if not 1 <= device["ports"] <= 8:
            return f"N3 device.{i}"
    ports = {}
    for device in devices:
        ports.setdefault(device["name"], device["ports"])
    there = lambda text: port_of(text)[1] < ports[port_of(text)[0]]
    for i, cable in enumerate(cables):
        if not (there(cable["a"]) and there(cable["b"])):
            return f"N4 cable.{i}"
    for i, host in enumerate(hosts):
        if not there(host["at"]):
            return f"N4 host.{i}"
    used = set()
    for i, cable in enumerate(cables):
        for end in (cable["a"], cable["b"]):
            if end in used:
                return f"N5 cable.{i}"
            used.add(end)
    if len(hosts) > 128:
        return f"N6 {len(hosts)}"
    for i, host in enumerate(hosts):
        if host["at"] in used:
            return f"N7 host.{i}"
        used.add(host["at"])
    for sort, rows in (("device", devices), ("host", hosts)):
        names = set()
        for i, row in enumerate(rows):
            if row["name"] in names:
                return f"N8 {sort}.{i}"
            names.add(row["name"])
    return None

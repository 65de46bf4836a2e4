"""Where the switches and hosts of a net stand in a picture, by graphviz."""

import graphviz

from .netpicture import Picture

INCH = 72


def radius(ports):
    """The radius of a switch, with room for two units at each port and for its name between them."""
    return max(48, 10 * ports)


def placed(net):
    """The places of switches, with their radius, and of hosts, in a picture of this width and height."""
    layers = Picture(net, None, None).layers()
    ends = [d for cable in net.cables for d, _ in cable]
    is_round = layers is None and len(net.devices) > 2 and all(ends.count(d) == 2 for d in net.devices)
    dot = graphviz.Graph(engine="dot" if layers else "circo" if is_round else "neato")
    # Without this scaling neato leaves much room, and names are small.
    dot.attr(overlap="false", overlap_scaling="-1", nodesep="0.3", ranksep="1.0", sep="+14", mindist="0.8", start="1")
    for far in sorted(layers or {0: None}, reverse=True):
        with dot.subgraph() as part:
            if layers:
                part.attr(rank="same")
            for device in layers[far] if layers else net.devices:
                wide = 2 * (radius(len(net.used[device])) + 24) / INCH
                part.node(f"d {device}", "", shape="circle", fixedsize="true", width=f"{wide:.3f}")
    for host in net.hosts:
        wide = max(34, 9 * len(host) + 12) + 12
        dot.node(f"h {host}", "", shape="box", fixedsize="true", width=f"{wide / INCH:.3f}", height=f"{36 / INCH:.3f}")
    far = {d: n for n, devices in (layers or {}).items() for d in devices}
    for (d, _), (e, _) in net.cables:
        if not layers:
            dot.edge(f"d {d}", f"d {e}", len="2.6")
        elif far[d] != far[e]:
            d, e = sorted((d, e), key=lambda device: -far[device])
            dot.edge(f"d {d}", f"d {e}")
        else:
            dot.edge(f"d {d}", f"d {e}", constraint="false")
    for host, (device, _) in net.host_port.items():
        dot.edge(f"d {device}", f"h {host}", len="1.6")
    return read(dot.pipe(format="plain").decode(), net)


def read(plain, net):
    """The places in what graphviz wrote as `plain`, with heights going down."""
    margin, found, size = 26, {}, (0.0, 0.0)
    for line in plain.splitlines():
        words = line.replace('"', "").split(" ")
        if words[0] == "graph":
            size = float(words[2]) * INCH, float(words[3]) * INCH
        elif words[0] == "node":
            found[words[1], words[2]] = [
                round(float(words[3]) * INCH + margin, 1),
                round(size[1] - float(words[4]) * INCH + margin, 1),
            ]
    # Layers far apart, so that the picture is about as high as it is wide.
    stretch = min(2.4, max(1.0, 1.1 * size[0] / max(size[1], 1.0)))
    for place in found.values():
        place[1] = round((place[1] - margin) * stretch + margin, 1)
    size = size[0], size[1] * stretch
    return {
        "width": round(size[0] + 2 * margin, 1),
        "height": round(size[1] + 2 * margin, 1),
        "devices": {d: [*found["d", d], radius(len(net.used[d]))] for d in net.devices},
        "hosts": {h: found["h", h] for h in net.hosts},
    }

"""Nets of the usual shapes, as inputs: networkx makes the graphs, ports are given out in order."""

import random

import networkx

from .frames import NARROW

MOST_PORTS, MOST_DEVICES, MOST_HOSTS = 8, 64, 128


class NoShape(Exception):
    """The net would not be one that speedlight takes."""


def line(options):
    return numbered(networkx.path_graph(options.switches))


def ring(options):
    if options.switches < 3:
        raise NoShape("a ring has at least 3 switches")
    return numbered(networkx.cycle_graph(options.switches))


def star(options):
    """A switch in the middle, hosts at the others alone."""
    graph = networkx.star_graph(options.switches - 1)
    graph = networkx.relabel_nodes(graph, {n: "middle" if n == 0 else f"s{n - 1}" for n in graph})
    return graph, [n for n in graph if n != "middle"] or ["middle"]


def leaf_spine(options):
    spines, leaves = [f"s{i}" for i in range(options.spines)], [f"l{i}" for i in range(options.leaves)]
    graph = networkx.Graph()
    graph.add_nodes_from(spines + leaves)
    graph.add_edges_from((leaf, spine) for leaf in leaves for spine in spines)
    return graph, leaves


def fat_tree(options):
    """A fat tree of switches with k ports: (k/2)^2 cores, and k pods of k/2 switches in each of two layers."""
    k = options.arity
    if k < 2 or k % 2:
        raise NoShape("the arity of a fat tree is even, and at least 2")
    half, graph, edges = k // 2, networkx.Graph(), []
    cores = [f"c{i}" for i in range(half * half)]
    graph.add_nodes_from(cores)
    for pod in range(k):
        uppers, lowers = [f"a{pod}_{i}" for i in range(half)], [f"e{pod}_{i}" for i in range(half)]
        graph.add_nodes_from(uppers + lowers)
        graph.add_edges_from((low, up) for low in lowers for up in uppers)
        graph.add_edges_from((up, cores[i * half + j]) for i, up in enumerate(uppers) for j in range(half))
        edges += lowers
    return graph, edges


def random_net(options):
    """A connected net: a random tree, and then random cables until there are as many as asked for."""
    n, words = options.switches, random.Random(options.net_seed)
    cables = options.cables if options.cables is not None else n - 1 + n // 2
    if cables < n - 1:
        raise NoShape(f"{n} switches need at least {n - 1} cables to hang together")
    free = MOST_PORTS - options.hosts
    graph = networkx.Graph()
    graph.add_nodes_from(range(n))
    for i in range(1, n):
        room = [j for j in range(i) if graph.degree(j) < free]
        if not room:
            raise NoShape("the switches have too few ports for these hosts and cables")
        graph.add_edge(i, words.choice(room))
    pairs = [(i, j) for i in range(n) for j in range(i) if not graph.has_edge(i, j)]
    words.shuffle(pairs)
    for i, j in pairs:
        if graph.number_of_edges() < cables and graph.degree(i) < free and graph.degree(j) < free:
            graph.add_edge(i, j)
    if graph.number_of_edges() < cables:
        raise NoShape(f"no more than {graph.number_of_edges()} cables fit")
    return numbered(graph)


def numbered(graph):
    graph = networkx.relabel_nodes(graph, {n: f"s{n}" for n in graph})
    return graph, list(graph)


SHAPES = {
    "line": line,
    "ring": ring,
    "star": star,
    "leaf-spine": leaf_spine,
    "fat-tree": fat_tree,
    "random": random_net,
}


def document(shape, options):
    """The document of a net of this shape, with its flows, losses and script."""
    graph, edges = SHAPES[shape](options)
    hosts_each = options.arity // 2 if shape == "fat-tree" else options.hosts
    next_port = {node: hosts_each if node in edges else 0 for node in graph}
    hosts = [
        {"name": f"h{i}", "at": f"{edges[i // hosts_each]}.{i % hosts_each}"} for i in range(len(edges) * hosts_each)
    ]
    cables = []
    for a, b in graph.edges:
        ends = []
        for node in (a, b):
            ends.append(f"{node}.{next_port[node]}")
            next_port[node] += 1
        cables.append({"a": ends[0], "b": ends[1]})
    limits(graph, next_port, hosts)
    names = [h["name"] for h in hosts]
    hops = options.hops if options.hops is not None else longest_way(graph) + 1
    flows = [
        {"from": a, "to": b, "count": options.count, "bytes": options.bytes, "hops": hops}
        for a, b in pairs(options.flows, names, options)
    ]
    doc = {"device": [{"name": node, "ports": max(next_port[node], 1)} for node in graph]}
    doc |= {key: rows for key, rows in (("cable", cables), ("host", hosts), ("flow", flows)) if rows}
    window = options.window
    ring_size = options.ring if options.ring is not None else window
    doc["snapshot"] = {
        "bits": options.bits,
        "window": window,
        "ring": ring_size,
        "count": options.snapshots,
        "retries": options.retries,
    }
    version = options.version or (2 if options.bits > NARROW else 1)
    if version > 1:
        doc["snapshot"]["version"] = version
    losses = {sort: getattr(options, f"loss_{sort}") for sort in ("cable", "crossbar", "init", "notice")}
    losses = {sort: rate for sort, rate in losses.items() if rate}
    if losses:
        doc["loss"] = {"seed": options.seed, **losses}
    entries = [f"pass {options.passes}"] if options.passes else []
    if options.every:
        entries += [entry for _ in range(options.snapshots) for entry in (f"pass {options.every}", "observer issue")]
    if entries:
        doc["script"] = {"entries": entries}
    return doc


def limits(graph, ports, hosts):
    if len(graph) > MOST_DEVICES:
        raise NoShape(f"there would be {len(graph)} switches, and a net takes at most {MOST_DEVICES}")
    wide = next((node for node in graph if ports[node] > MOST_PORTS), None)
    if wide is not None:
        raise NoShape(f"the switch `{wide}` would have {ports[wide]} ports, and a switch has at most {MOST_PORTS}")
    if len(hosts) > MOST_HOSTS:
        raise NoShape(f"there would be {len(hosts)} hosts, and a net takes at most {MOST_HOSTS}")


def longest_way(graph):
    """The most cables that a shortest way has."""
    return networkx.diameter(graph) if len(graph) > 1 else 0


def pairs(pattern, names, options):
    """The pairs of hosts that a pattern of flows names."""
    n = len(names)
    if pattern == "none" or n < 2:
        return []
    if pattern == "next":
        return [(names[i], names[(i + 1) % n]) for i in range(n)]
    if pattern == "far":
        return [(names[i], names[(i + n // 2) % n]) for i in range(n) if (i + n // 2) % n != i]
    if pattern == "one":
        return [(names[0], names[-1])]
    if pattern == "to-one":
        return [(name, names[0]) for name in names[1:]]
    if pattern == "all":
        return [(a, b) for a in names for b in names if a != b]
    words = random.Random(options.net_seed)
    return [tuple(words.sample(names, 2)) for _ in range(n)]

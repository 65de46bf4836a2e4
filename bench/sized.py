"""Inputs of any size, for the scripts beside this one that measure. A net is its devices, cables and hosts."""

FLOW = 20000


def switch(hosts):
    """One switch, with so many hosts."""
    return [("a", hosts)], [], [("h%d" % i, "a.%d" % i) for i in range(hosts)]


def leaves(spines, number, each):
    """Leaves of some hosts each, with a cable to each spine."""
    devices = [("s%d" % i, number) for i in range(spines)] + [("l%d" % i, each + spines) for i in range(number)]
    cables = [("l%d.%d" % (i, each + j), "s%d.%d" % (j, i)) for i in range(number) for j in range(spines)]
    hosts = [("h%d" % (each * i + j), "l%d.%d" % (i, j)) for i in range(number) for j in range(each)]
    return devices, cables, hosts


def chain(number, each=2):
    """Switches in a row, with some hosts at each end."""
    devices = [("d%d" % i, 4) for i in range(number)]
    cables = [("d%d.1" % i, "d%d.0" % (i + 1)) for i in range(number - 1)]
    free = [("d0.0", "d%d.1" % (number - 1)), ("d0.2", "d%d.2" % (number - 1)), ("d0.3", "d%d.3" % (number - 1))]
    ends = [free[i][0] for i in range(each)] + [free[i][1] for i in range(each)]
    return devices, cables, [("h%d" % i, at) for i, at in enumerate(ends)]


def pods(number=8):
    """An even number of pods, at most 8, of four leaves with four hosts each and four spines, whose other ports lead to the
    spines of other pods: with 8 of them 64 switches, of which each port is in use."""
    devices, cables, hosts, free = [], [], [], []
    for p in range(number):
        devices += [("%s%d_%d" % (kind, p, i), 8) for kind in "ls" for i in range(4)]
        for i in range(4):
            for j in range(4):
                hosts.append(("h%d" % len(hosts), "l%d_%d.%d" % (p, i, j)))
                cables.append(("l%d_%d.%d" % (p, i, 4 + j), "s%d_%d.%d" % (p, j, i)))
        free.append(["s%d_%d.%d" % (p, j, q) for q in range(4, 8) for j in range(4)])
    pairs = [(a, b) for a in range(number) for b in range(a + 1, number)] + [(a, a + 1) for a in range(0, number, 2)]
    for a, b in pairs:
        for _ in range(2):
            cables.append((free[a].pop(0), free[b].pop(0)))
    return devices, cables, hosts


def flows(net, packets, steps=(1,)):
    """So many packets in all, from each host to those so many places after it."""
    names = [name for name, _ in net[2]]
    pairs = [(i, (i + step) % len(names)) for step in steps for i in range(len(names))]
    found = []
    for place, (a, b) in enumerate(pairs):
        left = packets // len(pairs) + (place < packets % len(pairs))
        while left > 0:
            found.append((names[a], names[b], min(left, FLOW)))
            left -= FLOW
    return found


def spread(net):
    """Three steps that lead to hosts near and far."""
    hosts = len(net[2])
    return 1, hosts // 2 + 1, hosts // 3 + 1


def text(net, sent, snapshot, loss=None, script=None):
    """The input of a net, its flows, and the bits, window, ring, count and retries of its snapshots."""
    devices, cables, hosts = net
    lines = ["device = [%s]" % ", ".join('{name = "%s", ports = %d}' % it for it in devices)]
    lines.append("cable = [%s]" % ", ".join('{a = "%s", b = "%s"}' % it for it in cables))
    lines.append("host = [%s]" % ", ".join('{name = "%s", at = "%s"}' % it for it in hosts))
    lines.append("flow = [%s]" % ", ".join('{from = "%s", to = "%s", count = %d, bytes = 100, hops = 255}' % it for it in sent))
    lines.append("snapshot = {bits = %d, window = %d, ring = %d, count = %d, retries = %d}" % snapshot)
    if loss:
        lines.append("loss = {seed = %d, cable = %d, crossbar = %d, init = %d, notice = %d}" % loss)
    if script:
        lines.append("script = {entries = [%s]}" % ", ".join('"%s"' % entry for entry in script))
    return "\n".join(lines) + "\n"

"""How large a run is: the bound on its turns, which the program keeps as a clause of its proof."""


def turns_at_most(source):
    """The most turns that a run of the input takes: the bound `input_bound` of crates/sl_model/specs/Bound.antt."""
    net = source.net
    count = lambda sort: sum(link.sort == sort for link in net.links.values())
    devices, units = len(net.devices), len(net.units)
    spread = count("init") + count("crossbar") + count("cable")
    snapshots, retries = source.snapshot["count"], source.snapshot["retries"]
    packets = sum(flow["count"] for flow in source.flows) + len(source.raws)
    sweeps = sum(entry.startswith("control ") and entry.endswith(" sweep") for entry in source.entries)
    rounds = 2 * snapshots + retries + 2
    polls = snapshots * spread + 16 * sweeps + rounds * units
    started = (snapshots + retries) * (1 + devices + spread)
    return started + packets * (2 * devices + 2) + snapshots * spread + 3 * polls + sweeps + rounds * devices

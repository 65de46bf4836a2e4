"""Random inputs for the scripts beside this one."""

import sys
from pathlib import Path

sys.path.insert(0, str(Path(__file__).resolve().parent.parent / "tools"))
sys.dont_write_bytecode = True

from speedlight_tools import inputs, nets
from speedlight_tools.inputs import MOST_SLOTS


def drawn_table(dice):
    """Bits, window, ring and version of a snapshot table, small ones mostly; one of eight has more than 8 bits, in frames of
    version 2, and one of four a window and a ring of any size that its bits allow."""
    bits = dice.randint(9, 16) if dice.random() < 0.125 else dice.randint(1, 3)
    ids = min(2**bits, MOST_SLOTS if dice.random() < 0.25 else 8)
    window = dice.randint(1, min(ids, 2**bits - 1))
    ring = dice.randint(window, ids)
    version = 2 if bits > 8 or dice.random() < 0.3 else 1
    return bits, window, ring, version


def versioned(dice, cable, bits):
    """A cable with a version of its own at times: where ids have more than 8 bits it is 2."""
    version = dice.choice((None, None, 1, 2)) if bits <= 8 else dice.choice((None, 2))
    return cable if version is None else cable.replace("}", f", version = {version}}}")


def snapshot(dice, table, count, retries, credits):
    """The line of a snapshot table. Where credits or version are 1 they are not always said."""
    bits, window, ring, version = table
    said = f", credits = {credits}" if credits > 1 or dice.random() < 0.5 else ""
    said += f", version = {version}" if version > 1 or dice.random() < 0.5 else ""
    return f"snapshot = {{bits = {bits}, window = {window}, ring = {ring}, count = {count}, retries = {retries}{said}}}"


def without_script(dice, table=None):
    """The lines of a net of one to five switches, two of which may be joined more than once, with flows and losses, and
    cables of either version. The sizes of its snapshot table may be given.
    """
    names = ["a", "b", "c", "d", "e"][: dice.randint(1, 5)]
    ports = {name: list(range(8)) for name in names}
    for free in ports.values():
        dice.shuffle(free)
    cables, hosts = [], []
    for _ in range(dice.randint(0, 10)):
        a, b = dice.choice(names), dice.choice(names)
        if len(ports[a]) > 2 and len(ports[b]) > 2:
            cables.append(f'{{a = "{a}.{ports[a].pop()}", b = "{b}.{ports[b].pop()}"}}')
    for number in range(dice.randint(1, 5)):
        at = dice.choice(names)
        if ports[at]:
            hosts.append((f"h{number}", f"{at}.{ports[at].pop()}"))
    flows = []
    for _ in range(dice.randint(0, 6) if hosts else 0):
        ends = f'from = "{dice.choice(hosts)[0]}", to = "{dice.choice(hosts)[0]}"'
        sizes = f"count = {dice.randint(0, 12)}, bytes = {dice.randint(0, 1500)}, hops = {dice.randint(0, 6)}"
        flows.append(f"{{{ends}, {sizes}}}")
    table = table or drawn_table(dice)
    cables = [versioned(dice, cable, table[0]) for cable in cables]
    lines = [
        "device = [" + ", ".join(f'{{name = "{name}", ports = 8}}' for name in names) + "]",
        "cable = [" + ", ".join(cables) + "]",
        "host = [" + ", ".join(f'{{name = "{name}", at = "{at}"}}' for name, at in hosts) + "]",
        "flow = [" + ", ".join(flows) + "]",
        snapshot(dice, table, dice.randint(0, 4), dice.randint(0, 2), dice.randint(1, 4)),
    ]
    if dice.random() < 0.4:
        rates = ", ".join(f"{kind} = {dice.choice((0, 0, 20, 200))}" for kind in ("cable", "crossbar", "init", "notice"))
        lines.append(f"loss = {{seed = {dice.randint(0, 2**62)}, {rates}}}")
    return lines


def with_script(dice):
    """The text of such an input with a script."""
    lines = without_script(dice)
    choices = list(nets.Net(inputs.parse("".join(line + "\n" for line in lines).encode())).choices())
    script = [dice.choice((f"pass {dice.randint(1, 3)}", "observer issue", dice.choice(choices), dice.choice(choices))) for _ in range(dice.randint(0, 40))]
    lines.append("script = {entries = [" + ", ".join(f'"{entry}"' for entry in script) + "]}")
    return "".join(line + "\n" for line in lines)

"""Which word of a script entry is wrong, and what may stand there."""

import re

from .advice import listing, near
from .inputs import DECIMAL, MOST_PASSES
from .nets import LOSSY, port_of

ACTIONS = {"observer": ("issue", "resend"), "control": ("sweep",), "host": ("inject",)}
KINDS = ("observer", "control", "in", "out", "host", "pass")


# Words that people use for an action, by its actor.
VERBS = {
    "host": dict.fromkeys(("send", "put", "emit", "transmit", "sends", "injects", "packet"), "inject"),
    "observer": {
        **dict.fromkeys(("snapshot", "take", "start", "initiate", "begin", "issues", "cut"), "issue"),
        **dict.fromkeys(("retry", "again", "repeat", "reissue", "resends"), "resend"),
    },
    "control": dict.fromkeys(("poll", "collect", "read", "sweeps"), "sweep"),
}
SNAPSHOTS = re.compile(r"(take |issue |begin |start )?(a )?(snapshot|cut)( \d+)?$|snapshots?\b.*$")


def entry_meant(entry, net):
    """What an entry in other words stands for, or none where it isn't plain."""
    words = entry.lower().split()
    if SNAPSHOTS.match(" ".join(words)):
        return ["A snapshot is taken by the observer: write `observer issue`."]
    if words[:1] in (["trace"], ["turn"]) and len(words) == 2 and words[1].isdecimal():
        return ["This is the first line of a trace, which says how many turns follow: leave it out.", "Each further line of a trace is an entry."]
    if re.match(r"\d+\s+\S", entry) and " ".join(entry.split()[1:]) in set(net.choices()):
        return [f"Leave out the number: `{' '.join(entry.split()[1:])}`."]
    actor = " ".join(words[:-1])
    verb = VERBS.get(words[0] if words else "", {}).get(words[-1] if words else "")
    if verb and actor in net.actors:
        return [f"Write `{actor} {verb}`."]
    if words[:1] == ["passes"]:
        return [f"Write `pass {words[1] if len(words) > 1 and words[1].isdecimal() else 1}`."]
    if words[:1] in (["wait"], ["sleep"], ["step"], ["run"], ["turns"]):
        return ["A script waits by passes, each a turn for each link and a packet of each host: `pass 3`."]
    return []


def links_meant(value, net):
    """The links that can lose messages which a text in another spelling stands for."""
    found = re.findall(r"([a-z0-9_]+)\.(\d)(?!\d)", value.lower())
    ports = [f"{device}.{port}" for device, port in found]
    if not ports or any(device not in net.devices for device, _ in found):
        return []
    lossy = [link for link in net.links.values() if link.sort in LOSSY]
    if len(ports) == 2 and found[0][0] == found[1][0] and ports[0] != ports[1]:
        return [k.spelling for k in lossy if k.sort == "crossbar" and k.source == f"in {ports[0]}" and k.target == f"out {ports[1]}"]
    if len(ports) == 2:
        joined = [k.spelling for k in lossy if k.sort == "cable" and k.source == f"out {ports[0]}" and k.target == f"in {ports[1]}"]
        return joined or [k.spelling for k in lossy if k.sort == "cable" and k.target == f"in {ports[1]}"]
    if len(ports) == 1 and re.fullmatch(r"(cable|link|wire)?\W*[a-z0-9_]+\.\d\W*(cable|link|wire)?", value.lower()):
        at = [k for k in lossy if k.sort == "cable" and ports[0] in (k.target.split(" ")[1], k.source.split(" ")[1])]
        return [k.spelling for k in sorted(at, key=lambda k: k.target.split(" ")[1] != ports[0])]
    return []


def wrong_word(entry, net):
    """Which word of an entry is wrong, and what may stand there."""
    words = entry.split(" ")
    if entry != entry.strip() or "" in words:
        return ["The words are parted by one blank each, with none before or after."]
    if words[0] == "pass":
        return pass_words(words)
    if words[0] not in KINDS:
        guess = near(words[0].lower(), KINDS, 1)
        whole = [c for c in net.choices() if c.endswith(" " + entry)]
        if whole and len(whole) < 4:
            return [f"The actor is missing: {listing(whole)}."]
        return [
            f"The word `{words[0]}` is wrong: an entry begins with {listing(KINDS)}."
            + (f" Nearest is `{guess[0]}`." if guess else "")
        ]
    if words[0] == "observer":
        return choice_words("observer", words[1:], net)
    names = {"control": net.devices, "host": net.hosts}.get(words[0])
    if names is None:
        return unit_words(words, net)
    if len(words) == 1:
        return [f"After `{words[0]}` a name is missing: {listing(names)}."]
    if words[1] not in names:
        guess = near(words[1], names, 1)
        sort = "switch" if words[0] == "control" else "host"
        return [
            f"The word `{words[1]}` is wrong: there is no {sort} of that name. The {'switches' if sort == 'switch' else 'hosts'} are {listing(names)}."
            + (f" Nearest is `{guess[0]}`." if guess else "")
        ]
    return choice_words(f"{words[0]} {words[1]}", words[2:], net)


def pass_words(words):
    if len(words) == 1:
        return [f"The number of passes is missing: `pass 1`, up to `pass {MOST_PASSES}`."]
    number = words[1]
    if len(words) > 2:
        return [f"The word `{words[2]}` is too much: `pass n` has one number."]
    if not DECIMAL.match(number):
        return [
            f"The word `{number}` is wrong: a number from 1 to {MOST_PASSES}, without sign and leading zero, stands there."
        ]
    return [f"The number {number} is out of range: `pass n` has n from 1 to {MOST_PASSES}."]


def unit_words(words, net):
    if len(words) == 1:
        return [f"After `{words[0]}` a port is missing, such as `{net.devices[0]}.0`."]
    unit = f"{words[0]} {words[1]}"
    if unit in net.units:
        return choice_words(unit, words[2:], net)
    name, point, port = words[1].rpartition(".")
    if not point:
        return [f"The word `{words[1]}` is wrong: a port stands there, such as `{net.devices[0]}.0`."]
    if name not in net.devices:
        guess = near(name, net.devices, 1)
        return [
            f"The word `{words[1]}` is wrong: there is no switch `{name}`. The switches are {listing(net.devices)}."
            + (f" Nearest is `{guess[0]}`." if guess else "")
        ]
    ports = listing([f"{name}.{p}" for p in net.used[name]])
    return [f"The word `{words[1]}` is wrong: at this port is no cable and no host. Used ports of `{name}`: {ports}."]


def choice_words(actor, words, net):
    allowed = [choice for choice, _, _ in net.incoming(actor)] + list(ACTIONS.get(actor.split(" ")[0], ()))
    if not words:
        return [f"After `{actor}` a word is missing: {listing(allowed, 12)}."]
    if words[0] not in allowed:
        guess = near(words[0], allowed, 1)
        note = ""
        if actor.startswith("in ") and words[0] in ("host", "cable"):
            there = net.port_host.get(port_of(actor[3:]))
            note = f" At `{actor[3:]}` {f'the host `{there}` stands' if there else 'a cable ends'}."
        return [
            f"The word `{words[0]}` is wrong: `{actor}` takes {listing(allowed, 12)}.{note}"
            + (f" Nearest is `{guess[0]}`." if guess and not note else "")
        ]
    return [f"The word `{words[1]}` is too much."]

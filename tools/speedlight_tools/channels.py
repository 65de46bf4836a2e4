"""Why the channels of a unit brought it no message with a number in time."""

from bisect import bisect_left
from dataclasses import dataclass

# How much a reason tells of what a snapshot failed by: what is told first comes first.
LOST, LATE, ROOT, OTHER = range(4)
# So many channels with a reason of one kind have one clause.
MANY = 3
OF_MANY = {
    "lost": "it is lost on each, at turns {turns}",
    "late": "it comes too late on each, at turns {came}",
    "over": "their units go over {number} themselves, at turns {turns}",
    "below": "their units are still below {number}",
    "silent": "their units reach {number}, but send nothing with it",
}


def joined(words):
    """Words as a list in a sentence."""
    words = list(words)
    return " and ".join([", ".join(words[:-1]), words[-1]] if words[1:] else words)


def a_number(n):
    """A number with its article, as it is spoken."""
    text = str(n)
    return f"{'an' if text[0] == '8' or text[:2] in ('11', '18') and len(text) % 3 == 2 else 'a'} {n}"


def own_ingress(unit):
    """The ingress unit of the port of an egress unit."""
    return unit.replace("out ", "in ", 1)


def way_name(link):
    """A data channel in words."""
    return "over the cable" if link.sort == "cable" else f"over {link.spelling.rpartition(' ')[2]}"


def channel_name(link):
    """A channel in words, with the actor at its other end."""
    return f"from {link.source}" if link.sort == "init" else f"{way_name(link)} from {link.source}"


@dataclass
class Reason:
    """Why a link brought no message with the number: a clause that follows a colon, the message that it speaks of, if any,
    and the place of its turn.

    `kind` names the clause, and `root` is a message of another link that was lost, by which the sender had nothing to send.
    """

    link: object
    rank: int
    kind: str
    clause: str
    place: int
    message: object = None
    root: object = None

    @property
    def told(self):
        """The clause, with what was lost before."""
        root = self.root
        if root is None:
            return self.clause
        passes = ", which passes probes on," if root.kind == "init" else ""
        return f"{self.clause}, as the {named(root)} to {root.link.target}{passes} is lost at turn {root.put.place + 1}"


def named(message):
    return f"{'initiation' if message.kind == 'init' else message.kind} {message.stamp}"


class Channels:
    """What came over the channels of some units, and over those of the units that send to them.

    `name_of` puts a message into words.
    """

    def __init__(self, world, units, name_of):
        self.world, self.name_of = world, name_of
        net = world.net
        watched = set(units)
        for _ in range(2):
            senders = {link.source for unit in watched for link in self.links(unit)} & set(net.units)
            watched |= {*senders, *map(own_ingress, senders)}
        self.coming = {}
        for message in world.messages if watched else ():
            if message.stamp is not None and message.link.target in watched and message.link.sort in ("init", "cable", "crossbar"):
                self.coming.setdefault(message.link.spelling, []).append(message)

    def links(self, unit):
        """The links over which a unit hears of numbers: that of its initiations, and its data channels."""
        links = self.world.net.links
        return [links[f"{unit} {c}"] for c in ("init", *self.world.net.channels(unit)) if f"{unit} {c}" in links]

    def carrying(self, link, low, high, until):
        """The messages on a link with a number from low to high that were put before a turn. Numbers on a link don't fall."""
        found = self.coming.get(link.spelling, [])
        start, end = (bisect_left(found, n, key=lambda m: m.stamp) for n in (low, high + 1))
        return [m for m in found[start:end] if m.put.place < until]

    def reasons(self, unit, low, high, until):
        """Of each link of a unit, why it brought no number from low to high before a turn; those first that tell most."""
        found = [self.reason(link, low, high, until) for link in self.links(unit)]
        return sorted(found, key=lambda r: (r.rank, r.link.sort != "init", r.place if r.rank < OTHER else 0))

    def reason(self, link, low, high, until):
        return self.put_on(link, low, high, until) or self.not_sent(link, low, high, until)

    def put_on(self, link, low, high, until):
        """Why what was put on a link, or was to be put by its control plane, did not come in time; None of a unit that put nothing."""
        came = self.carrying(link, low, high, until)
        late = next((m for m in came if not m.lost), None)
        if late is not None:
            when = "has not come by then" if late.take is None else f"comes only at turn {late.take.place + 1}, after turn {until + 1}"
            return Reason(link, LATE, "late", f"the {self.name_of(late)}, sent at turn {late.put.place + 1}, {when}", late.put.place, late)
        if came:
            more = len(came) - 1
            words = f"the {self.name_of(came[0])} is lost at turn {came[0].put.place + 1}"
            words += f", and {more} more with {'it' if low == high else 'such a number'}" if more else ""
            return Reason(link, LOST, "lost", words, came[0].put.place, came[0])
        if link.source not in self.world.ids:
            return self.not_begun(link, low)
        return None

    def not_begun(self, link, low):
        """Why a control plane had sent no initiation yet."""
        later = self.carrying(link, low, low, len(self.world.turns))
        place = later[0].put.place if later else len(self.world.turns) - 1
        words = f"it begins snapshot {low} only at turn {place + 1}" if later else f"it never begins snapshot {low}"
        return Reason(link, OTHER, "not begun", words, place)

    def not_sent(self, link, low, high, until):
        """Why a unit had sent nothing: it was below the number, it went over it, or nothing made it send."""
        sender, world = link.source, self.world
        root = self.root(sender, low, high, until)
        rank = OTHER if root is None else ROOT
        turn = world.crossing(sender, low)
        if turn is None or turn.place >= until:
            before = bisect_left(world.adopting[sender], until, key=lambda t: t.place)
            words = f"that unit is still at {world.adopted[sender][before - 1] if before else 0} itself"
            words += self.no_cable(sender, low, high)
            if turn is not None:
                words += f", and {'reaches' if turn.id <= high else 'goes over'} {low} only at turn {turn.place + 1}"
            near = self.below(sender, low, until) if root is None else None
            words += f" ({self.below_in_words(near)})" if near else ""
            place = root.put.place if root is not None else min(until, len(world.turns) - 1)
            return Reason(link, rank, "below", words, place, None, root)
        if turn.id > high:
            words = f"that unit goes over {low} itself at turn {turn.place + 1}"
            return Reason(link, rank, "over", words, turn.place, None, root)
        words = f"that unit {self.reaches_in_vain(turn, 'over that cable' if link.sort == 'cable' else way_name(link))}"
        return Reason(link, rank, "silent", words, turn.place, None, root)

    @staticmethod
    def reaches_in_vain(turn, where):
        """That a unit reaches a number in a turn, but sends nothing with it there, in words."""
        return f"reaches {turn.id} at turn {turn.place + 1}, but sends no packet and no probe with it {where}"

    def no_cable(self, unit, low, high):
        """That nothing came over the cable of an ingress unit that is below a number, in words."""
        if f"{unit} cable" not in self.world.net.links or not unit.startswith("in "):
            return ""
        return f", with no {low}{'' if low == high else ' or more'} over its cable by then"

    def below(self, unit, number, until):
        """The reason that tells most why a unit has not reached a number before a turn; None where none is of its own channels."""
        found = [self.put_on(link, number, number, until) for link in self.links(unit)]
        return min((r for r in found if r), key=lambda r: r.rank, default=None)

    def below_in_words(self, reason):
        m = reason.message
        if m is None:
            return f"{reason.link.source} {reason.clause.removeprefix('it ')}"
        if reason.kind == "lost":
            return f"the {self.name_of(m)} to it is lost at turn {m.put.place + 1}"
        when = "has not come yet" if m.take is None else f"comes only at turn {m.take.place + 1}"
        return f"the {self.name_of(m)} to it, sent at turn {m.put.place + 1}, {when}"

    def root(self, sender, low, high, until):
        """The message that was lost on its way to a unit, by which the unit had nothing to send; or None."""
        first = own_ingress(sender)
        links = self.world.net.links
        ways = [links[f"{first} init"], *(way for way in self.links(sender) if way.source == first and sender != first)]
        lost = [m for way in ways for m in self.carrying(way, low, high, until) if m.lost and m.kind != "data"]
        return min(lost, key=lambda m: m.place, default=None)


def others_in_words(number, reasons, begin="Nor does {} come"):
    """That links of a unit brought no such number, each with its reason, in a sentence."""
    in_time = " in time" if any(r.kind == "late" for r in reasons) else ""
    begin = begin.format(a_number(number)) + in_time
    if len(reasons) == 1:
        return f"{begin} {channel_name(reasons[0].link)}: {reasons[0].told}."
    parts = []
    for kind in dict.fromkeys(r.kind for r in reasons):
        same = [r for r in reasons if r.kind == kind]
        if len(same) < MANY or kind not in OF_MANY:
            parts += [f"{channel_name(r.link)} ({r.told})" for r in same]
            continue
        turns = joined(str(r.place + 1) for r in same)
        came = joined("never" if r.message is None or r.message.take is None else str(r.message.take.place + 1) for r in same)
        ways = joined(r.link.spelling.rpartition(" ")[2] for r in same)
        parts.append(f"over {ways} ({OF_MANY[kind].format(number=number, turns=turns, came=came)})")
    return f"{begin} {', nor '.join(parts)}."

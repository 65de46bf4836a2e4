"""What is said first of a snapshot: a line for the unit, one for each of its channels, and what would have been right."""

from bisect import bisect_left, bisect_right
from dataclasses import dataclass

from .channels import MANY, OF_MANY, a_number, channel_name, joined, own_ingress, way_name
from .nets import port_of

# So many ways, units and turns are named; of more it is said how many.
FEW = 3
# As many saved entries as an input may let a packet be credited to.
MOST_CREDITS = 4


@dataclass
class Line:
    """A line: the name of a unit or a channel that it begins with, its words, and what lies one step beyond, or None."""

    name: str
    words: str
    why: str = None

    @property
    def text(self):
        why = f" ({self.why})" if self.why else ""
        return f"{self.name} {self.words}{why}." if self.name else self.words


def short_of(link):
    """The name of a channel as the trace spells it."""
    return link.spelling.rpartition(" ")[2]


def few_of(words):
    """Some words as a list: the first few, and how many more."""
    return joined([*words[:FEW], f"{len(words) - FEW} more"] if len(words) > FEW + 1 else words)


def choice(words):
    """Words of which one is enough, as a list."""
    return " or ".join([", ".join(words[:-1]), words[-1]] if words[1:] else words)


class Banner:
    """The lines of one snapshot of some stories."""

    def __init__(self, stories, verdict):
        self.stories, self.verdict = stories, verdict
        self.world, self.channels = stories.world, stories.channels
        self.number, self.unit = verdict.number, verdict.unit
        self.name_of = stories.channels.name_of

    def lines(self):
        verdict = self.verdict.verdict
        if verdict == "not issued":
            return [Line(None, self.stories.not_issued(self.verdict))]
        if verdict == "consistent":
            return [Line(None, "No unit took before the cut what was sent after it.")]
        made = {"skipped": self.skipped, "miscredited": self.miscredited, "pending": self.pending}[verdict]
        return [*made(), *self.too()]

    def right(self):
        """What should have happened, in a sentence; None where all is right, or nothing was issued."""
        told = {"skipped": self.right_of_skipped, "miscredited": self.right_of_miscredited, "pending": self.right_of_pending}
        if self.verdict.verdict not in told:
            return None
        return f"Right if {told[self.verdict.verdict]()}{self.right_of_others()}."

    # Of a channel.

    def channel(self, reason):
        """Why a channel brought no such number."""
        words = {"lost": self.lost, "late": self.late, "below": self.below, "over": self.over, "silent": self.silent}
        said, why = words.get(reason.kind, lambda r: (r.clause, None))(reason)
        return Line(short_of(reason.link), f"from {reason.link.source}: {said}", why)

    def lost(self, reason):
        return reason.clause.removeprefix("the "), None

    def late(self, reason):
        m = reason.message
        came = f"comes only at turn {m.take.place + 1}" if m.take else "is still under way"
        return f"{self.name_of(m)} (turn {m.put.place + 1}) {came}", None

    def over(self, reason):
        return f"goes over {self.number} itself at turn {reason.place + 1}", self.root_in_words(reason)

    def below(self, reason):
        """Where the unit stood, and by what; what did not come to it in vain lies one step beyond."""
        at = reason.clause.partition("still at ")[2].split()[0]
        root = self.root_in_words(reason).replace(f" to {reason.link.source} ", " to it ") if reason.root else ""
        beyond = reason.clause.partition("itself")[2].strip(" ,")
        return f"still at {at}" + (f", as {root}" if root else ""), beyond.removeprefix("with ").removeprefix("and ") or None

    def root_in_words(self, reason):
        m = reason.root
        return f"{self.name_of(m)} to {m.link.target} is lost at turn {m.put.place + 1}" if m else None

    def silent(self, reason):
        """That the unit reached the number by no message that made it send a probe."""
        sender, m, turn = reason.link.source, reason.root, self.world.turns[reason.place]
        way = "by an initiation" if turn.took.link.sort == "init" else way_name(turn.took.link)
        words = f"reached {turn.id} {way} (turn {turn.place + 1})"
        if m is not None and m.kind != "init":
            return f"{words}, but {self.root_in_words(reason)}: so it sends no probe, no packet", None
        first = own_ingress(sender)
        own = f"{'its' if first == sender else 'the'} initiation{'' if first == sender else f' to {first}'}"
        by = f"{own} (lost at turn {m.put.place + 1})" if m is not None else "an initiation"
        return f"{words}, not by {by}: so it sends no probe, no packet", None

    def silences(self, reasons):
        """A line for each reason; of many alike, one for all."""
        found = []
        for kind in dict.fromkeys(r.kind for r in reasons):
            same = [r for r in reasons if r.kind == kind]
            if len(same) < MANY or kind not in OF_MANY:
                found += map(self.channel, same)
                continue
            turns = joined(str(r.place + 1) for r in same)
            came = joined("never" if r.message is None or r.message.take is None else str(r.message.take.place + 1) for r in same)
            words = OF_MANY[kind].format(number=self.number, turns=turns, came=came)
            found.append(Line(joined(short_of(r.link) for r in same), f"bring none: {words}"))
        return found

    def host(self):
        """That the host of a unit sends no numbers."""
        host = self.world.net.port_host.get(port_of(self.unit.partition(" ")[2])) if self.unit.startswith("in ") else None
        return [Line("host", f"{host} sends no numbers")] if host else []

    # Of a unit.

    def skipped(self):
        turn = self.world.turns[self.stories.fault(self.verdict)[0]]
        way = "" if turn.took.link.sort == "init" else f" {way_name(turn.took.link)}"
        by = f"{self.name_of(turn.took)}{way}"
        words = f"goes from {turn.before} to {turn.id} at turn {turn.place + 1}, by {by}: no {self.number} came before"
        return [Line(self.unit, words), *self.silences(self.stories.reasons(self.verdict)), *self.host()]

    def miscredited(self):
        world, k, stories = self.world, self.number, self.stories
        turn, on = world.turns[stories.fault(self.verdict)[0]], self.moved_on(self.unit)
        packet, took = turn.took, on.took
        more = self.own_late() - 1
        too = f" ({more} more packet{'s' if more > 1 else ''} too)" if more else ""
        found = [Line(self.unit, f"takes {self.name_of(packet)} too late, at turn {turn.place + 1}: already at {turn.id}{too}")]
        reason = stories.behind(self.verdict)
        because = f" ({self.behind_in_words(reason)})" if reason is not None else ""
        sent = f"from {packet.link.source}: sent it at turn {packet.put.place + 1}, still at {packet.stamp}{because}"
        issued = f"snapshot {k} was issued at turn {stories.issues[k].place + 1}, snapshot {on.id} at turn {stories.issues[on.id].place + 1}"
        moved = f"from {took.link.source}: {self.name_of(took)} moved the unit on to {on.id} at turn {on.place + 1}"
        found += [Line(short_of(packet.link), sent), Line(short_of(took.link), moved, issued)]
        rest = [short_of(link) for link in self.channels.links(self.unit) if link not in (packet.link, took.link)]
        return [*found, Line(joined(rest), "had no part")] if rest else found

    def own_late(self):
        """How many packets came too late to the unit at fault."""
        return sum(1 for turn in self.world.late(self.number) if turn.actor == self.unit)

    def behind_in_words(self, reason):
        """Why the sender of a packet was below the number."""
        m = reason.message
        if m is None or reason.kind == "lost":
            return self.channels.below_in_words(reason).removeprefix("the ")
        return f"{self.name_of(m)} comes {f'only at turn {m.take.place + 1}' if m.take else 'later'}"

    def pending(self):
        k, unit, world = self.number, self.unit, self.world
        reasons = self.stories.reasons(self.verdict)
        if self.verdict.channel == "id":
            adopting = world.adopting[unit]
            since = f", since turn {adopting[-1].place + 1}" if adopting else ""
            head = Line(unit, f"stays at {self.verdict.other}{since}: no {k} came to it")
        else:
            link = world.net.links[f"{unit} {self.verdict.channel}"]
            last = f"only {self.verdict.other}" if self.verdict.other else "nothing"
            head = Line(unit, f"is at {world.ids[unit]} itself, but waits for {a_number(k)} {way_name(link)}: {last} came")
        came = {link: self.first_come(link) for link in self.channels.links(unit)}
        brought = [Line(short_of(link), f"from {link.source}: brought {m.stamp} at turn {m.take.place + 1}") for link, m in came.items() if m]
        return [head, *self.silences([r for r in reasons if not came[r.link]]), *brought, *self.host(), *self.retries()]

    def first_come(self, link):
        """The first message with the number or above that came over a link, or None."""
        return next((m for m in self.channels.coming.get(link.spelling, []) if m.stamp >= self.number and m.take is not None), None)

    def retries(self):
        """What each retry began, where there was one."""
        k, allowed = self.number, self.stories.source.snapshot["retries"]
        begun = [(n, turn.place + 1) for n, turns in sorted(self.stories.resends.items()) for turn in turns if n >= k]
        if not begun:
            return []
        what = [f"began {n}{'' if n == k else f', not {k}'} (turn {place})" for n, place in begun]
        return [Line("the only retry" if allowed == 1 else "retries", few_of(what))]

    # What else failed it, and who waits too.

    def other_in_words(self, turn):
        if turn.before < self.number < turn.id:
            return f"goes over {self.number} at turn {turn.place + 1}"
        return f"takes a packet too late, turn {turn.place + 1}"

    def too(self):
        others = self.stories.others(self.verdict)
        if self.verdict.verdict == "pending":
            found = [Line(t.actor, f"{self.other_in_words(t)}: the snapshot could not become consistent any more") for t in others[:1]]
            waiting = self.stories.waiting_too(self.verdict)
            return [*found, *([Line(waiting[0], self.wait_too(waiting))] if waiting else [])]
        more = f"; so does {others[1].actor}" if len(others) == 2 else f"; and {len(others) - 1} more units"
        return [Line(others[0].actor, f"failed it too: {self.other_in_words(others[0])}{more if others[1:] else ''}")] if others else []

    @staticmethod
    def wait_too(waiting):
        rest = waiting[1:]
        if not rest:
            return "waits too"
        return f"and {rest[0] if len(rest) == 1 else f'{len(rest)} more units'} wait too"

    def moved_on(self, unit):
        """The turn from which on a unit could not credit a packet to the number any more."""
        adopted = self.world.adopted[unit]
        place = bisect_left(adopted, self.number)
        place += self.world.credits if adopted[place] == self.number else 0
        return self.world.adopting[unit][place]

    # What would have been right.

    def rescues(self, messages):
        """Messages that were lost or came late, those of one name and one target together, as a choice."""
        groups = {}
        for m in messages:
            groups.setdefault((self.name_of(m), m.link.target), []).append((m.link, m.put.place + 1))
        found, last = [], None
        for (name, target), sent in groups.items():
            over = choice([*dict.fromkeys(short_of(link) for link, _ in sent if link.sort == "crossbar")])
            turns = choice([*(str(turn) for _, turn in sent[:FEW]), *([f"{len(sent) - FEW} more"] if sent[FEW:] else [])])
            to = f"to {target}" if target != self.unit or name == last else ""
            words = ["" if name == last else name, to, f"over {over}" if over else "", f"({'turns' if sent[1:] else 'turn'} {turns})"]
            found.append(" ".join(word for word in words if word))
            last = name
        return ", or ".join([*found[:FEW], f"{len(found) - FEW} others"] if len(found) > FEW + 1 else found) + ("," if found[1:] else "")

    def right_of_skipped(self):
        turn = self.stories.fault(self.verdict)[0] + 1
        told = [r.message or r.root for r in self.stories.reasons(self.verdict)]
        ways = self.rescues([m for m in dict.fromkeys(told) if m is not None])
        return f"{ways or a_number(self.number) + ' to ' + self.unit} had come before turn {turn}"

    def right_of_miscredited(self):
        k, unit, stories = self.number, self.unit, self.stories
        turn = self.world.turns[stories.fault(self.verdict)[0]]
        what = "the packet" if self.own_late() == 1 else f"these {self.own_late()} packets"
        words = f"{what} had come before turn {self.moved_on(unit).place + 1}"
        if stories.behind(self.verdict) is not None and stories.issues[k].place < turn.took.put.place:
            words += f", or {a_number(k)} to {turn.took.put.actor} before turn {turn.took.put.place + 1}"
        saved = bisect_right(self.world.adopting[unit], turn.place, key=lambda t: t.place)
        needed = saved - bisect_left(self.world.adopted[unit], k)
        return f"{words}, or with credits = {needed}" if needed <= MOST_CREDITS else words

    def right_of_pending(self):
        k, unit, world = self.number, self.unit, self.world
        is_id = self.verdict.channel == "id"
        # A message with a number above k would do where it moves nobody over k.
        found = [m for m in self.stories.missed(self.verdict) if m.stamp == k or not is_id and m.stamp > k and world.ids[m.link.target] >= k]
        found = [m for m in found if self.is_enough(m)]
        over = f"to {unit}" if is_id else channel_name(world.net.links[f"{unit} {self.verdict.channel}"])
        return f"{self.rescues(found) or f'{a_number(k)} {over}'} had come"

    def is_enough(self, message):
        """Whether a message, had it not been lost, would have brought the number to the unit: it was on a channel of it, or
        it was what the sender of one would have passed on."""
        net, unit = self.world.net, self.unit
        links = self.channels.links(unit) if self.verdict.channel == "id" else [net.links[f"{unit} {self.verdict.channel}"]]
        for sender in (link.source for link in links if link is not message.link):
            first = own_ingress(sender)
            own = (message.link.source, message.link.target) == (first, sender)
            if message.kind == "init" and message.link.target == first or own and message.link.sort == "crossbar":
                return True
        return message.link in links

    def right_of_others(self):
        """What the other units would have needed, beside."""
        others = self.stories.others(self.verdict)
        if not others:
            return ""
        if self.verdict.verdict == "pending":
            return f"; but {others[0].actor} failed it too"
        turn = others[0]
        if turn.before < self.number < turn.id:
            words = f"; and {a_number(self.number)} to {turn.actor} before turn {turn.place + 1}"
        else:
            words = f"; and the packet to {turn.actor} before turn {self.moved_on(turn.actor).place + 1}"
        return words + (f", and so for {len(others) - 1} more unit{'s' if others[2:] else ''}" if others[1:] else "")

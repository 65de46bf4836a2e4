"""What happened to a snapshot, in words: the turns that led to its verdict."""

from bisect import bisect_left
from dataclasses import dataclass

from .channels import ROOT, Channels, a_number, channel_name, joined, others_in_words, own_ingress, way_name

MOST_STEPS = 6
# Of so many channels of a unit that skipped a number, the turns in which something was lost are shown together.
MOST_KEYS = 3


@dataclass
class Step:
    """A step of a story: a turn's place, None for the end of the run, what happened, the message or the other snapshot
    that it speaks of, and the link."""

    place: int
    words: str
    message: int = None
    snapshot: int = None
    link: object = None


def skipping(world, verdict):
    """The turn in which the unit at fault goes over the number."""
    return next(t for t in world.skips(verdict.number) if t.actor == verdict.unit)


def crediting(world, verdict):
    """The turn in which the unit at fault takes the packet that is missing from the number."""
    return next(t for t in world.late(verdict.number) if t.actor == verdict.unit and t.written == verdict.other)


def moved_on(world, verdict):
    """The turn from which on the unit at fault could not credit a packet to the number any more: it saved so many above it."""
    place = bisect_left(world.adopted[verdict.unit], verdict.number) + world.credits
    return world.adopting[verdict.unit][place]


def name_of(world, message):
    """A message in words: a packet by its hosts and number, others by their kind and number."""
    if message.kind == "frame":
        return "bytes that are no packet"
    if message.kind == "data":
        sent = message.packet.sent
        to = message.packet.to or "no host"
        return f"packet {sent.seq} from {sent.host} to {to}"
    words = {"init": "initiation", "begin": "Begin", "done": "Done"}.get(message.kind, message.kind)
    return f"{words} {message.stamp}" if message.stamp is not None else words


def sent_over(message):
    """The channel of a message in words; nothing of an initiation, whose name tells it."""
    return "" if message.link.sort == "init" else f" {way_name(message.link)}"


def carried(message):
    """The number that a packet carries, in words; nothing of other messages, whose name tells it."""
    return f", which carries the number {message.stamp}" if message.kind == "data" else ""


def listed(units):
    """Some units in words: the first two, and how many more."""
    names = [*dict.fromkeys(units)]
    if len(names) > 3:
        return f"{names[0]}, {names[1]} and {len(names) - 2} more units"
    return joined(names)


def of_retries(used, allowed):
    """How many of the retries that an input allows were used."""
    if not allowed:
        return "the input allows no retries"
    if allowed == 1:
        return "the one retry is used up" if used else "the one retry was not used"
    if used >= allowed:
        return f"all {allowed} retries are used up"
    return f"{used} of {allowed} retries {'was' if used == 1 else 'were'} used"


def begun_again(resends):
    """Which snapshots the retries began, in words."""
    parts = []
    for k, turns in sorted(resends.items()):
        places = [str(t.place + 1) for t in turns[:MOST_STEPS]]
        places += [f"{len(turns) - MOST_STEPS} more"] if turns[MOST_STEPS:] else []
        parts.append(f"snapshot {k} at turn{'s' if places[1:] else ''} {joined(places)}")
    return f" (begun again: {', '.join(parts)})" if parts else ""


class Stories:
    """The stories of all snapshots of a run. What each needs of the messages is gathered in one pass."""

    def __init__(self, world, source, snapshots):
        self.world, self.source = world, source
        self.issues, self.resends = {}, {}
        count = 0
        for turn in world.turns:
            if turn.actor == "observer" and turn.choice == "issue":
                count += 1
                self.issues[count] = turn
            elif turn.actor == "observer" and turn.choice == "resend":
                self.resends.setdefault(count, []).append(turn)
        told = {s.unit for s in snapshots if s.verdict in ("skipped", "pending")}
        told |= {crediting(world, s).took.put.actor for s in snapshots if s.verdict == "miscredited"}
        self.channels = Channels(world, told, lambda message: name_of(world, message))
        self.lost = {}
        if any(s.verdict == "pending" for s in snapshots):
            for message in world.messages:
                if message.lost and message.stamp is not None and message.link.sort in ("init", "cable", "crossbar"):
                    self.lost.setdefault(message.link.spelling, []).append(message)

    def fault(self, verdict):
        """The place of the turn, and the message, that a failed snapshot failed by; None where there is none."""
        if verdict.verdict == "skipped":
            turn = skipping(self.world, verdict)
            return turn.place, turn.took.place
        if verdict.verdict == "miscredited":
            turn = crediting(self.world, verdict)
            return turn.place, turn.took.place
        if verdict.verdict == "pending":
            steps = [s for s in self.lags(verdict.number, verdict.unit, verdict.channel, verdict.other, []) if s.message is not None]
            if steps:
                return steps[0].place, steps[0].message
            return len(self.world.turns) - 1, None
        return None, None

    def involved(self, verdict):
        """The actors and the places of the turns that a failed or pending snapshot tells of: its unit, and the messages of
        its story with their ends; none of a consistent one."""
        if verdict.unit is None or verdict.verdict in ("consistent", "not issued"):
            return set(), []
        steps, (place, message) = self.steps(verdict), self.fault(verdict)
        told = [self.world.messages[m] for m in [*(s.message for s in steps), message] if m is not None]
        actors = {verdict.unit, *(end for m in told for end in (m.link.source, m.link.target)), *(s.link.source for s in steps if s.link)}
        places = [turn.place for m in told for turn in (m.put, m.take) if turn is not None]
        places += [p for p in [*(s.place for s in steps), place] if p is not None and self.world.turns[p].actor in actors]
        return actors, sorted(places)

    def keys(self, verdict):
        """The places of the few turns that show how a failed or pending snapshot came about, in order."""
        places = {self.cause(verdict)[0], self.fault(verdict)[0]}
        if verdict.verdict == "miscredited":
            places.add(moved_on(self.world, verdict).place)
            reason = self.behind(verdict)
            places |= {reason.place} if reason is not None and reason.kind == "lost" else set()
        if verdict.verdict == "skipped":
            told = [r.message or r.root for r in self.reasons(verdict)]
            places |= {m.put.place for m in [m for m in told if m is not None][:MOST_KEYS]}
        if verdict.verdict == "pending":
            places |= {m.put.place for m in self.missed(verdict)[:MOST_KEYS]}
        return sorted(place for place in places if place is not None)

    def cause(self, verdict):
        """The places of the turn and of the message that a failed or pending snapshot came of; None for what isn't known."""
        if verdict.verdict == "skipped":
            first = self.unheard(verdict)[0]
        elif verdict.verdict == "miscredited":
            packet = crediting(self.world, verdict).took
            return packet.put.place, packet.place
        else:
            first = self.first_lag(verdict) if verdict.verdict == "pending" else None
        return (first.place, first.message) if first else (None, None)

    def others(self, verdict):
        """The other turns that failed a snapshot, or would once nothing waited: the first of each further unit."""
        if verdict.verdict not in ("skipped", "miscredited", "pending"):
            return []
        own = None if verdict.verdict == "pending" else verdict.unit
        found = {}
        for turn in (*self.world.skips(verdict.number), *self.world.late(verdict.number)):
            if turn.actor != own:
                found.setdefault(turn.actor, turn)
        return list(found.values())

    def waiting_too(self, verdict):
        """The units that wait beside the one that a pending snapshot names."""
        if verdict.verdict != "pending":
            return []
        return [u for u in self.world.net.units if u != verdict.unit and self.world.lag(u, verdict.number) is not None]

    def missed(self, verdict):
        """The messages that were lost by which a unit waits, in the order in which they are told."""
        steps = self.lags(verdict.number, verdict.unit, verdict.channel, verdict.other, [])
        told = {s.link for s in steps}
        places = [s.message for s in steps if s.message is not None]
        more = [r.message or r.root for r in self.reasons(verdict) if r.link not in told] if verdict.channel == "id" else []
        return list(dict.fromkeys([*(self.world.messages[place] for place in places), *(m for m in more if m is not None and m.lost)]))

    def besides(self, verdict):
        """Of a pending snapshot, the first turn that would fail it once nothing waited: it went over the number, or took
        a packet too late; or None."""
        k = verdict.number
        skips, late = (self.world.skips(k), self.world.late(k)) if verdict.verdict == "pending" else ([], [])
        if late and not skips:
            name = name_of(self.world, late[0].took)
            words = f"the {name} comes to {late[0].actor} too late and is missing from snapshot {k}"
            return Step(late[0].place, f"{words}: the snapshot could not become consistent any more.")
        if not skips:
            return None
        first = skips[0]
        others = [t.actor for t in skips[1:]]
        words = f"{first.actor} goes from {first.before} to {first.id} and saves nothing for snapshot {k}"
        words += f", and so {'do' if others[1:] else 'does'} {listed(others)}" if others else ""
        return Step(first.place, f"{words}: the snapshot could not become consistent any more.")

    def steps(self, verdict):
        """The turns that led to the verdict, in order."""
        if verdict.verdict == "not issued":
            return self.held(verdict)
        k = verdict.number
        found = [Step(self.issues[k].place, f"The observer issues snapshot {k}.")]
        told = {"skipped": self.skipped, "miscredited": self.miscredited, "pending": self.pending}
        found += told.get(verdict.verdict, self.consistent)(verdict)
        if verdict.verdict != "pending":
            found += [self.other_step(verdict.number, turn) for turn in self.others(verdict)[:MOST_STEPS]]
        return sorted(found, key=lambda s: (s.place is None, s.place or 0))

    def other_step(self, k, turn):
        """What a further unit does that failed the snapshot too."""
        if turn.before < k < turn.id:
            return Step(turn.place, f"{turn.actor} goes over {k} too, from {turn.before} to {turn.id}.", turn.took.place)
        packet = turn.took
        words = f"The {name_of(self.world, packet)}, sent at turn {packet.put.place + 1} with {packet.stamp}, comes to {turn.actor} too late"
        return Step(turn.place, f"{words}: it is missing from snapshot {k} too.", packet.place)

    def consistent(self, verdict):
        k = verdict.number
        crossings = [(self.world.crossing(u, k), u) for u in self.world.net.units]
        if not crossings:
            return []
        first = min(crossings, key=lambda c: c[0].place)
        last = max(crossings, key=lambda c: c[0].place)
        return [
            Step(first[0].place, f"{first[1]} is the first unit to reach {k}, and saves its counters."),
            Step(last[0].place, f"{last[1]} is the last unit to reach {k}."),
        ]

    # Of a skipped snapshot.

    def reasons(self, verdict):
        """Why each channel of the unit brought it no message with the number in time: the one that tells most comes first."""
        k, turns = verdict.number, self.world.turns
        if verdict.verdict == "skipped":
            return self.channels.reasons(verdict.unit, k, k, skipping(self.world, verdict).place)
        return self.channels.reasons(verdict.unit, k, self.world.issued, len(turns))

    def unheard(self, verdict):
        """Why a unit had no message with the number: a step for each of its channels, that which tells most first."""
        k, unit = verdict.number, verdict.unit
        first, *rest = self.reasons(verdict)
        found = [self.first_reason(unit, k, first)]
        if first.rank > ROOT:
            found = [Step(None, others_in_words(k, [first, *rest], "Until then {} doesn't come"))]
        return found + [self.other_reason(unit, k, reason) for reason in (rest if first.rank <= ROOT else [first, *rest])]

    @staticmethod
    def other_reason(unit, k, reason):
        """Why a further channel brought no such number, as a step."""
        in_time = " in time" if reason.kind == "late" else ""
        words = f"{a_number(k).capitalize()} doesn't come to {unit}{in_time} {channel_name(reason.link)}: {reason.told}."
        message = reason.message or reason.root
        return Step(reason.place, words, None if message is None else message.place, link=reason.link)

    def sends(self, message, how=""):
        """That a message is sent, in words, with what is said of its sender."""
        return f"{message.link.source}{how} sends the {name_of(self.world, message)}{sent_over(message)} to {message.link.target}"

    def first_reason(self, unit, k, reason):
        """The reason that tells most, as what happened in its turn."""
        if reason.rank == ROOT:
            m = reason.root
            words = f"{self.sends(m)}: it is lost on the way" + (f", so {m.link.target} passes no probe on." if m.kind == "init" else ".")
            clause = reason.clause.replace("that unit", f"{reason.link.source}, from which {unit} would hear of {k},", 1)
            return Step(m.put.place, f"{words} {clause}.", m.place, link=reason.link)
        m = reason.message
        if m is None:
            return None
        words = f"{self.sends(m)}{carried(m)}"
        if not m.lost:
            when = "it has not come when the next one does" if m.take is None else f"it comes only at turn {m.take.place + 1}"
            return Step(m.put.place, f"{words}: {when}.", m.place, link=reason.link)
        turns = self.world.turns
        more = len(self.channels.carrying(m.link, k, k, len(turns))) - 1
        end = f", and {more} more with {k} too" if more > 0 else ""
        return Step(m.put.place, f"{words}: it is lost on the way{end}.", m.place, link=reason.link)

    def gone_over(self, verdict):
        """What the unit does in the turn in which it goes over the number."""
        turn, unit, k = skipping(self.world, verdict), verdict.unit, verdict.number
        took = turn.took
        words = f"{unit} is at {turn.before} and takes the {name_of(self.world, took)} from {took.link.source}{carried(took)}"
        rest = [str(n) for n in range(turn.before + 1, turn.id) if n != k]
        nor = f", nor for {joined(rest) if len(rest) <= MOST_STEPS else f'{len(rest)} others'}" if rest else ""
        return f"{words}: it goes to {turn.id} at once, and saves nothing for snapshot {k}{nor}."

    def skipped(self, verdict):
        turn = skipping(self.world, verdict)
        found = [step for step in self.unheard(verdict) if step.place is not None]
        return [*found, Step(turn.place, self.gone_over(verdict), turn.took.place)]

    # Of a miscredited one.

    def behind(self, verdict):
        """Why the sender of the packet had not reached the number; None where that isn't known."""
        put = crediting(self.world, verdict).took.put
        return self.channels.below(put.actor, verdict.number, put.place)

    def because(self, verdict):
        """Why the sender of the packet had not reached the number, in brackets."""
        reason = self.behind(verdict)
        return f" ({self.channels.below_in_words(reason)})" if reason is not None else ""

    def too_late(self, verdict):
        """What the unit does in the turn in which the packet comes."""
        turn, k, credits = crediting(self.world, verdict), verdict.number, self.source.snapshot["credits"]
        to = f"snapshot {verdict.other} alone" if credits == 1 else f"its last {credits} saved snapshots, {verdict.other} and above"
        words = f"the {name_of(self.world, turn.took)} comes to {verdict.unit}, which is at {turn.id} already and can credit it to {to}"
        return f"{words}: so it is missing from snapshot {k}."

    def miscredited(self, verdict):
        world, k, turn, on = self.world, verdict.number, crediting(self.world, verdict), moved_on(self.world, verdict)
        packet, unit = turn.took, verdict.unit
        reached = world.crossing(unit, k)
        at = f"{packet.stamp}{self.because(verdict)}"
        words = f"{self.sends(packet, f' is at {at}, so it has not reached {k}, and')}. "
        moved = f"{unit} takes the {name_of(world, on.took)} {channel_name(on.took.link)}{carried(on.took)}"
        found = [
            Step(packet.put.place, f"{words}It belongs to snapshot {k} as a packet in flight.", packet.place),
            Step(reached.place, f"{unit} reaches {k} and saves its counters."),
            Step(on.place, f"{moved}: it goes on from {on.before} to {on.id}, before the packet has come.", on.took.place),
            Step(turn.place, f"{self.too_late(verdict)[0].upper()}{self.too_late(verdict)[1:]}", packet.place),
        ]
        reason = self.behind(verdict)
        if reason is not None and reason.kind == "lost":
            found.append(Step(reason.place, f"{self.sends(reason.message)}: it is lost on the way.", reason.message.place, link=reason.link))
        return [*found, Step(self.issues[on.id].place, f"The observer issues snapshot {on.id}.")]

    # Of a pending one.

    def pending(self, verdict):
        k, source, unit = verdict.number, self.source, verdict.unit
        found = self.lags(k, unit, verdict.channel, verdict.other, [])
        if verdict.channel != "id":
            turn = self.world.crossing(unit, k)
            saves = "and saves its counters" if turn.id == k else f"and goes to {turn.id} at once"
            found.append(Step(turn.place, f"{unit} reaches {k} itself, {saves}."))
        else:
            told = {s.link for s in found}
            found += [self.other_reason(unit, k, r) for r in self.reasons(verdict) if r.link not in told]
        resends = sum(len(turns) for turns in self.resends.values())
        again = [(turn.place, n) for n, turns in self.resends.items() for turn in turns if n >= k]
        for place, n in sorted(again)[:MOST_STEPS]:
            what = f"begins snapshot {k} once more" if n == k else f"begins again, but with snapshot {n}, its newest, not {k}"
            found.append(Step(place, f"The observer {what}, as not all is collected."))
        besides = self.besides(verdict)
        found += [besides] if besides else []
        words = of_retries(resends, source.snapshot["retries"]) + begun_again(self.resends)
        found.append(Step(None, f"The run ends, after turn {len(self.world.turns)}, while {self.waiting(verdict)}; {words}."))
        return found

    def waiting(self, verdict):
        """What the unit waits for, in words."""
        k, unit = verdict.number, verdict.unit
        if verdict.channel == "id":
            return f"{unit} is still at {verdict.other} and waits for {a_number(k)}"
        link = self.world.net.links[f"{unit} {verdict.channel}"]
        return f"{unit} still waits for {a_number(k)} {channel_name(link)}"

    def first_lag(self, verdict):
        """Of why a unit lags, the first step with a message, or else the first."""
        found = self.lags(verdict.number, verdict.unit, verdict.channel, verdict.other, [])
        return next((s for s in found if s.message is not None), found[0] if found else None)

    def lags(self, k, unit, channel, number, seen):
        """Why a unit, or one of its channels, stays below k: what was lost on the way, or the sender that lags itself."""
        world = self.world
        if channel == "id":
            links = [link for link in (world.net.links.get(f"{unit} {c}") for c in ("init", *world.net.channels(unit))) if link]
        else:
            links = [world.net.links[f"{unit} {channel}"]]
        found = []
        for link in links:
            for message in self.lost.get(link.spelling, []):
                if message.stamp >= k:
                    words = f"{self.sends(message)}{carried(message)}"
                    found.append(Step(message.put.place, f"{words}: it is lost.", message.place, link=link))
        found.sort(key=lambda step: step.place)
        more = len(found) - MOST_STEPS
        found = found[:MOST_STEPS]
        if more > 0:
            found[-1].words += f" {more} more {'messages' if more > 1 else 'message'} with {k} or above {'were' if more > 1 else 'was'} lost here."
        if not found:
            for link in links:
                behind = world.lag(link.source, k) if link.source in world.ids else None
                if behind is not None and behind[0] == "id" and link.source not in seen and len(seen) < 8:
                    deeper = self.lags(k, link.source, *behind, [*seen, unit])
                    words = f"{link.source}, from which {unit} would hear of {k}, is at the end still at {behind[1]} itself."
                    found.append(Step(None, words + ("" if seen else self.nor_there(k, link.source, deeper)), link=link))
                    found += deeper
                    break
        return found or [step for link in links for step in self.unsent(k, unit, link)][:MOST_STEPS]

    def nor_there(self, k, sender, told):
        """Why the other channels of a sender that lags brought it no number either, in a sentence."""
        links = {step.link for step in told}
        rest = [r for r in self.channels.reasons(sender, k, self.world.issued, len(self.world.turns)) if r.link not in links]
        return f" {others_in_words(k, rest, f'Nor does {{}} come to {sender}')}" if rest else ""

    def unsent(self, k, unit, link):
        """Why no probe with k or above was sent on a link, though its sender has reached k: what would have made it send one."""
        net, sender = self.world.net, link.source
        if sender not in net.units:
            return []
        first = own_ingress(sender)
        ways = [net.links[f"{first} init"], *(way for way in net.out_of(first, "crossbar") if way.target == sender)]
        lost = [m for way in ways for m in self.lost.get(way.spelling, []) if m.stamp >= k and m.kind != "data"]
        lost.sort(key=lambda m: m.place)
        found = []
        for m in lost:
            words = f"{self.sends(m)}: it is lost" + (f", so {first} passes no probe on." if m.kind == "init" else ".")
            turn = self.world.crossing(sender, k)
            if not found and turn is not None:
                words += f" {sender} {self.channels.reaches_in_vain(turn, way_name(link))} to {unit}."
            found.append(Step(m.put.place, words, m.place, link=link))
        return found

    # Of one that was not issued.

    def held(self, verdict):
        """What kept the observer from issuing."""
        k, floor, window = verdict.number, verdict.other, self.source.snapshot["window"]
        words = f"The window is {window}: the observer issues {k} only when all units have reported {max(k - window, 0)}, and "
        words += f"{verdict.unit} has reported {floor}." if verdict.unit else f"{floor} is reported."
        found = [Step(None, words)]
        if floor + 1 < k and floor + 1 <= self.world.issued:
            found.append(Step(None, f"So snapshot {floor + 1} is what all later ones wait for.", None, floor + 1))
        return found

    def not_issued(self, verdict):
        """The verdict on a snapshot that was not issued, in a sentence."""
        return f"The observer never began it: {verdict.unit or 'the net'} had reported {verdict.other} at most, and snapshots wait for all units."

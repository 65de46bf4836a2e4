"""Takes the turns of a trace once more, by the rules of the protocol, over whole numbers and whole histories."""

from bisect import bisect_left
from collections import deque

from . import frames
from .nets import LOSSY, device_of
from .reports import Counts, Snapshot


class Misfit(Exception):
    """The trace is not one of the input."""


class Message:
    """A message on a link: its kind, its stamp, its packet, and the turns of its put and its take.

    `note` is for whoever follows the replay.
    """

    __slots__ = ("kind", "stamp", "packet", "place", "link", "put", "take", "lost", "note")

    def __init__(self, kind, stamp=None, packet=None):
        self.kind, self.stamp, self.packet = kind, stamp, packet
        self.link = self.put = self.take = None
        self.lost = False


class Packet:
    """A packet: the host that it is for (None where there is no such host), its hops left and its bytes.

    `sent` is what its host put: a frame, which stays the same while the hops left fall.
    """

    __slots__ = ("to", "hops", "size", "sent")

    def __init__(self, to, hops, size, sent=None):
        self.to, self.hops, self.size, self.sent = to, hops, size, sent


class Sent:
    """What a host puts: its place among all of that host, and its source, destination, sequence number, hops and bytes.

    `flow` is the place of its flow among the input's, None for a raw frame, and `data` the bytes of a raw frame.
    """

    __slots__ = ("host", "flow", "data", "src", "dst", "seq", "hops", "size")

    def __init__(self, host, flow=None, data=None, src=0, dst=0, seq=0, hops=0, size=0):
        self.host, self.flow, self.data = host, flow, data
        self.src, self.dst, self.seq, self.hops, self.size = src, dst, seq, hops, size


class Losses:
    """What is lost: the words of PCG-XSH-RR 64/32 (O'Neill), one a put, and the listed puts."""

    MULTIPLIER, MASK = 6364136223846793005, (1 << 64) - 1

    def __init__(self, loss, net):
        self.rates = {sort: loss[sort] for sort in LOSSY}
        self.drops = {(net.links[d["link"]].number, d["n"]) for d in loss["drop"]}
        self.seed, self.states = loss["seed"], {}

    def word(self, number):
        step = (number << 1 | 1) & self.MASK
        if number not in self.states:
            self.states[number] = ((self.seed + step) * self.MULTIPLIER + step) & self.MASK
        state = self.states[number]
        self.states[number] = (state * self.MULTIPLIER + step) & self.MASK
        mixed = ((state >> 18 ^ state) >> 27) & 0xFFFFFFFF
        turn = state >> 59
        return (mixed >> turn | mixed << (32 - turn)) & 0xFFFFFFFF

    def next(self, link, count):
        """The next put on the link, whose count it is by now, is lost."""
        if link.sort not in LOSSY:
            return False
        return self.word(link.number) % 1000 < self.rates[link.sort] or (link.number, count) in self.drops


class Turn:
    """One turn: its actor and choice, what it took and put, and a unit's number before and after it.

    `written` is the least of the last numbers that the unit saved, as many as a packet is credited to; 0 while it has
    saved fewer. `dropped` says why a unit dropped what it took: bad, expired or noroute. `note` is for whoever follows the
    replay.
    """

    __slots__ = ("place", "actor", "choice", "took", "puts", "before", "id", "written", "dropped", "note")

    def __init__(self, place, actor, choice):
        self.place, self.actor, self.choice = place, actor, choice
        self.took, self.puts, self.before, self.id, self.written, self.dropped = None, [], 0, 0, 0, None


class World:
    """All actors, which take turns by the rules of the protocol."""

    def __init__(self, source):
        self.net = net = source.net
        self.losses = Losses(source.loss, net)
        self.turns, self.messages = [], []
        self.ids = {u: 0 for u in net.units}
        self.credits = source.snapshot["credits"]
        # The numbers that each unit saved, and the turns in which it did.
        self.adopted = {u: [] for u in net.units}
        self.adopting = {u: [] for u in net.units}
        # For each number, the turns that go over it, and those that take a packet that is missing from it.
        self.skipping, self.missing = {}, {}
        self.last = {}
        self.counted = {u: [] for u in net.units}
        self.polled = {u: False for u in net.units}
        self.again = {u: False for u in net.units}
        self.issued = 0
        self.queues = {spelling: deque() for spelling in net.links}
        self.put_count = {spelling: 0 for spelling in net.links}
        self.ways = {}
        self.frames = {h: deque() for h in net.hosts}
        places = {host: place for place, host in enumerate(net.hosts)}
        for place, flow in enumerate(source.flows):
            ends = {"src": places[flow["from"]], "dst": places[flow["to"]], "hops": flow["hops"], "size": flow["bytes"]}
            for seq in range(flow["count"]):
                sent = Sent(flow["from"], place, seq=seq, **ends)
                self.frames[flow["from"]].append(Packet(flow["to"], flow["hops"], flow["bytes"], sent))
        for raw in source.raws:
            self.frames[raw["from"]].append(self.raw_packet(raw["from"], bytes.fromhex(raw["hex"])))

    def raw_packet(self, host, data):
        """The packet of a plain frame, which is for no host where there is none; other bytes are no packet (`to` and
        `size` are None), and an ingress unit drops them."""
        if not frames.is_plain(data):
            return Packet(None, None, None, Sent(host, data=data))
        fields = frames.split(data)
        hosts = self.net.hosts
        to = hosts[fields["dst"]] if fields["dst"] < len(hosts) else None
        names = {"src": fields["src"], "dst": fields["dst"], "seq": fields["seq"]}
        sent = Sent(host, data=data, hops=fields["hops"], size=fields["len"], **names)
        return Packet(to, fields["hops"], fields["len"], sent)

    def turn(self, spelling):
        actor, _, choice = spelling.rpartition(" ")
        if actor not in self.net.out:
            raise Misfit("no actor of this input")
        turn = Turn(len(self.turns), actor, choice)
        turn.before = self.ids.get(actor, 0)
        link = self.net.links.get(spelling)
        if link is not None and not self.queues[spelling]:
            raise Misfit("nothing is on this link")
        if link is None:
            self.act(turn)
        else:
            turn.took = self.queues[spelling].popleft()
            turn.took.take = turn
            getattr(self, "take_" + actor.partition(" ")[0])(turn, link, turn.took)
        if actor in self.ids:
            self.note(turn)
        self.turns.append(turn)

    def note(self, turn):
        """Notes what a unit's turn adopted, went over and credited."""
        turn.id = self.ids[turn.actor]
        saved = self.adopted[turn.actor]
        if turn.id > turn.before:
            saved.append(turn.id)
            self.adopting[turn.actor].append(turn)
            for k in range(turn.before + 1, turn.id):
                self.skipping.setdefault(k, []).append(turn)
        if len(saved) >= self.credits:
            turn.written = saved[-self.credits]
        message = turn.took
        if message.kind == "data" and message.stamp is not None and message.link.sort in ("cable", "crossbar"):
            for k in range(message.stamp + 1, turn.written):
                self.missing.setdefault(k, []).append(turn)

    def put(self, turn, links, kind, stamp=None, packet=None):
        for link in links:
            message = Message(kind, stamp, packet)
            message.place, message.link, message.put, message.take = len(self.messages), link, turn, None
            self.put_count[link.spelling] += 1
            message.lost = self.losses.next(link, self.put_count[link.spelling])
            if not message.lost:
                self.queues[link.spelling].append(message)
            turn.puts.append(message)
            self.messages.append(message)

    def act(self, turn):
        kind, _, name = turn.actor.partition(" ")
        if turn.choice == "inject" and kind == "host" and self.frames[name]:
            packet = self.frames[name].popleft()
            self.put(turn, self.net.out[turn.actor], "frame" if packet.size is None else "data", None, packet)
        elif turn.choice in ("issue", "resend") and kind == "observer":
            self.issued += turn.choice == "issue"
            self.put(turn, self.net.out_of("observer", "begin"), "begin", self.issued)
        elif turn.choice == "sweep" and kind == "control":
            for link in self.net.out_of(turn.actor, "poll"):
                self.ask(turn, link)
        else:
            raise Misfit("no choice of this input, or nothing to do")

    def ask(self, turn, link):
        """A poll on the link to a unit, or one more once its dump has come."""
        unit = link.target
        if self.polled[unit]:
            self.again[unit] = True
        else:
            self.polled[unit], self.again[unit] = True, False
            self.put(turn, [link], "poll")

    def take_observer(self, turn, link, message):
        pass

    def take_host(self, turn, link, message):
        pass

    def take_control(self, turn, link, message):
        if message.kind == "begin":
            self.put(turn, self.net.out_of(turn.actor, "init"), "init", message.stamp)
        elif message.kind == "notice":
            self.ask(turn, self.net.links[f"{link.source} poll"])
        else:
            self.put(turn, self.net.out_of(turn.actor, "done"), "done")
            self.polled[link.source] = False
            if self.again[link.source]:
                self.ask(turn, self.net.links[f"{link.source} poll"])

    def take_in(self, turn, link, message):
        stamp = self.adopt(turn, message)
        if message.kind == "init":
            self.put(turn, self.net.out_of(turn.actor, "crossbar"), "probe", stamp)
        elif message.kind == "data":
            packet = message.packet
            way = self.way(turn.actor, packet.to) if packet.hops > 0 else None
            if way is None:
                turn.dropped = "noroute" if packet.hops > 0 else "expired"
            else:
                self.put(turn, [way], "data", stamp, Packet(packet.to, packet.hops - 1, packet.size, packet.sent))
        elif message.kind == "frame":
            turn.dropped = "bad"
        self.tell(turn, link, message)

    def way(self, unit, host):
        """The crossbar link by which an ingress unit sends what is for a host; None where no way leads there."""
        if (unit, host) not in self.ways:
            device = device_of(unit)
            port = None if host is None else self.net.next_port(device, host)
            ways = [k for k in self.net.out_of(unit, "crossbar") if k.target == f"out {device}.{port}"]
            self.ways[unit, host] = ways[0] if ways else None
        return self.ways[unit, host]

    def take_out(self, turn, link, message):
        stamp = self.adopt(turn, message)
        if message.kind == "data":
            self.put(turn, self.net.out_of(turn.actor, "cable", "net"), "data", stamp, message.packet)
        elif message.kind == "probe" and link.source.split(" ")[1] == turn.actor.split(" ")[1]:
            self.put(turn, self.net.out_of(turn.actor, "cable"), "probe", stamp)
        self.tell(turn, link, message)

    def adopt(self, turn, message):
        """The unit's number after the message, which it takes over where it is newer."""
        unit = turn.actor
        if message.stamp is not None and message.link.sort != "net":
            self.ids[unit] = max(self.ids[unit], message.stamp)
        if message.kind == "data":
            self.counted[unit].append(turn)
        return self.ids[unit]

    def tell(self, turn, link, message):
        """A notice where the last-seen number changed, and a dump where the unit was polled."""
        if message.stamp is not None and message.stamp != self.last.get(link.spelling, 0):
            self.last[link.spelling] = message.stamp
            self.put(turn, self.net.out_of(turn.actor, "notice"), "notice")
        if message.kind == "poll":
            self.put(turn, self.net.out_of(turn.actor, "dump"), "dump")

    # What the turns tell of snapshot k.

    def crossing(self, unit, k):
        """The unit's first turn from which its number has reached k, or None."""
        place = bisect_left(self.adopted[unit], k)
        return self.adopting[unit][place] if place < len(self.adopting[unit]) else None

    def skips(self, k):
        """The turns that go over k without stopping there."""
        return self.skipping.get(k, [])

    def late(self, k):
        """The turns that take a data packet from before k and credit it to numbers above k alone."""
        return self.missing.get(k, [])

    def lag(self, unit, k):
        """What of the unit is below k at the end: `id` or a channel, with its number; or None."""
        if self.ids[unit] < k:
            return "id", self.ids[unit]
        for channel in self.net.channels(unit):
            number = self.last.get(f"{unit} {channel}", 0)
            if number < k:
                return channel, number
        return None

    def counts(self, k):
        """What each unit had counted before cut k, and what was in flight on its channels, as a report gives them: packets and bytes."""
        found = []
        for unit in self.net.units:
            before = [t.took.packet.size for t in self.counted[unit] if t.id < k]
            counts = Counts(unit, len(before), sum(before), {channel: (0, 0) for channel in self.net.channels(unit)})
            for turn in self.counted[unit]:
                channel = turn.took.link.spelling.removeprefix(f"{unit} ")
                if channel in counts.channels and turn.took.stamp < k <= turn.id:
                    packets, size = counts.channels[channel]
                    counts.channels[channel] = (packets + 1, size + turn.took.packet.size)
            found.append(counts)
        return found

    def cut_turns(self, k):
        """The first and the last turn that cut k rests on: where units reach it or go over it, and what is in flight or late."""
        turns = [t for t in (self.crossing(u, k) for u in self.net.units) if t is not None]
        turns += [*self.skips(k), *self.late(k)]
        for message in self.messages:
            if message.kind == "data" and message.link.sort in LOSSY and message.take is not None and message.put.id < k <= message.take.id:
                turns += [message.put, message.take]
        places = [t.place for t in turns]
        return (min(places), max(places)) if places else (0, len(self.turns) - 1)

    def verdict(self, k):
        """The verdict on an issued number, as a report gives it."""
        for unit in self.net.units:
            lag = self.lag(unit, k)
            if lag is not None:
                return Snapshot(k, "pending", unit, *lag, line=f"snapshot {k} pending {unit} {lag[0]} {lag[1]}")
        skips, late = self.skips(k), self.late(k)
        at_fault = {t.actor for t in (*skips, *late)}
        if not at_fault:
            return Snapshot(k, "consistent", line=f"snapshot {k} consistent")
        unit = next(unit for unit in self.net.units if unit in at_fault)
        jump = min((t.id for t in skips if t.actor == unit), default=None)
        if jump is not None:
            return Snapshot(k, "skipped", unit, "", jump, line=f"snapshot {k} inconsistent {unit} skipped to {jump}")
        credit = min(t.written for t in late if t.actor == unit)
        line = f"snapshot {k} inconsistent {unit} miscredited by {credit}"
        return Snapshot(k, "miscredited", unit, "", credit, line=line)


def replay(source, lines):
    """The world after the turns of a trace."""
    world = World(source)
    for number, line in enumerate(lines, 1):
        try:
            world.turn(line)
        except Misfit as misfit:
            raise Misfit(f"the trace is not one of this input: turn {number}, `{line}`: {misfit}") from None
    return world

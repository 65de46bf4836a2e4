"""Draws a run as a space-time diagram (Lamport 1978) with the cut of one snapshot, as SVG.

Time goes down, a row for each turn; each actor has a column.
"""

import re
from bisect import bisect_left, bisect_right
from html import escape
from textwrap import wrap

from .stories import moved_on

# Rows begin at TOP where one line is said of the verdict, and a LINE lower for each further one.
ROW, TOP, LINE = 17, 104, 16
# A picture of more rows than a screenful has the names of its columns again above each further one, and the legend beside each.
SCREEN, BAND = 44, 34
INK, FAINT, GREY, PAPER = "#222222", "#c4c4c4", "#8a8a8a", "#ffffff"
DATA, FLIGHT, SPREAD, COLLECT, FAULT = "#1f5fbf", "#7a2ec2", "#e08a00", "#b9b9b9", "#d01c1c"
POLL = "#00727d"
COLOURS = {"data": DATA, "frame": DATA, "begin": SPREAD, "init": SPREAD, "probe": SPREAD}
# The colour of the cut and the shade above it, by the verdict.
LOOKS = {
    "consistent": ("#1b7f3b", "#eef6ee"),
    "skipped": (FAULT, "#fbeeee"),
    "miscredited": (FAULT, "#fbeeee"),
    "pending": ("#9a6a00", "#f9f4e6"),
}
WORDS = {
    "data": "a data packet",
    "frame": "other bytes of a host",
    "begin": "a Begin",
    "init": "an initiation",
    "probe": "a probe",
    "notice": "a notice",
    "poll": "a poll",
    "dump": "a dump",
    "done": "a Done",
}
MONO = "DejaVu Sans Mono, Consolas, monospace"


class Drawing:
    """The picture of a world's turns with the cut of one snapshot.

    `actors` are those that have a column, `turns` the first and the last place that has a row, `rows` the places that do
    where some between don't. `whys` are the sentences on the verdict. `pace` is where the units are polled: the first after
    so many turns, each further one after so many more.
    """

    def __init__(self, world, verdict, whys, actors, turns, pace=None, rows=None):
        self.world, self.verdict, self.snapshot = world, verdict, verdict.number
        net = world.net
        self.first, self.last = turns
        self.columns = [a for a in ordered(world) if a in actors]
        self.units = [a for a in self.columns if a in world.ids]
        self.shown = [t.place for t in world.turns if t.actor in self.columns and self.first <= t.place <= self.last]
        # The rows above which some are left out.
        self.gaps, self.kept = [], set(rows or ())
        if rows is not None:
            whole, self.shown = self.shown, rows
            places = {place: i for i, place in enumerate(whole)}
            self.gaps = [i for i in range(1, len(rows)) if places[rows[i]] > places[rows[i - 1]] + 1]
        self.colour, self.shade_colour = LOOKS[verdict.verdict]
        self.cut_colour = self.colour if verdict.verdict == "consistent" else "#6a6a6a"
        self.cuts = {u: world.crossing(u, self.snapshot) for u in net.units}
        self.skips, self.late = world.skips(self.snapshot), world.late(self.snapshot)
        self.pace, self.reads = pace, polled(world, pace) if pace else {}
        self.broken = breaking(world, self.reads) if pace else None
        names = [f"{world.turns[p].actor} {world.turns[p].choice}" for p in self.shown]
        left = 52 + 7 * max(map(len, names), default=0)
        # Room for the name of the cut beside the first unit.
        left += 60 if self.columns[0] in world.ids else 0
        column = max(100, 10 * max(map(len, self.columns)))
        self.xs = {a: left + column // 2 + i * column for i, a in enumerate(self.columns)}
        self.side = left + column * len(self.columns) + 24
        self.is_long = len(self.shown) > SCREEN
        self.width = self.side + 500 if self.is_long else max(self.side - 16, 900)
        # A letter of this size takes seven units at most, but for the widest.
        self.said = [line for words in whys for line in lines_of(words, (self.width - 80) // 7)]
        self.top = TOP + LINE * (len(self.said) - 1)
        self.bottom = self.row_y(len(self.shown) - 1) + 2 * ROW if self.shown else self.top + ROW
        self.parts = []

    def row_y(self, row):
        """The height of a row: the bands with the names of the columns stand between, and a row for what is left out."""
        return self.top + ROW * (row + bisect_right(self.gaps, row)) + BAND * (max(row, 0) // SCREEN)

    def y(self, place):
        """The height of a turn: that of its row, or between two rows where it has none."""
        row = bisect_left(self.shown, place)
        has_row = row < len(self.shown) and self.shown[row] == place
        return self.row_y(row) + ROW if has_row else self.row_y(max(row - 1, 0)) + ROW * (1.5 if row else 0.5)

    def cut_y(self, unit):
        turn = self.cuts[unit]
        if turn is None:
            return self.bottom
        y = self.y(turn.place)
        return y - ROW / 2 if turn.place in self.shown else y

    def read_y(self, unit):
        """Where the unit is read: before the turn that follows."""
        if self.reads[unit] >= len(self.world.turns):
            return self.bottom
        y = self.y(self.reads[unit])
        return y - ROW / 2 if self.reads[unit] in self.shown else y

    def is_before(self, turn):
        cut = self.cuts[turn.actor]
        return cut is None or turn.place < cut.place

    def in_flight(self, message):
        """A data packet between units that was put before the sender's cut and taken after the receiver's."""
        return (
            message.kind == "data"
            and message.take is not None
            and message.link.sort in ("cable", "crossbar")
            and self.is_before(message.put)
            and not self.is_before(message.take)
        )

    def is_late(self, message):
        return message.take is not None and message.take in self.late and message.take.took is message

    def is_missed(self, message):
        """A message that was lost on the channel for which the snapshot is pending."""
        if self.verdict.verdict != "pending" or not message.lost:
            return False
        if self.verdict.channel == "id":
            return message.link.target == self.verdict.unit and message.link.sort in ("init", "cable", "crossbar")
        return message.link.spelling == f"{self.verdict.unit} {self.verdict.channel}"

    def is_drawn(self, message):
        if message.link.source not in self.xs or message.link.target not in self.xs:
            return False
        took = message.put.place if message.take is None else message.take.place
        if self.gaps and message.put.place not in self.kept and took not in self.kept:
            return False
        return message.put.place <= self.last and took >= self.first

    def add(self, name, text=None, **attributes):
        words = "".join(f' {k.replace("_", "-")}="{number(v)}"' for k, v in attributes.items())
        end = "/>" if text is None else f">{escape(text)}</{name}>"
        self.parts.append(f"<{name}{words}{end}")

    def text(self, words, x, y, colour=INK, size=12, **more):
        self.add("text", words, x=x, y=y, fill=colour, font_size=size, **more)

    def line(self, x1, y1, x2, y2, **attributes):
        self.add("line", x1=x1, y1=y1, x2=x2, y2=y2, **attributes)

    def arrow(self, x1, y1, x2, y2, colour, width, stop=5):
        """An arrow that ends a little before its end, where a dot stands."""
        far = max(((x2 - x1) ** 2 + (y2 - y1) ** 2) ** 0.5, 1)
        ux, uy = (x2 - x1) / far, (y2 - y1) / far
        tx, ty = x2 - ux * stop, y2 - uy * stop
        bx, by = tx - ux * 7, ty - uy * 7
        self.line(x1, y1, bx, by, stroke=colour, stroke_width=width)
        corners = [(tx, ty), (bx - uy * 3, by + ux * 3), (bx + uy * 3, by - ux * 3)]
        self.add("polygon", points=points_text(corners), fill=colour)

    def group(self, title):
        """What is added until the group ends has a title, which a browser shows where the mouse rests."""
        self.parts.append(f"<g><title>{escape(title)}</title>")

    def end_group(self):
        self.parts.append("</g>")

    def cross(self, x, y, colour, width=2):
        for sign in (1, -1):
            self.line(x - 4, y - 4 * sign, x + 4, y + 4 * sign, stroke=colour, stroke_width=width)

    def draw(self):
        self.title()
        if self.units:
            self.shade()
        self.rows()
        self.lives()
        messages = [m for m in self.world.messages if self.is_drawn(m)]
        for message in sorted(messages, key=lambda m: (self.weight(m), m.put.place)):
            self.message(message)
        if self.units:
            self.cut_line(messages)
        if self.units and self.pace:
            self.reading_line()
        for place in self.shown:
            self.dot(self.world.turns[place])
        self.marks()
        height = (self.side_legend(messages) if self.is_long else self.legend(messages)) + 22
        head = (
            f'<svg xmlns="http://www.w3.org/2000/svg" width="{self.width}" height="{number(height)}" '
            f'viewBox="0 0 {self.width} {number(height)}" font-family="DejaVu Sans, Verdana, Arial, sans-serif">\n'
            f'<rect width="{self.width}" height="{number(height)}" fill="{PAPER}"/>\n'
        )
        return head + "\n".join(self.parts) + "\n</svg>\n"

    def title(self):
        self.text(self.verdict.line, 40, 26, self.colour, 16, font_weight="bold")
        for place, line in enumerate(self.said):
            self.text(line, 40, 46 + LINE * place, INK, 12)
        turns = len(self.world.turns)
        if self.first > 0 or self.last < turns - 1:
            self.text(f"turns {self.first + 1} to {min(self.last + 1, turns)} of {turns}", 40, self.top - 40, GREY, 11)

    def shade(self):
        points = self.cut_points()
        points = [(points[0][0], self.top - 4), *points, (points[-1][0], self.top - 4)]
        self.add("polygon", points=points_text(points), fill=self.shade_colour)

    def cut_points(self):
        """The cut as a line through the columns of the units, straight on each of them."""
        points = []
        for unit in self.units:
            points += [(self.xs[unit] - 24, self.cut_y(unit)), (self.xs[unit] + 24, self.cut_y(unit))]
        return points

    def rows(self):
        self.text("turn", 30, self.top - 24, GREY, 11, text_anchor="end")
        for place in self.shown:
            turn, y = self.world.turns[place], self.y(place)
            self.text(str(place + 1), 30, y + 4, GREY, 11, text_anchor="end")
            self.text(f"{turn.actor} {turn.choice}", 40, y + 4, INK, 11, font_family=MONO)
        for row in self.gaps:
            turns = self.shown[row] - self.shown[row - 1] - 1
            self.text(f"\u22ee {turns} turns left out", 40, self.row_y(row) + 4, GREY, 11)

    def lives(self):
        for actor in self.columns:
            x = self.xs[actor]
            look = {"stroke": INK, "stroke_width": 1.4} if actor in self.cuts else {"stroke": FAINT, "stroke_width": 1}
            self.line(x, self.top - 4, x, self.bottom, **look)
        self.names(self.top - 24)
        for row in range(SCREEN, len(self.shown), SCREEN):
            self.names(self.row_y(row) - 6)

    def names(self, y):
        """The names of the columns; the unit at fault is framed."""
        for actor in self.columns:
            x, is_at_fault = self.xs[actor], actor == self.verdict.unit
            wide = 8 * len(actor) + 14
            look = {"stroke": self.colour, "stroke_width": 2} if is_at_fault else {}
            if is_at_fault or y > self.top:
                self.add("rect", x=x - wide / 2, y=y - 16, width=wide, height=22, rx=4, fill=PAPER, **look)
            self.text(
                actor,
                x,
                y,
                self.colour if is_at_fault else INK,
                13,
                text_anchor="middle",
                font_weight="bold" if actor in self.cuts else "normal",
            )

    def weight(self, message):
        """What is drawn later lies above."""
        if self.is_late(message) or self.is_missed(message) or message is self.broken:
            return 4
        if self.in_flight(message):
            return 3
        return 2 if message.kind in ("data", "frame") else 1 if message.kind in COLOURS else 0

    def message(self, message):
        colour, width = COLOURS.get(message.kind, COLLECT), 1.5 if message.kind in COLOURS else 1
        if self.is_late(message) or self.is_missed(message):
            colour, width = self.colour, 2.8
        elif message is self.broken:
            colour, width = FAULT, 2.8
        elif self.in_flight(message):
            colour, width = FLIGHT, 2.6
        x1, y1 = self.xs[message.put.actor], self.y(message.put.place)
        x2 = self.xs[message.link.target]
        self.group(self.told(message))
        if message.take is not None:
            self.arrow(x1, y1, x2, self.y(message.take.place), colour, width)
        else:
            x, y = x1 + (x2 - x1) * 0.3, y1 + ROW * 0.6
            self.line(x1, y1, x, y, stroke=colour, stroke_width=width)
            if message.lost:
                self.cross(x, y, colour, width + 0.5)
                anchor = "start" if x2 > x1 else "end"
                self.text(f"{message.kind} to {message.link.target}", x + (7 if x2 > x1 else -7), y + 10, colour, 10, text_anchor=anchor)
        self.end_group()

    def told(self, message):
        """What a message is, in words: its kind and its link, its id, and the turns of its put and its take."""
        words = f"{WORDS[message.kind]} on {message.link.spelling}, from {message.put.actor}"
        if message.stamp is not None and message.kind in ("data", "probe", "init", "begin"):
            words += f", id {message.stamp}"
        if message.packet is not None:
            words += f", to {message.packet.to or 'no host'}, {message.packet.size} bytes, {message.packet.hops} hops left"
        words += f"; put at turn {message.put.place + 1}"
        if message.take is not None:
            return f"{words}, taken at turn {message.take.place + 1}"
        return words + (", lost" if message.lost else ", not taken")

    def told_turn(self, turn):
        """What a turn does, in words: its id before and after, and what its unit had counted."""
        words = f"turn {turn.place + 1}: {turn.actor} {turn.choice}"
        if turn.actor in self.world.ids:
            counted = [t for t in self.world.counted[turn.actor] if t.place <= turn.place]
            size = sum(t.took.packet.size for t in counted)
            words += f", id {turn.before}" + (f" to {turn.id}" if turn.id != turn.before else "")
            words += f", counted {len(counted)} packets, {size} bytes by now"
        puts = [f"{m.kind} to {m.link.target}" + (" (lost)" if m.lost else "") for m in turn.puts]
        return words + (f"; puts {', '.join(puts)}" if puts else "")

    def cut_line(self, messages):
        look = {"stroke": self.cut_colour, "stroke_width": 2.4, "stroke_dasharray": "7 4"}
        self.add("polyline", points=points_text(self.cut_points()), fill="none", **look)
        x, y = self.cut_points()[0]
        words = f"cut {self.snapshot}" if self.verdict.verdict == "consistent" else f"no cut {self.snapshot}"
        if self.verdict.verdict == "pending":
            words = f"cut {self.snapshot}?"
        places = [self.cuts[u].place for u in self.units if self.cuts[u] is not None]
        if places and (min(places) > self.last or max(places) < self.first):
            words += ", later" if min(places) > self.last else ", earlier"
        self.text(words, x - 6, y + 4, self.cut_colour, 12, font_weight="bold", text_anchor="end")
        for message in messages:
            if self.in_flight(message) and not self.is_late(message):
                self.crossing(message)

    def reading_line(self):
        """The polled reading as a line through the columns of the units, with its name at the last one."""
        points = []
        for unit in self.units:
            points += [(self.xs[unit] - 18, self.read_y(unit)), (self.xs[unit] + 18, self.read_y(unit))]
        self.add("polyline", points=points_text(points), fill="none", stroke=POLL, stroke_width=2.2, stroke_dasharray="2 3")
        x, y = points[-1]
        self.text("whole reading" if self.broken is None else "broken reading", x + 8, y + 4, POLL, 12, font_weight="bold")

    def crossing(self, message):
        """A ring where the packet crosses the cut."""
        a = (self.xs[message.put.actor], self.y(message.put.place))
        b = (self.xs[message.take.actor], self.y(message.take.place))
        points = self.cut_points()
        for p, q in zip(points, points[1:]):
            place = meeting(a, b, p, q)
            if place is not None:
                self.add("circle", cx=place[0], cy=place[1], r=5.5, fill=PAPER, stroke=FLIGHT, stroke_width=2.2)
                return

    def dot(self, turn):
        x, y = self.xs[turn.actor], self.y(turn.place)
        self.group(self.told_turn(turn))
        if turn.actor not in self.cuts:
            self.add("circle", cx=x, cy=y, r=3, fill=GREY)
        elif turn in self.late:
            self.add("circle", cx=x, cy=y, r=5, fill=self.colour)
        elif turn is self.cuts[turn.actor]:
            self.add("polygon", points=diamond(x, y), fill=FAULT if turn in self.skips else self.cut_colour)
        elif self.is_before(turn):
            self.add("circle", cx=x, cy=y, r=4, fill=PAPER, stroke=INK, stroke_width=1.6)
        else:
            self.add("circle", cx=x, cy=y, r=4, fill=INK)
        self.end_group()

    def marks(self):
        """At each unit's cut what it had counted, where the snapshot is consistent; else what went wrong."""
        for turn in self.skips:
            if turn.place in self.shown:
                self.label(turn, f"{turn.before} to {turn.id}")
        for turn in self.late:
            if turn.place in self.shown:
                self.label(turn, f"late, at {turn.id}")
        v = self.verdict
        if v.verdict == "miscredited":
            turn = moved_on(self.world, v)
            if turn.place in self.shown and turn.actor in self.xs:
                self.label(turn, f"on to {turn.id}")
        if v.verdict == "pending" and v.unit in self.xs:
            words = f"id {v.other}" if v.channel == "id" else f"{v.channel} {v.other}"
            self.box(self.xs[v.unit] - 3.5 * len(words) - 5, self.bottom - 6, words)
        if v.verdict == "consistent":
            for unit in self.units:
                count = sum(self.is_before(t) for t in self.world.counted[unit])
                self.box(self.xs[unit] + 27, self.cut_y(unit) - 8, str(count))

    def label(self, turn, words):
        self.box(self.xs[turn.actor] + 11, self.y(turn.place) - 8, words)

    def box(self, x, y, text):
        wide = 10 + 7 * len(text) + (1 if len(text) == 1 else 0)
        self.add("rect", x=x, y=y, width=wide, height=16, rx=3, fill=PAPER, stroke=self.colour, stroke_width=1.4)
        self.text(text, x + wide / 2, y + 12, self.colour, 11, font_weight="bold", text_anchor="middle")

    # The legend names what is there.

    def legend(self, messages):
        """The legend below the columns; where its last line stands."""
        y = self.bottom + 34
        left, right = self.legend_of_messages(messages), self.legend_of_turns()
        for column, entries in ((40, left), (max(460, self.width // 2), right)):
            for i, (sample, words) in enumerate(entries):
                sample(column, y + 22 * i)
                self.text(words, column + 56, y + 22 * i + 4)
        return y + 22 * (max(len(left), len(right)) - 1)

    def side_legend(self, messages):
        """The legend beside each screenful; the height of the picture."""
        entries = [*self.legend_of_messages(messages), *self.legend_of_turns()]
        for row in range(0, len(self.shown), SCREEN):
            for i, (sample, words) in enumerate(entries):
                y = self.row_y(row) + 10 + 22 * i
                sample(self.side, y)
                self.text(words, self.side + 56, y + 4)
        return max(self.bottom, self.row_y((len(self.shown) - 1) // SCREEN * SCREEN) + 10 + 22 * len(entries))

    def legend_of_messages(self, messages):
        k, kinds = self.snapshot, {m.kind for m in messages}
        arrow = lambda colour, width: lambda x, y: self.arrow(x, y, x + 44, y, colour, width, 0)
        entries = []
        if kinds & {"data", "frame"}:
            words = "a data packet" + (" or other bytes of a host" if "frame" in kinds else "")
            entries.append((arrow(DATA, 1.5), f"{words}, from its put to its take"))
        if any(self.in_flight(m) and not self.is_late(m) for m in messages):
            entries.append((self.flight_sample, f"a packet in flight across cut {k}: put before, taken after"))
        if any(self.is_late(m) for m in messages):
            words = f"a packet from before {k} that a unit above {k} takes"
            entries.append((arrow(self.colour, 2.8), words))
        if self.broken in messages:
            entries.append((arrow(FAULT, 2.8), "a packet sent after its sender was read, received before its receiver was"))
        if kinds & {"begin", "init", "probe"}:
            entries.append((arrow(SPREAD, 1.5), "a Begin, an initiation or a probe"))
        if kinds & {"notice", "poll", "dump", "done"}:
            entries.append((arrow(COLLECT, 1), "a notice, a poll, a dump or a Done"))
        if any(m.lost and not self.is_missed(m) for m in messages):
            entries.append((lambda x, y: self.lost_sample(x, y, SPREAD, 1.5), "a message that is lost"))
        if any(self.is_missed(m) for m in messages):
            entries.append((lambda x, y: self.lost_sample(x, y, self.colour, 2.8), "lost where the snapshot waits"))
        return entries

    def legend_of_turns(self):
        k, verdict = self.snapshot, self.verdict.verdict
        if not self.units:
            return []
        entries = [(self.cut_sample, f"where each unit reaches {k}; shaded: its turns before")]
        if verdict == "consistent":
            entries[0] = (self.cut_sample, f"cut {k}; shaded: the units' turns before it")
            entries.append(
                (lambda x, y: self.box(x + 13, y - 8, "n"), "n: the packets that the unit counted before the cut")
            )
        entries.append((lambda x, y: self.sample_dot(x, y, True), f"a unit's turn before it reaches {k}"))
        if self.pace:
            start, gap = self.pace
            entries.append((self.reading_sample, f"where polling reads each unit: after {start} turns, then {gap} more for each"))
        stops = [t for t in self.cuts.values() if t is not None and t not in self.skips]
        if stops:
            entries.append(
                (lambda x, y: self.diamond_sample(x, y, self.cut_colour), f"the turn in which it reaches {k}")
            )
        if self.skips:
            entries.append((lambda x, y: self.diamond_sample(x, y, FAULT), f"the turn in which it goes over {k}"))
        entries.append((lambda x, y: self.sample_dot(x, y, False), "a unit's turn after that (grey: of another actor)"))
        return entries

    def flight_sample(self, x, y):
        self.arrow(x, y, x + 44, y, FLIGHT, 2.6, 0)
        self.add("circle", cx=x + 17, cy=y, r=5.5, fill=PAPER, stroke=FLIGHT, stroke_width=2.2)

    def lost_sample(self, x, y, colour, width):
        self.line(x + 8, y, x + 30, y, stroke=colour, stroke_width=width)
        self.cross(x + 30, y, colour, width + 0.5)

    def cut_sample(self, x, y):
        self.add("rect", x=x, y=y - 9, width=44, height=9, fill=self.shade_colour)
        self.line(x, y, x + 44, y, stroke=self.cut_colour, stroke_width=2.4, stroke_dasharray="7 4")

    def reading_sample(self, x, y):
        self.line(x, y, x + 44, y, stroke=POLL, stroke_width=2.2, stroke_dasharray="2 3")

    def diamond_sample(self, x, y, colour):
        self.add("polygon", points=diamond(x + 22, y), fill=colour)

    def sample_dot(self, x, y, is_before):
        look = {"fill": PAPER, "stroke": INK, "stroke_width": 1.6} if is_before else {"fill": INK}
        self.add("circle", cx=x + 22, cy=y, r=4, **look)


def lines_of(words, most):
    """Words in lines of so many letters, in which a unit's name, a turn and a snapshot stay whole."""
    tied = re.sub(r"\b(in|out|turn|snapshot) (?=\S+\.\d|\d)", "\\1\u00a0", words)
    return [line.replace("\u00a0", " ") for line in wrap(tied, most)]


def ordered(world):
    """The actors as columns: hosts that send, units, other hosts, control planes, the observer."""
    net = world.net
    putting = {m.put.actor for m in world.messages}
    hosts = [f"host {h}" for h in net.hosts]
    senders = [h for h in hosts if h in putting]
    # The egress unit before the ingress unit, so that a packet to the next port goes to the next column.
    units = [u for i in range(0, len(net.units), 2) for u in (net.units[i + 1], net.units[i])]
    others = [h for h in hosts if h not in putting]
    return [*senders, *units, *others, *(f"control {d}" for d in net.devices), "observer"]


def polled(world, pace):
    """After how many turns each unit is read."""
    start, gap = pace
    return {unit: min(start + place * gap, len(world.turns)) for place, unit in enumerate(world.net.units)}


def breaking(world, reads):
    """The data packet between units, the first to be received, that was received before its receiver was read and sent
    after its sender was; or None."""
    for turn in world.turns:
        message = turn.took
        if message is None or message.kind != "data" or message.link.sort not in ("cable", "crossbar"):
            continue
        if turn.place < reads[turn.actor] and message.put.place >= reads[message.put.actor]:
            return message
    return None


def number(value):
    """A number with at most one digit after the point; other values as they stand."""
    return f"{value:.1f}".removesuffix(".0") if isinstance(value, float) else str(value)


def points_text(points):
    return " ".join(f"{number(x)},{number(y)}" for x, y in points)


def diamond(x, y):
    return points_text([(x, y - 7), (x + 7, y), (x, y + 7), (x - 7, y)])


def meeting(a, b, p, q):
    """Where the segment from a to b meets that from p to q, if they do."""
    ux, uy, vx, vy = b[0] - a[0], b[1] - a[1], q[0] - p[0], q[1] - p[1]
    area = ux * vy - uy * vx
    if area == 0:
        return None
    s = ((p[0] - a[0]) * vy - (p[1] - a[1]) * vx) / area
    t = ((p[0] - a[0]) * uy - (p[1] - a[1]) * ux) / area
    return (a[0] + s * ux, a[1] + s * uy) if 0 <= s <= 1 and 0 <= t <= 1 else None

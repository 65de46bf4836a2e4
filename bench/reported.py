"""What a call prints, and what a report says of a run that was replayed over whole histories, for the scripts beside this one."""

import sys

from speedlight_tools import program


def answer(found, words, text):
    """The lines that a call prints for an input. A call that fails ends the script."""
    status, out, errors = program.run(found, words, text.encode())
    if status != 0:
        sys.exit(f"{program.fault(found, status, errors)}, of the input\n{text[:2000]}")
    return out.decode().splitlines()


class Cut:
    """The cut of a number: how many turns of the run come before each unit's id reaches it."""

    def __init__(self, world, k):
        self.world, self.places = world, {}
        for unit in world.net.units:
            crossing = world.crossing(unit, k)
            self.places[unit] = len(world.turns) if crossing is None else crossing.place

    def row(self, unit):
        """A unit's line of the report."""
        packets = [turn.took.packet for turn in self.world.counted[unit] if turn.place < self.places[unit]]
        words = [unit, str(len(packets)), str(sum(packet.size for packet in packets))]
        for channel in self.world.net.channels(unit):
            flying = [
                message.packet
                for message in self.world.messages
                if message.kind == "data"
                and message.link.spelling == f"{unit} {channel}"
                and message.take is not None
                and message.put.place < self.places[message.put.actor]
                and message.take.place >= self.places[unit]
            ]
            words += [channel, str(len(flying)), str(sum(packet.size for packet in flying))]
        return " ".join(words)


def expected(world, k):
    """The verdict on an issued number, and the lines of the report on it."""
    verdict = world.verdict(k)
    if verdict.verdict != "consistent":
        return verdict.verdict, [verdict.line]
    cut = Cut(world, k)
    return verdict.verdict, [verdict.line] + [cut.row(unit) for unit in world.net.units]

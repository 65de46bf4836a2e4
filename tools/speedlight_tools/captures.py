"""The frames of a run as a capture: a packet for each that was put on a link."""

import dpkt.pcapng as pcapng

from . import frames

# DLT_USER0, for whose meaning the reader of the capture is told: tools/speedlight.lua.
LINK_TYPE = 147
MICROSECOND = 1_000_000
IN, OUT = 1, 2
FLAGS = 2
SORTS = ("host", "net", "cable", "crossbar", "init")
DROPS = {
    "bad": "dropped, bad: it is no plain frame",
    "expired": "dropped, expired: no hops are left",
    "noroute": "dropped, noroute: no way leads to its host",
}


def option(code, data):
    return pcapng.PcapngOptionLE(code=code, data=data)


def closed(options):
    return [*options, pcapng.PcapngOptionLE()]


class Capture:
    """The frames on the links of a run, in the order in which they were put.

    The time of a frame is its turn, a second each. Its interface is its link, and its direction that of a capture at a
    switch's port: in where a host put it, out where an egress unit did, and none within a switch.
    """

    def __init__(self, source, world):
        self.source, self.world, self.net = source, world, world.net
        self.bits, self.version = source.snapshot["bits"], source.snapshot["version"]
        self.versions = {}
        for cable in source.doc.get("cable", []):
            self.versions[cable["a"]] = self.versions[cable["b"]] = cable.get("version", self.version)
        self.links = [link for link in self.net.links.values() if link.sort in SORTS]
        self.places = {link.spelling: place for place, link in enumerate(self.links)}

    def version_on(self, link):
        """The version of the carried frames, probes and initiations on a link."""
        return self.versions[link.target.split(" ")[1]] if link.sort == "cable" else self.version

    def data(self, message):
        """The bytes of a message on its link."""
        link, packet = message.link, message.packet
        if message.kind == "frame" or (link.sort == "host" and packet.sent.data is not None):
            return packet.sent.data
        fields = {}
        if message.kind == "data":
            sent = packet.sent
            fields = {"src": sent.src, "dst": sent.dst, "seq": sent.seq, "len": sent.size, "hops": packet.hops}
        if link.sort in ("host", "net"):
            return frames.make({"kind": "plain", **fields}, self.bits)
        number = {"id": message.stamp % 2**self.bits, "version": self.version_on(link)}
        if message.kind == "init":
            return frames.make({"kind": "initiation", **number, "channel": 255}, self.bits)
        kind = "carried" if message.kind == "data" else "probe"
        port = int(link.source.rpartition(".")[2])
        return frames.make({"kind": kind, "channel": port, **number, **fields}, self.bits)

    def told(self, message):
        """What becomes of a frame, and the sender's whole number where it carries one."""
        if message.lost:
            words = ["lost"]
        elif message.take is None:
            words = ["never taken"]
        else:
            words = [f"taken at turn {message.take.place + 1}"]
            words += [DROPS[message.take.dropped]] if message.take.dropped else []
        if message.stamp is not None and message.link.sort != "net":
            words.append(f"number {message.stamp}")
        return "; ".join(words)

    def direction(self, link):
        return {"host": IN, "net": OUT, "cable": OUT}.get(link.sort, 0)

    def interface(self, link):
        about = f"{link.sort}, from {link.source} to {link.target}; ids of {self.bits} bits"
        if link.sort not in ("host", "net"):
            about += f"; version {self.version_on(link)}"
        options = [
            option(pcapng.PCAPNG_OPT_IF_NAME, link.spelling.encode()),
            option(pcapng.PCAPNG_OPT_IF_DESCRIPTION, about.encode()),
        ]
        return pcapng.InterfaceDescriptionBlockLE(linktype=LINK_TYPE, snaplen=0, opts=closed(options))

    def write(self, file):
        """Writes the capture; how many frames it has."""
        head = pcapng.SectionHeaderBlockLE(opts=closed([option(pcapng.PCAPNG_OPT_SHB_USERAPPL, b"speedlight tools/frame pcap")]))
        file.write(bytes(head))
        for link in self.links:
            file.write(bytes(self.interface(link)))
        count = 0
        for message in self.world.messages:
            if message.link.sort not in SORTS:
                continue
            time = (message.put.place + 1) * MICROSECOND
            options = [option(pcapng.PCAPNG_OPT_COMMENT, self.told(message).encode())]
            direction = self.direction(message.link)
            if direction:
                options.append(option(FLAGS, direction.to_bytes(4, "little")))
            block = pcapng.EnhancedPacketBlockLE(
                iface_id=self.places[message.link.spelling],
                ts_high=time >> 32,
                ts_low=time & 0xFFFFFFFF,
                pkt_data=self.data(message),
                opts=closed(options),
            )
            file.write(bytes(block))
            count += 1
        return count

"""Frames there and back, what is no frame, the tables and the worked frame of docs/FORMATS.md, and captures by tshark."""

import collections
import json
import os
import random
import re
import shutil
import subprocess
import tempfile
import unittest
from pathlib import Path

from shared import ENVIRONMENT, EXAMPLES, TOOLS, TOP, accepted, run

from speedlight_tools import frames, needs, program
from speedlight_tools.inputs import read_input
from speedlight_tools.replay import replay
from speedlight_tools.reports import read_report

CARRIED = "010100030000000100000002006407010000000000000000"
PLAIN = "000000000000000100000000006408010000000000000000"
PROBE = "020000010000000000000000000000010000000000000000"
INITIATION = "03ff00010000000000000000000000010000000000000000"
CHECKED = "01010003000000010000000200640702fffc000000000000"
RULES = {
    "any": "any",
    "port": "port of the sending unit, 0 to 7",
    "id": "below 2^bits, and in version 1 below 256",
    "version": "1 or 2",
    "check": "0 in version 1, 65535 - id in version 2",
}


def changed(frame, byte, value):
    return frame[: 2 * byte] + value + frame[2 * byte + len(value) :]


class Frame(unittest.TestCase):
    def test_reading(self):
        told = run("frame", "read", CARRIED)[1]
        self.assertIn(f"{told}```", (TOP / "docs" / "FORMATS.md").read_text())
        fields = json.loads(run("frame", "read", PLAIN, "--json")[1])
        self.assertEqual((fields["kind"], fields["dst"], fields["len"], fields["hops"]), ("plain", 1, 100, 8))
        self.assertIn("dst       1 (h1)", run("frame", "read", PLAIN, "--input", EXAMPLES / "two_in_flight.toml")[1])
        self.assertEqual(run("frame", "read", "0x" + " ".join(CARRIED[i : i + 2] for i in range(0, 48, 2)))[0], 0)

    def test_making(self):
        made = lambda *words: run("frame", "make", *words)[1].strip()
        words = "carried --id 3 --channel 1 --src 0 --dst 1 --seq 2 --len 100 --hops 7".split()
        self.assertEqual(made(*words), CARRIED)
        self.assertEqual(made(*"plain --src 0 --dst 1 --len 100 --hops 8".split()), PLAIN)
        self.assertEqual(made("probe", "--id", 1, "--channel", 0), PROBE)
        self.assertEqual(made("initiation", "--id", 1), INITIATION)
        self.assertEqual(made(*words, "--version", 2, "--bits", 16), CHECKED)

    def test_the_example_of_the_documents(self):
        made = run("frame", "make", *"plain --src 0 --dst 1 --len 100 --hops 8".split())[1]
        told = run("frame", "read", PLAIN, "--input", EXAMPLES / "two_in_flight.toml")[1]
        self.assertTrue(f"```text\n{made}{told}```" in (TOP / "docs" / "TOOLS.md").read_text())

    def test_the_frames_of_the_tour(self):
        """The same packet on the two cables of an example, which have two versions."""
        tour, packet = (TOP / "docs" / "TOUR.md").read_text(), "--channel 1 --src 0 --dst 1 --len 100".split()
        for hops, version in ((7, 2), (6, 1)):
            made = run("frame", "make", "carried", *packet, "--hops", hops, "--version", version, "--bits", 8)[1].strip()
            told = run("frame", "read", made, "--bits", 8)[1].splitlines()
            shown = [line for line in told if line.split()[2] in ("id", "hops", "version", "check")]
            self.assertIn("```text\n" + "\n".join(shown) + "\n```", tour)

    def test_there_and_back(self):
        dice = random.Random(1)
        for _ in range(1000):
            kind, bits = dice.choice(frames.KINDS), dice.randint(1, 16)
            version = 1 if kind == "plain" else dice.randint(1, 2)
            fields = {"kind": kind}
            for name, _, size, rules in frames.FIELDS[1:]:
                rule = rules[frames.KINDS.index(kind)]
                most = {"any": 256**size, "port": 8, "id": 2 ** (bits if version == 2 else min(bits, 8))}.get(rule)
                fields[name] = rule if most is None else dice.randrange(most)
            fields["version"] = version
            fields["check"] = 65535 - fields["id"] if version == 2 else 0
            self.assertEqual(frames.read(frames.make(fields, bits), bits), fields)
            unchecked = {name: value for name, value in fields.items() if name != "check"}
            self.assertEqual(frames.read(frames.make(unchecked, bits), bits), fields)

    def test_each_change_of_a_byte(self):
        """A byte of a frame that was changed is another value of the same field, or refused."""
        for frame in map(bytes.fromhex, (CARRIED, CHECKED, PLAIN, PROBE, INITIATION)):
            for place in range(24):
                for value in range(256):
                    changed_frame = frame[:place] + bytes([value]) + frame[place + 1 :]
                    try:
                        fields = frames.read(changed_frame, 16)
                    except frames.NoFrame as fault:
                        self.assertIn(fault.refusal, ("E2", "E3", "E4", "E5"))
                    else:
                        self.assertEqual(frames.make(fields, 16), changed_frame)

    def test_what_is_no_frame(self):
        wrong = [
            (CARRIED[:-2], "these are 23"),
            (changed(CARRIED, 0, "04"), "byte 0, the kind"),
            (changed(CARRIED, 15, "03"), "byte 15, version, is 3: in a frame of the kind carried it is 1 or 2"),
            (changed(CARRIED, 15, "02"), "E5: bytes 16 to 17, check, is 0"),
            (changed(PLAIN, 15, "02"), "E2: byte 15, version"),
            (changed(CHECKED, 18, "01"), "E4: bytes 18 to 23, reserved"),
            (changed(CARRIED, 2, "0004"), "bytes 2 to 3, id, is 4"),
            (changed(PLAIN, 2, "0001"), "bytes 2 to 3, id, is 1"),
            (changed(PLAIN, 16, "01"), "E4: bytes 16 to 17, check, is 256"),
            (changed(PROBE, 14, "01"), "byte 14, hops"),
            (changed(CARRIED, 1, "08"), "byte 1, channel"),
            (changed(INITIATION, 1, "00"), "byte 1, channel"),
            (changed(CARRIED, 0, "0408"), "byte 0, the kind"),
        ]
        for frame, why in wrong:
            status, _, err = run("frame", "read", frame)
            self.assertEqual((status, err.count("\n")), (1, 1), frame)
            self.assertIn(why, err)
        self.assertEqual(run("frame", "read", changed(CARRIED, 2, "0004"), "--bits", 3)[0], 0)
        self.assertIn("0 to 255 with 16 bits in version 1", run("frame", "read", changed(CARRIED, 2, "0104"), "--bits", 16)[2])

    def test_errors_are_plain(self):
        for words in (
            ["read", "zz"],
            ["read", "000"],
            ["make", "plain", "--hops", "256"],
            ["make", "plain", "--id", "1"],
            ["make", "probe"],
            ["make", "probe", "--channel", "8"],
            ["make", "plain", "--len", "-1"],
            ["make", "plain", "--version", "2"],
            ["make", "probe", "--channel", "0", "--version", "3"],
            ["make", "probe", "--channel", "0", "--id", "256", "--bits", "16"],
        ):
            status, out, err = run("frame", *words)
            self.assertEqual((status, out, err.count("\n")), (1, "", 1), words)
        self.assertEqual(run("frame")[0], 2)

    def test_the_table_in_the_formats(self):
        formats = (TOP / "docs" / "FORMATS.md").read_text()
        for name, start, size, rules in frames.FIELDS:
            place = {1: f"{start}", 2: f"{start} and {start + 1}"}.get(size, f"{start} to {start + size - 1}")
            row = f"| {place} | `{name}` | " + " | ".join(RULES.get(rule, str(rule)) for rule in rules) + " |\n"
            self.assertIn(row, formats)

    def test_the_frames_in_the_formats(self):
        rows = re.findall(r"^\| (\d+) \| `([0-9a-f]+)` \| (.*) \|$", (TOP / "docs" / "FORMATS.md").read_text(), re.M)
        self.assertEqual(len(rows), 16)
        for bits, data, told in rows:
            status, out, err = run("frame", "read", data, "--bits", bits)
            if told.startswith("`"):
                self.assertEqual((status, err), (0, ""), data)
                self.assertEqual(run("frame", "make", *told.strip("`").split(), "--bits", bits)[1].strip(), data)
            else:
                self.assertEqual(status, 1, data)
                self.assertIn(f"no frame, {told[:2]}: ", err)

    def test_that_version_2_is_needed(self):
        words = ["frame", "make", "probe", "--channel", "0", "--id", "300", "--bits", "16"]
        status, out, err = run(*words)
        self.assertEqual((status, out, err.count("\n")), (1, "", 1))
        self.assertIn("so give --version 2", err)
        self.assertEqual(run(*words, "--version", "2")[0], 0)
        for words in (["--id", "70000", "--bits", "16"], ["--id", "5"], ["--id", "300", "--bits", "16", "--version", "2", "--check", "1"]):
            self.assertNotIn("give --version 2", run("frame", "make", "probe", "--channel", "0", *words)[2])


COLUMNS = [
    "frame.interface_name",
    "frame.time_epoch",
    "frame.packet_flags_direction",
    "frame.comment",
    "speedlight.link",
    "speedlight.lost",
    "speedlight.number",
    "speedlight.refusal",
    "speedlight.drop",
    *(f"speedlight.{name}" for name, _, _, _ in frames.FIELDS),
]
DIRECTIONS = {"host": "0x00000001", "net": "0x00000002", "cable": "0x00000002"}


def shown(capture):
    """What tshark shows of each frame of a capture: a row of COLUMNS."""
    words = ["tshark", "-X", f"lua_script:{TOOLS / 'speedlight.lua'}", "-r", str(capture), "-T", "fields", "-E", "separator=/t"]
    for name in COLUMNS:
        words += ["-e", name]
    done = subprocess.run(words, stdout=subprocess.PIPE, stderr=subprocess.PIPE, env={**os.environ, "LC_ALL": "C.UTF-8"})
    assert done.returncode == 0, done.stderr.decode()
    assert b"Lua" not in done.stderr, done.stderr.decode()
    return [dict(zip(COLUMNS, line.split("\t"))) for line in done.stdout.decode().splitlines()]


def capture(*words):
    """Status, bytes and errors of tools/frame pcap."""
    done = subprocess.run([str(TOOLS / "frame"), "pcap", *map(str, words)], capture_output=True, env=ENVIRONMENT)
    return done.returncode, done.stdout, done.stderr.decode()


@unittest.skipUnless(shutil.which("tshark"), "no tshark: tools/setup installs it")
@unittest.skipUnless(needs.python_with("dpkt"), "no dpkt: tools/setup installs it")
class Captured(unittest.TestCase):
    @unittest.skipUnless(program.compiled(), "no program is built")
    def test_the_frames_of_all_examples(self):
        """Each frame that was put, with its fields, its turn and what became of it, as the trace and the report tell."""
        with tempfile.TemporaryDirectory() as folder:
            for path in accepted():
                with self.subTest(example=path.stem):
                    told = program.run(program.compiled(), ["step", "--trace"], path.read_bytes())[1]
                    trace, made = Path(folder) / "run", Path(folder) / "run.pcapng"
                    trace.write_bytes(told)
                    status, data, errors = capture(path, trace)
                    self.assertEqual((status, errors), (0, ""))
                    made.write_bytes(data)
                    source, report = read_input(path), read_report(told.decode())
                    world = replay(source, report.trace)
                    put = [m for m in world.messages if m.link.sort in ("host", "net", "cable", "crossbar", "init")]
                    rows = shown(made)
                    self.assertEqual(len(rows), len(put))
                    for row, message in zip(rows, put):
                        self.fields(row, message, source)
                    self.totals(rows, world, report)

    def fields(self, row, message, source):
        link, packet = message.link, message.packet
        self.assertEqual((row["frame.interface_name"], row["speedlight.link"]), (link.spelling, link.spelling))
        self.assertEqual(float(row["frame.time_epoch"]), message.put.place + 1)
        self.assertEqual(row["frame.packet_flags_direction"], DIRECTIONS.get(link.sort, ""))
        self.assertEqual(row["speedlight.lost"], str(int(message.lost)))
        self.assertEqual("lost" in row["frame.comment"], message.lost)
        carries = link.sort in ("cable", "crossbar", "init")
        self.assertEqual(row["speedlight.number"], str(message.stamp) if carries else "")
        self.assertEqual(row["speedlight.drop"].split(":")[0], (message.take.dropped or "") if message.take else "")
        if message.kind == "frame":
            try:
                self.assertNotEqual(frames.read(packet.sent.data, frames.NARROW)["kind"], "plain")
            except frames.NoFrame as fault:
                # A host's unit takes ids of no width, so a carried frame is read by the bits of the input here.
                self.assertTrue(row["speedlight.refusal"].startswith(fault.refusal) or fault.refusal == "E3")
            return
        self.assertEqual(row["speedlight.refusal"], "")
        kind = {"host": "plain", "net": "plain", "init": "initiation"}.get(link.sort, "carried" if message.kind == "data" else "probe")
        self.assertEqual(frames.KINDS[int(row["speedlight.kind"])], kind)
        if carries:
            self.assertEqual(int(row["speedlight.id"]), message.stamp % 2 ** source.snapshot["bits"])
            port = 255 if kind == "initiation" else int(link.source.rpartition(".")[2])
            self.assertEqual(int(row["speedlight.channel"]), port)
        cables = {c[end]: c.get("version", source.snapshot["version"]) for c in source.doc.get("cable", []) for end in "ab"}
        version = 1 if not carries else cables[link.target.split(" ")[1]] if link.sort == "cable" else source.snapshot["version"]
        self.assertEqual(int(row["speedlight.version"]), version)
        if packet is not None:
            hosts, sent = source.net.hosts, packet.sent
            if sent.flow is not None:
                flow = source.flows[sent.flow]
                ends = (hosts.index(flow["from"]), hosts.index(flow["to"]), sent.seq, flow["bytes"], packet.hops)
                found = tuple(int(row[f"speedlight.{name}"]) for name in ("src", "dst", "seq", "len", "hops"))
                self.assertEqual(found, ends)

    def totals(self, rows, world, report):
        sorts = {spelling: link.sort for spelling, link in world.net.links.items()}
        count = lambda sort, name, value: sum(sorts[r["speedlight.link"]] == sort and r[name].split(":")[0] == value for r in rows)
        for sort in ("cable", "crossbar", "init"):
            self.assertEqual(count(sort, "speedlight.lost", "1"), report.lost[sort])
        drops = collections.Counter(r["speedlight.drop"].split(":")[0] for r in rows)
        self.assertEqual({name: drops[name] for name in report.drops}, report.drops)
        self.assertEqual(count("host", "speedlight.lost", "0"), sum(sent for sent, _ in report.host_counts.values()))
        self.assertEqual(count("net", "speedlight.lost", "0"), sum(taken for _, taken in report.host_counts.values()))

    def test_what_is_no_frame_is_flagged(self):
        """Each byte of some frames changed, and the frames of docs/FORMATS.md: the same answer as that of tools/frame."""
        import_dpkt()
        changes = []
        for frame in map(bytes.fromhex, (CARRIED, CHECKED, PLAIN, PROBE, INITIATION)):
            for place in range(24):
                for value in (0, 1, 2, 3, 4, 7, 8, 100, 255):
                    changes.append((16 if frame[15] == 2 else 2, frame[:place] + bytes([value]) + frame[place + 1 :]))
            changes += [(8, frame[:23]), (8, frame + b"0"), (8, b"")]
        rows = re.findall(r"^\| (\d+) \| `([0-9a-f]+)` \| (.*) \|$", (TOP / "docs" / "FORMATS.md").read_text(), re.M)
        changes += [(int(bits), bytes.fromhex(data)) for bits, data, _ in rows]
        with tempfile.TemporaryDirectory() as folder:
            for bits in {bits for bits, _ in changes}:
                tried = [data for width, data in changes if width == bits]
                path = Path(folder) / f"{bits}.pcapng"
                path.write_bytes(capture_of(tried, bits))
                for data, row in zip(tried, shown(path), strict=True):
                    try:
                        frames.read(data, bits)
                        wanted = ""
                    except frames.NoFrame as fault:
                        wanted = fault.refusal
                    self.assertEqual(row["speedlight.refusal"].split(":")[0], wanted, data.hex())

    def test_errors_of_captures(self):
        for words, wanted, why in (
            ([EXAMPLES / "refused.toml"], 3, "I7 flow.0.to"),
            ([EXAMPLES / "one_port.toml", TOP / "docs" / "dead_cable.trace"], 1, "is not one of this input"),
            ([EXAMPLES / "one_port.toml", EXAMPLES / "one_port.toml"], 1, "no report"),
            ([EXAMPLES / "nothing.toml"], 1, "No such file"),
        ):
            status, out, errors = capture(*words)
            self.assertEqual((status, out, errors.count("\n")), (wanted, b"", 1), errors)
            self.assertIn(why, errors)

    def test_the_lines_of_the_documents(self):
        with tempfile.TemporaryDirectory() as folder:
            path = Path(folder) / "run.pcapng"
            path.write_bytes(capture(EXAMPLES / "dead_cable.toml", TOP / "docs" / "dead_cable.trace")[1])
            words = ["tshark", "-X", f"lua_script:{TOOLS / 'speedlight.lua'}", "-r", str(path), "-Y", "speedlight.lost == 1", "-t", "e"]
            told = subprocess.run(words, capture_output=True, text=True).stdout.splitlines()
            document = (TOP / "docs" / "TOOLS.md").read_text()
            self.assertTrue(told)
            for line in told[:3]:
                self.assertTrue(re.sub(r"\s+", " ", line.strip()) in re.sub(r"[ \t]+", " ", document), line)


def import_dpkt():
    """dpkt in this Python, from Debian's packages where it is another one."""
    import sys

    if not needs.imports(("dpkt",)):
        sys.path.append("/usr/lib/python3/dist-packages")


def capture_of(tried, bits):
    """A capture of these bytes, as on a link within a switch."""
    import dpkt.pcapng as pcapng

    from speedlight_tools.captures import LINK_TYPE, closed, option

    about = f"crossbar, from in a.0 to out a.1; ids of {bits} bits".encode()
    face = pcapng.InterfaceDescriptionBlockLE(linktype=LINK_TYPE, snaplen=0, opts=closed([option(2, b"out a.1 x0"), option(3, about)]))
    parts = [bytes(pcapng.SectionHeaderBlockLE()), bytes(face)]
    parts += [bytes(pcapng.EnhancedPacketBlockLE(ts_low=1, pkt_data=data)) for data in tried]
    return b"".join(parts)


if __name__ == "__main__":
    unittest.main()

"""The layout of frames: 24 bytes, numbers with the greater byte first."""

SIZE = 24
KINDS = ("plain", "carried", "probe", "initiation")
VERSIONS = (1, 2)
# The most bits of an id that a frame of version 1 carries.
NARROW = 8
# Each field: its name, its first byte and its length, and what each kind of frame may have in it: a number that it
# must be, or `any`, `port` (0 to 7), `id` (below the number of ids, and in version 1 below 256), `version` (1 or 2) or
# `check` (0 in version 1, 65535 less the id in version 2).
FIELDS = [
    ("kind", 0, 1, (0, 1, 2, 3)),
    ("channel", 1, 1, (0, "port", "port", 255)),
    ("id", 2, 2, (0, "id", "id", "id")),
    ("src", 4, 2, ("any", "any", 0, 0)),
    ("dst", 6, 2, ("any", "any", 0, 0)),
    ("seq", 8, 4, ("any", "any", 0, 0)),
    ("len", 12, 2, ("any", "any", 0, 0)),
    ("hops", 14, 1, ("any", "any", 0, 0)),
    ("version", 15, 1, (1, "version", "version", "version")),
    ("check", 16, 2, (0, "check", "check", "check")),
    ("reserved", 18, 6, (0, 0, 0, 0)),
]
MEANINGS = {
    "kind": "what the frame carries",
    "channel": "the port of the sending unit",
    "id": "the sender's snapshot number, wrapped",
    "src": "the place of the sending host, from 0",
    "dst": "the place of the host that it is for, from 0",
    "seq": "the packet's number in its flow, from 0",
    "len": "the packet's bytes",
    "hops": "the switches that it may still go through",
    "version": "the version of the layout, 1 or 2 (1)",
    "check": "the id once more, taken from 65535",
    "reserved": "nothing",
}


class NoFrame(Exception):
    """The bytes are no frame, or the fields make none; the message says why, and `refusal` is the program's name of it."""

    def __init__(self, refusal, why):
        super().__init__(why)
        self.refusal = refusal


def check_of(version, number):
    return 65535 - number if version == 2 else 0


def most_of(version, bits):
    """The greatest id of so many bits that a frame of this version carries."""
    return 2 ** (bits if version == 2 else min(bits, NARROW)) - 1


def allowed(rule, value, fields, bits):
    if rule == "any":
        return True
    if rule == "port":
        return value <= 7
    if rule == "id":
        return value <= most_of(fields["version"], bits)
    if rule == "version":
        return value in VERSIONS
    if rule == "check":
        return value == check_of(fields["version"], fields["id"])
    return value == rule


def words(rule, fields, bits):
    if rule == "port":
        return "0 to 7"
    if rule == "id":
        wide = bits > NARROW and fields["version"] == 1
        return f"0 to {most_of(fields['version'], bits)} with {bits} bits" + (" in version 1" if wide else "")
    if rule == "version":
        return "1 or 2"
    if rule == "check":
        return f"{check_of(fields['version'], fields['id'])} in version {fields['version']}"
    return str(rule)


def split(data):
    """The fields of 24 bytes, whatever they hold."""
    return {name: int.from_bytes(data[start : start + size], "big") for name, start, size, _ in FIELDS}


def read(data, bits):
    """The fields of a frame with its kind as a word. Raises NoFrame with the first thing that is wrong."""
    if len(data) != SIZE:
        raise NoFrame("E1", f"a frame has {SIZE} bytes, and these are {len(data)}")
    fields = split(data)
    if fields["kind"] > 3:
        raise NoFrame("E2", f"byte 0, the kind, is {fields['kind']}: 0 to 3 are kinds")
    check(fields, bits)
    return {**fields, "kind": KINDS[fields["kind"]]}


def refusal_of(name, version):
    """The program's name of a field that is wrong."""
    return {"version": "E2", "id": "E3", "check": "E5" if version == 2 else "E4"}.get(name, "E4")


def check(fields, bits):
    """Raises NoFrame with the first field that its kind and version don't allow: the check is looked at last."""
    first = ("version", "id")
    for name in (*first, *(n for n, _, _, _ in FIELDS if n not in (*first, "check")), "check"):
        _, start, size, rules = next(f for f in FIELDS if f[0] == name)
        rule = rules[fields["kind"]]
        if not allowed(rule, fields[name], fields, bits):
            place = f"byte {start}" if size == 1 else f"bytes {start} to {start + size - 1}"
            kind = f"in a frame of the kind {KINDS[fields['kind']]}"
            raise NoFrame(
                refusal_of(name, fields["version"]),
                f"{place}, {name}, is {fields[name]}: {kind} it is {words(rule, fields, bits)}",
            )


def make(given, bits):
    """The bytes of a frame from its fields, `kind` as a word. Fields that are absent have their one value, or 0.

    The version is 1 where it is absent, and the check that of the version and the id.
    """
    kind = KINDS.index(given["kind"])
    fields = {"version": 1, "id": 0, **given}
    fields = {"check": 0 if kind == 0 else check_of(fields["version"], fields["id"]), **fields, "kind": kind}
    data = b""
    for name, _, size, rules in FIELDS:
        value = fields.setdefault(name, rules[kind] if isinstance(rules[kind], int) else 0)
        if not 0 <= value < 256**size:
            why = f"{name} is {value}: it has {size} byte{'s' if size > 1 else ''}, so 0 to {256**size - 1}"
            raise NoFrame(refusal_of(name, fields["version"]), why)
        data += value.to_bytes(size, "big")
    check(fields, bits)
    return data


def is_plain(data):
    """A host's bytes are a plain frame."""
    try:
        return read(data, NARROW)["kind"] == "plain"
    except NoFrame:
        return False

"""Says in plain words why an input is refused and what to change."""

from .advice import (
    EXAMPLES,
    MEANINGS,
    example_beside,
    example_of,
    guess_of,
    hex_advice,
    kind_of,
    listing,
    meaning,
    name_advice,
    near,
    number_advice,
    plural,
    port_advice,
    table_name,
    value_shown,
    wanted,
    within,
)
from .entries import entry_meant, links_meant, wrong_word
from .frames import NARROW
from .inputs import LIMIT, LOSSY, MOST_PACKETS, MOST_PASSES, MOST_ROWS, MOST_SLOTS, TABLES
from .mistakes import mistakes
from .nets import Net, port_of
from .positions import path_of, positions
from .syntax import pasted_advice, plain_syntax, syntax_advice


class Explanation:
    """The lines that explain a refusal, and the place in the text that it speaks of."""

    def __init__(self, data, doc, refusal):
        self.doc, self.refusal, self.lines = doc, refusal, []
        self.text = data.decode("utf-8", "replace").removeprefix("\ufeff")
        self.place = refusal.place
        self.keys, self.values = positions(self.text) if doc is not None else ({}, {})

    def say(self, *lines):
        self.lines += lines

    def at_value(self, path):
        path = path_of(path)
        self.place = self.values.get(path) or self.keys.get(path) or self.at_table(path)

    def at_table(self, path):
        while path:
            path = path[:-1]
            place = self.values.get(path) or self.keys.get(path)
            if place:
                return place
        return None

    def excerpt(self):
        """The line of the input that the place is in, with a mark below the column."""
        if self.place is None:
            return []
        line, column = self.place
        source = self.text.replace("\r\n", "\n").split("\n")[line - 1 : line]
        if not source or not source[0].strip():
            return [f"line {line}, column {column}"]
        start = max(0, column - 41)
        piece = source[0][start : start + 76].replace("\t", " ")
        before = ".." if start else ""
        after = ".." if len(source[0]) > start + 76 else ""
        mark = " " * (4 + len(before) + column - 1 - start) + "^"
        return [f"line {line}, column {column}:", f"    {before}{piece}{after}", mark]

    def whole(self):
        getattr(self, self.refusal.kind)()
        return [*self.excerpt(), *self.lines]

    def I1(self):
        self.say(
            f"The input has {self.refusal.value} bytes, and at most {LIMIT} are read.",
            "Leave out comments and blanks, or write passes (`pass n`) in place of single turns.",
        )

    def I2(self):
        hint = self.refusal.hint
        pasted = pasted_advice(self.text)
        if pasted:
            self.say(*pasted)
            return
        self.say(f"This is no TOML document: {plain_syntax(hint)}.")
        self.say(*syntax_advice(hint, self.text, self.place))

    def I3(self):
        path = self.refusal.rest
        table, key = table_name(path)
        self.at_value(path)
        self.say(f"The key `{key}` is absent{within(path)}. It is {meaning(path)}: {wanted(self.refusal.key)}.")
        others = {"top": self.doc}.get(table)
        if key in EXAMPLES and others is not None:
            self.say(f"Add it, such as: {EXAMPLES[key]}")
            stray = self.headed(key)
            if stray:
                self.say(f"There is a `{key}` below the heading `[{stray}]`: put it before the first heading.")
        else:
            beside = self.doc.get("snapshot") if table == "snapshot" else None
            example = example_beside(self.refusal.key, beside) if isinstance(beside, dict) else example_of(self.refusal.key)
            self.say(f"Add it, such as: {example}")

    def headed(self, key):
        """A table of the document that holds the key by mistake, since a heading stands before it."""
        return next((t for t, v in self.doc.items() if isinstance(v, dict) and key in v and key in TABLES["top"]), None)

    def I4(self):
        path = self.refusal.rest
        name = "top" if path == "top" else table_name(path + ".x")[0]
        if path == "snapshot" or path == "loss" or path == "script":
            name = path
        for word in self.refusal.value:
            self.unknown_key(path, name, word)
        self.say(f"{'The top table' if name == 'top' else f'`{path}`'} may have {listing(TABLES[name], 20)}.")

    def unknown_key(self, path, name, word):
        where = (word,) if path == "top" else (*path_of(path), word)
        if self.place is None:
            self.place = self.keys.get(where) or next(
                (p for k, p in self.keys.items() if k[: len(where)] == where), None
            )
        self.say(f"The key `{word}` isn't listed for {'the top table' if name == 'top' else f'`{path}`'}.")
        guess = guess_of("" if path == "top" else path, word)
        owners = [t for t in TABLES if t != name and word in TABLES[t]]
        if word in TABLES["top"] and name != "top":
            self.say(
                f"`{word}` belongs to the top table. After a heading such as `[{name}]` all keys belong to that table:",
                f"put `{word}` before the first heading, or give it a heading of its own.",
            )
        elif guess is not None:
            self.say(f"Did you mean `{guess}`, {MEANINGS[guess if name == 'top' else f'{name}.{guess}']}?")
        elif owners:
            self.say(f"`{word}` is a key of `{owners[0]}`.")

    def I5(self):
        path, key, value = self.refusal.rest, self.refusal.key, self.refusal.value
        self.at_value(path)
        table = self.table_of(path)
        shown = value_shown(value)
        if key.kind in ("tables", "texts") and path.split(".")[-1].isdecimal():
            self.say(
                f"`{path}` is {kind_of(value)}{shown}; each element is to be {'a table' if key.kind == 'tables' else 'a text'}."
            )
        else:
            self.say(f"`{path}` is {kind_of(value)}{shown}; it is to be {wanted(key, table)}.")
        self.say(*self.form_advice(path, key, value))

    def table_of(self, path):
        """The table that holds the value of the path, where its numbers are in range so far."""
        if path.startswith("snapshot."):
            table = self.doc["snapshot"]
            return table if isinstance(table.get("bits"), int) and isinstance(table.get("window"), int) else None
        return None

    def form_advice(self, path, key, value):
        name = table_name(path)[1] if not path.split(".")[-1].isdecimal() else None
        if key.kind == "number":
            return number_advice(path, key, value)
        if key.kind == "table":
            return [f"Write it as a table, such as: {EXAMPLES[name]}"] if name in EXAMPLES else []
        if key.kind == "tables" and name:
            return [f"Write it as a list of tables, such as: {EXAMPLES[name]}"]
        if key.kind == "tables":
            return [f"Write each element as a table, such as: {EXAMPLES[table_name(path)[-1]]}"]
        if key.kind == "texts" and name:
            return ['Write it as a list of texts in brackets, such as: entries = ["pass 3", "observer issue"]']
        if key.kind == "texts":
            return ["Write each entry as a text in quotes."]
        if not isinstance(value, str):
            return ["Put it in quotes." if isinstance(value, int) else "Write it as a text in quotes."]
        return {"name": name_advice, "port": port_advice, "hex": hex_advice}[key.kind](value)

    def I6(self):
        path, key, value = self.refusal.rest.split(" ")[0], self.refusal.key, self.refusal.value
        self.at_value(path)
        if path == "loss.drop":
            self.say(f"`loss.drop` has {value} rows, and at most {key.high} are taken.")
            self.say("To lose more, give a rate: `cable`, `crossbar`, `init` or `notice`, of a thousand messages.")
            return
        self.say(f"`{path}`, {meaning(path)}, is {value}; it may be {key.low} to {key.high}.")
        self.say(*self.range_advice(path, key, value))

    def range_advice(self, path, key, value):
        snapshot = self.doc.get("snapshot", {})
        name = path.split(".")[-1]
        if path == "snapshot.window":
            return self.window_advice(snapshot["bits"], key, value)
        if path == "snapshot.ring" and value < key.low:
            return [
                f"A unit needs a slot for each number in the window, and `window` is {key.low}.",
                f"Raise `ring` to {key.low}, or lower `window`.",
            ]
        if path == "snapshot.ring" and key.high < 2 ** snapshot["bits"]:
            return [f"A unit has at most {MOST_SLOTS} slots, whatever its ids."]
        if path == "snapshot.ring":
            return [
                f"With `bits` = {snapshot['bits']} there are {key.high} ids, and more slots than ids serve nothing."
            ]
        if path.startswith("loss.") and name in LOSSY:
            return [f"Rates are per thousand: {key.high} loses all, 50 loses one of twenty."]
        if path == "flow.count" or name == "count" and path.startswith("flow"):
            return ["For more packets write several flows, at most 200000 packets in all."] if value > key.high else []
        if name == "n" and value < 1:
            return ["Puts are numbered from 1: the first message on the link has `n` = 1."]
        if name == "ports":
            return ["A net takes switches of 1 to 8 ports."]
        return []

    def window_advice(self, bits, key, value):
        if value > MOST_SLOTS:
            return [f"A window has at most {MOST_SLOTS} numbers, since a unit has at most as many slots."]
        advice = [f"With `bits` = {bits} an id has {2**bits} values, and the window is at most one less."]
        if value > key.high:
            fit = next(b for b in range(bits, 17) if value <= 2**b - 1)
            wide = " and `version` to 2" if fit > NARROW >= bits else ""
            advice.append(f"Lower it to {key.high}, or raise `bits` to {fit}{wide}.")
        return advice

    def I7(self):
        path, value, sort = self.refusal.rest, self.refusal.value, self.refusal.hint
        self.at_value(path)
        if sort in ("link", "reliable"):
            self.drop_link(value, sort)
            return
        names = names_in(self.doc.get(sort))
        self.say(f"`{path}` names the {sort} `{value}`, which isn't there. The {sort}s are {listing(names)}.")
        guess = near(value, names, 1)
        if guess:
            self.say(f"Did you mean `{guess[0]}`?")
        if sort == "host" and value in names_in(self.doc.get("device")):
            self.say(f"`{value}` is a switch; flows go from host to host.")
        if sort == "device" and value in names_in(self.doc.get("host")):
            self.say(f"`{value}` is a host; cables and hosts stand at ports of switches.")

    def drop_link(self, value, sort):
        net = Net(self.doc)
        lossy = [spelling for spelling, link in net.links.items() if link.sort in LOSSY]
        if sort == "reliable":
            self.say(
                f"The link `{value}` is reliable and loses nothing.",
                "Cables, crossbar links (`x0`, `x1`, ..), initiations (`init`) and notices can lose messages.",
            )
            return
        such = lossy[0] if lossy else "in a.0 init"
        self.say(f"There is no link `{value}`. A link is spelled as the choice that takes from it, such as `{such}`.")
        meant = links_meant(value, net)
        if meant:
            self.say(f"Did you mean {listing(meant)}?" if len(meant) < 2 else f"It may be one of {listing(meant)}.")
            return
        self.say(*wrong_word(value, net))
        guess = near(value, lossy, 1)
        if guess:
            self.say(f"Did you mean `{guess[0]}`?")

    def I8(self):
        entry, number = self.refusal.value, self.refusal.rest.split(".")[1]
        self.place = self.values.get(("script", "entries", int(number)))
        if self.refusal.hint:
            self.say(
                f"With this entry the script has {self.refusal.hint} passes, and at most {MOST_PASSES} are taken in all."
            )
            self.say("A run ends by itself after the script: most need no more than some passes.")
            return
        net = Net(self.doc)
        self.say(f"Entry {number}, `{entry}`, is neither a choice nor `pass n`.")
        meant = entry_meant(entry, net)
        if meant:
            self.say(*meant)
            return
        self.say(*wrong_word(entry, net))
        guess = near(entry, [*net.choices(), "pass 1"], 1)
        if guess and not entry.lower().startswith("pass"):
            self.say(f"Did you mean `{guess[0]}`?")

    def I9(self):
        fault, _, rest = self.refusal.rest.partition(" ")
        if "." in rest:
            self.at_value(rest)
        getattr(self, fault)(rest)

    def row(self, rest):
        sort, number = rest.split(".")
        return sort, int(number), self.doc[sort][int(number)]

    def N1(self, rest):
        self.at_value("device")
        self.say(
            "The list `device` is empty, and a net has at least one switch.", f"Write, such as: {EXAMPLES['device']}"
        )

    def N2(self, rest):
        self.at_value("device")
        self.say(f"There are {rest} switches, and a net takes at most 64.")

    def N3(self, rest):
        _, _, row = self.row(rest)
        self.at_value(f"{rest}.ports")
        self.say(f"The switch `{row['name']}` has {row['ports']} ports; a net takes switches of 1 to 8 ports.")

    def N4(self, rest):
        sort, _, row = self.row(rest)
        ports = {}
        for device in self.doc["device"]:
            ports.setdefault(device["name"], device["ports"])
        for key in ("a", "b") if sort == "cable" else ("at",):
            name, port = port_of(row[key])
            if port >= ports[name]:
                self.at_value(f"{rest}.{key}")
                last = f"`{name}.0` to `{name}.{ports[name] - 1}`" if ports[name] > 1 else f"`{name}.0` alone"
                self.say(
                    f"`{rest}.{key}` is the port `{row[key]}`, which isn't there: `{name}` has {plural(ports[name], 'port')}, {last}."
                )
                self.say("Ports count from 0. Take another port, or raise its `ports`, up to 8.")
                return

    def used_before(self, rest):
        """The ports in use before the row, with what uses each."""
        used = {}
        for i, cable in enumerate(self.doc.get("cable", [])):
            for key in ("a", "b"):
                yield_to = f"cable.{i}"
                if rest == yield_to and key == "a":
                    return used, cable
                used.setdefault(cable[key], yield_to)
        for i, host in enumerate(self.doc.get("host", [])):
            if rest == f"host.{i}":
                break
            used.setdefault(host["at"], f"host.{i}")
        return used, None

    def free(self, used, name=None):
        """The ports that nothing uses, those of the device first."""
        taken = {*used}
        for cable in self.doc.get("cable", []):
            taken |= {cable["a"], cable["b"]}
        taken |= {host["at"] for host in self.doc.get("host", [])}
        devices = sorted(self.doc["device"], key=lambda d: d["name"] != name)
        free = [f"{d['name']}.{p}" for d in devices for p in range(d["ports"]) if f"{d['name']}.{p}" not in taken]
        return f"Free ports: {listing(free)}." if free else "No port is free: raise `ports` of a switch, up to 8."

    def N5(self, rest):
        used, cable = self.used_before(rest)
        key = "a" if cable["a"] in used else "b"
        port = cable[key]
        self.at_value(f"{rest}.{key}")
        holder = used.get(port)
        self.say(
            f"`{rest}.{key}` is the port `{port}`, where {f'`{holder}` ends already' if holder else 'the same cable begins'}."
        )
        self.say("A port takes one cable or one host.", self.free(used, port_of(port)[0]))

    def N6(self, rest):
        self.at_value("host")
        self.say(f"There are {rest} hosts, and a net takes at most 128.")

    def N7(self, rest):
        used, _ = self.used_before(rest)
        _, _, row = self.row(rest)
        self.at_value(f"{rest}.at")
        self.say(f"The host `{row['name']}` is to stand at `{row['at']}`, which `{used[row['at']]}` uses already.")
        self.say("A port takes one cable or one host.", self.free(used, port_of(row["at"])[0]))

    def N8(self, rest):
        sort, number, row = self.row(rest)
        self.at_value(f"{rest}.name")
        first = next(i for i, other in enumerate(self.doc[sort]) if names_in([other]) == [row["name"]])
        self.say(f"`{rest}` has the name `{row['name']}`, which `{sort}.{first}` has already.")
        first_place = self.values.get((sort, first, "name"))
        where = f" `{sort}.{first}` stands in line {first_place[0]}." if first_place and first_place != self.place else ""
        self.say(f"Give it another, such as `{free_name(row['name'], names_in(self.doc[sort]))}`.{where}")

    def I10(self):
        self.at_value("flow")
        raws = len(self.doc.get("raw", []))
        of = f" ({raws} of them raw frames)" if raws else ""
        self.say(
            f"There are {self.refusal.value} packets and raw frames{of}, and at most {MOST_PACKETS} are taken.",
            "Lower `count` of some flows.",
        )


    def I11(self):
        path, bits = self.refusal.rest, self.refusal.value
        self.at_value(path)
        self.say(f"With `bits` = {bits} ids don't fit into frames of version 1, which carry ids of up to {NARROW} bits.")
        if path == "snapshot.version":
            self.say(f"Write `version = 2` in `snapshot`, or lower `bits` to {NARROW}.")
        else:
            self.say(f"Leave out `{path}`, or make it 2; or lower `bits` to {NARROW}.")

    def I12(self):
        self.at_value("snapshot.count")
        count = self.doc["snapshot"]["count"]
        units = self.refusal.value // count
        self.say(
            f"{count} snapshots of {units} units have {self.refusal.value} rows, and at most {MOST_ROWS} are taken.",
            f"Lower `count` to {MOST_ROWS // units}, or take a smaller net.",
        )


def names_in(rows):
    """The names of the rows that are tables with a name."""
    rows = rows if isinstance(rows, list) else []
    return [row["name"] for row in rows if isinstance(row, dict) and isinstance(row.get("name"), str)]


def free_name(name, names):
    """A name like this one that isn't among the names: the next letter, or with the next number at its end."""
    letters = [c for c in "abcdefghijklmnopqrstuvwxyz" if c > name and c not in names]
    if len(name) == 1 and letters:
        return letters[0]
    stem = name.rstrip("0123456789")[:13]
    return next(f"{stem}{number}" for number in range(len(names) + 1) if f"{stem}{number}" not in names)


def explain(data, doc, refusal):
    return Explanation(data, doc, refusal).whole()


# What a mistake comes to, where what it rests on is wrong too.
GENERAL = {
    "I3": "a required key is absent.",
    "I4": "a table has a key that isn't listed.",
    "I5": "a value of another kind, or a text not of its form.",
    "I6": "a number out of its range.",
    "I7": "a name, a device or a link that isn't there.",
    "I8": "an entry that spells no choice, or too many passes.",
    "I9": "a port that isn't there or isn't free, a name that stands twice, or too many of a kind.",
    "I10": "too many packets and raw frames.",
    "I11": "more than 8 bits, and frames of version 1.",
    "I12": "too many rows: snapshots times units.",
}


def others(data, doc, refusal):
    """A line for each further mistake that can be seen."""
    told = []
    for other in mistakes(doc) if doc is not None else []:
        if other.line == refusal.line:
            continue
        about = Explanation(data, doc, other)
        try:
            about.whole()
        except (KeyError, TypeError, AttributeError, ValueError, IndexError):
            # What it rests on is wrong itself, and named in a line of its own.
            about.lines = [GENERAL[other.kind]]
        place = "line {}, column {}: ".format(*about.place) if about.place else ""
        told.append(f"{place}{other.line.removeprefix('speedlight: ')}: {' '.join(about.lines[:2])}")
    return list(dict.fromkeys(told))


def notes(source):
    """What an accepted input may ask for without meaning to."""
    found = []
    for i, flow in enumerate(source.flows):
        start, end = (source.net.host_port[flow[key]][0] for key in ("from", "to"))
        far = source.net.distances(end).get(start)
        if far is None:
            found.append(
                f"flow.{i}: no cables lead from `{flow['from']}` to `{flow['to']}`; its packets are dropped (noroute)."
            )
        elif flow["hops"] <= far:
            way = f"{far + 1} switches" if far else "1 switch"
            found.append(
                f"flow.{i}: its way goes through {way}, and `hops` is {flow['hops']}; its packets are dropped (expired)."
            )
    if source.snapshot["count"] == 0:
        found.append("snapshot.count is 0: no snapshot is taken.")
    return found

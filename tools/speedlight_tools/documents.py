"""TOML 1.1, which the program reads, as TOML 1.0, which Python's `tomllib` reads.

New in 1.1 are tables in braces over several lines, a comma after their last key, the escapes \\e and \\x, and
times without seconds.
"""

import re
import tomllib

STRINGS = re.compile(r'"""(?:[^\\]|\\.)*?"{3,5}|\'\'\'.*?\'{3,5}|"(?:[^"\\\n]|\\.)*"?|\'[^\'\n]*\'?', re.DOTALL)
ESCAPES = re.compile(r"\\(?:e|x([0-9A-Fa-f]{2})|.)", re.DOTALL)
TIMES = re.compile(r"\d\d:\d\d(?!\d|:)")
BLANKS = re.compile(r"(?:[ \t\n]|\r\n|#[^\n]*)*")


class Plain:
    """A text rewritten, with the place in the old text of each character of the new one."""

    def __init__(self, text):
        self.text, self.new, self.origin = text, [], []
        self.nested = []
        at = 0
        while at < len(text):
            at = self.step(at)
        self.origin.append(len(text))

    def put(self, piece, at):
        self.new.append(piece)
        self.origin += [at] * len(piece)

    def keep(self, at, end):
        self.new.append(self.text[at:end])
        self.origin += range(at, end)
        return end

    def before(self):
        """The last character so far that is no blank."""
        return next((c for c in (piece.rstrip()[-1:] for piece in reversed(self.new)) if c), "")

    def after(self, at):
        return self.text[BLANKS.match(self.text, at).end() :][:1]

    def step(self, at):
        """Takes what stands at the place; where the next thing stands."""
        text, here = self.text, self.text[at]
        in_braces = self.nested[-1:] == ["{"]
        if here in "\"'":
            return self.string(at, STRINGS.match(text, at).end())
        if here == "#":
            end = text.find("\n", at)
            end = len(text) if end < 0 else end
            if not in_braces:
                return self.keep(at, end)
            self.put(" " * (end - at), at)
            return end
        if here in "[{":
            self.nested.append(here)
        elif here in "]}" and self.nested:
            self.nested.pop()
        elif in_braces and here == "\n" and not (self.before() in ("=", ".") or self.after(at) in ("=", ".")):
            self.put(" ", at)
            return at + 1
        elif in_braces and here == "," and self.after(at + 1) == "}" and self.before() not in ("{", ","):
            self.put(" ", at)
            return at + 1
        elif TIMES.match(text, at):
            self.keep(at, at + 5)
            self.put(":00", at + 4)
            return at + 5
        return self.keep(at, at + 1)

    def string(self, at, end):
        if self.text[at] == "'":
            return self.keep(at, end)
        for found in ESCAPES.finditer(self.text, at, end):
            if found[0] == "\\e" or found[1]:
                self.keep(at, found.start())
                self.put("\\u001b" if found[0] == "\\e" else f"\\u00{found[1]}", found.start())
                at = found.end()
        return self.keep(at, end)


def load(text, parse_float):
    """The document that the text is. Raises TOMLDecodeError, and answers with it the place as line and column."""
    try:
        return tomllib.loads(text, parse_float=parse_float)
    except tomllib.TOMLDecodeError:
        plain = Plain(text.replace("\r\n", "\n"))
    try:
        return tomllib.loads("".join(plain.new), parse_float=parse_float)
    except tomllib.TOMLDecodeError as error:
        error.place = place_in(str(error), plain)
        raise


def place_in(message, plain):
    """Line and column in a message of the parser, in the old text; the end of the text where it names the end."""
    new = "".join(plain.new)
    found = re.search(r"\(at line (\d+), column (\d+)\)", message)
    at = len(new)
    if found:
        lines = new.split("\n")
        at = sum(len(line) + 1 for line in lines[: int(found[1]) - 1]) + int(found[2]) - 1
    at = plain.origin[min(at, len(new))]
    before = plain.text[:at]
    return before.count("\n") + 1, at - (before.rfind("\n") + 1) + 1

"""What to change in a text that is no TOML document."""

import json
import re

CURLY = "\u201c\u201d\u201e\u201f\u2018\u2019\u201a\u00ab\u00bb"
TURN = re.compile(r"(observer|control [a-z0-9_]+|host [a-z0-9_]+|(in|out) [a-z0-9_]+\.\d) \S+$|pass \d+$")


def pasted_advice(text):
    """What to change in a text that is something else as a whole: JSON, a report, a trace; none where it isn't."""
    lines = [line.strip() for line in text.strip().split("\n")]
    if lines[0] == "speedlight 1":
        return [
            "This is a report, which the program printed, and no input: tools/report reads it.",
            "The input is the file that was given to `speedlight step`.",
        ]
    if lines[0].startswith("speedlight: "):
        return ["This is a line that the program wrote, and no input."]
    if re.match(r"trace \d+$", lines[0]) or len(lines) > 1 and all(TURN.match(line) for line in lines):
        return [
            "This is a trace, which `speedlight step --trace` printed, and no input.",
            "Its turns are entries of a script: after the input of that run write, with each of them in quotes:",
            *script_of([line for line in lines if TURN.match(line)]),
        ]
    turns = [line for line in lines if TURN.match(line)]
    if len(turns) > 1:
        return ["Turns of a trace are entries of a script, each in quotes with a comma behind it:", *script_of(turns)]
    if lines[0][:1] == "{" and '":' in text.replace(" ", ""):
        return json_advice(text)
    return []


def script_of(turns):
    shown = [f'    "{turn}",' for turn in turns[:3]]
    return ["script = {entries = [", *shown, *(["    .."] if len(turns) > 3 else []), "]}"]


def json_advice(text):
    from .inputs import text_of

    first = "This is JSON, and an input is TOML: keys without quotes, `=` in place of `:`, no braces around the whole."
    try:
        doc = json.loads(text)
        same = text_of(doc).rstrip("\n").split("\n")
    except (ValueError, AttributeError, RecursionError):
        return [first]
    if len(same) > 12 or any(len(line) > 400 for line in same):
        return [first]
    return [first, "The same as TOML:", *same]


def plain_syntax(hint):
    """The parser's message without its place, which stands above."""
    text = re.sub(r"\s*\(at [^)]*\)$", "", hint).strip()
    return text[:1].lower() + text[1:] if text[:2] != "No" else text


def syntax_advice(hint, text, place):
    """What to change, where the text near the place shows a common slip."""
    line = text.split("\n")[place[0] - 1] if place and place[0] <= text.count("\n") + 1 else ""
    here = line[place[1] - 1 :] if place else ""
    before = line[: place[1] - 1] if place else ""
    curly = [c for c in line if c in CURLY]
    if curly:
        straight = line.strip()
        for c in CURLY:
            straight = straight.replace(c, "'" if c in "\u2018\u2019\u201a" else '"')
        return [f"A text stands in straight quotes, not in `{curly[0]}`.", *([f"Write: {straight}"] if len(straight) <= 200 else [])]
    if "Invalid value" in hint:
        if re.match(r"[A-Za-z]", here):
            return ["A text stands in quotes; true and false are written small."]
        if here[:1] in (",", "}", "]", ""):
            return ["A value is missing here."]
        return ["A value is a number, a text in quotes, a list in brackets or a table in braces."]
    if re.search(r"[=,\[ ][+-]?0$", before) and here[:1].isdecimal():
        return ["A number has no leading zero."]
    if line.lstrip()[:2] in ("//", "/*", "--"):
        return ["A comment begins with `#`."]
    if "Unterminated string" in hint or "Illegal character" in hint:
        return ["A text in quotes ends on its line with the same quote."]
    if "Cannot overwrite" in hint or "Cannot declare" in hint or "Cannot mutate" in hint or "Duplicate" in hint:
        return [
            "A key or a table is given twice. For several rows of a list write `[[device]]`, with two brackets, or one list."
        ]
    if "after a key" in hint or "Expected '='" in hint:
        return ["A key is followed by `=` and its value. A key without quotes has letters, digits, `_` and `-` alone."]
    if "Unclosed array" in hint:
        return ["The elements of a list are parted by commas, and the list ends with `]`."]
    if "inline table" in hint or (here == "" and "{" in line):
        return ["The keys in braces are parted by commas and end with `}`."]
    if "Expected newline" in hint:
        return ["One key and its value stand on a line. After a value the line ends, or a comment with `#` follows."]
    if "Unescaped" in hint:
        return ["Write a backslash in a text as `\\\\`."]
    if "UTF-8" in hint:
        return ["Save the file as UTF-8 text."]
    if "64 bits" in hint:
        return ["No key takes such a number."]
    return []

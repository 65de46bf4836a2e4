"""Where the keys and values of a document stand, as line and column from 1.

It is read after `tomllib` has accepted the text, so it looks for structure alone and checks nothing.
"""

MOST_DEEP = 80


class Scanner:
    def __init__(self, text):
        self.text, self.at = text.replace("\r\n", "\n"), 0
        self.keys, self.values = {}, {}
        self.lists = {}
        self.depth, self.deepest, self.most_parts = 0, 0, 0

    def place(self, at):
        return self.text.count("\n", 0, at) + 1, at - (self.text.rfind("\n", 0, at) + 1) + 1

    def peek(self):
        return self.text[self.at : self.at + 1]

    def blanks(self, characters):
        while self.at < len(self.text):
            if self.text[self.at] == "#" and "\n" in characters:
                end = self.text.find("\n", self.at)
                self.at = len(self.text) if end < 0 else end
            elif self.text[self.at] in characters:
                self.at += 1
            else:
                return

    def string(self):
        """The text of a string, its escapes as they stand."""
        quote = self.peek()
        mark = quote * 3 if self.text.startswith(quote * 3, self.at) else quote
        start = self.at + len(mark)
        self.at = start
        while not self.text.startswith(mark, self.at):
            self.at += 2 if quote == '"' and self.peek() == "\\" else 1
        while len(mark) == 3 and self.text.startswith(quote, self.at + 3):
            self.at += 1
        found = self.text[start : self.at]
        self.at += len(mark)
        return found

    def key(self):
        """A key, which points may part, and where it begins."""
        start, parts = self.at, []
        while True:
            self.blanks(" \t")
            if self.peek() in ('"', "'"):
                parts.append(self.string())
            else:
                begin = self.at
                while self.peek() and self.peek() not in " \t.=]":
                    self.at += 1
                parts.append(self.text[begin : self.at])
            self.blanks(" \t")
            if self.peek() != ".":
                self.most_parts = max(self.most_parts, len(parts))
                return parts, start
            self.at += 1

    def value(self, path):
        self.values.setdefault(path, self.place(self.at))
        first = self.peek()
        self.depth += first in ("[", "{")
        self.deepest = max(self.deepest, self.depth)
        self.inner(first, path)
        self.depth -= first in ("[", "{")

    def inner(self, first, path):
        if first in ('"', "'"):
            self.string()
        elif first == "[":
            self.array(path)
        elif first == "{":
            self.at += 1
            self.inside(path)
        else:
            while self.peek() and self.peek() not in ",]}\n#":
                self.at += 1

    def array(self, path):
        self.at += 1
        number = 0
        while True:
            self.blanks(" \t\n,")
            if self.peek() == "]":
                self.at += 1
                return
            self.value((*path, number))
            number += 1

    def inside(self, path):
        while True:
            self.blanks(" \t\n,")
            if self.peek() == "}":
                self.at += 1
                return
            self.pair(path)

    def pair(self, path):
        parts, start = self.key()
        path = self.below(path, parts)
        self.keys.setdefault(path, self.place(start))
        self.at += 1
        self.blanks(" \t")
        self.value(path)

    def below(self, path, parts):
        """The path of a key under a table; a list of tables stands for its last one."""
        for part in parts:
            path = (*path, part)
            if path in self.lists and part is not parts[-1]:
                path = (*path, self.lists[path])
        return path

    def heading(self):
        start = self.at
        is_list = self.text.startswith("[[", self.at)
        self.at += 2 if is_list else 1
        parts, _ = self.key()
        self.at += 2 if is_list else 1
        path = self.below((), parts)
        if is_list:
            self.lists[path] = self.lists.get(path, -1) + 1
            self.keys.setdefault(path, self.place(start))
            path = (*path, self.lists[path])
        self.keys.setdefault(path, self.place(start))
        self.values.setdefault(path, self.place(start))
        return path

    def run(self):
        path = ()
        while True:
            self.blanks(" \t\n")
            if self.at >= len(self.text):
                return self
            if self.peek() == "[":
                path = self.heading()
            else:
                self.pair(path)


def positions(text):
    """The places of the keys and of the values, by their paths, such as ("device", 0, "ports")."""
    scanner = Scanner(text).run()
    return scanner.keys, scanner.values


def is_too_deep(text):
    """Lists and tables in braces are more than 80 deep, or a key has more than 80 parts."""
    scanner = Scanner(text).run()
    return max(scanner.deepest, scanner.most_parts) > MOST_DEEP


def path_of(text):
    """A path of a refusal, such as `device.0.ports`, as a path of positions."""
    return tuple(int(part) if part.isdecimal() else part for part in text.split("."))

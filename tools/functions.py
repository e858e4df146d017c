#!/usr/bin/env python3
"""Finds the functions of Rattle's source files, by the layout that `rt fmt` gives them.
  tools/functions.py FILE..   a line for each function that has a body: file, line, name and how many
                              lines its body has, between its braces"""

import re
import sys
from collections import namedtuple

HEAD = re.compile(r'( *)(pub(?:\([a-z]+\))? )?(?:const )?(?:extern "C" )?fn (\w+)')
IMPL = re.compile(r"impl(?:<[^{]*?>)?\s+(.*?)\s*(?:where.*)?\{?\s*$")

# A function in the text of a file. `line` is the number of its first line, and `lines` counts the
# lines of its body. It begins at `start`, its body at `body`, which is None where it has none, and
# it ends at `end`. Its impl is for `type` and of `trait`.
Function = namedtuple("Function", "name type trait is_public line lines start body end")


def of_impl(line):
    """The type and the trait that a line begins the impl of, without their parameters but From's."""
    head = IMPL.match(line)
    if not head:
        return None
    trait, _, own = head[1].rpartition(" for ")
    return re.sub(r"<.*>", "", own), re.sub(r"(?<!From)<.*>$", "", trait)


class Reader:
    """Reads a file line by line, and keeps the functions that it has found."""

    def __init__(self):
        self.found, self.impl, self.head, self.at, self.number = [], ("", ""), None, 0, 0
        self.body = self.first = None

    def end(self, end):
        """Keeps the function that ends here."""
        indent, public, name, line, start = self.head
        lines = self.number - self.first - 1 if self.first else 0
        impl = self.impl if indent else ("", "")
        self.found.append(Function(name, *impl, public == "pub ", line, lines, start, self.body, end))
        self.head = self.body = self.first = None

    def read(self, line):
        self.number += 1
        self.impl = of_impl(line) or self.impl
        head = HEAD.match(line) if not self.body else None
        if head:
            if self.head:
                self.end(self.at - 1)
            self.head = (head[1], head[2], head[3], self.number, self.at)
        if self.head and not self.body and (head and line.endswith("{") or line == self.head[0] + "{"):
            self.body, self.first = self.at + len(line), self.number
        if self.head and line == self.head[0] + "{}":
            self.body = self.at + len(line) - 1
        if self.head and line in (self.head[0] + "}", self.head[0] + "{}"):
            self.end(self.at + len(line))
        if line == "}":
            self.impl = ("", "")
        self.at += len(line) + 1


def functions_of(text):
    """The functions of a file, in their order."""
    reader = Reader()
    for line in text.split("\n"):
        reader.read(line)
    return reader.found


def functions_in(file):
    with open(file, encoding="utf-8") as it:
        return functions_of(it.read())


def main():
    for file in sys.argv[1:]:
        for it in functions_in(file):
            if it.body:
                print(file, it.line, it.name, it.lines)


if __name__ == "__main__":
    main()

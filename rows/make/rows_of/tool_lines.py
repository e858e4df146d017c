"""Lines of tools (docs/SCRIPT.md, "I TOOL OPTIONS"), and scripts that each tool has a row of."""

from itertools import combinations

from rows_of.lines import request_sense


def tool(*words, initiator=0):
    """Returns a line of a tool: its name and options."""
    return " ".join([str(initiator), *map(str, words)])


def sets_of(name, options):
    """Yields a line with each set of options, the smaller sets first."""
    for size in range(len(options) + 1):
        for chosen in combinations(options, size):
            yield tool(name, *chosen)


def each_character(name):
    """The row has each character as a short option.

    Only the letters of the manual page are options.
    """
    yield request_sense(0)
    for code in range(0x21, 0x7F):
        yield tool(name, f"-{chr(code)}")


def cut(name, option, lengths):
    """Yields a line with each allocation length."""
    for length in lengths:
        yield tool(name, option, length)

"""Rows of the tool sg_modes (man/sgrun-sg_modes.1)."""

from rows_of import row
from rows_of.lines import mode_select_6, request_sense
from rows_of.tool_lines import each_character, sets_of, tool

row("sg_modes/each-character-as-a-short-option", "sg_modes")(each_character)


@row("sg_modes/each-set-of-options")
def sets():
    """The row has each set of options. -a excludes -p, and --six excludes -L."""
    yield request_sense(0)
    yield from sets_of("sg_modes", ["-a", "-d", "-L", "--six", "-H", "-c 1", "-p 8"])


@row("sg_modes/six-of-each-page-and-pc", "sg_modes --six")
@row("sg_modes/of-each-page-and-pc", "sg_modes")
def pages_and_pcs(name):
    """The row asks for each page, and for all pages, with current, changeable, default and saved
    values."""
    yield request_sense(0)
    for page in (1, 8, 10, 28, 63):
        for pc in range(4):
            yield tool(name, "-p", page, "-c", pc)


@row("sg_modes/of-subpages-and-each-pc", profile="extended")
def subpages_and_pcs():
    """The row asks an extended disk for page 1Ch/02h, alone and with other pages, and for subpages that
    are not there, by both commands."""
    yield request_sense(0)
    for page in ("28,2", "28,255", "63,255", "8,255", "63,2", "8,2"):
        for pc in range(4):
            yield tool("sg_modes -p", page, "-c", pc)
            yield tool("sg_modes --six -p", page, "-c", pc)


@row("sg_modes/shows-each-field-that-can-be-changed")
def fields():
    """The row sets each changeable field (docs/PROFILE.md, "Mode pages"), and shows it by both
    commands."""
    changes = [
        (1, "80080000000008"), (1, "40080000000008"), (1, "00080000000008"), (1, "c0000000000008"),
        (1, "c0080000000000"), (1, "c0ff00000000fe"), (1, "80010000000080"),
        (8, "00"), (8, "04"), (10, "040000"), (10, "040008"), (10, "000008"), (10, "000000"),
    ]
    yield request_sense(0)
    for page, values in changes:
        yield mode_select(page, values)
        yield tool("sg_modes -dp", page)
        yield tool("sg_modes --six -dp", page)
    yield "# the other page has no field that can be changed"
    yield mode_select(28, "00")
    yield mode_select(28, "08")
    yield tool("sg_modes -dp 28")


def mode_select(page, values):
    """Returns a line of MODE SELECT(6) with a page that has these values, and zeros after them."""
    length = 18 if page == 8 else 10
    return mode_select_6(bytes(4) + bytes([page, length])
                         + bytes.fromhex(values).ljust(length, b"\0"))

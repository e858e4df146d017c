"""Rows of the tool sg_inq (man/sgrun-sg_inq.1)."""

from rows_of import row
from rows_of.tool_lines import cut, each_character, sets_of, tool

PAGES = {"sv": 0x00, "sn": 0x80, "di": 0x83, "bl": 0xB0, "lbpv": 0xB2}

row("sg_inq/each-character-as-a-short-option", "sg_inq")(each_character)
row("sg_inq/each-set-of-options", "sg_inq", ["-e", "-H", "-i", "-p sn", "-l 9"])(sets_of)


@row("sg_inq/each-page-that-is-missing")
def missing_pages():
    """The row asks for each page that the disk lacks.

    The disk refuses it at command byte 2 (SPC-4, 6.6.1).
    """
    for page in range(256):
        if page not in PAGES.values():
            yield tool("sg_inq", "-p", page, "-H")


@row("sg_inq/standard-inquiry-in-hex-cut-at-each-length", "sg_inq -H")
@row("sg_inq/standard-inquiry-text-cut-at-each-length", "sg_inq")
def standard_cut(name):
    """The row has each allocation length up to past the end of the data.

    0 means the default of 36.
    """
    yield from cut(name, "-l", [*range(1, 39), 0, 96, 252, 65535])


@row("sg_inq/pages-that-sg-inq-and-sg-vpd-ask-for-alike")
def alike():
    """The row asks for each page by both tools, whole and cut. Both show the same text."""
    for page in PAGES:
        yield tool("sg_inq -p", page)
        yield tool("sg_vpd -p", page)
    yield tool("sg_inq -e")
    yield tool("sg_inq -i")
    for page in ("sv", "di", "bl"):
        for length in (3, 4, 6, 43):
            yield tool("sg_inq -p", page, "-l", length)
            yield tool("sg_vpd -p", page, "-m", length)

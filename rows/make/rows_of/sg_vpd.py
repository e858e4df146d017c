"""Rows of the tool sg_vpd (man/sgrun-sg_vpd.1)."""

from rows_of import row
from rows_of.tool_lines import cut, each_character, sets_of

row("sg_vpd/each-character-as-a-short-option", "sg_vpd")(each_character)
row("sg_vpd/each-set-of-options", "sg_vpd", ["-H", "-p sn", "-m 6"])(sets_of)


@row("sg_vpd/block-limits-text-cut-at-each-length", "bl", 64)
@row("sg_vpd/device-identification-text-cut-at-each-length", "di", 52)
@row("sg_vpd/unit-serial-number-text-cut-at-each-length", "sn", 12)
@row("sg_vpd/supported-pages-text-cut-at-each-length", "sv", 9)
@row("sg_vpd/logical-block-provisioning-text-cut-at-each-length", "lbpv", 8)
def page_cut(page, size):
    """The row has each allocation length up to two bytes past the end of a page.

    0 means the default of 252.
    """
    yield from cut(f"sg_vpd -p {page}", "-m", [*range(1, size + 3), 0, 65535])


@row("sg_vpd/pages-in-hex-cut")
def hex_cut():
    """The row cuts each page in hex lines: about the ends of pages, and about the ends of hex
    lines."""
    lengths = [1, 3, 4, 5, 8, 9, 11, 12, 16, 17, 31, 32, 33, 51, 52, 63, 64, 65, 0]
    for page in ("sv", "sn", "di", "bl", "lbpv"):
        yield from cut(f"sg_vpd -H -p {page}", "-m", lengths)

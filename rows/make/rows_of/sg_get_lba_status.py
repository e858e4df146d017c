"""Rows of the tool sg_get_lba_status (man/sgrun-sg_get_lba_status.1)."""

from rows_of import row
from rows_of.lines import fill, request_sense
from rows_of.tool_lines import cut, each_character, sets_of, tool

row("sg_get_lba_status/each-character-as-a-short-option", "sg_get_lba_status")(each_character)


@row("sg_get_lba_status/each-set-of-options")
def sets():
    """The row has each set of options. -b excludes -H."""
    yield from [request_sense(0), fill(0, 0, 1, 1), fill(0, 2, 1, 1)]
    yield from sets_of("sg_get_lba_status", ["-b", "-H", "-l 1", "-m 40"])


@row("sg_get_lba_status/of-512-extents", blocks=4096, pool=600)
def of_512_extents():
    """The disk has 600 extents and returns at most 512 of them, so 8,200 bytes (docs/PROFILE.md,
    "Blocks")."""
    yield request_sense(0)
    for address in range(0, 600, 2):
        yield fill(0, address, 1, 1)
    for options in ("-b -m 8199", "-b -m 8200", "-l 598 -m 65535", "-l 87 -m 4294967295",
                    "-l 89 -b -m 8215"):
        yield tool("sg_get_lba_status", options)


@row("sg_get_lba_status/text-cut-at-each-length", "sg_get_lba_status")
@row("sg_get_lba_status/hex-cut-at-each-length", "sg_get_lba_status -H")
@row("sg_get_lba_status/brief-text-cut-at-each-length", "sg_get_lba_status -b")
def four_extents_cut(name):
    """The row has each allocation length up to past the end of four extents. 0 is sent as it is."""
    yield from [request_sense(0), fill(0, 0, 1, 1), fill(0, 2, 2, 1)]
    yield from cut(name, "-m", range(75))


@row("sg_get_lba_status/of-the-largest-disk", blocks=2**40, pool=65536)
def largest_disk():
    """A disk of 2^40 blocks has 257 extents, as an extent has at most FFFFFFFFh blocks.

    Then the row asks for the last address and for the first one past it.
    """
    yield request_sense(0)
    for options in ("-b -m 8200", f"-l {2**40 - 1}", f"-l {2**40}", "-l 0xffffffffff -H"):
        yield tool("sg_get_lba_status", options)

"""Rows of the tool sg_unmap (man/sgrun-sg_unmap.1)."""

from rows_of import row
from rows_of.lines import fill, request_sense
from rows_of.tool_lines import each_character, sets_of, tool

row("sg_unmap/each-character-as-a-short-option", "sg_unmap")(each_character)


@row("sg_unmap/each-set-of-options")
def sets():
    """The row has each set of options. -l and -n must both be given."""
    yield from [request_sense(0), fill(0, 0, 2, 1)]
    yield from sets_of("sg_unmap", ["-a", "-g 5", "-l 0", "-n 1"])
    yield tool("sg_get_lba_status -b")

"""Rows of the tool sg_persist (man/sgrun-sg_persist.1)."""

from itertools import combinations

from rows_of import row
from rows_of.lines import request_sense
from rows_of.tool_lines import each_character, tool

row("sg_persist/each-character-as-a-short-option", "sg_persist")(each_character)


@row("sg_persist/each-pair-of-options")
def pairs():
    """The row has each pair of options: pairs that exclude one another, and pairs that do not."""
    options = [*"-k -r -c -s -G -I -R -L -C -P -A -Z -n -i -o".split(), "-K 1", "-S 1", "-T 1"]
    yield request_sense(0)
    for pair in combinations(options, 2):
        yield tool("sg_persist", *pair)
    yield tool("sg_persist")
    yield tool("sg_persist -r")


@row("sg_persist/actions-that-exclude-one-another")
def actions():
    """The row has each pair of service actions, by their letters, and some by their long names."""
    long_names = ("register register-ignore reserve release clear preempt preempt-abort read-keys "
                  "read-reservation report-capabilities read-full-status").split()
    yield request_sense(0)
    for pair in combinations("-k -r -c -s -G -I -R -L -C -P -A".split(), 2):
        yield tool("sg_persist", *pair)
    for one, other in zip(long_names, long_names[1:]):
        yield tool(f"sg_persist --{one} --{other}")


@row("sg_persist/read-reservation-of-each-type")
def read_reservation():
    """The disk returns the key of the holder, or 0 under types 7h and 8h (SPC-4, 6.15.3)."""
    yield from map(request_sense, range(2))
    yield tool("sg_persist -r")
    yield tool("sg_persist -G -S 0a1")
    yield tool("sg_persist -G -S 0b2", initiator=1)
    yield tool("sg_persist -r")
    for kind in (1, 3, 5, 6, 7, 8):
        yield f"# type {kind}"
        yield tool("sg_persist -R -K 0b2 -T", kind, initiator=1)
        yield tool("sg_persist -r")
        yield tool("sg_persist -r", initiator=1)
        yield tool("sg_persist -L -K 0b2 -T", kind, initiator=1)
        yield request_sense(0)
    yield tool("sg_persist -r")


@row("sg_persist/types")
def types():
    """The row has each value of T, and texts that are no value of T. Six values are types."""
    yield request_sense(0)
    yield tool("sg_persist -G -S 1")
    for kind in [*"0123456789aF", "0x5", "0X7"]:
        yield tool("sg_persist -R -K 1 -T", kind)
        yield tool("sg_persist -r")
        yield tool("sg_persist -L -K 1 -T", kind)
    for text in "01 00 10 0x05 0x 0x10 1h 5h ah g +1 -1 - = 1, x5".split():
        yield tool("sg_persist -r -T", text)
    yield tool("sg_persist -R -K 1")
    yield tool("sg_persist -r -T=")
    yield tool("sg_persist -r --prout-type=")

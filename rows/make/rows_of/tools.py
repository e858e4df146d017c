"""Rows of tools together (docs/SCRIPT.md, "I TOOL OPTIONS")."""

from rows_of import row
from rows_of.lines import request_sense
from rows_of.tool_lines import tool

LONG_NAMES = {
    "sg_inq": "vpd hex id page len",
    "sg_vpd": "hex page maxlen",
    "sg_modes": "all dbd llbaa six hex control page",
    "sg_unmap": "anchor lba num grpnum",
    "sg_get_lba_status": "brief hex lba maxlen",
    "sg_persist": "read-keys read-reservation report-capabilities read-full-status register "
                  "register-ignore reserve release clear preempt preempt-abort param-aptpl "
                  "no-inquiry in out param-rk param-sark prout-type",
}


@row("tools/long-names-are-whole")
def long_names():
    """The row has each beginning of a long name that is no name itself, a longer name, and the name
    in capitals. No tool accepts any of them."""
    yield request_sense(0)
    for name, options in LONG_NAMES.items():
        for option in options.split():
            for size in range(1, len(option)):
                if option[:size] not in options.split():
                    yield tool(name, f"--{option[:size]}")
            yield tool(name, f"--{option}x")
            yield tool(name, f"--{option.upper()}")


@row("tools/under-each-reservation")
def reservations():
    """Under each type the row has each tool. The holder, another registrant and an unregistered
    initiator send it (docs/PROFILE.md, "Which commands a reservation allows")."""
    yield from map(request_sense, range(3))
    yield tool("sg_persist -G -S a")
    yield tool("sg_persist -G -S b", initiator=1)
    for kind in (1, 3, 5, 6, 7, 8):
        yield f"# type {kind}"
        yield tool("sg_persist -R -K a -T", kind)
        for words in ("sg_inq -l 1", "sg_vpd -m 1", "sg_modes -dp 28", "sg_modes -dp 28 --six",
                      "sg_unmap -l 0 -n 1", "sg_get_lba_status -b", "sg_persist -r",
                      "sg_persist -c"):
            for initiator in range(3):
                yield tool(words, initiator=initiator)
        yield tool("sg_persist -L -K a -T", kind)
        yield from map(request_sense, range(3))

"""Tool lines: what the words after the initiator ask for (docs/SCRIPT.md, "I TOOL OPTIONS").

`plan(words, profile)` returns a Plan. It has the command that a tool sends, and how the answer is
shown, or the fault of words that are no request. `options.py` reads options as clap does.
`commands.py` has the six tools of each disk, and `extended.py` those of an extended disk.
"""

from typing import Callable, NamedTuple

from .commands import TOOLS, Usage
from .extended import EXTENDED_TOOLS
from .options import Refused, given


class Plan(NamedTuple):
    """Returns a fault, or a CDB, data-out, and a function from data-in to the lines shown."""

    fault: str | None
    cdb: bytes = b""
    data_out: bytes = b""
    show: Callable | None = None


TOOLS_OF = {"base": TOOLS, "extended": TOOLS | EXTENDED_TOOLS}


def plan(words, profile):
    """The plan of a tool line. Of several faults the first in the order of these lines decides."""
    if not words or words[0] not in TOOLS_OF[profile]:
        return Plan("unknown tool")
    tool = TOOLS_OF[profile][words[0]]
    try:
        found = given(tool.options, words[1:])
    except Refused:
        return Plan("usage")
    if any(name not in found for name in tool.required):
        return Plan("usage")
    if tool.one_of and not any(name in found for name in tool.one_of):
        return Plan("usage")
    if any(one in found and other in found for one, other in tool.exclusive):
        return Plan("exclusive")
    values = {option.long: option.reads(found[option.long]) if option.reads else True
              for option in tool.options if option.long in found}
    if None in values.values() or not tool.in_range(values):
        return Plan("number")
    try:
        return Plan(None, *tool.request(values))
    except Usage:
        return Plan("usage")

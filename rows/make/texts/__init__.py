"""The texts of answers (docs/SCRIPT.md, "Texts of answers" and "show KIND HEX").

`show(kind, data, profile)` returns the lines of a text, with their leading blanks. The status of a line
`show` without a fault is 0, whatever the bytes are. Each file of this folder has the kinds of one
command, as tables of fields. `fields.py` says how a field is written, and `answer.py` how a text
ends.
"""

import sense

from . import inquiry, modes, provisioning, reports, reservations, vital
from .answer import Ended, Truncated

KINDS = {
    "inq": inquiry.text,
    "vpd": vital.text,
    "modes6": modes.text_6,
    "modes10": modes.text_10,
    "lba": provisioning.text,
    "keys": reservations.keys,
    "resv": reservations.reservation,
    "caps": reservations.capabilities,
    "full": reservations.full_status,
    "sense": lambda data: [sense.line(data)],
}

# An extended disk has more kinds, and shows more fields of five.
EXTENDED_KINDS = KINDS | {
    "inq": inquiry.extended_text,
    "vpd": vital.extended_text,
    "caps": reservations.extended_capabilities,
    "full": reservations.extended_full_status,
    "sense": lambda data: [sense.line_of_any_error(data)],
    "luns": reports.luns,
    "opcodes": reports.opcodes,
    "opcode": reports.opcode,
    "tmf": reports.task_management,
    "log": reports.log,
    "readcap10": reports.capacity_10,
    "readcap16": reports.capacity_16,
    "defects10": reports.defects_10,
    "defects12": reports.defects_12,
}
OF_PROFILE = {"base": KINDS, "extended": EXTENDED_KINDS}

# Only a tool shows this kind: sg_get_lba_status --brief.
TOOL_KINDS = {"lba-brief": provisioning.brief}


def show(kind, data, profile):
    """The lines of an answer's text."""
    shown = []
    try:
        for line in (OF_PROFILE[profile] | TOOL_KINDS)[kind](data):
            shown.append(line)
    except Ended:
        pass
    except Truncated:
        shown.append("  truncated")
    return shown

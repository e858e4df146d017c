"""Rows of the unit attention conditions that a script establishes (SAM-5, 5.14)."""

from attentions import CONDITIONS
from device import INITIATORS
from sense import code_text

from rows_of import row
from rows_of.lines import POWER_ON_TAKEN, test_unit_ready

INITIATOR = 5
EACH = INITIATORS["extended"]


@row("conditions/each-pair", profile="extended")
def each_pair():
    """Each two of the sixteen conditions, one after the other, for an initiator that has none
    pending, and all that it is told then (SAM-5, 5.14). Of two resets it is told the one with the
    higher precedence. A reset comes before any other condition. Otherwise the older one comes first,
    and a condition comes once."""
    yield from POWER_ON_TAKEN
    for first in CONDITIONS:
        for second in CONDITIONS:
            yield f"attention {code_text(first)} {INITIATOR}"
            yield f"attention {code_text(second)} {INITIATOR}"
            yield from 3 * [test_unit_ready(INITIATOR)]


@row("conditions/of-each-of-64-initiators", profile="extended")
def of_each_initiator():
    """Each initiator of an extended disk is told once of a reset, a growth, a power cycle and so on. Of a
    lost nexus, and of a condition for one initiator, no other is told (SAM-5, 5.14 and 6.3)."""
    yield from map(test_unit_ready, EACH)  # of power on
    for happening in ("reset", "reset target", "grow 4097", "attention 38h/07h", "power"):
        yield happening
        for initiator in EACH:
            yield from 2 * [test_unit_ready(initiator)]
    for initiator in EACH:
        yield f"nexus {initiator}"
        yield f"attention 3Fh/0Eh {EACH[-1] - initiator}"
        yield from map(test_unit_ready, (initiator, EACH[-1] - initiator))
    yield from map(test_unit_ready, EACH)

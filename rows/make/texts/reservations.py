"""The answers of PERSISTENT RESERVE IN (SPC-4, 6.15)."""

from .answer import Answer
from .fields import line, number

HEADER = [[("generation", "0-3")], [("additional length", "4-7")]]
KEY = [("key", "0-7", "address")]

# READ RESERVATION, if there is a reservation (SPC-4, 6.15.3).
RESERVATION = [
    [("key", "8-15", "address")],
    [("scope", "21.7-4"), ("type", "21.3-0")],
]

# REPORT CAPABILITIES (SPC-4, 6.15.4), and its type mask.
CAPABILITIES = [
    [("PTPL_C", "2.0")],
    [("TMV", "3.7"), ("PTPL_A", "3.0")],
]
# An extended disk shows all their bits.
EXTENDED_CAPABILITIES = [
    [("RLR_C", "2.7"), ("CRH", "2.4"), ("SIP_C", "2.3"), ("ATP_C", "2.2"), ("PTPL_C", "2.0")],
    [("TMV", "3.7"), ("ALLOW COMMANDS", "3.6-4"), ("PTPL_A", "3.0")],
]
TYPES = [
    ("WE", "4.1"), ("EA", "4.3"), ("WE-RO", "4.5"), ("EA-RO", "4.6"), ("WE-AR", "4.7"),
    ("EA-AR", "5.0"),
]

# A descriptor of READ FULL STATUS (SPC-4, 6.15.5), before its TransportID.
HELD = [("holder", "12.0"), ("scope", "13.7-4"), ("type", "13.3-0"), ("port", "18-19")]
REGISTRANT = KEY + HELD
# An extended disk shows ALL_TG_PT, too.
EXTENDED_REGISTRANT = KEY + [("all target ports", "12.1")] + HELD


def keys(data):
    """READ KEYS (SPC-4, 6.15.2): a line for each key."""
    answer = Answer(data, "4-7", least=8)
    yield from answer.lines(HEADER)
    for at in range(8, answer.end, 8):
        yield "  " + line(answer.take(at, 8), KEY)


def reservation(data):
    """READ RESERVATION: no reservation is held if ADDITIONAL LENGTH is 0."""
    answer = Answer(data, "4-7", least=8)
    yield from answer.lines(HEADER)
    yield from ["  no reservation"] if answer.end == 8 else answer.lines(RESERVATION)


def capabilities(data, table=CAPABILITIES):
    """REPORT CAPABILITIES: LENGTH counts all bytes, its own two too."""
    answer = Answer(data, "0-1", least=2)
    yield f"  length: {answer.number('0-1')}"
    answer.end = answer.number("0-1")
    yield from answer.lines(table)
    mask = answer.take(0, 6)
    yield " ".join(["  types:"] + [name for name, bit in TYPES if number(mask, bit)])


def full_status(data, row=REGISTRANT):
    """READ FULL STATUS: a line for each descriptor, whose last bytes are the TransportID."""
    answer = Answer(data, "4-7", least=8)
    yield from answer.lines(HEADER)
    at = 8
    while at < answer.end:
        length = number(answer.take(at, 24), "20-23")
        whole = answer.take(at, 24 + length)
        yield "  " + line(whole, row) + f", transport: {whole[24:].hex()}"
        at += len(whole)


def extended_capabilities(data):
    """REPORT CAPABILITIES as an extended disk shows it."""
    return capabilities(data, EXTENDED_CAPABILITIES)


def extended_full_status(data):
    """READ FULL STATUS as an extended disk shows it."""
    return full_status(data, EXTENDED_REGISTRANT)

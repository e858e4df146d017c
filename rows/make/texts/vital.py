"""Pages of vital product data (SPC-4, 7.8; SBC-3, the pages B0h and B2h)."""

from words import hex_lines

from .answer import Answer
from .fields import bracketed, line

HEADER = [
    [("qualifier", "0.7-5"), ("type", "0.4-0", "code")],
    [("page", "1", "code")],
    [("page length", "2-3")],
]
BLOCK_LIMITS = [
    [("WSNZ", "4.0")],
    [("transfer granularity", "6-7")],
    [("maximum transfer", "8-11")],
    [("maximum unmap count", "20-23")],
    [("maximum unmap descriptors", "24-27")],
    [("unmap granularity", "28-31")],
    [("maximum write same", "36-43")],
]
PROVISIONING = [
    [("threshold exponent", "4")],
    [("LBPU", "5.7"), ("LBPWS", "5.6"), ("LBPWS10", "5.5"), ("LBPRZ", "5.2"), ("ANC_SUP", "5.1"),
     ("DP", "5.0")],
    [("provisioning type", "6.2-0")],
]
DESIGNATOR = [("code set", "0.3-0"), ("association", "1.5-4"), ("type", "1.3-0"), ("length", "3")]
ASCII = 2


def text(data):
    """The header, and the page by its code."""
    answer = Answer(data, "2-3", least=4)
    yield from answer.lines(HEADER)
    yield from PAGES.get(data[1], other_page)(answer)


def supported_pages(answer):
    """Page 00h: a line for each page code."""
    for at in range(4, answer.end):
        yield f"  supported: {answer.take(at, 1)[0]:02X}h"


def serial_number(answer):
    """Page 80h: the serial number, as far as it is present."""
    yield "  serial: " + bracketed(answer.rest(4))
    answer.need(answer.end)


def designators(answer):
    """Page 83h (SPC-4, 7.8.6): each designator is two lines. The second has its bytes."""
    at = 4
    while at < answer.end:
        head = answer.take(at, 4)
        whole = answer.take(at, 4 + head[3])
        yield "  designator: " + line(whole, DESIGNATOR, between=" ")
        is_ascii = whole[0] & 0xF == ASCII
        yield "    " + (bracketed(whole[4:]) if is_ascii else "hex: " + whole[4:].hex())
        at += len(whole)


def other_page(answer):
    """A page without a text of its own: hex lines, whose offset 0 is byte 4."""
    yield from hex_lines(answer.rest(4))
    answer.need(answer.end)


PAGES = {
    0x00: supported_pages,
    0x80: serial_number,
    0x83: designators,
    0xB0: lambda answer: answer.lines(BLOCK_LIMITS),
    0xB2: lambda answer: answer.lines(PROVISIONING),
}


# ------------------------------------------------------------------- pages of the extended profile

# Extended INQUIRY Data (SPC-4, 7.8.7).
EXTENDED_INQUIRY = [
    [("activate microcode", "4.7-6"), ("SPT", "4.5-3"), ("GRD_CHK", "4.2"), ("APP_CHK", "4.1"),
     ("REF_CHK", "4.0")],
    [("UASK_SUP", "5.5"), ("GROUP_SUP", "5.4"), ("PRIOR_SUP", "5.3"), ("HEADSUP", "5.2"),
     ("ORDSUP", "5.1"), ("SIMPSUP", "5.0")],
    [("WU_SUP", "6.3"), ("CRD_SUP", "6.2"), ("NV_SUP", "6.1"), ("V_SUP", "6.0")],
    [("P_I_I_SUP", "7.4"), ("LUICLR", "7.0")],
    [("R_SUP", "8.4"), ("CBCS", "8.0")],
    [("multi I_T nexus microcode download", "9.3-0")],
    [("extended self-test completion minutes", "10-11")],
    [("POA_SUP", "12.7"), ("HRA_SUP", "12.6"), ("VSA_SUP", "12.5")],
    [("maximum supported sense data length", "13")],
]

# Block Limits (SBC-3, vital product data parameters; SBC-4 for the last line).
EXTENDED_LIMITS = [
    BLOCK_LIMITS[0],
    [("maximum compare and write", "5")],
    *BLOCK_LIMITS[1:],
    [("maximum atomic transfer", "44-47")],
]

# Block Device Characteristics (SBC-3, vital product data parameters).
CHARACTERISTICS = [
    [("medium rotation rate", "4-5")],
    [("product type", "6", "code")],
    [("WABEREQ", "7.7-6"), ("WACEREQ", "7.5-4"), ("nominal form factor", "7.3-0")],
    [("FUAB", "8.1"), ("VBULS", "8.0")],
]


def extended_text(data):
    """The header, and the page by its code, with the pages of the extended profile."""
    answer = Answer(data, "2-3", least=4)
    yield from answer.lines(HEADER)
    yield from (PAGES | EXTENDED_PAGES).get(data[1], other_page)(answer)


def policies(answer):
    """Page 87h (SPC-4, 7.8): a line for each mode page policy descriptor."""
    for at in range(4, answer.end, 4):
        page, subpage, policy, _ = answer.take(at, 4)
        yield (f"  page {page & 0x3F:02X}h/{subpage:02X}h, MLUS: {policy >> 7}, "
               f"policy: {policy & 3}")


def ports(answer):
    """Page 88h (SPC-4, 7.8): two lines for each port. The second has all that follows its lengths."""
    at = 4
    while at < answer.end:
        transport_id = int.from_bytes(answer.take(at, 8)[6:8], "big")
        names = int.from_bytes(answer.take(at, 12 + transport_id)[-2:], "big")
        whole = answer.take(at, 12 + transport_id + names)
        port = int.from_bytes(whole[2:4], "big")
        yield f"  port: {port}, TransportID length: {transport_id}"
        yield "    hex: " + whole[8:].hex()
        at += len(whole)


EXTENDED_PAGES = {
    0x86: lambda answer: answer.lines(EXTENDED_INQUIRY),
    0x87: policies,
    0x88: ports,
    0xB0: lambda answer: answer.lines(EXTENDED_LIMITS),
    0xB1: lambda answer: answer.lines(CHARACTERISTICS),
}

"""Answers that only an extended disk's script shows: REPORT LUNS, the supported operation codes and task
management functions, log pages, READ CAPACITY and READ DEFECT DATA."""

from words import hex_lines

from .answer import Answer
from .fields import line, row_end

# REPORT LUNS (SPC-4, 6.33). Four reserved bytes follow the length.
LUN_LIST = [[("LUN list length", "0-3")]]

# A command descriptor (SPC-4, 6.35.2), and a command timeouts descriptor (SPC-4, 6.35.4).
COMMANDS = [[("command data length", "0-3")]]
SERVACTV, CTDP = 0x01, 0x02
TIMEOUTS = [("command specific", "3"), ("nominal timeout", "4-7"), ("recommended timeout", "8-11")]
TIMEOUTS_LENGTH = 12

# One command (SPC-4, 6.35.3).
ONE_COMMAND = [[("support", "1.2-0"), ("CTDP", "1.7")], [("CDB size", "2-3")]]

# Task management functions (SPC-4, 6.36), and their timeouts.
FUNCTIONS = [
    [("ATS", "0.7"), ("ATSS", "0.6"), ("CACAS", "0.5"), ("CTSS", "0.4"), ("LURS", "0.3"),
     ("QTS", "0.2")],
    [("QAES", "1.2"), ("QTSS", "1.1"), ("ITNRS", "1.0")],
    [("additional length", "3")],
]
FUNCTION_TIMEOUTS = [
    [("TMFTMOV", "4.0")],
    [("ATTS", "6.7"), ("ATSTS", "6.6"), ("CACATS", "6.5"), ("CTSTS", "6.4"), ("LURTS", "6.3"),
     ("QTTS", "6.2")],
    [("QAETS", "7.2"), ("QTSTS", "7.1"), ("ITNRTS", "7.0")],
    [("long timeout", "8-11")],
    [("short timeout", "12-15")],
]

# Log pages (SPC-4, 7.3), and the fields of the parameters of two pages without a subpage.
LOG = [
    [("DS", "0.7"), ("SPF", "0.6")],
    [("page", "0.5-0", "code"), ("subpage", "1", "code")],
    [("page length", "2-3")],
]
PARAMETER_FIELDS = {
    0x0C: [("resource count", "4-7"), ("scope", "8.1-0")],
}
EXCEPTIONS = 0x2F

# READ CAPACITY(10) and (16) (SBC-3, 5.15.2 and 5.16.2).
CAPACITY_10 = [[("returned logical block address", "0-3")], [("logical block length", "4-7")]]
CAPACITY_16 = [
    [("returned logical block address", "0-7")],
    [("logical block length", "8-11")],
    [("P_TYPE", "12.3-1"), ("PROT_EN", "12.0")],
    [("P_I_EXPONENT", "13.7-4"), ("logical blocks per physical block exponent", "13.3-0")],
    [("LBPME", "14.7"), ("LBPRZ", "14.6")],
]

# READ DEFECT DATA(10) and (12) (SBC-3, 5.17 and 5.18), and the sizes of address descriptors by DEFECT LIST
# FORMAT (SBC-3, 5.3.2). Formats 110b and 111b have none.
LIST_FLAGS = [("PLISTV", "1.4"), ("GLISTV", "1.3"), ("defect list format", "1.2-0")]
DEFECTS_10 = [LIST_FLAGS, [("defect list length", "2-3")]]
DEFECTS_12 = [LIST_FLAGS, [("generation code", "2-3")], [("defect list length", "4-7")]]
DESCRIPTOR_SIZES = [4, 8, 8, 8, 8, 8]


def luns(data):
    """A line for each LUN."""
    answer = Answer(data, "0-3", least=4)
    if len(data) >= 4:
        answer.end += 4
    yield from answer.lines(LUN_LIST)
    for at in range(8, answer.end, 8):
        yield f"  LUN: 0x{answer.take(at, 8).hex()}"


def opcodes(data):
    """A line for each command, and one for its timeouts."""
    answer = Answer(data, "0-3", least=4)
    yield from answer.lines(COMMANDS)
    at = 4
    while at < answer.end:
        flags = answer.take(at, 8)[5]
        whole = answer.take(at, 8 + (TIMEOUTS_LENGTH if flags & CTDP else 0))
        action = f", service action: 0x{whole[2:4].hex()}" if flags & SERVACTV else ""
        yield f"  opcode: {whole[0]:02X}h{action}, CDB length: {int.from_bytes(whole[6:8], 'big')}"
        if flags & CTDP:
            yield "    " + line(whole[8:], TIMEOUTS)
        at += len(whole)


def opcode(data):
    """The header, CDB USAGE DATA if there is some, and the timeouts if CTDP is set."""
    answer = Answer(data, "2-3", least=4)
    if len(data) >= 4 and data[1] & 0x80:
        answer.end += TIMEOUTS_LENGTH
    yield from answer.lines(ONE_COMMAND)
    size = answer.number("2-3")
    if size:
        yield "  CDB usage: " + answer.take(4, size).hex()
    if data[1] & 0x80:
        yield "    " + line(answer.take(4 + size, TIMEOUTS_LENGTH), TIMEOUTS)


def task_management(data):
    """The functions, and with REPD their timeouts."""
    answer = Answer(data, "3", least=4)
    yield from answer.lines(FUNCTIONS)
    yield from answer.lines(FUNCTION_TIMEOUTS)


def log(data):
    """The header, and the pages or the parameters."""
    answer = Answer(data, "2-3", least=4)
    yield from answer.lines(LOG)
    page, subpage = data[0] & 0x3F, data[1]
    if (page, subpage) == (0x00, 0x00):
        for at in range(4, answer.end):
            yield f"  supported: {answer.take(at, 1)[0] & 0x3F:02X}h"
    elif (page, subpage) == (0x00, 0xFF):
        for at in range(4, answer.end, 2):
            both = answer.take(at, 2)
            yield f"  supported: {both[0] & 0x3F:02X}h/{both[1]:02X}h"
    else:
        yield from parameters(answer, None if subpage else page)


def parameters(answer, page):
    """The log parameters (SPC-4, 7.3.2), with fields if the page has some and the value has them."""
    at = 4
    while at < answer.end:
        whole = answer.take(at, 4 + answer.take(at, 4)[3])
        yield f"  parameter 0x{whole[:2].hex()}, control {whole[2]:02X}h: {whole[4:].hex()}"
        row = PARAMETER_FIELDS.get(page)
        if row and row_end(row) <= len(whole):
            yield "    " + line(whole, row)
        if page == EXCEPTIONS and len(whole) >= 7:
            yield f"    exception: {whole[4]:02X}h/{whole[5]:02X}h, temperature: {whole[6]}"
        at += len(whole)


def fixed(data, length):
    """An answer without a length field."""
    answer = Answer(b"", "0", least=length)
    answer.data = data
    return answer


def capacity_10(data):
    """READ CAPACITY(10)."""
    yield from fixed(data, 8).lines(CAPACITY_10)


def capacity_16(data):
    """READ CAPACITY(16): the lowest aligned address has fourteen bits."""
    answer = fixed(data, 32)
    yield from answer.lines(CAPACITY_16)
    aligned = int.from_bytes(answer.take(14, 2), "big") & 0x3FFF
    yield f"  lowest aligned logical block address: {aligned}"


def defects_10(data):
    """READ DEFECT DATA(10)."""
    answer = Answer(data, "2-3", least=4)
    yield from answer.lines(DEFECTS_10)
    yield from defects(answer, 4)


def defects_12(data):
    """READ DEFECT DATA(12)."""
    answer = Answer(data, "4-7", least=8)
    yield from answer.lines(DEFECTS_12)
    yield from defects(answer, 8)


def defects(answer, at):
    """A line for each address descriptor, or hex lines if their size is not known."""
    list_format = answer.data[1] & 7
    if list_format < len(DESCRIPTOR_SIZES):
        size = DESCRIPTOR_SIZES[list_format]
        for first in range(at, answer.end, size):
            yield f"  defect: 0x{answer.take(first, size).hex()}"
    else:
        yield from hex_lines(answer.rest(at))
        answer.need(answer.end)

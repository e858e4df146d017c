"""Mode parameters (SPC-4, 7.5; SBC-3, 6.4): a header, a block descriptor and mode pages."""

from .answer import Answer
from .fields import line, number, row_end

# The headers of MODE SENSE(6) and MODE SENSE(10).
SIX = [
    [("mode data length", "0")],
    [("medium type", "1", "code")],
    [("WP", "2.7"), ("DPOFUA", "2.4")],
    [("block descriptor length", "3")],
]
TEN = [
    [("mode data length", "0-1")],
    [("medium type", "2", "code")],
    [("WP", "3.7"), ("DPOFUA", "3.4")],
    [("LONGLBA", "4.0")],
    [("block descriptor length", "6-7")],
]

# Block descriptors by LONGLBA, with their lengths (SBC-3, 6.4.2).
SHORT = 8, [("blocks", "0-3"), ("block length", "5-7")]
LONG = 16, [("blocks", "0-7"), ("block length", "12-15")]

# The fields of pages that have no subpage (SBC-3, 6.4; SPC-4, 7.5).
FIELDS = {
    0x01: [("AWRE", "2.7"), ("ARRE", "2.6"), ("read retries", "3"), ("write retries", "8")],
    0x08: [("WCE", "2.2"), ("RCD", "2.0")],
    0x0A: [("D_SENSE", "2.2"), ("SWP", "4.3")],
    0x1C: [("DEXCPT", "2.3")],
}


def text_6(data):
    """The text of an answer to MODE SENSE(6)."""
    answer = Answer(data, "0", least=4)
    yield from answer.lines(SIX)
    yield from descriptor(answer, 4, answer.number("3"), SHORT)
    yield from pages(answer, 4 + answer.number("3"))


def text_10(data):
    """The text of an answer to MODE SENSE(10)."""
    answer = Answer(data, "0-1", least=8)
    yield from answer.lines(TEN)
    yield from descriptor(answer, 8, answer.number("6-7"), LONG if data[4] & 1 else SHORT)
    yield from pages(answer, 8 + answer.number("6-7"))


def descriptor(answer, at, length, form):
    """The block descriptor; one of another length than LONGLBA names has no fields."""
    if length == 0:
        return
    whole, (size, row) = answer.take(at, length), form
    yield "  " + (line(whole, row) if length == size else "descriptor: " + whole.hex())


def pages(answer, at):
    """The mode pages from `at` on; PAGE LENGTH has two bytes if SPF, bit 6 of byte 0, is 1."""
    while at < answer.end:
        head = 4 if answer.take(at, 2)[0] & 0x40 else 2
        length = number(answer.take(at, head), "2-3" if head == 4 else "1")
        whole = answer.take(at, head + length)
        yield from page(whole, head)
        at += len(whole)


def page(whole, head):
    """A mode page: its parameters, and for some pages their fields."""
    code, subpage = whole[0] & 0x3F, f"/{whole[1]:02X}h" if head == 4 else ""
    yield f"  page {code:02X}h{subpage}, PS {whole[0] >> 7}: {whole[head:].hex()}"
    row = FIELDS.get(code) if head == 2 else None
    if row and row_end(row) <= len(whole):
        yield "    " + line(whole, row)

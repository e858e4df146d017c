"""Standard INQUIRY data (SPC-4, 6.6.2)."""

from words import hex_lines

from .answer import Answer

TABLE = [
    [("qualifier", "0.7-5"), ("type", "0.4-0", "code")],
    [("removable", "1.7")],
    [("version", "2", "code")],
    [("format", "3.3-0")],
    [("additional length", "4")],
    [("vendor", "8-15", "text")],
    [("product", "16-31", "text")],
    [("revision", "32-35", "text")],
]


def text(data):
    """The table, and what follows its 36 bytes in hex lines.

    Standard INQUIRY data has at least 36 bytes, so a smaller ADDITIONAL LENGTH ends nothing.
    """
    answer = Answer(data, "4", least=36)
    yield from answer.lines(TABLE)
    yield from hex_lines(answer.rest(36))
    answer.need(answer.end)


def extended_text(data):
    """The table, the version descriptors of bytes 58 to 73, and the other bytes in hex lines."""
    answer = Answer(data, "4", least=36)
    yield from answer.lines(TABLE)
    before = min(58, answer.end)
    yield from hex_lines(answer.data[36:before])
    answer.need(before)
    for at in range(58, 74, 2):
        yield f"  version descriptor: 0x{answer.take(at, 2).hex()}"
    yield from hex_lines(answer.rest(74))
    answer.need(answer.end)

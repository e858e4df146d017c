"""The answer of GET LBA STATUS (SBC-3, 5.4.2)."""

from .answer import Answer
from .fields import number

HEADER = [[("parameter data length", "0-3")]]
STATUSES = ["mapped", "deallocated", "anchored"]


def text(data):
    """The length, and the descriptors."""
    answer = Answer(data, "0-3", least=4)
    yield from answer.lines(HEADER)
    yield from descriptors(answer)


def brief(data):
    """The descriptors only."""
    answer = Answer(data, "0-3", least=4)
    answer.need(4)
    yield from descriptors(answer)


def descriptors(answer):
    """A line for each descriptor of 16 bytes: address, number of blocks, provisioning status."""
    for at in range(8, answer.end, 16):
        extent = answer.take(at, 16)
        status = number(extent, "12.3-0")
        name = STATUSES[status] if status < len(STATUSES) else f"reserved {status}"
        yield f"  0x{number(extent, '0-7'):016x} {number(extent, '8-11')} {name}"

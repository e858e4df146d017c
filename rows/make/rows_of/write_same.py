"""Rows of WRITE SAME (SBC-3, 5.43 and 5.44)."""

from rows_of import row
from rows_of.lines import (
    fill, get_lba_status, raw, read_16, request_sense, transfer_10, transfer_16, unmap, unmap_list)

AB, C5, ZEROS = 512 * b"\xAB", 512 * b"\x5C", bytes(512)
UNMAP = 0x08


def write_same_10(address, count, block, flags=0):
    return raw(0, transfer_10(0x41, address, count, flags), block)


def write_same_16(address, count, block, flags=0):
    return raw(0, transfer_16(0x93, address, count, flags), block)


@row("write-same/ten-over-a-full-pool", write_same_10)
@row("write-same/sixteen-over-a-full-pool", write_same_16)
def over_a_full_pool(write_same):
    """The pool is full: mapped addresses are written, others not (SBC-3, 4.7)

    A block of zeros without UNMAP needs room as any other does; with UNMAP it gives room back.
    """
    yield request_sense(0)
    yield fill(0, 10, 4, 17)
    yield write_same(0, 1, AB)
    yield write_same(12, 3, AB)
    yield write_same(10, 4, AB)
    yield read_16(9, 6)
    yield write_same(10, 5, AB)
    yield write_same(10, 4, C5, UNMAP)
    yield read_16(10, 1)
    yield write_same(9, 5, ZEROS)
    yield write_same(9, 2, ZEROS, UNMAP)
    yield get_lba_status(0, 0xFFFF)
    yield write_same(20, 2, ZEROS)
    yield write_same(20, 1, ZEROS)
    yield write_same(30, 1, AB)
    yield read_16(9, 5)
    yield get_lba_status(0, 0xFFFF)


@row("write-same/at-the-edges")
def at_the_edges():
    """The first and the last block, and ranges past the capacity of 1000h (SPC-4, 4.5.2.2)"""
    yield request_sense(0)
    for write_same in (write_same_10, write_same_16):
        yield write_same(0, 1, AB)
        yield write_same(0xFFF, 1, C5)
        for address, count in ((0xFFE, 2), (0xFFF, 2), (0x1000, 1), (0x1001, 1), (0, 0x1001)):
            yield write_same(address, count, AB)
        for address, count in ((0, 1), (1, 1), (0xFFD, 1), (0xFFE, 2)):
            yield read_16(address, count)
        yield unmap(unmap_list([(0, 0x1000)]))
        yield get_lba_status(0, 0xFFFF)

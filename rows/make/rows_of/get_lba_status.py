"""Rows of GET LBA STATUS (SBC-3, 5.4)."""

from rows_of import row
from rows_of.lines import POWER_ON_TAKEN, fill, get_lba_status, request_sense, write_10

FAR = 2**39


@row("get-lba-status/of-more-than-512-extents", pool=600)
def more_than_512_extents():
    """Every second block of 1,040 is mapped: 512 descriptors are in an answer (SBC-3, 5.4.2)"""
    yield request_sense(0)
    for address in range(1, 1040, 2):
        yield fill(0, address, 1, 7)
    for start, length in ((0, 0x2008), (0, 0x2007), (0, 8), (0x1FF, 0x18), (0x200, 0xFFFF),
                          (0x40F, 0xFFFF), (0x410, 0xFFFF)):
        yield get_lba_status(start, length)


@row("get-lba-status/cut-at-each-length")
def cut():
    """Four extents, cut: PARAMETER DATA LENGTH counts all of them (SPC-4, 4.2.5.6)"""
    yield from POWER_ON_TAKEN
    for address in (0, 2):
        yield write_10(address, 512 * b"\xAB")
    for length in (*range(0x4A), 0x50, 0xFFFFFFFF):
        yield get_lba_status(0, length)


@row("get-lba-status/of-ten-blocks-cut-at-each-length", blocks=10)
def cut_of_ten_blocks():
    """A start after the first block, on a disk that ends after the last extent"""
    yield request_sense(0)
    yield fill(0, 2, 3, "0xA1")
    for length in range(0x49):
        yield get_lba_status(1, length)


@row("get-lba-status/of-the-largest-disk", blocks=2**40)
def largest_disk():
    """An extent has FFFFFFFFh blocks at most, so an empty disk of 2^40 has many (SBC-3, 5.4.2)"""
    yield request_sense(0)
    yield get_lba_status(0, 0xFFFF)
    yield get_lba_status(2**40 - 1, 0xFFFF)
    yield get_lba_status(2**40, 0xFFFF)
    yield get_lba_status(2**40 - 2**32, 0xFFFF)
    yield fill(0, FAR, 2, 1)
    for start in (FAR - 1, FAR, FAR + 1):
        yield get_lba_status(start, 0xFFFF)
    yield get_lba_status(FAR + 2, 0x18)


@row("get-lba-status/of-512-extents-the-last-of-which-is-a-part", blocks=2**40, pool=200)
def last_is_a_part():
    """The limit of 512 descriptors falls within a long extent, which has many (SBC-3, 5.4.2)"""
    yield request_sense(0)
    for address in range(1, 400, 2):
        yield fill(0, address, 1, 7)
    yield get_lba_status(0, 0xFFFF)
    yield get_lba_status(399, 0x2000)

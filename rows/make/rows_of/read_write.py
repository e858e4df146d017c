"""Rows of READ and WRITE (SBC-3, 5.11 and 5.33; SBC-2)."""

from rows_of import row
from rows_of.lines import (
    POWER_ON_TAKEN, raw, read_10, read_16, request_sense, transfer_10, transfer_16, write_10)

PATTERN = bytes(place % 251 for place in range(3 * 512))  # no two blocks are equal
IGNORED_BITS = 0x18  # DPO and FUA


@row("read-write/read-6-of-256-blocks", "080000000000")
@row("read-write/read-10-of-256-blocks", "28000000000000010000")
def read_256_blocks(cdb):
    """The longest transfer, of blocks that were never written; a READ(6) of 0 is one of 256"""
    yield from POWER_ON_TAKEN
    yield raw(0, cdb)


def with_group_number(cdb):
    return raw(0, cdb[:6] + b"\x1F" + cdb[7:])


@row("read-write/write-6-and-read-10", raw(0, "0a0000210300", PATTERN), read_10(0x20, 5))
@row("read-write/write-10-and-read-16", write_10(0x21, PATTERN), read_16(0x20, 5))
@row("read-write/write-16-and-read-6", raw(0, transfer_16(0x8A, 0x21, 3), PATTERN),
     raw(0, "080000200500"))
@row("read-write/write-10-and-read-10-with-ignored-bits",
     with_group_number(transfer_10(0x2A, 0x21, 3, IGNORED_BITS)) + " " + PATTERN.hex(),
     with_group_number(transfer_10(0x28, 0x20, 5, IGNORED_BITS)))
def write_and_read(write, read):
    """Three blocks are written in one form and read in another, with a block on either side"""
    yield request_sense(0)
    yield write
    yield read

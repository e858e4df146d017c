"""Rows of UNMAP (SBC-3, 5.28)."""

from rows_of import row
from rows_of.lines import fill, get_lba_status, read_16, request_sense, unmap, unmap_list

THREE_BLOCKS = [(0, 1), (1, 1), (2, 1)]


@row("unmap/list-cut-at-each-length", pool=3)
def cut_list():
    """A list of three blocks at each PARAMETER LIST LENGTH: whole descriptors count (SBC-3, 5.28.2)

    The two writes after it show how much room the pool has: none is left, and one too many.
    """
    yield request_sense(0)
    parameters = unmap_list(THREE_BLOCKS)
    for length in range(len(parameters) + 2):
        yield fill(0, 0, 3, 7)
        yield unmap(parameters, length)
        yield get_lba_status(0, 0xFFFF)
        whole = max(0, length - 8) // 16 if length <= len(parameters) else 0
        yield fill(0, 10, whole + 1, 1)
        yield fill(0, 10, whole, 1)
        yield unmap(unmap_list([(10, 3)]))
    yield fill(0, 0, 3, 7)


@row("unmap/lengths-that-disagree")
def lengths_that_disagree():
    """UNMAP BLOCK DESCRIPTOR DATA LENGTH and the bytes of the list: the smaller number counts.

    UNMAP DATA LENGTH does not matter. 65 descriptors are refused only if 65 are whole.
    """
    yield request_sense(0)
    for length in (0, 1, 0x0F, 0x10, 0x11, 0x1F, 0x20, 0x21, 0x2F, 0x30, 0x31, 0x40, 0x3FF, 0x40F,
                   0x410, 0xFFFF):
        yield fill(0, 0, 3, 7)
        yield unmap(unmap_list(THREE_BLOCKS, descriptors_length=length))
        yield get_lba_status(0, 0xFFFF)
        whole = min(length // 16, 3)
        yield fill(0, 10, whole + 2, 1)
        yield fill(0, 10, whole + 1, 1)
        yield unmap(unmap_list([(10, 4)]))
    for data_length in (0, 6, 0xFFFF):
        yield fill(0, 0, 3, 7)
        yield unmap(unmap_list([(0, 1), (2, 1)], data_length))
        yield read_16(0, 3)
    yield unmap(unmap_list(65 * [(0, 0)], descriptors_length=0x40F))
    yield unmap(unmap_list(65 * [(0, 0)]))
    yield unmap(unmap_list(65 * [(5000, 1)]))
    yield unmap(unmap_list(65 * [(0, 0)]), 0x417)
    yield unmap(unmap_list(65 * [(0, 0)]), 0x418)

"""Rows of the thresholds of an extended disk's pool (SBC-3, 4.7)."""

from itertools import product

from modes import PROVISIONING
from rows_of import row
from rows_of.lines import fill, mode_page, mode_select_6, test_unit_ready, unmap, unmap_list
from thresholds import ENABLED, OF_AVAILABLE, OF_USED

POOL = 9


def provisioning(available, used):
    """MODE SELECT with the counts of both thresholds. A threshold without a count is not enabled."""
    page = bytearray(mode_page(*PROVISIONING))
    for descriptor, count in ((OF_AVAILABLE, available), (OF_USED, used)):
        place = 4 + descriptor
        if count is not None:
            page[place] |= ENABLED
            page[place + 4:place + 8] = count.to_bytes(4, "big")
    return mode_select_6(bytes(4) + page)


def each_use():
    """The number of used blocks goes from 0 to the whole pool and back, block by block and then at once.
    After each step two initiators take the condition, if there is one."""
    up = [fill(0, address, 1, 0xAB) for address in range(POOL)]
    down = [unmap(unmap_list([(address, 1)])) for address in range(POOL)]
    for line in (*up, *down, fill(0, 0, POOL, 0xCD), unmap(unmap_list([(0, POOL)]))):
        yield line
        yield test_unit_ready(0)
        yield test_unit_ready(1)


@row("thresholds/each-count", pool=POOL, profile="extended")
def each_count():
    """Each THRESHOLD COUNT that the pool can reach, and one that it cannot, of each threshold and of both.

    A pool of 9 has 4 threshold sets of two blocks, and a block that remains. A condition follows only the
    command that takes the available sets from above the count to it or below it, or the used sets from below
    the count to it or above it.
    """
    yield from map(test_unit_ready, (0, 1))
    counts = range(POOL // 2 + 2)
    for available, used in (*product(counts, [None]), *product([None], counts), *zip(counts, counts)):
        yield f"# THRESHOLD COUNT of available sets: {available}, of used sets: {used}"
        yield provisioning(available, used)
        yield test_unit_ready(1)  # MODE PARAMETERS CHANGED
        yield from each_use()


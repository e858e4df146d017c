"""Logical block provisioning (SBC-3, 4.7): which addresses have a block of the pool.

An address is mapped, anchored or deallocated. Mapped and anchored ones have a block of the pool
each. Deallocated and anchored ones read as zeros (LBPRZ 1).
"""

from sense import (
    DATA_PROTECT,
    MISCOMPARE,
    MISCOMPARE_DURING_VERIFY_OPERATION,
    SPACE_ALLOCATION_FAILED_WRITE_PROTECT,
    CheckCondition,
)

BLOCK_LENGTH = 512
ZEROS = bytes(BLOCK_LENGTH)
MAPPED, DEALLOCATED, ANCHORED = 0, 1, 2  # SBC-3, 5.4.2, PROVISIONING STATUS
MOST_BLOCKS_OF_A_DESCRIPTOR = 2**32 - 1
MOST_DESCRIPTORS = 512
ALL_BLOCKS = 2**64


class Provisioning:
    def __init__(self, capacity, pool):
        self.capacity = capacity
        self.pool = pool
        self.contents = {}  # the bytes of each mapped address, None for each anchored one
        self.most_moved = ALL_BLOCKS  # a fault moves fewer of a command's blocks

    def threshold_sets(self, profile):
        """How many whole threshold sets of the pool no address has, and how many some address has (SBC-3,
        4.7). Anchored addresses have blocks of the pool, too."""
        size = 2 ** threshold_exponent(profile, self.capacity)
        used = len(self.contents)
        return (self.pool - used) // size, used // size

    def status(self, address):
        if address not in self.contents:
            return DEALLOCATED
        return ANCHORED if self.contents[address] is None else MAPPED

    def read(self, address, count):
        count = min(count, self.most_moved)
        return b"".join(self.contents.get(address + offset) or ZEROS for offset in range(count))

    def compare(self, address, count, data):
        """Compares each block with its own of data-out, or with the one that data-out has (SBC-3,
        5.29). INFORMATION is the offset in data-out of the first byte that differs."""
        for offset in range(count):
            place = BLOCK_LENGTH * offset % (len(data) or 1)
            kept = self.contents.get(address + offset) or ZEROS
            for byte, pair in enumerate(zip(kept, data[place:place + BLOCK_LENGTH])):
                if pair[0] != pair[1]:
                    raise CheckCondition(
                        MISCOMPARE, MISCOMPARE_DURING_VERIFY_OPERATION, information=place + byte)

    def compare_and_write(self, address, count, data):
        """The first half of the bytes is compared, and the second written if the first is equal."""
        half = BLOCK_LENGTH * count
        self.compare(address, count, data[:half])
        self._need_room([(address, count)])
        for offset in range(count):
            place = half + BLOCK_LENGTH * offset
            self.contents[address + offset] = data[place:place + BLOCK_LENGTH]

    def orwrite(self, address, count, data):
        """Maps each address, and sets the bits of its block that are 1 in its part of the bytes."""
        self._need_room([(address, count)])
        for offset in range(count):
            place = BLOCK_LENGTH * offset
            kept = self.contents.get(address + offset) or ZEROS
            sent = data[place:place + BLOCK_LENGTH]
            self.contents[address + offset] = bytes(old | new for old, new in zip(kept, sent))

    def copy(self, source, destination, count):
        """Maps each address of the destination to what an address of the source had before (SPC-4, 6.5)."""
        self._need_room([(destination, count)])
        copied = [self.contents.get(source + offset) or ZEROS for offset in range(count)]
        for offset, block in enumerate(copied):
            self.contents[destination + offset] = block

    def write(self, address, count, block):
        """Maps each address to `block(offset)`, or none if the pool lacks room (SBC-3, 4.7)."""
        count = min(count, self.most_moved)
        self._need_room([(address, count)])
        for offset in range(count):
            self.contents[address + offset] = block(offset)

    def mark(self, _address, _code):
        """SBC-3, 4.18.2: no block changes. `faults.execute` arms a fault that lies on the block."""

    def unmap(self, extents):
        """Deallocates the addresses, and gives their blocks back to the pool."""
        for address, count in extents:
            for known in self._known(address, count):
                del self.contents[known]

    def anchor(self, extents):
        """Anchors the addresses, or none if the pool lacks room (SBC-3, 4.7.4)."""
        extents = joined(extents)
        self._need_room(extents)
        for address, count in extents:
            for offset in range(count):
                self.contents[address + offset] = None

    def _known(self, address, count):
        """The addresses of the extent that have a block of the pool."""
        if count < len(self.contents):
            return [place for place in range(address, address + count) if place in self.contents]
        return [place for place in self.contents if address <= place < address + count]

    def _need_room(self, extents):
        """Only an address that is deallocated needs a block more."""
        needed = sum(count - len(self._known(address, count)) for address, count in extents)
        if len(self.contents) + needed > self.pool:
            raise CheckCondition(DATA_PROTECT, SPACE_ALLOCATION_FAILED_WRITE_PROTECT)

    def status_extents(self, start):
        """The longest extents of one status each, from `start` on: at most 512 (SBC-3, 5.4)."""
        known = sorted(address for address in self.contents if address >= start)
        extents, place, next_known = [], start, 0
        while place < self.capacity and len(extents) < MOST_DESCRIPTORS:
            status = self.status(place)
            if status == DEALLOCATED:
                end = known[next_known] if next_known < len(known) else self.capacity
            else:
                end = place
                while end < self.capacity and self.status(end) == status:
                    end += 1
                next_known += end - place
            while place < end and len(extents) < MOST_DESCRIPTORS:
                count = min(end - place, MOST_BLOCKS_OF_A_DESCRIPTOR)
                extents.append((place, count, status))
                place += count
        return extents


def threshold_exponent(profile, capacity):
    """SBC-3, 4.7: a threshold set has 2 to the THRESHOLD EXPONENT blocks. The number of the sets of a disk
    has to fit in four bytes. 0 is for a disk without thresholds."""
    if profile == "base":
        return 0
    return 1 if capacity < 2**33 else 9


def joined(extents):
    """The same addresses as extents that do not overlap, in ascending order."""
    apart = []
    for address, count in sorted(extents):
        if apart and address <= apart[-1][0] + apart[-1][1]:
            start, before = apart[-1]
            apart[-1] = (start, max(before, address + count - start))
        elif count:
            apart.append((address, count))
    return apart

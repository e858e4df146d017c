"""Parameter lists of commands, as bytes for their data-out."""
from enum import IntEnum
from typing import Tuple

from ._cdb import within


class ReservationType(IntEnum):
    """The types of persistent reservations (SPC-4, 6.15)."""
    WRITE_EXCLUSIVE = 1
    EXCLUSIVE_ACCESS = 3
    WRITE_EXCLUSIVE_REGISTRANTS_ONLY = 5
    EXCLUSIVE_ACCESS_REGISTRANTS_ONLY = 6
    WRITE_EXCLUSIVE_ALL_REGISTRANTS = 7
    EXCLUSIVE_ACCESS_ALL_REGISTRANTS = 8


def reserve_out_list(key: int = 0, service_action_key: int = 0, aptpl: bool = False) -> bytes:
    """Returns the list of PERSISTENT RESERVE OUT (SPC-4, 6.16): RESERVATION KEY, SERVICE ACTION
    RESERVATION KEY and APTPL."""
    keys = (within("key", key, 64), within("service_action_key", service_action_key, 64))
    return b"".join(it.to_bytes(8, "big") for it in keys) + bytes([0, 0, 0, 0, int(aptpl), 0, 0, 0])


def unmap_list(*descriptors: Tuple[int, int]) -> bytes:
    """Returns the list of UNMAP (SBC-3, 5.28) with block descriptors: an address, and a number of
    blocks."""
    length = 16 * len(descriptors)
    if length + 6 > 0xFFFF:
        raise ValueError(f"there are more than 4,095 block descriptors: {len(descriptors)}")
    header = (length + 6).to_bytes(2, "big") + length.to_bytes(2, "big") + bytes(4)
    return header + b"".join(
        within("lba", lba, 64).to_bytes(8, "big") + within("blocks", blocks, 32).to_bytes(4, "big")
        + bytes(4) for lba, blocks in descriptors)

"""Fields of a CDB: each is checked for its width, and put in its place."""
from typing import Tuple

BLOCK_LENGTH = 512

# A name, a value, the last byte, the lowest bit in that byte, and the number of bits.
Field = Tuple[str, int, int, int, int]


def within(name: str, number: int, bits: int) -> int:
    """Returns a number that has at most `bits` bits."""
    if not 0 <= number < 1 << bits:
        raise ValueError(f"{name} is not 0 to 2^{bits} - 1: {number}")
    return number


def cdb(length: int, operation_code: int, *fields: Field) -> bytes:
    """Returns the CDB with an operation code and these fields. Its other bits are 0."""
    whole = operation_code << 8 * (length - 1)
    for name, value, byte, bit, bits in fields:
        whole |= within(name, value, bits) << 8 * (length - 1 - byte) + bit
    return whole.to_bytes(length, "big")


def short_length(blocks: int) -> int:
    """Returns the TRANSFER LENGTH of READ(6) and WRITE(6), in which 0 means 256 blocks."""
    if not 1 <= blocks <= 256:
        raise ValueError(f"blocks is not 1 to 256: {blocks}")
    return blocks % 256


def blocks_of(data_out: bytes, bytes_of_block: int = BLOCK_LENGTH) -> int:
    """Returns the number of blocks that data-out is for."""
    if len(data_out) % bytes_of_block:
        raise ValueError(f"data_out has {len(data_out)} bytes, which are no whole blocks: give blocks")
    return len(data_out) // bytes_of_block

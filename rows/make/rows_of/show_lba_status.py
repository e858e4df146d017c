"""Rows of the answer of GET LBA STATUS (SBC-3, 5.4.2) as text."""

from rows_of import row
from rows_of.show_lines import cuts, each, long_lines, octets, show

# Three descriptors: one mapped block, all up to address FFFFFFFEh deallocated, two anchored ones.
THREE = ("0000000000000000" + "00000001" + "00000000" + "0000000000000001" + "fffffffe" + "01000000"
         + "00000000ffffffff" + "00000002" + "02000000")


def answer(*extents):
    """Makes an answer: its length, four reserved bytes, and a descriptor for each extent."""
    descriptors = b"".join(
        address.to_bytes(8, "big") + count.to_bytes(4, "big") + bytes([status, 0, 0, 0])
        for address, count, status in extents)
    return (4 + len(descriptors)).to_bytes(4, "big") + bytes(4) + descriptors


@row("show-lba-status/cut-at-each-length")
def own_disks():
    """The row cuts answers of disks of 4,096 to 2^40 blocks.

    An extent has at most FFFFFFFFh blocks, so a longer run has several.
    """
    last, most = 2**40 - 1, 2**32 - 1
    whole_disk = answer((0, 1, 1))
    return cuts(
        "lba",
        answer((0, 3, 0), (3, 4093, 1)),
        answer((0, most, 1), (most, most, 1), (2 * most, 2, 1)),
        answer((2**40 - 4, 4, 1)),
        answer((last, 1, 1)),
        answer((last - most, most, 1), (last, 1, 1)),
        octets("00000814 00000000 0000008000000002 ffffffff 01000000"),
        whole_disk, answer((0, 1, 0)),
        answer((0, 2, 0), (2, 4094, 1)),
        answer((0, 1, 1), (1, 1, 0), (2, 4094, 1)),
        answer((0, 2, 0), (2, 14, 1), (16, 2, 0), (18, 4078, 1)),
        answer((0, 1, 0), (1, 4095, 1)),
        answer((1, 31, 1), (32, 1, 0), (33, 4063, 1)),
        answer((0, 1, 0), (1, 1, 1), (2, 2, 0), (4, 4092, 1)))


@row("show-lba-status/of-other-disks-cut-at-each-length")
def other_disks():
    """The row cuts an answer with each status, also reserved ones, and with large numbers."""
    return cuts("lba", octets(
        "00000084 00000000", THREE, "0000000100000001 00000010 03000000",
        "0000010000000000 00000001 04000000", "8000000000000000 00000000 05000000",
        "ffffffffffffffff ffffffff 06000000", "123456789abcdef0 87654321 07000000"))


@row("show-lba-status/each-parameter-data-length")
def each_length():
    """The row has values of PARAMETER DATA LENGTH that end before, within and after each
    descriptor."""
    return each("lba", "{:08x}00000000" + THREE,
                [*range(0x46), 0xFF, 0x100, 2**16, 2**24, 2**31 - 1, 2**31, 2**32 - 5, 2**32 - 4,
                 2**32 - 1])


@row("show-lba-status/each-provisioning-status")
def each_status():
    """The row has each value of byte 12.

    Its low four bits are the status, and the others are reserved.
    """
    return [show("lba", answer(*((16 * status, 16, status) for status in range(16)))),
            *each("lba", "00000014 00000000 0000000000000001 00000002 {:02x}ffffff", range(256))]


@row("show-lba-status/of-127-extents-and-cut")
def of_127_extents():
    """The row cuts an answer of 512 descriptors. A line has room for 127 of them."""
    data = answer(*((address, 1, address % 2) for address in range(512)))
    return [show("lba", data[:length])
            for length in (2024, 2023, 2025, 2039, 2040, 2041, 24, 40, 1000)]


@row("show-lba-status/as-long-as-a-line")
def as_long_as_a_line():
    """The row has the longest lines. PARAMETER DATA LENGTH counts 126 of 128 descriptors."""
    data = answer(*((address, 3 * address, address % 5) for address in range(128)))
    return long_lines("lba", octets((4 + 126 * 16).to_bytes(4, "big"), data[4:]))


@row("show-lba-status/extents-of-each-status-cut-at-each-length-and-unusual-data")
def each_status_cut():
    """The row cuts an answer with one extent of each status.

    Then it has a length that counts no descriptor.
    """
    return ["# each provisioning status",
            *cuts("lba", octets("00000044 00000000", THREE,
                                "0000000100000001 00000010 f3000000")),
            "# unusual ones",
            show("lba", "00000003 000000000000")]

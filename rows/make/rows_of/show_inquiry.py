"""Rows of standard INQUIRY data (SPC-4, 6.6.2) as text."""

from rows_of import row
from rows_of.show_lines import ascending, cuts, each, long_lines, octets, one_bit, show

# The texts of our disk, and its data (docs/PROFILE.md, "Standard INQUIRY data").
TEXTS = b"SGMODEL " + b"THIN DISK       " + b"0100"
OWN = octets("000006021f000000", TEXTS)

# What follows ADDITIONAL LENGTH: letters in the place of texts, and 20 bytes more.
LETTERS = octets("000000", b"A" * 8, b"B" * 16, b"C" * 4, ascending(20, 1))


@row("show-inquiry/each-additional-length")
def each_additional_length():
    """The row has each value of ADDITIONAL LENGTH.

    The field ends only the bytes after the first 36: standard INQUIRY data has at least 36 bytes.
    """
    return [show("inq", "00000602", bytes([length]), LETTERS) for length in range(256)]


@row("show-inquiry/additional-lengths-cut")
def additional_lengths_cut():
    """The row cuts data within its items and between them.

    It has values of ADDITIONAL LENGTH that end within an item, and values that end between two.
    """
    lengths = [0x00, 0x03, 0x04, 0x0A, 0x0B, 0x1A, 0x1B, 0x1C, 0x1E, 0x1F, 0x20, 0x21, 0x2E, 0x2F,
               0x30, 0xFA, 0xFF]
    stops = [4, 5, 6, 7, 8, 15, 16, 17, 31, 32, 33, 35, 36, 37, 47, 51, 52, 53]
    return [show("inq", octets("00000602", bytes([length]), LETTERS)[:stop])
            for length in lengths for stop in stops]


@row("show-inquiry/144-bytes-cut-at-each-length")
def of_144_bytes():
    """The row cuts the data of a SAS disk after each byte.

    A serial number, version descriptors and a copyright notice follow the first 36 bytes.
    """
    return cuts("inq", octets(
        "000006128b003002", b"MAKER   ", b"DISK 4000 SAS   ", b"A1B2", b"SERIAL-1", bytes(14),
        "00a20c02046204c6", bytes(22), b"'Copyright (c) 2026 Maker All rights reserved    '"))


@row("show-inquiry/other-devices-cut-at-each-length")
def other_devices():
    """The row cuts the data of a removable disk, of a tape and of an unknown device."""
    return cuts(
        "inq",
        octets("008004021f736d69", b"Maker   ", b"Flash Disk      ", b"1100"),
        octets("018003022f000008", b"MAKER   ", b"TAPE 3          ", b"7A00", ascending(15, 1)),
        octets("7f0006021f000000", b" " * 8, bytes(20)))


@row("show-inquiry/version-descriptors-cut-at-each-length")
def version_descriptors():
    """The row cuts data with version descriptors.

    They have no lines of their own, only hex lines.
    """
    return cuts("inq", octets(
        "000005123d000002", b"IET     ", b"VIRTUAL-DISK    ", b"0001", bytes(22),
        "04c0096003000000"))


@row("show-inquiry/each-bit-of-the-first-bytes")
def each_bit():
    """The row sets each bit of bytes 0 to 7 except byte 4, and several at once.

    No field reads a bit of another field.
    """
    return ([show("inq", value.to_bytes(8, "big"), bytes(28)) for value in one_bit(8)
             if not 2**24 <= value < 2**32]
            + each("inq", "{0}{0}{0}{0}1f" + "00" * 31, ["ff", "55", "aa", "f0", "0f", "1f", "e0"]))


@row("show-inquiry/cut-at-each-length")
def own_data():
    """The row cuts the disk's own data as an ALLOCATION LENGTH cuts it (SPC-4, 4.2.5.6)."""
    return cuts("inq", OWN)


@row("show-inquiry/a-removable-drive-cut-at-each-length-and-unusual-data")
def removable_drive():
    """The row cuts the data of a CD-ROM drive.

    Then it shows data with another qualifier, and data whose ADDITIONAL LENGTH is too small or too
    large.
    """
    return ["# a CD-ROM drive",
            *cuts("inq", octets("058005021f000010", b"QEMU    ", b"QEMU DVD-ROM    ", b"2.5+")),
            "# unusual ones",
            show("inq"),
            show("inq", "000007025b010002", b"Linux   ", b"scsi_debug      ", b"0191", bytes(22),
                 "00a0046004c020e6", bytes(30)),
            show("inq", "7f80000f20000000 1f207e7fff414243", b" " * 16, "00010203 de"),
            show("inq", "000006f224000000", TEXTS, "abcd"),
            show("inq", "000006025b000000", TEXTS),
            show("inq", "0000060200000000", TEXTS, "ff")]


@row("show-inquiry/as-long-as-a-line")
def as_long_as_a_line():
    """The row has more bytes than ADDITIONAL LENGTH can count.

    The text does not show the others.
    """
    return long_lines("inq", octets("00000602ff000000", TEXTS, ascending(2100, 1, 5)))

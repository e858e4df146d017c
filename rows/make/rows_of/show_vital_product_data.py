"""Rows of pages of vital product data (SPC-4, 7.8; SBC-3) as text."""

from rows_of import row
from rows_of.show_lines import ascending, cuts, each, long_lines, octets, one_bit, show

# Block limits of two other disks, the first with its reserved bytes set.
LIMITS = "0108000800004000000020000000100000400000000001000000002080000004000000000000ffff00" \
         + ascending(19, 1).hex()

OTHER_LIMITS = "01000008000010000000000000000000ffffffff000001000000002080000000000000000000ffff"

# Designators (SPC-4, 7.8.6): a T10 vendor ID, an EUI-64, an NAA, and others of each type.
T10 = "02010018" + b"IET     00010001".hex() + "00" * 8
EUI = "010200080025385a91b01234"
NAA = "010300085000c50012345678"
PORT, GROUP, UNIT = "0114000400000001", "0115000400000002", "0106000400000003"
MD5 = "0107001000112233445566778899aabbccddeeff"
NAME = "03280014" + b"naa.5000C50012345678".hex()
PIV = "6199000401000000"
UUID = "010a001210006001405a8f270d4ed12cf30011223344"
TYPES = [T10, EUI, NAA, PORT, GROUP, UNIT, MD5, NAME, PIV, UUID]
RESERVED = ["020000054142204344", "010b00020b0b", "041c00030c0c0c", "0f2d00010d", "003e0000",
            "020f0000", "02ffff03417f20", "12ca5502807e"]


def page(code, *parts, first="00"):
    """Makes a page: the qualifier and the type, the code, PAGE LENGTH, and what follows."""
    rest = octets(*parts)
    return octets(first, code, len(rest).to_bytes(2, "big"), rest)


@row("show-vital-product-data/designators-of-each-type-cut-at-each-length")
def each_type_cut():
    """The row cuts a page with designators of each type. The text shows only whole designators."""
    return cuts("vpd", page("83", *TYPES))


@row("show-vital-product-data/pages-of-other-targets-cut-at-each-length-and-unusual-ones")
def other_targets():
    """The row cuts a page of each text, of another target.

    Then it has pages that end within an item.
    """
    designators = [
        "02000004610720c3", "0201000c" + b"LIO-ORG disk".hex(), EUI,
        "010300106001405a8f270d4ed12cf30011223344", PORT, "0115000400008000", "0106000400000002",
        MD5, "53a8000c" + b"iqn.2003-01a".hex(), "6199000180", "f1fa0000",
    ]
    return ["# supported pages", *cuts("vpd", page("00", "008083b1ff")),
            "# a designator of each type", *cuts("vpd", page("83", *designators)),
            "# block limits",
            *cuts("vpd", page("b0", OTHER_LIMITS, bytes(20), first="20")),
            "# logical block provisioning", *cuts("vpd", page("b2", "05870a00")),
            "# unusual ones",
            *each("vpd", "{}", ["0080000453004e3770617374", "008000083031", "00800008", "00800000",
                                "00b1003c1c200002000102030405060708090a0b0c0d",
                                "00b00010000000010000ffff0000000000000000", "008300050103000830",
                                "00830010010300"])]


@row("show-vital-product-data/unknown-pages")
def unknown_pages():
    """The row has each page code.

    Five pages have texts, and the others have hex lines. The first two are Extended INQUIRY Data
    and Block Device Characteristics.
    """
    return [show("vpd", page("86", "4417000100000001", bytes(52))),
            show("vpd", page("b1", "1c200002", bytes(56))),
            *each("vpd", "00{:02x}0003aabbcc", range(256))]


@row("show-vital-product-data/block-limits-cut-at-each-length")
def block_limits_cut():
    """The row cuts three pages B0h: of 64 bytes, of 20 bytes, and one whose bits are all 1."""
    return cuts("vpd", page("b0", LIMITS), page("b0", "000000800000ffff00008000000000ff"),
                page("b0", "ff" * 60, first="20"))


@row("show-vital-product-data/cut-at-each-length")
def own_pages():
    """The row cuts the five pages of the disk as an ALLOCATION LENGTH does (SPC-4, 4.2.5.6).

    Of page B2h it has a value without ANC_SUP.
    """
    return cuts(
        "vpd",
        page("00", "008083b0b2"), page("80", b"00000001"),
        page("83", "02010020", b"SGMODEL ", b"THIN DISK       ", b"00000001",
             "01030008 3000000000000001"),
        page("b0", "01000001 00000100 00000000 00000000 ffffffff 00000040 00000001 00000000",
             "0000000000010000", bytes(20)),
        page("b2", "00e40200"))


@row("show-vital-product-data/unknown-pages-cut-at-each-length")
def unknown_pages_cut():
    """The row cuts two pages without a text. A hex line shows the bytes that are present."""
    return (cuts("vpd", page("86", "4417000100000001", bytes(52)))
            + cuts("vpd", page("c0", ascending(37, 0x30), first="61")))


@row("show-vital-product-data/block-limits-with-each-byte")
def block_limits_bytes():
    """The row sets each byte of page B0h to 81h, and each bit of byte 4.

    No field reads a byte of another.
    """
    return ([show("vpd", page("b0", bytes(place), "81", bytes(59 - place))) for place in range(60)]
            + [show("vpd", page("b0", bytes([bit]), bytes(59))) for bit in one_bit(1)])


@row("show-vital-product-data/block-limits-with-each-page-length")
def block_limits_lengths():
    """The row has values of PAGE LENGTH that end before, within and after each field."""
    return each("vpd", "00b0{:04x}" + LIMITS, [*range(64), 0x100, 0xFFFF])


@row("show-vital-product-data/designators-of-reserved-types-cut-at-each-length")
def reserved_types_cut():
    """The row cuts designators of reserved types and code sets, and empty ones."""
    return cuts("vpd", page("83", *RESERVED))


@row("show-vital-product-data/a-cut-designator-list-at-each-length")
def cut_list():
    """The row cuts a page of 76 bytes that lacks the end of its last designator."""
    return cuts("vpd", octets("00830048", NAA, T10, "010300106001405a"))


@row("show-vital-product-data/designators-with-each-page-length")
def designators_lengths():
    """The row has values of PAGE LENGTH that end before, within and after each designator."""
    return (each("vpd", "008300{:02x}" + NAA + T10 + "01030002aabb", range(50))
            + each("vpd", "0083{:04x}" + NAA + T10, [0xFF, 0x100, 0x10C, 0x400, 0x2800, 0xFFFF]))


@row("show-vital-product-data/designators-of-each-type")
def each_type():
    """The row has designators of each type, together and one by one.

    Then it has each type with two code sets: only ASCII is shown as a text.
    """
    return [*(show("vpd", page("83", *list_)) for list_ in (TYPES, RESERVED, RESERVED + TYPES)),
            *(show("vpd", page("83", one)) for one in TYPES + RESERVED),
            *(show("vpd", page("83", bytes([2 - kind % 2, kind]), "000427612d392127"))
              for kind in range(16))]


@row("show-vital-product-data/designators-with-each-length")
def designator_lengths():
    """The row has values of DESIGNATOR LENGTH.

    The data ends with the page, or before the page does.
    """
    data = ascending(12, 1).hex()
    lengths = [*range(16), 0x7F, 0x80, 0xFF]
    return (each("vpd", "00830010010300{:02x}" + data, lengths)
            + each("vpd", "00830020010300{:02x}" + data,
                   lengths[:16] + [0x1B, 0x1C, 0x1D] + lengths[16:]))


@row("show-vital-product-data/unknown-pages-with-each-page-length")
def unknown_pages_lengths():
    """The row has values of PAGE LENGTH of a page in hex lines, up to 256 and past the data."""
    data = octets("00b10100", ascending(256), "aa")
    return (each("vpd", "00b100{:02x}" + ascending(32).hex(), range(36))
            + each("vpd", "00b1{:04x}01", [0xFF, 0x100, 0x101, 0xFFFF])
            + [show("vpd", data[:length]) for length in (260, 261, 259)])


@row("show-vital-product-data/serial-numbers-cut-at-each-length")
def serial_numbers():
    """The row cuts a serial number with each kind of character.

    Then it has a PAGE LENGTH of 0, and one past the data.
    """
    return cuts("vpd", page("80", "202039574d30414243442020001f207e7f80ff0a"),
                "008000004142", "618000034142434445", "008001004142", "0080ffff41")


@row("show-vital-product-data/logical-block-provisioning-cut-at-each-length")
def provisioning_cut():
    """The row cuts three pages B2h. One has a designator after its fields."""
    return cuts("vpd", page("b2", "05e70700 01030010", ascending(16, 0x60)), page("b2", "ff18f8ff"),
                page("b2", "00000100", first="7f"))


@row("show-vital-product-data/each-bit-of-the-first-bytes")
def each_bit():
    """The row sets each bit of the header. No field reads a bit of another field."""
    return each("vpd", "{:08x}00000000", one_bit(4))


@row("show-vital-product-data/supported-pages-cut-at-each-length")
def supported_pages_cut():
    """The row cuts lists of page codes in any order, and one that is longer than PAGE LENGTH."""
    return cuts("vpd", page("00", "00808386878db0b1b2c0c1ff"), page("00", "00", first="7f"),
                "000000008083")


@row("show-vital-product-data/designators-with-each-bit-of-their-headers")
def designator_bits():
    """The row sets each bit of the first three bytes of a designator.

    The text does not show reserved bits.
    """
    return (each("vpd", "00830008{:06x}0227787927", one_bit(3))
            + each("vpd", "00830007{:06x}01277a27",
                   [0xFFFFFF, 0xF2C000, 0xF0CF01, 0x0F3080, 0x030F00, 0x1255AA]))


@row("show-vital-product-data/logical-block-provisioning-with-each-bit-and-page-length")
def provisioning_bits():
    """The row sets each bit of bytes 5 and 6 of page B2h.

    Then it has values of byte 4 and of PAGE LENGTH.
    """
    return (each("vpd", "00b2000400{:04x}00", one_bit(2))
            + each("vpd", "00b20004{:02x}000000", [0x01, 0x7F, 0x80, 0xFF])
            + each("vpd", "00b2{:04x}05a50200", range(6)))


@row("show-vital-product-data/an-unknown-page-as-long-as-a-line")
def unknown_page_long():
    """The row has the longest lines, with a page of 4,099 bytes."""
    return long_lines("vpd", octets("00c00fff", ascending(2100, 3, 7)))


@row("show-vital-product-data/designators-as-long-as-a-line")
def designators_long():
    """The row has the longest lines, with designators of each code set, association and type."""
    heads = (bytes([1 + at % 3, (at % 4 << 4) + at % 16, 0, 100]) for at in range(20))
    return long_lines("vpd", octets("008307f0", *(
        head + ascending(100, 0x20 + at) for at, head in enumerate(heads))))

"""Rows of mode parameters (SPC-4, 7.5) as text."""

from rows_of import row
from rows_of.show_lines import ascending, cuts, each, long_lines, octets, one_bit, show

# The pages of our disk, with their default values and their masks (docs/PROFILE.md, "Mode pages").
P01, M01 = "810ac0080000000008000000", "810ac0ff00000000ff000000"
P08 = "881204" + "00" * 17
P0A, M0A = "8a0a" + "00" * 10, "8a0a040008" + "00" * 7
P1C, M1C = "9c0a08" + "00" * 9, "9c0a" + "00" * 10
ALL, MASKS = P01 + P08 + P0A + P1C, M01 + P08 + M0A + M1C

# Its block descriptors: 4,096 blocks of 512 bytes.
SHORT, LONG = "00001000" + "00000200", "0000000000001000" + "00000000" + "00000200"

# Those of other disks: 2^20 blocks of 512 bytes, and 2^33 blocks of 4,096.
DISK, LARGE = "0010000000000200", "0000000200000000" + "00000000" + "00001000"

# Pages as other disks have them.
CONTROL = "8a0a061000000000ffff001e"
CACHING = "88121400ffff0000ffffffff8014000000000000"
RECOVERY = "810ac00bf00000000500ffff"
RECONNECT = "820e" + "00" * 14
CONTROL_EXTENSION = "ca01001c04" + "00" * 27
PORT = "d90100100006000100000000001009085000c500"
POWER = "9a260001" + "00" * 36
EXCEPTIONS = "9c0a08000000000000000001"
BACKGROUND = "5c02000c000000008000000000001000"
VENDOR = "800600800f000000"
OTHER = RECONNECT + CONTROL + CONTROL_EXTENSION + EXCEPTIONS + VENDOR


def six(pages, descriptor="", parameter="10"):
    """Makes an answer to MODE SENSE(6): the header, a block descriptor and pages."""
    descriptor, pages = octets(descriptor), octets(pages)
    length = 3 + len(descriptor) + len(pages)
    return octets(bytes([length, 0]), parameter, bytes([len(descriptor)]), descriptor, pages)


def ten(pages, descriptor="", parameter="10", long="00"):
    """Makes an answer to MODE SENSE(10). `long` is the byte that has LONGLBA."""
    descriptor, pages = octets(descriptor), octets(pages)
    length = 6 + len(descriptor) + len(pages)
    return octets(length.to_bytes(2, "big"), "00", parameter, long, "00",
                  len(descriptor).to_bytes(2, "big"), descriptor, pages)


@row("show-mode-parameters/six-cut-at-each-length")
def six_cut():
    """The row cuts the disk's answers to MODE SENSE(6).

    It has each page with its default values and its masks, and some values that MODE SELECT sets.
    """
    return cuts(
        "modes6",
        six(P0A, SHORT), six(P01), six(P08), six(P0A), six(P1C), six(ALL),
        six(M01), six(M0A), six(M1C), six(MASKS), six(M0A, parameter="90"),
        six(P01, SHORT), six(M01, SHORT), six(P08, SHORT), six(M0A, SHORT), six(P1C, SHORT),
        six(M1C, SHORT), six(ALL, SHORT), six(MASKS, SHORT),
        six("8812" + "00" * 18), six("8a0a000008" + "00" * 7, parameter="90"))


@row("show-mode-parameters/ten-cut-at-each-length")
def ten_cut():
    """The row cuts the disk's answers to MODE SENSE(10).

    They have the short block descriptor, the long one, or none.
    """
    return cuts(
        "modes10",
        ten(ALL, SHORT), ten(ALL), ten(ALL, LONG, long="01"),
        ten(P01, SHORT), ten(M01, SHORT), ten(P08, SHORT), ten(P0A, SHORT), ten(M0A, SHORT),
        ten(P1C, SHORT), ten(M1C, SHORT), ten(MASKS, SHORT))


@row("show-mode-parameters/block-descriptors-cut-at-each-length")
def descriptors_cut():
    """The row cuts answers with block descriptors.

    LONGLBA says whether a descriptor has 8 or 16 bytes. The text of a descriptor of any other
    length has no fields.
    """
    sixes = [six(CONTROL, DISK), six(CONTROL, LARGE), six(CONTROL, "00ffffff0f000800"),
             six(CONTROL, "010203")]
    tens = [ten(CONTROL, DISK), ten(CONTROL, DISK, long="01"), ten(CONTROL, LARGE),
            ten(CONTROL, LARGE, long="01"), ten(CONTROL, "ff" * 8),
            ten(CONTROL, "ff" * 16, long="01")]
    return [line for kind, answers in (("modes6", sixes), ("modes10", tens))
            for answer in answers for line in cuts(kind, answer)]


@row("show-mode-parameters/each-page-code")
def each_page_code():
    """The row has a page of each code, with PS and without.

    Bit 6 of the first byte, SPF, adds a subpage code, and a second byte to the length (SPC-4, 7.5).
    """
    return [show("modes6", six(bytes([code, 2]) + b"\xff\xff"))
            for code in range(256) if not code & 0x40] + [
            show("modes10", ten(bytes([code, 5, 0, 2]) + b"\xff\xff"))
            for code in range(256) if code & 0x40]


@row("show-mode-parameters/each-page-length")
def each_page_length():
    """The row has pages of many lengths.

    The text shows the fields of a page if it has all of them.
    """
    lines = []
    for code in (0x81, 0x08, 0x8A, 0x1C, 0x3E):
        for kind, answer in (("modes6", six), ("modes10", ten)):
            lines += [show(kind, answer(bytes([code, length]) + b"\xff" * length))
                      for length in [*range(13), 18, 19]]
    return lines + [show("modes10", ten(b"\x88\xff" + ascending(255))),
                    show("modes6", six(b"\x88\xf8" + ascending(248)))]


@row("show-mode-parameters/block-descriptors-of-each-length")
def each_descriptor_length():
    """The row has values of BLOCK DESCRIPTOR LENGTH up to past the end of the answer."""
    data = ascending(40, 1).hex()
    lengths = [*range(26), 39, 40, 41, 0xFF, 0x100, 0x108, 0x110, 0xFFFF]
    return (each("modes6", "2b0010{:02x}" + data, [*range(26), 38, 39, 40, 41, 0xFF])
            + each("modes10", "002e00100000{:04x}" + data, lengths)
            + each("modes10", "002e00100100{:04x}" + data, lengths))


@row("show-mode-parameters/each-bit-of-the-header")
def each_bit_of_the_header():
    """The row sets each bit of both headers. No field reads a bit of another field."""
    return ([show("modes6", bit.to_bytes(4, "big"), bytes(8)) for bit in one_bit(4)]
            + [show("modes10", bit.to_bytes(8, "big"), bytes(8)) for bit in one_bit(8)]
            + each("modes10", "0010{}00080010000000000200",
                   ["0000ff00", "0000fe00", "000001ff", "000000ff", "00000300"]))


@row("show-mode-parameters/six-with-each-mode-data-length")
def six_with_each_length():
    """The row has each MODE DATA LENGTH of MODE SENSE(6) up to past the end of the answer."""
    return (each("modes6", "{:02x}0090008a0a0600080000000000000059010002aabb0001cc", range(28))
            + each("modes6", "{:02x}00900800001000000002008a02abcd",
                   [*range(20), 0x7F, 0x80, 0xFE, 0xFF]))


@row("show-mode-parameters/ten-with-each-mode-data-length")
def ten_with_each_length():
    """The row has each MODE DATA LENGTH of MODE SENSE(10) up to past the end of the answer."""
    return (each("modes10", "{:04x}0090000000008a0a0600080000000000000059010002aabb0001cc",
                 range(34))
            + each("modes10", "{:04x}00900000000800001000000002008a02abcd",
                   [*range(24), 0xFF, 0x100, 0x101, 0xFFFE, 0xFFFF]))


@row("show-mode-parameters/lists-of-other-targets-cut-at-each-length-and-unusual-ones")
def other_targets():
    """The row cuts answers with pages that our disk lacks, with subpages and with short pages.

    Then it has lengths that end within an item.
    """
    short = "ca01000406000000" + "59010003aabbcc" + "0a02040008" + "01053e00"
    return ["# six pages",
            *cuts("modes6", six(RECOVERY + "020e" + "80" * 2 + "00" * 12 + "88120400ffff0000"
                                + "ffffffff8014000000000000" + "8a0a061008800000ffff001e"
                                + EXCEPTIONS + "1a020100", DISK)),
            "# a long block descriptor, subpages and pages that are short",
            *cuts("modes10", ten(short, LARGE, parameter="80", long="01")),
            "# unusual ones",
            *each("modes6", "{}", ["000200000800", "15000010" + ascending(16).hex() + "8800"]),
            show("modes10", "000e0010010000080010000000000200"),
            show("modes6", "0a000000590100")]


@row("show-mode-parameters/six-of-other-disks-cut-at-each-length")
def six_of_other_disks():
    """The row cuts pages of another disk: one has a subpage, and one is vendor specific."""
    return cuts("modes6", six(OTHER, DISK))


@row("show-mode-parameters/ten-of-other-disks-cut-at-each-length")
def ten_of_other_disks():
    """The row cuts the same pages of a disk of 2^33 blocks, with the long descriptor."""
    return cuts("modes10", ten(OTHER, LARGE, long="01"))


@row("show-mode-parameters/of-other-disks")
def of_other_disks():
    """The row has ten pages of other disks: first all of them, then each page by both commands."""
    pages = [RECOVERY, RECONNECT, CACHING, CONTROL, CONTROL_EXTENSION, PORT, POWER, EXCEPTIONS,
             BACKGROUND, VENDOR]
    every = "".join(pages)
    return [show("modes6", six(every, DISK, parameter="90")),
            show("modes10", ten(every, DISK, parameter="90")),
            show("modes10", ten(every, LARGE, long="01")),
            *(line for page in pages
              for line in (show("modes6", six(page)), show("modes10", ten(page))))]


@row("show-mode-parameters/pages-with-a-subpage-cut-at-each-length")
def subpages_cut():
    """The row cuts two pages that have a subpage, and so two bytes of length."""
    return (cuts("modes6", six(PORT + BACKGROUND, parameter="00"))
            + cuts("modes10", ten(PORT + BACKGROUND, parameter="00")))


@row("show-mode-parameters/each-bit-of-a-page")
def each_bit_of_a_page():
    """The row sets each bit of the bytes that have fields, in each page that has fields."""
    lines = []
    for code, length, places in (
            (0x81, 10, (2, 3, 8)), (0x88, 18, (2,)), (0x8A, 10, (2, 4)), (0x9C, 10, (2,))):
        for place in places:
            for bit in one_bit(1):
                page = bytearray([code, length]) + bytes(length)
                page[place] = bit
                lines.append(show("modes6", six(bytes(page))))
    return lines


@row("show-mode-parameters/each-subpage-length")
def each_subpage_length():
    """The row has lengths of pages with a subpage, also above 255.

    The codes are also those of pages that have fields without a subpage.
    """
    lines = [show("modes10", ten(octets(head, length.to_bytes(2, "big"), ascending(length))))
             for head, length in (("5900", 0), ("5901", 1), ("5902", 2), ("59ff", 3),
                                  ("5980", 255), ("597f", 256), ("5903", 300))]
    return (lines + each("modes6", "13001000{:02x}00000c" + "ff" * 12, [0xC1, 0xC8, 0xCA, 0xDC])
            + each("modes10", "0010000000000000d901{:04x}010203040506",
                   [*range(10), 0xFF, 0x100, 0xFFFF]))


@row("show-mode-parameters/pages-as-long-as-a-line")
def as_long_as_a_line():
    """The row has the longest lines, with eight pages."""
    pages = b"".join(bytes([0x20 + page, 253]) + ascending(253, page) for page in range(8))
    return long_lines("modes10", octets("07f2001000000000", pages))

"""Rows of sense data (SPC-4, 4.5) as its line."""

from rows_of import row
from rows_of.show_lines import cuts, each, octets, show


def fixed(key, code, pointer="000000", information=None):
    """Makes sense data in fixed format, of 18 bytes (SPC-4, 4.5.3)."""
    valid = "70" if information is None else "f0"
    return f"{valid}00{key:02x}{information or 0:08x}0a00000000{code:04x}00{pointer}"


def described(key, code, *descriptors):
    """Makes sense data in descriptor format (SPC-4, 4.5.2)."""
    rest = octets(*descriptors)
    return octets(f"72{key:02x}{code:04x}000000{len(rest):02x}", rest)


def in_cdb(*places):
    """Makes INVALID FIELD IN CDB at each of these bytes, in fixed format."""
    return [fixed(5, 0x2400, f"c0{place:04x}") for place in places]


def in_list(*places):
    """Makes INVALID FIELD IN PARAMETER LIST at each of these bytes, in fixed format."""
    return [fixed(5, 0x2600, f"80{place:04x}") for place in places]


def out_of_range(*addresses):
    """Makes LOGICAL BLOCK ADDRESS OUT OF RANGE with each address as INFORMATION."""
    return [fixed(5, 0x2100, information=address) for address in addresses]


def information(address):
    """Makes an information descriptor (SPC-4, 4.5.2.2)."""
    return f"000a8000{address:016x}"


def pointer(flags, place):
    """Makes a sense key specific descriptor with a field pointer (SPC-4, 4.5.2.4.2)."""
    return f"02060000{flags:02x}{place:04x}00"


@row("show-sense-data/cut-at-each-length")
def own_sense_data():
    """The row cuts the sense data that the disk returns, in both formats.

    It has each code, and each byte that a field pointer names.
    """
    return cuts(
        "sense",
        fixed(6, 0x2900), described(6, 0x2900), fixed(0, 0),
        *in_cdb(2), fixed(5, 0x2000), *in_cdb(0),
        *out_of_range(0x1000), *in_cdb(7), fixed(7, 0x2707), fixed(0xB, 0x4B00), *in_cdb(5),
        *out_of_range(None, 0x1001), described(0, 0), *in_cdb(1, 3, 10, 9),
        *out_of_range(0xFFFFFFFF, 0x1FFFFF, 1), *in_cdb(4, 6, 8, 14), *in_list(2), fixed(5, 0x1A00),
        *out_of_range(5000), *in_cdb(15), *in_list(18),
        described(6, 0x2A01), described(5, 0x2100, information(2**33)), fixed(7, 0x2702),
        *in_list(11, 15, 4, 5, 6, 8, 9, 10, 13, 14, 7, 12, 16, 17, *range(19, 28), 1, 3),
        fixed(6, 0x2A01), described(7, 0x2702), fixed(6, 0x2A05),
        described(5, 0x2600, pointer(0x80, 6)), described(5, 0x2600, pointer(0x80, 4)),
        fixed(5, 0x5504), fixed(5, 0x2604), fixed(6, 0x2A04), fixed(6, 0x2A03),
        described(6, 0x2A04), described(6, 0x2A03),
        described(5, 0x2100, information(2**64 - 1)),
        described(5, 0x2400, pointer(0xC0, 2)), described(5, 0x2400, pointer(0xC0, 3)),
        described(5, 0x2100, information(0x1000)), described(5, 0x2400, pointer(0xC0, 1)),
        described(5, 0x2100, information(5000)), described(5, 0x2600, pointer(0x80, 20)),
        described(5, 0x2604), described(5, 0x2600, pointer(0x80, 8)), described(5, 0x5504))


@row("show-sense-data/each-response-code")
def each_response_code():
    """The row has each response code.

    Only 70h, F0h and 72h are read: 71h and 73h are deferred errors.
    """
    return (each("sense", "{:02x}0005010203040a00000000240000c00007", range(256))
            + each("sense", "{}0524000000000802060000c0000700",
                   ["72", "f2", "73", "f3", "71", "f1", "74", "7f", "52", "02", "62"]))


@row("show-sense-data/fixed-of-other-disks-cut-at-each-length")
def other_fixed():
    """The row cuts fixed format of other lengths than 18 bytes.

    A reader needs 14 bytes, and 18 for the field pointer.
    """
    return cuts("sense", "f00005000102030aaabbccdd210012c8000241424344",
                "70000b000000002800000000470300" + "00" * 33, "f00083ffffffff0a000000001100")


@row("show-sense-data/several-descriptors-cut-at-each-length")
def several_descriptors():
    """The row cuts several descriptors.

    The first of each of two types is read, whatever comes before it.
    """
    return cuts(
        "sense",
        described(5, 0x2400, information(2**33 + 1), "010a0000000000000000000b",
                  pointer(0xC8, 2), "03020015 05020020"),
        described(5, 0x2400, "090c000000010002000300044051", "8006" + b"MAKER!".hex(),
                  pointer(0xC8, 2), information(2), information(2**33 + 1)))


@row("show-sense-data/deferred-cut-at-each-length")
def deferred():
    """The row cuts deferred errors in both formats. They are unreadable at each length."""
    return cuts("sense", "710003000000000a00000000110000000000",
                "f10003000102030a00000000110000000000", "730311000000000c000a80000000000000000102")


@row("show-sense-data/each-key")
def each_key():
    """The row has each sense key, which is the low four bits of its byte.

    A field pointer is read only with ILLEGAL REQUEST.
    """
    keys = [*range(16), 0x15, 0x25, 0x45, 0x85, 0xE6, 0xF0]
    return (each("sense", "7000{:02x}000000000a00000000110400c00009", keys)
            + each("sense", "72{:02x}11040000000802060000c0000900", keys))


@row("show-sense-data/descriptors-with-each-additional-length")
def additional_lengths():
    """The row has values of ADDITIONAL SENSE LENGTH, and of the length of the first descriptor."""
    stream, block = "03020015", information(2**33 + 1)
    return (each("sense", "72052400000000{:02x}" + stream + block + pointer(0xC8, 2),
                 [*range(30), 0x7F, 0x80, 0xFF])
            + each("sense", "720524000000001655{:02x}" + block + pointer(0xC8, 2),
                   [0, 1, 2, *range(10, 14), *range(18, 23), 0x7F, 0x80, 0xFD, 0xFF]))


@row("show-sense-data/ends-in-a-descriptor")
def ends_in_a_descriptor():
    """The row has data, and values of ADDITIONAL SENSE LENGTH, that end within a descriptor."""
    descriptors = pointer(0xC8, 2) + information(2**33 + 1)
    whole = described(5, 0x2400, descriptors)
    return ([show("sense", whole[:length]) for length in range(8, 29)]
            + each("sense", "72052400000000{:02x}" + descriptors, range(22))
            + [show("sense", described(5, 0x2400, rest)) for rest in (
                "00", information(2**33 + 1) + "02", information(2**33 + 1) + "020600",
                "02ff" + information(2**33 + 1), "020b" + information(2**33 + 1)[:20])])

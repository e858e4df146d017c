"""Rows of the answers of PERSISTENT RESERVE IN (SPC-4, 6.15) as text."""

from rows_of import row
from rows_of.show_lines import cuts, each, long_lines, octets, one_bit, show

# Full status of other disks: a Fibre Channel port that holds the reservation, and an iSCSI name.
HOLDER = "123456789abcdef0" + "00000000" + "0305" + "00000000" + "0000"
FC_PORT = "0000000000000000" + "21000024ff315a0c" + "0000000000000000"
OTHER = ("00000000000000b2" + "00000000" + "0000" + "00000000" + "0102" + "00000014"
         + "05000010" + b"iqn.2003-01a".hex() + "00000000")
FULL = "000000070000005c" + HOLDER + "00000018" + FC_PORT + OTHER


def keys(generation, *registered):
    """Makes an answer to READ KEYS: PRGENERATION, the length, and the keys."""
    return (generation.to_bytes(4, "big") + (8 * len(registered)).to_bytes(4, "big")
            + b"".join(key.to_bytes(8, "big") for key in registered))


def held(generation, key, kind):
    """Makes an answer to READ RESERVATION: a reservation of this type, with SCOPE 0."""
    return keys(generation, key, kind << 16)


@row("show-reservations/keys-cut-at-each-length")
def own_keys():
    """The row cuts the disk's answers to READ KEYS while six initiators register, preempt and
    unregister."""
    registered = [0x11, 0x22, 0x33, 0x44, 0x55, 0x66]
    return cuts(
        "keys",
        *(keys(count, *registered[:count]) for count in range(7)),
        keys(8, 0x11, 0x22, 0x44, 0x55, 0x66, 2**64 - 1),
        keys(9, 0x11, 0x01, 0x44, 0x55, 0x66, 2**64 - 1),
        keys(2, 0xA1, 0xA2), keys(3, 0xA2), keys(5, 0xA3))


@row("show-reservations/full-status-cut-at-each-length")
def own_full_status():
    """The row cuts the disk's answer with six registrants.

    Their TransportIDs are SAS ports (SPC-4, 7.6.4).
    """
    registered = [(2**64 - 1, "0000", 7), (1, "0106", 6), (2, "0000", 5), (3, "0000", 4),
                  (4, "0000", 3), (5, "0000", 2)]
    return cuts("full", octets("00000006 00000120", *(
        octets(f"{key:016x} 00000000 {held_as} 00000000 0001 00000018", "06000000",
               f"300000000000010{port}", bytes(12))
        for key, held_as, port in registered)))


@row("show-reservations/reservations-cut-at-each-length")
def own_reservations():
    """The row cuts the disk's answers to READ RESERVATION under each type.

    Types 7h and 8h have no key (SPC-4, 6.15.3).
    """
    types = [(1, 0xB2), (3, 0xB2), (5, 0xB2), (6, 0xB2), (7, 0), (8, 0)]
    return cuts(
        "resv",
        keys(0), keys(2), *(held(2, key, kind) for kind, key in types),
        held(2, 0xA1, 5), held(3, 0xA2, 5), keys(5), held(3, 0xB, 5), held(5, 0xA2, 5))


@row("show-reservations/reservations-of-each-scope-and-type")
def each_scope_and_type():
    """The row has each value of byte 21. SCOPE is its high half and TYPE its low half."""
    return each("resv", "0000000a000000108877665544332211aabbccddee{:02x}f00f", range(256))


@row("show-reservations/of-other-targets-cut-at-each-length-and-unusual-data")
def other_targets():
    """The row cuts each kind of answer of another target.

    Then it has lengths that end within an item.
    """
    return ["# keys", *cuts("keys", keys(10, 1, 0xFEDCBA9876543210)),
            "# a reservation", *cuts("resv", held(2**32 - 1, 0x8877665544332211, 0x17)),
            "# capabilities", *cuts("caps", "00080181a2010000"),
            "# full status", *cuts("full", FULL),
            "# unusual ones",
            show("keys", "000000000000000c000000000000000200000000"),
            show("resv", "0000000400000000"),
            show("resv", "000000040000000700000000000000"),
            show("caps", "0006000015fe"),
            show("caps", "00050001ea01")]


@row("show-reservations/full-status-of-other-disks-cut-at-each-length")
def other_full_status():
    """The row cuts TransportIDs of two other protocols, of 24 and of 20 bytes."""
    return cuts("full", FULL)


@row("show-reservations/full-status-with-each-additional-length")
def full_status_lengths():
    """The row has values of ADDITIONAL LENGTH that end before, within and after each descriptor."""
    return each("full", "00000007{:08x}" + FULL[16:],
                [*range(0x61), 0xFF, 0x100, 2**16, 2**31, 2**32 - 1])


@row("show-reservations/full-status-with-each-descriptor-length")
def descriptor_lengths():
    """The row has values of ADDITIONAL DESCRIPTOR LENGTH.

    The next descriptor begins where this length says, or the text ends.
    """
    return each("full", FULL[:16] + HOLDER + "{:08x}" + FC_PORT + OTHER,
                [*range(0x4C), 0xFF, 2**24, 2**32 - 33, 2**32 - 24, 2**32 - 1])


@row("show-reservations/full-status-of-each-scope-and-type")
def full_scope_and_type():
    """The row sets R_HOLDER beside ALL_TG_PT and reserved bits, with several values of SCOPE and
    TYPE."""
    return each("full", "000000070000005c123456789abcdef000000000{:04x}" + "00" * 9 + "18"
                + "00" * 8 + "21000024ff315a0c" + "00" * 8,
                [256 * flags + kind for flags in (0, 1, 2, 3, 0xFC, 0xFF)
                 for kind in (0x00, 0x05, 0x10, 0x5A, 0xF0, 0xFF)])


@row("show-reservations/capabilities-with-each-length")
def capabilities_lengths():
    """The row has values of LENGTH, whole and cut.

    LENGTH counts its own bytes too (SPC-4, 6.15.4).
    """
    lines = each("caps", "{:04x}0181ea010000", [*range(12), 0xFF, 0x100, 0x101, 0x102, 0x103,
                                                0x8000, 0xFFFF])
    for rest in ("", "01", "0181", "0181ea", "0181ea01", "0181ea0100"):
        lines += each("caps", "{:04x}" + rest, range(9))
    return lines


@row("show-reservations/capabilities-with-each-bit")
def capabilities_bits():
    """The row sets each bit of bytes 2 to 7.

    Three of them have fields, and six are types of the mask.
    """
    return each("caps", "0008{:012x}", [*one_bit(6), 0xFFFFFFFFFFFF, 0xEA000000, 0xFE7E15FEFFFF])


@row("show-reservations/reservations-with-each-additional-length")
def reservation_lengths():
    """The row has values of ADDITIONAL LENGTH.

    There is no reservation if it is 0 (SPC-4, 6.15.3).
    """
    return (each("resv", "0000000a{:08x}8877665544332211aabbccddee17f00f",
                 [*range(0x1E), 0xFF, 0x100, 2**24, 2**32 - 9, 2**32 - 8, 2**32 - 1])
            + each("resv", "0000000a000000{:02x}8877665544332211aabbccdd", range(0x14)))


@row("show-reservations/keys-with-each-additional-length")
def keys_lengths():
    """The row has values of ADDITIONAL LENGTH that end before, within and after each key."""
    return each("keys", "00000100{:08x}0000000000000001ffffffffffffffff8877665544332211",
                [*range(0x24), 0xFF, 0x100, 2**16, 2**31, 2**32 - 9, 2**32 - 8, 2**32 - 1])


@row("show-reservations/keys-of-other-disks-cut-at-each-length")
def other_keys():
    """The row cuts five keys. One of them is 0, and one has bytes of letters."""
    return cuts("keys", keys(2**32 - 1, 1, 2**64 - 1, 0x8877665544332211, 0, 0x6162636465666768))


@row("show-reservations/reservations-of-other-disks-cut-at-each-length")
def other_reservations():
    """The row cuts three reservations.

    One has its reserved bytes set, one ends early, and one is longer than 16 bytes.
    """
    return cuts("resv", "0000000a000000108877665544332211aabbccddee17f00f", "80000000000000000102",
                octets("0000000100000020", bytes(range(8, 40))))


@row("show-reservations/capabilities-of-other-disks-cut-at-each-length")
def other_capabilities():
    """The row cuts capabilities with reserved bits, with ALLOW COMMANDS, and with longer data."""
    return cuts("caps", "00081d81ea010000", "00080181a2000000ff", "0010" + "ff" * 6 + "00" * 8)


@row("show-reservations/keys-as-long-as-a-line")
def as_long_as_a_line():
    """The row has the longest lines. ADDITIONAL LENGTH counts 253 of 256 keys."""
    data = keys(7, *(0x1234567890ABCDEF * place % 2**64 for place in range(256)))
    return long_lines("keys", octets(data[:4], (8 * 253).to_bytes(4, "big"), data[8:]))

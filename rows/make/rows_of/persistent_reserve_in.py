"""Rows of PERSISTENT RESERVE IN (SPC-4, 6.15)."""

from itertools import cycle

from rows_of import row
from rows_of.lines import POWER_ON_TAKEN, raw, request_sense
from rows_of.tour import A, B, F, reserve_in, reserve_out


@row("persistent-reserve-in/each-service-action-and-bit")
def each_service_action_and_bit():
    """Each byte 1 of both commands, each other bit, and CDBs that end early (SPC-4, 6.15 and 6.16)

    A service action that the disk lacks is refused at byte 1, a reserved bit at its byte.
    """
    yield from POWER_ON_TAKEN
    for action in range(256):
        yield raw(0, bytes([0x5E, action]) + bytes(8))
    for action in range(256):
        yield raw(0, bytes([0x5F, action, 0x01, 0, 0, 0, 0, 0, 0x18, 0]))
    for front in (bytes([0x5E, 0x00]), bytes([0x5F, 0x03])):
        for place in range(2, 10):
            for bit in range(8):
                cdb = bytearray(front + bytes(8))
                cdb[place] = 1 << bit
                yield raw((0, 3, 6)[bit % 3], cdb)
    yield from cut_and_faulty("5e", "5e030001000000000001", "5e23ff01000000000000",
                              "5e030400000000000001", "5e020000000000000000ffff")
    yield from cut_and_faulty("5f", "5f030001000000000001", "5f23ff01000000000000",
                              "5f010400000000000001", "5f030000000000000000ffff")


def cut_and_faulty(code, *others):
    """A CDB cut at each length, one with several faults, and one with bytes past its end."""
    for length in range(1, 10):
        yield raw(0, (bytes.fromhex(code) + bytes([0x03]) + bytes(7))[:length])
    for cdb in others:
        yield raw(0, cdb)


def cut(action, lengths):
    """By initiators that take turns; none of them need be registered."""
    for initiator, length in zip(cycle((0, 7, 4)), range(lengths)):
        yield reserve_in(initiator, action, length)


@row("persistent-reserve-in/cut-at-each-length")
def cut_at_each_length():
    """Each answer, cut: ADDITIONAL LENGTH counts the full answer (SPC-4, 6.15)"""
    yield from POWER_ON_TAKEN
    for action in (0, 1, 2):
        yield from cut(action, 10)
    yield reserve_out(3, "REGISTER", 0, A)
    yield from cut(0, 18)
    yield reserve_out(2, "REGISTER", 0, B)
    yield reserve_out(0, "REGISTER", 0, F)
    yield from cut(0, 34)
    for kind in (0x1, 0x3, 0x5, 0x6, 0x7, 0x8):
        yield reserve_out(3, "RESERVE", A, 0, kind)
        yield from cut(1, 26)
        yield reserve_in(5, 1, 0xFFFF)
        yield reserve_out(3, "RELEASE", A, 0, kind)
        if kind >= 0x5:  # it was shared: the other registrants are notified
            yield from (request_sense(0), request_sense(2))
    for initiator, key in ((7, 5), (6, 6), (1, 7)):
        yield reserve_out(initiator, "REGISTER", 0, key)
    yield from cut(0, 58)
    yield reserve_in(4, 0, 0xFFFF)
    yield reserve_in(4, 2, 0xFFFF)


@row("persistent-reserve-in/read-full-status-cut-at-each-length")
def read_full_status():
    """A full status descriptor, cut at each allocation length (SPC-4, 6.15.5)"""
    yield from POWER_ON_TAKEN
    yield reserve_out(1, "REGISTER", 0, 0x0102030405060708)
    for length in range(59):
        yield reserve_in(0, 3, length)

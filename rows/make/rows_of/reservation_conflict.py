"""Rows of the commands that a reservation allows (SPC-4, 5.13; SBC-3, the table of its own)."""

from rows_of import row
from rows_of.lines import POWER_ON_TAKEN, fill, raw, test_unit_ready, unmap_list
from rows_of.tour import SECTIONS, A, B, reserve_in, reserve_out

ALLOWED = ("000000000000", "030100000800", "120000000500", "25000000000000000000",
           "9e100000000000000000000000080000", "5e000000000000000800", "5e010000000000001800",
           "5e020000000000000800", "5f010100000000000000")
READS = ("28000000000100000000", "88000000000000000001000000000000", "1a080a000400",
         "5a080a00000000000800", "9e120000000000000000000000180000")
WRITES_THAT_LACK_DATA = ("2a000000000100000000", "0a0000020100", "41080000000300000100",
                         "93080000000000000003000000010000")
FAULTY = ("28", "2a00", "15", "1a0800", "9e", "9e12", "9e1f0000000000000000000000000000", "5e",
          "5f04", "42010000000000000001", "a3", "28000000000000000001", "2ae00000000000000000",
          "41180000000000000000", "1a002a00ff00", "5f010200000000001800", "5f070000000000001800",
          "5e040000000000000000")


@row("reservation-conflict/without-reservation", None)
@row("reservation-conflict/under-write-exclusive", 0x1)
@row("reservation-conflict/under-exclusive-access", 0x3)
@row("reservation-conflict/under-write-exclusive-registrants-only", 0x5)
@row("reservation-conflict/under-exclusive-access-registrants-only", 0x6)
@row("reservation-conflict/under-write-exclusive-all-registrants", 0x7)
@row("reservation-conflict/under-exclusive-access-all-registrants", 0x8)
def under_each_type(held_type):
    """All commands of who is not registered, of a registrant, and of the holder, under each type.

    RESERVATION CONFLICT comes before the faults of a CDB, and changes nothing.
    """
    yield from POWER_ON_TAKEN
    reserved = f"; 0 reserves: {SECTIONS[held_type]}" if held_type else ""
    yield f"# initiators 1 and 0 are registered{reserved}; block 3 is mapped"
    yield reserve_out(1, "REGISTER", 0, B)
    yield reserve_out(0, "REGISTER", 0, A)
    if held_type:
        yield reserve_out(0, "RESERVE", A, 0, held_type)
    yield fill(0, 3, 1, "0xEE")
    is_sole_holder = held_type in (0x1, 0x3, 0x5, 0x6)
    callers = {
        4: "an initiator that is not registered",
        1: "a registrant",
        0: "the holder" if is_sole_holder else "another registrant",
    }
    for caller, what in callers.items():
        yield f"# initiator {caller}: {what}"
        yield from each_command(caller)
        yield "# what has changed"
        yield raw(0, "9e120000000000000000000000680000")
        yield from (reserve_in(7, 0), reserve_in(7, 1))
    yield from map(test_unit_ready, (0, 1, 2, 4))


def each_command(caller):
    """Commands of each class, then writes of a block of the caller's own, then faulty CDBs."""
    block = 16 + caller
    for cdb in (*ALLOWED, *READS, *WRITES_THAT_LACK_DATA):
        yield raw(caller, cdb)
    yield raw(caller, "42000000000000001800", unmap_list([(3, 1)]))
    yield raw(caller, "151000000400", bytes(4))
    yield raw(caller, "55100000000000000000")
    yield raw(caller, "35000000000000000000")
    yield fill(caller, block, 1, f"0x{0x11 * (caller + 1):02X}")
    yield raw(caller, bytes([0x08, 0, 0, block, 1, 0]))
    yield raw(caller, bytes([0x41, 0x08, 0, 0, 0, block, 0, 0, 1, 0]), bytes(512))
    yield "# the reservation comes before the length, the layout and the values of a CDB"
    for cdb in FAULTY:
        yield raw(caller, cdb)

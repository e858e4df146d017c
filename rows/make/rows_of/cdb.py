"""Rows of faults of CDBs (SPC-4, 4.5.2)."""

from layouts import layout_of
from reservations import UNREG, transport_id
from rows_of import row
from rows_of.lines import (
    fill, get_lba_status, list_of_copy, mode_page, mode_select_6, raw, request_sense, test_unit_ready,
    with_byte, write_10)
from rows_of.persistent_reserve_out import list_of_move, move
from rows_of.tour import A, B, reserve_out

BLOCK = bytes(512)
D_SENSE = mode_select_6(bytes(4) + with_byte(mode_page(0x0A), 2, 0x04))

# A CDB of each command, and data-out. Address 2 is past the end of a disk of one block.
COMMANDS = [
    ("000000000000", None),                          # TEST UNIT READY
    ("030000001200", None),                          # REQUEST SENSE
    ("080000020100", None),                          # READ(6)
    ("0a0000020100", BLOCK),                         # WRITE(6)
    ("120000002400", None),                          # INQUIRY
    ("120180002400", None),
    ("151000000000", None),                          # MODE SELECT(6)
    ("1a0801002400", None),                          # MODE SENSE(6)
    ("25000000000000000000", None),                  # READ CAPACITY(10)
    ("28000000000200000000", None),                  # READ(10)
    ("2a000000000200000000", None),                  # WRITE(10)
    ("35000000000200000000", None),                  # SYNCHRONIZE CACHE(10)
    ("41000000000200000100", BLOCK),                 # WRITE SAME(10)
    ("42000000000000000000", None),                  # UNMAP
    ("55100000000000000000", None),                  # MODE SELECT(10)
    ("5a080100000000002400", None),                  # MODE SENSE(10)
    ("5e000000000000002000", None),                  # PERSISTENT RESERVE IN
    ("5f010100000000001800", None),                  # PERSISTENT RESERVE OUT
    ("88000000000000000002000000000000", None),      # READ(16)
    ("8a000000000000000002000000000000", None),      # WRITE(16)
    ("93000000000000000002000000010000", BLOCK),     # WRITE SAME(16)
    ("9e100000000000000000000000200000", None),      # READ CAPACITY(16)
    ("9e120000000000000002000000180000", None),      # GET LBA STATUS
]


@row("cdb/each-bit-of-each-cdb", blocks=1, pool=1)
def each_bit():
    """The row turns each bit of a CDB of each command, one bit at a time.

    Each bit is reserved, ignored or of a field (docs/PROFILE.md, "Commands"). The disk has one
    block, so INFORMATION shows each bit of an address. D_SENSE is 1, as fixed format has room for
    addresses of 32 bits only.
    """
    yield request_sense(0)
    yield D_SENSE
    for text, data_out in COMMANDS:
        yield raw(0, text, data_out)
        yield from each_turned(text, data_out)


def each_turned(text, data_out):
    """A CDB with each of its bits turned, except those of the operation code."""
    cdb = bytes.fromhex(text)
    for place in range(1, len(cdb)):
        for bit in range(8):
            turned = bytearray(cdb)
            turned[place] ^= 1 << bit
            yield raw(0, bytes(turned), data_out)


# ------------------------------------------------------------------------------------ of an extended disk

# What the one block of the disk has, and what the commands write
BYTES = bytes(range(256)) * 2

# A CDB of each command that ends with GOOD, and data-out. The allocation lengths are short, so each of
# their bits shows.
EXTENDED_COMMANDS = [
    ("1d0400000000", None),                          # SEND DIAGNOSTIC
    ("2e020000000000000100", BYTES),                 # WRITE AND VERIFY(10)
    ("2f020000000000000100", BYTES),                 # VERIFY(10)
    ("34000000000000000100", None),                  # PRE-FETCH(10)
    ("37001800000000000400", None),                  # READ DEFECT DATA(10)
    ("4d000c00000002000400", None),                  # LOG SENSE
    ("a00000000000000000040000", None),              # REPORT LUNS
    ("a30a00000000000000080000", None),              # REPORT TARGET PORT GROUPS
    ("a30c029e0012000000040000", None),              # REPORT SUPPORTED OPERATION CODES
    ("a30d80000000000000040000", None),              # REPORT SUPPORTED TASK MANAGEMENT FUNCTIONS
    ("a80000000000000000010000", None),              # READ(12)
    ("aa0000000000000000010000", BYTES),             # WRITE(12)
    ("ae0200000000000000010000", BYTES),             # WRITE AND VERIFY(12)
    ("af0200000000000000010000", BYTES),             # VERIFY(12)
    ("b71800000000000000080000", None),              # READ DEFECT DATA(12)
]

# It copies the block of the disk onto itself.
COPY_LIST = list_of_copy(0, 0, 1)

EXTENDED_COMMANDS_OF_16_BYTES = [
    ("830000000000000000000000004c0000", COPY_LIST),  # EXTENDED COPY(LID1)
    ("84030000000000000000000000040000", None),      # RECEIVE COPY OPERATING PARAMETERS
    ("89000000000000000000000000010000", 2 * BYTES),  # COMPARE AND WRITE
    ("8b000000000000000000000000010000", BYTES),     # ORWRITE(16)
    ("8e020000000000000000000000010000", BYTES),     # WRITE AND VERIFY(16)
    ("8f020000000000000000000000010000", BYTES),     # VERIFY(16)
    ("90000000000000000000000000010000", None),      # PRE-FETCH(16)
    ("91000000000000000000000000010000", None),      # SYNCHRONIZE CACHE(16)
    ("93000000000000000000000000010000", BYTES),     # WRITE SAME(16)
    ("9c000000000000000000000000010000", BYTES),     # WRITE ATOMIC(16)
]

# CDBs of commands that change more, and data-out. Then come a line that shows what the command has done, and
# one that undoes it.
OF_THE_BLOCK = get_lba_status(0, 24), fill(0, 0, 1, 0xAB)
CHANGING_COMMANDS = [
    ("040000000000", None, *OF_THE_BLOCK),                               # FORMAT UNIT
    ("041000000000", bytes(4), *OF_THE_BLOCK),                           # FORMAT UNIT with a list
    ("48020000000000000000", None, *OF_THE_BLOCK),                       # BLOCK ERASE of SANITIZE
    ("48030000000000000000", None, *OF_THE_BLOCK),                       # CRYPTOGRAPHIC ERASE
    ("481f0000000000000000", None, *OF_THE_BLOCK),                       # EXIT FAILURE MODE
    ("93090000000000000000000000010000", None, *OF_THE_BLOCK),           # WRITE SAME(16) that unmaps
    ("1b0000000100", None, test_unit_ready(0), raw(0, "1b0000000100")),  # START STOP UNIT
    ("3f400000000000000000", None, "faults", "heal"),                    # WRITE LONG(10)
]


@row("cdb/each-bit-of-each-extended-cdb", EXTENDED_COMMANDS, blocks=1, pool=1, profile="extended")
@row("cdb/each-bit-of-each-extended-cdb-of-16-bytes", EXTENDED_COMMANDS_OF_16_BYTES,
     blocks=1, pool=1, profile="extended")
def each_bit_on_an_extended_disk(commands):
    """The rows turn each bit of a CDB of each command that only an extended disk has, and of WRITE SAME(16).

    A CDB ends with GOOD if no bit is turned. Each bit of an address gives one past the end, which INFORMATION
    has. No line changes what another one prints.
    """
    yield request_sense(0)
    yield D_SENSE
    yield write_10(0, BYTES)
    for text, data_out in commands:
        yield name_of(text)
        yield raw(0, text, data_out)
        yield from each_turned(text, data_out)


@row("cdb/each-bit-of-each-extended-cdb-that-changes-more", blocks=1, pool=1, profile="extended")
def each_bit_of_what_changes_more():
    """The row does so with commands that erase or unmap blocks, stop the unit, mark a block as bad, or move a
    reservation.

    The line after each command shows what it has done, and the next one undoes it. So each command finds the
    same disk. If REGISTER AND MOVE has moved the reservation, its new holder 1 moves it back. Otherwise 1 is
    no registrant, and this line ends with RESERVATION CONFLICT.
    """
    yield from map(request_sense, (0, 1))
    yield fill(0, 0, 1, 0xAB)
    for text, data_out, shown, undone in CHANGING_COMMANDS:
        yield name_of(text)
        for line in (raw(0, text, data_out), *each_turned(text, data_out)):
            yield from (line, shown, undone)
    moved, text = list_of_move(A, B, transport_id(1), UNREG), "5f070000000000003000"
    yield name_of(text)
    yield from (reserve_out(0, "REGISTER", 0, A), reserve_out(0, "RESERVE", A, 0, 0x1))
    for line in (raw(0, text, moved), *each_turned(text, moved)):
        yield from (line, move(1, list_of_move(B, A, transport_id(0), UNREG)))


def name_of(text):
    """A comment with the name of a CDB's command"""
    return "# " + layout_of(bytes.fromhex(text), "extended").name

"""The commands that read and write logical blocks, and the commands of provisioning (SBC-3, 5).

The lines of each command are in the order of checks 7 to 15 of docs/PROFILE.md. These are
unsupported values, data-out, the parameter list, a stopped unit, addresses, write protection,
equal bytes, and room in the pool. Check 13 is in `faults`.
"""

from provisioning import BLOCK_LENGTH, ZEROS
from sense import (
    ABORTED_COMMAND,
    DATA_PHASE_ERROR,
    DATA_PROTECT,
    ILLEGAL_REQUEST,
    INVALID_FIELD_IN_COMMAND_INFORMATION_UNIT,
    LOGICAL_BLOCK_ADDRESS_OUT_OF_RANGE,
    LOGICAL_UNIT_NOT_READY_INITIALIZING_COMMAND_REQUIRED,
    LOGICAL_UNIT_SOFTWARE_WRITE_PROTECTED,
    NOT_READY,
    READ_ERROR_LBA_MARKED_BAD_BY_APPLICATION_CLIENT,
    UNRECOVERED_READ_ERROR,
    WRITE_PROTECTED,
    CheckCondition,
    invalid_field_in_cdb,
    invalid_field_in_parameter_list,
    parameter_list_length_error,
)

# FORMAT UNIT (SBC-3, 5.3.2): DEFECT LIST LENGTH of the short header and of the long one begins there.
# Byte 1 has DPRY, DCRT and STPF that FOV lets be 1, and IMMED.
DEFECT_LIST_LENGTH_AT = {0: 2, 1: 4}
FOV, WITH_FOV, IMMED = 0x80, 0x70, 0x02

# These five are in the block limits page, `pages.block_limits`.
MAXIMUM_TRANSFER_LENGTH = {"base": 256, "extended": 2048}
MAXIMUM_COMPARE_AND_WRITE_LENGTH = {"base": 0, "extended": 255}
MAXIMUM_ATOMIC_TRANSFER_LENGTH = {"base": 0, "extended": 2048}
MAXIMUM_WRITE_SAME_LENGTH = {"base": 65536, "extended": 65535}
NDOB_AT = 1  # its byte in the CDB of WRITE SAME(16)
MAXIMUM_UNMAP_BLOCK_DESCRIPTOR_COUNT = 64


# --------------------------------------------------------------------------------- checks 7 to 12


def transfer_length(device, command):
    """In READ(6) and WRITE(6) 0 means 256 (SBC-2); the others are limited by page B0h."""
    count = command["count"]
    if command.name in ("READ(6)", "WRITE(6)"):
        return count or 256
    if count > MAXIMUM_TRANSFER_LENGTH[device.profile]:
        raise command.unsupported("count")
    return count


def need_data_out(device, data_out, length):
    """Returns as much data-out as the command needs. Less is an error, and more is ignored."""
    if len(data_out) >= length:
        return data_out[:length]
    if device.profile == "base":
        raise CheckCondition(ABORTED_COMMAND, DATA_PHASE_ERROR)
    raise CheckCondition(ILLEGAL_REQUEST, INVALID_FIELD_IN_COMMAND_INFORMATION_UNIT)


def taken_blocks(device, data_out, address, count):
    """How many of the named blocks a command goes over, and their bytes. With too little data-out these
    are the blocks that data-out has in full, if the disk takes that. All named blocks have to exist."""
    if device.takes_short_data_out and len(data_out) < BLOCK_LENGTH * count:
        check_range(device, [(address, count)])
        count = len(data_out) // BLOCK_LENGTH
    return count, need_data_out(device, data_out, BLOCK_LENGTH * count)


def check_ready(device):
    """START STOP UNIT has stopped the unit (SBC-3, 5.25)."""
    if device.stopped:
        raise CheckCondition(NOT_READY, LOGICAL_UNIT_NOT_READY_INITIALIZING_COMMAND_REQUIRED)


def check_addresses(device, extents):
    """A command that names blocks needs a unit that is ready, even if it names none."""
    check_ready(device)
    check_range(device, extents)


def check_range(device, extents):
    """INFORMATION is the first address past the last block (SPC-4, 4.5.2.2)."""
    capacity = device.provisioning.capacity
    for address, count in extents:
        if address + count > capacity:
            raise CheckCondition(
                ILLEGAL_REQUEST, LOGICAL_BLOCK_ADDRESS_OUT_OF_RANGE,
                information=max(address, capacity))


def check_write_protection(device, extents):
    """SWP of the control mode page (SPC-4, 7.5; SBC-3, 4.12): it refuses what writes a block. A base
    disk departs from that: it refuses a command that names no block, too, with a code of its own."""
    if device.modes.swp and device.profile == "base":
        raise CheckCondition(DATA_PROTECT, LOGICAL_UNIT_SOFTWARE_WRITE_PROTECTED)
    if device.modes.swp and any(count for _, count in extents):
        raise CheckCondition(DATA_PROTECT, WRITE_PROTECTED)


# ------------------------------------------------------------------------------ commands of blocks


def read(device, _initiator, command, _data_out):
    """READ (SBC-2, READ(6); SBC-3, 5.11 to 5.13)"""
    address, count = command["address"], transfer_length(device, command)
    check_addresses(device, [(address, count)])
    return device.provisioning.read(address, count)


def write(device, _initiator, command, data_out):
    """WRITE (SBC-2, WRITE(6); SBC-3, 5.33 to 5.35)"""
    address, count = command["address"], transfer_length(device, command)
    return write_blocks(device, address, *taken_blocks(device, data_out, address, count))


def write_blocks(device, address, count, data):
    check_addresses(device, [(address, count)])
    check_write_protection(device, [(address, count)])
    device.provisioning.write(
        address, count, lambda offset: data[BLOCK_LENGTH * offset:BLOCK_LENGTH * (offset + 1)])
    return b""


def write_atomic(device, _initiator, command, data_out):
    """WRITE ATOMIC(16), of SBC-4: each WRITE is atomic, and no block is divided at a boundary"""
    if command["boundary"]:
        raise command.unsupported("boundary")
    if command["count"] > MAXIMUM_ATOMIC_TRANSFER_LENGTH[device.profile]:
        raise command.unsupported("count")
    address, count = command["address"], transfer_length(device, command)
    return write_blocks(
        device, address, count, need_data_out(device, data_out, BLOCK_LENGTH * count))


def orwrite(device, _initiator, command, data_out):
    """ORWRITE(16) (SBC-3, 5.5): a bit is 1 afterwards if it was 1 or is 1 in data-out"""
    address, count = command["address"], transfer_length(device, command)
    count, data = taken_blocks(device, data_out, address, count)
    check_addresses(device, [(address, count)])
    check_write_protection(device, [(address, count)])
    device.provisioning.orwrite(address, count, data)
    return b""


def write_and_verify(device, initiator, command, data_out):
    """SBC-3, 5.37 to 5.39: BYTCHK 00b or 01b. What was just written is as it was sent."""
    if command["bytchk"] not in (0, 1):
        raise command.unsupported("bytchk")
    return write(device, initiator, command, data_out)


# BYTCHK of VERIFY: nothing is compared, each block with its own, or each with the same one.
NO_COMPARISON, OWN_BLOCKS, ONE_BLOCK = 0, 1, 3


def verify(device, _initiator, command, data_out):
    """VERIFY (SBC-3, 5.29 to 5.31)"""
    if command["bytchk"] not in (NO_COMPARISON, OWN_BLOCKS, ONE_BLOCK):
        raise command.unsupported("bytchk")
    address, count = command["address"], transfer_length(device, command)
    if command["bytchk"] == OWN_BLOCKS:
        count, data = taken_blocks(device, data_out, address, count)
    else:
        sent = min(count, 1) if command["bytchk"] == ONE_BLOCK else 0
        data = need_data_out(device, data_out, BLOCK_LENGTH * sent)
    check_addresses(device, [(address, count)])
    device.provisioning.compare(address, count, data)
    return b""


def compare_and_write(device, _initiator, command, data_out):
    """COMPARE AND WRITE (SBC-3, 5.2): data-out has the blocks to compare, then those to write"""
    address, count = command["address"], command["count"]
    if len(data_out) != 2 * BLOCK_LENGTH * count:
        raise command.unsupported("count")
    check_addresses(device, [(address, count)])
    check_write_protection(device, [(address, count)])
    device.provisioning.compare_and_write(address, count, data_out)
    return b""


def write_same(device, _initiator, command, data_out):
    """WRITE SAME (SBC-3, 5.43 and 5.44); with UNMAP 1 and a block of zeros 4.7 applies. NDOB 1 is a
    block of zeros. An extended disk takes as much data-out as there has to be, and no more."""
    address, count = command["address"], command["count"]
    if command["anchor"] and not command["unmap"]:
        raise command.unsupported("anchor")
    if not 1 <= count <= MAXIMUM_WRITE_SAME_LENGTH[device.profile]:
        raise command.unsupported("count")
    ndob = command.name == "WRITE SAME(16)" and command["ndob"]
    length = 0 if ndob else BLOCK_LENGTH
    if device.profile == "extended" and len(data_out) != length:
        raise invalid_field_in_cdb(NDOB_AT)
    block = ZEROS if ndob else need_data_out(device, data_out, BLOCK_LENGTH)
    extents = [(address, count)]
    check_addresses(device, extents)
    check_write_protection(device, extents)
    if not command["unmap"] or block != ZEROS:
        device.provisioning.write(address, count, lambda _offset: block)
    elif command["anchor"]:
        device.provisioning.anchor(extents)
    else:
        device.provisioning.unmap(extents)
    return b""


def format_unit(device, _initiator, command, data_out):
    """SBC-3, 5.3: all blocks are deallocated. With FMTDATA there is a header that asks for no more."""
    if command["fmtdata"]:
        check_format_header(need_data_out(
            device, data_out, DEFECT_LIST_LENGTH_AT[command["longlist"]] * 2), command["longlist"])
    return erase(device)


def check_format_header(header, is_long):
    allowed = bytearray(len(header))  # the bits of each byte that may be 1
    allowed[1] = FOV | WITH_FOV | IMMED if header[1] & FOV else IMMED
    for place, byte in enumerate(header):
        if byte & ~allowed[place]:
            raise invalid_field_in_parameter_list(min(place, DEFECT_LIST_LENGTH_AT[is_long]))


def sanitize(device, _initiator, command, _data_out):
    """SBC-3, 5.24: BLOCK ERASE and CRYPTOGRAPHIC ERASE do as FORMAT UNIT; nothing has ever failed"""
    if command["parameter_list_length"]:
        raise command.unsupported("parameter_list_length")
    return b"" if command.name == "SANITIZE, EXIT FAILURE MODE" else erase(device)


def erase(device):
    all_blocks = [(0, device.provisioning.capacity)]
    check_ready(device)
    check_write_protection(device, all_blocks)
    device.provisioning.unmap(all_blocks)
    return b""


def check_cached_range(device, _initiator, command, _data_out):
    """SYNCHRONIZE CACHE (SBC-3, 5.26 and 5.27) and PRE-FETCH (5.8 and 5.9): nothing is cached.

    A count of 0 reaches to the last block, so the first one has to exist. A base disk departs from
    that: there 0 blocks are no block.
    """
    count = command["count"]
    if count == 0 and device.profile == "extended":
        count = 1
    check_addresses(device, [(command["address"], count)])
    return b""


def start_stop_unit(device, _initiator, command, _data_out):
    """START STOP UNIT (SBC-3, 5.25): there are no power conditions, and no medium to eject"""
    for field in ("modifier", "power_condition", "loej"):
        if command[field]:
            raise command.unsupported(field)
    device.stopped = not command["start"]
    return b""


def write_long(device, _initiator, command, _data_out):
    """WRITE LONG(10) (SBC-3, 5.41): with WR_UNCOR 1 it marks a block as bad, and writes no data, whatever
    BYTE TRANSFER LENGTH is"""
    if not command["wr_uncor"]:
        raise command.unsupported("wr_uncor")
    marked = [(command["address"], 1)]
    check_addresses(device, marked)
    check_write_protection(device, marked)
    device.provisioning.mark(
        command["address"], READ_ERROR_LBA_MARKED_BAD_BY_APPLICATION_CLIENT
        if command["cor_dis"] else UNRECOVERED_READ_ERROR)
    return b""


def read_capacity_10(device, _initiator, _command, _data_out):
    """SBC-3, 5.15.2"""
    last = min(device.provisioning.capacity - 1, 2**32 - 1)
    return last.to_bytes(4, "big") + BLOCK_LENGTH.to_bytes(4, "big")


def read_capacity_16(device, _initiator, command, _data_out):
    """SBC-3, 5.16.2: LBPME and LBPRZ are 1. The first physical block begins at address 0."""
    data = bytearray(32)
    data[0:8] = (device.provisioning.capacity - 1).to_bytes(8, "big")
    data[8:12] = BLOCK_LENGTH.to_bytes(4, "big")
    data[13] = device.physical_exponent
    data[14] = 0xC0
    return bytes(data[:command["allocation_length"]])


# ------------------------------------------------------------------------ commands of provisioning


def unmap(device, _initiator, command, data_out):
    """UNMAP (SBC-3, 5.28): all extents are checked before the first is unmapped or anchored"""
    extents = unmap_extents(need_data_out(device, data_out, command["list_length"]))
    if device.profile == "extended":  # SBC-3, 5.28.2: a descriptor of no block is no error
        extents = [(address, count) for address, count in extents if count]
    check_addresses(device, extents)
    check_write_protection(device, extents)
    change = device.provisioning.anchor if command["anchor"] else device.provisioning.unmap
    change(extents)
    return b""


def unmap_extents(parameters):
    """The block descriptors that are whole (SBC-3, 5.28.2)"""
    if not parameters:
        return []
    if len(parameters) < 8:
        raise parameter_list_length_error()
    descriptors = parameters[8:8 + int.from_bytes(parameters[2:4], "big")]
    places = range(0, len(descriptors) // 16 * 16, 16)
    if len(places) > MAXIMUM_UNMAP_BLOCK_DESCRIPTOR_COUNT:
        raise invalid_field_in_parameter_list(2)
    return [
        (int.from_bytes(descriptors[place:place + 8], "big"),
         int.from_bytes(descriptors[place + 8:place + 12], "big"))
        for place in places
    ]


def get_lba_status(device, _initiator, command, _data_out):
    """GET LBA STATUS (SBC-3, 5.4): it has to start at a block of the disk"""
    start = command["address"]
    check_addresses(device, [(start, 1)])
    descriptors = b"".join(
        address.to_bytes(8, "big") + count.to_bytes(4, "big") + bytes([status, 0, 0, 0])
        for address, count, status in device.provisioning.status_extents(start))
    data = (4 + len(descriptors)).to_bytes(4, "big") + bytes(4) + descriptors
    return data[:command["allocation_length"]]

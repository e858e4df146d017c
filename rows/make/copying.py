"""Copies within the logical unit: EXTENDED COPY(LID1) and RECEIVE COPY OPERATING PARAMETERS (SPC-4, 6.5 and
6.23).

A CSCD descriptor names a unit (SPC-4 calls a copy source or copy destination CSCD), and a segment descriptor
says which blocks are copied. The lines are in the order of the checks of docs/PROFILE.md, "EXTENDED COPY".
"""

from blocks import BLOCK_LENGTH, MAXIMUM_TRANSFER_LENGTH, check_ready, check_write_protection, need_data_out
from pages import extended_name
from sense import (
    COPY_ABORTED,
    COPY_TARGET_DEVICE_NOT_REACHABLE,
    INCORRECT_COPY_TARGET_DEVICE_TYPE,
    INLINE_DATA_LENGTH_EXCEEDED,
    NO_ADDITIONAL_SENSE_INFORMATION,
    TOO_MANY_SEGMENT_DESCRIPTORS,
    TOO_MANY_TARGET_DESCRIPTORS,
    UNSUPPORTED_SEGMENT_DESCRIPTOR_TYPE_CODE,
    UNSUPPORTED_TARGET_DESCRIPTOR_TYPE_CODE,
    CheckCondition,
    fault_of_list,
    invalid_field_in_parameter_list,
    parameter_list_length_error,
)

HEADER_LENGTH, CSCD_LENGTH, SEGMENT_LENGTH = 16, 32, 28
MOST_CSCDS, MOST_SEGMENTS, MOST_DESCRIPTOR_BYTES = 2, 1, 1024
MOST_BLOCKS = MAXIMUM_TRANSFER_LENGTH["extended"]  # of a segment
IDENTIFICATION_CSCD, BLOCK_TO_BLOCK = 0xE4, 0x02  # type codes (SPC-4, 6.5)
RESERVED_USAGE, NO_LIST_IDENTIFIER = 0b01, 0b11  # LIST ID USAGE
# Where fields of the list begin. Those of a segment count from its first byte.
LIST_IDENTIFIER, LIST_ID_USAGE, CSCD_LIST_LENGTH, SEGMENT_LIST_LENGTH, INLINE_LENGTH = 0, 1, 2, 8, 12
DESCRIPTOR_LENGTH, SOURCE_ID, DESTINATION_ID, BLOCKS = 2, 4, 6, 10
SOURCE_ADDRESS, DESTINATION_ADDRESS = 12, 20
NUL, DEVICE_TYPE = 0x20, 0x1F  # in byte 1 of a CSCD descriptor


def number(data, place, length):
    return int.from_bytes(data[place:place + length], "big")


def extended_copy(device, _initiator, command, data_out):
    """SPC-4, 6.5: it copies the blocks of one segment"""
    parameters = need_data_out(device, data_out, command["list_length"])
    if not parameters:
        return b""
    cscds, segment = descriptors_of(parameters)
    if not segment:
        return b""
    check_segment(segment, HEADER_LENGTH + CSCD_LENGTH * len(cscds))
    for place in (SOURCE_ID, DESTINATION_ID):
        check_cscd(device, cscds, number(segment, place, 2))
    source, destination = (number(segment, place, 8) for place in (SOURCE_ADDRESS, DESTINATION_ADDRESS))
    count = number(segment, BLOCKS, 2)
    if max(source, destination) + count > device.provisioning.capacity:
        raise CheckCondition(COPY_ABORTED, NO_ADDITIONAL_SENSE_INFORMATION)
    check_ready(device)
    check_write_protection(device, [(destination, count)])
    device.provisioning.copy(source, destination, count)
    return b""


def descriptors_of(parameters):
    """The CSCD descriptors, and the bytes of the list of segment descriptors (SPC-4, 6.5)"""
    if len(parameters) < HEADER_LENGTH:
        raise parameter_list_length_error()
    of_cscds = number(parameters, CSCD_LIST_LENGTH, 2)
    of_segments = number(parameters, SEGMENT_LIST_LENGTH, 4)
    of_inline = number(parameters, INLINE_LENGTH, 4)
    cscds_end = HEADER_LENGTH + of_cscds
    if of_cscds + of_segments > MOST_DESCRIPTOR_BYTES:
        raise parameter_list_length_error()
    if len(parameters) < cscds_end + of_segments + of_inline:
        raise parameter_list_length_error()
    usage = parameters[LIST_ID_USAGE] >> 3 & 0b11
    if usage == RESERVED_USAGE:
        raise invalid_field_in_parameter_list(LIST_ID_USAGE)
    if usage == NO_LIST_IDENTIFIER and parameters[LIST_IDENTIFIER]:
        raise invalid_field_in_parameter_list(LIST_IDENTIFIER)
    if of_inline:
        raise fault_of_list(INLINE_DATA_LENGTH_EXCEEDED, INLINE_LENGTH)
    if of_cscds > CSCD_LENGTH * MOST_CSCDS:
        raise fault_of_list(TOO_MANY_TARGET_DESCRIPTORS, CSCD_LIST_LENGTH)
    if of_cscds % CSCD_LENGTH:
        raise fault_of_list(UNSUPPORTED_TARGET_DESCRIPTOR_TYPE_CODE, CSCD_LIST_LENGTH)
    cscds = []
    for place in range(HEADER_LENGTH, cscds_end, CSCD_LENGTH):
        if parameters[place] != IDENTIFICATION_CSCD:
            raise fault_of_list(UNSUPPORTED_TARGET_DESCRIPTOR_TYPE_CODE, place)
        cscds.append(parameters[place:place + CSCD_LENGTH])
    return cscds, parameters[cscds_end:cscds_end + of_segments]


def check_segment(segment, at):
    """Whether the list has one segment descriptor that the disk supports. It begins at byte `at`."""
    if segment[0] != BLOCK_TO_BLOCK:
        raise fault_of_list(UNSUPPORTED_SEGMENT_DESCRIPTOR_TYPE_CODE, at)
    if len(segment) > SEGMENT_LENGTH * MOST_SEGMENTS:
        raise fault_of_list(TOO_MANY_SEGMENT_DESCRIPTORS, SEGMENT_LIST_LENGTH)
    if len(segment) < SEGMENT_LENGTH:
        raise invalid_field_in_parameter_list(SEGMENT_LIST_LENGTH)
    if number(segment, DESCRIPTOR_LENGTH, 2) != SEGMENT_LENGTH - 4:
        raise invalid_field_in_parameter_list(at + DESCRIPTOR_LENGTH)
    if number(segment, BLOCKS, 2) > MOST_BLOCKS:
        raise invalid_field_in_parameter_list(at + BLOCKS)


def check_cscd(device, cscds, its_id):
    """Whether a CSCD descriptor names the disk itself: by its NAA designator, and as a block device"""
    cscd = cscds[its_id] if its_id < len(cscds) else None
    if not cscd or cscd[1] & NUL or cscd[4:24] != extended_name(device):
        raise CheckCondition(COPY_ABORTED, COPY_TARGET_DEVICE_NOT_REACHABLE)
    if cscd[1] & DEVICE_TYPE:
        raise CheckCondition(COPY_ABORTED, INCORRECT_COPY_TARGET_DEVICE_TYPE)


def operating_parameters(_device, _initiator, command, _data_out):
    """SPC-4, 6.23: no inline data, no data is held, and no stream device"""
    data = bytearray(46)
    fields = {
        (0, 4): len(data) - 4,  # AVAILABLE DATA
        (4, 1): 0x01,  # SNLID: a list may have no LIST IDENTIFIER
        (8, 2): MOST_CSCDS,
        (10, 2): MOST_SEGMENTS,
        (12, 4): MOST_DESCRIPTOR_BYTES,
        (16, 4): MOST_BLOCKS * BLOCK_LENGTH,
        (34, 2): 1,  # TOTAL CONCURRENT COPIES
        (36, 1): 1,  # MAXIMUM CONCURRENT COPIES
        (37, 1): 9,  # granularities of segments, inline data and held data: 2 to the 9 bytes
        (38, 1): 9,
        (39, 1): 9,
        (43, 1): 2,  # IMPLEMENTED DESCRIPTOR LIST LENGTH
        (44, 1): BLOCK_TO_BLOCK,
        (45, 1): IDENTIFICATION_CSCD,
    }
    for (place, length), value in fields.items():
        data[place:place + length] = value.to_bytes(length, "big")
    return bytes(data[:command["allocation_length"]])


# ---------------------------------------------------------- parameter lists, for those who make them


def cscd_descriptor(name, byte_1=0x00):
    """The identification CSCD descriptor of a designator of 20 bytes. Its blocks have 512 bytes."""
    return bytes([IDENTIFICATION_CSCD, byte_1, 0, 0]) + name + bytes(5) + BLOCK_LENGTH.to_bytes(3, "big")


def segment_descriptor(source, destination, count, source_id=0, destination_id=0):
    """A segment descriptor from block device to block device"""
    ids = source_id.to_bytes(2, "big") + destination_id.to_bytes(2, "big")
    return (bytes([BLOCK_TO_BLOCK, 0]) + (SEGMENT_LENGTH - 4).to_bytes(2, "big") + ids + bytes(2)
            + count.to_bytes(2, "big") + source.to_bytes(8, "big") + destination.to_bytes(8, "big"))


def copy_list(cscds, segments, usage=NO_LIST_IDENTIFIER, identifier=0, inline=b""):
    """A list whose lengths are those of its parts"""
    cscds, segments = b"".join(cscds), b"".join(segments)
    return (bytes([identifier, usage << 3]) + len(cscds).to_bytes(2, "big") + bytes(4)
            + len(segments).to_bytes(4, "big") + len(inline).to_bytes(4, "big")
            + cscds + segments + inline)

"""Sense data (SPC-4, 4.5): what a refused command returns, in both formats, and its line.

Sense data is made by `Sense.data`, and read again by `read`, as an initiator reads it. The line
that a script prints is made from what was read, so that it shows what the bytes contain.
"""

from dataclasses import dataclass

# Sense keys (SPC-4, the table of sense keys), with their names.
NO_SENSE, ILLEGAL_REQUEST, UNIT_ATTENTION, DATA_PROTECT, ABORTED_COMMAND = 0x0, 0x5, 0x6, 0x7, 0xB
RECOVERED_ERROR, MEDIUM_ERROR, HARDWARE_ERROR = 0x1, 0x3, 0x4  # only of faults
NOT_READY, COPY_ABORTED, MISCOMPARE = 0x2, 0xA, 0xE  # of faults, and of an extended disk
KEY_NAMES = {  # SCRIPT prints the others by their numbers
    NO_SENSE: "NO SENSE",
    ILLEGAL_REQUEST: "ILLEGAL REQUEST",
    UNIT_ATTENTION: "UNIT ATTENTION",
    DATA_PROTECT: "DATA PROTECT",
    ABORTED_COMMAND: "ABORTED COMMAND",
}

# Additional sense codes and their qualifiers (SPC-4, the table of both).
NO_ADDITIONAL_SENSE_INFORMATION = 0x0000
LOGICAL_UNIT_NOT_READY_INITIALIZING_COMMAND_REQUIRED = 0x0402
COPY_TARGET_DEVICE_NOT_REACHABLE = 0x0D02
INCORRECT_COPY_TARGET_DEVICE_TYPE = 0x0D03
INVALID_FIELD_IN_COMMAND_INFORMATION_UNIT = 0x0E03
UNRECOVERED_READ_ERROR = 0x1100
READ_ERROR_LBA_MARKED_BAD_BY_APPLICATION_CLIENT = 0x1114
PARAMETER_LIST_LENGTH_ERROR = 0x1A00
MISCOMPARE_DURING_VERIFY_OPERATION = 0x1D00
INVALID_COMMAND_OPERATION_CODE = 0x2000
LOGICAL_BLOCK_ADDRESS_OUT_OF_RANGE = 0x2100
INVALID_FIELD_IN_CDB = 0x2400
INVALID_FIELD_IN_PARAMETER_LIST = 0x2600
INVALID_RELEASE_OF_PERSISTENT_RESERVATION = 0x2604
TOO_MANY_TARGET_DESCRIPTORS = 0x2606
UNSUPPORTED_TARGET_DESCRIPTOR_TYPE_CODE = 0x2607
TOO_MANY_SEGMENT_DESCRIPTORS = 0x2608
UNSUPPORTED_SEGMENT_DESCRIPTOR_TYPE_CODE = 0x2609
INLINE_DATA_LENGTH_EXCEEDED = 0x260B
WRITE_PROTECTED = 0x2700
LOGICAL_UNIT_SOFTWARE_WRITE_PROTECTED = 0x2702
SPACE_ALLOCATION_FAILED_WRITE_PROTECT = 0x2707
MEDIUM_MAY_HAVE_CHANGED = 0x2800
POWER_ON_RESET_OR_BUS_DEVICE_RESET_OCCURRED = 0x2900
SCSI_BUS_RESET_OCCURRED = 0x2902
BUS_DEVICE_RESET_FUNCTION_OCCURRED = 0x2903
DEVICE_INTERNAL_RESET = 0x2904
I_T_NEXUS_LOSS_OCCURRED = 0x2907
MODE_PARAMETERS_CHANGED = 0x2A01
RESERVATIONS_PREEMPTED = 0x2A03
RESERVATIONS_RELEASED = 0x2A04
REGISTRATIONS_PREEMPTED = 0x2A05
ASYMMETRIC_ACCESS_STATE_CHANGED = 0x2A06
CAPACITY_DATA_HAS_CHANGED = 0x2A09
THIN_PROVISIONING_SOFT_THRESHOLD_REACHED = 0x3807
MICROCODE_HAS_BEEN_CHANGED = 0x3F01
INQUIRY_DATA_HAS_CHANGED = 0x3F03
REPORTED_LUNS_DATA_HAS_CHANGED = 0x3F0E
DATA_PHASE_ERROR = 0x4B00
INSUFFICIENT_RESOURCES = 0x5503
INSUFFICIENT_REGISTRATION_RESOURCES = 0x5504


@dataclass(frozen=True)
class Sense:
    """A sense key, a code with its qualifier, and what is known of the place of the fault."""

    key: int
    code: int
    information: int | None = None
    pointer: tuple[str, int] | None = None  # ("command" or "list", number of the byte)

    def data(self, descriptor_format):
        return self._descriptor_format() if descriptor_format else self._fixed_format()

    def _pointer_bytes(self):
        """SKSV and C/D, then FIELD POINTER; BPV is 0 (SPC-4, 4.5.2.4.2)."""
        where, byte = self.pointer
        return bytes([0xC0 if where == "command" else 0x80]) + byte.to_bytes(2, "big")

    def _fixed_format(self):
        """SPC-4, 4.5.3. INFORMATION has four bytes: VALID is 0 if the address needs more."""
        data = bytearray(18)
        data[0], data[2], data[7] = 0x70, self.key, 0x0A
        data[12:14] = self.code.to_bytes(2, "big")
        if self.information is not None and self.information < 2**32:
            data[0] = 0xF0
            data[3:7] = self.information.to_bytes(4, "big")
        if self.pointer:
            data[15:18] = self._pointer_bytes()
        return bytes(data)

    def _descriptor_format(self):
        """SPC-4, 4.5.2, with the descriptors of 4.5.2.2 (00h) and 4.5.2.4 (02h)."""
        descriptors = b""
        if self.information is not None:
            descriptors += bytes([0x00, 0x0A, 0x80, 0x00]) + self.information.to_bytes(8, "big")
        if self.pointer:
            descriptors += bytes([0x02, 0x06, 0, 0]) + self._pointer_bytes() + b"\0"
        code = self.code.to_bytes(2, "big")
        return bytes([0x72, self.key]) + code + bytes([0, 0, 0, len(descriptors)]) + descriptors


class CheckCondition(Exception):
    """The command ends with CHECK CONDITION, and this sense data."""

    def __init__(self, key, code, **place):
        self.sense = Sense(key, code, **place)


def invalid_field_in_cdb(byte):
    return CheckCondition(ILLEGAL_REQUEST, INVALID_FIELD_IN_CDB, pointer=("command", byte))


def invalid_field_in_parameter_list(byte):
    return fault_of_list(INVALID_FIELD_IN_PARAMETER_LIST, byte)


def fault_of_list(code, byte):
    return CheckCondition(ILLEGAL_REQUEST, code, pointer=("list", byte))


def parameter_list_length_error():
    return CheckCondition(ILLEGAL_REQUEST, PARAMETER_LIST_LENGTH_ERROR)


# ---------------------------------------------------------------- reading, and the line of a script


def read(data):
    """What the bytes contain, or None (docs/PROFILE.md, "Sense data")."""
    if data[:1] in (b"\x70", b"\xf0") and len(data) >= 14:
        information = int.from_bytes(data[3:7], "big") if data[0] == 0xF0 else None
        pointer = data[15:18] if len(data) >= 18 else b""
        key, code = data[2] & 0x0F, data[12:14]
    elif data[:1] == b"\x72" and len(data) >= 8:
        found = _first_descriptors(data[8:8 + data[7]])
        information = int.from_bytes(found[0x00][4:12], "big") if 0x00 in found else None
        pointer = found[0x02][4:7] if 0x02 in found else b""
        key, code = data[1] & 0x0F, data[2:4]
    else:
        return None
    return Sense(key, int.from_bytes(code, "big"), information, _read_pointer(key, pointer))


def _first_descriptors(descriptors):
    """The first descriptor of type 00h with VALID, and of type 02h with SKSV, each if whole."""
    found = {}
    while len(descriptors) >= 2 and len(descriptors) >= 2 + descriptors[1]:
        kind, length = descriptors[0], descriptors[1]
        flag = {(0x00, 0x0A): 2, (0x02, 0x06): 4}.get((kind, length))
        if flag and descriptors[flag] & 0x80:
            found.setdefault(kind, descriptors)
        descriptors = descriptors[2 + length:]
    return found


def _read_pointer(key, pointer):
    if key != ILLEGAL_REQUEST or not pointer or not pointer[0] & 0x80:
        return None
    return "command" if pointer[0] & 0x40 else "list", int.from_bytes(pointer[1:3], "big")


def code_text(code):
    return f"{code >> 8:02X}h/{code & 0xFF:02X}h"


def line(data):
    """The line that a script prints of sense data (docs/SCRIPT.md, "Replies")."""
    sense = read(data)
    return "  sense: " + ("unreadable" if sense is None else fields_text(sense))


# Response codes of deferred errors, each with the code of a current error whose layout it has (SPC-4,
# 4.5.1). In fixed format, bit 7 is VALID.
DEFERRED = {0x71: 0x70, 0xF1: 0xF0, 0x73: 0x72}
LONGEST = 252  # bytes of sense data


def line_of_any_error(data):
    """The line that an extended disk's script prints of sense data, of a deferred error too."""
    if data and data[0] in DEFERRED:
        sense = read(bytes([DEFERRED[data[0]]]) + data[1:LONGEST])
        if sense:
            return "  sense: deferred, " + fields_text(sense)
    return line(data)


def fields_text(sense):
    """The key, the code, and INFORMATION and the field pointer, if there are any."""
    name = KEY_NAMES.get(sense.key, f"KEY {sense.key:02X}h")
    text = f"{name}, {code_text(sense.code)}"
    if sense.information is not None:
        text += f", information 0x{sense.information:016x}"
    if sense.pointer:
        text += f", {sense.pointer[0]} byte {sense.pointer[1]}"
    return text

"""Lines of scripts, by the commands that they send."""

from copying import copy_list, cscd_descriptor, segment_descriptor
from device import INITIATORS, Device
from modes import DEFAULT, PAGES_OF, PROVISIONING, page_header
from pages import extended_name

MODE_PAGES = tuple(code for code, _ in PAGES_OF["base"])


def raw(initiator, cdb, data_out=None):
    """A line that sends a CDB; both are bytes, or hexadecimal text."""
    words = [word if isinstance(word, str) else word.hex() or "-" for word in (cdb, data_out)
             if word is not None]
    return " ".join(["raw", str(initiator), *words])


def fill(initiator, address, count, byte):
    """A line that writes equal bytes."""
    return f"fill {initiator} {address} {count} {byte}"


def request_sense(initiator):
    return raw(initiator, "030000000000")


def test_unit_ready(initiator):
    return raw(initiator, "000000000000")


# Most scripts begin with this. Afterwards no unit attention is pending for an initiator that a disk of
# each profile has. Either the condition of power on is returned as data, or it is reported.
POWER_ON_TAKEN = [request_sense(initiator) for initiator in INITIATORS["base"]]
POWER_ON_REPORTED = [test_unit_ready(initiator) for initiator in INITIATORS["base"]]


def mode_sense_6(page, length=0xFF, pc=0, dbd=0, subpage=0):
    return raw(0, bytes([0x1A, dbd << 3, pc << 6 | page, subpage, length, 0]))


def mode_sense_10(page, length=0xFF, pc=0, dbd=0, subpage=0, llbaa=0):
    flags = llbaa << 4 | dbd << 3
    return raw(0, bytes([0x5A, flags, pc << 6 | page, subpage, 0, 0, 0]) + length.to_bytes(2, "big")
               + b"\0")


def mode_select_6(parameters, sp=0, initiator=0):
    return raw(initiator, bytes([0x15, 0x10 | sp, 0, 0, len(parameters), 0]), parameters or None)


def mode_select_10(parameters, sp=0, initiator=0):
    length = len(parameters).to_bytes(2, "big")
    return raw(initiator, bytes([0x55, 0x10 | sp, 0, 0, 0, 0, 0]) + length + b"\0",
               parameters or None)


def mode_page(code, subpage=0, profile="base"):
    """The default values of a mode page, as a list of MODE SELECT has them. Only an extended disk has the
    page of logical block provisioning."""
    profile = "extended" if (code, subpage) == PROVISIONING else profile
    return page_header((code, subpage)) + DEFAULT[profile][code, subpage]


def with_byte(data, place, value):
    return data[:place] + bytes([value]) + data[place + 1:]


# ---------------------------------------------------------------------------- blocks, and inquiries


def inquiry(page, length, evpd=1):
    return raw(0, bytes([0x12, evpd, page]) + length.to_bytes(2, "big") + b"\0")


def read_10(address, count, initiator=0):
    return raw(initiator, transfer_10(0x28, address, count))


def write_10(address, data, initiator=0):
    return raw(initiator, transfer_10(0x2A, address, len(data) // 512), data)


def transfer_10(code, address, count, flags=0):
    return (bytes([code, flags]) + address.to_bytes(4, "big") + b"\0"
            + count.to_bytes(2, "big") + b"\0")


def read_16(address, count, initiator=0):
    return raw(initiator, transfer_16(0x88, address, count))


def transfer_16(code, address, count, flags=0):
    return bytes([code, flags]) + address.to_bytes(8, "big") + count.to_bytes(4, "big") + bytes(2)


def get_lba_status(start, length):
    return raw(0, transfer_16(0x9E, start, length, 0x12))


def unmap_list(extents, data_length=None, descriptors_length=None):
    """The parameter list of UNMAP. Its two lengths count its bytes, unless they are given."""
    descriptors = b"".join(
        address.to_bytes(8, "big") + count.to_bytes(4, "big") + bytes(4)
        for address, count in extents)
    if descriptors_length is None:
        descriptors_length = len(descriptors)
    if data_length is None:
        data_length = len(descriptors) + 6
    return (data_length.to_bytes(2, "big") + descriptors_length.to_bytes(2, "big") + bytes(4)
            + descriptors)


def unmap(data_out, length=None, anchor=0):
    """UNMAP with these bytes; PARAMETER LIST LENGTH is their number, unless given."""
    length = len(data_out) if length is None else length
    cdb = bytes([0x42, anchor, 0, 0, 0, 0, 0]) + length.to_bytes(2, "big") + b"\0"
    return raw(0, cdb, data_out)


def list_of_copy(source, destination, count):
    """The parameter list of EXTENDED COPY with one CSCD descriptor, of an extended disk (SPC-4, 6.5)"""
    cscd = cscd_descriptor(extended_name(Device(1, 1, "extended")))
    return copy_list([cscd], [segment_descriptor(source, destination, count)])

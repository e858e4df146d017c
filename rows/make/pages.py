"""INQUIRY: standard INQUIRY data and pages of vital product data (SPC-4, 6.6 and 7.8; SBC-3)."""

import blocks
from provisioning import threshold_exponent

VENDOR = b"SGMODEL "  # T10 VENDOR IDENTIFICATION, 8 bytes
PRODUCT = b"THIN DISK       "  # 16 bytes
REVISION = b"0100"
SAM_5, SPC_4, SBC_3 = 0x00A0, 0x0460, 0x04C0  # version descriptors, of no version of a draft
RELATIVE_TARGET_PORT, TARGET_PORT_GROUP = 1, 1  # of an extended disk: it has one port, and one group
# IEEE COMPANY_ID of an extended disk's name: bit 1 of its first byte is 1, as it is administered locally
COMPANY_ID = 0x020000


def inquiry(device, _initiator, command, _data_out):
    """SPC-4, 6.6"""
    code = command["page_code"]
    pages = VITAL_PRODUCT_DATA[device.profile]
    if not command["evpd"]:
        if code != 0x00:
            raise command.unsupported("page_code")
        data = STANDARD_INQUIRY_DATA[device.profile]()
    elif code == 0x00:  # SPC-4, 7.8: the codes of the supported pages in ascending order
        data = page(code, bytes(sorted([code, *pages])))
    elif code in pages:
        data = page(code, pages[code](device))
    else:
        raise command.unsupported("page_code")
    return data[:command["allocation_length"]]


def page(code, parameters):
    return bytes([0x00, code]) + len(parameters).to_bytes(2, "big") + parameters


def standard_inquiry_data(byte_5=0x00, cmdque=0x00, after_revision=b""):
    """SPC-4, 6.6.2: VERSION 06h is SPC-4, RESPONSE DATA FORMAT 2"""
    after_length = bytes([byte_5, 0, cmdque]) + VENDOR + PRODUCT + REVISION + after_revision
    return bytes([0x00, 0x00, 0x06, 0x02, len(after_length)]) + after_length


def extended_standard_inquiry_data():
    """SPC-4, 6.6.2: TPGS is 01b and 3PC 1 in byte 5, CMDQUE 1 in byte 7, and VERSION DESCRIPTOR 1 begins
    at byte 58"""
    descriptors = b"".join(it.to_bytes(2, "big") for it in (SAM_5, SPC_4, SBC_3))
    return standard_inquiry_data(0x10 | 0x08, 0x02, bytes(58 - 36) + descriptors.ljust(16, bytes(1)))


def unit_serial_number(device):
    """The lowest 32 bits of the seed"""
    return f"{device.seed % 2**32:08x}".encode("ascii")


# A designator (SPC-4, 7.8.6): CODE SET, ASSOCIATION in bits 5 and 4, DESIGNATOR TYPE
BINARY, ASCII = 1, 2
LOGICAL_UNIT, TARGET_PORT = 0x00, 0x10
T10_VENDOR_ID, NAA, RELATIVE_PORT, PORT_GROUP = 1, 3, 4, 5


def designator(code_set, association, its_type, value):
    return bytes([code_set, association | its_type, 0, len(value)]) + value


def name_by_vendor(device):
    """SPC-4, 7.8.6.4"""
    name = VENDOR + PRODUCT + unit_serial_number(device)
    return designator(ASCII, LOGICAL_UNIT, T10_VENDOR_ID, name)


def device_identification(device):
    """SPC-4, 7.8.6: a designator by the vendor, and a locally assigned NAA, 3h (7.8.6.6)"""
    naa = (0x3 << 60 | device.seed).to_bytes(8, "big")
    return name_by_vendor(device) + designator(BINARY, LOGICAL_UNIT, NAA, naa)


def extended_device_identification(device):
    """SPC-4, 7.8.6: a designator by the vendor; the NAA one; the target port (7.8.6.7); its group (7.8.6.8)
    """
    port, group = (bytes(2) + it.to_bytes(2, "big") for it in (RELATIVE_TARGET_PORT, TARGET_PORT_GROUP))
    return (name_by_vendor(device) + extended_name(device)
            + designator(BINARY, TARGET_PORT, RELATIVE_PORT, port)
            + designator(BINARY, TARGET_PORT, PORT_GROUP, group))


def extended_name(device):
    """An IEEE Registered Extended NAA, 6h (SPC-4, 7.8.6.6): 24 bits of COMPANY_ID, 36 bits of 0 and 64 bits
    of the seed. A CSCD descriptor names the unit by it, too."""
    naa = (0x6 << 124 | COMPANY_ID << 100 | device.seed).to_bytes(16, "big")
    return designator(BINARY, LOGICAL_UNIT, NAA, naa)


def block_limits(device):
    """SBC-3, vital product data parameters; numbers of bytes are those of the page"""
    profile, physical_block = device.profile, 2**device.physical_exponent
    page = bytearray(64)
    page[4] = 0x01  # WSNZ
    page[5] = blocks.MAXIMUM_COMPARE_AND_WRITE_LENGTH[profile]
    fields = {
        (6, 2): physical_block,  # OPTIMAL TRANSFER LENGTH GRANULARITY
        (8, 4): blocks.MAXIMUM_TRANSFER_LENGTH[profile],
        (20, 4): 2**32 - 1,  # MAXIMUM UNMAP LBA COUNT
        (24, 4): blocks.MAXIMUM_UNMAP_BLOCK_DESCRIPTOR_COUNT,
        (28, 4): physical_block,  # OPTIMAL UNMAP GRANULARITY
        (36, 8): blocks.MAXIMUM_WRITE_SAME_LENGTH[profile],
        (44, 4): blocks.MAXIMUM_ATOMIC_TRANSFER_LENGTH[profile],  # of SBC-4
    }
    for (place, length), value in fields.items():
        page[place:place + length] = value.to_bytes(length, "big")
    return bytes(page[4:])


# Pages of an extended disk. The numbers of bytes are those of the page.


def extended_inquiry_data(_device):
    """SPC-4, 7.8.7"""
    page = bytearray(64)
    page[5] = 0x04 | 0x02 | 0x01  # HEADSUP, ORDSUP, SIMPSUP
    page[6] = 0x08 | 0x04 | 0x01  # WU_SUP, CRD_SUP, V_SUP
    page[7] = 0x01  # LUICLR
    return bytes(page[4:])


def mode_page_policy(_device):
    """SPC-4, 7.8: pages 3Fh and subpages FFh are all, and policy 00b is shared"""
    return bytes([0x3F, 0xFF, 0, 0])


def scsi_ports(_device):
    """SPC-4, 7.8: RELATIVE PORT IDENTIFIER 1, no initiator port, no target port descriptor"""
    page = bytearray(16)
    page[6:8] = (1).to_bytes(2, "big")
    return bytes(page[4:])


def block_device_characteristics(_device):
    """SBC-3, vital product data parameters"""
    page = bytearray(64)
    page[4:6] = (1).to_bytes(2, "big")  # MEDIUM ROTATION RATE: it does not rotate
    page[7] = 0x40 | 0x10  # WABEREQ 01b, WACEREQ 01b: no error is read after an erase
    page[8] = 0x02 | 0x01  # FUAB, VBULS
    return bytes(page[4:])


def logical_block_provisioning(device):
    """SBC-3: LBPU, LBPWS, LBPWS10, LBPRZ and ANC_SUP are 1, PROVISIONING TYPE is 2"""
    exponent = threshold_exponent(device.profile, device.provisioning.capacity)
    return bytes([exponent, 0x80 | 0x40 | 0x20 | 0x04 | 0x02, 2, 0])


STANDARD_INQUIRY_DATA = {"base": standard_inquiry_data, "extended": extended_standard_inquiry_data}

# The pages of a disk of each profile, besides 00h. If both tables have a page, an extended disk has
# the second.
OF_BOTH = {
    0x80: unit_serial_number,
    0x83: device_identification,
    0xB0: block_limits,
    0xB2: logical_block_provisioning,
}
OF_EXTENDED = {
    0x83: extended_device_identification,
    0x86: extended_inquiry_data,
    0x87: mode_page_policy,
    0x88: scsi_ports,
    0xB1: block_device_characteristics,
}
VITAL_PRODUCT_DATA = {"base": OF_BOTH, "extended": OF_BOTH | OF_EXTENDED}

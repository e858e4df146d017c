"""Mode pages: MODE SENSE and MODE SELECT (SPC-4, 6.11 to 6.14 and 7.5; SBC-3, 6.4)."""

from blocks import need_data_out
from provisioning import BLOCK_LENGTH
from sense import (
    MODE_PARAMETERS_CHANGED, invalid_field_in_parameter_list, parameter_list_length_error)

# Of each page, by PAGE CODE and SUBPAGE CODE, what comes after PAGE LENGTH: the default values, and the bits
# that can be changed. Both tables are in ascending order.
OF_BOTH = {
    # Read-Write Error Recovery (SBC-3, 6.4): AWRE and ARRE, READ and WRITE RETRY COUNT
    (0x01, 0x00): ("C0 08 00 00 00 00 08 00 00 00", "C0 FF 00 00 00 00 FF 00 00 00"),
    # Caching (SBC-3, 6.4): WCE
    (0x08, 0x00): ("04" + 17 * " 00", "04" + 17 * " 00"),
    # Control (SPC-4, 7.5): D_SENSE, SWP
    (0x0A, 0x00): ("00 00 00 00 00 00 00 00 00 00", "04 00 08 00 00 00 00 00 00 00"),
    # Informational Exceptions Control (SPC-4, 7.5): DEXCPT
    (0x1C, 0x00): ("08 00 00 00 00 00 00 00 00 00", "00 00 00 00 00 00 00 00 00 00"),
}
# If both tables have a page, an extended disk has the second.
OF_EXTENDED = {
    # Read-Write Error Recovery, with LBPERE (SBC-3, 6.4)
    (0x01, 0x00): ("C0 08 00 00 00 80 08 00 00 00", "C0 FF 00 00 00 80 FF 00 00 00"),
    # Logical Block Provisioning (SBC-3, 6.4): SITUA and reserved bytes, then two threshold descriptors with
    # ENABLED, THRESHOLD RESOURCE and THRESHOLD COUNT. One is of resources that are available, 01h, and armed
    # decreasing, 0. The other is of used ones, 02h, and armed increasing, 1. Both thresholds are soft.
    (0x1C, 0x02): (12 * "00 " + "00 01 00 00 00 00 00 00 01 02 00 00 00 00 00 00",
                   "01 " + 11 * "00 " + 2 * "80 00 00 00 FF FF FF FF "),
}
TABLES = {"base": OF_BOTH, "extended": OF_BOTH | OF_EXTENDED}
PAGES_OF = {profile: [*table] for profile, table in TABLES.items()}
DEFAULT, CHANGEABLE = (
    {profile: {page: bytes.fromhex(values[column]) for page, values in table.items()}
     for profile, table in TABLES.items()}
    for column in (0, 1))
LENGTHS = {page: len(values) for page, values in DEFAULT["extended"].items()}  # of a disk of each profile
ERROR_RECOVERY, CONTROL, PROVISIONING = (0x01, 0x00), (0x0A, 0x00), (0x1C, 0x02)
# The fields of several bytes: of each page, and of the short and the long block descriptor, the numbers
# of the first and the last byte. What is reserved or obsolete counts as in the standards' figures: an
# obsolete field of several bytes is a field, and a reserved byte is one by itself.
PAGE_FIELDS = {
    # RECOVERY TIME LIMIT (SBC-3, 6.4)
    (0x01, 0x00): ((10, 11),),
    # DISABLE PRE-FETCH TRANSFER LENGTH, MINIMUM PRE-FETCH, MAXIMUM PRE-FETCH, MAXIMUM PRE-FETCH CEILING,
    # CACHE SEGMENT SIZE, and the obsolete NON CACHE SEGMENT SIZE (SBC-3, 6.4)
    (0x08, 0x00): ((4, 5), (6, 7), (8, 9), (10, 11), (14, 15), (17, 19)),
    # the obsolete READY AER HOLDOFF PERIOD, BUSY TIMEOUT PERIOD, EXTENDED SELF-TEST COMPLETION TIME
    # (SPC-4, 7.5)
    (0x0A, 0x00): ((6, 7), (8, 9), (10, 11)),
    # INTERVAL TIMER, REPORT COUNT (SPC-4, 7.5)
    (0x1C, 0x00): ((4, 7), (8, 11)),
    # PAGE LENGTH of a page with a subpage code (SPC-4, 7.5); THRESHOLD COUNT, twice (SBC-3, 6.4)
    (0x1C, 0x02): ((2, 3), (20, 23), (28, 31)),
}
# NUMBER OF LOGICAL BLOCKS, LOGICAL BLOCK LENGTH (SBC-3, 6.4.2)
SHORT_DESCRIPTOR_FIELDS = ((0, 3), (5, 7))
LONG_DESCRIPTOR_FIELDS = ((0, 7), (12, 15))
ALL_PAGES = 0x3F
ALL_SUBPAGES = 0xFF
PS = 0x80  # all pages can be saved
SPF = 0x40  # a header of 4 bytes, with a subpage code
WP, DPOFUA = 0x80, 0x10  # SBC-3, 6.4.1, the device-specific parameter
LONGLBA = 0x01


class Modes:
    def __init__(self, profile):
        self.default, self.changeable = DEFAULT[profile], CHANGEABLE[profile]
        self.current, self.saved = dict(self.default), dict(self.default)

    def become_saved(self):
        """The saved values become the current ones (SPC-4, 7.5)."""
        self.current = dict(self.saved)

    @property
    def d_sense(self):
        return bool(self.current[CONTROL][0] & 0x04)

    @property
    def swp(self):
        return bool(self.current[CONTROL][2] & 0x08)

    def values(self, page_control):
        return (self.current, self.changeable, self.default, self.saved)[page_control]


def page_header(page):
    """The first 2 or 4 bytes of a page, with PS 0 (SPC-4, 7.5)"""
    code, subpage = page
    length = LENGTHS[page]
    if subpage:
        return bytes([SPF | code, subpage]) + length.to_bytes(2, "big")
    return bytes([code, length])


def block_descriptor(device, long):
    """The short or the long block descriptor (SBC-3, 6.4.2)"""
    capacity = device.provisioning.capacity
    if long:
        return capacity.to_bytes(8, "big") + bytes(4) + BLOCK_LENGTH.to_bytes(4, "big")
    return min(capacity, 2**32 - 1).to_bytes(4, "big") + BLOCK_LENGTH.to_bytes(4, "big")


def is_of_six_bytes(command):
    return command.name.endswith("(6)")


# -------------------------------------------------------------------------------------- MODE SENSE


def asked_pages(device, command):
    """The pages that PAGE CODE and SUBPAGE CODE ask for, in ascending order (SPC-4, 6.13)

    Subpage 00h asks for pages without a subpage code, and FFh for all pages. Any other subpage code has to
    be one of the page. All pages, 3Fh, have no such subpage.
    """
    code, subpage = command["page_code"], command["subpage_code"]
    pages = [page for page in PAGES_OF[device.profile] if code in (page[0], ALL_PAGES)]
    if not pages:
        raise command.unsupported("page_code")
    if subpage == ALL_SUBPAGES:
        return pages
    pages = [page for page in pages if page[1] == subpage]
    if not pages or subpage and code == ALL_PAGES:
        raise command.unsupported("subpage_code")
    return pages


def mode_sense(device, _initiator, command, _data_out):
    """SPC-4, 6.13 and 6.14: a header (7.5.5), a block descriptor unless DBD is 1, pages

    LONGLBA says that the descriptor is the long one. Without a descriptor it is 0.
    """
    asked = asked_pages(device, command)
    long = not is_of_six_bytes(command) and command["llbaa"] and not command["dbd"]
    descriptor = b"" if command["dbd"] else block_descriptor(device, long)
    values = device.modes.values(command["pc"])
    pages = b"".join(
        bytes([PS | header[0]]) + header[1:] + values[page]
        for page, header in zip(asked, map(page_header, asked)))
    specific = DPOFUA | (WP if device.modes.swp else 0)
    if is_of_six_bytes(command):
        after_length = bytes([0x00, specific, len(descriptor)])
    else:
        after_length = bytes([0x00, specific, LONGLBA if long else 0, 0])
        after_length += len(descriptor).to_bytes(2, "big")
    after_length += descriptor + pages
    length = len(after_length).to_bytes(1 if is_of_six_bytes(command) else 2, "big")
    return (length + after_length)[:command["allocation_length"]]


# ------------------------------------------------------------------------------------- MODE SELECT


def mode_select(device, initiator, command, data_out):
    """SPC-4, 6.11 and 6.12: the list is applied whole, or its first fault refuses it"""
    has_list = command["list_length"] or device.profile == "base"  # which looks at PF in each case
    if not command["pf"] and has_list:
        raise command.unsupported("pf")
    parameters = need_data_out(device, data_out, command["list_length"])
    modes = device.modes
    selected = dict(modes.current)
    if parameters:
        place = check_descriptor(device, parameters, *header(command, parameters))
        selected.update(pages_from(device, parameters, place))
    if selected != modes.current:
        others = [other for other in device.attentions if other != initiator]
        device.raise_attention(others, MODE_PARAMETERS_CHANGED)
    modes.current = selected
    if command["sp"]:
        modes.saved = dict(selected)
    return b""


def present(parameters, end):
    """A list that ends before byte `end` is too short for the check (SPC-4, 6.11)."""
    if len(parameters) < end:
        raise parameter_list_length_error()


def need_equal(parameters, place, wanted, pointer=lambda byte: byte):
    """From front to back: a list that ends is too short, and a byte that differs is the fault."""
    for byte, value in enumerate(wanted, place):
        present(parameters, byte + 1)
        if parameters[byte] != value:
            raise invalid_field_in_parameter_list(pointer(byte))


def to_fields(device, start, fields):
    """A pointer to the first byte of a field of several bytes (SPC-4, 4.5.2.4.2).

    A base disk points to the byte that differs. `start` is where the page or the descriptor begins.
    """
    def pointer(byte):
        for first, last in fields if device.profile == "extended" else ():
            if first <= byte - start <= last:
                return start + first
        return byte
    return pointer


def header(command, parameters):
    """Checks the header (SPC-4, 7.5.5). Returns its end, and the length of the block descriptor.

    MODE DATA LENGTH and the device-specific parameter are ignored. MEDIUM TYPE and reserved bits
    have to be zero. BLOCK DESCRIPTOR LENGTH is 0, or the length that LONGLBA names; the pointer is
    to its first byte (SPC-4, 4.5.2.4.2), as there is no one value that it would have to equal.
    """
    if is_of_six_bytes(command):
        need_equal(parameters, 1, b"\0")
        length_place, end, long = 3, 4, False
    else:
        need_equal(parameters, 2, b"\0")
        present(parameters, 5)
        long = bool(parameters[4] & LONGLBA)
        need_equal(parameters, 4, bytes([LONGLBA if long else 0, 0]))
        length_place, end = 6, 8
    present(parameters, end)
    length = int.from_bytes(parameters[length_place:end], "big")
    if length not in (0, 16 if long else 8):
        raise invalid_field_in_parameter_list(length_place)
    return end, length


def check_descriptor(device, parameters, place, length):
    """A descriptor is the disk's own, or has a number of blocks of 0. Returns its end.

    If the list ends within the number and has only zeros of it, the number may be 0. An extended disk
    ignores the number, because it cannot change (SBC-3, 6.4.2).
    """
    if length:
        own = block_descriptor(device, length == 16)
        count_length = length // 2
        sent = parameters[place:place + count_length]
        if not any(sent):
            own = bytes(count_length) + own[count_length:]
        elif device.profile == "extended":
            own = sent + own[count_length:]
        fields = LONG_DESCRIPTOR_FIELDS if length == 16 else SHORT_DESCRIPTOR_FIELDS
        need_equal(parameters, place, own, to_fields(device, place, fields))
    return place + length


def page_at(device, parameters, place):
    """The page whose header is at `place`, which the page's own header has to equal. PS is ignored.

    SPF of a code that has no subpage makes it unknown. A code has one page with SPF at most.
    """
    first = parameters[place] & ~PS
    for page in PAGES_OF[device.profile]:
        header = page_header(page)
        if header[0] == first:
            need_equal(parameters, place + 1, header[1:], to_fields(device, place, PAGE_FIELDS[page]))
            return page
    raise invalid_field_in_parameter_list(place)


def pages_from(device, parameters, place):
    """The pages of the list: of one that is sent twice the last one counts."""
    current, changeable = device.modes.current, device.modes.changeable
    selected = {}  # all are compared with what they were before the command
    while place < len(parameters):
        page = page_at(device, parameters, place)
        pointer = to_fields(device, place, PAGE_FIELDS[page])
        place += len(page_header(page))
        length = LENGTHS[page]
        sent = parameters[place:place + length]
        values = zip(sent, current[page], changeable[page])
        wanted = bytes(old & ~bits | new & bits for new, old, bits in values)
        need_equal(parameters, place, wanted, pointer)
        present(parameters, place + length)
        selected[page] = sent
        place += length
    return selected

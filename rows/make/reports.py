"""What an extended disk reports about itself, and SEND DIAGNOSTIC.

They are commands of SPC-4, except READ DEFECT DATA (SBC-3, 5.17 and 5.18).
"""

import sense
from layouts import CODES_WITH_ACTIONS, LAYOUTS
from pages import RELATIVE_TARGET_PORT, TARGET_PORT_GROUP

LUN_0 = bytes(8)
# SELECT REPORT (SPC-4, 6.33): all units but well known ones, only well known ones, and both.
SELECTED_LUNS = {0x00: [LUN_0], 0x01: [], 0x02: [LUN_0]}

# SPC-4, 6.36: functions that have nothing to do, as each command is executed at once, and a reset
ABORT_TASK, ABORT_TASK_SET, CLEAR_TASK_SET, LOGICAL_UNIT_RESET = 0x80, 0x40, 0x10, 0x08
FUNCTIONS = ABORT_TASK | ABORT_TASK_SET | CLEAR_TASK_SET | LOGICAL_UNIT_RESET

ALL_SUBPAGES = 0xFF
# The code of a log parameter, and three bytes: no additional sense code with its qualifier, and no
# temperature (SPC-4, 7.3)
INFORMATIONAL_EXCEPTIONS, NO_EXCEPTION = 0x0000, bytes([0x00, 0x00, 0xFF])
BINARY_LIST = 0x03  # FORMAT AND LINKING in the control byte of a log parameter
# The codes of the parameters with LBA mapping resource counts (SBC-3, log parameters), and SCOPE 01b
AVAILABLE, USED = 0x0001, 0x0002
DEDICATED_TO_LOGICAL_UNIT = 0x01
LOG_PAGES = {  # page codes, each with its subpage codes
    0x00: (0x00, ALL_SUBPAGES),
    0x0C: (0x00,),
    0x2F: (0x00,),
}
DISABLE_SAVE, SUBPAGE_FORMAT = 0x80, 0x40

MOST_FORMATS = 6  # DEFECT LIST FORMAT 110b is vendor specific, and 111b reserved (SBC-3, 5.3)


def report_luns(device, initiator, command, _data_out):
    """SPC-4, 6.33. The initiator then knows that the list has changed (SAM-5, 5.14)."""
    if command["select_report"] not in SELECTED_LUNS:
        raise command.unsupported("select_report")
    luns = b"".join(SELECTED_LUNS[command["select_report"]])
    device.attentions[initiator] = [
        code for code in device.attentions[initiator]
        if code != sense.REPORTED_LUNS_DATA_HAS_CHANGED]
    return (len(luns).to_bytes(4, "big") + bytes(4) + luns)[:command["allocation_length"]]


# REPORT SUPPORTED OPERATION CODES (SPC-4, 6.35). The standard leaves the order of all commands free;
# docs/PROFILE.md has this one.
ORDER = (0x00, 0x03, 0x12, 0x15, 0x55, 0x1A, 0x5A, 0x4D, 0xA0, (0xA3, 0x0C), (0xA3, 0x0D), (0xA3, 0x0A),
         0x1D, 0x83, 0x84, 0x89, 0x04, 0x8B, 0x34, 0x90, 0x08, 0x28, 0xA8, 0x88, 0x0A, 0x2A, 0xAA, 0x8A, 0x25,
         (0x9E, 0x10), 0x37, 0xB7, 0x48, 0x1B, 0x35, 0x91, 0x2F, 0xAF, 0x8F, 0x2E, 0xAE, 0x8E, 0x9C,
         0x3F, 0x41, 0x93, 0x42, (0x9E, 0x12), 0x5E, 0x5F)
ALL, OF_CODE, OF_CODE_WITH_ACTION, OF_EITHER = range(4)  # REPORTING OPTIONS
CTDP, SERVACTV, CTDP_OF_ONE = 0x02, 0x01, 0x80
NOT_SUPPORTED, AS_IN_STANDARD = 1, 3
TIMEOUTS = bytes([0x00, 0x0A]) + bytes(10)  # none is told


def operation_codes(_device, _initiator, command, _data_out):
    """SPC-4, 6.35: all commands, or one, with timeouts if RCTD is 1"""
    timeouts = TIMEOUTS if command["rctd"] else b""
    options, code, action = command["options"], command["opcode"], command["action"]
    has_actions = code in CODES_WITH_ACTIONS
    known = any(code == its for its, _ in LAYOUTS)
    if options > OF_EITHER or options == OF_CODE and has_actions \
            or options == OF_CODE_WITH_ACTION and known and not has_actions:
        raise command.unsupported("options")
    if options == ALL:
        data = all_commands(timeouts)
    elif has_actions:
        data = one_command(LAYOUTS.get((code, action)), timeouts)
    else:
        found = options == OF_CODE or action == 0
        data = one_command(LAYOUTS.get((code, None)) if found else None, timeouts)
    return data[:command["allocation_length"]]


def all_commands(timeouts):
    descriptors = b""
    for item in ORDER:
        code, one = item if isinstance(item, tuple) else (item, None)
        for (its, action), layout in sorted(LAYOUTS.items(), key=lambda it: it[0][1] or 0):
            if its == code and one in (None, action):
                flags = (CTDP if timeouts else 0) | (SERVACTV if action is not None else 0)
                descriptors += bytes([code, 0, 0, action or 0, 0, flags, 0, layout.length]) + timeouts
    return len(descriptors).to_bytes(4, "big") + descriptors


def one_command(layout, timeouts):
    if layout is None:
        return bytes([0, NOT_SUPPORTED, 0, 0])
    support = AS_IN_STANDARD | (CTDP_OF_ONE if timeouts else 0)
    return bytes([0, support, 0, layout.length]) + layout.usage + timeouts


def task_management_functions(_device, _initiator, command, _data_out):
    """SPC-4, 6.36: with REPD there are timeouts, of which none is told"""
    if command["allocation_length"] < 4:
        raise command.unsupported("allocation_length")
    timeouts = bytes(12) if command["repd"] else b""
    return (bytes([FUNCTIONS, 0, 0, len(timeouts)]) + timeouts)[:command["allocation_length"]]


# PARAMETER DATA FORMAT of REPORT TARGET PORT GROUPS (SPC-4, 6.37)
LENGTH_ONLY_HEADER, EXTENDED_HEADER = 0, 1
ACTIVE_OPTIMIZED, AO_SUP = 0x00, 0x01  # the state, with PREF 0, and the only one that is supported
NO_STATUS, ONE_PORT = 0x00, 1
FORMAT_TYPE_EXTENDED, NO_TRANSITION_TIME = 0x10, 0


def target_port_groups(_device, _initiator, command, _data_out):
    """SPC-4, 6.37: one group with one port, by which each path is active and optimized"""
    data_format = command["data_format"]
    if data_format not in (LENGTH_ONLY_HEADER, EXTENDED_HEADER):
        raise command.unsupported("data_format")
    port = bytes(2) + RELATIVE_TARGET_PORT.to_bytes(2, "big")
    group = (bytes([ACTIVE_OPTIMIZED, AO_SUP]) + TARGET_PORT_GROUP.to_bytes(2, "big")
             + bytes([0, NO_STATUS, 0, ONE_PORT]) + port)
    header = bytes([FORMAT_TYPE_EXTENDED, NO_TRANSITION_TIME, 0, 0])
    data = header + group if data_format == EXTENDED_HEADER else group
    return (len(data).to_bytes(4, "big") + data)[:command["allocation_length"]]


def log_sense(device, _initiator, command, _data_out):
    """SPC-4, 6.8 and 7.3: a page has its parameters from PARAMETER POINTER on. Past the last one there is
    none. A list of pages has no parameters, and is returned whole."""
    code, subcode = command["page_code"], command["subpage_code"]
    if code not in LOG_PAGES:
        raise command.unsupported("page_code")
    if subcode not in LOG_PAGES[code]:
        raise command.unsupported("subpage_code")
    flags, content = LOG_CONTENTS[code, subcode](device)
    if isinstance(content, dict):
        pointer = command["parameter_pointer"]
        if pointer > max(content):
            raise command.unsupported("parameter_pointer")
        content = b"".join(
            log_parameter(its, content[its]) for its in sorted(content) if its >= pointer)
    page = bytes([flags | code, subcode]) + len(content).to_bytes(2, "big") + content
    return page[:command["allocation_length"]]


def log_parameter(code, value):
    """SPC-4, 7.3"""
    return code.to_bytes(2, "big") + bytes([BINARY_LIST, len(value)]) + value


# A list of pages, or the values of the parameters of a page, by their codes


def supported_pages(_device):
    return 0, bytes(sorted(LOG_PAGES))


def supported_subpages(_device):
    pairs = sorted((code, subcode) for code, its in LOG_PAGES.items() for subcode in its)
    return SUBPAGE_FORMAT, b"".join(map(bytes, pairs))


def logical_block_provisioning(device):
    """SBC-3, log parameters: RESOURCE COUNT of the available threshold sets, and of the used ones"""
    scope = bytes([DEDICATED_TO_LOGICAL_UNIT, 0, 0, 0])
    counts = device.provisioning.threshold_sets(device.profile)
    return DISABLE_SAVE, {
        code: count.to_bytes(4, "big") + scope for code, count in zip((AVAILABLE, USED), counts)}


def informational_exceptions(_device):
    return DISABLE_SAVE, {INFORMATIONAL_EXCEPTIONS: NO_EXCEPTION}


LOG_CONTENTS = {
    (0x00, 0x00): supported_pages,
    (0x00, ALL_SUBPAGES): supported_subpages,
    (0x0C, 0x00): logical_block_provisioning,
    (0x2F, 0x00): informational_exceptions,
}


def read_defect_data(_device, _initiator, command, _data_out):
    """SBC-3, 5.17 and 5.18: the lists that are asked for are valid, and empty"""
    defect_format = command["format"]
    if defect_format >= MOST_FORMATS:
        raise command.unsupported("format")
    lists = command["req_plist"] << 4 | command["req_glist"] << 3 | defect_format
    after_lists = 2 if command.name == "READ DEFECT DATA(10)" else 6  # (12) has GENERATION CODE
    return (bytes([0, lists]) + bytes(after_lists))[:command["allocation_length"]]


def send_diagnostic(_device, _initiator, command, _data_out):
    """SPC-4, 6.42: the default self-test has passed, and there is no diagnostic page"""
    for field in ("self_test_code", "parameter_list_length"):
        if command[field]:
            raise command.unsupported(field)
    return b""

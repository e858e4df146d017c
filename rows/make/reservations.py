"""Persistent reservations: PERSISTENT RESERVE IN and OUT (SPC-4, 5.13, 6.15 and 6.16)."""

from blocks import need_data_out
from pages import RELATIVE_TARGET_PORT
from sense import (
    ILLEGAL_REQUEST,
    INSUFFICIENT_REGISTRATION_RESOURCES,
    INVALID_RELEASE_OF_PERSISTENT_RESERVATION,
    REGISTRATIONS_PREEMPTED,
    RESERVATIONS_PREEMPTED,
    RESERVATIONS_RELEASED,
    CheckCondition,
    invalid_field_in_cdb,
    invalid_field_in_parameter_list,
    parameter_list_length_error,
)

# TYPE (SPC-4, 6.15.3.4): whether all registrants hold it, or share its access; what it excludes.
WRITE_EXCLUSIVE, EXCLUSIVE_ACCESS = 0x1, 0x3
WRITE_EXCLUSIVE_REGISTRANTS_ONLY, EXCLUSIVE_ACCESS_REGISTRANTS_ONLY = 0x5, 0x6
WRITE_EXCLUSIVE_ALL_REGISTRANTS, EXCLUSIVE_ACCESS_ALL_REGISTRANTS = 0x7, 0x8
ALL_REGISTRANTS = (WRITE_EXCLUSIVE_ALL_REGISTRANTS, EXCLUSIVE_ACCESS_ALL_REGISTRANTS)
SHARED = (
    WRITE_EXCLUSIVE_REGISTRANTS_ONLY, EXCLUSIVE_ACCESS_REGISTRANTS_ONLY, *ALL_REGISTRANTS)
EXCLUSIVE = (
    EXCLUSIVE_ACCESS, EXCLUSIVE_ACCESS_REGISTRANTS_ONLY, EXCLUSIVE_ACCESS_ALL_REGISTRANTS)
TYPES = (WRITE_EXCLUSIVE, *SHARED, EXCLUSIVE_ACCESS)

# By profile: the initiators of a disk, and how many of them can be registered at once.
INITIATORS = {"base": range(8), "extended": range(64)}
MOST_REGISTRANTS = {"base": 6, "extended": 64}
LIST_LENGTH = 24
# With SPEC_I_PT the list goes on with TRANSPORTID PARAMETER DATA LENGTH and the TransportIDs.
TRANSPORT_IDS_LENGTH_AT, TRANSPORT_IDS_AT, TRANSPORT_ID_LENGTH = 24, 28, 24
# SCOPE and TYPE have to be valid, whoever holds the reservation. On an extended disk those of a RELEASE
# only have to be those of the reservation, if the caller holds it (SPC-4, 5.13, releasing).
NEED_TYPE = {"base": ("RESERVE", "RELEASE"), "extended": ("RESERVE",)}
# SPC-4, 6.15.4: none is told, or what a reservation of another initiator allows (011b)
ALLOW_COMMANDS = {"base": 0, "extended": 3}
SPEC_I_PT, ALL_TG_PT, APTPL = 0x08, 0x04, 0x01  # of list byte 20
# In the list of REGISTER AND MOVE (SPC-4, 6.16.4) UNREG and APTPL are bits of byte 17. RELATIVE TARGET
# PORT IDENTIFIER, TRANSPORTID PARAMETER DATA LENGTH and the TransportID follow.
UNREG, MOVE_FLAGS_AT = 0x02, 17
MOVE_PORT_AT, MOVE_LENGTH_AT, MOVE_TRANSPORT_ID_AT = 18, 20, 24
# The flags that the service actions that register refuse. The other service actions refuse SPEC_I_PT.
REFUSED_FLAGS = {
    "base": {"REGISTER": SPEC_I_PT | ALL_TG_PT,
             "REGISTER AND IGNORE EXISTING KEY": SPEC_I_PT | ALL_TG_PT},
    "extended": {"REGISTER": 0},
}
# SPC-4, 6.15.4: SIP_C and ATP_C, if SPEC_I_PT and ALL_TG_PT are supported, and PTPL_C
CAPABLE = {"base": 0x01, "extended": 0x08 | 0x04 | 0x01}


class Conflict(Exception):
    """The command ends with RESERVATION CONFLICT."""


class Reservations:
    def __init__(self):
        self.keys = {}  # of the registrants, in the order in which they were registered
        self.of_all_ports = {}  # whether their last REGISTER had ALL_TG_PT
        self.type = None  # of the reservation that is held, if any
        self.taker = None  # the registrant that took it: its one holder, unless all are
        self.generation = 0
        self.aptpl = False

    def power_cycle(self):
        """SPC-4, 5.13 (persist through power loss) and 6.15.2 (PRGENERATION)"""
        if not self.aptpl:
            self.keys, self.type, self.taker = {}, None, None
        self.generation = 0

    def holders(self):
        """SPC-4, 5.13 (reservation holder)"""
        if self.type is None:
            return []
        return list(self.keys) if self.type in ALL_REGISTRANTS else [self.taker]

    def allow(self, initiator, reservation_class):
        """The tables of commands that a reservation allows (SPC-4, 5.13; SBC-3)."""
        if self.type is None or reservation_class == "allowed" or initiator in self.holders():
            return True
        if self.type in SHARED and initiator in self.keys:
            return True
        return reservation_class == "reads" and self.type not in EXCLUSIVE

    def register(self, initiator, key, all_tg_pt):
        """SPC-4, 5.13 (registering): a registrant keeps its place in the order."""
        self.keys[initiator] = key
        self.of_all_ports[initiator] = all_tg_pt

    def count_change(self):
        """SPC-4, 6.15.2 (PRGENERATION)"""
        self.generation = (self.generation + 1) % 2**32

    def take(self, initiator, kind):
        """SPC-4, 5.13 (reserving)"""
        self.type, self.taker = kind, initiator

    def end(self):
        """SPC-4, 5.13 (releasing)"""
        self.type, self.taker = None, None

    def remove(self, initiators):
        """SPC-4, 5.13 (unregistering): the reservation ends if no holder is left. Returns its type
        then."""
        for initiator in initiators:
            del self.keys[initiator]
        ended = self.type
        if ended is None or any(holder in self.keys for holder in self.holders()):
            return None
        self.end()
        return ended


# -------------------------------------------------------------------------- PERSISTENT RESERVE IN


def answer(device, command, parameters):
    """PRGENERATION and ADDITIONAL LENGTH, then the parameters (SPC-4, 6.15.2)"""
    header = device.reservations.generation.to_bytes(4, "big")
    header += len(parameters).to_bytes(4, "big")
    return (header + parameters)[:command["allocation_length"]]


def read_keys(device, _initiator, command, _data_out):
    """SPC-4, 6.15.2"""
    keys = device.reservations.keys.values()
    return answer(device, command, b"".join(key.to_bytes(8, "big") for key in keys))


def read_reservation(device, _initiator, command, _data_out):
    """SPC-4, 6.15.3: the key is 0 if each registrant holds the reservation; SCOPE is 0h"""
    state = device.reservations
    if state.type is None:
        return answer(device, command, b"")
    key = 0 if state.type in ALL_REGISTRANTS else state.keys[state.taker]
    scope_and_type = bytes([0, 0, 0, 0, 0, state.type, 0, 0])
    return answer(device, command, key.to_bytes(8, "big") + scope_and_type)


def report_capabilities(device, _initiator, command, _data_out):
    """SPC-4, 6.15.4: SIP_C, ATP_C and PTPL_C, then TMV, ALLOW COMMANDS and PTPL_A, then a mask with a
    bit for each type"""
    persists = 0x01 if device.reservations.aptpl else 0
    mask = sum(1 << kind for kind in TYPES).to_bytes(2, "little")
    flags = 0x80 | ALLOW_COMMANDS[device.profile] << 4 | persists
    data = bytes([0, 8, CAPABLE[device.profile], flags]) + mask + bytes(2)
    return data[:command["allocation_length"]]


def read_full_status(device, _initiator, command, _data_out):
    """SPC-4, 6.15.5, a descriptor for each registrant"""
    registrants = device.reservations.keys
    return answer(device, command, b"".join(
        full_status_descriptor(device.reservations, registrant) for registrant in registrants))


def full_status_descriptor(state, registrant):
    """ALL_TG_PT and R_HOLDER are bits of one byte."""
    holds = registrant in state.holders()
    flags = (0x02 if state.of_all_ports[registrant] else 0) | (0x01 if holds else 0)
    name = transport_id(registrant)
    return (state.keys[registrant].to_bytes(8, "big") + bytes(4)
            + bytes([flags, state.type if holds else 0]) + bytes(4)
            + RELATIVE_TARGET_PORT.to_bytes(2, "big") + len(name).to_bytes(4, "big") + name)


def transport_id(initiator):
    """The TransportID of a SAS initiator port (SPC-4, 7.6.4)"""
    address = 0x3000_0000_0000_0100 + initiator
    return bytes([0x06, 0, 0, 0]) + address.to_bytes(8, "big") + bytes(12)


# The initiators of an extended disk by their TransportIDs, as no list of a base disk has any. One with a
# reserved bit that is set names nobody.
NAMED_BY = {transport_id(initiator): initiator for initiator in INITIATORS["extended"]}


# ------------------------------------------------------------------------- PERSISTENT RESERVE OUT


class Request:
    """A service action with its list, and the state that it changes."""

    def __init__(self, device, caller, command, parameters):
        self.device, self.caller, self.command = device, caller, command
        self.state = device.reservations
        self.key = int.from_bytes(parameters[0:8], "big")
        self.action_key = int.from_bytes(parameters[8:16], "big")
        self.parameters = bytes(parameters)
        self.spec_i_pt = bool(parameters[20] & SPEC_I_PT)
        self.all_tg_pt = bool(parameters[20] & ALL_TG_PT)
        self.aptpl = bool(parameters[20] & APTPL)
        self.transport_ids = self.parameters[TRANSPORT_IDS_AT:]
        self.registered_before = list(self.state.keys)

    def notify(self, initiators, code):
        """Unit attentions for initiators that were registered before the command, and never for the
        caller (SPC-4, 5.13: the rules of each service action)"""
        told = [other for other in self.registered_before if other != self.caller]
        self.device.raise_attention([other for other in told if other in initiators], code)

    def under_action_key(self):
        """SPC-4, 6.16.3 (SERVICE ACTION RESERVATION KEY)"""
        return [who for who, key in self.state.keys.items() if key == self.action_key]


def persistent_reserve_out(device, caller, command, data_out):
    """The faults in their order (docs/PROFILE.md, "PERSISTENT RESERVE OUT"), then the action"""
    if command.name in NEED_TYPE[device.profile]:
        check_scope_and_type(command)
    parameters = need_data_out(device, data_out, command["list_length"])
    if command.name == "REGISTER AND MOVE":
        check_length_of_move(parameters)
    else:
        check_length(device, command, parameters)
        check_flags(device, command, parameters)
    request = Request(device, caller, command, parameters)
    check_key(request)
    ACTIONS[command.name](request)
    return b""


def check_length(device, command, parameters):
    """SPC-4, 6.16.3: without SPEC_I_PT a list has 24 bytes. With it, a list of REGISTER has the length of
    its TransportIDs, too, and has room for one of each initiator. A base disk takes no such list, and an
    extended disk refuses SPEC_I_PT of another service action, not its length."""
    has_more = len(parameters) >= LIST_LENGTH and parameters[20] & SPEC_I_PT
    if device.profile == "base" or not has_more:
        fits = len(parameters) == LIST_LENGTH
    else:
        fits = command.name != "REGISTER" or has_whole_transport_ids(parameters)
    if not fits:
        raise parameter_list_length_error()


def check_flags(device, command, parameters):
    """SPC-4, 6.16.3: flags that the disk does not support, or not with the service action"""
    if parameters[20] & REFUSED_FLAGS[device.profile].get(command.name, SPEC_I_PT):
        raise invalid_field_in_parameter_list(20)


def check_length_of_move(parameters):
    """SPC-4, 6.16.4: TRANSPORTID PARAMETER DATA LENGTH counts the bytes after it."""
    said = int.from_bytes(parameters[MOVE_LENGTH_AT:MOVE_TRANSPORT_ID_AT], "big")
    if len(parameters) != MOVE_TRANSPORT_ID_AT + said:
        raise parameter_list_length_error()


def has_whole_transport_ids(parameters):
    """TRANSPORTID PARAMETER DATA LENGTH counts the bytes after it. There are not too many of them."""
    length = len(parameters) - TRANSPORT_IDS_AT
    said = int.from_bytes(parameters[TRANSPORT_IDS_LENGTH_AT:TRANSPORT_IDS_AT], "big")
    return 0 <= length <= TRANSPORT_ID_LENGTH * len(INITIATORS["extended"]) and length == said


def check_scope_and_type(command):
    """SPC-4, 6.15.3.3 (scope) and 6.15.3.4 (type): SCOPE 0h is the logical unit. Both fields are in
    command byte 2."""
    if command["scope"] != 0 or command["type"] not in TYPES:
        raise command.unsupported("type")


def check_key(request):
    """SPC-4, 5.13 and 6.16.3 (RESERVATION KEY): the key is the caller's. If the caller is not
    registered, it is 0, and the service action is REGISTER."""
    if request.command.name == "REGISTER AND IGNORE EXISTING KEY":
        return
    if request.caller in request.state.keys:
        allowed = request.key == request.state.keys[request.caller]
    else:
        allowed = request.command.name == "REGISTER" and request.key == 0
    if not allowed:
        raise Conflict


def register(request):
    """SPC-4, 5.13 (registering; unregistering) and 6.16. A REGISTER that leaves an initiator
    unregistered does nothing, and SPEC_I_PT is ignored then."""
    state, caller = request.state, request.caller
    if caller not in state.keys and request.action_key == 0:
        return
    if request.spec_i_pt:
        register_together(request)
        return
    if caller not in state.keys and len(state.keys) == MOST_REGISTRANTS[request.device.profile]:
        raise CheckCondition(ILLEGAL_REQUEST, INSUFFICIENT_REGISTRATION_RESOURCES)
    if request.action_key:
        state.register(caller, request.action_key, request.all_tg_pt)
    else:
        ended = state.remove([caller])
        if ended in SHARED:
            request.notify(state.keys, RESERVATIONS_RELEASED)
    state.aptpl = request.aptpl
    state.count_change()


def register_together(request):
    """SPC-4, 5.13 (registering) and 6.16.3 (SPEC_I_PT): the caller and all initiators that the list
    names are registered. A registrant is passed over. An extended disk has room for all of them."""
    state = request.state
    if request.caller in state.keys:
        raise invalid_field_in_parameter_list(20)
    named = dict.fromkeys([request.caller, *named_initiators(request.transport_ids)])
    for initiator in named:
        if initiator not in state.keys:
            state.register(initiator, request.action_key, request.all_tg_pt)
    state.aptpl = request.aptpl
    state.count_change()


def named_initiators(transport_ids):
    """The initiators that TransportIDs name, in their order (SPC-4, 7.6.4)."""
    for at in range(0, len(transport_ids), TRANSPORT_ID_LENGTH):
        name = transport_ids[at:at + TRANSPORT_ID_LENGTH]
        if name not in NAMED_BY:
            raise invalid_field_in_parameter_list(TRANSPORT_IDS_AT + at)
        yield NAMED_BY[name]


def register_and_move(request):
    """SPC-4, 5.13 (registering and moving the reservation) and 6.16.4. SCOPE and TYPE do not matter. No
    initiator gets a unit attention."""
    state, caller = request.state, request.caller
    if state.type is None:
        raise invalid_field_in_cdb(1)
    if state.type in ALL_REGISTRANTS or state.taker != caller:
        raise Conflict
    flags, named = request.parameters[MOVE_FLAGS_AT], destination(request)
    if flags & UNREG:
        del state.keys[caller]
    state.register(named, request.action_key, all_tg_pt=False)
    state.take(named, state.type)
    state.aptpl = bool(flags & APTPL)
    state.count_change()


def destination(request):
    """The initiator to which a list moves the reservation (SPC-4, 6.16.4), after the faults of the list"""
    port = int.from_bytes(request.parameters[MOVE_PORT_AT:MOVE_LENGTH_AT], "big")
    name = request.parameters[MOVE_TRANSPORT_ID_AT:]
    if request.action_key == 0:
        raise invalid_field_in_parameter_list(8)
    if port != RELATIVE_TARGET_PORT:
        raise invalid_field_in_parameter_list(MOVE_PORT_AT)
    if not name:
        raise invalid_field_in_parameter_list(MOVE_LENGTH_AT)
    if NAMED_BY.get(name, request.caller) == request.caller:
        raise invalid_field_in_parameter_list(MOVE_TRANSPORT_ID_AT)
    return NAMED_BY[name]


def reserve(request):
    """SPC-4, 5.13 (reserving)"""
    state, kind = request.state, request.command["type"]
    if state.type is None:
        state.take(request.caller, kind)
    elif request.caller not in state.holders() or kind != state.type:
        raise Conflict


def release(request):
    """SPC-4, 5.13 (releasing): SCOPE and TYPE have to be those of the reservation, whose SCOPE is 0h."""
    state, kind = request.state, request.command["type"]
    if request.caller not in state.holders():
        return
    if request.command["scope"] != 0 or kind != state.type:
        raise CheckCondition(ILLEGAL_REQUEST, INVALID_RELEASE_OF_PERSISTENT_RESERVATION)
    state.end()
    if kind in SHARED:
        request.notify(state.keys, RESERVATIONS_RELEASED)


def clear(request):
    """SPC-4, 5.13 (clearing)"""
    request.state.end()
    request.state.keys.clear()
    request.notify(request.registered_before, RESERVATIONS_PREEMPTED)
    request.state.count_change()


def preempt(request):
    """SPC-4, 5.13 (preempting): the first of five cases that applies decides. A base disk finds no
    fault in a key of 0 while no reservation is held."""
    state, key = request.state, request.action_key
    has_one_holder = state.type is not None and state.type not in ALL_REGISTRANTS
    needs_key = has_one_holder or state.type is None and request.device.profile == "extended"
    removed = request.under_action_key()
    if needs_key and key == 0:
        raise invalid_field_in_parameter_list(8)
    if has_one_holder and key == state.keys[state.taker]:
        preempt_reservation(request, removed)
    elif state.type in ALL_REGISTRANTS and key == 0:
        preempt_reservation(request, list(state.keys))
    elif not removed:
        raise Conflict
    else:
        state.remove(removed)
        request.notify(removed, REGISTRATIONS_PREEMPTED)
    state.count_change()


def preempt_reservation(request, removed):
    """SPC-4, 5.13 (preempting a reservation): the caller stays registered and takes it, with TYPE of
    the command."""
    check_scope_and_type(request.command)
    state, kind_before = request.state, request.state.type
    removed = [who for who in removed if who != request.caller]
    for who in removed:
        del state.keys[who]
    state.take(request.caller, request.command["type"])
    request.notify(removed, REGISTRATIONS_PREEMPTED)
    if state.type != kind_before:
        request.notify(state.keys, RESERVATIONS_RELEASED)


ACTIONS = {
    "REGISTER": register,
    "RESERVE": reserve,
    "RELEASE": release,
    "CLEAR": clear,
    "PREEMPT": preempt,
    "PREEMPT AND ABORT": preempt,
    "REGISTER AND IGNORE EXISTING KEY": register,
    "REGISTER AND MOVE": register_and_move,
}

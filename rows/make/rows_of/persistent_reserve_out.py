"""Rows of PERSISTENT RESERVE OUT (SPC-4, 5.13 and 6.16)."""

from itertools import cycle, product

from reservations import INITIATORS, SPEC_I_PT, UNREG, transport_id
from rows_of import row
from rows_of.lines import POWER_ON_TAKEN, raw, test_unit_ready
from rows_of.tour import (
    ACTIONS, ACTIONS_OF_BOTH, SECTIONS, Tour, A, B, C, F, reserve_in, reserve_out)

REGISTRANTS = [(0, A), (1, B), (2, C), (3, C)]
# The sender, and the keys that it sends, its own first. 3 does as 2, and 4 is not registered.
KEYS = {0: [A, B, C, F, 0], 1: [B, A, C, F, 0], 2: [C, A, F, 0], 4: [A, C, F, 0]}
TYPES = (0x1, 0x3, 0x5, 0x6, 0x7, 0x8)
# SCOPE and TYPE of actions that ignore them: valid ones, and scopes and types that are none.
ANY_TYPE = (*TYPES, 0x00, 0x02, 0x04, 0x09, 0x0F, 0x11, 0x25, 0xF8)


def tour_of_four():
    return Tour(REGISTRANTS, range(5))


def own_key(initiator):
    return KEYS[initiator][0]


def with_wrong_keys(tour, action, initiator, kind, right_key):
    """Each key but the right one with each key of the action: RESERVATION CONFLICT"""
    for key in KEYS[initiator]:
        if key != right_key:
            for action_key in KEYS[initiator]:
                tour.command(initiator, action, key, action_key, kind)
    tour.observe()


def all_with_wrong_keys(tour, action, kinds):
    """As above, each initiator; one that is not registered has no right key."""
    for initiator in KEYS:
        right_key = own_key(initiator) if initiator in dict(REGISTRANTS) else None
        with_wrong_keys(tour, action, initiator, next(kinds), right_key)


@row("persistent-reserve-out/register-under-each-type")
def register():
    """Each initiator registers, unregisters and changes its key under each type (SPC-4, 5.13)"""
    tour = tour_of_four()
    refused_types, count = cycle(ANY_TYPE), 0
    for held_type in SECTIONS:
        tour.section(held_type)
        for initiator in KEYS:
            right_key = own_key(initiator) if initiator in dict(REGISTRANTS) else 0
            with_wrong_keys(tour, "REGISTER", initiator, next(refused_types), right_key)
            kind = (held_type or 0x1, 0xFF, 0x00)[count % 3]
            count += 1
            for action_key in reversed(KEYS[initiator]):
                tour.command(initiator, "REGISTER", right_key, action_key, kind)
    return tour.lines


@row("persistent-reserve-out/register-and-ignore-existing-key-under-each-type")
def register_and_ignore():
    """As REGISTER, with any RESERVATION KEY, as the action ignores it"""
    tour = tour_of_four()
    for count, held_type in enumerate(SECTIONS):
        tour.section(held_type)
        for initiator, keys in KEYS.items():
            for place, action_key in enumerate(reversed(keys)):
                key = keys[(place + count) % len(keys)]
                tour.command(initiator, "REGISTER AND IGNORE EXISTING KEY", key, action_key)
    return tour.lines


@row("persistent-reserve-out/clear-under-each-type")
def clear():
    """CLEAR of each initiator; it ignores SCOPE, TYPE and the key of the action"""
    tour = tour_of_four()
    kinds = cycle(ANY_TYPE)
    for held_type in SECTIONS:
        tour.section(held_type)
        all_with_wrong_keys(tour, "CLEAR", kinds)
        for initiator in (0, 1, 2):
            for action_key in KEYS[initiator]:
                tour.command(initiator, "CLEAR", own_key(initiator), action_key, next(kinds))
    return tour.lines


@row("persistent-reserve-out/reserve-under-each-type", "RESERVE")
@row("persistent-reserve-out/release-under-each-type", "RELEASE")
def reserve_and_release(action):
    """Under each type, each initiator asks for each type, and for the reservation's type last"""
    tour = tour_of_four()
    for held_type in SECTIONS:
        tour.section(held_type)
        all_with_wrong_keys(tour, action, cycle([held_type or 0x1]))
        kinds = sorted(TYPES, key=lambda kind: kind == held_type)
        for initiator in (0, 1, 2):
            action_keys = cycle(KEYS[initiator])
            for kind in kinds:
                tour.command(initiator, action, own_key(initiator), next(action_keys), kind)
        tour.observe()
    return tour.lines


@row("persistent-reserve-out/shared-keys-under-each-type")
def shared_keys():
    """Each action, if 0 and 2 have one key, and 3 and 5 another: each is registered by itself"""
    tour = Tour([(0, C), (1, B), (2, C), (3, A), (5, A)], range(6))
    for held_type in SECTIONS:
        tour.section(held_type)
        kind = held_type or 0x1
        for initiator, wrong_keys in ((0, (B, A, F, 0)), (3, (C,))):
            for action in ACTIONS[:6]:
                for key in wrong_keys:
                    for action_key in (C, B, A, F, 0):
                        tour.command(initiator, action, key, action_key, kind)
        tour.observe()
        tour.command(0, "REGISTER", C, C)
        tour.command(0, "PREEMPT", C, C, kind)
        tour.command(0, "REGISTER", C, B)
        tour.command(3, "REGISTER", A, C)
        tour.command(0, "REGISTER AND IGNORE EXISTING KEY", A, B)
        tour.command(0, "PREEMPT AND ABORT", C, B, kind)
        tour.command(0, "REGISTER", C, A)
        tour.command(0, "PREEMPT", C, A, kind)
        tour.command(0, "REGISTER", C, F)
        tour.command(3, "REGISTER AND IGNORE EXISTING KEY", A, C)
        tour.command(0, "REGISTER AND IGNORE EXISTING KEY", 0, F)
        tour.command(0, "PREEMPT AND ABORT", C, F, kind)
        tour.command(0, "REGISTER", C, 0)
        tour.command(0, "PREEMPT", C, 0, kind)
        tour.observe()
        for initiator, key in ((0, C), (3, A)):
            tour.command(initiator, "RESERVE", key, C, held_type or 0x6)
            tour.command(initiator, "RELEASE", key, C, held_type or 0x6)
        tour.observe()
        tour.command(0, "CLEAR", C, C)
        tour.command(0, "REGISTER AND IGNORE EXISTING KEY", C, F)
    return tour.lines


# ------------------------------------------------------------------- fields of the CDB and the list


@row("persistent-reserve-out/each-scope-and-type")
def each_scope_and_type():
    """Each SCOPE and TYPE: refused by RESERVE, RELEASE and a PREEMPT that takes (SPC-4, 6.16.1)

    The other actions ignore both.
    """
    def is_valid(scope_and_type):
        return scope_and_type in TYPES

    tour = Tour([(0, A), (1, B)], (0, 1, 2))
    tour.hold(None)
    tour.lines.append("# RESERVE and RELEASE")
    for kind in range(256):
        tour.send(reserve_out(0, "RESERVE", A, 0, kind))
        if is_valid(kind):
            tour.send(reserve_in(7, 1))
        tour.send(reserve_out(0, "RELEASE", A, 0, kind))
        tour.take_attentions()
    tour.lines.append("# PREEMPT that takes the reservation")
    tour.send(reserve_out(0, "RESERVE", A, 0, 0x1))
    for kind in range(256):
        tour.send(reserve_out(0, "PREEMPT", A, A if kind < 0x8 else 0, kind))
        if is_valid(kind):
            tour.send(reserve_in(7, 1), reserve_in(7, 0))
            tour.take_attentions()
        if kind == 0x8:  # the PREEMPT before it has removed 1
            tour.send(reserve_out(1, "REGISTER", 0, B))
    tour.lines.append(
        "# PREEMPT of a key of nobody, REGISTER, and REGISTER AND IGNORE EXISTING KEY")
    for kind in (*range(16), 0x10, 0x20, 0x40, 0x80, 0xFF):
        tour.send(
            reserve_out(0, "PREEMPT AND ABORT", A, F, kind),
            reserve_out(1, "REGISTER", B, B, kind),
            reserve_out(2, "REGISTER AND IGNORE EXISTING KEY", B, 0, kind),
            reserve_out(2, "CLEAR", B, 0, kind))
    tour.is_observed = False
    tour.observe()
    return tour.lines


@row("persistent-reserve-out/list-lengths")
def list_lengths():
    """Each PARAMETER LIST LENGTH but 24 is an error, and less data-out than it comes before that"""
    def cdb(action, length, kind=0):
        return bytes([0x5F, action, kind, 0, 0]) + length.to_bytes(4, "big") + b"\0"

    yield from POWER_ON_TAKEN
    yield reserve_out(0, "REGISTER", 0, A)
    own = A.to_bytes(8, "big")
    for length in range(50):
        yield raw(0, cdb(0, length), own + own + bytes(34))
    for length in (0x118, 0x18000, 0x18000000, 0x01000018, 0xFFFFFFFF, 0x80000018):
        yield raw(0, cdb(0, length), own + B.to_bytes(8, "big") + bytes(8))
    for length in range(26):
        yield raw(0, cdb(0, 24), (own + own + bytes(9))[:length])
    for action in range(7):
        for length, present in ((23, 23), (25, 25), (24, 23)):
            yield raw(0, cdb(action, length, 0x01), own + bytes(present - 8))
    yield from (reserve_in(7, 0), reserve_in(7, 1), test_unit_ready(0), test_unit_ready(1))


@row("persistent-reserve-out/each-flag")
def each_flag():
    """SPEC_I_PT, ALL_TG_PT, APTPL and the reserved bits of list byte 20 (SPC-4, 6.16.3)

    On a base disk each action refuses SPEC_I_PT, and those that register refuse ALL_TG_PT. An
    extended disk takes ALL_TG_PT. It takes SPEC_I_PT of REGISTER, whose list is too short here.
    """
    yield from POWER_ON_TAKEN
    yield reserve_out(0, "REGISTER", 0, A)
    for number, action in enumerate(ACTIONS_OF_BOTH):
        yield f"# service action {number}"
        for flags in (*(1 << bit for bit in range(8)), 0xFF, 0xF2, 0x0D, 0x05, 0x09):
            yield reserve_out(2, action, 0, 0, 0x01, flags)
    yield "# bytes that the list reserves do not matter"

    def with_reserved_bytes(initiator, action, key, action_key, kind, flags):
        cdb = bytes([0x5F, ACTIONS.index(action), kind, 0, 0, 0, 0, 0, 24, 0])
        keys = key.to_bytes(8, "big") + action_key.to_bytes(8, "big")
        return raw(initiator, cdb, keys + bytes([255, 255, 255, 255, flags, 255, 255, 255]))

    observed = (reserve_in(7, 0), reserve_in(7, 1), *map(test_unit_ready, (0, 2, 4)))
    yield with_reserved_bytes(2, "REGISTER", 0, B, 0xFF, 0xF2)
    yield with_reserved_bytes(2, "RESERVE", B, F, 0x05, 0xF7)
    yield with_reserved_bytes(0, "RELEASE", A, F, 0x05, 0xF7)
    yield with_reserved_bytes(2, "PREEMPT", B, A, 0x0F, 0xF7)
    yield with_reserved_bytes(2, "REGISTER AND IGNORE EXISTING KEY", F, C, 0xFF, 0xF2)
    yield with_reserved_bytes(2, "PREEMPT AND ABORT", C, C, 0x06, 0xF7)
    yield from observed
    yield with_reserved_bytes(2, "RELEASE", C, 0, 0x06, 0xF7)
    yield with_reserved_bytes(2, "CLEAR", C, 0, 0x06, 0xF7)
    yield from observed


# -------------------------------------------------------------------- TransportIDs, for an extended disk


def register_together(caller, key, transport_ids, listed=None):
    """REGISTER with SPEC_I_PT. PARAMETER LIST LENGTH is the length of the list, unless it is given."""
    data = (bytes(8) + key.to_bytes(8, "big") + bytes([0, 0, 0, 0, SPEC_I_PT, 0, 0, 0])
            + len(transport_ids).to_bytes(4, "big") + transport_ids)
    length = len(data) if listed is None else listed
    return raw(caller, bytes([0x5F, 0, 0, 0, 0]) + length.to_bytes(4, "big") + b"\0", data)


@row("persistent-reserve-out/each-bit-of-a-transport-id", profile="extended")
def each_bit_of_a_transport_id():
    """Each bit of a TransportID is turned. It names no initiator then, or another one (SPC-4, 7.6.4)."""
    yield from POWER_ON_TAKEN
    for named in (5, 0):
        for bit in range(8 * len(transport_id(named))):
            other = bytearray(transport_id(named))
            other[bit // 8] ^= 0x80 >> bit % 8
            yield register_together(6, A, bytes(other))
            if bytes(other) in map(transport_id, INITIATORS["extended"]):
                yield from (reserve_in(6, 3), reserve_out(6, "CLEAR", A))
    yield reserve_in(6, 3)


@row("persistent-reserve-out/each-length-of-a-list-with-spec-i-pt", profile="extended")
def each_length_of_a_list_with_spec_i_pt():
    """Only a list of whole TransportIDs is accepted, with up to 64 of them (SPC-4, 6.16.3)

    First TRANSPORTID PARAMETER DATA LENGTH is right, in lists of up to nine TransportIDs, and of 62 to 65.
    Then it is that of three TransportIDs, whatever PARAMETER LIST LENGTH is.
    """
    names = b"".join(map(transport_id, (4, 2, 7, 2, 1, 4, 4, 0, 3, 5, *range(8, 64))))
    yield from POWER_ON_TAKEN
    for length in (*range(10 * 24), *range(62 * 24, 66 * 24)):
        yield register_together(6, B, names[:length])
        if length % 24 == 0 and length <= 64 * 24:
            yield from (reserve_in(6, 3), reserve_out(6, "CLEAR", B))
    for listed in range(28 + 3 * 24 + 1):
        yield register_together(6, C, names[:3 * 24], listed)
    yield reserve_in(6, 3)


# ------------------------------------------------------- REGISTER AND MOVE, which an extended disk has


def list_of_move(key, action_key, names, flags=0):
    """The list of REGISTER AND MOVE to the one target port (SPC-4, 6.16.4)"""
    return (key.to_bytes(8, "big") + action_key.to_bytes(8, "big") + bytes([0, flags, 0, 1])
            + len(names).to_bytes(4, "big") + names)


def move(caller, data, listed=None):
    """REGISTER AND MOVE. PARAMETER LIST LENGTH is the length of the list, unless it is given."""
    length = len(data) if listed is None else listed
    cdb = bytes([0x5F, ACTIONS.index("REGISTER AND MOVE"), 0, 0, 0]) + length.to_bytes(4, "big") + b"\0"
    return raw(caller, cdb, data)


@row("persistent-reserve-out/register-and-move-under-each-type", profile="extended")
def register_and_move():
    """Each initiator moves the reservation to each kind of initiator, under each type (SPC-4, 5.13)

    1 is a registrant, 3 is one that shares its key, and 63 is not registered. 0 is the holder, unless
    each registrant is.
    """
    tour = Tour(REGISTRANTS, (*range(5), 63), "extended")
    for held_type in SECTIONS:
        tour.section(held_type)
        for caller, keys in KEYS.items():
            for key in keys[1:]:
                tour.attempt(move(caller, list_of_move(key, F, transport_id(63))))
            for named, action_key, flags in product((1, 3, 63, 0), (A, C, F, 0), (0, UNREG)):
                data = list_of_move(keys[0], action_key, transport_id(named), flags)
                tour.attempt(move(caller, data))
    return tour.lines


@row("persistent-reserve-out/each-length-of-a-list-of-register-and-move", profile="extended")
def each_length_of_a_list_of_register_and_move():
    """Only a list with one whole TransportID is accepted (SPC-4, 6.16.4)

    TRANSPORTID PARAMETER DATA LENGTH is right first. Then it is that of one TransportID, whatever
    PARAMETER LIST LENGTH is.
    """
    names = b"".join(map(transport_id, (4, 2, 7, 2, 1, 4, 4, 0, 3, 5)))
    tour = Tour([(6, A)], (4, 6), "extended")
    tour.hold(0x3)
    for length in range(len(names) + 1):
        tour.attempt(move(6, list_of_move(A, B, names[:length])))
    for listed in range(24 + 3 * 24 + 1):
        tour.attempt(move(6, list_of_move(A, B, names[:24]) + names[24:3 * 24], listed))
    tour.observe()
    return tour.lines


@row("persistent-reserve-out/each-bit-of-a-list-of-register-and-move", profile="extended")
def each_bit_of_a_list_of_register_and_move():
    """Each bit of a list is turned: a fault, another key or initiator, a flag, or ignored (SPC-4, 6.16.4)"""
    data = list_of_move(A, B, transport_id(4))
    tour = Tour([(6, A)], (*range(8), 12, 20, 36), "extended")
    tour.hold(0x1)
    for bit in range(8 * len(data)):
        other = bytearray(data)
        other[bit // 8] ^= 0x80 >> bit % 8
        tour.attempt(move(6, bytes(other)))
    tour.observe()
    return tour.lines

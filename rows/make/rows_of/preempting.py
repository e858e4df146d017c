"""Rows of PREEMPT, PREEMPT AND ABORT, and of registrants that leave (SPC-4, 5.13)."""

from itertools import cycle

from rows_of import row
from rows_of.persistent_reserve_out import TYPES, all_with_wrong_keys, own_key, tour_of_four
from rows_of.tour import SECTIONS, Tour, A, B, C, F

# SCOPE and TYPE of each PREEMPT with the sender's own key, in their order. A PREEMPT that takes the
# reservation is refused with this one, and then has each valid type. Others ignore it.
KINDS_OF_PREEMPT = {
    None: "01 05 07 00 04  0F 25 01 05 07  00 04 0F 25 01",
    0x1: "01 00 01 11 05  01 F8 01 04 08  01 25 01 F8 05",
    0x3: "03 11 03 0F 01  03 0F 03 02 06  03 09 03 25 01",
    0x5: "05 04 05 09 07  05 02 05 00 03  05 00 05 11 07",
    0x6: "06 F8 06 04 05  06 25 06 F8 08  06 11 06 0F 05",
    0x7: "04 01 07 02 01  02 06 07 25 06  00 01 07 09 01",
    0x8: "F8 07 08 00 07  25 03 08 11 03  11 07 08 04 07",
}
# As above. One that takes the reservation has three: a refused one, the reservation's, another one.
KINDS_OF_PREEMPT_AND_ABORT = {
    None: "06 08 02 09 11  F8 03 06 08 02  09 11 F8 03 06",
    0x1: "01 09/01/01 0F 08 01  25 25/01/08 05 01 02  05 02/01/07 01 0F 08",
    0x3: "03 0F/03/07 F8 06 03  02 F8/03/06 01 03 0F  01 04/03/05 03 F8 06",
    0x5: "05 11/05/05 04 03 05  0F 00/05/03 07 05 F8  07 09/05/01 05 04 03",
    0x6: "06 25/06/01 11 08 06  F8 02/06/08 05 06 04  05 0F/06/07 06 11 08",
    0x7: "11/07/05 07 00 06 07  00/07/03 09 01 07 11  09/07/01 06 07 00 06",
    0x8: "25/08/01 08 09 03 08  02/08/08 25 07 08 00  0F/08/07 03 08 09 03",
}


def takes_reservation(held_type, action_key):
    """Whether a PREEMPT with this key takes the reservation, if 0 holds it with key A"""
    if held_type is None:
        return False
    return action_key == (0 if held_type in (0x7, 0x8) else A)


def preempts(tour, action, kinds):
    """Each initiator preempts each key, with a wrong key of its own, and with the right one."""
    all_with_wrong_keys(tour, action, cycle([tour.held_type or 0x1]))
    kinds = iter(kinds)
    for initiator in (0, 1, 2):
        for action_key in (0, A, B, C, F):
            for kind in next(kinds):
                tour.command(initiator, action, own_key(initiator), action_key, kind)
    tour.observe()


@row("persistent-reserve-out/preempt-without-reservation", None)
@row("persistent-reserve-out/preempt-under-write-exclusive", 0x1)
@row("persistent-reserve-out/preempt-under-exclusive-access", 0x3)
@row("persistent-reserve-out/preempt-under-write-exclusive-registrants-only", 0x5)
@row("persistent-reserve-out/preempt-under-exclusive-access-registrants-only", 0x6)
@row("persistent-reserve-out/preempt-under-write-exclusive-all-registrants", 0x7)
@row("persistent-reserve-out/preempt-under-exclusive-access-all-registrants", 0x8)
def preempt(held_type):
    """PREEMPT of each key by each initiator (SPC-4, 5.13); one that takes has each type"""
    tour = tour_of_four()
    tour.hold(held_type)
    kinds = [[int(kind, 16)] for kind in KINDS_OF_PREEMPT[held_type].split()]
    for place, action_key in enumerate(3 * (0, A, B, C, F)):
        if takes_reservation(held_type, action_key):
            kinds[place] += TYPES
    preempts(tour, "PREEMPT", kinds)
    return tour.lines


@row("persistent-reserve-out/preempt-and-abort-under-each-type")
def preempt_and_abort():
    """PREEMPT AND ABORT of each key under each type does as PREEMPT: no command is left to abort"""
    tour = tour_of_four()
    for held_type in SECTIONS:
        tour.section(held_type)
        preempts(tour, "PREEMPT AND ABORT", [
            [int(kind, 16) for kind in kinds.split("/")]
            for kinds in KINDS_OF_PREEMPT_AND_ABORT[held_type].split()])
    return tour.lines


PREEMPTS = {"P": "PREEMPT", "A": "PREEMPT AND ABORT"}


@row("persistent-reserve-out/preempt-of-a-key-that-the-holder-shares")
def holder_shares_its_key():
    """0 and 2 have the same key, and 0 reserves: who preempts that key takes, or only removes"""
    tour = Tour([(0, C), (1, B), (2, C), (3, A)], range(5))
    actions_and_types = {  # of 0, 1 and 2 with key C, in twos, and then of each with key 0
        None: "P1 P3 A1",
        0x1: "A7 A1 P1  A1 P5 P1  P7 P1 A1",
        0x3: "P3 A6 A3  A8 A3 P3  A3 P6 P3",
        0x5: "P1 P5 A5  P5 A7 A5  A1 A5 P5",
        0x6: "A6 P8 P6  P3 P6 A6  P6 A8 A6",
        0x7: "A5 P7  P7 A7  A1 P7",
        0x8: "P6 A8  A8 P8  P3 A8",
    }
    for held_type, sent in actions_and_types.items():
        tour.section(held_type)
        sent = sent.split()
        for place, (action, kind) in enumerate(sent):
            each = len(sent) // 3
            initiator, is_last = place // each, place % each == each - 1
            action_key = 0 if is_last and held_type else C
            key = B if initiator == 1 else C
            tour.command(initiator, PREEMPTS[action], key, action_key, int(kind))
        tour.observe()
    return tour.lines


@row("persistent-reserve-out/preempt-of-a-key-that-all-share")
def all_share_a_key():
    """Three registrants have one key: the sender stays only if it takes the reservation"""
    tour = Tour([(0, C), (1, C), (2, C)], (0, 1, 2, 4))
    other_types = {0x7: (0x8, 0x1), 0x8: (0x1, 0x3)}
    for held_type in SECTIONS:
        tour.section(held_type)
        for initiator in (0, 1):
            kind = held_type or 0x3
            sent = [(C, kind), (F, kind)]
            if held_type in other_types:
                sent[1:1] = [(0, kind), (0, other_types[held_type][initiator])]
            for place, (action_key, kind) in enumerate(sent):
                action = PREEMPTS["PA"[(place + initiator) % 2]]
                tour.command(initiator, action, C, action_key, kind)
            tour.observe()
    return tour.lines


@row("persistent-reserve-out/a-registrant-alone-under-each-type")
def registrant_alone():
    """The only registrant preempts itself, unregisters, clears and releases (SPC-4, 5.13)"""
    tour = Tour([(5, A)], (4, 5))
    others = {"PREEMPT": cycle((0x7, 0x8, *TYPES)), "PREEMPT AND ABORT": cycle((0x8, *TYPES))}
    for held_type in SECTIONS:
        tour.section(held_type)
        for action, other_types in others.items():
            other_type = next(other_types)
            for action_key in (0, A, F):
                for kind in (held_type or 0x1, other_type):
                    tour.command(5, action, A, action_key, kind)
            tour.observe()
        tour.command(5, "REGISTER", A, 0)
        tour.command(5, "REGISTER AND IGNORE EXISTING KEY", F, 0)
        tour.command(5, "CLEAR", A, 0)
        tour.command(5, "RELEASE", A, 0, held_type or 0x1)
        tour.observe()
    return tour.lines


@row("persistent-reserve-out/registrants-leave-one-after-the-other-under-each-type")
def registrants_leave():
    """Three registrants leave, the holder first or last: when the reservation ends, who is told"""
    tour = Tour([(0, A), (1, B), (2, C)], range(3))
    for held_type in SECTIONS:
        for order in ((0, 1, 2), (2, 1, 0)):
            tour.section(held_type)
            for initiator in order:
                action = "REGISTER AND IGNORE EXISTING KEY" if initiator == 1 else "REGISTER"
                tour.step(initiator, action, own_key(initiator), 0)
    return tour.lines

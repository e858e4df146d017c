"""Unit attention conditions (SAM-5, 5.14): which ones exist, and how a queue of them grows.

A condition is its additional sense code with the qualifier, as in `sense`. A queue has the pending
conditions of an initiator, and the disk reports the first one next.
"""

import sense

# Conditions of a reset or of a lost I_T nexus, the one with the highest precedence first.
RESETS = (
    sense.POWER_ON_RESET_OR_BUS_DEVICE_RESET_OCCURRED,
    sense.DEVICE_INTERNAL_RESET,
    sense.SCSI_BUS_RESET_OCCURRED,
    sense.BUS_DEVICE_RESET_FUNCTION_OCCURRED,
    sense.I_T_NEXUS_LOSS_OCCURRED,
)
OTHERS = (
    sense.MEDIUM_MAY_HAVE_CHANGED,
    sense.MODE_PARAMETERS_CHANGED,
    sense.RESERVATIONS_PREEMPTED,
    sense.RESERVATIONS_RELEASED,
    sense.REGISTRATIONS_PREEMPTED,
    sense.ASYMMETRIC_ACCESS_STATE_CHANGED,
    sense.CAPACITY_DATA_HAS_CHANGED,
    sense.THIN_PROVISIONING_SOFT_THRESHOLD_REACHED,
    sense.MICROCODE_HAS_BEEN_CHANGED,
    sense.INQUIRY_DATA_HAS_CHANGED,
    sense.REPORTED_LUNS_DATA_HAS_CHANGED,
)
CONDITIONS = RESETS + OTHERS


def with_condition(queue, code):
    """The queue after a condition is established (docs/PROFILE.md, "Unit attentions").

    Of resets the one with the highest precedence is pending, and it is reported before all others.
    Another condition is pending once, and is reported after those that were pending before it.
    """
    if code not in RESETS:
        return queue if code in queue else [*queue, code]
    others = [other for other in queue if other not in RESETS]
    pending = [other for other in queue if other in RESETS]
    return [min([*pending, code], key=RESETS.index), *others]

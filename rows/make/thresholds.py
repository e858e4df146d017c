"""The thresholds of an extended disk's pool (SBC-3, 4.7): whether a command crosses one, and who is told.

Mode page 1Ch/02h has a threshold of the available threshold sets, and one of the used sets (SBC-3, 6.4).
"""

from modes import ERROR_RECOVERY, PROVISIONING

# The values of page 01h begin at its byte 2, and the values of page 1Ch/02h at its byte 4.
LBPERE_AT, LBPERE = 7 - 2, 0x80
SITUA_AT, SITUA = 4 - 4, 0x01
OF_AVAILABLE, OF_USED = 16 - 4, 24 - 4  # the threshold descriptors
ENABLED = 0x80


def are_crossed(device, before):
    """Whether a command has crossed an enabled threshold. `before` has the available and the used sets before
    it.

    The available sets fall to THRESHOLD COUNT, or the used ones rise to it: THRESHOLD ARMING is 0 and 1.
    """
    if device.profile == "base" or not device.modes.current[ERROR_RECOVERY][LBPERE_AT] & LBPERE:
        return False
    after = device.provisioning.threshold_sets(device.profile)
    page = device.modes.current[PROVISIONING]
    falls = before[0] > threshold_count(page, OF_AVAILABLE) >= after[0]
    rises = before[1] < threshold_count(page, OF_USED) <= after[1]
    return bool(page[OF_AVAILABLE] & ENABLED and falls or page[OF_USED] & ENABLED and rises)


def threshold_count(page, descriptor):
    return int.from_bytes(page[descriptor + 4:descriptor + 8], "big")


def tell_only_sender(device):
    """SITUA: only the initiator whose command crosses a threshold is told (SBC-3, 6.4)."""
    return bool(device.modes.current[PROVISIONING][SITUA_AT] & SITUA)

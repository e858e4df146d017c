"""A proved SCSI disk in memory or in a file, by the library for C: docs/PYTHON.md.

It needs only Python 3.8 or later, and the shared object of the library. Only one thread at a time may
use a disk."""
from . import commands
from ._library import (ANY_PROFILE, BUFFER_LENGTH, DATA_OUT_LENGTH, INITIATORS, MOST_INITIATORS,
                       NO_TEXT, Command, Damage, Error, Fault, FaultOutcome, Happening,
                       HappeningRecord, IdentityRecord, Kind, Profile, ReplyRecord, Sense, Slot)
from .commands import ReserveIn, ReserveOut
from .disk import (BUSY, CHECK_CONDITION, GOOD, NO_REPLY, RESERVATION_CONFLICT, TASK_SET_FULL,
                   BadStatus, CheckCondition, Disk, Initiator, Refused, Reply, SenseKey, Status,
                   decode, identity, identity_of_seed, kind_of, read_happening, version)
from .lists import ReservationType, reserve_out_list, unmap_list

# The module that this package was had these names for its own use.
from ._cdb import within
from ._library import LIBRARY, load
from .disk import check, mask_of, text_of, words_of

__all__ = [
    "ANY_PROFILE", "BUFFER_LENGTH", "BUSY", "BadStatus", "CHECK_CONDITION", "CheckCondition",
    "Command", "DATA_OUT_LENGTH", "Damage", "Disk", "Error", "Fault", "FaultOutcome", "GOOD",
    "Happening", "HappeningRecord", "INITIATORS", "IdentityRecord", "Initiator", "Kind",
    "MOST_INITIATORS", "NO_REPLY", "NO_TEXT", "Profile", "RESERVATION_CONFLICT", "Refused", "Reply",
    "ReplyRecord", "ReservationType", "ReserveIn", "ReserveOut", "Sense", "SenseKey", "Slot",
    "Status", "TASK_SET_FULL", "commands", "decode", "identity", "identity_of_seed", "kind_of",
    "read_happening", "reserve_out_list", "unmap_list", "version",
]

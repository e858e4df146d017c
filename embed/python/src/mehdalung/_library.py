"""The shared object of the library for C: its numbers, its structures, and where it is found."""
import ctypes
import os
from ctypes import c_int, c_size_t, c_uint8, c_uint16, c_uint32, c_uint64, c_void_p
from enum import IntEnum
from pathlib import Path

INITIATORS = 8
MOST_INITIATORS = 64
BUFFER_LENGTH = 1_048_576
DATA_OUT_LENGTH = 1_032
NO_TEXT = c_size_t(-1).value
ANY_PROFILE = 0xFFFFFFFF


class Error(IntEnum):
    """mdl_error."""
    OK = 0
    NO_DISK = 1
    DISK_EXISTS = 2
    BLOCKS = 3
    POOL = 4
    IDENTITY_TEXT = 5
    IDENTITY_LOCAL = 6
    OUT_OF_MEMORY = 7
    NO_INITIATOR = 8
    BUFFER_TOO_SHORT = 9
    NULL_POINTER = 10
    UNREADABLE = 11
    BAD_BYTE = 12
    TOO_MANY_WORDS = 13
    UNKNOWN_TOOL = 14
    USAGE = 15
    EXCLUSIVE = 16
    NUMBER = 17
    UNKNOWN_PROFILE = 18
    UNKNOWN_HAPPENING = 19
    UNKNOWN_CONDITION = 20
    UNKNOWN_FAULT = 21
    SENSE_KEY = 22
    FAULT_FLAG = 23
    FAULT_NUMBER = 24
    FAULTS = 25
    UNKNOWN_VERB = 26
    FILE_FAILED = 27
    FILE_BUSY = 28
    NOT_A_DISK = 29
    OTHER_VERSION = 30
    DAMAGED_FILE = 31
    FILE_TOO_LONG = 32
    OTHER_PROFILE = 33
    OTHER_BLOCKS = 34
    OTHER_POOL = 35
    OTHER_IDENTITY = 36
    CANNOT_OPEN = 39
    NO_FILE = 40
    FLUSH_OWED = 41


class Profile(IntEnum):
    """mdl_profile: the commands and the initiators that a disk has, what it does with too little data-out,
    and the length of the physical blocks that it reports."""
    BASE = 0
    EXTENDED = 1
    EXTENDED_CUT = 2
    EXTENDED_512E = 3


class FaultOutcome(IntEnum):
    """mdl_fault_outcome: what an armed fault does to a command, and where it meets the command."""
    ARRIVAL_BUSY = 0
    ARRIVAL_TASK_SET_FULL = 1
    ARRIVAL_RESERVATION_CONFLICT = 2
    ARRIVAL_NO_REPLY = 3
    ARRIVAL_CHECK_CONDITION = 4
    ARRIVAL_DEFERRED_ERROR = 5
    MEDIUM_CHECK_CONDITION = 6
    MEDIUM_MOVES_ONLY = 7
    AFTER_NO_REPLY = 8
    AFTER_CHECK_CONDITION = 9
    AFTER_SHORT_DATA_IN = 10


class Happening(IntEnum):
    """mdl_happening_kind: what can happen to a disk between two commands."""
    POWER_CYCLE = 0
    LOGICAL_UNIT_RESET = 1
    TARGET_RESET = 2
    NEXUS_LOSS = 3
    ATTENTION = 4
    GROW = 5
    ARM = 6
    DISARM = 7
    DISARM_ALL = 8


class Kind(IntEnum):
    """mdl_kind: what the bytes of an answer are."""
    NOTHING = 0
    HEX = 1
    INQUIRY = 2
    VPD = 3
    MODES_6 = 4
    MODES_10 = 5
    LBA_STATUS = 6
    LBA_STATUS_BRIEF = 7
    KEYS = 8
    RESERVATION = 9
    CAPABILITIES = 10
    FULL_STATUS = 11
    SENSE = 12
    INQUIRY_EXTENDED = 13
    VPD_EXTENDED = 14
    SENSE_EXTENDED = 15
    LUNS = 16
    ALL_COMMANDS = 17
    ONE_COMMAND = 18
    TASK_MANAGEMENT = 19
    LOG_PAGE = 20
    CAPACITY_10 = 21
    CAPACITY_16 = 22
    DEFECTS_10 = 23
    DEFECTS_12 = 24
    CAPABILITIES_EXTENDED = 25
    FULL_STATUS_EXTENDED = 26


class Slot(ctypes.Structure):
    """mdl_disk."""
    _fields_ = [("target", c_void_p)]


class IdentityRecord(ctypes.Structure):
    """mdl_identity."""
    _fields_ = [("vendor", c_uint8 * 8), ("product", c_uint8 * 16), ("revision", c_uint8 * 4),
                ("serial", c_uint8 * 8), ("local", c_uint64)]


class ReplyRecord(ctypes.Structure):
    """mdl_reply."""
    _fields_ = [("status", c_uint8), ("sense_length", c_uint8), ("sense", c_uint8 * 20),
                ("data_in_length", c_size_t), ("data_out_length", c_uint64), ("visits", c_uint64),
                ("probes", c_uint64), ("links", c_uint64)]


class Fault(ctypes.Structure):
    """mdl_fault."""
    _fields_ = [("initiators", c_uint64), ("lba", c_uint64), ("count", c_uint32),
                ("outcome", c_uint32), ("blocks", c_uint32), ("skip", c_uint16),
                ("times", c_uint16), ("has_code", c_uint8), ("code", c_uint8),
                ("healed_by_writes", c_uint8), ("key", c_uint8), ("asc", c_uint8),
                ("ascq", c_uint8)]
    initiators: int
    lba: int
    count: int
    outcome: int
    blocks: int
    skip: int
    times: int
    has_code: int
    code: int
    healed_by_writes: int
    key: int
    asc: int
    ascq: int


class HappeningRecord(ctypes.Structure):
    """mdl_happening."""
    _fields_ = [("kind", c_uint32), ("initiator", c_uint32), ("initiators", c_uint64),
                ("blocks", c_uint64), ("asc", c_uint8), ("ascq", c_uint8), ("number", c_uint8),
                ("fault", Fault)]
    kind: int
    initiator: int
    initiators: int
    blocks: int
    asc: int
    ascq: int
    number: int
    fault: Fault


class Damage(ctypes.Structure):
    """mdl_damage: where a file is damaged."""
    _fields_ = [("batch", c_uint64), ("offset", c_uint64)]
    batch: int
    offset: int


class Command(ctypes.Structure):
    """mdl_command."""
    _fields_ = [("cdb", c_uint8 * 16), ("cdb_length", c_uint8), ("kind", c_uint32),
                ("data_out_length", c_size_t)]


class Sense(ctypes.Structure):
    """mdl_sense: the fields of sense data. A missing field is 0."""
    _fields_ = [("key", c_uint8), ("asc", c_uint8), ("ascq", c_uint8), ("has_information", c_uint8),
                ("has_pointer", c_uint8), ("in_command", c_uint8), ("byte", c_uint16),
                ("information", c_uint64)]
    key: int
    asc: int
    ascq: int
    has_information: int
    has_pointer: int
    in_command: int
    byte: int
    information: int


# The functions of the header: what each returns, and its parameters. An mdl_error is an int.
SLOT, BYTES = ctypes.POINTER(Slot), ctypes.c_char_p
EXECUTE = [SLOT, c_uint32, BYTES, c_size_t, BYTES, c_size_t, c_void_p, c_size_t,
           ctypes.POINTER(ReplyRecord)]
IDENTITY = ctypes.POINTER(IdentityRecord)
PROTOTYPES = {
    "mdl_make": (c_int, [SLOT, c_uint64, c_uint32, IDENTITY]),
    "mdl_make_with_profile": (c_int, [SLOT, c_uint32, c_uint64, c_uint32, IDENTITY]),
    "mdl_identity_of_seed": (c_int, [c_uint64, IDENTITY]),
    "mdl_open": (c_int, [SLOT, BYTES, c_uint32, c_uint64, c_uint32, IDENTITY,
                         ctypes.POINTER(Damage)]),
    "mdl_flush": (c_int, [SLOT]),
    "mdl_close": (c_int, [SLOT]),
    "mdl_free": (None, [SLOT]),
    "mdl_execute": (c_int, EXECUTE),
    "mdl_execute_unflushed": (c_int, EXECUTE),
    "mdl_power_cycle": (c_int, [SLOT]),
    "mdl_happen": (c_int, [SLOT, ctypes.POINTER(HappeningRecord)]),
    "mdl_read_happening": (c_int, [BYTES, ctypes.POINTER(HappeningRecord)]),
    "mdl_faults": (c_size_t, [SLOT, c_void_p, c_size_t]),
    "mdl_initiators": (c_int, [SLOT, ctypes.POINTER(c_uint32)]),
    "mdl_registered": (c_int, [SLOT, ctypes.POINTER(c_uint64)]),
    "mdl_forget": (c_int, [SLOT, c_uint32]),
    "mdl_read_sense": (c_int, [BYTES, c_size_t, ctypes.POINTER(Sense)]),
    "mdl_exit_status": (c_int, [ctypes.POINTER(ReplyRecord)]),
    "mdl_decode": (c_size_t, [c_uint32, BYTES, c_size_t, c_void_p, c_size_t]),
    "mdl_tool": (c_int, [BYTES, c_void_p, c_size_t, ctypes.POINTER(Command)]),
    "mdl_version": (c_size_t, [c_void_p, c_size_t]),
}

SONAME = "libmehdalung.so.1"
HOW_TO_GET_IT = (
    "Build it by `make -C embed` in the repository of Mehdalung, install it, or let the variable "
    "MEHDALUNG_LIBRARY name it.")


def name_of_library() -> str:
    """Returns the path of the shared object, or a name that the loader of the system finds."""
    named = os.environ.get("MEHDALUNG_LIBRARY")
    if named:
        return named
    here = Path(__file__).resolve().parent
    if (here / SONAME).exists():  # a wheel has it
        return str(here / SONAME)
    # `src/mehdalung` of the repository's `embed/python`; the header tells `embed` from other folders
    embed = here.parent.parent.parent
    built = embed / "build" / "libmehdalung.so"
    if built.exists() and (embed / "mehdalung.h").exists():
        return str(built)
    return SONAME


def load() -> ctypes.CDLL:
    """Loads the shared object. If it can't be loaded, an ImportError says how you get it."""
    name = name_of_library()
    try:
        library = ctypes.CDLL(name, use_errno=True)
    except OSError as why:
        raise ImportError(f"The library for C can't be loaded: {why}. {HOW_TO_GET_IT}") from why
    for function, (result, parameters) in PROTOTYPES.items():
        try:
            call = getattr(library, function)
        except AttributeError as why:
            raise ImportError(f"{name} is too old: it has no {function}. {HOW_TO_GET_IT}") from why
        call.restype, call.argtypes = result, parameters
    return library


LIBRARY = load()

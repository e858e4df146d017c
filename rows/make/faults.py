"""Faults that are armed on an extended disk (docs/SCRIPT.md, "Faults of an extended disk").

A fault meets chosen commands of chosen initiators, and the disk answers or acts otherwise then. What
a command is, and whether the checks pass it, is found on a copy of the disk that changes nothing.
"""

from copy import copy, deepcopy
from dataclasses import dataclass, field

from provisioning import ALL_BLOCKS
from reservations import INITIATORS, Conflict
from sense import ILLEGAL_REQUEST, INSUFFICIENT_RESOURCES, MEDIUM_ERROR, CheckCondition, Sense

MOST_FAULTS = 8
BUSY, TASK_SET_FULL, NO_REPLY = 0x08, 0x28, 0xFF  # SAM-5, the table of statuses; FFh is none of it
GOOD, CHECK_CONDITION, RESERVATION_CONFLICT = 0x00, 0x02, 0x18
STATUSES = {"busy": BUSY, "full": TASK_SET_FULL, "conflict": RESERVATION_CONFLICT,
            "silent": NO_REPLY}


@dataclass
class Fault:
    """A fault as it is armed. `what` is a word of `STATUSES`, "code", "deferred" or "first"."""

    place: str
    what: str
    value: object = None  # (sense key, code), or a number of blocks or bytes
    initiators: set = field(default_factory=lambda: set(INITIATORS["extended"]))
    code: int | None = None
    blocks: tuple | None = None  # address and count
    healed: bool = False
    skip: int = 0
    times: int | None = None

    def armed(self):
        """Each of its initiators has counts of its own."""
        self.left = {initiator: [self.skip, self.times] for initiator in self.initiators}
        return self

    def heals(self, seen):
        return self.healed and any(
            address <= self.blocks[0] and sum(self.blocks) <= address + count
            for address, count in seen.overwritten)

    def first_in(self, extents):
        """The first bad block of some extents, in the first of them that has one."""
        for address, count in extents:
            first = max(address, self.blocks[0])
            if first < min(address + count, sum(self.blocks)):
                return first
        return None

    def first_bad(self, seen):
        """The first bad block that it reads, or else the first that it overwrites."""
        return self.first_in(seen.read + seen.overwritten)

    def meets(self, seen):
        if self.code is not None and self.code != seen.code:
            return False
        if not self.blocks or self.first_in(seen.read) is not None:
            return True
        return self.first_in(seen.overwritten) is not None and not self.heals(seen)

    def strikes(self, initiator):
        """Counts a command that meets it. Whether it does something to the command."""
        left = self.left.get(initiator)
        if not left or left[1] == 0:
            return False
        if left[0]:
            left[0] -= 1
            return False
        if left[1]:
            left[1] -= 1
        return True

    def lasts(self):
        return any(times != 0 for _, times in self.left.values())


@dataclass
class Seen:
    """A command as faults see it, after its checks: the extents that it reads, and those that it writes,
    whatever they contain."""

    code: int | None
    read: list = field(default_factory=list)
    overwritten: list = field(default_factory=list)
    moves: bool = False  # it is a READ, a WRITE or a WRITE SAME that writes
    marks: int | None = None  # it is a WRITE LONG: READs of its block end with this code then

    def reaches_the_medium(self):
        """Whether it reads or writes a block. Faults at the medium meet only such commands."""
        return any(count for _, count in self.read + self.overwritten)


class Reached(Exception):
    """The checks have passed a command that reads or writes blocks."""

    def __init__(self, read=(), overwritten=(), moves=False, marks=None):
        self.found = list(read), list(overwritten), moves, marks


class Probe:
    """Provisioning of which only the capacity is known. It reports what reads or writes blocks."""

    def __init__(self, capacity):
        self.capacity = capacity

    def read(self, address, count):
        raise Reached(read=[(address, count)], moves=True)

    def compare(self, address, count, _data):
        raise Reached(read=[(address, count)])

    def compare_and_write(self, address, count, _data):
        raise Reached(read=[(address, count)])  # a bad block can't be compared, so it stays bad

    def orwrite(self, address, count, _data):
        raise Reached(read=[(address, count)])  # it needs the bits that a bad block has

    def copy(self, source, destination, count):
        raise Reached(read=[(source, count)], overwritten=[(destination, count)])

    def write(self, address, count, _block):
        raise Reached(overwritten=[(address, count)], moves=True)

    def unmap(self, extents):
        raise Reached(overwritten=extents)

    def anchor(self, extents):
        raise Reached(overwritten=extents)

    def mark(self, address, code):
        raise Reached(overwritten=[(address, 1)], marks=code)

    def status_extents(self, _start):
        return []  # it reads no block

    def threshold_sets(self, _profile):
        return 0, 0  # nor does this


def seen_by_faults(device, initiator, cdb, data_out):
    code = cdb[0] if cdb else None
    probe = copy(device)
    probe.provisioning = Probe(device.provisioning.capacity)
    probe.attentions = {initiator: [*queue] for initiator, queue in device.attentions.items()}
    probe.modes, probe.reservations = deepcopy(device.modes), deepcopy(device.reservations)
    try:
        probe.data_in(initiator, cdb, data_out)
    except Reached as reached:
        return Seen(code, *reached.found)
    except (CheckCondition, Conflict):
        pass
    return Seen(code)  # it is refused, or it reads and writes no block


class Faults:
    """The armed faults, by their numbers."""

    def __init__(self):
        self.slots = [None] * MOST_FAULTS

    def arm(self, fault):
        """Under the lowest free number. If there is none, nothing changes."""
        if None in self.slots:
            self.slots[self.slots.index(None)] = fault.armed()

    def ask(self, place, initiator, seen):
        """The first fault of the place that is due. It and those before it count the command."""
        for number, fault in enumerate(self.slots):
            if fault and fault.place == place and fault.meets(seen):
                strikes = fault.strikes(initiator)
                if not fault.lasts():
                    self.slots[number] = None
                if strikes:
                    return fault
        return None

    def healed(self, seen):
        """The faults that a command leaves if it ends with GOOD, by their numbers."""
        return [None if fault and fault.blocks and fault.heals(seen) else fault
                for fault in self.slots]


def execute(device, initiator, cdb, data_out):
    """The status, the data-in and the sense data of a command on a disk that may have faults."""
    faults = device.faults
    seen = seen_by_faults(device, initiator, cdb, data_out)
    fault = faults.ask("arrival", initiator, seen)
    if fault:
        return refused(device, fault)
    fault = faults.ask("medium", initiator, seen) if seen.reaches_the_medium() else None
    if fault and fault.what == "code":
        return refused(device, fault, fault.first_bad(seen) if fault.blocks else None)
    if seen.marks and None not in faults.healed(seen):  # no number is free for another fault
        sense = Sense(ILLEGAL_REQUEST, INSUFFICIENT_RESOURCES)
        return CHECK_CONDITION, b"", sense.data(device.modes.d_sense)
    moved = fault.value if fault else ALL_BLOCKS
    if seen.moves:
        for extents in (seen.read, seen.overwritten):
            extents[:] = [(address, min(count, moved)) for address, count in extents]
    device.provisioning.most_moved = moved
    status, data_in, sense = device.executed(initiator, cdb, data_out)
    device.provisioning.most_moved = ALL_BLOCKS
    if status != GOOD:
        return status, data_in, sense
    faults.slots = faults.healed(seen)
    if seen.marks:
        faults.arm(Fault("medium", "code", (MEDIUM_ERROR, seen.marks),
                         blocks=seen.overwritten[0], healed=True))
    fault = faults.ask("after", initiator, seen)
    if not fault:
        return status, data_in, sense
    if fault.what == "first":
        return status, data_in[:fault.value], sense
    status, _, sense = refused(device, fault)
    return status, data_in, sense


def refused(device, fault, information=None):
    if fault.what in STATUSES:
        return STATUSES[fault.what], b"", b""
    data = bytearray(Sense(*fault.value, information).data(device.modes.d_sense))
    if fault.what == "deferred":
        data[0] |= 1  # 71h or 73h: a deferred error (SPC-4, 4.5.5)
    return CHECK_CONDITION, b"", bytes(data)

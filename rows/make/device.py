"""The device server: the order of checks, happenings, and the way to each command.

docs/PROFILE.md, "The order of checks", numbers the checks; the numbers below are the same. Checks 1
to 6 are here and in `layouts.Command`. Checks 7 to 15 are in `blocks`, `copying`, `pages`, `modes`,
`reports` and `reservations`, in each command in the order of its lines.
"""

from dataclasses import dataclass

import blocks
import copying
import faults
import modes
import pages
import reports
import reservations
import sense
import thresholds
from attentions import with_condition
from layouts import OPERATION_CODES, Command, class_of, layout_of
from provisioning import Provisioning
from sense import CheckCondition, Sense, invalid_field_in_cdb

GOOD, CHECK_CONDITION, RESERVATION_CONFLICT = 0x00, 0x02, 0x18  # SAM-5, the table of statuses
INITIATORS = reservations.INITIATORS
# A pending unit attention does not stop these (SPC-4, 6.39, 6.6.1 and 6.33).
REQUEST_SENSE, INQUIRY, REPORT_LUNS = 0x03, 0x12, 0xA0
UNBLOCKED = {
    "base": (INQUIRY, REQUEST_SENSE),
    "extended": (INQUIRY, REQUEST_SENSE, REPORT_LUNS),
}

# What a disk of each name of `--profile` has: the commands of a profile, whether it takes too little
# data-out, and LOGICAL BLOCKS PER PHYSICAL BLOCK EXPONENT.
PROFILES = {
    "base": ("base", False, 0),
    "extended": ("extended", False, 0),
    "extended-cut": ("extended", True, 0),
    "extended-512e": ("extended", False, 3),
}


@dataclass
class Reply:
    status: int
    data_in: bytes = b""
    sense: bytes = b""


class Device:
    """A logical unit that was just powered on."""

    def __init__(self, capacity, pool, profile="base", seed=1):
        self.profile, self.takes_short_data_out, self.physical_exponent = PROFILES[profile]
        self.initiators = INITIATORS[self.profile]
        self.seed = seed  # of the names, 60 bits
        self.provisioning = Provisioning(capacity, pool)
        self.stopped = False
        self.modes = modes.Modes(self.profile)
        self.reservations = reservations.Reservations()
        self.faults = faults.Faults()  # they outlive resets and power cycles
        self.power_on()

    def power_on(self):
        """SAM-5, 5.14: one condition is pending for each initiator, and no other."""
        self.attentions = {
            initiator: [sense.POWER_ON_RESET_OR_BUS_DEVICE_RESET_OCCURRED]
            for initiator in self.initiators
        }

    # What happens between two commands (docs/PROFILE.md, "Happenings"). Logical blocks stay.

    def power_cycle(self):
        """Power is lost, and is on again."""
        self.stopped = False
        self.modes.become_saved()
        self.reservations.power_cycle()
        self.power_on()

    def logical_unit_reset(self):
        self.reset(sense.BUS_DEVICE_RESET_FUNCTION_OCCURRED)

    def target_reset(self):
        self.reset(sense.SCSI_BUS_RESET_OCCURRED)

    def reset(self, code):
        """SAM-5, 6.3: registrations and the reservation stay, and each initiator is told."""
        self.stopped = False
        self.modes.become_saved()
        self.raise_attention(self.initiators, code)

    def nexus_loss(self, initiator):
        """SAM-5, 6.3: it concerns one initiator."""
        self.raise_attention([initiator], sense.I_T_NEXUS_LOSS_OCCURRED)

    def grow(self, capacity):
        """SBC-3, 4.5: the disk gets more addresses, and never fewer."""
        if capacity > self.provisioning.capacity:
            self.provisioning.capacity = capacity
            self.raise_attention(self.initiators, sense.CAPACITY_DATA_HAS_CHANGED)

    def execute(self, initiator, cdb, data_out):
        if self.profile == "extended":
            return Reply(*faults.execute(self, initiator, cdb, data_out))
        return Reply(*self.executed(initiator, cdb, data_out))

    def executed(self, initiator, cdb, data_out):
        """The answer to a command that no fault stops. If the command has crossed a threshold of the pool,
        initiators are told (SBC-3, 4.7). Its answer is the same as without thresholds."""
        before = self.provisioning.threshold_sets(self.profile)
        answer = self.answer(initiator, cdb, data_out)
        if thresholds.are_crossed(self, before):
            told = [initiator] if thresholds.tell_only_sender(self) else self.initiators
            self.raise_attention(told, sense.THIN_PROVISIONING_SOFT_THRESHOLD_REACHED)
        return answer

    def answer(self, initiator, cdb, data_out):
        """The status, the data-in and the sense data"""
        try:
            return GOOD, self.data_in(initiator, cdb, data_out), b""
        except reservations.Conflict:
            return RESERVATION_CONFLICT, b"", b""
        except CheckCondition as refused:
            return CHECK_CONDITION, b"", refused.sense.data(self.modes.d_sense)

    def data_in(self, initiator, cdb, data_out):
        """What a command that ends with GOOD returns; raises whatever refuses it."""
        if not cdb:  # 1
            raise invalid_field_in_cdb(0)
        blocked = self.attentions[initiator] and cdb[0] not in UNBLOCKED[self.profile]
        if blocked and self.comes_before_a_conflict(self.attentions[initiator][0]):  # 2
            raise CheckCondition(sense.UNIT_ATTENTION, self.attentions[initiator].pop(0))
        is_known = cdb[0] in OPERATION_CODES[self.profile]
        layout = layout_of(cdb, self.profile) if is_known else None
        if layout and not self.reservations.allow(initiator, class_of(cdb, layout)):  # 3
            raise reservations.Conflict
        if blocked:  # 4
            raise CheckCondition(sense.UNIT_ATTENTION, self.attentions[initiator].pop(0))
        if not is_known:
            raise CheckCondition(sense.ILLEGAL_REQUEST, sense.INVALID_COMMAND_OPERATION_CODE)
        command = Command(cdb, layout, self.profile)  # 5 and 6
        return OPERATIONS[command.name](self, initiator, command, data_out)

    def comes_before_a_conflict(self, code):
        """SAM-5, 5.3.3: attentions with 29h do, and MICROCODE HAS BEEN CHANGED. On a base disk every
        attention does."""
        return self.profile == "base" or code >> 8 == 0x29 or code == sense.MICROCODE_HAS_BEEN_CHANGED

    def raise_attention(self, initiators, code):
        for initiator in initiators:
            self.attentions[initiator] = with_condition(self.attentions[initiator], code)


def test_unit_ready(device, _initiator, _command, _data_out):
    blocks.check_ready(device)
    return b""


def request_sense(device, initiator, command, _data_out):
    """SPC-4, 6.39: the oldest unit attention is returned as data, and cleared. Without one, the data says
    whether the unit is stopped."""
    found = Sense(sense.NO_SENSE, sense.NO_ADDITIONAL_SENSE_INFORMATION)
    if device.stopped:
        found = Sense(
            sense.NOT_READY, sense.LOGICAL_UNIT_NOT_READY_INITIALIZING_COMMAND_REQUIRED)
    if device.attentions[initiator]:
        found = Sense(sense.UNIT_ATTENTION, device.attentions[initiator].pop(0))
    return found.data(command["desc"])[:command["allocation_length"]]


OPERATIONS = {
    "TEST UNIT READY": test_unit_ready,
    "REQUEST SENSE": request_sense,
    "FORMAT UNIT": blocks.format_unit,
    "READ(6)": blocks.read,
    "WRITE(6)": blocks.write,
    "INQUIRY": pages.inquiry,
    "MODE SELECT(6)": modes.mode_select,
    "MODE SENSE(6)": modes.mode_sense,
    "START STOP UNIT": blocks.start_stop_unit,
    "SEND DIAGNOSTIC": reports.send_diagnostic,
    "READ CAPACITY(10)": blocks.read_capacity_10,
    "READ(10)": blocks.read,
    "WRITE(10)": blocks.write,
    "WRITE AND VERIFY(10)": blocks.write_and_verify,
    "VERIFY(10)": blocks.verify,
    "PRE-FETCH(10)": blocks.check_cached_range,
    "SYNCHRONIZE CACHE(10)": blocks.check_cached_range,
    "READ DEFECT DATA(10)": reports.read_defect_data,
    "WRITE LONG(10)": blocks.write_long,
    "WRITE SAME(10)": blocks.write_same,
    "UNMAP": blocks.unmap,
    "SANITIZE, BLOCK ERASE": blocks.sanitize,
    "SANITIZE, CRYPTOGRAPHIC ERASE": blocks.sanitize,
    "SANITIZE, EXIT FAILURE MODE": blocks.sanitize,
    "LOG SENSE": reports.log_sense,
    "MODE SELECT(10)": modes.mode_select,
    "MODE SENSE(10)": modes.mode_sense,
    "READ KEYS": reservations.read_keys,
    "READ RESERVATION": reservations.read_reservation,
    "REPORT CAPABILITIES": reservations.report_capabilities,
    "READ FULL STATUS": reservations.read_full_status,
    **dict.fromkeys(reservations.ACTIONS, reservations.persistent_reserve_out),
    "EXTENDED COPY(LID1)": copying.extended_copy,
    "RECEIVE COPY OPERATING PARAMETERS": copying.operating_parameters,
    "READ(16)": blocks.read,
    "COMPARE AND WRITE": blocks.compare_and_write,
    "WRITE(16)": blocks.write,
    "ORWRITE(16)": blocks.orwrite,
    "WRITE AND VERIFY(16)": blocks.write_and_verify,
    "VERIFY(16)": blocks.verify,
    "PRE-FETCH(16)": blocks.check_cached_range,
    "SYNCHRONIZE CACHE(16)": blocks.check_cached_range,
    "WRITE SAME(16)": blocks.write_same,
    "WRITE ATOMIC(16)": blocks.write_atomic,
    "READ CAPACITY(16)": blocks.read_capacity_16,
    "GET LBA STATUS": blocks.get_lba_status,
    "REPORT LUNS": reports.report_luns,
    "REPORT SUPPORTED OPERATION CODES": reports.operation_codes,
    "REPORT SUPPORTED TASK MANAGEMENT FUNCTIONS": reports.task_management_functions,
    "REPORT TARGET PORT GROUPS": reports.target_port_groups,
    "READ(12)": blocks.read,
    "WRITE(12)": blocks.write,
    "WRITE AND VERIFY(12)": blocks.write_and_verify,
    "VERIFY(12)": blocks.verify,
    "READ DEFECT DATA(12)": reports.read_defect_data,
}

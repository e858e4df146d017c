# Made by `embed/python/generate` from the proved table of CDBs. Do not edit it.
"""A function for each command, which returns its CDB. The arguments are the fields of the
standards. A ValueError says that one does not fit into its field."""
from enum import IntEnum

from ._cdb import cdb, short_length


class ReserveIn(IntEnum):
    """The service actions of PERSISTENT RESERVE IN (SPC-4, 6.15)."""
    READ_KEYS = 0x00
    READ_RESERVATION = 0x01
    REPORT_CAPABILITIES = 0x02
    READ_FULL_STATUS = 0x03


class ReserveOut(IntEnum):
    """The service actions of PERSISTENT RESERVE OUT (SPC-4, 6.16)."""
    REGISTER = 0x00
    RESERVE = 0x01
    RELEASE = 0x02
    CLEAR = 0x03
    PREEMPT = 0x04
    PREEMPT_AND_ABORT = 0x05
    REGISTER_AND_IGNORE_EXISTING_KEY = 0x06
    REGISTER_AND_MOVE = 0x07  # only an extended disk has it


def test_unit_ready() -> bytes:
    """TEST UNIT READY, operation code 00h (SPC-4, 6.47)."""
    return cdb(6, 0x00)


def request_sense(*, desc: bool = False, allocation_length: int = 0xFF) -> bytes:
    """REQUEST SENSE, operation code 03h (SPC-4, 6.39)."""
    return cdb(6, 0x03, ("desc", desc, 1, 0, 1), ("allocation_length", allocation_length, 4, 0, 8))


def inquiry(*, evpd: bool = False, page_code: int = 0, allocation_length: int = 0xFFFF) -> bytes:
    """INQUIRY, operation code 12h (SPC-4, 6.6)."""
    return cdb(6, 0x12, ("evpd", evpd, 1, 0, 1), ("page_code", page_code, 2, 0, 8),
               ("allocation_length", allocation_length, 4, 0, 16))


def mode_select6(*, pf: bool = True, sp: bool = False, parameter_list_length: int = 0) -> bytes:
    """MODE SELECT(6), operation code 15h (SPC-4, 6.11)."""
    return cdb(6, 0x15, ("pf", pf, 1, 4, 1), ("sp", sp, 1, 0, 1),
               ("parameter_list_length", parameter_list_length, 4, 0, 8))


def mode_select10(*, pf: bool = True, sp: bool = False, parameter_list_length: int = 0) -> bytes:
    """MODE SELECT(10), operation code 55h (SPC-4, 6.12)."""
    return cdb(10, 0x55, ("pf", pf, 1, 4, 1), ("sp", sp, 1, 0, 1),
               ("parameter_list_length", parameter_list_length, 8, 0, 16))


def mode_sense6(*, dbd: bool = False, pc: int = 0, page_code: int = 0, subpage_code: int = 0,
                allocation_length: int = 0xFF) -> bytes:
    """MODE SENSE(6), operation code 1Ah (SPC-4, 6.13)."""
    return cdb(6, 0x1A, ("dbd", dbd, 1, 3, 1), ("pc", pc, 2, 6, 2),
               ("page_code", page_code, 2, 0, 6), ("subpage_code", subpage_code, 3, 0, 8),
               ("allocation_length", allocation_length, 4, 0, 8))


def mode_sense10(*, llbaa: bool = False, dbd: bool = False, pc: int = 0, page_code: int = 0,
                 subpage_code: int = 0, allocation_length: int = 0xFFFF) -> bytes:
    """MODE SENSE(10), operation code 5Ah (SPC-4, 6.14)."""
    return cdb(10, 0x5A, ("llbaa", llbaa, 1, 4, 1), ("dbd", dbd, 1, 3, 1), ("pc", pc, 2, 6, 2),
               ("page_code", page_code, 2, 0, 6), ("subpage_code", subpage_code, 3, 0, 8),
               ("allocation_length", allocation_length, 8, 0, 16))


def log_sense(*, page_code: int = 0, subpage_code: int = 0, parameter_pointer: int = 0,
              allocation_length: int = 0xFFFF, pc: int = 0) -> bytes:
    """LOG SENSE, operation code 4Dh (SPC-4, 6.8). Only an extended disk has it."""
    return cdb(10, 0x4D, ("page_code", page_code, 2, 0, 6), ("subpage_code", subpage_code, 3, 0, 8),
               ("parameter_pointer", parameter_pointer, 6, 0, 16),
               ("allocation_length", allocation_length, 8, 0, 16), ("pc", pc, 2, 6, 2))


def report_luns(*, select_report: int = 0, allocation_length: int = 0xFFFFFFFF) -> bytes:
    """REPORT LUNS, operation code A0h (SPC-4, 6.33). Only an extended disk has it."""
    return cdb(12, 0xA0, ("select_report", select_report, 2, 0, 8),
               ("allocation_length", allocation_length, 9, 0, 32))


def report_supported_operation_codes(*, rctd: bool = False, reporting_options: int = 0,
                                     requested_operation_code: int = 0,
                                     requested_service_action: int = 0,
                                     allocation_length: int = 0xFFFFFFFF) -> bytes:
    """REPORT SUPPORTED OPERATION CODES, operation code A3h, service action 0Ch (SPC-4, 6.35). Only
    an extended disk has it."""
    return cdb(12, 0xA3, ("service_action", 0x0C, 1, 0, 5), ("rctd", rctd, 2, 7, 1),
               ("reporting_options", reporting_options, 2, 0, 3),
               ("requested_operation_code", requested_operation_code, 3, 0, 8),
               ("requested_service_action", requested_service_action, 5, 0, 16),
               ("allocation_length", allocation_length, 9, 0, 32))


def report_supported_task_management_functions(*, repd: bool = False,
                                               allocation_length: int = 0xFFFFFFFF) -> bytes:
    """REPORT SUPPORTED TASK MANAGEMENT FUNCTIONS, operation code A3h, service action 0Dh (SPC-4,
    6.36). Only an extended disk has it."""
    return cdb(12, 0xA3, ("service_action", 0x0D, 1, 0, 5), ("repd", repd, 2, 7, 1),
               ("allocation_length", allocation_length, 9, 0, 32))


def report_target_port_groups(*, parameter_data_format: int = 0,
                              allocation_length: int = 0xFFFFFFFF) -> bytes:
    """REPORT TARGET PORT GROUPS, operation code A3h, service action 0Ah (SPC-4, 6.37). Only an
    extended disk has it."""
    return cdb(12, 0xA3, ("service_action", 0x0A, 1, 0, 5),
               ("parameter_data_format", parameter_data_format, 1, 5, 3),
               ("allocation_length", allocation_length, 9, 0, 32))


def send_diagnostic(*, self_test_code: int = 0, selftest: bool = False,
                    parameter_list_length: int = 0, pf: bool = False, devoffl: bool = False,
                    unitoffl: bool = False) -> bytes:
    """SEND DIAGNOSTIC, operation code 1Dh (SPC-4, 6.42). Only an extended disk has it."""
    return cdb(6, 0x1D, ("self_test_code", self_test_code, 1, 5, 3),
               ("selftest", selftest, 1, 2, 1),
               ("parameter_list_length", parameter_list_length, 4, 0, 16), ("pf", pf, 1, 4, 1),
               ("devoffl", devoffl, 1, 1, 1), ("unitoffl", unitoffl, 1, 0, 1))


def extended_copy_lid1(*, parameter_list_length: int = 0) -> bytes:
    """EXTENDED COPY(LID1), operation code 83h, service action 00h (SPC-4, 6.5). Only an extended
    disk has it."""
    return cdb(16, 0x83, ("service_action", 0x00, 1, 0, 5),
               ("parameter_list_length", parameter_list_length, 13, 0, 32))


def receive_copy_operating_parameters(*, allocation_length: int = 0xFFFFFFFF) -> bytes:
    """RECEIVE COPY OPERATING PARAMETERS, operation code 84h, service action 03h (SPC-4, 6.23). Only
    an extended disk has it."""
    return cdb(16, 0x84, ("service_action", 0x03, 1, 0, 5),
               ("allocation_length", allocation_length, 13, 0, 32))


def compare_and_write(lba: int = 0, blocks: int = 1, *, dpo: bool = False, fua: bool = False,
                      fua_nv: bool = False, group_number: int = 0) -> bytes:
    """COMPARE AND WRITE, operation code 89h (SBC-3, 5.2). Only an extended disk has it."""
    return cdb(16, 0x89, ("lba", lba, 9, 0, 64), ("blocks", blocks, 13, 0, 8),
               ("dpo", dpo, 1, 4, 1), ("fua", fua, 1, 3, 1), ("fua_nv", fua_nv, 1, 1, 1),
               ("group_number", group_number, 14, 0, 5))


def format_unit(*, longlist: bool = False, fmtdata: bool = False, cmplst: bool = False) -> bytes:
    """FORMAT UNIT, operation code 04h (SBC-3, 5.3). Only an extended disk has it."""
    return cdb(6, 0x04, ("longlist", longlist, 1, 5, 1), ("fmtdata", fmtdata, 1, 4, 1),
               ("cmplst", cmplst, 1, 3, 1))


def orwrite16(lba: int = 0, blocks: int = 1, *, dpo: bool = False, fua: bool = False,
              fua_nv: bool = False, group_number: int = 0) -> bytes:
    """ORWRITE(16), operation code 8Bh (SBC-3, 5.5). Only an extended disk has it."""
    return cdb(16, 0x8B, ("lba", lba, 9, 0, 64), ("blocks", blocks, 13, 0, 32),
               ("dpo", dpo, 1, 4, 1), ("fua", fua, 1, 3, 1), ("fua_nv", fua_nv, 1, 1, 1),
               ("group_number", group_number, 14, 0, 5))


def pre_fetch10(lba: int = 0, blocks: int = 0, *, immed: bool = False,
                group_number: int = 0) -> bytes:
    """PRE-FETCH(10), operation code 34h (SBC-3, 5.8). Only an extended disk has it."""
    return cdb(10, 0x34, ("lba", lba, 5, 0, 32), ("blocks", blocks, 8, 0, 16),
               ("immed", immed, 1, 1, 1), ("group_number", group_number, 6, 0, 5))


def pre_fetch16(lba: int = 0, blocks: int = 0, *, immed: bool = False,
                group_number: int = 0) -> bytes:
    """PRE-FETCH(16), operation code 90h (SBC-3, 5.9). Only an extended disk has it."""
    return cdb(16, 0x90, ("lba", lba, 9, 0, 64), ("blocks", blocks, 13, 0, 32),
               ("immed", immed, 1, 1, 1), ("group_number", group_number, 14, 0, 5))


def read6(lba: int = 0, blocks: int = 1) -> bytes:
    """READ(6), operation code 08h (SBC-2)."""
    return cdb(6, 0x08, ("lba", lba, 3, 0, 21), ("blocks", short_length(blocks), 4, 0, 8))


def read10(lba: int = 0, blocks: int = 1, *, dpo: bool = False, fua: bool = False,
           fua_nv: bool = False, group_number: int = 0) -> bytes:
    """READ(10), operation code 28h (SBC-3, 5.11)."""
    return cdb(10, 0x28, ("lba", lba, 5, 0, 32), ("blocks", blocks, 8, 0, 16),
               ("dpo", dpo, 1, 4, 1), ("fua", fua, 1, 3, 1), ("fua_nv", fua_nv, 1, 1, 1),
               ("group_number", group_number, 6, 0, 5))


def read12(lba: int = 0, blocks: int = 1, *, dpo: bool = False, fua: bool = False,
           fua_nv: bool = False, group_number: int = 0) -> bytes:
    """READ(12), operation code A8h (SBC-3, 5.12). Only an extended disk has it."""
    return cdb(12, 0xA8, ("lba", lba, 5, 0, 32), ("blocks", blocks, 9, 0, 32),
               ("dpo", dpo, 1, 4, 1), ("fua", fua, 1, 3, 1), ("fua_nv", fua_nv, 1, 1, 1),
               ("group_number", group_number, 10, 0, 5))


def read16(lba: int = 0, blocks: int = 1, *, dpo: bool = False, fua: bool = False,
           fua_nv: bool = False, group_number: int = 0) -> bytes:
    """READ(16), operation code 88h (SBC-3, 5.13)."""
    return cdb(16, 0x88, ("lba", lba, 9, 0, 64), ("blocks", blocks, 13, 0, 32),
               ("dpo", dpo, 1, 4, 1), ("fua", fua, 1, 3, 1), ("fua_nv", fua_nv, 1, 1, 1),
               ("group_number", group_number, 14, 0, 5))


def write6(lba: int = 0, blocks: int = 1) -> bytes:
    """WRITE(6), operation code 0Ah (SBC-2)."""
    return cdb(6, 0x0A, ("lba", lba, 3, 0, 21), ("blocks", short_length(blocks), 4, 0, 8))


def write10(lba: int = 0, blocks: int = 1, *, dpo: bool = False, fua: bool = False,
            fua_nv: bool = False, group_number: int = 0) -> bytes:
    """WRITE(10), operation code 2Ah (SBC-3, 5.33)."""
    return cdb(10, 0x2A, ("lba", lba, 5, 0, 32), ("blocks", blocks, 8, 0, 16),
               ("dpo", dpo, 1, 4, 1), ("fua", fua, 1, 3, 1), ("fua_nv", fua_nv, 1, 1, 1),
               ("group_number", group_number, 6, 0, 5))


def write12(lba: int = 0, blocks: int = 1, *, dpo: bool = False, fua: bool = False,
            fua_nv: bool = False, group_number: int = 0) -> bytes:
    """WRITE(12), operation code AAh (SBC-3, 5.34). Only an extended disk has it."""
    return cdb(12, 0xAA, ("lba", lba, 5, 0, 32), ("blocks", blocks, 9, 0, 32),
               ("dpo", dpo, 1, 4, 1), ("fua", fua, 1, 3, 1), ("fua_nv", fua_nv, 1, 1, 1),
               ("group_number", group_number, 10, 0, 5))


def write16(lba: int = 0, blocks: int = 1, *, dpo: bool = False, fua: bool = False,
            fua_nv: bool = False, group_number: int = 0) -> bytes:
    """WRITE(16), operation code 8Ah (SBC-3, 5.35)."""
    return cdb(16, 0x8A, ("lba", lba, 9, 0, 64), ("blocks", blocks, 13, 0, 32),
               ("dpo", dpo, 1, 4, 1), ("fua", fua, 1, 3, 1), ("fua_nv", fua_nv, 1, 1, 1),
               ("group_number", group_number, 14, 0, 5))


def read_capacity10() -> bytes:
    """READ CAPACITY(10), operation code 25h (SBC-3, 5.15)."""
    return cdb(10, 0x25)


def read_capacity16(*, allocation_length: int = 0xFFFFFFFF) -> bytes:
    """READ CAPACITY(16), operation code 9Eh, service action 10h (SBC-3, 5.16)."""
    return cdb(16, 0x9E, ("service_action", 0x10, 1, 0, 5),
               ("allocation_length", allocation_length, 13, 0, 32))


def read_defect_data10(*, req_plist: bool = False, req_glist: bool = False,
                       defect_list_format: int = 0, allocation_length: int = 0xFFFF) -> bytes:
    """READ DEFECT DATA(10), operation code 37h (SBC-3, 5.17). Only an extended disk has it."""
    return cdb(10, 0x37, ("req_plist", req_plist, 2, 4, 1), ("req_glist", req_glist, 2, 3, 1),
               ("defect_list_format", defect_list_format, 2, 0, 3),
               ("allocation_length", allocation_length, 8, 0, 16))


def read_defect_data12(*, req_plist: bool = False, req_glist: bool = False,
                       defect_list_format: int = 0, address_descriptor_index: int = 0,
                       allocation_length: int = 0xFFFFFFFF) -> bytes:
    """READ DEFECT DATA(12), operation code B7h (SBC-3, 5.18). Only an extended disk has it."""
    return cdb(12, 0xB7, ("req_plist", req_plist, 1, 4, 1), ("req_glist", req_glist, 1, 3, 1),
               ("defect_list_format", defect_list_format, 1, 0, 3),
               ("address_descriptor_index", address_descriptor_index, 5, 0, 32),
               ("allocation_length", allocation_length, 9, 0, 32))


def sanitize_block_erase(*, parameter_list_length: int = 0, immed: bool = False,
                         ause: bool = False) -> bytes:
    """SANITIZE, BLOCK ERASE, operation code 48h, service action 02h (SBC-3, 5.24). Only an extended
    disk has it."""
    return cdb(10, 0x48, ("service_action", 0x02, 1, 0, 5),
               ("parameter_list_length", parameter_list_length, 8, 0, 16),
               ("immed", immed, 1, 7, 1), ("ause", ause, 1, 5, 1))


def sanitize_cryptographic_erase(*, parameter_list_length: int = 0, immed: bool = False,
                                 ause: bool = False) -> bytes:
    """SANITIZE, CRYPTOGRAPHIC ERASE, operation code 48h, service action 03h (SBC-3, 5.24). Only an
    extended disk has it."""
    return cdb(10, 0x48, ("service_action", 0x03, 1, 0, 5),
               ("parameter_list_length", parameter_list_length, 8, 0, 16),
               ("immed", immed, 1, 7, 1), ("ause", ause, 1, 5, 1))


def sanitize_exit_failure_mode(*, parameter_list_length: int = 0, immed: bool = False,
                               ause: bool = False) -> bytes:
    """SANITIZE, EXIT FAILURE MODE, operation code 48h, service action 1Fh (SBC-3, 5.24). Only an
    extended disk has it."""
    return cdb(10, 0x48, ("service_action", 0x1F, 1, 0, 5),
               ("parameter_list_length", parameter_list_length, 8, 0, 16),
               ("immed", immed, 1, 7, 1), ("ause", ause, 1, 5, 1))


def start_stop_unit(*, power_condition_modifier: int = 0, power_condition: int = 0,
                    loej: bool = False, start: bool = False, immed: bool = False,
                    no_flush: bool = False) -> bytes:
    """START STOP UNIT, operation code 1Bh (SBC-3, 5.25). Only an extended disk has it."""
    return cdb(6, 0x1B, ("power_condition_modifier", power_condition_modifier, 3, 0, 4),
               ("power_condition", power_condition, 4, 4, 4), ("loej", loej, 4, 1, 1),
               ("start", start, 4, 0, 1), ("immed", immed, 1, 0, 1),
               ("no_flush", no_flush, 4, 2, 1))


def synchronize_cache10(lba: int = 0, blocks: int = 0, *, immed: bool = False,
                        sync_nv: bool = False, group_number: int = 0) -> bytes:
    """SYNCHRONIZE CACHE(10), operation code 35h (SBC-3, 5.26)."""
    return cdb(10, 0x35, ("lba", lba, 5, 0, 32), ("blocks", blocks, 8, 0, 16),
               ("immed", immed, 1, 1, 1), ("sync_nv", sync_nv, 1, 2, 1),
               ("group_number", group_number, 6, 0, 5))


def synchronize_cache16(lba: int = 0, blocks: int = 0, *, immed: bool = False,
                        sync_nv: bool = False, group_number: int = 0) -> bytes:
    """SYNCHRONIZE CACHE(16), operation code 91h (SBC-3, 5.27). Only an extended disk has it."""
    return cdb(16, 0x91, ("lba", lba, 9, 0, 64), ("blocks", blocks, 13, 0, 32),
               ("immed", immed, 1, 1, 1), ("sync_nv", sync_nv, 1, 2, 1),
               ("group_number", group_number, 14, 0, 5))


def verify10(lba: int = 0, blocks: int = 1, *, bytchk: int = 0, dpo: bool = False,
             group_number: int = 0) -> bytes:
    """VERIFY(10), operation code 2Fh (SBC-3, 5.29). Only an extended disk has it."""
    return cdb(10, 0x2F, ("bytchk", bytchk, 1, 1, 2), ("lba", lba, 5, 0, 32),
               ("blocks", blocks, 8, 0, 16), ("dpo", dpo, 1, 4, 1),
               ("group_number", group_number, 6, 0, 5))


def verify12(lba: int = 0, blocks: int = 1, *, bytchk: int = 0, dpo: bool = False,
             group_number: int = 0) -> bytes:
    """VERIFY(12), operation code AFh (SBC-3, 5.30). Only an extended disk has it."""
    return cdb(12, 0xAF, ("bytchk", bytchk, 1, 1, 2), ("lba", lba, 5, 0, 32),
               ("blocks", blocks, 9, 0, 32), ("dpo", dpo, 1, 4, 1),
               ("group_number", group_number, 10, 0, 5))


def verify16(lba: int = 0, blocks: int = 1, *, bytchk: int = 0, dpo: bool = False,
             group_number: int = 0) -> bytes:
    """VERIFY(16), operation code 8Fh (SBC-3, 5.31). Only an extended disk has it."""
    return cdb(16, 0x8F, ("bytchk", bytchk, 1, 1, 2), ("lba", lba, 9, 0, 64),
               ("blocks", blocks, 13, 0, 32), ("dpo", dpo, 1, 4, 1),
               ("group_number", group_number, 14, 0, 5))


def write_and_verify10(lba: int = 0, blocks: int = 1, *, bytchk: int = 0, dpo: bool = False,
                       group_number: int = 0) -> bytes:
    """WRITE AND VERIFY(10), operation code 2Eh (SBC-3, 5.37). Only an extended disk has it."""
    return cdb(10, 0x2E, ("bytchk", bytchk, 1, 1, 2), ("lba", lba, 5, 0, 32),
               ("blocks", blocks, 8, 0, 16), ("dpo", dpo, 1, 4, 1),
               ("group_number", group_number, 6, 0, 5))


def write_and_verify12(lba: int = 0, blocks: int = 1, *, bytchk: int = 0, dpo: bool = False,
                       group_number: int = 0) -> bytes:
    """WRITE AND VERIFY(12), operation code AEh (SBC-3, 5.38). Only an extended disk has it."""
    return cdb(12, 0xAE, ("bytchk", bytchk, 1, 1, 2), ("lba", lba, 5, 0, 32),
               ("blocks", blocks, 9, 0, 32), ("dpo", dpo, 1, 4, 1),
               ("group_number", group_number, 10, 0, 5))


def write_and_verify16(lba: int = 0, blocks: int = 1, *, bytchk: int = 0, dpo: bool = False,
                       group_number: int = 0) -> bytes:
    """WRITE AND VERIFY(16), operation code 8Eh (SBC-3, 5.39). Only an extended disk has it."""
    return cdb(16, 0x8E, ("bytchk", bytchk, 1, 1, 2), ("lba", lba, 9, 0, 64),
               ("blocks", blocks, 13, 0, 32), ("dpo", dpo, 1, 4, 1),
               ("group_number", group_number, 14, 0, 5))


def write_atomic16(lba: int = 0, blocks: int = 1, *, atomic_boundary: int = 0, dpo: bool = False,
                   fua: bool = False, group_number: int = 0) -> bytes:
    """WRITE ATOMIC(16), operation code 9Ch (SBC-4). Only an extended disk has it."""
    return cdb(16, 0x9C, ("lba", lba, 9, 0, 64), ("atomic_boundary", atomic_boundary, 11, 0, 16),
               ("blocks", blocks, 13, 0, 16), ("dpo", dpo, 1, 4, 1), ("fua", fua, 1, 3, 1),
               ("group_number", group_number, 14, 0, 5))


def write_long10(lba: int = 0, *, cor_dis: bool = False, wr_uncor: bool = False,
                 byte_transfer_length: int = 0) -> bytes:
    """WRITE LONG(10), operation code 3Fh (SBC-3, 5.41). Only an extended disk has it."""
    return cdb(10, 0x3F, ("cor_dis", cor_dis, 1, 7, 1), ("wr_uncor", wr_uncor, 1, 6, 1),
               ("lba", lba, 5, 0, 32), ("byte_transfer_length", byte_transfer_length, 8, 0, 16))


def write_same10(lba: int = 0, blocks: int = 1, *, anchor: bool = False, unmap: bool = False,
                 group_number: int = 0) -> bytes:
    """WRITE SAME(10), operation code 41h (SBC-3, 5.43)."""
    return cdb(10, 0x41, ("anchor", anchor, 1, 4, 1), ("unmap", unmap, 1, 3, 1),
               ("lba", lba, 5, 0, 32), ("blocks", blocks, 8, 0, 16),
               ("group_number", group_number, 6, 0, 5))


def write_same16(lba: int = 0, blocks: int = 1, *, anchor: bool = False, unmap: bool = False,
                 ndob: bool = False, group_number: int = 0) -> bytes:
    """WRITE SAME(16), operation code 93h (SBC-3, 5.44)."""
    return cdb(16, 0x93, ("anchor", anchor, 1, 4, 1), ("unmap", unmap, 1, 3, 1),
               ("ndob", ndob, 1, 0, 1), ("lba", lba, 9, 0, 64), ("blocks", blocks, 13, 0, 32),
               ("group_number", group_number, 14, 0, 5))


def unmap(*, anchor: bool = False, group_number: int = 0, parameter_list_length: int = 0) -> bytes:
    """UNMAP, operation code 42h (SBC-3, 5.28)."""
    return cdb(10, 0x42, ("anchor", anchor, 1, 0, 1), ("group_number", group_number, 6, 0, 5),
               ("parameter_list_length", parameter_list_length, 8, 0, 16))


def get_lba_status(lba: int = 0, *, allocation_length: int = 0xFFFFFFFF) -> bytes:
    """GET LBA STATUS, operation code 9Eh, service action 12h (SBC-3, 5.4)."""
    return cdb(16, 0x9E, ("service_action", 0x12, 1, 0, 5), ("lba", lba, 9, 0, 64),
               ("allocation_length", allocation_length, 13, 0, 32))


def persistent_reserve_in(service_action: int, *, allocation_length: int = 0xFFFF) -> bytes:
    """PERSISTENT RESERVE IN, operation code 5Eh (SPC-4, 6.15)."""
    return cdb(10, 0x5E, ("service_action", service_action, 1, 0, 5),
               ("allocation_length", allocation_length, 8, 0, 16))


def persistent_reserve_out(service_action: int, *, scope: int = 0, type: int = 0,
                           parameter_list_length: int = 0) -> bytes:
    """PERSISTENT RESERVE OUT, operation code 5Fh (SPC-4, 6.16)."""
    return cdb(10, 0x5F, ("service_action", service_action, 1, 0, 5), ("scope", scope, 2, 4, 4),
               ("type", type, 2, 0, 4), ("parameter_list_length", parameter_list_length, 8, 0, 32))

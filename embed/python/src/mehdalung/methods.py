# Made by `embed/python/generate` from the proved table of CDBs. Do not edit it.
"""A method for each command, which sends its CDB."""
from typing import TYPE_CHECKING, Optional

from . import commands
from ._cdb import BLOCK_LENGTH, blocks_of

if TYPE_CHECKING:
    from .disk import Reply


class Commands:
    """Sends commands by their names. The arguments are those of the functions in `commands`.
    Data-out decides a length, a number of blocks or a flag that is not given."""

    def send(self, cdb: bytes, data_out: bytes = b"") -> "Reply":
        """Sends a command, and returns its reply."""
        raise NotImplementedError

    def test_unit_ready(self) -> "Reply":
        """TEST UNIT READY, operation code 00h (SPC-4, 6.47)."""
        cdb = commands.test_unit_ready()
        return self.send(cdb)

    def request_sense(self, *, desc: bool = False, allocation_length: int = 0xFF) -> "Reply":
        """REQUEST SENSE, operation code 03h (SPC-4, 6.39)."""
        cdb = commands.request_sense(desc=desc, allocation_length=allocation_length)
        return self.send(cdb)

    def inquiry(self, *, evpd: bool = False, page_code: int = 0,
                allocation_length: int = 0xFFFF) -> "Reply":
        """INQUIRY, operation code 12h (SPC-4, 6.6)."""
        cdb = commands.inquiry(evpd=evpd, page_code=page_code, allocation_length=allocation_length)
        return self.send(cdb)

    def mode_select6(self, data_out: bytes = b"", *, pf: bool = True, sp: bool = False,
                     parameter_list_length: Optional[int] = None) -> "Reply":
        """MODE SELECT(6), operation code 15h (SPC-4, 6.11)."""
        if parameter_list_length is None:
            parameter_list_length = len(data_out)
        cdb = commands.mode_select6(pf=pf, sp=sp, parameter_list_length=parameter_list_length)
        return self.send(cdb, data_out)

    def mode_select10(self, data_out: bytes = b"", *, pf: bool = True, sp: bool = False,
                      parameter_list_length: Optional[int] = None) -> "Reply":
        """MODE SELECT(10), operation code 55h (SPC-4, 6.12)."""
        if parameter_list_length is None:
            parameter_list_length = len(data_out)
        cdb = commands.mode_select10(pf=pf, sp=sp, parameter_list_length=parameter_list_length)
        return self.send(cdb, data_out)

    def mode_sense6(self, *, dbd: bool = False, pc: int = 0, page_code: int = 0,
                    subpage_code: int = 0, allocation_length: int = 0xFF) -> "Reply":
        """MODE SENSE(6), operation code 1Ah (SPC-4, 6.13)."""
        cdb = commands.mode_sense6(dbd=dbd, pc=pc, page_code=page_code, subpage_code=subpage_code,
                                   allocation_length=allocation_length)
        return self.send(cdb)

    def mode_sense10(self, *, llbaa: bool = False, dbd: bool = False, pc: int = 0,
                     page_code: int = 0, subpage_code: int = 0,
                     allocation_length: int = 0xFFFF) -> "Reply":
        """MODE SENSE(10), operation code 5Ah (SPC-4, 6.14)."""
        cdb = commands.mode_sense10(llbaa=llbaa, dbd=dbd, pc=pc, page_code=page_code,
                                    subpage_code=subpage_code, allocation_length=allocation_length)
        return self.send(cdb)

    def log_sense(self, *, page_code: int = 0, subpage_code: int = 0, parameter_pointer: int = 0,
                  allocation_length: int = 0xFFFF, pc: int = 0) -> "Reply":
        """LOG SENSE, operation code 4Dh (SPC-4, 6.8). Only an extended disk has it."""
        cdb = commands.log_sense(page_code=page_code, subpage_code=subpage_code,
                                 parameter_pointer=parameter_pointer,
                                 allocation_length=allocation_length, pc=pc)
        return self.send(cdb)

    def report_luns(self, *, select_report: int = 0, allocation_length: int = 0xFFFFFFFF) -> "Reply":
        """REPORT LUNS, operation code A0h (SPC-4, 6.33). Only an extended disk has it."""
        cdb = commands.report_luns(select_report=select_report, allocation_length=allocation_length)
        return self.send(cdb)

    def report_supported_operation_codes(self, *, rctd: bool = False, reporting_options: int = 0,
                                         requested_operation_code: int = 0,
                                         requested_service_action: int = 0,
                                         allocation_length: int = 0xFFFFFFFF) -> "Reply":
        """REPORT SUPPORTED OPERATION CODES, operation code A3h, service action 0Ch (SPC-4, 6.35).
        Only an extended disk has it."""
        cdb = commands.report_supported_operation_codes(rctd=rctd,
                                                        reporting_options=reporting_options,
                                                        requested_operation_code=requested_operation_code,
                                                        requested_service_action=requested_service_action,
                                                        allocation_length=allocation_length)
        return self.send(cdb)

    def report_supported_task_management_functions(self, *, repd: bool = False,
                                                   allocation_length: int = 0xFFFFFFFF) -> "Reply":
        """REPORT SUPPORTED TASK MANAGEMENT FUNCTIONS, operation code A3h, service action 0Dh
        (SPC-4, 6.36). Only an extended disk has it."""
        cdb = commands.report_supported_task_management_functions(repd=repd,
                                                                  allocation_length=allocation_length)
        return self.send(cdb)

    def report_target_port_groups(self, *, parameter_data_format: int = 0,
                                  allocation_length: int = 0xFFFFFFFF) -> "Reply":
        """REPORT TARGET PORT GROUPS, operation code A3h, service action 0Ah (SPC-4, 6.37). Only an
        extended disk has it."""
        cdb = commands.report_target_port_groups(parameter_data_format=parameter_data_format,
                                                 allocation_length=allocation_length)
        return self.send(cdb)

    def send_diagnostic(self, *, self_test_code: int = 0, selftest: bool = False,
                        parameter_list_length: int = 0, pf: bool = False, devoffl: bool = False,
                        unitoffl: bool = False) -> "Reply":
        """SEND DIAGNOSTIC, operation code 1Dh (SPC-4, 6.42). Only an extended disk has it."""
        cdb = commands.send_diagnostic(self_test_code=self_test_code, selftest=selftest,
                                       parameter_list_length=parameter_list_length, pf=pf,
                                       devoffl=devoffl, unitoffl=unitoffl)
        return self.send(cdb)

    def extended_copy_lid1(self, data_out: bytes = b"", *,
                           parameter_list_length: Optional[int] = None) -> "Reply":
        """EXTENDED COPY(LID1), operation code 83h, service action 00h (SPC-4, 6.5). Only an
        extended disk has it."""
        if parameter_list_length is None:
            parameter_list_length = len(data_out)
        cdb = commands.extended_copy_lid1(parameter_list_length=parameter_list_length)
        return self.send(cdb, data_out)

    def receive_copy_operating_parameters(self, *, allocation_length: int = 0xFFFFFFFF) -> "Reply":
        """RECEIVE COPY OPERATING PARAMETERS, operation code 84h, service action 03h (SPC-4, 6.23).
        Only an extended disk has it."""
        cdb = commands.receive_copy_operating_parameters(allocation_length=allocation_length)
        return self.send(cdb)

    def compare_and_write(self, lba: int, data_out: bytes, *, blocks: Optional[int] = None,
                          dpo: bool = False, fua: bool = False, fua_nv: bool = False,
                          group_number: int = 0) -> "Reply":
        """COMPARE AND WRITE, operation code 89h (SBC-3, 5.2). Only an extended disk has it."""
        if blocks is None:
            blocks = blocks_of(data_out, 2 * BLOCK_LENGTH)
        cdb = commands.compare_and_write(lba=lba, blocks=blocks, dpo=dpo, fua=fua, fua_nv=fua_nv,
                                         group_number=group_number)
        return self.send(cdb, data_out)

    def format_unit(self, data_out: bytes = b"", *, longlist: bool = False,
                    fmtdata: Optional[bool] = None, cmplst: bool = False) -> "Reply":
        """FORMAT UNIT, operation code 04h (SBC-3, 5.3). Only an extended disk has it."""
        if fmtdata is None:
            fmtdata = bool(data_out)
        cdb = commands.format_unit(longlist=longlist, fmtdata=fmtdata, cmplst=cmplst)
        return self.send(cdb, data_out)

    def orwrite16(self, lba: int, data_out: bytes, *, blocks: Optional[int] = None,
                  dpo: bool = False, fua: bool = False, fua_nv: bool = False,
                  group_number: int = 0) -> "Reply":
        """ORWRITE(16), operation code 8Bh (SBC-3, 5.5). Only an extended disk has it."""
        if blocks is None:
            blocks = blocks_of(data_out)
        cdb = commands.orwrite16(lba=lba, blocks=blocks, dpo=dpo, fua=fua, fua_nv=fua_nv,
                                 group_number=group_number)
        return self.send(cdb, data_out)

    def pre_fetch10(self, lba: int = 0, blocks: int = 0, *, immed: bool = False,
                    group_number: int = 0) -> "Reply":
        """PRE-FETCH(10), operation code 34h (SBC-3, 5.8). Only an extended disk has it."""
        cdb = commands.pre_fetch10(lba=lba, blocks=blocks, immed=immed, group_number=group_number)
        return self.send(cdb)

    def pre_fetch16(self, lba: int = 0, blocks: int = 0, *, immed: bool = False,
                    group_number: int = 0) -> "Reply":
        """PRE-FETCH(16), operation code 90h (SBC-3, 5.9). Only an extended disk has it."""
        cdb = commands.pre_fetch16(lba=lba, blocks=blocks, immed=immed, group_number=group_number)
        return self.send(cdb)

    def read6(self, lba: int = 0, blocks: int = 1) -> "Reply":
        """READ(6), operation code 08h (SBC-2)."""
        cdb = commands.read6(lba=lba, blocks=blocks)
        return self.send(cdb)

    def read10(self, lba: int = 0, blocks: int = 1, *, dpo: bool = False, fua: bool = False,
               fua_nv: bool = False, group_number: int = 0) -> "Reply":
        """READ(10), operation code 28h (SBC-3, 5.11)."""
        cdb = commands.read10(lba=lba, blocks=blocks, dpo=dpo, fua=fua, fua_nv=fua_nv,
                              group_number=group_number)
        return self.send(cdb)

    def read12(self, lba: int = 0, blocks: int = 1, *, dpo: bool = False, fua: bool = False,
               fua_nv: bool = False, group_number: int = 0) -> "Reply":
        """READ(12), operation code A8h (SBC-3, 5.12). Only an extended disk has it."""
        cdb = commands.read12(lba=lba, blocks=blocks, dpo=dpo, fua=fua, fua_nv=fua_nv,
                              group_number=group_number)
        return self.send(cdb)

    def read16(self, lba: int = 0, blocks: int = 1, *, dpo: bool = False, fua: bool = False,
               fua_nv: bool = False, group_number: int = 0) -> "Reply":
        """READ(16), operation code 88h (SBC-3, 5.13)."""
        cdb = commands.read16(lba=lba, blocks=blocks, dpo=dpo, fua=fua, fua_nv=fua_nv,
                              group_number=group_number)
        return self.send(cdb)

    def write6(self, lba: int, data_out: bytes, *, blocks: Optional[int] = None) -> "Reply":
        """WRITE(6), operation code 0Ah (SBC-2)."""
        if blocks is None:
            blocks = blocks_of(data_out)
        cdb = commands.write6(lba=lba, blocks=blocks)
        return self.send(cdb, data_out)

    def write10(self, lba: int, data_out: bytes, *, blocks: Optional[int] = None, dpo: bool = False,
                fua: bool = False, fua_nv: bool = False, group_number: int = 0) -> "Reply":
        """WRITE(10), operation code 2Ah (SBC-3, 5.33)."""
        if blocks is None:
            blocks = blocks_of(data_out)
        cdb = commands.write10(lba=lba, blocks=blocks, dpo=dpo, fua=fua, fua_nv=fua_nv,
                               group_number=group_number)
        return self.send(cdb, data_out)

    def write12(self, lba: int, data_out: bytes, *, blocks: Optional[int] = None, dpo: bool = False,
                fua: bool = False, fua_nv: bool = False, group_number: int = 0) -> "Reply":
        """WRITE(12), operation code AAh (SBC-3, 5.34). Only an extended disk has it."""
        if blocks is None:
            blocks = blocks_of(data_out)
        cdb = commands.write12(lba=lba, blocks=blocks, dpo=dpo, fua=fua, fua_nv=fua_nv,
                               group_number=group_number)
        return self.send(cdb, data_out)

    def write16(self, lba: int, data_out: bytes, *, blocks: Optional[int] = None, dpo: bool = False,
                fua: bool = False, fua_nv: bool = False, group_number: int = 0) -> "Reply":
        """WRITE(16), operation code 8Ah (SBC-3, 5.35)."""
        if blocks is None:
            blocks = blocks_of(data_out)
        cdb = commands.write16(lba=lba, blocks=blocks, dpo=dpo, fua=fua, fua_nv=fua_nv,
                               group_number=group_number)
        return self.send(cdb, data_out)

    def read_capacity10(self) -> "Reply":
        """READ CAPACITY(10), operation code 25h (SBC-3, 5.15)."""
        cdb = commands.read_capacity10()
        return self.send(cdb)

    def read_capacity16(self, *, allocation_length: int = 0xFFFFFFFF) -> "Reply":
        """READ CAPACITY(16), operation code 9Eh, service action 10h (SBC-3, 5.16)."""
        cdb = commands.read_capacity16(allocation_length=allocation_length)
        return self.send(cdb)

    def read_defect_data10(self, *, req_plist: bool = False, req_glist: bool = False,
                           defect_list_format: int = 0, allocation_length: int = 0xFFFF) -> "Reply":
        """READ DEFECT DATA(10), operation code 37h (SBC-3, 5.17). Only an extended disk has it."""
        cdb = commands.read_defect_data10(req_plist=req_plist, req_glist=req_glist,
                                          defect_list_format=defect_list_format,
                                          allocation_length=allocation_length)
        return self.send(cdb)

    def read_defect_data12(self, *, req_plist: bool = False, req_glist: bool = False,
                           defect_list_format: int = 0, address_descriptor_index: int = 0,
                           allocation_length: int = 0xFFFFFFFF) -> "Reply":
        """READ DEFECT DATA(12), operation code B7h (SBC-3, 5.18). Only an extended disk has it."""
        cdb = commands.read_defect_data12(req_plist=req_plist, req_glist=req_glist,
                                          defect_list_format=defect_list_format,
                                          address_descriptor_index=address_descriptor_index,
                                          allocation_length=allocation_length)
        return self.send(cdb)

    def sanitize_block_erase(self, *, parameter_list_length: int = 0, immed: bool = False,
                             ause: bool = False) -> "Reply":
        """SANITIZE, BLOCK ERASE, operation code 48h, service action 02h (SBC-3, 5.24). Only an
        extended disk has it."""
        cdb = commands.sanitize_block_erase(parameter_list_length=parameter_list_length,
                                            immed=immed, ause=ause)
        return self.send(cdb)

    def sanitize_cryptographic_erase(self, *, parameter_list_length: int = 0, immed: bool = False,
                                     ause: bool = False) -> "Reply":
        """SANITIZE, CRYPTOGRAPHIC ERASE, operation code 48h, service action 03h (SBC-3, 5.24). Only
        an extended disk has it."""
        cdb = commands.sanitize_cryptographic_erase(parameter_list_length=parameter_list_length,
                                                    immed=immed, ause=ause)
        return self.send(cdb)

    def sanitize_exit_failure_mode(self, *, parameter_list_length: int = 0, immed: bool = False,
                                   ause: bool = False) -> "Reply":
        """SANITIZE, EXIT FAILURE MODE, operation code 48h, service action 1Fh (SBC-3, 5.24). Only
        an extended disk has it."""
        cdb = commands.sanitize_exit_failure_mode(parameter_list_length=parameter_list_length,
                                                  immed=immed, ause=ause)
        return self.send(cdb)

    def start_stop_unit(self, *, power_condition_modifier: int = 0, power_condition: int = 0,
                        loej: bool = False, start: bool = False, immed: bool = False,
                        no_flush: bool = False) -> "Reply":
        """START STOP UNIT, operation code 1Bh (SBC-3, 5.25). Only an extended disk has it."""
        cdb = commands.start_stop_unit(power_condition_modifier=power_condition_modifier,
                                       power_condition=power_condition, loej=loej, start=start,
                                       immed=immed, no_flush=no_flush)
        return self.send(cdb)

    def synchronize_cache10(self, lba: int = 0, blocks: int = 0, *, immed: bool = False,
                            sync_nv: bool = False, group_number: int = 0) -> "Reply":
        """SYNCHRONIZE CACHE(10), operation code 35h (SBC-3, 5.26)."""
        cdb = commands.synchronize_cache10(lba=lba, blocks=blocks, immed=immed, sync_nv=sync_nv,
                                           group_number=group_number)
        return self.send(cdb)

    def synchronize_cache16(self, lba: int = 0, blocks: int = 0, *, immed: bool = False,
                            sync_nv: bool = False, group_number: int = 0) -> "Reply":
        """SYNCHRONIZE CACHE(16), operation code 91h (SBC-3, 5.27). Only an extended disk has it."""
        cdb = commands.synchronize_cache16(lba=lba, blocks=blocks, immed=immed, sync_nv=sync_nv,
                                           group_number=group_number)
        return self.send(cdb)

    def verify10(self, lba: int = 0, data_out: bytes = b"", *, blocks: Optional[int] = None,
                 bytchk: Optional[int] = None, dpo: bool = False, group_number: int = 0) -> "Reply":
        """VERIFY(10), operation code 2Fh (SBC-3, 5.29). Only an extended disk has it."""
        if blocks is None:
            blocks = blocks_of(data_out) if data_out else 1
        if bytchk is None:
            bytchk = 1 if data_out else 0
        cdb = commands.verify10(lba=lba, blocks=blocks, bytchk=bytchk, dpo=dpo,
                                group_number=group_number)
        return self.send(cdb, data_out)

    def verify12(self, lba: int = 0, data_out: bytes = b"", *, blocks: Optional[int] = None,
                 bytchk: Optional[int] = None, dpo: bool = False, group_number: int = 0) -> "Reply":
        """VERIFY(12), operation code AFh (SBC-3, 5.30). Only an extended disk has it."""
        if blocks is None:
            blocks = blocks_of(data_out) if data_out else 1
        if bytchk is None:
            bytchk = 1 if data_out else 0
        cdb = commands.verify12(lba=lba, blocks=blocks, bytchk=bytchk, dpo=dpo,
                                group_number=group_number)
        return self.send(cdb, data_out)

    def verify16(self, lba: int = 0, data_out: bytes = b"", *, blocks: Optional[int] = None,
                 bytchk: Optional[int] = None, dpo: bool = False, group_number: int = 0) -> "Reply":
        """VERIFY(16), operation code 8Fh (SBC-3, 5.31). Only an extended disk has it."""
        if blocks is None:
            blocks = blocks_of(data_out) if data_out else 1
        if bytchk is None:
            bytchk = 1 if data_out else 0
        cdb = commands.verify16(lba=lba, blocks=blocks, bytchk=bytchk, dpo=dpo,
                                group_number=group_number)
        return self.send(cdb, data_out)

    def write_and_verify10(self, lba: int, data_out: bytes, *, blocks: Optional[int] = None,
                           bytchk: int = 0, dpo: bool = False, group_number: int = 0) -> "Reply":
        """WRITE AND VERIFY(10), operation code 2Eh (SBC-3, 5.37). Only an extended disk has it."""
        if blocks is None:
            blocks = blocks_of(data_out)
        cdb = commands.write_and_verify10(lba=lba, blocks=blocks, bytchk=bytchk, dpo=dpo,
                                          group_number=group_number)
        return self.send(cdb, data_out)

    def write_and_verify12(self, lba: int, data_out: bytes, *, blocks: Optional[int] = None,
                           bytchk: int = 0, dpo: bool = False, group_number: int = 0) -> "Reply":
        """WRITE AND VERIFY(12), operation code AEh (SBC-3, 5.38). Only an extended disk has it."""
        if blocks is None:
            blocks = blocks_of(data_out)
        cdb = commands.write_and_verify12(lba=lba, blocks=blocks, bytchk=bytchk, dpo=dpo,
                                          group_number=group_number)
        return self.send(cdb, data_out)

    def write_and_verify16(self, lba: int, data_out: bytes, *, blocks: Optional[int] = None,
                           bytchk: int = 0, dpo: bool = False, group_number: int = 0) -> "Reply":
        """WRITE AND VERIFY(16), operation code 8Eh (SBC-3, 5.39). Only an extended disk has it."""
        if blocks is None:
            blocks = blocks_of(data_out)
        cdb = commands.write_and_verify16(lba=lba, blocks=blocks, bytchk=bytchk, dpo=dpo,
                                          group_number=group_number)
        return self.send(cdb, data_out)

    def write_atomic16(self, lba: int, data_out: bytes, *, blocks: Optional[int] = None,
                       atomic_boundary: int = 0, dpo: bool = False, fua: bool = False,
                       group_number: int = 0) -> "Reply":
        """WRITE ATOMIC(16), operation code 9Ch (SBC-4). Only an extended disk has it."""
        if blocks is None:
            blocks = blocks_of(data_out)
        cdb = commands.write_atomic16(lba=lba, blocks=blocks, atomic_boundary=atomic_boundary,
                                      dpo=dpo, fua=fua, group_number=group_number)
        return self.send(cdb, data_out)

    def write_long10(self, lba: int = 0, *, cor_dis: bool = False, wr_uncor: bool = False,
                     byte_transfer_length: int = 0) -> "Reply":
        """WRITE LONG(10), operation code 3Fh (SBC-3, 5.41). Only an extended disk has it."""
        cdb = commands.write_long10(lba=lba, cor_dis=cor_dis, wr_uncor=wr_uncor,
                                    byte_transfer_length=byte_transfer_length)
        return self.send(cdb)

    def write_same10(self, lba: int = 0, data_out: bytes = b"", *, blocks: int = 1,
                     anchor: bool = False, unmap: bool = False, group_number: int = 0) -> "Reply":
        """WRITE SAME(10), operation code 41h (SBC-3, 5.43)."""
        cdb = commands.write_same10(lba=lba, blocks=blocks, anchor=anchor, unmap=unmap,
                                    group_number=group_number)
        return self.send(cdb, data_out)

    def write_same16(self, lba: int = 0, data_out: bytes = b"", *, blocks: int = 1,
                     anchor: bool = False, unmap: bool = False, ndob: bool = False,
                     group_number: int = 0) -> "Reply":
        """WRITE SAME(16), operation code 93h (SBC-3, 5.44)."""
        cdb = commands.write_same16(lba=lba, blocks=blocks, anchor=anchor, unmap=unmap, ndob=ndob,
                                    group_number=group_number)
        return self.send(cdb, data_out)

    def unmap(self, data_out: bytes = b"", *, anchor: bool = False, group_number: int = 0,
              parameter_list_length: Optional[int] = None) -> "Reply":
        """UNMAP, operation code 42h (SBC-3, 5.28)."""
        if parameter_list_length is None:
            parameter_list_length = len(data_out)
        cdb = commands.unmap(anchor=anchor, group_number=group_number,
                             parameter_list_length=parameter_list_length)
        return self.send(cdb, data_out)

    def get_lba_status(self, lba: int = 0, *, allocation_length: int = 0xFFFFFFFF) -> "Reply":
        """GET LBA STATUS, operation code 9Eh, service action 12h (SBC-3, 5.4)."""
        cdb = commands.get_lba_status(lba=lba, allocation_length=allocation_length)
        return self.send(cdb)

    def persistent_reserve_in(self, service_action: int, *,
                              allocation_length: int = 0xFFFF) -> "Reply":
        """PERSISTENT RESERVE IN, operation code 5Eh (SPC-4, 6.15)."""
        cdb = commands.persistent_reserve_in(service_action=service_action,
                                             allocation_length=allocation_length)
        return self.send(cdb)

    def persistent_reserve_out(self, service_action: int, data_out: bytes = b"", *, scope: int = 0,
                               type: int = 0, parameter_list_length: Optional[int] = None) -> "Reply":
        """PERSISTENT RESERVE OUT, operation code 5Fh (SPC-4, 6.16)."""
        if parameter_list_length is None:
            parameter_list_length = len(data_out)
        cdb = commands.persistent_reserve_out(service_action=service_action, scope=scope, type=type,
                                              parameter_list_length=parameter_list_length)
        return self.send(cdb, data_out)

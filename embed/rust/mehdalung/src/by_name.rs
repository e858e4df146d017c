//! The commands of an initiator, by name.
// Made by `embed/rust/generate` from the proved table of CDBs. Do not edit it.
use crate::cdb::length_of;
use crate::{commands, Error, Initiator, Reply};

/// Commands by name. Each takes the arguments of its function in [`commands`], and then data-out if the
/// command has some. The reply prints data-in field by field, by [`kind_of`](crate::kind_of). A method
/// panics where its function does, and if a parameter list is too long for its length to fit.
impl<'a> Initiator<'a> {
    /// Executes TEST UNIT READY by [`commands::test_unit_ready`].
    pub fn test_unit_ready(self) -> Result<Reply<'a>, Error> {
        let cdb = commands::test_unit_ready();
        self.send(&cdb, &[])
    }

    /// Executes REQUEST SENSE by [`commands::request_sense`].
    pub fn request_sense(self, desc: bool, allocation_length: u8) -> Result<Reply<'a>, Error> {
        let cdb = commands::request_sense(desc, allocation_length);
        self.send(&cdb, &[])
    }

    /// Executes INQUIRY by [`commands::inquiry`].
    pub fn inquiry(
        self,
        evpd: bool,
        page_code: u8,
        allocation_length: u16,
    ) -> Result<Reply<'a>, Error> {
        let cdb = commands::inquiry(evpd, page_code, allocation_length);
        self.send(&cdb, &[])
    }

    /// Executes MODE SELECT(6) by [`commands::mode_select6`]. PARAMETER LIST LENGTH is the length
    /// of data-out.
    pub fn mode_select6(self, pf: bool, sp: bool, data_out: &[u8]) -> Result<Reply<'a>, Error> {
        let cdb = commands::mode_select6(pf, sp, length_of(data_out));
        self.send(&cdb, data_out)
    }

    /// Executes MODE SELECT(10) by [`commands::mode_select10`]. PARAMETER LIST LENGTH is the length
    /// of data-out.
    pub fn mode_select10(self, pf: bool, sp: bool, data_out: &[u8]) -> Result<Reply<'a>, Error> {
        let cdb = commands::mode_select10(pf, sp, length_of(data_out));
        self.send(&cdb, data_out)
    }

    /// Executes MODE SENSE(6) by [`commands::mode_sense6`].
    pub fn mode_sense6(self, fields: commands::ModeSense6) -> Result<Reply<'a>, Error> {
        let cdb = commands::mode_sense6(fields);
        self.send(&cdb, &[])
    }

    /// Executes MODE SENSE(10) by [`commands::mode_sense10`].
    pub fn mode_sense10(self, fields: commands::ModeSense10) -> Result<Reply<'a>, Error> {
        let cdb = commands::mode_sense10(fields);
        self.send(&cdb, &[])
    }

    /// Executes LOG SENSE by [`commands::log_sense`].
    pub fn log_sense(
        self,
        page_code: u8,
        subpage_code: u8,
        parameter_pointer: u16,
        allocation_length: u16,
    ) -> Result<Reply<'a>, Error> {
        let cdb =
            commands::log_sense(page_code, subpage_code, parameter_pointer, allocation_length);
        self.send(&cdb, &[])
    }

    /// Executes REPORT LUNS by [`commands::report_luns`].
    pub fn report_luns(
        self,
        select_report: u8,
        allocation_length: u32,
    ) -> Result<Reply<'a>, Error> {
        let cdb = commands::report_luns(select_report, allocation_length);
        self.send(&cdb, &[])
    }

    /// Executes REPORT SUPPORTED OPERATION CODES by [`commands::report_supported_operation_codes`].
    pub fn report_supported_operation_codes(
        self,
        fields: commands::ReportSupportedOperationCodes,
    ) -> Result<Reply<'a>, Error> {
        let cdb = commands::report_supported_operation_codes(fields);
        self.send(&cdb, &[])
    }

    /// Executes REPORT SUPPORTED TASK MANAGEMENT FUNCTIONS by
    /// [`commands::report_supported_task_management_functions`].
    pub fn report_supported_task_management_functions(
        self,
        repd: bool,
        allocation_length: u32,
    ) -> Result<Reply<'a>, Error> {
        let cdb = commands::report_supported_task_management_functions(repd, allocation_length);
        self.send(&cdb, &[])
    }

    /// Executes REPORT TARGET PORT GROUPS by [`commands::report_target_port_groups`].
    pub fn report_target_port_groups(
        self,
        parameter_data_format: u8,
        allocation_length: u32,
    ) -> Result<Reply<'a>, Error> {
        let cdb = commands::report_target_port_groups(parameter_data_format, allocation_length);
        self.send(&cdb, &[])
    }

    /// Executes SEND DIAGNOSTIC by [`commands::send_diagnostic`].
    pub fn send_diagnostic(
        self,
        self_test_code: u8,
        selftest: bool,
        parameter_list_length: u16,
    ) -> Result<Reply<'a>, Error> {
        let cdb = commands::send_diagnostic(self_test_code, selftest, parameter_list_length);
        self.send(&cdb, &[])
    }

    /// Executes EXTENDED COPY(LID1) by [`commands::extended_copy_lid1`]. PARAMETER LIST LENGTH is
    /// the length of data-out.
    pub fn extended_copy_lid1(self, data_out: &[u8]) -> Result<Reply<'a>, Error> {
        let cdb = commands::extended_copy_lid1(length_of(data_out));
        self.send(&cdb, data_out)
    }

    /// Executes RECEIVE COPY OPERATING PARAMETERS by
    /// [`commands::receive_copy_operating_parameters`].
    pub fn receive_copy_operating_parameters(
        self,
        allocation_length: u32,
    ) -> Result<Reply<'a>, Error> {
        let cdb = commands::receive_copy_operating_parameters(allocation_length);
        self.send(&cdb, &[])
    }

    /// Executes COMPARE AND WRITE by [`commands::compare_and_write`].
    pub fn compare_and_write(
        self,
        lba: u64,
        blocks: u8,
        data_out: &[u8],
    ) -> Result<Reply<'a>, Error> {
        let cdb = commands::compare_and_write(lba, blocks);
        self.send(&cdb, data_out)
    }

    /// Executes FORMAT UNIT by [`commands::format_unit`].
    pub fn format_unit(
        self,
        longlist: bool,
        fmtdata: bool,
        data_out: &[u8],
    ) -> Result<Reply<'a>, Error> {
        let cdb = commands::format_unit(longlist, fmtdata);
        self.send(&cdb, data_out)
    }

    /// Executes ORWRITE(16) by [`commands::orwrite16`].
    pub fn orwrite16(self, lba: u64, blocks: u32, data_out: &[u8]) -> Result<Reply<'a>, Error> {
        let cdb = commands::orwrite16(lba, blocks);
        self.send(&cdb, data_out)
    }

    /// Executes PRE-FETCH(10) by [`commands::pre_fetch10`].
    pub fn pre_fetch10(self, lba: u32, blocks: u16) -> Result<Reply<'a>, Error> {
        let cdb = commands::pre_fetch10(lba, blocks);
        self.send(&cdb, &[])
    }

    /// Executes PRE-FETCH(16) by [`commands::pre_fetch16`].
    pub fn pre_fetch16(self, lba: u64, blocks: u32) -> Result<Reply<'a>, Error> {
        let cdb = commands::pre_fetch16(lba, blocks);
        self.send(&cdb, &[])
    }

    /// Executes READ(6) by [`commands::read6`].
    pub fn read6(self, lba: u32, blocks: u8) -> Result<Reply<'a>, Error> {
        let cdb = commands::read6(lba, blocks);
        self.send(&cdb, &[])
    }

    /// Executes READ(10) by [`commands::read10`].
    pub fn read10(self, lba: u32, blocks: u16) -> Result<Reply<'a>, Error> {
        let cdb = commands::read10(lba, blocks);
        self.send(&cdb, &[])
    }

    /// Executes READ(12) by [`commands::read12`].
    pub fn read12(self, lba: u32, blocks: u32) -> Result<Reply<'a>, Error> {
        let cdb = commands::read12(lba, blocks);
        self.send(&cdb, &[])
    }

    /// Executes READ(16) by [`commands::read16`].
    pub fn read16(self, lba: u64, blocks: u32) -> Result<Reply<'a>, Error> {
        let cdb = commands::read16(lba, blocks);
        self.send(&cdb, &[])
    }

    /// Executes WRITE(6) by [`commands::write6`].
    pub fn write6(self, lba: u32, blocks: u8, data_out: &[u8]) -> Result<Reply<'a>, Error> {
        let cdb = commands::write6(lba, blocks);
        self.send(&cdb, data_out)
    }

    /// Executes WRITE(10) by [`commands::write10`].
    pub fn write10(self, lba: u32, blocks: u16, data_out: &[u8]) -> Result<Reply<'a>, Error> {
        let cdb = commands::write10(lba, blocks);
        self.send(&cdb, data_out)
    }

    /// Executes WRITE(12) by [`commands::write12`].
    pub fn write12(self, lba: u32, blocks: u32, data_out: &[u8]) -> Result<Reply<'a>, Error> {
        let cdb = commands::write12(lba, blocks);
        self.send(&cdb, data_out)
    }

    /// Executes WRITE(16) by [`commands::write16`].
    pub fn write16(self, lba: u64, blocks: u32, data_out: &[u8]) -> Result<Reply<'a>, Error> {
        let cdb = commands::write16(lba, blocks);
        self.send(&cdb, data_out)
    }

    /// Executes READ CAPACITY(10) by [`commands::read_capacity10`].
    pub fn read_capacity10(self) -> Result<Reply<'a>, Error> {
        let cdb = commands::read_capacity10();
        self.send(&cdb, &[])
    }

    /// Executes READ CAPACITY(16) by [`commands::read_capacity16`].
    pub fn read_capacity16(self, allocation_length: u32) -> Result<Reply<'a>, Error> {
        let cdb = commands::read_capacity16(allocation_length);
        self.send(&cdb, &[])
    }

    /// Executes READ DEFECT DATA(10) by [`commands::read_defect_data10`].
    pub fn read_defect_data10(
        self,
        req_plist: bool,
        req_glist: bool,
        defect_list_format: u8,
        allocation_length: u16,
    ) -> Result<Reply<'a>, Error> {
        let cdb = commands::read_defect_data10(
            req_plist,
            req_glist,
            defect_list_format,
            allocation_length,
        );
        self.send(&cdb, &[])
    }

    /// Executes READ DEFECT DATA(12) by [`commands::read_defect_data12`].
    pub fn read_defect_data12(
        self,
        req_plist: bool,
        req_glist: bool,
        defect_list_format: u8,
        allocation_length: u32,
    ) -> Result<Reply<'a>, Error> {
        let cdb = commands::read_defect_data12(
            req_plist,
            req_glist,
            defect_list_format,
            allocation_length,
        );
        self.send(&cdb, &[])
    }

    /// Executes SANITIZE, BLOCK ERASE by [`commands::sanitize_block_erase`].
    pub fn sanitize_block_erase(self, parameter_list_length: u16) -> Result<Reply<'a>, Error> {
        let cdb = commands::sanitize_block_erase(parameter_list_length);
        self.send(&cdb, &[])
    }

    /// Executes SANITIZE, CRYPTOGRAPHIC ERASE by [`commands::sanitize_cryptographic_erase`].
    pub fn sanitize_cryptographic_erase(
        self,
        parameter_list_length: u16,
    ) -> Result<Reply<'a>, Error> {
        let cdb = commands::sanitize_cryptographic_erase(parameter_list_length);
        self.send(&cdb, &[])
    }

    /// Executes SANITIZE, EXIT FAILURE MODE by [`commands::sanitize_exit_failure_mode`].
    pub fn sanitize_exit_failure_mode(
        self,
        parameter_list_length: u16,
    ) -> Result<Reply<'a>, Error> {
        let cdb = commands::sanitize_exit_failure_mode(parameter_list_length);
        self.send(&cdb, &[])
    }

    /// Executes START STOP UNIT by [`commands::start_stop_unit`].
    pub fn start_stop_unit(
        self,
        power_condition_modifier: u8,
        power_condition: u8,
        loej: bool,
        start: bool,
    ) -> Result<Reply<'a>, Error> {
        let cdb = commands::start_stop_unit(power_condition_modifier, power_condition, loej, start);
        self.send(&cdb, &[])
    }

    /// Executes SYNCHRONIZE CACHE(10) by [`commands::synchronize_cache10`].
    pub fn synchronize_cache10(self, lba: u32, blocks: u16) -> Result<Reply<'a>, Error> {
        let cdb = commands::synchronize_cache10(lba, blocks);
        self.send(&cdb, &[])
    }

    /// Executes SYNCHRONIZE CACHE(16) by [`commands::synchronize_cache16`].
    pub fn synchronize_cache16(self, lba: u64, blocks: u32) -> Result<Reply<'a>, Error> {
        let cdb = commands::synchronize_cache16(lba, blocks);
        self.send(&cdb, &[])
    }

    /// Executes VERIFY(10) by [`commands::verify10`].
    pub fn verify10(
        self,
        lba: u32,
        blocks: u16,
        bytchk: u8,
        data_out: &[u8],
    ) -> Result<Reply<'a>, Error> {
        let cdb = commands::verify10(lba, blocks, bytchk);
        self.send(&cdb, data_out)
    }

    /// Executes VERIFY(12) by [`commands::verify12`].
    pub fn verify12(
        self,
        lba: u32,
        blocks: u32,
        bytchk: u8,
        data_out: &[u8],
    ) -> Result<Reply<'a>, Error> {
        let cdb = commands::verify12(lba, blocks, bytchk);
        self.send(&cdb, data_out)
    }

    /// Executes VERIFY(16) by [`commands::verify16`].
    pub fn verify16(
        self,
        lba: u64,
        blocks: u32,
        bytchk: u8,
        data_out: &[u8],
    ) -> Result<Reply<'a>, Error> {
        let cdb = commands::verify16(lba, blocks, bytchk);
        self.send(&cdb, data_out)
    }

    /// Executes WRITE AND VERIFY(10) by [`commands::write_and_verify10`].
    pub fn write_and_verify10(
        self,
        lba: u32,
        blocks: u16,
        bytchk: u8,
        data_out: &[u8],
    ) -> Result<Reply<'a>, Error> {
        let cdb = commands::write_and_verify10(lba, blocks, bytchk);
        self.send(&cdb, data_out)
    }

    /// Executes WRITE AND VERIFY(12) by [`commands::write_and_verify12`].
    pub fn write_and_verify12(
        self,
        lba: u32,
        blocks: u32,
        bytchk: u8,
        data_out: &[u8],
    ) -> Result<Reply<'a>, Error> {
        let cdb = commands::write_and_verify12(lba, blocks, bytchk);
        self.send(&cdb, data_out)
    }

    /// Executes WRITE AND VERIFY(16) by [`commands::write_and_verify16`].
    pub fn write_and_verify16(
        self,
        lba: u64,
        blocks: u32,
        bytchk: u8,
        data_out: &[u8],
    ) -> Result<Reply<'a>, Error> {
        let cdb = commands::write_and_verify16(lba, blocks, bytchk);
        self.send(&cdb, data_out)
    }

    /// Executes WRITE ATOMIC(16) by [`commands::write_atomic16`].
    pub fn write_atomic16(
        self,
        lba: u64,
        blocks: u16,
        atomic_boundary: u16,
        data_out: &[u8],
    ) -> Result<Reply<'a>, Error> {
        let cdb = commands::write_atomic16(lba, blocks, atomic_boundary);
        self.send(&cdb, data_out)
    }

    /// Executes WRITE LONG(10) by [`commands::write_long10`].
    pub fn write_long10(self, lba: u32, cor_dis: bool, wr_uncor: bool) -> Result<Reply<'a>, Error> {
        let cdb = commands::write_long10(lba, cor_dis, wr_uncor);
        self.send(&cdb, &[])
    }

    /// Executes WRITE SAME(10) by [`commands::write_same10`].
    pub fn write_same10(
        self,
        lba: u32,
        blocks: u16,
        anchor: bool,
        unmap: bool,
        data_out: &[u8],
    ) -> Result<Reply<'a>, Error> {
        let cdb = commands::write_same10(lba, blocks, anchor, unmap);
        self.send(&cdb, data_out)
    }

    /// Executes WRITE SAME(16) by [`commands::write_same16`].
    pub fn write_same16(
        self,
        fields: commands::WriteSame16,
        data_out: &[u8],
    ) -> Result<Reply<'a>, Error> {
        let cdb = commands::write_same16(fields);
        self.send(&cdb, data_out)
    }

    /// Executes UNMAP by [`commands::unmap`]. PARAMETER LIST LENGTH is the length of data-out.
    pub fn unmap(self, anchor: bool, data_out: &[u8]) -> Result<Reply<'a>, Error> {
        let cdb = commands::unmap(anchor, length_of(data_out));
        self.send(&cdb, data_out)
    }

    /// Executes GET LBA STATUS by [`commands::get_lba_status`].
    pub fn get_lba_status(self, lba: u64, allocation_length: u32) -> Result<Reply<'a>, Error> {
        let cdb = commands::get_lba_status(lba, allocation_length);
        self.send(&cdb, &[])
    }

    /// Executes PERSISTENT RESERVE IN by [`commands::persistent_reserve_in`].
    pub fn persistent_reserve_in(
        self,
        service_action: u8,
        allocation_length: u16,
    ) -> Result<Reply<'a>, Error> {
        let cdb = commands::persistent_reserve_in(service_action, allocation_length);
        self.send(&cdb, &[])
    }

    /// Executes PERSISTENT RESERVE OUT by [`commands::persistent_reserve_out`]. PARAMETER LIST
    /// LENGTH is the length of data-out.
    pub fn persistent_reserve_out(
        self,
        service_action: u8,
        scope: u8,
        type_: u8,
        data_out: &[u8],
    ) -> Result<Reply<'a>, Error> {
        let cdb =
            commands::persistent_reserve_out(service_action, scope, type_, length_of(data_out));
        self.send(&cdb, data_out)
    }
}

//! Each command with each field at its largest, if the disk looks at it.
// Made by `embed/rust/generate` from the proved table of CDBs. Do not edit it.
use mehdalung::commands::*;

#[rustfmt::skip]
pub fn cdbs() -> Vec<Vec<u8>> {
    vec![
        test_unit_ready().to_vec(),
        request_sense(true, u8::MAX).to_vec(),
        inquiry(true, u8::MAX, u16::MAX).to_vec(),
        mode_select6(true, true, u8::MAX).to_vec(),
        mode_select10(true, true, u16::MAX).to_vec(),
        ModeSense6 {
            dbd: true,
            pc: 0x3,
            page_code: 0x3F,
            subpage_code: u8::MAX,
            allocation_length: u8::MAX,
        }
        .cdb()
        .to_vec(),
        ModeSense10 {
            llbaa: true,
            dbd: true,
            pc: 0x3,
            page_code: 0x3F,
            subpage_code: u8::MAX,
            allocation_length: u16::MAX,
        }
        .cdb()
        .to_vec(),
        LogSense {
            page_code: 0x3F,
            subpage_code: u8::MAX,
            parameter_pointer: u16::MAX,
            allocation_length: u16::MAX,
            pc: 0x3,
        }
        .cdb()
        .to_vec(),
        report_luns(u8::MAX, u32::MAX).to_vec(),
        ReportSupportedOperationCodes {
            rctd: true,
            reporting_options: 0x7,
            requested_operation_code: u8::MAX,
            requested_service_action: u16::MAX,
            allocation_length: u32::MAX,
        }
        .cdb()
        .to_vec(),
        report_supported_task_management_functions(true, u32::MAX).to_vec(),
        report_target_port_groups(0x7, u32::MAX).to_vec(),
        send_diagnostic(0x7, true, u16::MAX).to_vec(),
        extended_copy_lid1(u32::MAX).to_vec(),
        receive_copy_operating_parameters(u32::MAX).to_vec(),
        CompareAndWrite { lba: u64::MAX, blocks: u8::MAX, dpo: true, fua: true }.cdb().to_vec(),
        format_unit(true, true).to_vec(),
        Orwrite16 { lba: u64::MAX, blocks: u32::MAX, dpo: true, fua: true }.cdb().to_vec(),
        PreFetch10 { lba: u32::MAX, blocks: u16::MAX, immed: true }.cdb().to_vec(),
        PreFetch16 { lba: u64::MAX, blocks: u32::MAX, immed: true }.cdb().to_vec(),
        read6(0x1FFFFF, u8::MAX).to_vec(),
        Read10 { lba: u32::MAX, blocks: u16::MAX, dpo: true, fua: true }.cdb().to_vec(),
        Read12 { lba: u32::MAX, blocks: u32::MAX, dpo: true, fua: true }.cdb().to_vec(),
        Read16 { lba: u64::MAX, blocks: u32::MAX, dpo: true, fua: true }.cdb().to_vec(),
        write6(0x1FFFFF, u8::MAX).to_vec(),
        Write10 { lba: u32::MAX, blocks: u16::MAX, dpo: true, fua: true }.cdb().to_vec(),
        Write12 { lba: u32::MAX, blocks: u32::MAX, dpo: true, fua: true }.cdb().to_vec(),
        Write16 { lba: u64::MAX, blocks: u32::MAX, dpo: true, fua: true }.cdb().to_vec(),
        read_capacity10().to_vec(),
        read_capacity16(u32::MAX).to_vec(),
        read_defect_data10(true, true, 0x7, u16::MAX).to_vec(),
        read_defect_data12(true, true, 0x7, u32::MAX).to_vec(),
        SanitizeBlockErase { parameter_list_length: u16::MAX, immed: true }.cdb().to_vec(),
        SanitizeCryptographicErase { parameter_list_length: u16::MAX, immed: true }.cdb().to_vec(),
        SanitizeExitFailureMode { parameter_list_length: u16::MAX, immed: true }.cdb().to_vec(),
        StartStopUnit {
            power_condition_modifier: 0xF,
            power_condition: 0xF,
            loej: true,
            start: true,
            immed: true,
            no_flush: true,
        }
        .cdb()
        .to_vec(),
        SynchronizeCache10 { lba: u32::MAX, blocks: u16::MAX, immed: true }.cdb().to_vec(),
        SynchronizeCache16 { lba: u64::MAX, blocks: u32::MAX, immed: true }.cdb().to_vec(),
        Verify10 { lba: u32::MAX, blocks: u16::MAX, bytchk: 0x3, dpo: true }.cdb().to_vec(),
        Verify12 { lba: u32::MAX, blocks: u32::MAX, bytchk: 0x3, dpo: true }.cdb().to_vec(),
        Verify16 { lba: u64::MAX, blocks: u32::MAX, bytchk: 0x3, dpo: true }.cdb().to_vec(),
        WriteAndVerify10 { lba: u32::MAX, blocks: u16::MAX, bytchk: 0x3, dpo: true }.cdb().to_vec(),
        WriteAndVerify12 { lba: u32::MAX, blocks: u32::MAX, bytchk: 0x3, dpo: true }.cdb().to_vec(),
        WriteAndVerify16 { lba: u64::MAX, blocks: u32::MAX, bytchk: 0x3, dpo: true }.cdb().to_vec(),
        WriteAtomic16 {
            lba: u64::MAX,
            blocks: u16::MAX,
            atomic_boundary: u16::MAX,
            dpo: true,
            fua: true,
        }
        .cdb()
        .to_vec(),
        write_long10(u32::MAX, true, true).to_vec(),
        write_same10(u32::MAX, u16::MAX, true, true).to_vec(),
        WriteSame16 {
            lba: u64::MAX,
            blocks: u32::MAX,
            anchor: true,
            unmap: true,
            ndob: true,
        }
        .cdb()
        .to_vec(),
        unmap(true, u16::MAX).to_vec(),
        get_lba_status(u64::MAX, u32::MAX).to_vec(),
        persistent_reserve_in(0, u16::MAX).to_vec(),
        persistent_reserve_in(1, u16::MAX).to_vec(),
        persistent_reserve_in(2, u16::MAX).to_vec(),
        persistent_reserve_in(3, u16::MAX).to_vec(),
        persistent_reserve_out(0, 0, 0, u32::MAX).to_vec(),
        persistent_reserve_out(1, 0xF, 0xF, u32::MAX).to_vec(),
        persistent_reserve_out(2, 0xF, 0xF, u32::MAX).to_vec(),
        persistent_reserve_out(3, 0, 0, u32::MAX).to_vec(),
        persistent_reserve_out(4, 0xF, 0xF, u32::MAX).to_vec(),
        persistent_reserve_out(5, 0xF, 0xF, u32::MAX).to_vec(),
        persistent_reserve_out(6, 0, 0, u32::MAX).to_vec(),
        persistent_reserve_out(7, 0, 0, u32::MAX).to_vec(),
    ]
}

//! The CDB of each command, by name: [`read10`], [`write_same16`], [`unmap`].
//!
//! A function takes the fields of its command: the address and the number of blocks first, and then the
//! others in the order of the proved table of the disk. If there are more than 4, it takes a
//! struct of them, such as [`ModeSense10`]. A struct also has the bits that change no reply, such as FUA in
//! [`Write10`]. Fields that the disk does not look at have no argument.
//!
//! ```
//! use mehdalung::commands::{read10, Read10};
//!
//! assert_eq!(read10(0x1234, 8), [0x28, 0, 0, 0, 0x12, 0x34, 0, 0, 8, 0]);
//! let with_fua = Read10 { lba: 0x1234, blocks: 8, fua: true, ..Read10::default() };
//! assert_eq!(with_fua.cdb(), [0x28, 0x08, 0, 0, 0x12, 0x34, 0, 0, 8, 0]);
//! ```
// Made by `embed/rust/generate` from the proved table of CDBs. Do not edit it.
use crate::cdb::Cdb;

/// TEST UNIT READY, operation code 00h (SPC-4, 6.47).
pub const fn test_unit_ready() -> [u8; 6] {
    Cdb::of(0x00).end()
}

/// REQUEST SENSE, operation code 03h (SPC-4, 6.39).
///
/// - `desc`: DESC, bit 0 of byte 1
/// - `allocation_length`: ALLOCATION LENGTH, byte 4
pub const fn request_sense(desc: bool, allocation_length: u8) -> [u8; 6] {
    Cdb::of(0x03).bit(1, 0, desc).number(4, 4, allocation_length as u64).end()
}

/// INQUIRY, operation code 12h (SPC-4, 6.6).
///
/// - `evpd`: EVPD, bit 0 of byte 1
/// - `page_code`: PAGE CODE, byte 2
/// - `allocation_length`: ALLOCATION LENGTH, bytes 3 to 4
pub const fn inquiry(evpd: bool, page_code: u8, allocation_length: u16) -> [u8; 6] {
    Cdb::of(0x12)
        .bit(1, 0, evpd)
        .number(2, 2, page_code as u64)
        .number(3, 4, allocation_length as u64)
        .end()
}

/// MODE SELECT(6), operation code 15h (SPC-4, 6.11).
///
/// - `pf`: PF, bit 4 of byte 1
/// - `sp`: SP, bit 0 of byte 1
/// - `parameter_list_length`: PARAMETER LIST LENGTH, byte 4
pub const fn mode_select6(pf: bool, sp: bool, parameter_list_length: u8) -> [u8; 6] {
    Cdb::of(0x15).bit(1, 4, pf).bit(1, 0, sp).number(4, 4, parameter_list_length as u64).end()
}

/// MODE SELECT(10), operation code 55h (SPC-4, 6.12).
///
/// - `pf`: PF, bit 4 of byte 1
/// - `sp`: SP, bit 0 of byte 1
/// - `parameter_list_length`: PARAMETER LIST LENGTH, bytes 7 to 8
pub const fn mode_select10(pf: bool, sp: bool, parameter_list_length: u16) -> [u8; 10] {
    Cdb::of(0x55).bit(1, 4, pf).bit(1, 0, sp).number(7, 8, parameter_list_length as u64).end()
}

/// The fields of MODE SENSE(6), operation code 1Ah (SPC-4, 6.13).
///
/// By default ALLOCATION LENGTH is the largest, and the other fields are 0.
#[derive(Clone, Copy, Debug, PartialEq, Eq)]
pub struct ModeSense6 {
    /// DBD, bit 3 of byte 1.
    pub dbd: bool,
    /// PC, bits 7 to 6 of byte 2.
    pub pc: u8,
    /// PAGE CODE, bits 5 to 0 of byte 2.
    pub page_code: u8,
    /// SUBPAGE CODE, byte 3.
    pub subpage_code: u8,
    /// ALLOCATION LENGTH, byte 4.
    pub allocation_length: u8,
}

impl ModeSense6 {
    /// Returns the CDB.
    ///
    /// # Panics
    ///
    /// If `pc` has more than 2 bits, or `page_code` has more than 6 bits.
    pub const fn cdb(self) -> [u8; 6] {
        Cdb::of(0x1A)
            .bit(1, 3, self.dbd)
            .bits(2, 7, 6, self.pc)
            .bits(2, 5, 0, self.page_code)
            .number(3, 3, self.subpage_code as u64)
            .number(4, 4, self.allocation_length as u64)
            .end()
    }
}

impl Default for ModeSense6 {
    fn default() -> Self {
        ModeSense6 { dbd: false, pc: 0, page_code: 0, subpage_code: 0, allocation_length: u8::MAX }
    }
}

/// MODE SENSE(6), operation code 1Ah (SPC-4, 6.13).
///
/// - `fields`: the fields, as [`ModeSense6`] has them
///
/// # Panics
///
/// If `pc` has more than 2 bits, or `page_code` has more than 6 bits.
pub const fn mode_sense6(fields: ModeSense6) -> [u8; 6] {
    fields.cdb()
}

/// The fields of MODE SENSE(10), operation code 5Ah (SPC-4, 6.14).
///
/// By default ALLOCATION LENGTH is the largest, and the other fields are 0.
#[derive(Clone, Copy, Debug, PartialEq, Eq)]
pub struct ModeSense10 {
    /// LLBAA, bit 4 of byte 1.
    pub llbaa: bool,
    /// DBD, bit 3 of byte 1.
    pub dbd: bool,
    /// PC, bits 7 to 6 of byte 2.
    pub pc: u8,
    /// PAGE CODE, bits 5 to 0 of byte 2.
    pub page_code: u8,
    /// SUBPAGE CODE, byte 3.
    pub subpage_code: u8,
    /// ALLOCATION LENGTH, bytes 7 to 8.
    pub allocation_length: u16,
}

impl ModeSense10 {
    /// Returns the CDB.
    ///
    /// # Panics
    ///
    /// If `pc` has more than 2 bits, or `page_code` has more than 6 bits.
    pub const fn cdb(self) -> [u8; 10] {
        Cdb::of(0x5A)
            .bit(1, 4, self.llbaa)
            .bit(1, 3, self.dbd)
            .bits(2, 7, 6, self.pc)
            .bits(2, 5, 0, self.page_code)
            .number(3, 3, self.subpage_code as u64)
            .number(7, 8, self.allocation_length as u64)
            .end()
    }
}

impl Default for ModeSense10 {
    fn default() -> Self {
        ModeSense10 {
            llbaa: false,
            dbd: false,
            pc: 0,
            page_code: 0,
            subpage_code: 0,
            allocation_length: u16::MAX,
        }
    }
}

/// MODE SENSE(10), operation code 5Ah (SPC-4, 6.14).
///
/// - `fields`: the fields, as [`ModeSense10`] has them
///
/// # Panics
///
/// If `pc` has more than 2 bits, or `page_code` has more than 6 bits.
pub const fn mode_sense10(fields: ModeSense10) -> [u8; 10] {
    fields.cdb()
}

/// The fields of LOG SENSE, operation code 4Dh (SPC-4, 6.8). Only an extended disk has it.
///
/// By default ALLOCATION LENGTH is the largest, and the other fields are 0.
#[derive(Clone, Copy, Debug, PartialEq, Eq)]
pub struct LogSense {
    /// PAGE CODE, bits 5 to 0 of byte 2.
    pub page_code: u8,
    /// SUBPAGE CODE, byte 3.
    pub subpage_code: u8,
    /// PARAMETER POINTER, bytes 5 to 6.
    pub parameter_pointer: u16,
    /// ALLOCATION LENGTH, bytes 7 to 8.
    pub allocation_length: u16,
    /// PC, bits 7 to 6 of byte 2.
    pub pc: u8,
}

impl LogSense {
    /// Returns the CDB.
    ///
    /// # Panics
    ///
    /// If `page_code` has more than 6 bits, or `pc` has more than 2 bits.
    pub const fn cdb(self) -> [u8; 10] {
        Cdb::of(0x4D)
            .bits(2, 5, 0, self.page_code)
            .number(3, 3, self.subpage_code as u64)
            .number(5, 6, self.parameter_pointer as u64)
            .number(7, 8, self.allocation_length as u64)
            .bits(2, 7, 6, self.pc)
            .end()
    }
}

impl Default for LogSense {
    fn default() -> Self {
        LogSense {
            page_code: 0,
            subpage_code: 0,
            parameter_pointer: 0,
            allocation_length: u16::MAX,
            pc: 0,
        }
    }
}

/// LOG SENSE, operation code 4Dh (SPC-4, 6.8). Only an extended disk has it. [`LogSense`] has PC,
/// too.
///
/// - `page_code`: PAGE CODE, bits 5 to 0 of byte 2
/// - `subpage_code`: SUBPAGE CODE, byte 3
/// - `parameter_pointer`: PARAMETER POINTER, bytes 5 to 6
/// - `allocation_length`: ALLOCATION LENGTH, bytes 7 to 8
///
/// # Panics
///
/// If `page_code` has more than 6 bits.
pub const fn log_sense(
    page_code: u8,
    subpage_code: u8,
    parameter_pointer: u16,
    allocation_length: u16,
) -> [u8; 10] {
    LogSense { page_code, subpage_code, parameter_pointer, allocation_length, pc: 0 }.cdb()
}

/// REPORT LUNS, operation code A0h (SPC-4, 6.33). Only an extended disk has it.
///
/// - `select_report`: SELECT REPORT, byte 2
/// - `allocation_length`: ALLOCATION LENGTH, bytes 6 to 9
pub const fn report_luns(select_report: u8, allocation_length: u32) -> [u8; 12] {
    Cdb::of(0xA0).number(2, 2, select_report as u64).number(6, 9, allocation_length as u64).end()
}

/// The fields of REPORT SUPPORTED OPERATION CODES, operation code A3h, service action 0Ch (SPC-4,
/// 6.35). Only an extended disk has it.
///
/// By default ALLOCATION LENGTH is the largest, and the other fields are 0.
#[derive(Clone, Copy, Debug, PartialEq, Eq)]
pub struct ReportSupportedOperationCodes {
    /// RCTD, bit 7 of byte 2.
    pub rctd: bool,
    /// REPORTING OPTIONS, bits 2 to 0 of byte 2.
    pub reporting_options: u8,
    /// REQUESTED OPERATION CODE, byte 3.
    pub requested_operation_code: u8,
    /// REQUESTED SERVICE ACTION, bytes 4 to 5.
    pub requested_service_action: u16,
    /// ALLOCATION LENGTH, bytes 6 to 9.
    pub allocation_length: u32,
}

impl ReportSupportedOperationCodes {
    /// Returns the CDB.
    ///
    /// # Panics
    ///
    /// If `reporting_options` has more than 3 bits.
    pub const fn cdb(self) -> [u8; 12] {
        Cdb::of(0xA3)
            .bits(1, 4, 0, 0x0C)
            .bit(2, 7, self.rctd)
            .bits(2, 2, 0, self.reporting_options)
            .number(3, 3, self.requested_operation_code as u64)
            .number(4, 5, self.requested_service_action as u64)
            .number(6, 9, self.allocation_length as u64)
            .end()
    }
}

impl Default for ReportSupportedOperationCodes {
    fn default() -> Self {
        ReportSupportedOperationCodes {
            rctd: false,
            reporting_options: 0,
            requested_operation_code: 0,
            requested_service_action: 0,
            allocation_length: u32::MAX,
        }
    }
}

/// REPORT SUPPORTED OPERATION CODES, operation code A3h, service action 0Ch (SPC-4, 6.35). Only an
/// extended disk has it.
///
/// - `fields`: the fields, as [`ReportSupportedOperationCodes`] has them
///
/// # Panics
///
/// If `reporting_options` has more than 3 bits.
pub const fn report_supported_operation_codes(fields: ReportSupportedOperationCodes) -> [u8; 12] {
    fields.cdb()
}

/// REPORT SUPPORTED TASK MANAGEMENT FUNCTIONS, operation code A3h, service action 0Dh (SPC-4,
/// 6.36). Only an extended disk has it.
///
/// - `repd`: REPD, bit 7 of byte 2
/// - `allocation_length`: ALLOCATION LENGTH, bytes 6 to 9
pub const fn report_supported_task_management_functions(
    repd: bool,
    allocation_length: u32,
) -> [u8; 12] {
    Cdb::of(0xA3).bits(1, 4, 0, 0x0D).bit(2, 7, repd).number(6, 9, allocation_length as u64).end()
}

/// REPORT TARGET PORT GROUPS, operation code A3h, service action 0Ah (SPC-4, 6.37). Only an
/// extended disk has it.
///
/// - `parameter_data_format`: PARAMETER DATA FORMAT, bits 7 to 5 of byte 1
/// - `allocation_length`: ALLOCATION LENGTH, bytes 6 to 9
///
/// # Panics
///
/// If `parameter_data_format` has more than 3 bits.
pub const fn report_target_port_groups(
    parameter_data_format: u8,
    allocation_length: u32,
) -> [u8; 12] {
    Cdb::of(0xA3)
        .bits(1, 4, 0, 0x0A)
        .bits(1, 7, 5, parameter_data_format)
        .number(6, 9, allocation_length as u64)
        .end()
}

/// SEND DIAGNOSTIC, operation code 1Dh (SPC-4, 6.42). Only an extended disk has it.
///
/// - `self_test_code`: SELF-TEST CODE, bits 7 to 5 of byte 1
/// - `selftest`: SELFTEST, bit 2 of byte 1
/// - `parameter_list_length`: PARAMETER LIST LENGTH, bytes 3 to 4
///
/// # Panics
///
/// If `self_test_code` has more than 3 bits.
pub const fn send_diagnostic(
    self_test_code: u8,
    selftest: bool,
    parameter_list_length: u16,
) -> [u8; 6] {
    Cdb::of(0x1D)
        .bits(1, 7, 5, self_test_code)
        .bit(1, 2, selftest)
        .number(3, 4, parameter_list_length as u64)
        .end()
}

/// EXTENDED COPY(LID1), operation code 83h, service action 00h (SPC-4, 6.5). Only an extended disk
/// has it.
///
/// - `parameter_list_length`: PARAMETER LIST LENGTH, bytes 10 to 13
pub const fn extended_copy_lid1(parameter_list_length: u32) -> [u8; 16] {
    Cdb::of(0x83).bits(1, 4, 0, 0x00).number(10, 13, parameter_list_length as u64).end()
}

/// RECEIVE COPY OPERATING PARAMETERS, operation code 84h, service action 03h (SPC-4, 6.23). Only an
/// extended disk has it.
///
/// - `allocation_length`: ALLOCATION LENGTH, bytes 10 to 13
pub const fn receive_copy_operating_parameters(allocation_length: u32) -> [u8; 16] {
    Cdb::of(0x84).bits(1, 4, 0, 0x03).number(10, 13, allocation_length as u64).end()
}

/// The fields of COMPARE AND WRITE, operation code 89h (SBC-3, 5.2). Only an extended disk has it.
#[derive(Clone, Copy, Debug, Default, PartialEq, Eq)]
pub struct CompareAndWrite {
    /// LOGICAL BLOCK ADDRESS, bytes 2 to 9.
    pub lba: u64,
    /// NUMBER OF LOGICAL BLOCKS, byte 13.
    pub blocks: u8,
    /// DPO, bit 4 of byte 1.
    pub dpo: bool,
    /// FUA, bit 3 of byte 1.
    pub fua: bool,
}

impl CompareAndWrite {
    /// Returns the CDB.
    pub const fn cdb(self) -> [u8; 16] {
        Cdb::of(0x89)
            .number(2, 9, self.lba)
            .number(13, 13, self.blocks as u64)
            .bit(1, 4, self.dpo)
            .bit(1, 3, self.fua)
            .end()
    }
}

/// COMPARE AND WRITE, operation code 89h (SBC-3, 5.2). Only an extended disk has it.
/// [`CompareAndWrite`] has DPO and FUA, too.
///
/// - `lba`: LOGICAL BLOCK ADDRESS, bytes 2 to 9
/// - `blocks`: NUMBER OF LOGICAL BLOCKS, byte 13
pub const fn compare_and_write(lba: u64, blocks: u8) -> [u8; 16] {
    CompareAndWrite { lba, blocks, dpo: false, fua: false }.cdb()
}

/// FORMAT UNIT, operation code 04h (SBC-3, 5.3). Only an extended disk has it.
///
/// - `longlist`: LONGLIST, bit 5 of byte 1
/// - `fmtdata`: FMTDATA, bit 4 of byte 1
pub const fn format_unit(longlist: bool, fmtdata: bool) -> [u8; 6] {
    Cdb::of(0x04).bit(1, 5, longlist).bit(1, 4, fmtdata).end()
}

/// The fields of ORWRITE(16), operation code 8Bh (SBC-3, 5.5). Only an extended disk has it.
#[derive(Clone, Copy, Debug, Default, PartialEq, Eq)]
pub struct Orwrite16 {
    /// LOGICAL BLOCK ADDRESS, bytes 2 to 9.
    pub lba: u64,
    /// TRANSFER LENGTH, bytes 10 to 13.
    pub blocks: u32,
    /// DPO, bit 4 of byte 1.
    pub dpo: bool,
    /// FUA, bit 3 of byte 1.
    pub fua: bool,
}

impl Orwrite16 {
    /// Returns the CDB.
    pub const fn cdb(self) -> [u8; 16] {
        Cdb::of(0x8B)
            .number(2, 9, self.lba)
            .number(10, 13, self.blocks as u64)
            .bit(1, 4, self.dpo)
            .bit(1, 3, self.fua)
            .end()
    }
}

/// ORWRITE(16), operation code 8Bh (SBC-3, 5.5). Only an extended disk has it. [`Orwrite16`] has
/// DPO and FUA, too.
///
/// - `lba`: LOGICAL BLOCK ADDRESS, bytes 2 to 9
/// - `blocks`: TRANSFER LENGTH, bytes 10 to 13
pub const fn orwrite16(lba: u64, blocks: u32) -> [u8; 16] {
    Orwrite16 { lba, blocks, dpo: false, fua: false }.cdb()
}

/// The fields of PRE-FETCH(10), operation code 34h (SBC-3, 5.8). Only an extended disk has it.
#[derive(Clone, Copy, Debug, Default, PartialEq, Eq)]
pub struct PreFetch10 {
    /// LOGICAL BLOCK ADDRESS, bytes 2 to 5.
    pub lba: u32,
    /// PREFETCH LENGTH, bytes 7 to 8.
    pub blocks: u16,
    /// IMMED, bit 1 of byte 1.
    pub immed: bool,
}

impl PreFetch10 {
    /// Returns the CDB.
    pub const fn cdb(self) -> [u8; 10] {
        Cdb::of(0x34)
            .number(2, 5, self.lba as u64)
            .number(7, 8, self.blocks as u64)
            .bit(1, 1, self.immed)
            .end()
    }
}

/// PRE-FETCH(10), operation code 34h (SBC-3, 5.8). Only an extended disk has it. [`PreFetch10`] has
/// IMMED, too.
///
/// - `lba`: LOGICAL BLOCK ADDRESS, bytes 2 to 5
/// - `blocks`: PREFETCH LENGTH, bytes 7 to 8
pub const fn pre_fetch10(lba: u32, blocks: u16) -> [u8; 10] {
    PreFetch10 { lba, blocks, immed: false }.cdb()
}

/// The fields of PRE-FETCH(16), operation code 90h (SBC-3, 5.9). Only an extended disk has it.
#[derive(Clone, Copy, Debug, Default, PartialEq, Eq)]
pub struct PreFetch16 {
    /// LOGICAL BLOCK ADDRESS, bytes 2 to 9.
    pub lba: u64,
    /// PREFETCH LENGTH, bytes 10 to 13.
    pub blocks: u32,
    /// IMMED, bit 1 of byte 1.
    pub immed: bool,
}

impl PreFetch16 {
    /// Returns the CDB.
    pub const fn cdb(self) -> [u8; 16] {
        Cdb::of(0x90)
            .number(2, 9, self.lba)
            .number(10, 13, self.blocks as u64)
            .bit(1, 1, self.immed)
            .end()
    }
}

/// PRE-FETCH(16), operation code 90h (SBC-3, 5.9). Only an extended disk has it. [`PreFetch16`] has
/// IMMED, too.
///
/// - `lba`: LOGICAL BLOCK ADDRESS, bytes 2 to 9
/// - `blocks`: PREFETCH LENGTH, bytes 10 to 13
pub const fn pre_fetch16(lba: u64, blocks: u32) -> [u8; 16] {
    PreFetch16 { lba, blocks, immed: false }.cdb()
}

/// READ(6), operation code 08h (SBC-2).
///
/// - `lba`: LOGICAL BLOCK ADDRESS, bits 4 to 0 of bytes 1 to 3
/// - `blocks`: TRANSFER LENGTH, byte 4
///
/// # Panics
///
/// If `lba` has more than 21 bits.
pub const fn read6(lba: u32, blocks: u8) -> [u8; 6] {
    Cdb::of(0x08).address_6(lba as u64).number(4, 4, blocks as u64).end()
}

/// The fields of READ(10), operation code 28h (SBC-3, 5.11).
#[derive(Clone, Copy, Debug, Default, PartialEq, Eq)]
pub struct Read10 {
    /// LOGICAL BLOCK ADDRESS, bytes 2 to 5.
    pub lba: u32,
    /// TRANSFER LENGTH, bytes 7 to 8.
    pub blocks: u16,
    /// DPO, bit 4 of byte 1.
    pub dpo: bool,
    /// FUA, bit 3 of byte 1.
    pub fua: bool,
}

impl Read10 {
    /// Returns the CDB.
    pub const fn cdb(self) -> [u8; 10] {
        Cdb::of(0x28)
            .number(2, 5, self.lba as u64)
            .number(7, 8, self.blocks as u64)
            .bit(1, 4, self.dpo)
            .bit(1, 3, self.fua)
            .end()
    }
}

/// READ(10), operation code 28h (SBC-3, 5.11). [`Read10`] has DPO and FUA, too.
///
/// - `lba`: LOGICAL BLOCK ADDRESS, bytes 2 to 5
/// - `blocks`: TRANSFER LENGTH, bytes 7 to 8
pub const fn read10(lba: u32, blocks: u16) -> [u8; 10] {
    Read10 { lba, blocks, dpo: false, fua: false }.cdb()
}

/// The fields of READ(12), operation code A8h (SBC-3, 5.12). Only an extended disk has it.
#[derive(Clone, Copy, Debug, Default, PartialEq, Eq)]
pub struct Read12 {
    /// LOGICAL BLOCK ADDRESS, bytes 2 to 5.
    pub lba: u32,
    /// TRANSFER LENGTH, bytes 6 to 9.
    pub blocks: u32,
    /// DPO, bit 4 of byte 1.
    pub dpo: bool,
    /// FUA, bit 3 of byte 1.
    pub fua: bool,
}

impl Read12 {
    /// Returns the CDB.
    pub const fn cdb(self) -> [u8; 12] {
        Cdb::of(0xA8)
            .number(2, 5, self.lba as u64)
            .number(6, 9, self.blocks as u64)
            .bit(1, 4, self.dpo)
            .bit(1, 3, self.fua)
            .end()
    }
}

/// READ(12), operation code A8h (SBC-3, 5.12). Only an extended disk has it. [`Read12`] has DPO and
/// FUA, too.
///
/// - `lba`: LOGICAL BLOCK ADDRESS, bytes 2 to 5
/// - `blocks`: TRANSFER LENGTH, bytes 6 to 9
pub const fn read12(lba: u32, blocks: u32) -> [u8; 12] {
    Read12 { lba, blocks, dpo: false, fua: false }.cdb()
}

/// The fields of READ(16), operation code 88h (SBC-3, 5.13).
#[derive(Clone, Copy, Debug, Default, PartialEq, Eq)]
pub struct Read16 {
    /// LOGICAL BLOCK ADDRESS, bytes 2 to 9.
    pub lba: u64,
    /// TRANSFER LENGTH, bytes 10 to 13.
    pub blocks: u32,
    /// DPO, bit 4 of byte 1.
    pub dpo: bool,
    /// FUA, bit 3 of byte 1.
    pub fua: bool,
}

impl Read16 {
    /// Returns the CDB.
    pub const fn cdb(self) -> [u8; 16] {
        Cdb::of(0x88)
            .number(2, 9, self.lba)
            .number(10, 13, self.blocks as u64)
            .bit(1, 4, self.dpo)
            .bit(1, 3, self.fua)
            .end()
    }
}

/// READ(16), operation code 88h (SBC-3, 5.13). [`Read16`] has DPO and FUA, too.
///
/// - `lba`: LOGICAL BLOCK ADDRESS, bytes 2 to 9
/// - `blocks`: TRANSFER LENGTH, bytes 10 to 13
pub const fn read16(lba: u64, blocks: u32) -> [u8; 16] {
    Read16 { lba, blocks, dpo: false, fua: false }.cdb()
}

/// WRITE(6), operation code 0Ah (SBC-2).
///
/// - `lba`: LOGICAL BLOCK ADDRESS, bits 4 to 0 of bytes 1 to 3
/// - `blocks`: TRANSFER LENGTH, byte 4
///
/// # Panics
///
/// If `lba` has more than 21 bits.
pub const fn write6(lba: u32, blocks: u8) -> [u8; 6] {
    Cdb::of(0x0A).address_6(lba as u64).number(4, 4, blocks as u64).end()
}

/// The fields of WRITE(10), operation code 2Ah (SBC-3, 5.33).
#[derive(Clone, Copy, Debug, Default, PartialEq, Eq)]
pub struct Write10 {
    /// LOGICAL BLOCK ADDRESS, bytes 2 to 5.
    pub lba: u32,
    /// TRANSFER LENGTH, bytes 7 to 8.
    pub blocks: u16,
    /// DPO, bit 4 of byte 1.
    pub dpo: bool,
    /// FUA, bit 3 of byte 1.
    pub fua: bool,
}

impl Write10 {
    /// Returns the CDB.
    pub const fn cdb(self) -> [u8; 10] {
        Cdb::of(0x2A)
            .number(2, 5, self.lba as u64)
            .number(7, 8, self.blocks as u64)
            .bit(1, 4, self.dpo)
            .bit(1, 3, self.fua)
            .end()
    }
}

/// WRITE(10), operation code 2Ah (SBC-3, 5.33). [`Write10`] has DPO and FUA, too.
///
/// - `lba`: LOGICAL BLOCK ADDRESS, bytes 2 to 5
/// - `blocks`: TRANSFER LENGTH, bytes 7 to 8
pub const fn write10(lba: u32, blocks: u16) -> [u8; 10] {
    Write10 { lba, blocks, dpo: false, fua: false }.cdb()
}

/// The fields of WRITE(12), operation code AAh (SBC-3, 5.34). Only an extended disk has it.
#[derive(Clone, Copy, Debug, Default, PartialEq, Eq)]
pub struct Write12 {
    /// LOGICAL BLOCK ADDRESS, bytes 2 to 5.
    pub lba: u32,
    /// TRANSFER LENGTH, bytes 6 to 9.
    pub blocks: u32,
    /// DPO, bit 4 of byte 1.
    pub dpo: bool,
    /// FUA, bit 3 of byte 1.
    pub fua: bool,
}

impl Write12 {
    /// Returns the CDB.
    pub const fn cdb(self) -> [u8; 12] {
        Cdb::of(0xAA)
            .number(2, 5, self.lba as u64)
            .number(6, 9, self.blocks as u64)
            .bit(1, 4, self.dpo)
            .bit(1, 3, self.fua)
            .end()
    }
}

/// WRITE(12), operation code AAh (SBC-3, 5.34). Only an extended disk has it. [`Write12`] has DPO
/// and FUA, too.
///
/// - `lba`: LOGICAL BLOCK ADDRESS, bytes 2 to 5
/// - `blocks`: TRANSFER LENGTH, bytes 6 to 9
pub const fn write12(lba: u32, blocks: u32) -> [u8; 12] {
    Write12 { lba, blocks, dpo: false, fua: false }.cdb()
}

/// The fields of WRITE(16), operation code 8Ah (SBC-3, 5.35).
#[derive(Clone, Copy, Debug, Default, PartialEq, Eq)]
pub struct Write16 {
    /// LOGICAL BLOCK ADDRESS, bytes 2 to 9.
    pub lba: u64,
    /// TRANSFER LENGTH, bytes 10 to 13.
    pub blocks: u32,
    /// DPO, bit 4 of byte 1.
    pub dpo: bool,
    /// FUA, bit 3 of byte 1.
    pub fua: bool,
}

impl Write16 {
    /// Returns the CDB.
    pub const fn cdb(self) -> [u8; 16] {
        Cdb::of(0x8A)
            .number(2, 9, self.lba)
            .number(10, 13, self.blocks as u64)
            .bit(1, 4, self.dpo)
            .bit(1, 3, self.fua)
            .end()
    }
}

/// WRITE(16), operation code 8Ah (SBC-3, 5.35). [`Write16`] has DPO and FUA, too.
///
/// - `lba`: LOGICAL BLOCK ADDRESS, bytes 2 to 9
/// - `blocks`: TRANSFER LENGTH, bytes 10 to 13
pub const fn write16(lba: u64, blocks: u32) -> [u8; 16] {
    Write16 { lba, blocks, dpo: false, fua: false }.cdb()
}

/// READ CAPACITY(10), operation code 25h (SBC-3, 5.15).
pub const fn read_capacity10() -> [u8; 10] {
    Cdb::of(0x25).end()
}

/// READ CAPACITY(16), operation code 9Eh, service action 10h (SBC-3, 5.16).
///
/// - `allocation_length`: ALLOCATION LENGTH, bytes 10 to 13
pub const fn read_capacity16(allocation_length: u32) -> [u8; 16] {
    Cdb::of(0x9E).bits(1, 4, 0, 0x10).number(10, 13, allocation_length as u64).end()
}

/// READ DEFECT DATA(10), operation code 37h (SBC-3, 5.17). Only an extended disk has it.
///
/// - `req_plist`: REQ_PLIST, bit 4 of byte 2
/// - `req_glist`: REQ_GLIST, bit 3 of byte 2
/// - `defect_list_format`: DEFECT LIST FORMAT, bits 2 to 0 of byte 2
/// - `allocation_length`: ALLOCATION LENGTH, bytes 7 to 8
///
/// # Panics
///
/// If `defect_list_format` has more than 3 bits.
pub const fn read_defect_data10(
    req_plist: bool,
    req_glist: bool,
    defect_list_format: u8,
    allocation_length: u16,
) -> [u8; 10] {
    Cdb::of(0x37)
        .bit(2, 4, req_plist)
        .bit(2, 3, req_glist)
        .bits(2, 2, 0, defect_list_format)
        .number(7, 8, allocation_length as u64)
        .end()
}

/// READ DEFECT DATA(12), operation code B7h (SBC-3, 5.18). Only an extended disk has it.
///
/// - `req_plist`: REQ_PLIST, bit 4 of byte 1
/// - `req_glist`: REQ_GLIST, bit 3 of byte 1
/// - `defect_list_format`: DEFECT LIST FORMAT, bits 2 to 0 of byte 1
/// - `allocation_length`: ALLOCATION LENGTH, bytes 6 to 9
///
/// # Panics
///
/// If `defect_list_format` has more than 3 bits.
pub const fn read_defect_data12(
    req_plist: bool,
    req_glist: bool,
    defect_list_format: u8,
    allocation_length: u32,
) -> [u8; 12] {
    Cdb::of(0xB7)
        .bit(1, 4, req_plist)
        .bit(1, 3, req_glist)
        .bits(1, 2, 0, defect_list_format)
        .number(6, 9, allocation_length as u64)
        .end()
}

/// The fields of SANITIZE, BLOCK ERASE, operation code 48h, service action 02h (SBC-3, 5.24). Only
/// an extended disk has it.
#[derive(Clone, Copy, Debug, Default, PartialEq, Eq)]
pub struct SanitizeBlockErase {
    /// PARAMETER LIST LENGTH, bytes 7 to 8.
    pub parameter_list_length: u16,
    /// IMMED, bit 7 of byte 1.
    pub immed: bool,
}

impl SanitizeBlockErase {
    /// Returns the CDB.
    pub const fn cdb(self) -> [u8; 10] {
        Cdb::of(0x48)
            .bits(1, 4, 0, 0x02)
            .number(7, 8, self.parameter_list_length as u64)
            .bit(1, 7, self.immed)
            .end()
    }
}

/// SANITIZE, BLOCK ERASE, operation code 48h, service action 02h (SBC-3, 5.24). Only an extended
/// disk has it. [`SanitizeBlockErase`] has IMMED, too.
///
/// - `parameter_list_length`: PARAMETER LIST LENGTH, bytes 7 to 8
pub const fn sanitize_block_erase(parameter_list_length: u16) -> [u8; 10] {
    SanitizeBlockErase { parameter_list_length, immed: false }.cdb()
}

/// The fields of SANITIZE, CRYPTOGRAPHIC ERASE, operation code 48h, service action 03h (SBC-3,
/// 5.24). Only an extended disk has it.
#[derive(Clone, Copy, Debug, Default, PartialEq, Eq)]
pub struct SanitizeCryptographicErase {
    /// PARAMETER LIST LENGTH, bytes 7 to 8.
    pub parameter_list_length: u16,
    /// IMMED, bit 7 of byte 1.
    pub immed: bool,
}

impl SanitizeCryptographicErase {
    /// Returns the CDB.
    pub const fn cdb(self) -> [u8; 10] {
        Cdb::of(0x48)
            .bits(1, 4, 0, 0x03)
            .number(7, 8, self.parameter_list_length as u64)
            .bit(1, 7, self.immed)
            .end()
    }
}

/// SANITIZE, CRYPTOGRAPHIC ERASE, operation code 48h, service action 03h (SBC-3, 5.24). Only an
/// extended disk has it. [`SanitizeCryptographicErase`] has IMMED, too.
///
/// - `parameter_list_length`: PARAMETER LIST LENGTH, bytes 7 to 8
pub const fn sanitize_cryptographic_erase(parameter_list_length: u16) -> [u8; 10] {
    SanitizeCryptographicErase { parameter_list_length, immed: false }.cdb()
}

/// The fields of SANITIZE, EXIT FAILURE MODE, operation code 48h, service action 1Fh (SBC-3, 5.24).
/// Only an extended disk has it.
#[derive(Clone, Copy, Debug, Default, PartialEq, Eq)]
pub struct SanitizeExitFailureMode {
    /// PARAMETER LIST LENGTH, bytes 7 to 8.
    pub parameter_list_length: u16,
    /// IMMED, bit 7 of byte 1.
    pub immed: bool,
}

impl SanitizeExitFailureMode {
    /// Returns the CDB.
    pub const fn cdb(self) -> [u8; 10] {
        Cdb::of(0x48)
            .bits(1, 4, 0, 0x1F)
            .number(7, 8, self.parameter_list_length as u64)
            .bit(1, 7, self.immed)
            .end()
    }
}

/// SANITIZE, EXIT FAILURE MODE, operation code 48h, service action 1Fh (SBC-3, 5.24). Only an
/// extended disk has it. [`SanitizeExitFailureMode`] has IMMED, too.
///
/// - `parameter_list_length`: PARAMETER LIST LENGTH, bytes 7 to 8
pub const fn sanitize_exit_failure_mode(parameter_list_length: u16) -> [u8; 10] {
    SanitizeExitFailureMode { parameter_list_length, immed: false }.cdb()
}

/// The fields of START STOP UNIT, operation code 1Bh (SBC-3, 5.25). Only an extended disk has it.
#[derive(Clone, Copy, Debug, Default, PartialEq, Eq)]
pub struct StartStopUnit {
    /// POWER CONDITION MODIFIER, bits 3 to 0 of byte 3.
    pub power_condition_modifier: u8,
    /// POWER CONDITION, bits 7 to 4 of byte 4.
    pub power_condition: u8,
    /// LOEJ, bit 1 of byte 4.
    pub loej: bool,
    /// START, bit 0 of byte 4.
    pub start: bool,
    /// IMMED, bit 0 of byte 1.
    pub immed: bool,
    /// NO_FLUSH, bit 2 of byte 4.
    pub no_flush: bool,
}

impl StartStopUnit {
    /// Returns the CDB.
    ///
    /// # Panics
    ///
    /// If `power_condition_modifier` has more than 4 bits, or `power_condition` has more than 4
    /// bits.
    pub const fn cdb(self) -> [u8; 6] {
        Cdb::of(0x1B)
            .bits(3, 3, 0, self.power_condition_modifier)
            .bits(4, 7, 4, self.power_condition)
            .bit(4, 1, self.loej)
            .bit(4, 0, self.start)
            .bit(1, 0, self.immed)
            .bit(4, 2, self.no_flush)
            .end()
    }
}

/// START STOP UNIT, operation code 1Bh (SBC-3, 5.25). Only an extended disk has it.
/// [`StartStopUnit`] has IMMED and NO_FLUSH, too.
///
/// - `power_condition_modifier`: POWER CONDITION MODIFIER, bits 3 to 0 of byte 3
/// - `power_condition`: POWER CONDITION, bits 7 to 4 of byte 4
/// - `loej`: LOEJ, bit 1 of byte 4
/// - `start`: START, bit 0 of byte 4
///
/// # Panics
///
/// If `power_condition_modifier` has more than 4 bits, or `power_condition` has more than 4 bits.
pub const fn start_stop_unit(
    power_condition_modifier: u8,
    power_condition: u8,
    loej: bool,
    start: bool,
) -> [u8; 6] {
    StartStopUnit {
        power_condition_modifier,
        power_condition,
        loej,
        start,
        immed: false,
        no_flush: false,
    }
    .cdb()
}

/// The fields of SYNCHRONIZE CACHE(10), operation code 35h (SBC-3, 5.26).
#[derive(Clone, Copy, Debug, Default, PartialEq, Eq)]
pub struct SynchronizeCache10 {
    /// LOGICAL BLOCK ADDRESS, bytes 2 to 5.
    pub lba: u32,
    /// NUMBER OF LOGICAL BLOCKS, bytes 7 to 8.
    pub blocks: u16,
    /// IMMED, bit 1 of byte 1.
    pub immed: bool,
}

impl SynchronizeCache10 {
    /// Returns the CDB.
    pub const fn cdb(self) -> [u8; 10] {
        Cdb::of(0x35)
            .number(2, 5, self.lba as u64)
            .number(7, 8, self.blocks as u64)
            .bit(1, 1, self.immed)
            .end()
    }
}

/// SYNCHRONIZE CACHE(10), operation code 35h (SBC-3, 5.26). [`SynchronizeCache10`] has IMMED, too.
///
/// - `lba`: LOGICAL BLOCK ADDRESS, bytes 2 to 5
/// - `blocks`: NUMBER OF LOGICAL BLOCKS, bytes 7 to 8
pub const fn synchronize_cache10(lba: u32, blocks: u16) -> [u8; 10] {
    SynchronizeCache10 { lba, blocks, immed: false }.cdb()
}

/// The fields of SYNCHRONIZE CACHE(16), operation code 91h (SBC-3, 5.27). Only an extended disk has
/// it.
#[derive(Clone, Copy, Debug, Default, PartialEq, Eq)]
pub struct SynchronizeCache16 {
    /// LOGICAL BLOCK ADDRESS, bytes 2 to 9.
    pub lba: u64,
    /// NUMBER OF LOGICAL BLOCKS, bytes 10 to 13.
    pub blocks: u32,
    /// IMMED, bit 1 of byte 1.
    pub immed: bool,
}

impl SynchronizeCache16 {
    /// Returns the CDB.
    pub const fn cdb(self) -> [u8; 16] {
        Cdb::of(0x91)
            .number(2, 9, self.lba)
            .number(10, 13, self.blocks as u64)
            .bit(1, 1, self.immed)
            .end()
    }
}

/// SYNCHRONIZE CACHE(16), operation code 91h (SBC-3, 5.27). Only an extended disk has it.
/// [`SynchronizeCache16`] has IMMED, too.
///
/// - `lba`: LOGICAL BLOCK ADDRESS, bytes 2 to 9
/// - `blocks`: NUMBER OF LOGICAL BLOCKS, bytes 10 to 13
pub const fn synchronize_cache16(lba: u64, blocks: u32) -> [u8; 16] {
    SynchronizeCache16 { lba, blocks, immed: false }.cdb()
}

/// The fields of VERIFY(10), operation code 2Fh (SBC-3, 5.29). Only an extended disk has it.
#[derive(Clone, Copy, Debug, Default, PartialEq, Eq)]
pub struct Verify10 {
    /// LOGICAL BLOCK ADDRESS, bytes 2 to 5.
    pub lba: u32,
    /// VERIFICATION LENGTH, bytes 7 to 8.
    pub blocks: u16,
    /// BYTCHK, bits 2 to 1 of byte 1.
    pub bytchk: u8,
    /// DPO, bit 4 of byte 1.
    pub dpo: bool,
}

impl Verify10 {
    /// Returns the CDB.
    ///
    /// # Panics
    ///
    /// If `bytchk` has more than 2 bits.
    pub const fn cdb(self) -> [u8; 10] {
        Cdb::of(0x2F)
            .number(2, 5, self.lba as u64)
            .number(7, 8, self.blocks as u64)
            .bits(1, 2, 1, self.bytchk)
            .bit(1, 4, self.dpo)
            .end()
    }
}

/// VERIFY(10), operation code 2Fh (SBC-3, 5.29). Only an extended disk has it. [`Verify10`] has
/// DPO, too.
///
/// - `lba`: LOGICAL BLOCK ADDRESS, bytes 2 to 5
/// - `blocks`: VERIFICATION LENGTH, bytes 7 to 8
/// - `bytchk`: BYTCHK, bits 2 to 1 of byte 1
///
/// # Panics
///
/// If `bytchk` has more than 2 bits.
pub const fn verify10(lba: u32, blocks: u16, bytchk: u8) -> [u8; 10] {
    Verify10 { lba, blocks, bytchk, dpo: false }.cdb()
}

/// The fields of VERIFY(12), operation code AFh (SBC-3, 5.30). Only an extended disk has it.
#[derive(Clone, Copy, Debug, Default, PartialEq, Eq)]
pub struct Verify12 {
    /// LOGICAL BLOCK ADDRESS, bytes 2 to 5.
    pub lba: u32,
    /// VERIFICATION LENGTH, bytes 6 to 9.
    pub blocks: u32,
    /// BYTCHK, bits 2 to 1 of byte 1.
    pub bytchk: u8,
    /// DPO, bit 4 of byte 1.
    pub dpo: bool,
}

impl Verify12 {
    /// Returns the CDB.
    ///
    /// # Panics
    ///
    /// If `bytchk` has more than 2 bits.
    pub const fn cdb(self) -> [u8; 12] {
        Cdb::of(0xAF)
            .number(2, 5, self.lba as u64)
            .number(6, 9, self.blocks as u64)
            .bits(1, 2, 1, self.bytchk)
            .bit(1, 4, self.dpo)
            .end()
    }
}

/// VERIFY(12), operation code AFh (SBC-3, 5.30). Only an extended disk has it. [`Verify12`] has
/// DPO, too.
///
/// - `lba`: LOGICAL BLOCK ADDRESS, bytes 2 to 5
/// - `blocks`: VERIFICATION LENGTH, bytes 6 to 9
/// - `bytchk`: BYTCHK, bits 2 to 1 of byte 1
///
/// # Panics
///
/// If `bytchk` has more than 2 bits.
pub const fn verify12(lba: u32, blocks: u32, bytchk: u8) -> [u8; 12] {
    Verify12 { lba, blocks, bytchk, dpo: false }.cdb()
}

/// The fields of VERIFY(16), operation code 8Fh (SBC-3, 5.31). Only an extended disk has it.
#[derive(Clone, Copy, Debug, Default, PartialEq, Eq)]
pub struct Verify16 {
    /// LOGICAL BLOCK ADDRESS, bytes 2 to 9.
    pub lba: u64,
    /// VERIFICATION LENGTH, bytes 10 to 13.
    pub blocks: u32,
    /// BYTCHK, bits 2 to 1 of byte 1.
    pub bytchk: u8,
    /// DPO, bit 4 of byte 1.
    pub dpo: bool,
}

impl Verify16 {
    /// Returns the CDB.
    ///
    /// # Panics
    ///
    /// If `bytchk` has more than 2 bits.
    pub const fn cdb(self) -> [u8; 16] {
        Cdb::of(0x8F)
            .number(2, 9, self.lba)
            .number(10, 13, self.blocks as u64)
            .bits(1, 2, 1, self.bytchk)
            .bit(1, 4, self.dpo)
            .end()
    }
}

/// VERIFY(16), operation code 8Fh (SBC-3, 5.31). Only an extended disk has it. [`Verify16`] has
/// DPO, too.
///
/// - `lba`: LOGICAL BLOCK ADDRESS, bytes 2 to 9
/// - `blocks`: VERIFICATION LENGTH, bytes 10 to 13
/// - `bytchk`: BYTCHK, bits 2 to 1 of byte 1
///
/// # Panics
///
/// If `bytchk` has more than 2 bits.
pub const fn verify16(lba: u64, blocks: u32, bytchk: u8) -> [u8; 16] {
    Verify16 { lba, blocks, bytchk, dpo: false }.cdb()
}

/// The fields of WRITE AND VERIFY(10), operation code 2Eh (SBC-3, 5.37). Only an extended disk has
/// it.
#[derive(Clone, Copy, Debug, Default, PartialEq, Eq)]
pub struct WriteAndVerify10 {
    /// LOGICAL BLOCK ADDRESS, bytes 2 to 5.
    pub lba: u32,
    /// TRANSFER LENGTH, bytes 7 to 8.
    pub blocks: u16,
    /// BYTCHK, bits 2 to 1 of byte 1.
    pub bytchk: u8,
    /// DPO, bit 4 of byte 1.
    pub dpo: bool,
}

impl WriteAndVerify10 {
    /// Returns the CDB.
    ///
    /// # Panics
    ///
    /// If `bytchk` has more than 2 bits.
    pub const fn cdb(self) -> [u8; 10] {
        Cdb::of(0x2E)
            .number(2, 5, self.lba as u64)
            .number(7, 8, self.blocks as u64)
            .bits(1, 2, 1, self.bytchk)
            .bit(1, 4, self.dpo)
            .end()
    }
}

/// WRITE AND VERIFY(10), operation code 2Eh (SBC-3, 5.37). Only an extended disk has it.
/// [`WriteAndVerify10`] has DPO, too.
///
/// - `lba`: LOGICAL BLOCK ADDRESS, bytes 2 to 5
/// - `blocks`: TRANSFER LENGTH, bytes 7 to 8
/// - `bytchk`: BYTCHK, bits 2 to 1 of byte 1
///
/// # Panics
///
/// If `bytchk` has more than 2 bits.
pub const fn write_and_verify10(lba: u32, blocks: u16, bytchk: u8) -> [u8; 10] {
    WriteAndVerify10 { lba, blocks, bytchk, dpo: false }.cdb()
}

/// The fields of WRITE AND VERIFY(12), operation code AEh (SBC-3, 5.38). Only an extended disk has
/// it.
#[derive(Clone, Copy, Debug, Default, PartialEq, Eq)]
pub struct WriteAndVerify12 {
    /// LOGICAL BLOCK ADDRESS, bytes 2 to 5.
    pub lba: u32,
    /// TRANSFER LENGTH, bytes 6 to 9.
    pub blocks: u32,
    /// BYTCHK, bits 2 to 1 of byte 1.
    pub bytchk: u8,
    /// DPO, bit 4 of byte 1.
    pub dpo: bool,
}

impl WriteAndVerify12 {
    /// Returns the CDB.
    ///
    /// # Panics
    ///
    /// If `bytchk` has more than 2 bits.
    pub const fn cdb(self) -> [u8; 12] {
        Cdb::of(0xAE)
            .number(2, 5, self.lba as u64)
            .number(6, 9, self.blocks as u64)
            .bits(1, 2, 1, self.bytchk)
            .bit(1, 4, self.dpo)
            .end()
    }
}

/// WRITE AND VERIFY(12), operation code AEh (SBC-3, 5.38). Only an extended disk has it.
/// [`WriteAndVerify12`] has DPO, too.
///
/// - `lba`: LOGICAL BLOCK ADDRESS, bytes 2 to 5
/// - `blocks`: TRANSFER LENGTH, bytes 6 to 9
/// - `bytchk`: BYTCHK, bits 2 to 1 of byte 1
///
/// # Panics
///
/// If `bytchk` has more than 2 bits.
pub const fn write_and_verify12(lba: u32, blocks: u32, bytchk: u8) -> [u8; 12] {
    WriteAndVerify12 { lba, blocks, bytchk, dpo: false }.cdb()
}

/// The fields of WRITE AND VERIFY(16), operation code 8Eh (SBC-3, 5.39). Only an extended disk has
/// it.
#[derive(Clone, Copy, Debug, Default, PartialEq, Eq)]
pub struct WriteAndVerify16 {
    /// LOGICAL BLOCK ADDRESS, bytes 2 to 9.
    pub lba: u64,
    /// TRANSFER LENGTH, bytes 10 to 13.
    pub blocks: u32,
    /// BYTCHK, bits 2 to 1 of byte 1.
    pub bytchk: u8,
    /// DPO, bit 4 of byte 1.
    pub dpo: bool,
}

impl WriteAndVerify16 {
    /// Returns the CDB.
    ///
    /// # Panics
    ///
    /// If `bytchk` has more than 2 bits.
    pub const fn cdb(self) -> [u8; 16] {
        Cdb::of(0x8E)
            .number(2, 9, self.lba)
            .number(10, 13, self.blocks as u64)
            .bits(1, 2, 1, self.bytchk)
            .bit(1, 4, self.dpo)
            .end()
    }
}

/// WRITE AND VERIFY(16), operation code 8Eh (SBC-3, 5.39). Only an extended disk has it.
/// [`WriteAndVerify16`] has DPO, too.
///
/// - `lba`: LOGICAL BLOCK ADDRESS, bytes 2 to 9
/// - `blocks`: TRANSFER LENGTH, bytes 10 to 13
/// - `bytchk`: BYTCHK, bits 2 to 1 of byte 1
///
/// # Panics
///
/// If `bytchk` has more than 2 bits.
pub const fn write_and_verify16(lba: u64, blocks: u32, bytchk: u8) -> [u8; 16] {
    WriteAndVerify16 { lba, blocks, bytchk, dpo: false }.cdb()
}

/// The fields of WRITE ATOMIC(16), operation code 9Ch (SBC-4). Only an extended disk has it.
#[derive(Clone, Copy, Debug, Default, PartialEq, Eq)]
pub struct WriteAtomic16 {
    /// LOGICAL BLOCK ADDRESS, bytes 2 to 9.
    pub lba: u64,
    /// TRANSFER LENGTH, bytes 12 to 13.
    pub blocks: u16,
    /// ATOMIC BOUNDARY, bytes 10 to 11.
    pub atomic_boundary: u16,
    /// DPO, bit 4 of byte 1.
    pub dpo: bool,
    /// FUA, bit 3 of byte 1.
    pub fua: bool,
}

impl WriteAtomic16 {
    /// Returns the CDB.
    pub const fn cdb(self) -> [u8; 16] {
        Cdb::of(0x9C)
            .number(2, 9, self.lba)
            .number(12, 13, self.blocks as u64)
            .number(10, 11, self.atomic_boundary as u64)
            .bit(1, 4, self.dpo)
            .bit(1, 3, self.fua)
            .end()
    }
}

/// WRITE ATOMIC(16), operation code 9Ch (SBC-4). Only an extended disk has it. [`WriteAtomic16`]
/// has DPO and FUA, too.
///
/// - `lba`: LOGICAL BLOCK ADDRESS, bytes 2 to 9
/// - `blocks`: TRANSFER LENGTH, bytes 12 to 13
/// - `atomic_boundary`: ATOMIC BOUNDARY, bytes 10 to 11
pub const fn write_atomic16(lba: u64, blocks: u16, atomic_boundary: u16) -> [u8; 16] {
    WriteAtomic16 { lba, blocks, atomic_boundary, dpo: false, fua: false }.cdb()
}

/// WRITE LONG(10), operation code 3Fh (SBC-3, 5.41). Only an extended disk has it.
///
/// - `lba`: LOGICAL BLOCK ADDRESS, bytes 2 to 5
/// - `cor_dis`: COR_DIS, bit 7 of byte 1
/// - `wr_uncor`: WR_UNCOR, bit 6 of byte 1
pub const fn write_long10(lba: u32, cor_dis: bool, wr_uncor: bool) -> [u8; 10] {
    Cdb::of(0x3F).number(2, 5, lba as u64).bit(1, 7, cor_dis).bit(1, 6, wr_uncor).end()
}

/// WRITE SAME(10), operation code 41h (SBC-3, 5.43).
///
/// - `lba`: LOGICAL BLOCK ADDRESS, bytes 2 to 5
/// - `blocks`: NUMBER OF LOGICAL BLOCKS, bytes 7 to 8
/// - `anchor`: ANCHOR, bit 4 of byte 1
/// - `unmap`: UNMAP, bit 3 of byte 1
pub const fn write_same10(lba: u32, blocks: u16, anchor: bool, unmap: bool) -> [u8; 10] {
    Cdb::of(0x41)
        .number(2, 5, lba as u64)
        .number(7, 8, blocks as u64)
        .bit(1, 4, anchor)
        .bit(1, 3, unmap)
        .end()
}

/// The fields of WRITE SAME(16), operation code 93h (SBC-3, 5.44).
#[derive(Clone, Copy, Debug, Default, PartialEq, Eq)]
pub struct WriteSame16 {
    /// LOGICAL BLOCK ADDRESS, bytes 2 to 9.
    pub lba: u64,
    /// NUMBER OF LOGICAL BLOCKS, bytes 10 to 13.
    pub blocks: u32,
    /// ANCHOR, bit 4 of byte 1.
    pub anchor: bool,
    /// UNMAP, bit 3 of byte 1.
    pub unmap: bool,
    /// NDOB, bit 0 of byte 1.
    pub ndob: bool,
}

impl WriteSame16 {
    /// Returns the CDB.
    pub const fn cdb(self) -> [u8; 16] {
        Cdb::of(0x93)
            .number(2, 9, self.lba)
            .number(10, 13, self.blocks as u64)
            .bit(1, 4, self.anchor)
            .bit(1, 3, self.unmap)
            .bit(1, 0, self.ndob)
            .end()
    }
}

/// WRITE SAME(16), operation code 93h (SBC-3, 5.44).
///
/// - `fields`: the fields, as [`WriteSame16`] has them
pub const fn write_same16(fields: WriteSame16) -> [u8; 16] {
    fields.cdb()
}

/// UNMAP, operation code 42h (SBC-3, 5.28).
///
/// - `anchor`: ANCHOR, bit 0 of byte 1
/// - `parameter_list_length`: PARAMETER LIST LENGTH, bytes 7 to 8
pub const fn unmap(anchor: bool, parameter_list_length: u16) -> [u8; 10] {
    Cdb::of(0x42).bit(1, 0, anchor).number(7, 8, parameter_list_length as u64).end()
}

/// GET LBA STATUS, operation code 9Eh, service action 12h (SBC-3, 5.4).
///
/// - `lba`: STARTING LOGICAL BLOCK ADDRESS, bytes 2 to 9
/// - `allocation_length`: ALLOCATION LENGTH, bytes 10 to 13
pub const fn get_lba_status(lba: u64, allocation_length: u32) -> [u8; 16] {
    Cdb::of(0x9E)
        .bits(1, 4, 0, 0x12)
        .number(2, 9, lba)
        .number(10, 13, allocation_length as u64)
        .end()
}

/// The service actions of PERSISTENT RESERVE IN (SPC-4, 6.15).
pub mod reserve_in {
    /// READ KEYS.
    pub const READ_KEYS: u8 = 0x00;
    /// READ RESERVATION.
    pub const READ_RESERVATION: u8 = 0x01;
    /// REPORT CAPABILITIES.
    pub const REPORT_CAPABILITIES: u8 = 0x02;
    /// READ FULL STATUS.
    pub const READ_FULL_STATUS: u8 = 0x03;
}

/// PERSISTENT RESERVE IN, operation code 5Eh (SPC-4, 6.15).
///
/// - `service_action`: SERVICE ACTION, a number of [`reserve_in`]
/// - `allocation_length`: ALLOCATION LENGTH, bytes 7 to 8
///
/// # Panics
///
/// If `service_action` has more than 5 bits.
pub const fn persistent_reserve_in(service_action: u8, allocation_length: u16) -> [u8; 10] {
    Cdb::of(0x5E).bits(1, 4, 0, service_action).number(7, 8, allocation_length as u64).end()
}

/// The service actions of PERSISTENT RESERVE OUT (SPC-4, 6.16).
pub mod reserve_out {
    /// REGISTER.
    pub const REGISTER: u8 = 0x00;
    /// RESERVE.
    pub const RESERVE: u8 = 0x01;
    /// RELEASE.
    pub const RELEASE: u8 = 0x02;
    /// CLEAR.
    pub const CLEAR: u8 = 0x03;
    /// PREEMPT.
    pub const PREEMPT: u8 = 0x04;
    /// PREEMPT AND ABORT.
    pub const PREEMPT_AND_ABORT: u8 = 0x05;
    /// REGISTER AND IGNORE EXISTING KEY.
    pub const REGISTER_AND_IGNORE_EXISTING_KEY: u8 = 0x06;
    /// REGISTER AND MOVE. Only an extended disk has it.
    pub const REGISTER_AND_MOVE: u8 = 0x07;
}

/// PERSISTENT RESERVE OUT, operation code 5Fh (SPC-4, 6.16).
///
/// - `service_action`: SERVICE ACTION, a number of [`reserve_out`]
/// - `scope`: SCOPE, bits 7 to 4 of byte 2
/// - `type_`: TYPE, bits 3 to 0 of byte 2
/// - `parameter_list_length`: PARAMETER LIST LENGTH, bytes 5 to 8
///
/// # Panics
///
/// If `service_action` has more than 5 bits, or `scope` has more than 4 bits, or `type_` has more
/// than 4 bits.
pub const fn persistent_reserve_out(
    service_action: u8,
    scope: u8,
    type_: u8,
    parameter_list_length: u32,
) -> [u8; 10] {
    Cdb::of(0x5F)
        .bits(1, 4, 0, service_action)
        .bits(2, 7, 4, scope)
        .bits(2, 3, 0, type_)
        .number(5, 8, parameter_list_length as u64)
        .end()
}

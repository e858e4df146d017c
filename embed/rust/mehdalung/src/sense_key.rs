//! The sense keys of SPC-4, for [`Reply::sense_key`](crate::Reply::sense_key).

/// NO SENSE.
pub const NO_SENSE: u8 = 0x0;
/// RECOVERED ERROR.
pub const RECOVERED_ERROR: u8 = 0x1;
/// NOT READY.
pub const NOT_READY: u8 = 0x2;
/// MEDIUM ERROR.
pub const MEDIUM_ERROR: u8 = 0x3;
/// HARDWARE ERROR.
pub const HARDWARE_ERROR: u8 = 0x4;
/// ILLEGAL REQUEST.
pub const ILLEGAL_REQUEST: u8 = 0x5;
/// UNIT ATTENTION.
pub const UNIT_ATTENTION: u8 = 0x6;
/// DATA PROTECT.
pub const DATA_PROTECT: u8 = 0x7;
/// BLANK CHECK.
pub const BLANK_CHECK: u8 = 0x8;
/// VENDOR SPECIFIC.
pub const VENDOR_SPECIFIC: u8 = 0x9;
/// COPY ABORTED.
pub const COPY_ABORTED: u8 = 0xA;
/// ABORTED COMMAND.
pub const ABORTED_COMMAND: u8 = 0xB;
/// RESERVED.
pub const RESERVED: u8 = 0xC;
/// VOLUME OVERFLOW.
pub const VOLUME_OVERFLOW: u8 = 0xD;
/// MISCOMPARE.
pub const MISCOMPARE: u8 = 0xE;
/// COMPLETED.
pub const COMPLETED: u8 = 0xF;

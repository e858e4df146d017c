//! The numbers of mehdalung.h.

/// A buffer of this length is long enough for the data-in of every command.
pub const BUFFER_LENGTH: usize = 1_048_576;
/// The minimum length of the buffer for a tool's data-out.
pub const DATA_OUT_LENGTH: usize = 1_032;
/// The most bytes of one call on a disk's file.
pub const LONGEST_CALL: usize = 4_395_008;
/// A result in the place of a length: there is no text.
pub const NO_TEXT: usize = usize::MAX;
/// In the place of a profile: a disk in a file may have any.
pub const ANY_PROFILE: u32 = u32::MAX;

/// The status GOOD.
pub const GOOD: u8 = 0x00;
/// The status CHECK CONDITION, with sense data.
pub const CHECK_CONDITION: u8 = 0x02;
/// The status RESERVATION CONFLICT.
pub const RESERVATION_CONFLICT: u8 = 0x18;
/// The status BUSY. Only a disk with armed faults returns it.
pub const BUSY: u8 = 0x08;
/// The status TASK SET FULL. Only a disk with armed faults returns it.
pub const TASK_SET_FULL: u8 = 0x28;
/// No status of SAM-5: the disk never replies to the command, and a transport sends nothing for it. Only a
/// disk with armed faults returns it.
pub const NO_REPLY: u8 = 0xFF;

/// Results of calls, `mdl_error`. After any but [`error::OK`] the call has changed nothing, except
/// with [`error::FILE_FAILED`] and [`error::FLUSH_OWED`].
pub mod error {
    /// The call succeeded.
    pub const OK: u32 = 0;
    /// There is no disk: you made none, or you freed it.
    pub const NO_DISK: u32 = 1;
    /// There is a disk already.
    pub const DISK_EXISTS: u32 = 2;
    /// The number of blocks is not 1 to 2^40.
    pub const BLOCKS: u32 = 3;
    /// The size of the pool is not 1 to 65,536 blocks.
    pub const POOL: u32 = 4;
    /// A text of the identity has a byte outside 20h to 7Eh.
    pub const IDENTITY_TEXT: u32 = 5;
    /// The local identifier, or the seed, has more than 60 bits.
    pub const IDENTITY_LOCAL: u32 = 6;
    /// Memory ran out.
    pub const OUT_OF_MEMORY: u32 = 7;
    /// The disk has no such initiator, or a fault names none.
    pub const NO_INITIATOR: u32 = 8;
    /// The buffer is too short for the data-in that the command asks for, or shorter than
    /// `DATA_OUT_LENGTH` for a tool's data-out.
    pub const BUFFER_TOO_SHORT: u32 = 9;
    /// A pointer is null that must not be.
    pub const NULL_POINTER: u32 = 10;
    /// Sense data can't be read.
    pub const UNREADABLE: u32 = 11;
    /// A byte of the words is not printable ASCII and no tab.
    pub const BAD_BYTE: u32 = 12;
    /// There are more than 64 words.
    pub const TOO_MANY_WORDS: u32 = 13;
    /// There is no word, or the first is not the name of a tool.
    pub const UNKNOWN_TOOL: u32 = 14;
    /// The tool or the verb does not accept these words.
    pub const USAGE: u32 = 15;
    /// Two options exclude one another.
    pub const EXCLUSIVE: u32 = 16;
    /// An option's text is no value, or its value is out of range.
    pub const NUMBER: u32 = 17;
    /// The number is none of `profile`.
    pub const UNKNOWN_PROFILE: u32 = 18;
    /// The number is none of `happening`.
    pub const UNKNOWN_HAPPENING: u32 = 19;
    /// No unit attention condition has the code.
    pub const UNKNOWN_CONDITION: u32 = 20;
    /// The number is none of `fault_outcome`.
    pub const UNKNOWN_FAULT: u32 = 21;
    /// The sense key of a fault is none of SPC-4.
    pub const SENSE_KEY: u32 = 22;
    /// A flag of a fault is not 0 or 1, or a fault without blocks is healed by writes.
    pub const FAULT_FLAG: u32 = 23;
    /// The number of a fault is not 0 to 7.
    pub const FAULT_NUMBER: u32 = 24;
    /// A fault is armed under each number.
    pub const FAULTS: u32 = 25;
    /// There is no word, or the first is no verb of a happening.
    pub const UNKNOWN_VERB: u32 = 26;
    /// A call on the disk's file failed, now or earlier.
    pub const FILE_FAILED: u32 = 27;
    /// Another program has the file, or another disk of this program.
    pub const FILE_BUSY: u32 = 28;
    /// The file has something else, or it was not made to its end.
    pub const NOT_A_DISK: u32 = 29;
    /// The file has another version of the format.
    pub const OTHER_VERSION: u32 = 30;
    /// A byte of the file is not what was written.
    pub const DAMAGED_FILE: u32 = 31;
    /// The file has more than 2^60 bytes.
    pub const FILE_TOO_LONG: u32 = 32;
    /// The file's disk has another profile than you asked for.
    pub const OTHER_PROFILE: u32 = 33;
    /// The file's disk has another number of blocks.
    pub const OTHER_BLOCKS: u32 = 34;
    /// The file's disk has a pool of another size.
    pub const OTHER_POOL: u32 = 35;
    /// The file's disk has another identity.
    pub const OTHER_IDENTITY: u32 = 36;
    /// The system refuses to open or to read the file; errno says why.
    pub const CANNOT_OPEN: u32 = 39;
    /// The disk is not in a file.
    pub const NO_FILE: u32 = 40;
    /// The disk has executed the command, and its reply has to wait for `mdl_flush`: only
    /// `mdl_execute_unflushed` returns this.
    pub const FLUSH_OWED: u32 = 41;
}

/// The commands that a disk has, `mdl_profile`.
pub mod profile {
    /// The commands that every disk has.
    pub const BASE: u32 = 0;
    /// The commands of the base profile and more, with more initiators and a far larger pool.
    pub const EXTENDED: u32 = 1;
    /// The same as the extended profile, but a WRITE, a WRITE AND VERIFY, an ORWRITE or a VERIFY
    /// with too little data-out is executed, and not refused. It goes over its first blocks, as
    /// many as data-out has in full.
    pub const EXTENDED_CUT: u32 = 2;
    /// The same as the extended profile, but the disk reports physical blocks of 4,096 bytes. A
    /// logical block still has 512 bytes.
    pub const EXTENDED_512E: u32 = 3;
}

/// What an armed fault does to a command, `mdl_fault_outcome`. A name begins with the place where
/// the fault meets the command: on arrival, before every check; at the medium, after the checks; or
/// after the command has ended with [`GOOD`].
pub mod fault_outcome {
    /// The status `BUSY`.
    pub const ARRIVAL_BUSY: u32 = 0;
    /// The status `TASK_SET_FULL`.
    pub const ARRIVAL_TASK_SET_FULL: u32 = 1;
    /// The status `RESERVATION_CONFLICT`, even without a reservation.
    pub const ARRIVAL_RESERVATION_CONFLICT: u32 = 2;
    /// The status `NO_REPLY`.
    pub const ARRIVAL_NO_REPLY: u32 = 3;
    /// The status `CHECK_CONDITION` with a sense key and code.
    pub const ARRIVAL_CHECK_CONDITION: u32 = 4;
    /// The same as a deferred error: an earlier command has failed (SPC-4, 4.5.5).
    pub const ARRIVAL_DEFERRED_ERROR: u32 = 5;
    /// The status `CHECK_CONDITION` with a sense key and code. The disk does not execute the
    /// command. INFORMATION is the first of the fault's blocks that the command names.
    pub const MEDIUM_CHECK_CONDITION: u32 = 6;
    /// The status `GOOD`, but a READ, WRITE or WRITE SAME moves only its first blocks. With 0
    /// blocks a WRITE is lost.
    pub const MEDIUM_MOVES_ONLY: u32 = 7;
    /// The status `NO_REPLY`, after data-in.
    pub const AFTER_NO_REPLY: u32 = 8;
    /// The status `CHECK_CONDITION` with a sense key and code, after data-in, as for a RECOVERED
    /// ERROR.
    pub const AFTER_CHECK_CONDITION: u32 = 9;
    /// The status `GOOD`, but only the first bytes of data-in arrive. The reply counts only these.
    pub const AFTER_SHORT_DATA_IN: u32 = 10;
}

/// What can happen to a disk between two commands, `mdl_happening_kind`.
pub mod happening {
    /// The disk loses power and gets it back.
    pub const POWER_CYCLE: u32 = 0;
    /// The disk is reset as a logical unit.
    pub const LOGICAL_UNIT_RESET: u32 = 1;
    /// The target that the disk belongs to is reset.
    pub const TARGET_RESET: u32 = 2;
    /// An initiator loses its I_T nexus.
    pub const NEXUS_LOSS: u32 = 3;
    /// A unit attention condition is established.
    pub const ATTENTION: u32 = 4;
    /// The disk gets more blocks.
    pub const GROW: u32 = 5;
    /// A fault is armed.
    pub const ARM: u32 = 6;
    /// An armed fault is taken away.
    pub const DISARM: u32 = 7;
    /// All armed faults are taken away.
    pub const DISARM_ALL: u32 = 8;
}

/// Kinds of answers that [`mdl_decode`](crate::mdl_decode) prints, `mdl_kind`. A script on an
/// extended disk shows `INQUIRY_EXTENDED` and the kinds after it; the first three are in the place
/// of `INQUIRY`, `VPD` and `SENSE` there, and the last two in the place of `CAPABILITIES` and
/// `FULL_STATUS`.
pub mod kind {
    /// Bytes that are not printed.
    pub const NOTHING: u32 = 0;
    /// Any bytes, in lines of sixteen.
    pub const HEX: u32 = 1;
    /// Standard INQUIRY data.
    pub const INQUIRY: u32 = 2;
    /// A page of vital product data.
    pub const VPD: u32 = 3;
    /// Mode parameters of MODE SENSE(6).
    pub const MODES_6: u32 = 4;
    /// Mode parameters of MODE SENSE(10).
    pub const MODES_10: u32 = 5;
    /// Parameter data of GET LBA STATUS.
    pub const LBA_STATUS: u32 = 6;
    /// Parameter data of GET LBA STATUS, without its length.
    pub const LBA_STATUS_BRIEF: u32 = 7;
    /// Parameter data of READ KEYS.
    pub const KEYS: u32 = 8;
    /// Parameter data of READ RESERVATION.
    pub const RESERVATION: u32 = 9;
    /// Parameter data of REPORT CAPABILITIES.
    pub const CAPABILITIES: u32 = 10;
    /// Parameter data of READ FULL STATUS.
    pub const FULL_STATUS: u32 = 11;
    /// Sense data.
    pub const SENSE: u32 = 12;
    /// Standard INQUIRY data, with version descriptors.
    pub const INQUIRY_EXTENDED: u32 = 13;
    /// A page of vital product data, with more pages' fields.
    pub const VPD_EXTENDED: u32 = 14;
    /// Sense data, of deferred errors too.
    pub const SENSE_EXTENDED: u32 = 15;
    /// Parameter data of REPORT LUNS.
    pub const LUNS: u32 = 16;
    /// Data of REPORT SUPPORTED OPERATION CODES, of all commands.
    pub const ALL_COMMANDS: u32 = 17;
    /// Data of REPORT SUPPORTED OPERATION CODES, of one command.
    pub const ONE_COMMAND: u32 = 18;
    /// Data of REPORT SUPPORTED TASK MANAGEMENT FUNCTIONS.
    pub const TASK_MANAGEMENT: u32 = 19;
    /// A page of LOG SENSE.
    pub const LOG_PAGE: u32 = 20;
    /// Data of READ CAPACITY(10).
    pub const CAPACITY_10: u32 = 21;
    /// Data of READ CAPACITY(16).
    pub const CAPACITY_16: u32 = 22;
    /// Data of READ DEFECT DATA(10).
    pub const DEFECTS_10: u32 = 23;
    /// Data of READ DEFECT DATA(12).
    pub const DEFECTS_12: u32 = 24;
    /// Parameter data of REPORT CAPABILITIES, with all fields.
    pub const CAPABILITIES_EXTENDED: u32 = 25;
    /// Parameter data of READ FULL STATUS, with ALL_TG_PT.
    pub const FULL_STATUS_EXTENDED: u32 = 26;
}

//! Declarations of the C library Mehdalung, a proved SCSI disk in memory or in a file.
//!
//! The names are those of `mehdalung.h`, without the prefix `MDL_` of numbers. **The header says what
//! each function asks of its caller.** Nothing checks that the caller does so. The crate `mehdalung`
//! does it for you: prefer its safe `Disk`.
//!
//! The build script finds `libmehdalung.a` and links it, so a program needs nothing at run time. It
//! looks into the folder that the variable `MEHDALUNG_LIB_DIR` names, an absolute path. Without the
//! variable it asks `pkg-config` for an installed library. If there is none, it takes the library that
//! `make -C embed` has built in the repository.
#![allow(non_camel_case_types)]
#![deny(missing_docs, unsafe_op_in_unsafe_fn)]

mod numbers;

pub use numbers::*;
use std::mem::size_of;
use std::os::raw::{c_char, c_int, c_uint, c_void};

/// A disk, or none. Copy it only to move it: of two copies in use, one would outlive the disk.
#[repr(C)]
#[derive(Debug)]
pub struct mdl_disk {
    /// Null if there is no disk. Programs do not read or write it.
    pub target: *mut u8,
}

// SAFETY: by the header, a disk may go to another thread if the calls are ordered. A move of a `Send`
// value orders them.
unsafe impl Send for mdl_disk {}

/// The names of a disk. Its texts are padded with spaces and have no zero at the end.
#[repr(C)]
#[derive(Clone, Copy, Debug, PartialEq, Eq)]
pub struct mdl_identity {
    /// T10 VENDOR IDENTIFICATION, printable ASCII.
    pub vendor: [u8; 8],
    /// PRODUCT IDENTIFICATION.
    pub product: [u8; 16],
    /// PRODUCT REVISION LEVEL.
    pub revision: [u8; 4],
    /// The serial number.
    pub serial: [u8; 8],
    /// The local identifier: the number of the NAA designator, of at most 60 bits.
    pub local: u64,
}

/// The reply to a command.
#[repr(C)]
#[derive(Clone, Copy, Debug, Default)]
pub struct mdl_reply {
    /// [`GOOD`], [`CHECK_CONDITION`], [`RESERVATION_CONFLICT`]; or, with armed faults, [`BUSY`],
    /// [`TASK_SET_FULL`] or [`NO_REPLY`].
    pub status: u8,
    /// 0, unless the status is [`CHECK_CONDITION`].
    pub sense_length: u8,
    /// Sense data, and zeros after it.
    pub sense: [u8; 20],
    /// Data-in is at the start of the buffer, and has this length.
    pub data_in_length: usize,
    /// How many bytes of data-out the CDB asks for, executed or refused; 0 if it is no command of the
    /// disk.
    pub data_out_length: u64,
    /// How many records of the map the disk read.
    pub visits: u64,
    /// How many first addresses it compared.
    pub probes: u64,
    /// How many links it followed to reach a block.
    pub links: u64,
}

/// A fault: the commands that it meets, and what it does to them. If all fields after `initiators`
/// are 0, each command of these initiators ends with [`BUSY`].
#[repr(C)]
#[derive(Clone, Copy, Debug, Default, PartialEq, Eq)]
pub struct mdl_fault {
    /// A mask of the initiators whose commands it meets, not 0. Initiator i has bit i. The mask `u64::MAX`
    /// names all initiators that the disk has. Any other mask may have only bits of these.
    pub initiators: u64,
    /// The address of the first block that it lies on.
    pub lba: u64,
    /// The number of these blocks. It meets only commands that read or write one of them. With 0 it
    /// lies on none, and meets commands of any kind.
    pub count: u32,
    /// A number of [`fault_outcome`].
    pub outcome: u32,
    /// The number of blocks that `MEDIUM_MOVES_ONLY` moves, or of bytes that arrive with
    /// `AFTER_SHORT_DATA_IN`.
    pub blocks: u32,
    /// The number of commands of each initiator that meet it and pass first.
    pub skip: u16,
    /// The number of commands of each initiator after these that do not pass. With 0 none passes
    /// until the fault is taken away.
    pub times: u16,
    /// 1 if it meets only commands with an operation code, 0 if all.
    pub has_code: u8,
    /// This operation code, if `has_code` is 1.
    pub code: u8,
    /// 1 if a command that overwrites all of its blocks heals them, 0 if none does; 0 without blocks.
    pub healed_by_writes: u8,
    /// The sense key that it reports, 0 to 15 but 12.
    pub key: u8,
    /// The additional sense code that it reports.
    pub asc: u8,
    /// The additional sense code qualifier that it reports.
    pub ascq: u8,
}

/// What happens to a disk, for [`mdl_happen`]. A kind reads only the fields that name it.
#[repr(C)]
#[derive(Clone, Copy, Debug, Default)]
pub struct mdl_happening {
    /// A number of [`happening`].
    pub kind: u32,
    /// `NEXUS_LOSS`: an initiator of the disk.
    pub initiator: u32,
    /// `ATTENTION`: a mask of initiators. Initiator i has bit i. The mask `u64::MAX` names all initiators
    /// that the disk has. Any other mask may have only bits of these.
    pub initiators: u64,
    /// `GROW`: the number of blocks afterwards, 1 to 2^40.
    pub blocks: u64,
    /// `ATTENTION`: the additional sense code of the condition.
    pub asc: u8,
    /// `ATTENTION`: its additional sense code qualifier.
    pub ascq: u8,
    /// `DISARM`: the number of the fault, 0 to 7.
    pub number: u8,
    /// `ARM`: the fault.
    pub fault: mdl_fault,
}

/// Where a file is damaged.
#[repr(C)]
#[derive(Clone, Copy, Debug, Default, PartialEq, Eq)]
pub struct mdl_damage {
    /// The number of the batch with the damaged record, from 0 on; or 2^64 - 1 if the damage is not in
    /// a record.
    pub batch: u64,
    /// The offset of that record in its batch, or of the damage in the file; or, with
    /// [`error::OTHER_VERSION`], the version.
    pub offset: u64,
}

/// The calls on the file of a disk, for [`mdl_open_device`]. Each returns 0, or another number if the
/// call failed. The header says what each has to do.
#[repr(C)]
#[derive(Debug)]
pub struct mdl_device {
    /// The first argument of each function.
    pub context: *mut c_void,
    /// Writes bytes at an offset of the file, which gets longer if they end beyond it.
    pub write_at: Option<unsafe extern "C" fn(*mut c_void, u64, *const u8, usize) -> c_int>,
    /// Makes the file as long as this, which is not longer than it is.
    pub cut: Option<unsafe extern "C" fn(*mut c_void, u64) -> c_int>,
    /// Waits until all that was written to the file, and its length, survive a power failure.
    pub sync: Option<unsafe extern "C" fn(*mut c_void) -> c_int>,
    /// Begins a second file, the draft, without bytes. An earlier draft is gone.
    pub begin_draft: Option<unsafe extern "C" fn(*mut c_void) -> c_int>,
    /// Writes bytes to the end of the draft.
    pub write_draft: Option<unsafe extern "C" fn(*mut c_void, *const u8, usize) -> c_int>,
    /// Puts the draft in the place of the file, in one step.
    pub exchange: Option<unsafe extern "C" fn(*mut c_void) -> c_int>,
    /// The disk is gone. It may be null.
    pub close: Option<unsafe extern "C" fn(*mut c_void)>,
    /// Room for the bytes of a call, which the library writes.
    pub room: *mut u8,
    /// Its length, at least [`LONGEST_CALL`].
    pub room_length: usize,
}

/// The command of a tool, and the kind of its answer.
#[repr(C)]
#[derive(Clone, Copy, Debug, Default)]
pub struct mdl_command {
    /// The CDB, and zeros after it.
    pub cdb: [u8; 16],
    /// The length of the CDB.
    pub cdb_length: u8,
    /// The number of [`kind`] of its data-in, if it ends with [`GOOD`].
    pub kind: u32,
    /// Data-out is at the start of the buffer, and has this length.
    pub data_out_length: usize,
}

/// The fields of sense data. A missing field is 0.
#[repr(C)]
#[derive(Clone, Copy, Debug, Default, PartialEq, Eq)]
pub struct mdl_sense {
    /// The sense key, at most 15.
    pub key: u8,
    /// The additional sense code.
    pub asc: u8,
    /// The additional sense code qualifier.
    pub ascq: u8,
    /// 1 if there is an INFORMATION field, 0 if not.
    pub has_information: u8,
    /// 1 if there is a field pointer, 0 if not.
    pub has_pointer: u8,
    /// 1 if it points into the CDB, 0 if into the parameter list.
    pub in_command: u8,
    /// The byte in error, from 0.
    pub byte: u16,
    /// This disk puts a logical block address there.
    pub information: u64,
}

const _: () = assert!(size_of::<mdl_identity>() == 48 && size_of::<mdl_reply>() == 64);
const _: () = assert!(size_of::<mdl_command>() == 32 && size_of::<mdl_sense>() == 16);
const _: () = assert!(size_of::<mdl_happening>() == 72 && size_of::<mdl_fault>() == 40);

extern "C" {
    /// Makes a disk of the base profile, as after power on.
    pub fn mdl_make(
        disk: *mut mdl_disk,
        blocks: u64,
        pool: u32,
        identity: *const mdl_identity,
    ) -> c_uint;
    /// Makes a disk of any profile, a number of [`profile`].
    pub fn mdl_make_with_profile(
        disk: *mut mdl_disk,
        profile: u32,
        blocks: u64,
        pool: u32,
        identity: *const mdl_identity,
    ) -> c_uint;
    /// Makes the identity of a seed, a number of at most 60 bits.
    pub fn mdl_identity_of_seed(seed: u64, identity: *mut mdl_identity) -> c_uint;
    /// Opens the disk that a file keeps, as after power on, or makes one in an empty file.
    pub fn mdl_open(
        disk: *mut mdl_disk,
        path: *const c_char,
        profile: u32,
        blocks: u64,
        pool: u32,
        identity: *const mdl_identity,
        damage: *mut mdl_damage,
    ) -> c_uint;
    /// Opens a disk as [`mdl_open`] does, in any file that the caller reads and writes itself.
    pub fn mdl_open_device(
        disk: *mut mdl_disk,
        device: *mut mdl_device,
        contents: *const u8,
        length: usize,
        profile: u32,
        blocks: u64,
        pool: u32,
        identity: *const mdl_identity,
        damage: *mut mdl_damage,
    ) -> c_uint;
    /// Puts all that was changed so far into the file.
    pub fn mdl_flush(disk: *mut mdl_disk) -> c_uint;
    /// Flushes a disk in a file, closes the file and frees the disk.
    pub fn mdl_close(disk: *mut mdl_disk) -> c_uint;
    /// Frees a disk without a flush.
    pub fn mdl_free(disk: *mut mdl_disk);
    /// Executes a command for an initiator of the disk.
    pub fn mdl_execute(
        disk: *mut mdl_disk,
        initiator: u32,
        cdb: *const u8,
        cdb_length: usize,
        data_out: *const u8,
        data_out_length: usize,
        data_in: *mut u8,
        data_in_length: usize,
        reply: *mut mdl_reply,
    ) -> c_uint;
    /// Executes a command as [`mdl_execute`] does, without a flush of the disk's file.
    pub fn mdl_execute_unflushed(
        disk: *mut mdl_disk,
        initiator: u32,
        cdb: *const u8,
        cdb_length: usize,
        data_out: *const u8,
        data_out_length: usize,
        data_in: *mut u8,
        data_in_length: usize,
        reply: *mut mdl_reply,
    ) -> c_uint;
    /// Plans the command that the words of a tool ask for, such as `sg_vpd -p lbpv`.
    pub fn mdl_tool(
        words: *const c_char,
        data_out: *mut u8,
        data_out_length: usize,
        command: *mut mdl_command,
    ) -> c_uint;
    /// Takes the power of a disk away and gives it back.
    pub fn mdl_power_cycle(disk: *mut mdl_disk) -> c_uint;
    /// Lets something happen to a disk.
    pub fn mdl_happen(disk: *mut mdl_disk, happening: *const mdl_happening) -> c_uint;
    /// Reads a happening from words, such as `nexus 0`.
    pub fn mdl_read_happening(words: *const c_char, happening: *mut mdl_happening) -> c_uint;
    /// Writes which faults are armed, each in a line.
    pub fn mdl_faults(disk: *mut mdl_disk, text: *mut c_char, text_length: usize) -> usize;
    /// Says how many initiators the disk has, numbered from 0 on: 8 of the base profile, or 64.
    pub fn mdl_initiators(disk: *mut mdl_disk, count: *mut u32) -> c_uint;
    /// Says which initiators are registered, in a mask.
    pub fn mdl_registered(disk: *mut mdl_disk, mask: *mut u64) -> c_uint;
    /// Clears the unit attentions of an initiator whose port is gone.
    pub fn mdl_forget(disk: *mut mdl_disk, initiator: u32) -> c_uint;
    /// Reads the fields of sense data, in fixed or descriptor format.
    pub fn mdl_read_sense(sense: *const u8, length: usize, fields: *mut mdl_sense) -> c_uint;
    /// Returns the exit status that the tools of sg3_utils have for a reply.
    pub fn mdl_exit_status(reply: *const mdl_reply) -> c_int;
    /// Writes what an answer contains, in lines.
    pub fn mdl_decode(
        kind: u32,
        data_in: *const u8,
        length: usize,
        text: *mut c_char,
        text_length: usize,
    ) -> usize;
    /// Writes the version of the library and of the proof, in one line.
    pub fn mdl_version(text: *mut c_char, text_length: usize) -> usize;
}

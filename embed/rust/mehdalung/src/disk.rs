//! Disks, and what happens to them.
use crate::error::{check, check_opening};
use crate::{kind, profile, sys, text_of};
use crate::{Damage, Error, Fault, Identity, Initiator, Reply};
use mehdalung_sys::happening;
use std::os::unix::ffi::OsStrExt;
use std::{ffi::CString, fmt, path::Path, ptr};

/// What a disk in a file has to have. A field that is `None` may be any, if the file has a disk.
#[derive(Clone, Copy, Debug, Default)]
pub struct Wanted<'a> {
    /// The profile, a number of the module [`profile`].
    pub profile: Option<u32>,
    /// The number of blocks.
    pub blocks: Option<u64>,
    /// The size of the pool, in blocks.
    pub pool: Option<u32>,
    /// The names of the disk. A new disk has the standard identity if this is `None`.
    pub identity: Option<&'a Identity>,
}

/// A disk, with a buffer for data-in. A disk of the base profile has eight initiators, 0 to 7, and any other
/// disk has 64, 0 to 63. A disk in a file is flushed when it is dropped.
///
/// Between two commands it can be reset, lose its power, grow, and get faults:
///
/// ```
/// # use mehdalung::{sense_key, Disk, Error};
/// # fn main() -> Result<(), Error> {
/// let mut disk = Disk::new(4096, 4, None)?;
/// disk.initiator(0).request_sense(false, 18)?;
/// disk.happen("fault medium 3/11/00 blocks 10 2")?;
/// let reply = disk.initiator(0).read10(8, 8)?;
/// assert_eq!(reply.sense_key(), Some(sense_key::MEDIUM_ERROR), "{reply}");
/// assert_eq!((reply.asc(), reply.information()), (Some(0x11), Some(10)));
/// disk.disarm_all()?;
/// disk.lose_nexus(0)?;
/// let reply = disk.initiator(0).read10(8, 8)?;
/// assert_eq!(reply.to_string(), "CHECK CONDITION\n  sense: UNIT ATTENTION, 29h/07h");
/// # Ok(())
/// # }
/// ```
pub struct Disk {
    slot: sys::mdl_disk,
    data_in: Box<[u8]>,
}

impl Disk {
    /// Makes a disk of the base profile with `blocks` blocks. At most `pool` of them can be mapped or
    /// anchored at once. Without an identity it has the standard one.
    ///
    /// # Errors
    ///
    /// [`Error::IdentityText`], [`Error::IdentityLocal`], [`Error::Blocks`], [`Error::Pool`] or
    /// [`Error::OutOfMemory`].
    pub fn new(blocks: u64, pool: u32, identity: Option<&Identity>) -> Result<Disk, Error> {
        Disk::with_profile(profile::BASE, blocks, pool, identity)
    }

    /// Makes a disk as [`Disk::new`] does, but of any profile, a number of the module [`profile`].
    ///
    /// # Errors
    ///
    /// [`Error::UnknownProfile`], or an error of [`Disk::new`].
    pub fn with_profile(
        profile: u32,
        blocks: u64,
        pool: u32,
        identity: Option<&Identity>,
    ) -> Result<Disk, Error> {
        let mut slot = sys::mdl_disk { target: ptr::null_mut() };
        let identity = identity.map_or(ptr::null(), |i| i as *const Identity);
        // SAFETY: the slot has no disk, and the identity is null or a whole record.
        check(unsafe { sys::mdl_make_with_profile(&mut slot, profile, blocks, pool, identity) })?;
        Ok(Disk { slot, data_in: vec![0; sys::BUFFER_LENGTH].into() })
    }

    /// Makes the disk that most tests need: an extended disk in memory, with 4,096 blocks and a pool of
    /// 1,024. Each initiator has taken its unit attention of power on.
    ///
    /// # Errors
    ///
    /// [`Error::OutOfMemory`].
    ///
    /// # Examples
    ///
    /// ```
    /// # use mehdalung::{Disk, Error};
    /// # fn main() -> Result<(), Error> {
    /// let mut disk = Disk::for_tests()?;
    /// assert!(disk.initiator(63).write10(4095, 1, &[7; 512])?.is_good());
    /// assert_eq!(disk.initiator(0).read10(4095, 1)?.data_in, [7; 512]);
    /// # Ok(())
    /// # }
    /// ```
    pub fn for_tests() -> Result<Disk, Error> {
        let mut disk = Disk::with_profile(profile::EXTENDED, 4096, 1024, None)?;
        for number in 0..disk.initiators()? {
            disk.initiator(number).request_sense(false, 18)?;
        }
        Ok(disk)
    }

    /// Opens the disk that a file keeps, as after power on. An empty file becomes the disk that is
    /// wanted. If there is no file, an empty one is made.
    ///
    /// # Errors
    ///
    /// [`Error::CannotOpen`] and [`Error::FileBusy`] if the file can't be had. [`Error::NotADisk`],
    /// [`Error::OtherVersion`], [`Error::DamagedFile`] and [`Error::FileTooLong`] say what is wrong with
    /// it. [`Error::OtherProfile`], [`Error::OtherBlocks`], [`Error::OtherPool`] and
    /// [`Error::OtherIdentity`] say what its disk has otherwise. For a new disk the errors of
    /// [`Disk::with_profile`], or [`Error::FileFailed`].
    ///
    /// # Examples
    ///
    /// ```
    /// # use mehdalung::{profile, Disk, Error, Wanted};
    /// # fn main() -> Result<(), Error> {
    /// # let path = std::env::temp_dir().join(format!("mehdalung-open-{}", std::process::id()));
    /// let new = Wanted {
    ///     profile: Some(profile::EXTENDED),
    ///     blocks: Some(4096),
    ///     pool: Some(1024),
    ///     identity: None,
    /// };
    /// let mut disk = Disk::open(&path, &new)?;
    /// disk.initiator(0).request_sense(false, 18)?;
    /// disk.initiator(0).write10(5, 1, &[7; 512])?;
    /// disk.close()?;
    /// let mut disk = Disk::open(&path, &Wanted::default())?; // any disk that is there
    /// disk.initiator(0).request_sense(false, 18)?;
    /// assert_eq!(disk.initiator(0).read10(5, 1)?.data_in, [7; 512]);
    /// # std::fs::remove_file(&path).unwrap();
    /// # Ok(())
    /// # }
    /// ```
    pub fn open(path: impl AsRef<Path>, wanted: &Wanted) -> Result<Disk, Error> {
        let mut slot = sys::mdl_disk { target: ptr::null_mut() };
        let mut damage = Damage::default();
        let path =
            CString::new(path.as_ref().as_os_str().as_bytes()).map_err(|_| Error::CannotOpen(0))?;
        let identity = wanted.identity.map_or(ptr::null(), |i| i as *const Identity);
        // SAFETY: the slot has no disk, the path ends with a zero, and the records are whole or null.
        let error = unsafe {
            sys::mdl_open(
                &mut slot,
                path.as_ptr(),
                wanted.profile.unwrap_or(sys::ANY_PROFILE),
                wanted.blocks.unwrap_or(0),
                wanted.pool.unwrap_or(0),
                identity,
                &mut damage,
            )
        };
        check_opening(error, damage)?;
        Ok(Disk { slot, data_in: vec![0; sys::BUFFER_LENGTH].into() })
    }

    /// Puts all that was changed so far into the disk's file.
    ///
    /// # Errors
    ///
    /// [`Error::NoFile`] if the disk is in memory, or [`Error::FileFailed`].
    pub fn flush(&mut self) -> Result<(), Error> {
        // SAFETY: the slot has a disk.
        check(unsafe { sys::mdl_flush(&mut self.slot) })
    }

    /// Flushes a disk in a file, closes the file and frees the disk, whatever the result is.
    pub fn close(mut self) -> Result<(), Error> {
        // SAFETY: the slot has a disk, and none afterwards.
        check(unsafe { sys::mdl_close(&mut self.slot) })
    }

    /// Frees the disk without a flush, as if the program had stopped.
    pub fn free(mut self) {
        // SAFETY: the slot has a disk, and none afterwards.
        unsafe { sys::mdl_free(&mut self.slot) }
    }

    /// Returns how many initiators the disk has, numbered from 0 on: 8 of the base profile, or 64.
    pub fn initiators(&mut self) -> Result<u32, Error> {
        let mut count = 0;
        // SAFETY: the slot has a disk, and the count is a whole number.
        check(unsafe { sys::mdl_initiators(&mut self.slot, &mut count) })?;
        Ok(count)
    }

    /// Returns an initiator of the disk. Its methods send commands. With a number that the disk does not
    /// have they return [`Error::NoInitiator`].
    pub fn initiator(&mut self, number: u32) -> Initiator<'_> {
        Initiator { disk: self, number }
    }

    /// Executes a command of an initiator of the disk. You may send any bytes as CDB.
    ///
    /// # Errors
    ///
    /// [`Error::NoInitiator`]. A command that the disk refuses is no error: its reply says so.
    pub fn execute(
        &mut self,
        initiator: u32,
        cdb: &[u8],
        data_out: &[u8],
    ) -> Result<Reply<'_>, Error> {
        self.send(initiator, cdb, data_out, true)
    }

    /// Executes a command as [`Disk::execute`] does, without a flush of the disk's file. So several
    /// commands share one flush: execute each, keep the replies that wait, and call [`Disk::flush`]. If
    /// that fails, none of these may go out, and `execute` returns the reply to each of the commands.
    ///
    /// # Errors
    ///
    /// [`Error::NoInitiator`].
    pub fn execute_unflushed(
        &mut self,
        initiator: u32,
        cdb: &[u8],
        data_out: &[u8],
    ) -> Result<Reply<'_>, Error> {
        self.send(initiator, cdb, data_out, false)
    }

    fn send(
        &mut self,
        initiator: u32,
        cdb: &[u8],
        data_out: &[u8],
        flush: bool,
    ) -> Result<Reply<'_>, Error> {
        let execute = if flush { sys::mdl_execute } else { sys::mdl_execute_unflushed };
        let (buffer, length) = (self.data_in.as_mut_ptr(), self.data_in.len());
        let mut record = sys::mdl_reply::default();
        // SAFETY: no pointer is null, each has the bytes that its length says, and none overlap.
        let error = unsafe {
            execute(
                &mut self.slot,
                initiator,
                cdb.as_ptr(),
                cdb.len(),
                data_out.as_ptr(),
                data_out.len(),
                buffer,
                length,
                &mut record,
            )
        };
        let waits = error == sys::error::FLUSH_OWED;
        if !waits {
            check(error)?;
        }
        let data_in = &self.data_in[..record.data_in_length];
        Ok(Reply { record, data_in, kind: kind::HEX, waits })
    }

    /// Executes what the words of a tool ask for, such as `sg_vpd -p lbpv`. `docs/SCRIPT.md` lists the
    /// tools and their options.
    ///
    /// # Errors
    ///
    /// [`Error::UnknownTool`], [`Error::Usage`] and others if the words ask for no command, or
    /// [`Error::NoInitiator`].
    pub fn tool(&mut self, initiator: u32, words: &str) -> Result<Reply<'_>, Error> {
        let words = CString::new(words).map_err(|_| Error::BadByte)?;
        let mut data_out = [0; sys::DATA_OUT_LENGTH];
        let mut command = sys::mdl_command::default();
        // SAFETY: the words end with a zero, the buffer has its length, and none overlap.
        check(unsafe {
            sys::mdl_tool(words.as_ptr(), data_out.as_mut_ptr(), data_out.len(), &mut command)
        })?;
        let cdb = &command.cdb[..usize::from(command.cdb_length)];
        let reply = self.execute(initiator, cdb, &data_out[..command.data_out_length])?;
        Ok(Reply { kind: command.kind, ..reply })
    }
}

/// What happens between two commands. In a disk's file it is kept when the method returns. If the file
/// can't be written, the method returns [`Error::FileFailed`].
impl Disk {
    /// Takes the power of the disk away and gives it back. The blocks stay, and so do registrations and
    /// reservation with APTPL. Each initiator gets the unit attention 29h/00h.
    pub fn power_cycle(&mut self) -> Result<(), Error> {
        // SAFETY: the slot has a disk.
        check(unsafe { sys::mdl_power_cycle(&mut self.slot) })
    }

    /// Resets the logical unit. The saved mode pages become the current ones, and each initiator gets
    /// the unit attention 29h/03h, unless one of a reset with a higher precedence is pending.
    pub fn reset(&mut self) -> Result<(), Error> {
        self.undergo(sys::mdl_happening {
            kind: happening::LOGICAL_UNIT_RESET,
            ..Default::default()
        })
    }

    /// Resets the target that the disk belongs to. It does what [`Disk::reset`] does, with the unit
    /// attention 29h/02h.
    pub fn reset_target(&mut self) -> Result<(), Error> {
        self.undergo(sys::mdl_happening { kind: happening::TARGET_RESET, ..Default::default() })
    }

    /// An initiator loses its I_T nexus, and gets the unit attention 29h/07h, unless one of a reset is
    /// pending.
    ///
    /// # Errors
    ///
    /// [`Error::NoInitiator`] if the disk does not have the initiator.
    pub fn lose_nexus(&mut self, initiator: u32) -> Result<(), Error> {
        self.undergo(sys::mdl_happening {
            kind: happening::NEXUS_LOSS,
            initiator,
            ..Default::default()
        })
    }

    /// The disk has `blocks` blocks from then on, and each initiator gets the unit attention 2Ah/09h.
    /// If it has as many already, nothing changes.
    pub fn grow(&mut self, blocks: u64) -> Result<(), Error> {
        self.undergo(sys::mdl_happening { kind: happening::GROW, blocks, ..Default::default() })
    }

    /// The initiators of a mask get the unit attention with an additional sense code and qualifier:
    /// initiator i if bit i is set. [`ALL_INITIATORS`](crate::ALL_INITIATORS) names all that the disk has.
    /// `mehdalung.h` lists the codes.
    ///
    /// # Errors
    ///
    /// [`Error::UnknownCondition`] if no condition has the code, and [`Error::NoInitiator`] if the disk does
    /// not have an initiator of the mask.
    pub fn attention(&mut self, asc: u8, ascq: u8, initiators: u64) -> Result<(), Error> {
        self.undergo(sys::mdl_happening {
            kind: happening::ATTENTION,
            initiators,
            asc,
            ascq,
            ..Default::default()
        })
    }

    /// Arms a fault under the lowest free number. Its outcome is a number of the module
    /// [`fault_outcome`](crate::fault_outcome).
    ///
    /// # Errors
    ///
    /// [`Error::UnknownFault`], [`Error::SenseKey`], [`Error::NoInitiator`] or [`Error::FaultFlag`] if
    /// the record can't be armed, and [`Error::Faults`] if a fault is armed under each number.
    pub fn arm(&mut self, fault: &Fault) -> Result<(), Error> {
        self.undergo(sys::mdl_happening {
            kind: happening::ARM,
            fault: *fault,
            ..Default::default()
        })
    }

    /// Takes away the fault with a number, 0 to 7, if there is one.
    pub fn disarm(&mut self, number: u8) -> Result<(), Error> {
        self.undergo(sys::mdl_happening { kind: happening::DISARM, number, ..Default::default() })
    }

    /// Takes away all faults.
    pub fn disarm_all(&mut self) -> Result<(), Error> {
        self.undergo(sys::mdl_happening { kind: happening::DISARM_ALL, ..Default::default() })
    }

    /// Lists the armed faults, in lines: each with its number, in the words that arm it. Returns
    /// `None` if memory runs out.
    pub fn faults(&mut self) -> Option<String> {
        text_of(|text| {
            // SAFETY: the slot has a disk, and the text has the bytes that its length says.
            unsafe { sys::mdl_faults(&mut self.slot, text.as_mut_ptr().cast(), text.len()) }
        })
    }

    /// Lets happen what words say, such as `fault medium 3/11/00 blocks 10 2` or `nexus 0`.
    /// `docs/SCRIPT.md` lists them.
    pub fn happen(&mut self, words: &str) -> Result<(), Error> {
        let words = CString::new(words).map_err(|_| Error::BadByte)?;
        let mut record = sys::mdl_happening::default();
        // SAFETY: the words end with a zero, and the record is whole.
        check(unsafe { sys::mdl_read_happening(words.as_ptr(), &mut record) })?;
        self.undergo(record)
    }

    fn undergo(&mut self, record: sys::mdl_happening) -> Result<(), Error> {
        // SAFETY: the slot has a disk, and the record is whole.
        check(unsafe { sys::mdl_happen(&mut self.slot, &record) })
    }
}

/// What a transport asks about the ports of initiators.
impl Disk {
    /// Returns a mask of the initiators that are registered: bit i is set if initiator i is.
    pub fn registered(&mut self) -> Result<u64, Error> {
        let mut mask = 0;
        // SAFETY: the slot has a disk, and the mask is a whole number.
        check(unsafe { sys::mdl_registered(&mut self.slot, &mut mask) })?;
        Ok(mask)
    }

    /// Clears the unit attentions that are pending for an initiator whose port is gone.
    pub fn forget(&mut self, initiator: u32) -> Result<(), Error> {
        // SAFETY: the slot has a disk.
        check(unsafe { sys::mdl_forget(&mut self.slot, initiator) })
    }
}

impl Drop for Disk {
    fn drop(&mut self) {
        // SAFETY: the slot has a disk or none, and is not used again.
        unsafe { sys::mdl_close(&mut self.slot) };
    }
}

impl fmt::Debug for Disk {
    fn fmt(&self, f: &mut fmt::Formatter<'_>) -> fmt::Result {
        f.debug_struct("Disk").finish_non_exhaustive()
    }
}

//! Initiators of a disk.
use crate::{kind_of, Disk, Error, Reply};

/// An initiator of a disk, by [`Disk::initiator`].
///
/// Each method sends one command and consumes the initiator, so that the reply can outlive it. The disk
/// makes another one at no cost:
///
/// ```
/// # use mehdalung::{Disk, Error};
/// # fn main() -> Result<(), Error> {
/// let mut disk = Disk::new(4096, 4, None)?;
/// for number in 0..2 {
///     // REQUEST SENSE takes the unit attention of a new disk
///     disk.initiator(number).request_sense(false, 18)?;
/// }
/// let reply = disk.initiator(0).write10(5, 1, &[0xAB; 512])?;
/// assert!(reply.is_good(), "{reply}");
/// let reply = disk.initiator(1).read10(5, 1)?;
/// assert_eq!(reply.data_in, [0xAB; 512]);
/// # Ok(())
/// # }
/// ```
#[derive(Debug)]
pub struct Initiator<'a> {
    pub(crate) disk: &'a mut Disk,
    pub(crate) number: u32,
}

impl<'a> Initiator<'a> {
    /// Executes a command, as [`Disk::execute`] does.
    pub fn execute(self, cdb: &[u8], data_out: &[u8]) -> Result<Reply<'a>, Error> {
        self.disk.execute(self.number, cdb, data_out)
    }

    /// Executes a command by name. Its reply prints data-in by the kind of the command.
    pub(crate) fn send(self, cdb: &[u8], data_out: &[u8]) -> Result<Reply<'a>, Error> {
        let reply = self.execute(cdb, data_out)?;
        Ok(Reply { kind: kind_of(cdb), ..reply })
    }

    /// Executes a command without a flush of the disk's file, as [`Disk::execute_unflushed`] does.
    pub fn execute_unflushed(self, cdb: &[u8], data_out: &[u8]) -> Result<Reply<'a>, Error> {
        self.disk.execute_unflushed(self.number, cdb, data_out)
    }

    /// Executes what the words of a tool ask for, as [`Disk::tool`] does.
    pub fn tool(self, words: &str) -> Result<Reply<'a>, Error> {
        self.disk.tool(self.number, words)
    }
}

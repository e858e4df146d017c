//! Replies to commands.
use crate::error::check;
use crate::{decode, kind, sys, Sense};
use crate::{BUSY, CHECK_CONDITION, GOOD, NO_REPLY, RESERVATION_CONFLICT, TASK_SET_FULL};
use std::fmt;

/// The reply to a command. It borrows the disk's data-in until the next command.
///
/// It prints its status, and sense data or data-in in lines, so that a failed assertion is readable:
///
/// ```
/// # use mehdalung::{Disk, Error};
/// # fn main() -> Result<(), Error> {
/// let mut disk = Disk::new(4096, 4, None)?;
/// let reply = disk.initiator(0).test_unit_ready()?;
/// assert_eq!(reply.to_string(), "CHECK CONDITION\n  sense: UNIT ATTENTION, 29h/00h");
/// # Ok(())
/// # }
/// ```
pub struct Reply<'a> {
    pub(crate) record: sys::mdl_reply,
    /// Data-in.
    pub data_in: &'a [u8],
    /// How data-in is printed, a number of the module [`kind`]. It is [`kind::HEX`], unless the command
    /// was sent by its name or by a tool.
    pub kind: u32,
    pub(crate) waits: bool,
}

impl Reply<'_> {
    /// Returns the status, such as [`GOOD`].
    pub fn status(&self) -> u8 {
        self.record.status
    }

    /// Returns the name of the status, such as `CHECK CONDITION`.
    pub fn status_name(&self) -> &'static str {
        match self.status() {
            GOOD => "GOOD",
            CHECK_CONDITION => "CHECK CONDITION",
            RESERVATION_CONFLICT => "RESERVATION CONFLICT",
            BUSY => "BUSY",
            TASK_SET_FULL => "TASK SET FULL",
            NO_REPLY => "NO REPLY",
            _ => "UNKNOWN STATUS",
        }
    }

    /// Returns whether the status is [`GOOD`].
    pub fn is_good(&self) -> bool {
        self.status() == GOOD
    }

    /// Returns whether the reply has to wait until [`Disk::flush`](crate::Disk::flush) has returned
    /// `Ok`. Only a reply of [`Disk::execute_unflushed`](crate::Disk::execute_unflushed) has to.
    pub fn waits(&self) -> bool {
        self.waits
    }

    /// Returns how many bytes of data-out the CDB asks for, executed or refused.
    pub fn data_out_length(&self) -> u64 {
        self.record.data_out_length
    }

    /// Returns the sense data. It is empty, unless the status is [`CHECK_CONDITION`].
    pub fn sense(&self) -> &[u8] {
        &self.record.sense[..usize::from(self.record.sense_length)]
    }

    /// Returns the fields of the sense data. Returns `None` if there is no sense data, or if it is of a
    /// deferred error.
    pub fn fields(&self) -> Option<Sense> {
        fields_of(self.sense())
    }

    /// Returns the sense key, a number of the module [`sense_key`](crate::sense_key), or `None` without
    /// sense data.
    pub fn sense_key(&self) -> Option<u8> {
        Some(self.fields_of_any_error()?.key)
    }

    /// Returns the additional sense code, or `None` without sense data.
    pub fn asc(&self) -> Option<u8> {
        Some(self.fields_of_any_error()?.asc)
    }

    /// Returns the additional sense code qualifier, or `None` without sense data.
    pub fn ascq(&self) -> Option<u8> {
        Some(self.fields_of_any_error()?.ascq)
    }

    /// Returns the INFORMATION field, mostly a block's address, or `None` if the sense data lacks it.
    pub fn information(&self) -> Option<u64> {
        let fields = self.fields_of_any_error()?;
        (fields.has_information == 1).then_some(fields.information)
    }

    /// Returns the fields of the sense data, even of a deferred error.
    fn fields_of_any_error(&self) -> Option<Sense> {
        let mut sense = self.sense().to_vec();
        // 71h and 73h are the response codes of deferred errors (SPC-4, 4.5.1).
        *sense.first_mut()? &= 0xFE;
        fields_of(&sense)
    }

    /// Returns what `sgrun` prints of the reply after its status: data-in or sense data, in lines.
    /// Returns `None` if memory runs out.
    pub fn text(&self) -> Option<String> {
        match self.status() {
            GOOD => decode(self.kind, self.data_in),
            _ if self.sense().is_empty() => Some(String::new()),
            _ => decode(kind::SENSE, self.sense()),
        }
    }

    /// Returns the exit status that the tools of sg3_utils have for the reply. `docs/SCRIPT.md` lists
    /// the differences.
    pub fn exit_status(&self) -> u8 {
        // SAFETY: the pointer is to a whole record.
        unsafe { sys::mdl_exit_status(&self.record) as u8 }
    }
}

fn fields_of(sense: &[u8]) -> Option<Sense> {
    let mut fields = Sense::default();
    // SAFETY: there are as many bytes, and the fields are a whole record.
    check(unsafe { sys::mdl_read_sense(sense.as_ptr(), sense.len(), &mut fields) }).ok()?;
    Some(fields)
}

/// The name of the status, and then data-in or sense data in lines.
impl fmt::Display for Reply<'_> {
    fn fmt(&self, f: &mut fmt::Formatter<'_>) -> fmt::Result {
        write!(f, "{}", self.status_name())?;
        match self.text().as_deref() {
            None | Some("") => Ok(()),
            Some(text) => write!(f, "\n{}", text.trim_end()),
        }
    }
}

/// The same as `Display`.
impl fmt::Debug for Reply<'_> {
    fn fmt(&self, f: &mut fmt::Formatter<'_>) -> fmt::Result {
        fmt::Display::fmt(self, f)
    }
}

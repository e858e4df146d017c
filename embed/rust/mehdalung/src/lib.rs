#![doc = include_str!("../README.md")]
#![deny(missing_docs, unsafe_op_in_unsafe_fn, clippy::undocumented_unsafe_blocks)]
mod by_name;
mod cdb;
pub mod commands;
mod disk;
mod error;
mod initiator;
pub mod lists;
mod reply;
pub mod sense_key;

use error::check;
use mehdalung_sys as sys;

pub use disk::{Disk, Wanted};
pub use error::Error;
pub use initiator::Initiator;
pub use reply::Reply;
pub use sys::{fault_outcome, kind, profile};
pub use sys::{mdl_damage as Damage, mdl_fault as Fault};
pub use sys::{mdl_identity as Identity, mdl_sense as Sense};
// Only a disk with armed faults returns the last three. NO_REPLY is no status: the disk never replies.
pub use sys::{BUSY, CHECK_CONDITION, GOOD, NO_REPLY, RESERVATION_CONFLICT, TASK_SET_FULL};

/// The mask that names all initiators of a disk, whatever its profile is.
pub const ALL_INITIATORS: u64 = u64::MAX;

/// Returns the text that a function writes as snprintf(3) does, or None.
fn text_of(mut write: impl FnMut(&mut [u8]) -> usize) -> Option<String> {
    let length = write(&mut []);
    // If there is no text, the length is the greatest number.
    let mut text = vec![0; length.checked_add(1)?];
    if write(&mut text) != length {
        return None;
    }
    text.truncate(length);
    String::from_utf8(text).ok()
}

/// Returns what an answer of a kind contains, in lines. `kind` is a number of the module [`kind`].
/// Returns `None` if there is no such kind, or if memory runs out.
pub fn decode(kind: u32, data_in: &[u8]) -> Option<String> {
    let length = data_in.len();
    text_of(|text| {
        // SAFETY: each pointer has the bytes that its length says, and they don't overlap.
        unsafe {
            sys::mdl_decode(kind, data_in.as_ptr(), length, text.as_mut_ptr().cast(), text.len())
        }
    })
}

/// Returns the kind of the data-in of a command, a number of the module [`kind`]. It is [`kind::HEX`] for a
/// command without a kind of its own. The kinds of an extended disk print the data of a base disk, too.
pub fn kind_of(cdb: &[u8]) -> u32 {
    let byte = |at: usize| cdb.get(at).copied().unwrap_or(0);
    match (byte(0), byte(1) & 0x1F) {
        (0x03, _) => kind::SENSE_EXTENDED,
        (0x12, evpd) if evpd & 1 == 1 => kind::VPD_EXTENDED,
        (0x12, _) => kind::INQUIRY_EXTENDED,
        (0x1A, _) => kind::MODES_6,
        (0x5A, _) => kind::MODES_10,
        (0x25, _) => kind::CAPACITY_10,
        (0x9E, 0x10) => kind::CAPACITY_16,
        (0x9E, 0x12) => kind::LBA_STATUS,
        (0x37, _) => kind::DEFECTS_10,
        (0xB7, _) => kind::DEFECTS_12,
        (0x4D, _) => kind::LOG_PAGE,
        (0x5E, 0x00) => kind::KEYS,
        (0x5E, 0x01) => kind::RESERVATION,
        (0x5E, 0x02) => kind::CAPABILITIES_EXTENDED,
        (0x5E, 0x03) => kind::FULL_STATUS_EXTENDED,
        (0xA0, _) => kind::LUNS,
        (0xA3, 0x0C) if byte(2) & 7 == 0 => kind::ALL_COMMANDS,
        (0xA3, 0x0C) => kind::ONE_COMMAND,
        (0xA3, 0x0D) => kind::TASK_MANAGEMENT,
        _ => kind::HEX,
    }
}

/// Returns the version of the library and of the proof.
pub fn version() -> Option<String> {
    text_of(|text| {
        // SAFETY: the text has the bytes that its length says.
        unsafe { sys::mdl_version(text.as_mut_ptr().cast(), text.len()) }
    })
}

/// Makes the identity of a seed of at most 60 bits. Two seeds make two identities.
///
/// # Errors
///
/// [`Error::IdentityLocal`] if the seed has more bits.
pub fn identity_of_seed(seed: u64) -> Result<Identity, Error> {
    let mut identity =
        Identity { vendor: [0; 8], product: [0; 16], revision: [0; 4], serial: [0; 8], local: 0 };
    // SAFETY: the pointer is to a whole record.
    check(unsafe { sys::mdl_identity_of_seed(seed, &mut identity) })?;
    Ok(identity)
}

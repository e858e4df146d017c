//! Why calls are refused.
use mehdalung_sys::{error, mdl_damage};
use std::{fmt, io};

/// Why a call is refused. It has changed nothing then, except with [`Error::FileFailed`].
#[derive(Clone, Copy, Debug, PartialEq, Eq)]
pub enum Error {
    /// The number of blocks is not 1 to 2^40.
    Blocks,
    /// The size of the pool is out of range: 1 to 65,536 blocks, or more on an extended disk.
    Pool,
    /// A text of the identity has a byte outside 20h to 7Eh.
    IdentityText,
    /// The local identifier, or the seed, has more than 60 bits.
    IdentityLocal,
    /// Memory ran out.
    OutOfMemory,
    /// The disk has no such initiator, or a fault names none.
    NoInitiator,
    /// A byte of the words is not printable ASCII and no tab.
    BadByte,
    /// There are more than 64 words.
    TooManyWords,
    /// There is no word, or the first is not the name of a tool.
    UnknownTool,
    /// The tool or the verb does not accept these words.
    Usage,
    /// Two options exclude one another.
    Exclusive,
    /// An option's text is no value, or its value is out of range.
    Number,
    /// The number is none of the module `profile`.
    UnknownProfile,
    /// No unit attention condition has the code.
    UnknownCondition,
    /// The number is none of the module `fault_outcome`.
    UnknownFault,
    /// The sense key of a fault is none of SPC-4.
    SenseKey,
    /// A flag of a fault is not 0 or 1, or a fault without blocks is healed by writes.
    FaultFlag,
    /// The number of a fault is not 0 to 7.
    FaultNumber,
    /// A fault is armed under each number.
    Faults,
    /// There is no word, or the first is no verb of a happening.
    UnknownVerb,
    /// A call on the disk's file failed, now or earlier.
    FileFailed,
    /// Another program has the file, or another disk of this program.
    FileBusy,
    /// The file has something else, or it was not made to its end.
    NotADisk,
    /// The file has this version of the format.
    OtherVersion(u64),
    /// A byte of the file is not what was written: where the file is damaged.
    DamagedFile(mdl_damage),
    /// The file has more than 2^60 bytes.
    FileTooLong,
    /// The file's disk has another profile than you asked for.
    OtherProfile,
    /// The file's disk has another number of blocks.
    OtherBlocks,
    /// The file's disk has a pool of another size.
    OtherPool,
    /// The file's disk has another identity.
    OtherIdentity,
    /// The system refuses to open or to read the file, for this reason: a number of errno.
    CannotOpen(i32),
    /// The disk is not in a file.
    NoFile,
    /// Another number of `mdl_error`. The calls of this crate do not return it.
    Other(u32),
}

impl Error {
    /// What the error prints, before its value if it has one.
    fn reason(&self) -> &'static str {
        match self {
            Error::Blocks => "the number of blocks is not 1 to 2^40",
            Error::Pool => "the size of the pool is out of range",
            Error::IdentityText => "a text of the identity has a byte outside 20h to 7Eh",
            Error::IdentityLocal => "the local identifier, or the seed, has more than 60 bits",
            Error::OutOfMemory => "memory ran out",
            Error::NoInitiator => "the disk has no such initiator, or a fault names none",
            Error::BadByte => "a byte of the words is not printable ASCII and no tab",
            Error::TooManyWords => "there are more than 64 words",
            Error::UnknownTool => "there is no tool of this name",
            Error::Usage => "the tool or the verb does not accept these words",
            Error::Exclusive => "two options exclude one another",
            Error::Number => "an option's text is no value, or its value is out of range",
            Error::UnknownProfile => "there is no profile with this number",
            Error::UnknownCondition => "no unit attention condition has the code",
            Error::UnknownFault => "there is no outcome of a fault with this number",
            Error::SenseKey => "the sense key of a fault is none of SPC-4",
            Error::FaultFlag => {
                "a flag of a fault is not 0 or 1, or a fault without blocks is healed by writes"
            }
            Error::FaultNumber => "the number of a fault is not 0 to 7",
            Error::Faults => "a fault is armed under each number",
            Error::UnknownVerb => "there is no verb of this name",
            Error::FileFailed => "a call on the disk's file failed, now or earlier",
            Error::FileBusy => "another program has the file, or another disk of this program",
            Error::NotADisk => "the file has something else, or it was not made to its end",
            Error::OtherVersion(_) => "the file has another version of the format",
            Error::DamagedFile(_) => "the file is damaged",
            Error::FileTooLong => "the file has more than 2^60 bytes",
            Error::OtherProfile => "the file's disk has another profile",
            Error::OtherBlocks => "the file's disk has another number of blocks",
            Error::OtherPool => "the file's disk has a pool of another size",
            Error::OtherIdentity => "the file's disk has another identity",
            Error::CannotOpen(_) => "cannot open the file",
            Error::NoFile => "the disk is not in a file",
            Error::Other(_) => "the library returns another error",
        }
    }
}

impl fmt::Display for Error {
    fn fmt(&self, f: &mut fmt::Formatter<'_>) -> fmt::Result {
        f.write_str(self.reason())?;
        match self {
            Error::OtherVersion(version) => write!(f, ": {version}"),
            Error::DamagedFile(it) => write!(f, ": batch {}, offset {}", it.batch, it.offset),
            Error::CannotOpen(reason) => write!(f, ": {}", io::Error::from_raw_os_error(*reason)),
            Error::Other(number) => write!(f, ": {number}"),
            _ => Ok(()),
        }
    }
}

impl std::error::Error for Error {}

/// The result of a call that opens a file.
pub(crate) fn check_opening(error: u32, damage: mdl_damage) -> Result<(), Error> {
    Err(match error {
        error::OTHER_VERSION => Error::OtherVersion(damage.offset),
        error::DAMAGED_FILE => Error::DamagedFile(damage),
        error::CANNOT_OPEN => {
            Error::CannotOpen(io::Error::last_os_error().raw_os_error().unwrap_or(0))
        }
        other => return check(other),
    })
}

pub(crate) fn check(error: u32) -> Result<(), Error> {
    Err(match error {
        error::OK => return Ok(()),
        error::BLOCKS => Error::Blocks,
        error::POOL => Error::Pool,
        error::IDENTITY_TEXT => Error::IdentityText,
        error::IDENTITY_LOCAL => Error::IdentityLocal,
        error::OUT_OF_MEMORY => Error::OutOfMemory,
        error::NO_INITIATOR => Error::NoInitiator,
        error::BAD_BYTE => Error::BadByte,
        error::TOO_MANY_WORDS => Error::TooManyWords,
        error::UNKNOWN_TOOL => Error::UnknownTool,
        error::USAGE => Error::Usage,
        error::EXCLUSIVE => Error::Exclusive,
        error::NUMBER => Error::Number,
        error::UNKNOWN_PROFILE => Error::UnknownProfile,
        error::UNKNOWN_CONDITION => Error::UnknownCondition,
        error::UNKNOWN_FAULT => Error::UnknownFault,
        error::SENSE_KEY => Error::SenseKey,
        error::FAULT_FLAG => Error::FaultFlag,
        error::FAULT_NUMBER => Error::FaultNumber,
        error::FAULTS => Error::Faults,
        error::UNKNOWN_VERB => Error::UnknownVerb,
        error::FILE_FAILED => Error::FileFailed,
        error::FILE_BUSY => Error::FileBusy,
        error::NOT_A_DISK => Error::NotADisk,
        error::FILE_TOO_LONG => Error::FileTooLong,
        error::OTHER_PROFILE => Error::OtherProfile,
        error::OTHER_BLOCKS => Error::OtherBlocks,
        error::OTHER_POOL => Error::OtherPool,
        error::OTHER_IDENTITY => Error::OtherIdentity,
        error::NO_FILE => Error::NoFile,
        other => Error::Other(other),
    })
}

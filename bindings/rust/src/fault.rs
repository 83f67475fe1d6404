//! Why inputs are rejected.

use crate::Rule;
use core::fmt;

/// The first fault of an input (docs/FAULTS.md).
#[non_exhaustive]
#[derive(Clone, Copy, Debug, PartialEq, Eq, Hash)]
pub enum Fault {
    /// The bytes don't begin with a well-formed data item of at most 256 levels, or are cut off.
    DecodeFailed,
    /// The data item is no map, or the JSON value no object.
    NotAMap,
    /// A map key is neither a text nor a byte string nor an integer from 0 to 255.
    BadKey,
    /// The member is there twice.
    Repeated,
    /// The member has a type or a value that isn't accepted.
    Refused,
    /// The member is required, and absent.
    Missing,
    /// A reserved flag is set, or a number in a key is too large.
    OutOfRangeIntegerValue,
    /// A label is in a key twice.
    DuplicateMapKey,
    /// A part of a key is missing or has another type, the extensions are no map, or the statement has
    /// another format.
    UnexpectedItem,
    /// The member contains a number of JSON that is no integer of 64 bits.
    Float,
    /// The text is no JSON of at most 127 levels, or of `encode` 128.
    BadJson,
    /// A value of the JSON is no data item.
    NoItem,
    /// The kind accepts the input, but it isn't as is asked ([`Asked`](crate::Asked)), by this rule;
    /// `None` for one that this crate doesn't know.
    NotCanonical(Option<Rule>),
    /// A fault that this crate doesn't know, by its status in puffgrit.h.
    Other(u8),
}

impl Fault {
    /// The fault with this status in puffgrit.h (`PUFFGRIT_FAULT_..`), and this second byte.
    pub(crate) fn from_status(status: u8, second: u8) -> Fault {
        match status {
            16 => Fault::DecodeFailed,
            17 => Fault::NotAMap,
            18 => Fault::BadKey,
            19 => Fault::Repeated,
            20 => Fault::Refused,
            21 => Fault::Missing,
            22 => Fault::OutOfRangeIntegerValue,
            23 => Fault::DuplicateMapKey,
            24 => Fault::UnexpectedItem,
            25 => Fault::Float,
            26 => Fault::BadJson,
            27 => Fault::NoItem,
            28 => Fault::NotCanonical(Rule::numbered(second.into())),
            other => Fault::Other(other),
        }
    }
}

/// The fault's name, as `Refused`.
impl fmt::Display for Fault {
    fn fmt(&self, f: &mut fmt::Formatter<'_>) -> fmt::Result {
        fmt::Debug::fmt(self, f)
    }
}

/// Why nothing was written.
#[derive(Clone, Copy, Debug, PartialEq, Eq)]
pub enum Error {
    /// The encoding has this many bytes, for which the output is too short.
    TooShort(usize),
    /// An allocation failed.
    OutOfMemory,
    /// The call doesn't have this kind.
    UnknownKind,
    /// The input is rejected.
    Rejected {
        fault: Fault,
        /// The number of the message's member that the fault is about.
        member: Option<u8>,
    },
}

impl Error {
    /// The error that a call returned, but for `PUFFGRIT_OK` and `PUFFGRIT_TOO_SHORT`.
    pub(crate) fn from_status(status: u32) -> Error {
        let [first, second, ..] = status.to_le_bytes();
        match first {
            2 => Error::OutOfMemory,
            3 => Error::UnknownKind,
            _ => Error::Rejected {
                fault: Fault::from_status(first, second),
                member: (second != 0 && first != 28).then_some(second),
            },
        }
    }
}

impl fmt::Display for Error {
    fn fmt(&self, f: &mut fmt::Formatter<'_>) -> fmt::Result {
        match self {
            Error::TooShort(len) => write!(f, "the output is too short: {len} bytes are needed"),
            Error::OutOfMemory => f.write_str("out of memory"),
            Error::UnknownKind => f.write_str("the call doesn't have this kind"),
            Error::Rejected { fault, member: None } => write!(f, "the input is rejected: {fault}"),
            Error::Rejected { fault, member: Some(member) } => write!(f, "the input is rejected: {fault}({member})"),
        }
    }
}

impl core::error::Error for Error {}

#[cfg(test)]
mod tests {
    extern crate std;

    use super::*;
    use std::boxed::Box;
    use std::string::ToString;

    #[test]
    fn statuses() {
        // statuses of puffgrit.h, with the number of a member in the second byte
        for (status, text) in [
            (2, "out of memory"),
            (3, "the call doesn't have this kind"),
            (16, "the input is rejected: DecodeFailed"),
            (26, "the input is rejected: BadJson"),
            (27, "the input is rejected: NoItem"),
            (20 + 256 * 3, "the input is rejected: Refused(3)"),
            (28 + 256 * 4, "the input is rejected: NotCanonical(Some(NoTag))"),
            (99, "the input is rejected: Other(99)"),
        ] {
            let error: Box<dyn core::error::Error> = Box::new(Error::from_status(status));
            assert_eq!(error.to_string(), text);
        }
        assert_eq!(Error::from_status(19), Error::Rejected { fault: Fault::Repeated, member: None });
        assert_eq!(Error::TooShort(2).to_string(), "the output is too short: 2 bytes are needed");
    }
}

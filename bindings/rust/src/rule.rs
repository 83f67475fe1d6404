//! The rules of CTAP2's canonical form. Made by `tools/header`.

/// A rule of CTAP2's canonical form (CTAP 2.2, section 8).
#[repr(u32)]
#[derive(Clone, Copy, Debug, PartialEq, Eq, Hash)]
pub enum Rule {
    /// The bytes are well-formed (RFC 8949, section 3).
    WellFormed = 1,
    /// Each integer and each length has its shortest encoding.
    ShortestHead = 2,
    /// Strings, arrays and maps have a definite length.
    DefiniteLength = 3,
    /// There are no tags.
    NoTag = 4,
    /// There is no undefined, which is encoded as null.
    NoUndefined = 5,
    /// Each key of a map comes after the key before it, in CTAP2's order (`ctap2_order`).
    AscendingKeys = 6,
    /// No key of a map equals the key before it.
    DistinctKeys = 7,
    /// Arrays and maps are inside one another at no more levels than are allowed.
    Levels = 8,
    /// No bytes follow the data item.
    NothingAfter = 9,
}

impl Rule {
    /// The rule with this number in C, from 1 on.
    pub(crate) fn numbered(number: u32) -> Option<Rule> {
        match number {
            1 => Some(Rule::WellFormed),
            2 => Some(Rule::ShortestHead),
            3 => Some(Rule::DefiniteLength),
            4 => Some(Rule::NoTag),
            5 => Some(Rule::NoUndefined),
            6 => Some(Rule::AscendingKeys),
            7 => Some(Rule::DistinctKeys),
            8 => Some(Rule::Levels),
            9 => Some(Rule::NothingAfter),
            _ => None,
        }
    }
}

//! Messages of CTAP2 and WebAuthn, decoded, checked and encoded again, and CBOR data items (RFC 8949)
//! and authenticator data (WebAuthn Level 3, section 6.1), looked at in place, by proved code.
//!
//! ```
//! use puffgrit::{member, Key};
//!
//! let info = b"\xa1\x0a\x81\xa1\x63alg\x26"; // authenticatorGetInfo's algorithms: {10: [{"alg": -7}]}
//! let algorithms = member(info, 0, Key::Number(10)).unwrap();
//! let algorithm = algorithms.elements_in(info).next().unwrap();
//! assert_eq!(algorithm.member_in(info, Key::Name("alg")).unwrap().integer(), Some(-7));
//! ```
//!
//! The calls that look are compiled from the C that this crate carries. With the feature `whole` all of
//! libpuffgrit is linked, from the folder that `PUFFGRIT_PREFIX` names: then there are `rewrite`, `json`,
//! `explain`, `values` and `encode`, which allocate, and free what they allocated.
#![no_std]

mod auth_data;
#[cfg(feature = "whole")]
mod decode;
#[cfg(feature = "whole")]
mod fault;
mod item;
#[cfg(feature = "whole")]
mod kind;
mod rule;

pub use auth_data::AuthData;
use core::mem::MaybeUninit;
#[cfg(feature = "whole")]
pub use decode::*;
#[cfg(feature = "whole")]
pub use fault::{Error, Fault};
pub use item::{Elements, Item, Type};
#[cfg(feature = "whole")]
pub use kind::Kind;
pub use rule::Rule;

/// The version of the interface, which is that of puffgrit.h.
pub const VERSION: u32 = 3;

extern "C" {
    fn puffgrit_item_len(bytes: *const u8, len: usize) -> usize;
    fn puffgrit_is_canonical(bytes: *const u8, len: usize) -> bool;
    fn puffgrit_not_canonical(bytes: *const u8, len: usize, levels: usize, offset: *mut usize) -> u32;
    fn puffgrit_item_at(bytes: *const u8, len: usize, offset: usize, item: *mut Item) -> bool;
    fn puffgrit_member(bytes: *const u8, len: usize, map: usize, key: i64, value: *mut Item) -> bool;
    fn puffgrit_named(bytes: *const u8, len: usize, map: usize, name: *const u8, name_len: usize, value: *mut Item) -> bool;
    fn puffgrit_auth_parts(bytes: *const u8, len: usize, parts: *mut AuthData) -> bool;
    fn puffgrit_is_client_data(
        bytes: *const u8, len: usize, ty: *const u8, ty_len: usize, challenge: *const u8, challenge_len: usize, origin: *const u8,
        origin_len: usize, top_origin: *const u8, top_origin_len: usize, requires_top_origin: bool,
    ) -> bool;
}

/// A key of a map: an integer or a text.
#[derive(Clone, Copy, Debug)]
pub enum Key<'a> {
    Number(i64),
    Name(&'a str),
}

/// Returns what the call wrote, if it says that it did.
fn written<T>(call: impl FnOnce(*mut T) -> bool) -> Option<T> {
    let mut value = MaybeUninit::uninit();
    // SAFETY: a call that returns true wrote the whole value, and no call reads it.
    call(value.as_mut_ptr()).then(|| unsafe { value.assume_init() })
}

/// The length of the data item at the beginning of the bytes, or `None` if no well-formed one of at
/// most 256 levels is there.
pub fn item_len(bytes: &[u8]) -> Option<usize> {
    // SAFETY: a slice's pointer isn't null, and is readable for its length.
    match unsafe { puffgrit_item_len(bytes.as_ptr(), bytes.len()) } {
        0 => None,
        len => Some(len),
    }
}

/// Whether the bytes are exactly one data item in CTAP2's canonical form (CTAP 2.1, section 8).
pub fn is_canonical(bytes: &[u8]) -> bool {
    // SAFETY: as above.
    unsafe { puffgrit_is_canonical(bytes.as_ptr(), bytes.len()) }
}

/// Where bytes leave CTAP2's canonical form.
#[derive(Clone, Copy, Debug, PartialEq, Eq)]
pub struct NotCanonical {
    /// The rule that is broken there.
    pub rule: Rule,
    /// The offset of the head that breaks it: of a key that isn't in its place, its own; of trailing
    /// bytes, that of the first.
    pub offset: usize,
}

/// Where and why the bytes aren't exactly one data item in CTAP2's canonical form, with arrays and
/// maps inside one another at no more than so many levels (4 in messages), and at most 256. `None` if
/// they are (CTAP 2.2, section 8).
pub fn not_canonical(bytes: &[u8], levels: usize) -> Option<NotCanonical> {
    let mut offset = 0;
    // SAFETY: as above, and the offset can be written.
    let number = unsafe { puffgrit_not_canonical(bytes.as_ptr(), bytes.len(), levels, &mut offset) };
    Rule::numbered(number).map(|rule| NotCanonical { rule, offset })
}

/// The data item at the offset.
pub fn item_at(bytes: &[u8], offset: usize) -> Option<Item> {
    // SAFETY: as above.
    written(|item| unsafe { puffgrit_item_at(bytes.as_ptr(), bytes.len(), offset, item) })
}

/// The value of the first member with the key, in the map at the offset.
pub fn member(bytes: &[u8], map: usize, key: Key<'_>) -> Option<Item> {
    let (start, len) = (bytes.as_ptr(), bytes.len());
    // SAFETY: as above.
    written(|item| unsafe {
        match key {
            Key::Number(number) => puffgrit_member(start, len, map, number, item),
            Key::Name(name) => puffgrit_named(start, len, map, name.as_ptr(), name.len(), item),
        }
    })
}

/// The parts of the authenticator data at the beginning of the bytes.
pub fn auth_parts(bytes: &[u8]) -> Option<AuthData> {
    // SAFETY: as above.
    written(|parts| unsafe { puffgrit_auth_parts(bytes.as_ptr(), bytes.len(), parts) })
}

/// What client data are expected to say (WebAuthn Level 3, section 5.8.1.2).
#[derive(Clone, Copy, Debug)]
pub struct ClientData<'a> {
    /// `webauthn.create` or `webauthn.get`.
    pub ty: &'a str,
    /// The challenge's bytes.
    pub challenge: &'a [u8],
    pub origin: &'a str,
    /// The origin of the page around a frame of another origin; empty if there is none.
    pub top_origin: &'a str,
    /// Whether the top origin has to be there: clients of WebAuthn Level 2 don't write it.
    pub requires_top_origin: bool,
}

/// Whether the bytes begin as the client data that a client writes. JSON isn't parsed, and other members may follow.
pub fn is_client_data(bytes: &[u8], expected: ClientData<'_>) -> bool {
    let ClientData { ty, challenge, origin, top_origin, requires_top_origin } = expected;
    // SAFETY: as above.
    unsafe {
        puffgrit_is_client_data(
            bytes.as_ptr(), bytes.len(), ty.as_ptr(), ty.len(), challenge.as_ptr(), challenge.len(), origin.as_ptr(), origin.len(),
            top_origin.as_ptr(), top_origin.len(), requires_top_origin,
        )
    }
}

#[cfg(test)]
mod tests {
    use super::*;

    #[test]
    fn looks() {
        assert_eq!(item_len(&[0x9f, 0x18, 0x01, 0xff, 0x00]), Some(4));
        assert_eq!(item_len(&[]), None);
        assert!(is_canonical(&[0x81, 0x01]));
        assert_eq!(not_canonical(&[0x81, 0x01], 1), None);
        assert_eq!(not_canonical(&[0x81, 0x01], 0).map(|it| (it.rule, it.offset)), Some((Rule::Levels, 0)));
        assert_eq!(not_canonical(&[0x81, 0x18, 0x01], 4).map(|it| (it.rule, it.offset)), Some((Rule::ShortestHead, 1)));
        assert_eq!(item_at(&[0x81, 0x01], 1).map(|it| it.number), Some(1));
        assert_eq!(member(&[0xa1, 0x20, 0x05], 0, Key::Number(-1)).map(|it| it.number), Some(5));
        assert_eq!(member(&[0xa1, 0x61, 0x61, 0x05], 0, Key::Name("a")).map(|it| it.from), Some(3));
        assert_eq!(member(&[0xa0], 0, Key::Name("a")), None);
    }

    #[test]
    fn authenticator_data() {
        assert_eq!(auth_parts(&[0; 37]).map(|it| it.end), Some(37));
        assert_eq!(auth_parts(&[0; 36]), None);
    }

    #[test]
    fn client_data() {
        let expected = ClientData { ty: "webauthn.get", challenge: &[0xfb], origin: "https://example.org", top_origin: "", requires_top_origin: true };
        let text = br#"{"type":"webauthn.get","challenge":"-w","origin":"https://example.org","crossOrigin":false}"#;
        assert!(is_client_data(text, expected));
        assert!(!is_client_data(text, ClientData { challenge: &[0xfa], ..expected }));
    }
}

//! A data item: where it is, and what it says.

use crate::{item_at, member, Key};

/// A data item in bytes (RFC 8949, section 3). What ends in `_in` takes the bytes in which it was
/// found; other bytes have no meaning for it.
#[repr(C)]
#[derive(Clone, Copy, Debug, PartialEq, Eq)]
pub struct Item {
    /// The argument of its head, or `u64::MAX` for an indefinite length.
    pub number: u64,
    /// The offset of its first byte.
    pub from: usize,
    /// The offset after its head.
    pub content: usize,
    /// The offset after its last byte.
    pub end: usize,
    /// Its major type, 0 to 7; 8 for a float.
    pub kind: u32,
}

/// The types of data items: the major types (RFC 8949, section 3.1), and one for floats.
#[derive(Clone, Copy, Debug, PartialEq, Eq, Hash)]
pub enum Type {
    Unsigned,
    Negative,
    Bytes,
    Text,
    Array,
    Map,
    Tag,
    Simple,
    Float,
}

impl Item {
    /// Its type.
    pub fn item_type(&self) -> Type {
        match self.kind {
            0 => Type::Unsigned,
            1 => Type::Negative,
            2 => Type::Bytes,
            3 => Type::Text,
            4 => Type::Array,
            5 => Type::Map,
            6 => Type::Tag,
            7 => Type::Simple,
            _ => Type::Float,
        }
    }

    /// Whether it is a string, an array or a map of indefinite length.
    pub fn is_indefinite(&self) -> bool {
        use Type::{Array, Bytes, Map, Text};
        self.number == u64::MAX && matches!(self.item_type(), Bytes | Text | Array | Map)
    }

    /// The integer that it is.
    pub fn integer(&self) -> Option<i128> {
        match self.item_type() {
            Type::Unsigned => Some(self.number.into()),
            Type::Negative => Some(-1 - i128::from(self.number)),
            _ => None,
        }
    }

    /// The boolean that it is.
    pub fn boolean(&self) -> Option<bool> {
        match (self.item_type(), self.number) {
            (Type::Simple, 20) => Some(false),
            (Type::Simple, 21) => Some(true),
            _ => None,
        }
    }

    fn content_in<'a>(&self, bytes: &'a [u8]) -> Option<&'a [u8]> {
        if self.is_indefinite() {
            return None;
        }
        bytes.get(self.content..self.end)
    }

    /// The byte string that it is, if its length is definite.
    pub fn bytes_in<'a>(&self, bytes: &'a [u8]) -> Option<&'a [u8]> {
        match self.item_type() {
            Type::Bytes => self.content_in(bytes),
            _ => None,
        }
    }

    /// The text that it is, if its length is definite.
    pub fn text_in<'a>(&self, bytes: &'a [u8]) -> Option<&'a str> {
        match self.item_type() {
            Type::Text => core::str::from_utf8(self.content_in(bytes)?).ok(),
            _ => None,
        }
    }

    /// The elements of an array, or the keys and values of a map in turn; none of another item.
    pub fn elements_in<'a>(&self, bytes: &'a [u8]) -> Elements<'a> {
        let end = match self.item_type() {
            Type::Array | Type::Map => self.end.saturating_sub(self.is_indefinite().into()),
            _ => self.content,
        };
        Elements { bytes, at: self.content, end }
    }

    /// The value of the map's first member with the key.
    pub fn member_in(&self, bytes: &[u8], key: Key<'_>) -> Option<Item> {
        member(bytes, self.from, key)
    }
}

/// The elements of an array, or the keys and values of a map in turn.
#[derive(Clone, Debug)]
pub struct Elements<'a> {
    bytes: &'a [u8],
    at: usize,
    end: usize,
}

impl Iterator for Elements<'_> {
    type Item = Item;

    fn next(&mut self) -> Option<Item> {
        if self.at >= self.end {
            return None;
        }
        let found = item_at(self.bytes, self.at)?;
        self.at = found.end;
        Some(found)
    }
}

#[cfg(test)]
mod tests {
    use super::*;

    /// What the item at the beginning of these bytes says.
    fn said<T>(bytes: &[u8], what: impl Fn(&Item) -> T) -> T {
        what(&item_at(bytes, 0).unwrap())
    }

    #[test]
    fn numbers() {
        // RFC 8949, appendix A
        assert_eq!(said(b"\x1b\xff\xff\xff\xff\xff\xff\xff\xff", Item::integer), Some(18446744073709551615));
        assert_eq!(said(b"\x3b\xff\xff\xff\xff\xff\xff\xff\xff", Item::integer), Some(-18446744073709551616));
        assert_eq!(said(b"\x39\x03\xe7", Item::integer), Some(-1000));
        assert_eq!(said(b"\x41\x00", Item::integer), None);
        for (bytes, boolean) in [(b"\xf4", Some(false)), (b"\xf5", Some(true)), (b"\xf6", None), (b"\x14", None)] {
            assert_eq!(said(bytes, Item::boolean), boolean);
        }
        assert_eq!(said(b"\xf9\x3c\x00", Item::item_type), Type::Float);
        assert!(!said(b"\x1b\xff\xff\xff\xff\xff\xff\xff\xff", Item::is_indefinite));
    }

    #[test]
    fn strings() {
        for (bytes, string, text) in [
            (&b"\x44\x01\x02\x03\x04\x00"[..], Some(&b"\x01\x02\x03\x04"[..]), None),
            (b"\x64IETF", None, Some("IETF")),
            (b"\x7f\x65strea\x64ming\xff", None, None),
            (b"\x80", None, None),
        ] {
            assert_eq!(said(bytes, |it| it.bytes_in(bytes)), string);
            assert_eq!(said(bytes, |it| it.text_in(bytes)), text);
            assert_eq!(said(bytes, |it| it.bytes_in(b"").or(it.text_in(b"").map(str::as_bytes))), None);
        }
    }

    #[test]
    fn elements() {
        // [1, [2, 3]], in two encodings; {"a": 1, "b": [2, 3]}; and what has no elements
        for (bytes, from) in [
            (&b"\x82\x01\x82\x02\x03"[..], &[1, 2][..]),
            (b"\x9f\x01\x9f\x02\x03\xff\xff", &[1, 2]),
            (b"\xa2\x61a\x01\x61b\x82\x02\x03\x00", &[1, 3, 4, 6]),
            (b"\x80", &[]),
            (b"\x42\x01\x02", &[]),
        ] {
            let item = item_at(bytes, 0).unwrap();
            assert!(item.elements_in(bytes).map(|it| it.from).eq(from.iter().copied()));
            assert_eq!(item.elements_in(b"").next(), None);
        }
        let map = b"\x81\xa1\x61a\x05";
        let inner = item_at(map, 1).unwrap();
        assert_eq!(inner.member_in(map, Key::Name("a")).and_then(|it| it.integer()), Some(5));
        assert_eq!(inner.member_in(map, Key::Number(1)), None);
    }
}

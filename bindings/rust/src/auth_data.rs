//! Authenticator data: where its parts are, and what they say.

use crate::{item_at, Item};

/// The parts of authenticator data, by their offsets; 0 for a part that is absent (WebAuthn Level 3,
/// section 6.1). What ends in `_in` takes the bytes in which they were found, and returns `None` if
/// the part is absent.
#[repr(C)]
#[derive(Clone, Copy, Debug, PartialEq, Eq)]
pub struct AuthData {
    pub aaguid: usize,
    pub credential_id: usize,
    pub credential_id_len: usize,
    pub public_key: usize,
    pub extensions: usize,
    /// The offset after the last part.
    pub end: usize,
    pub counter: u32,
    /// UP 1, UV 4, BE 8, BS 16, AT 64, ED 128.
    pub flags: u32,
}

impl AuthData {
    /// UP: the user was present.
    pub fn is_user_present(&self) -> bool {
        self.flags & 1 != 0
    }

    /// UV: the user was verified.
    pub fn is_user_verified(&self) -> bool {
        self.flags & 4 != 0
    }

    /// BE: the credential may be backed up.
    pub fn is_backup_eligible(&self) -> bool {
        self.flags & 8 != 0
    }

    /// BS: the credential is backed up.
    pub fn is_backed_up(&self) -> bool {
        self.flags & 16 != 0
    }

    /// The SHA-256 hash of the relying party's id.
    pub fn rp_id_hash_in<'a>(&self, bytes: &'a [u8]) -> Option<&'a [u8; 32]> {
        bytes.get(..32)?.try_into().ok()
    }

    /// The AAGUID of the authenticator.
    pub fn aaguid_in<'a>(&self, bytes: &'a [u8]) -> Option<&'a [u8; 16]> {
        part(bytes, self.aaguid, 16)?.try_into().ok()
    }

    /// The credential id.
    pub fn credential_id_in<'a>(&self, bytes: &'a [u8]) -> Option<&'a [u8]> {
        part(bytes, self.credential_id, self.credential_id_len)
    }

    /// The credential public key, a COSE key.
    pub fn public_key_in(&self, bytes: &[u8]) -> Option<Item> {
        map(bytes, self.public_key)
    }

    /// The map of extension outputs.
    pub fn extensions_in(&self, bytes: &[u8]) -> Option<Item> {
        map(bytes, self.extensions)
    }
}

fn part(bytes: &[u8], offset: usize, len: usize) -> Option<&[u8]> {
    match offset {
        0 => None,
        _ => bytes.get(offset..)?.get(..len),
    }
}

fn map(bytes: &[u8], offset: usize) -> Option<Item> {
    match offset {
        0 => None,
        _ => item_at(bytes, offset),
    }
}

#[cfg(test)]
mod tests {
    use crate::{auth_parts, Key};

    #[test]
    fn absent_parts() {
        let data = [0; 37];
        let parts = auth_parts(&data).unwrap();
        assert_eq!((parts.end, parts.counter, parts.is_user_present()), (37, 0, false));
        assert_eq!(parts.rp_id_hash_in(&data), Some(&[0; 32]));
        assert_eq!((parts.aaguid_in(&data), parts.credential_id_in(&data)), (None, None));
        assert_eq!((parts.public_key_in(&data), parts.extensions_in(&data)), (None, None));
        assert_eq!(auth_parts(&data[..36]), None);
    }

    #[test]
    fn parts() {
        // UP, BE, AT and ED; an AAGUID, an id of two bytes, a key {1: 2} and extensions {"a": 1}
        let mut data = [0; 37 + 16 + 4 + 3 + 4];
        data[32] = 0xc9;
        data[37..53].fill(7);
        data[53..].copy_from_slice(b"\x00\x02id\xa1\x01\x02\xa1\x61a\x01");
        let parts = auth_parts(&data).unwrap();
        assert!(parts.is_user_present() && parts.is_backup_eligible());
        assert!(!parts.is_user_verified() && !parts.is_backed_up());
        assert_eq!(parts.aaguid_in(&data), Some(&[7; 16]));
        assert_eq!(parts.credential_id_in(&data), Some(&b"id"[..]));
        let key = parts.public_key_in(&data).unwrap();
        assert_eq!(key.member_in(&data, Key::Number(1)).map(|it| it.number), Some(2));
        let extensions = parts.extensions_in(&data).unwrap();
        assert_eq!(extensions.member_in(&data, Key::Name("a")).map(|it| it.number), Some(1));
        assert_eq!((parts.aaguid_in(&[]), parts.credential_id_in(&[]), parts.public_key_in(&[])), (None, None, None));
    }
}

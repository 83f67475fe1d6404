//! Inputs that are decoded as a kind, encoded again, shown as JSON and explained, and JSON that is
//! encoded: what libpuffgrit has beside the calls that look.

use crate::{Error, Fault, Kind};

/// Which bytes of an input are refused.
#[repr(C)]
#[derive(Clone, Copy, Debug, Default, PartialEq, Eq)]
pub struct Refusal {
    /// The offset of the first byte: of a data item or a map key that is refused, or of where the bytes
    /// aren't well-formed; 0 of a JSON text, all of which it is.
    pub offset: usize,
    /// Their number.
    pub len: usize,
}

extern "C" {
    fn puffgrit_version() -> u32;
    fn puffgrit_rewrite(
        kind: u32,
        input: *const u8,
        input_len: usize,
        read: *mut usize,
        out: *mut u8,
        out_len: usize,
        len: *mut usize,
    ) -> u32;
    fn puffgrit_json(
        kind: u32,
        input: *const u8,
        input_len: usize,
        read: *mut usize,
        out: *mut u8,
        out_len: usize,
        len: *mut usize,
    ) -> u32;
    fn puffgrit_values(
        kind: u32,
        input: *const u8,
        input_len: usize,
        read: *mut usize,
        out: *mut u8,
        out_len: usize,
        len: *mut usize,
    ) -> u32;
    fn puffgrit_encode(
        kind: u32,
        json: *const u8,
        json_len: usize,
        out: *mut u8,
        out_len: usize,
        len: *mut usize,
        why: *mut u8,
        why_len: usize,
        why_size: *mut usize,
    ) -> u32;
    fn puffgrit_explain(
        kind: u32,
        input: *const u8,
        input_len: usize,
        read: *mut usize,
        refusal: *mut Refusal,
        out: *mut u8,
        out_len: usize,
        len: *mut usize,
    ) -> u32;
}

/// A kind, and what is asked of an input beside that the kind accepts it: of data items all three, of
/// authenticator data, structures of a TPM and JSON texts only that no bytes follow.
///
/// ```
/// use puffgrit::{rewrite, Asked, Kind};
///
/// let mut out = [0; 8];
/// let strict = Asked::from(Kind::Cbor).canonical_only().all_bytes();
/// assert!(rewrite(strict, b"\x81\x01", &mut out).is_ok());
/// assert!(rewrite(strict, b"\x81\x18\x01", &mut out).is_err());
/// ```
#[derive(Clone, Copy, Debug, PartialEq, Eq)]
pub struct Asked(u32);

impl From<Kind> for Asked {
    fn from(kind: Kind) -> Asked {
        Asked(kind as u32)
    }
}

impl Asked {
    /// The data item is in CTAP2's canonical form (CTAP 2.2, section 8).
    pub fn canonical_only(self) -> Asked {
        Asked(self.0 | 0x100)
    }

    /// Arrays, maps and tags are inside one another at no more than four levels.
    pub fn four_levels(self) -> Asked {
        Asked(self.0 | 0x200)
    }

    /// No bytes follow what is decoded.
    pub fn all_bytes(self) -> Asked {
        Asked(self.0 | 0x400)
    }
}

/// What was decoded, and what was written of it.
#[derive(Clone, Copy, Debug, PartialEq, Eq)]
pub struct Lengths {
    /// How many bytes of the input were decoded: those of the data item, the message or the
    /// authenticator data at its beginning, or all of a JSON text.
    pub read: usize,
    /// How many bytes were written.
    pub written: usize,
}

/// The version of the library's interface. If it isn't [`VERSION`](crate::VERSION), the library's calls
/// aren't those of this crate.
pub fn version() -> u32 {
    // SAFETY: it takes nothing.
    unsafe { puffgrit_version() }
}

/// Decodes the input as the kind, and writes its encoding to the beginning of the output: CTAP2's
/// canonical form (CTAP 2.1, section 8), or compact JSON. Bytes after a data item, a message or
/// authenticator data are ignored, and don't count as read.
pub fn rewrite(kind: impl Into<Asked>, input: &[u8], out: &mut [u8]) -> Result<Lengths, Error> {
    let (mut read, mut len) = (0, 0);
    let (given, start, room) = (input.as_ptr(), out.as_mut_ptr(), out.len());
    // SAFETY: a slice's pointer isn't null, and is readable for its length; no output overlaps another buffer.
    let status = unsafe { puffgrit_rewrite(kind.into().0, given, input.len(), &mut read, start, room, &mut len) };
    lengths(status, read, len)
}

fn lengths(status: u32, read: usize, len: usize) -> Result<Lengths, Error> {
    match status {
        0 => Ok(Lengths { read, written: len }),
        1 => Err(Error::TooShort(len)),
        _ => Err(Error::from_status(status)),
    }
}

/// Decodes the input as the kind, and writes what is in it as compact JSON to the beginning of the
/// output: members by their names, also those of authenticator data, keys and attestation statements
/// inside a message, and byte strings in base64url without padding.
pub fn json(kind: impl Into<Asked>, input: &[u8], out: &mut [u8]) -> Result<Lengths, Error> {
    let (mut read, mut len) = (0, 0);
    let (given, start, room) = (input.as_ptr(), out.as_mut_ptr(), out.len());
    // SAFETY: as for `rewrite`.
    let status = unsafe { puffgrit_json(kind.into().0, given, input.len(), &mut read, start, room, &mut len) };
    lengths(status, read, len)
}

/// Writes what the kind accepts at the beginning of the input as JSON that stands for it to the
/// beginning of the output, so that [`encode`] encodes it again: a message with its unknown members,
/// authenticator data by their parts, a COSE key by its parameters.
pub fn values(kind: impl Into<Asked>, input: &[u8], out: &mut [u8]) -> Result<Lengths, Error> {
    let (mut read, mut len) = (0, 0);
    let (given, start, room) = (input.as_ptr(), out.as_mut_ptr(), out.len());
    // SAFETY: as for `rewrite`.
    let status = unsafe { puffgrit_values(kind.into().0, given, input.len(), &mut read, start, room, &mut len) };
    lengths(status, read, len)
}

/// Encodes what the JSON is as the kind to the beginning of the output, as [`rewrite`] does of bytes, and
/// returns how many bytes were written. Where a value of the JSON is refused, a text about which and why
/// is written to the beginning of `why`, cut off where that ends, and returned with the error; else that
/// text is empty.
pub fn encode<'a>(kind: Kind, json: &str, out: &mut [u8], why: &'a mut [u8]) -> Result<usize, (Error, &'a str)> {
    let (mut len, mut size) = (0, 0);
    let (given, start, room, told, most) = (json.as_ptr(), out.as_mut_ptr(), out.len(), why.as_mut_ptr(), why.len());
    // SAFETY: as for `rewrite`.
    let status = unsafe { puffgrit_encode(kind as u32, given, json.len(), start, room, &mut len, told, most, &mut size) };
    match status {
        0 => Ok(len),
        1 => Err((Error::TooShort(len), "")),
        _ => Err((Error::from_status(status), text_in(&why[..size.min(most)]))),
    }
}

/// The text in these bytes, which are UTF-8, and may be cut off within a character.
fn text_in(written: &[u8]) -> &str {
    match core::str::from_utf8(written) {
        Ok(text) => text,
        Err(error) => core::str::from_utf8(&written[..error.valid_up_to()]).unwrap_or(""),
    }
}

/// Why an input is rejected.
#[derive(Clone, Copy, Debug, PartialEq, Eq)]
pub struct Explanation<'a> {
    pub fault: Fault,
    /// The number of the message's member that the fault is about.
    pub member: Option<u8>,
    pub refusal: Refusal,
    /// Where in the input and why; cut off where the output ends.
    pub text: &'a str,
}

/// Whether an input is accepted.
#[derive(Clone, Copy, Debug, PartialEq, Eq)]
pub enum Verdict<'a> {
    /// It is: so many of its bytes, as `Lengths::read`.
    Accepted(usize),
    Rejected(Explanation<'a>),
}

/// Explains why the input is rejected as the kind, with a text in the output.
pub fn explain<'a>(kind: impl Into<Asked>, input: &[u8], out: &'a mut [u8]) -> Result<Verdict<'a>, Error> {
    let (mut read, mut len, mut refusal) = (0, 0, Refusal::default());
    let (given, start, room) = (input.as_ptr(), out.as_mut_ptr(), out.len());
    // SAFETY: as for `rewrite`.
    let status = unsafe { puffgrit_explain(kind.into().0, given, input.len(), &mut read, &mut refusal, start, room, &mut len) };
    if status == 0 {
        return Ok(Verdict::Accepted(read));
    }
    let (fault, member) = match Error::from_status(status) {
        Error::Rejected { fault, member } => (fault, member),
        error => return Err(error),
    };
    let text = text_in(&out[..len.min(room)]);
    Ok(Verdict::Rejected(Explanation { fault, member, refusal, text }))
}

#[cfg(test)]
mod tests {
    use super::*;
    use crate::Rule;

    #[test]
    fn versions() {
        assert_eq!(version(), crate::VERSION);
    }

    #[test]
    fn rewrites() {
        let mut out = [0; 16];
        assert_eq!(rewrite(Kind::Cbor, &[0x9f, 0x18, 0x01, 0xff, 0x00], &mut out), Ok(Lengths { read: 4, written: 2 }));
        assert_eq!(out[..3], [0x81, 0x01, 0x00]);
        assert_eq!(rewrite(Kind::Cbor, &[0x81, 0x01], &mut out[..1]), Err(Error::TooShort(2)));
        assert_eq!(rewrite(Kind::GetAssertionRequest, &[0xa0], &mut out), Err(Error::Rejected { fault: Fault::Missing, member: Some(1) }));
        assert_eq!(rewrite(Kind::Request, b"{", &mut out), Err(Error::Rejected { fault: Fault::BadJson, member: None }));
    }

    #[test]
    fn asks() {
        let mut out = [0; 80];
        let kind = Asked::from(Kind::Cbor);
        let refused = |rule| Err(Error::Rejected { fault: Fault::NotCanonical(Some(rule)), member: None });
        assert_eq!(rewrite(kind.canonical_only(), b"\x81\x18\x01", &mut out), refused(Rule::ShortestHead));
        assert_eq!(json(kind.four_levels(), b"\x81\x81\x81\x81\x80", &mut out), refused(Rule::Levels));
        assert_eq!(values(kind.all_bytes(), b"\x01\x02", &mut out), refused(Rule::NothingAfter));
        assert_eq!(rewrite(kind.four_levels().all_bytes(), b"\x81\x18\x01", &mut out), Ok(Lengths { read: 3, written: 2 }));
        let Ok(Verdict::Rejected(told)) = explain(kind.canonical_only(), b"\x81\x18\x01", &mut out) else { panic!("accepted") };
        assert_eq!((told.fault, told.refusal), (Fault::NotCanonical(Some(Rule::ShortestHead)), Refusal { offset: 1, len: 2 }));
        assert_eq!(told.text, "this number or length could be encoded in fewer bytes (offset 1)");
    }

    #[test]
    fn encodes() {
        let (mut out, mut why) = ([0; 32], [0; 80]);
        let text = br#"{"subCommand":2}"#;
        let request = [0xa1, 0x02, 0x02];
        assert_eq!(values(Kind::ClientPinRequest, &request, &mut out), Ok(Lengths { read: 3, written: text.len() }));
        assert_eq!(out[..text.len()], text[..]);
        assert_eq!(encode(Kind::ClientPinRequest, r##"{ "subCommand": 2, "#1": 1 }"##, &mut out, &mut why), Ok(5));
        assert_eq!(out[..5], [0xa2, 0x01, 0x01, 0x02, 0x02]);
        assert_eq!(encode(Kind::ClientPinRequest, r#"{"subCommand":2}"#, &mut [0; 2], &mut why), Err((Error::TooShort(3), "")));
        for (json, fault, member, told) in [
            (r#"{"subCommand":9,"permissions":"3"}"#, Fault::Refused, Some(9), "permissions: an unsigned integer below 4294967296 is wanted"),
            (r#"{"subCommand":{"$bytes":1}}"#, Fault::NoItem, None, "subCommand.$bytes: a string is wanted"),
            ("{", Fault::BadJson, None, ""),
        ] {
            assert_eq!(encode(Kind::ClientPinRequest, json, &mut out, &mut why), Err((Error::Rejected { fault, member }, told)));
        }
        let no_bytes = Error::Rejected { fault: Fault::NoItem, member: None };
        assert_eq!(encode(Kind::TpmPubArea, "{}", &mut out, &mut why), Err((no_bytes, "bytes in base64url are wanted")));
    }

    #[test]
    fn examines() {
        let info = b"\xa2\x01\x81\x68FIDO_2_0\x03\x50\0\0\0\0\0\0\0\0\0\0\0\0\0\0\0\0";
        let text = br#"{"versions":["FIDO_2_0"],"aaguid":"00000000-0000-0000-0000-000000000000"}"#;
        let mut out = [0; 128];
        assert_eq!(json(Kind::Info, info, &mut out), Ok(Lengths { read: info.len(), written: text.len() }));
        assert_eq!(out[..text.len()], text[..]);
        let Ok(Verdict::Rejected(told)) = explain(Kind::Request, b"{}", &mut out) else { panic!("accepted") };
        assert_eq!((told.fault, told.member, told.refusal), (Fault::Missing, None, Refusal { offset: 0, len: 2 }));
        assert_eq!(told.text, "publicKey is missing");
        assert_eq!(explain(Kind::Info, info, &mut out), Ok(Verdict::Accepted(info.len())));
        assert_eq!(explain(Kind::Auth, &[0; 38], &mut out), Ok(Verdict::Accepted(37)));
        for (given, fault, member, offset, len) in [
            (&info[..12], Fault::DecodeFailed, None, 12, 0),
            (b"\xa1\x01\x05", Fault::Refused, Some(1), 2, 1),
        ] {
            let Ok(Verdict::Rejected(told)) = explain(Kind::Info, given, &mut out) else { panic!("accepted") };
            assert_eq!((told.fault, told.member, told.refusal), (fault, member, Refusal { offset, len }));
        }
        let Ok(Verdict::Rejected(told)) = explain(Kind::Info, b"\xa1\x01\x05", &mut out) else { panic!("accepted") };
        assert!(told.text.starts_with("versions: "));
    }
}

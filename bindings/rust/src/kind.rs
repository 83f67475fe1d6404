//! The kinds of input. Made by `tools/header`.

/// What an input is decoded as: bytes, JSON texts from `Creation` to `ClientData`, and other kinds
/// of bytes.
#[repr(u32)]
#[derive(Clone, Copy, Debug, PartialEq, Eq)]
pub enum Kind {
    /// A CBOR data item.
    Cbor = 1,
    /// Authenticator data.
    Auth = 2,
    /// An authenticatorMakeCredential request.
    MakeCredentialRequest = 3,
    /// An authenticatorMakeCredential response.
    MakeCredentialResponse = 4,
    /// An authenticatorGetAssertion request.
    GetAssertionRequest = 5,
    /// An authenticatorGetAssertion response.
    GetAssertionResponse = 6,
    /// An authenticatorGetInfo response.
    Info = 7,
    /// The input of the extension hmac-secret.
    HmacInput = 8,
    /// The options of a registration.
    Creation = 9,
    /// The options of a sign-in.
    Request = 10,
    /// The credential that a browser returns at a registration.
    Created = 11,
    /// The credential that a browser returns at a sign-in.
    Authenticated = 12,
    /// Collected client data.
    ClientData = 13,
    /// An authenticatorClientPIN request (CTAP 2.1, section 6.5).
    ClientPinRequest = 14,
    /// An authenticatorClientPIN response.
    ClientPinResponse = 15,
    /// An authenticatorBioEnrollment request (CTAP 2.1, section 6.7).
    BioEnrollmentRequest = 16,
    /// An authenticatorBioEnrollment response.
    BioEnrollmentResponse = 17,
    /// An authenticatorCredentialManagement request (CTAP 2.1, section 6.8).
    CredentialManagementRequest = 18,
    /// An authenticatorCredentialManagement response.
    CredentialManagementResponse = 19,
    /// An authenticatorLargeBlobs request (CTAP 2.1, section 6.10).
    LargeBlobsRequest = 20,
    /// An authenticatorLargeBlobs response.
    LargeBlobsResponse = 21,
    /// An entry of the large-blob array.
    LargeBlobsEntry = 22,
    /// An authenticatorConfig request (CTAP 2.1, section 6.11).
    ConfigRequest = 23,
    /// Parameters of setMinPINLength.
    ConfigMinPinLength = 24,
    /// Parameters of vendorPrototype.
    ConfigVendor = 25,
    /// A COSE key (RFC 9052, section 7).
    CoseKey = 26,
    /// An authenticatorGetInfo response with the members and names of CTAP 2.3.
    Info23 = 27,
    /// Extension inputs of an authenticatorMakeCredential request (CTAP 2.1, section 12).
    MakeCredentialInputs = 28,
    /// Extension outputs of authenticatorMakeCredential in authenticator data.
    MakeCredentialOutputs = 29,
    /// Unsigned extension outputs of an authenticatorMakeCredential response.
    MakeCredentialUnsigned = 30,
    /// Extension inputs of an authenticatorGetAssertion request.
    GetAssertionInputs = 31,
    /// Extension outputs of authenticatorGetAssertion in authenticator data.
    GetAssertionOutputs = 32,
    /// Unsigned extension outputs of an authenticatorGetAssertion response.
    GetAssertionUnsigned = 33,
    /// An attestation statement of the format packed (WebAuthn Level 3, section 8.2).
    PackedStatement = 34,
    /// An attestation statement of the format tpm (section 8.3).
    TpmStatement = 35,
    /// An attestation statement of the format android-key (section 8.4).
    AndroidKeyStatement = 36,
    /// An attestation statement of the format android-safetynet (section 8.5).
    AndroidSafetyNetStatement = 37,
    /// An attestation statement of the format fido-u2f (section 8.6).
    FidoU2fStatement = 38,
    /// An attestation statement of the format none (section 8.7).
    NoneStatement = 39,
    /// An attestation statement of the format apple (section 8.8).
    AppleStatement = 40,
    /// An attestation statement of the format compound (section 8.9).
    CompoundStatement = 41,
    /// `certInfo` of a tpm attestation statement (TPM 2.0 Library, Part 2).
    TpmCertInfo = 42,
    /// `pubArea` of a tpm attestation statement.
    TpmPubArea = 43,
    /// An authenticatorMakeCredential request by the standard alone (CTAP 2.2, section 6.1).
    CtapMcRequest = 44,
    /// An authenticatorGetAssertion request by the standard alone (CTAP 2.2, section 6.2).
    CtapGaRequest = 45,
    /// An authenticatorMakeCredential response by the standard alone (CTAP 2.2, section 6.1).
    CtapMcResponse = 46,
    /// An authenticatorGetAssertion response by the standard alone (CTAP 2.2, section 6.2).
    CtapGaResponse = 47,
    /// An attestation object (WebAuthn Level 3, section 6.5.4).
    AttestationObject = 48,
}

"""The members of messages, as `decode` gives them if it is exact, and `encode` takes them: by their kinds, as Rust's names have them.
Which are required isn't said, and unknown members may be there, too. Made by tools/header."""

from typing import Any, TypedDict, Union
from uuid import UUID


class RpEntity(TypedDict, total=False):
    """The relying party of a credential (CTAP 2.2, section 6.1)."""

    id: str
    name: str


class UserEntity(TypedDict, total=False):
    """The user account that a credential is for (CTAP 2.2, section 6.1)."""

    id: bytes
    name: str
    displayName: str


class CredentialDescriptor(TypedDict, total=False):
    """A credential by its id (WebAuthn Level 3, section 5.8.3)."""

    id: bytes
    type: str
    transports: list[str]


class CredentialParameters(TypedDict, total=False):
    """A credential type with an algorithm, registered or not (WebAuthn Level 3, section 5.3)."""

    alg: Union[int, str]
    type: str


class RequestOptions(TypedDict, total=False):
    """The options of an authenticatorMakeCredential or authenticatorGetAssertion request (CTAP 2.2, sections 6.1 and 6.2)."""

    rk: bool
    up: bool
    uv: bool


class Info23(TypedDict, total=False):
    """An authenticatorGetInfo response with the members and names of CTAP 2.3."""

    versions: list[str]
    extensions: list[str]
    aaguid: UUID
    options: dict[str, bool]
    maxMsgSize: int
    pinUvAuthProtocols: list[int]
    maxCredentialCountInList: int
    maxCredentialIdLength: int
    transports: list[str]
    algorithms: list[CredentialParameters]
    maxSerializedLargeBlobArray: int
    forcePINChange: bool
    minPINLength: int
    firmwareVersion: int
    maxCredBlobLength: int
    maxRPIDsForSetMinPINLength: int
    preferredPlatformUvAttempts: int
    uvModality: int
    certifications: Any
    remainingDiscoverableCredentials: int
    vendorPrototypeConfigCommands: list[int]
    attestationFormats: list[str]
    uvCountSinceLastPinEntry: int
    longTouchForReset: bool
    encIdentifier: bytes
    transportsForReset: list[str]
    pinComplexityPolicy: bool
    pinComplexityPolicyURL: bytes
    maxPINLength: int
    encCredStoreState: bytes
    authenticatorConfigCommands: list[int]


class CtapMcRequest(TypedDict, total=False):
    """An authenticatorMakeCredential request by the standard alone (CTAP 2.2, section 6.1)."""

    clientDataHash: bytes
    rp: RpEntity
    user: UserEntity
    pubKeyCredParams: list[CredentialParameters]
    excludeList: list[CredentialDescriptor]
    extensions: Any
    options: RequestOptions
    pinUvAuthParam: bytes
    pinUvAuthProtocol: int
    enterpriseAttestation: int
    attestationFormatsPreference: list[str]


class CtapGaRequest(TypedDict, total=False):
    """An authenticatorGetAssertion request by the standard alone (CTAP 2.2, section 6.2)."""

    rpId: str
    clientDataHash: bytes
    allowList: list[CredentialDescriptor]
    extensions: Any
    options: RequestOptions
    pinUvAuthParam: bytes
    pinUvAuthProtocol: int
    enterpriseAttestation: int
    attestationFormatsPreference: list[str]


class CtapMcResponse(TypedDict, total=False):
    """An authenticatorMakeCredential response by the standard alone (CTAP 2.2, section 6.1)."""

    fmt: str
    authData: bytes
    attStmt: Any
    epAtt: bool
    largeBlobKey: bytes
    unsignedExtensionOutputs: Any


class CtapGaResponse(TypedDict, total=False):
    """An authenticatorGetAssertion response by the standard alone (CTAP 2.2, section 6.2)."""

    credential: CredentialDescriptor
    authData: bytes
    signature: bytes
    user: UserEntity
    numberOfCredentials: int
    userSelected: bool
    largeBlobKey: bytes
    unsignedExtensionOutputs: Any
    epAtt: bool
    attStmt: Any


class MakeCredentialRequest(TypedDict, total=False):
    """An authenticatorMakeCredential request."""

    clientDataHash: bytes
    rp: Any
    user: Any
    pubKeyCredParams: list[Any]
    excludeList: list[Any]
    extensions: Any
    options: dict[str, bool]
    pinAuth: bytes
    pinProtocol: int


class MakeCredentialResponse(TypedDict, total=False):
    """An authenticatorMakeCredential response."""

    fmt: str
    authData: bytes
    attStmt: Any
    epAtt: bool
    largeBlobKey: bytes
    unsignedExtensionOutputs: Any


class GetAssertionRequest(TypedDict, total=False):
    """An authenticatorGetAssertion request."""

    rpId: str
    clientDataHash: bytes
    allowList: list[Any]
    extensions: Any
    options: dict[str, bool]
    pinAuth: bytes
    pinProtocol: int


class GetAssertionResponse(TypedDict, total=False):
    """An authenticatorGetAssertion response."""

    credential: Any
    authData: bytes
    signature: bytes
    user: Any
    numberOfCredentials: int
    userSelected: bool
    largeBlobKey: bytes
    unsignedExtensionOutputs: Any


class Info(TypedDict, total=False):
    """An authenticatorGetInfo response."""

    versions: list[Any]
    extensions: list[Any]
    aaguid: UUID
    options: dict[str, bool]
    maxMsgSize: int
    pinProtocols: list[int]
    transports: list[Any]
    algorithms: list[Any]
    macSerializedLargeBlobArray: int
    forcePinChange: bool
    minPinLength: int
    firmwareVersion: int
    maxCredBlobLength: int
    maxRpidsForSetMinPinLength: int
    preferredPlatformUvAttempts: int
    uvModality: int
    certifications: Any
    remainingDiscoverableCredentials: int
    vendorPrototypeConfigCommands: list[int]
    attestationFormats: list[str]
    uvCountSinceLastPinEntry: int
    longTouchForReset: bool
    encIdentifier: bytes
    transportsForReset: list[Any]
    pinComplexityPolicy: bool
    pinComplexityPolicyUrl: bytes
    maxPinLength: int


class ClientPinRequest(TypedDict, total=False):
    """An authenticatorClientPIN request (CTAP 2.1, section 6.5)."""

    pinUvAuthProtocol: int
    subCommand: int
    keyAgreement: Any
    pinUvAuthParam: bytes
    newPinEnc: bytes
    pinHashEnc: bytes
    permissions: int
    rpId: str


class ClientPinResponse(TypedDict, total=False):
    """An authenticatorClientPIN response."""

    keyAgreement: Any
    pinUvAuthToken: bytes
    pinRetries: int
    powerCycleState: bool
    uvRetries: int


class BioEnrollmentRequest(TypedDict, total=False):
    """An authenticatorBioEnrollment request (CTAP 2.1, section 6.7)."""

    modality: int
    subCommand: int
    subCommandParams: Any
    pinUvAuthProtocol: int
    pinUvAuthParam: bytes
    getModality: bool


class BioEnrollmentResponse(TypedDict, total=False):
    """An authenticatorBioEnrollment response."""

    modality: int
    fingerprintKind: int
    maxCaptureSamplesRequiredForEnroll: int
    templateId: bytes
    lastEnrollSampleStatus: int
    remainingSamples: int
    templateInfos: list[Any]
    maxTemplateFriendlyName: int


class CredentialManagementRequest(TypedDict, total=False):
    """An authenticatorCredentialManagement request (CTAP 2.1, section 6.8)."""

    subCommand: int
    subCommandParams: Any
    pinUvAuthProtocol: int
    pinUvAuthParam: bytes


class CredentialManagementResponse(TypedDict, total=False):
    """An authenticatorCredentialManagement response."""

    existingResidentCredentialsCount: int
    maxPossibleRemainingResidentCredentialsCount: int
    rp: Any
    rpIDHash: bytes
    totalRPs: int
    user: Any
    credentialID: Any
    publicKey: Any
    totalCredentials: int
    credProtect: int
    largeBlobKey: bytes
    thirdPartyPayment: bool


class LargeBlobsRequest(TypedDict, total=False):
    """An authenticatorLargeBlobs request (CTAP 2.1, section 6.10)."""

    get: int
    set: bytes
    offset: int
    length: int
    pinUvAuthParam: bytes
    pinUvAuthProtocol: int


class LargeBlobsResponse(TypedDict, total=False):
    """An authenticatorLargeBlobs response."""

    config: bytes


class ConfigRequest(TypedDict, total=False):
    """An authenticatorConfig request (CTAP 2.1, section 6.11)."""

    subCommand: int
    subCommandParams: Any
    pinUvAuthProtocol: int
    pinUvAuthParam: bytes

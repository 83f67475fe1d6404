"""A virtual authenticator (CTAP 2.2), whose messages are decoded and encoded by puffgrit alone: authenticatorMakeCredential, GetAssertion,
GetNextAssertion, GetInfo and ClientPIN with both PIN/UV auth protocols. It keeps all in memory, and its user always agrees. Needs
cryptography; ceremonies.py registers and signs in through it.
"""

import os
import uuid
from enum import IntEnum
from hashlib import sha256

from cryptography.hazmat.primitives import hashes, hmac
from cryptography.hazmat.primitives.asymmetric import ec
from cryptography.hazmat.primitives.ciphers import Cipher, algorithms, modes
from cryptography.hazmat.primitives.kdf.hkdf import HKDF

import puffgrit

AAGUID = uuid.UUID("5ca1ab1e-0000-4000-8000-000000000001")
ES256, ECDH_ES_HKDF_256 = -7, -25

# The permissions of a token (CTAP 2.2, section 6.5.5.7).
MAKE_CREDENTIAL, GET_ASSERTION = 1, 2

# The kinds of the request and of the response, by the command.
KINDS = {
    1: ("ctap-mc-request", "mc-response"), 2: ("ctap-ga-request", "ga-response"), 4: (None, "info-23"), 6: ("pin-request", "pin-response"),
    8: (None, "ga-response"),
}  # fmt: skip


class Status(IntEnum):
    """Status codes of CTAP 2.2, section 8.2."""

    INVALID_COMMAND = 0x01
    INVALID_PARAMETER = 0x02
    CBOR_UNEXPECTED_TYPE = 0x11
    INVALID_CBOR = 0x12
    MISSING_PARAMETER = 0x14
    CREDENTIAL_EXCLUDED = 0x19
    UNSUPPORTED_ALGORITHM = 0x26
    INVALID_OPTION = 0x2C
    NO_CREDENTIALS = 0x2E
    NOT_ALLOWED = 0x30
    PIN_INVALID = 0x31
    PIN_BLOCKED = 0x32
    PIN_AUTH_INVALID = 0x33
    PIN_AUTH_BLOCKED = 0x34
    PIN_NOT_SET = 0x35
    PUAT_REQUIRED = 0x36
    PIN_POLICY_VIOLATION = 0x37
    INVALID_SUBCOMMAND = 0x3E


# The statuses of puffgrit's faults; of others, CBOR_UNEXPECTED_TYPE.
STATUSES = {"DecodeFailed": Status.INVALID_CBOR, "Missing": Status.MISSING_PARAMETER}


class Refused(Exception):
    """A request is answered with this status."""

    def __init__(self, status):
        super().__init__(status)
        self.status = status


def want(right, status):
    if not right:
        raise Refused(status)


def new_key():
    return ec.generate_private_key(ec.SECP256R1())


def cose_key(private, algorithm):
    """The public key (RFC 9053, section 7.1.1)."""
    numbers = private.public_key().public_numbers()
    return {1: 2, 3: algorithm, -1: 1, -2: numbers.x.to_bytes(32, "big"), -3: numbers.y.to_bytes(32, "big")}


class Protocol:
    """A PIN/UV auth protocol, 1 or 2 (CTAP 2.2, sections 6.5.6 and 6.5.7)."""

    def __init__(self, number):
        self.number, self.private, self.token = number, new_key(), os.urandom(32)

    def secret(self, key):
        """The keys that authenticate and encrypt, shared with the owner of this COSE key."""
        want(isinstance(key, dict) and all(isinstance(key.get(it), bytes) for it in (-2, -3)), Status.INVALID_PARAMETER)
        try:
            public = ec.EllipticCurvePublicNumbers(*(int.from_bytes(key[it], "big") for it in (-2, -3)), ec.SECP256R1()).public_key()
        except ValueError:
            raise Refused(Status.INVALID_PARAMETER) from None
        z = self.private.exchange(ec.ECDH(), public)
        if self.number == 1:
            return [sha256(z).digest()] * 2
        return [HKDF(hashes.SHA256(), 32, bytes(32), info).derive(z) for info in (b"CTAP2 HMAC key", b"CTAP2 AES key")]

    def verify(self, key, message, param):
        mac = hmac.HMAC(key, hashes.SHA256())
        mac.update(message)
        want(param == mac.finalize()[: 16 * self.number], Status.PIN_AUTH_INVALID)

    def encrypt(self, key, text):
        start = os.urandom(16) if self.number == 2 else b""
        cipher = Cipher(algorithms.AES(key), modes.CBC(start or bytes(16))).encryptor()
        return start + cipher.update(text) + cipher.finalize()

    def decrypt(self, key, text):
        start, text = (text[:16], text[16:]) if self.number == 2 else (bytes(16), text)
        want(len(start) == 16 and len(text) % 16 == 0, Status.INVALID_PARAMETER)
        cipher = Cipher(algorithms.AES(key), modes.CBC(start)).decryptor()
        return cipher.update(text) + cipher.finalize()


class Credential:
    def __init__(self, rp_id, user, is_discoverable):
        self.rp_id, self.user, self.is_discoverable = rp_id, user, is_discoverable
        self.id, self.private, self.count = os.urandom(32), new_key(), 0

    def data(self, flags, attested=b""):
        """Authenticator data (WebAuthn Level 3, section 6.1)."""
        self.count += 1
        return sha256(self.rp_id.encode()).digest() + bytes([flags]) + self.count.to_bytes(4, "big") + attested

    def attested(self):
        return AAGUID.bytes + len(self.id).to_bytes(2, "big") + self.id + puffgrit.encode("cbor", cose_key(self.private, ES256))

    def signature(self, data, client_data_hash):
        return self.private.sign(data + client_data_hash, ec.ECDSA(hashes.SHA256()))


class Authenticator:
    """An authenticator for the PIN/UV auth protocols with these numbers, with or without the permissions of CTAP 2.1."""

    def __init__(self, protocols, has_permissions):
        self.protocols, self.has_permissions = {it: Protocol(it) for it in protocols}, has_permissions
        self.credentials, self.next = [], []
        self.pin_hash, self.retries, self.misses = None, 8, 0
        self.permissions, self.permitted_rp = 0, None

    def call(self, request):
        """Answers a request, which begins with the command, with the status and the response."""
        commands = {1: self.make_credential, 2: self.get_assertion, 4: self.get_info, 6: self.client_pin, 8: self.get_next_assertion}
        try:
            want(request[0] in commands, Status.INVALID_COMMAND)
            command, (kind, answer) = commands[request[0]], KINDS[request[0]]
            want(puffgrit.is_canonical(request[1:]) if kind else len(request) == 1, Status.INVALID_CBOR)
            # encoded again, a member has its number and its own type, and unknown ones are left out
            told = command(puffgrit.decode(kind, puffgrit.rewrite(kind, request[1:]), exact=True)) if kind else command()
        except Refused as refused:
            return bytes([refused.status])
        except puffgrit.Fault as fault:
            return bytes([STATUSES.get(fault.name, Status.CBOR_UNEXPECTED_TYPE)])
        return b"\0" + (puffgrit.encode(answer, told) if told else b"")

    def get_info(self):
        options = {"rk": True, "up": True, "clientPin": self.pin_hash is not None}
        return {
            "versions": ["FIDO_2_0", "FIDO_2_1"],
            "aaguid": AAGUID,
            "options": {**options, "pinUvAuthToken": True} if self.has_permissions else options,
            "maxMsgSize": 1200,
            "pinUvAuthProtocols": list(self.protocols),
            "algorithms": [{"alg": ES256, "type": "public-key"}],
        }

    def protocol(self, asked):
        want("pinUvAuthProtocol" in asked, Status.MISSING_PARAMETER)
        want(asked["pinUvAuthProtocol"] in self.protocols, Status.INVALID_PARAMETER)
        return self.protocols[asked["pinUvAuthProtocol"]]

    def flags(self, asked, rp_id, permission):
        """The flags UP and UV: the user is verified by the PIN, if at all, and present (CTAP 2.2, sections 6.1.2 and 6.2.2)."""
        options = asked.get("options", {})
        want(not options.get("uv"), Status.INVALID_OPTION)
        if "pinUvAuthParam" not in asked:
            want(self.pin_hash is None or permission == GET_ASSERTION, Status.PUAT_REQUIRED)
            return 1 if options.get("up", True) else 0
        want(asked["pinUvAuthParam"], Status.PIN_NOT_SET if self.pin_hash is None else Status.PIN_INVALID)
        protocol = self.protocol(asked)
        protocol.verify(protocol.token, asked["clientDataHash"], asked["pinUvAuthParam"])
        want(self.permissions & permission and self.permitted_rp in (None, rp_id), Status.PIN_AUTH_INVALID)
        return 5 if options.get("up", True) else 4

    def make_credential(self, asked):
        rp_id, options = asked["rp"]["id"], asked.get("options", {})
        want({"alg": ES256, "type": "public-key"} in asked["pubKeyCredParams"], Status.UNSUPPORTED_ALGORITHM)
        want(options.get("up", True), Status.INVALID_OPTION)
        flags = self.flags(asked, rp_id, MAKE_CREDENTIAL)
        excluded = [it["id"] for it in asked.get("excludeList", [])]
        want(not any(it.rp_id == rp_id and it.id in excluded for it in self.credentials), Status.CREDENTIAL_EXCLUDED)
        made = Credential(rp_id, asked["user"], options.get("rk", False))
        others = [it for it in self.credentials if not it.is_discoverable or (it.rp_id, it.user["id"]) != (rp_id, made.user["id"])]
        self.credentials = [made, *(others if made.is_discoverable else self.credentials)]
        data = made.data(0x40 | flags, made.attested())
        return {"fmt": "packed", "authData": data, "attStmt": {"alg": ES256, "sig": made.signature(data, asked["clientDataHash"])}}

    def get_assertion(self, asked):
        want("rk" not in asked.get("options", {}), Status.INVALID_OPTION)
        flags = self.flags(asked, asked["rpId"], GET_ASSERTION)
        allowed = [it["id"] for it in asked["allowList"]] if "allowList" in asked else None
        known = [it for it in self.credentials if it.rp_id == asked["rpId"]]
        found = [it for it in known if (it.is_discoverable if allowed is None else it.id in allowed)]
        want(found, Status.NO_CREDENTIALS)
        self.next = [(it, flags, asked["clientDataHash"]) for it in found[: None if allowed is None else 1]]
        return {**self.get_next_assertion(), **({"numberOfCredentials": len(self.next) + 1} if self.next else {})}

    def get_next_assertion(self):
        want(self.next, Status.NOT_ALLOWED)
        credential, flags, client_data_hash = self.next.pop(0)
        data = credential.data(flags)
        told = {"credential": {"id": credential.id, "type": "public-key"}, "authData": data}
        told["signature"] = credential.signature(data, client_data_hash)
        if credential.is_discoverable:
            told["user"] = credential.user if flags & 4 else {"id": credential.user["id"]}
        return told

    def client_pin(self, asked):
        commands = {1: self.pin_retries, 2: self.key_agreement, 3: self.set_pin, 4: self.change_pin, 5: self.pin_token}
        if self.has_permissions:
            commands[9] = self.pin_token
        want(asked["subCommand"] in commands, Status.INVALID_SUBCOMMAND)
        return commands[asked["subCommand"]](asked)

    def pin_retries(self, _asked):
        return {"pinRetries": self.retries, "powerCycleState": self.misses == 3}

    def key_agreement(self, asked):
        return {"keyAgreement": cose_key(self.protocol(asked).private, ECDH_ES_HKDF_256)}

    def set_pin(self, asked):
        want({"keyAgreement", "newPinEnc", "pinUvAuthParam"} <= asked.keys(), Status.MISSING_PARAMETER)
        want(self.pin_hash is None, Status.PIN_AUTH_INVALID)
        protocol = self.protocol(asked)
        keys = protocol.secret(asked["keyAgreement"])
        protocol.verify(keys[0], asked["newPinEnc"], asked["pinUvAuthParam"])
        self.take_pin(protocol.decrypt(keys[1], asked["newPinEnc"]))

    def change_pin(self, asked):
        want({"keyAgreement", "newPinEnc", "pinHashEnc", "pinUvAuthParam"} <= asked.keys(), Status.MISSING_PARAMETER)
        protocol = self.protocol(asked)
        keys = protocol.secret(asked["keyAgreement"])
        protocol.verify(keys[0], asked["newPinEnc"] + asked["pinHashEnc"], asked["pinUvAuthParam"])
        self.check_pin(protocol, keys[1], asked["pinHashEnc"])
        self.take_pin(protocol.decrypt(keys[1], asked["newPinEnc"]))

    def take_pin(self, padded):
        want(len(padded) == 64, Status.INVALID_PARAMETER)
        pin = padded.rstrip(b"\0")
        want(4 <= len(pin.decode(errors="replace")) and len(pin) < 64, Status.PIN_POLICY_VIOLATION)
        self.pin_hash, self.retries, self.misses = sha256(pin).digest()[:16], 8, 0

    def check_pin(self, protocol, key, pin_hash_enc):
        want(self.pin_hash, Status.PIN_NOT_SET)
        want(self.retries, Status.PIN_BLOCKED)
        want(self.misses < 3, Status.PIN_AUTH_BLOCKED)
        self.retries -= 1
        if protocol.decrypt(key, pin_hash_enc) != self.pin_hash:
            protocol.private, self.misses = new_key(), self.misses + 1
            raise Refused(Status.PIN_BLOCKED if self.retries == 0 else Status.PIN_AUTH_BLOCKED if self.misses == 3 else Status.PIN_INVALID)
        self.retries, self.misses = 8, 0

    def pin_token(self, asked):
        """getPinToken, and getPinUvAuthTokenUsingPinWithPermissions (CTAP 2.2, sections 6.5.5.7.1 and 6.5.5.7.2)."""
        with_permissions = asked["subCommand"] == 9
        want({"keyAgreement", "pinHashEnc", *(["permissions"] if with_permissions else [])} <= asked.keys(), Status.MISSING_PARAMETER)
        want(with_permissions or not {"permissions", "rpId"} & asked.keys(), Status.INVALID_PARAMETER)
        want(asked.get("permissions") != 0, Status.INVALID_PARAMETER)
        protocol = self.protocol(asked)
        keys = protocol.secret(asked["keyAgreement"])
        self.check_pin(protocol, keys[1], asked["pinHashEnc"])
        self.permissions, self.permitted_rp = asked.get("permissions", MAKE_CREDENTIAL | GET_ASSERTION), asked.get("rpId")
        protocol.token = os.urandom(32)
        return {"pinUvAuthToken": protocol.encrypt(keys[1], protocol.token)}

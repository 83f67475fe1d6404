"""Ceremonies of python-fido2's client and server through the virtual authenticator of authenticator.py: without a PIN and with one, by each
PIN/UV auth protocol, with and without permissions, and requests that have to be refused.

Each message that python-fido2 encodes has to come back the same, decoded exactly and encoded. Ends with status 0 if all is as it should be;
and, saying so, where python-fido2 0.9 and cryptography (Debian's python3-fido2) aren't installed.
"""

import sys

import puffgrit

try:
    from fido2.attestation import PackedAttestation
    from fido2.client import ClientError, Fido2Client
    from fido2.ctap import CtapDevice, CtapError
    from fido2.ctap2 import AssertionResponse, AttestationObject, ClientPin, Info, PinProtocolV1, PinProtocolV2
    from fido2.hid import CAPABILITY
    from fido2.server import Fido2Server
except ImportError as error:
    print(f"the virtual authenticator isn't tried, which needs python3-fido2 0.9: {error}")
    sys.exit(0)

from authenticator import ES256, GET_ASSERTION, KINDS, MAKE_CREDENTIAL, Authenticator, Status

same = 0


def come_back(kind, data):
    """The message, decoded exactly and encoded, is the same."""
    global same
    assert puffgrit.encode(kind, puffgrit.decode(kind, data, exact=True)) == data, (kind, data.hex())
    same += 1


class Device(CtapDevice):
    """The authenticator as a device of python-fido2's."""

    capabilities = CAPABILITY.CBOR

    def __init__(self, authenticator):
        self.authenticator = authenticator

    def call(self, cmd, data=b"", event=None, on_keepalive=None):
        answer = self.authenticator.call(data)
        for kind, message in zip(KINDS[data[0]], [data[1:], answer[1:]]):
            if message:
                come_back(kind, message)
        return answer

    @classmethod
    def list_devices(cls):
        return iter([])


def verified(attestation_object, client_data_hash):
    PackedAttestation().verify(attestation_object.att_statement, attestation_object.auth_data, client_data_hash)


class Site:
    """A relying party at which python-fido2's client registers and signs in, with this PIN or without one."""

    def __init__(self, authenticator, protocol):
        self.server = Fido2Server({"id": "example.org", "name": "Example"}, attestation="direct", verify_attestation=verified)
        self.client = Fido2Client(Device(authenticator), "https://login.example.org")
        self.client.client_pin = ClientPin(self.client.ctap2, protocol)
        self.pin, self.registered = None, []

    def register(self, user, **more):
        options, state = self.server.register_begin(user, user_verification="required" if self.pin else "discouraged", **more)
        made = self.client.make_credential(options["publicKey"], pin=self.pin)
        self.registered.append(self.server.register_complete(state, made.client_data, made.attestation_object).credential_data)

    def sign_in(self, allowed=None):
        """The ids of the users whose credentials sign."""
        options, state = self.server.authenticate_begin(allowed, user_verification="required" if self.pin else "discouraged")
        selection, users = self.client.get_assertion(options["publicKey"], pin=self.pin), []
        for index in range(len(selection.get_assertions())):
            it = selection.get_response(index)
            signed = it.client_data, it.authenticator_data, it.signature
            self.server.authenticate_complete(state, self.registered, it.credential_id, *signed)
            users.append(it.user_handle)
        return users


def refused(code, call, *given, **more):
    """The call ends with the authenticator's status."""
    try:
        call(*given, **more)
    except (CtapError, ClientError) as error:
        found = error.cause if isinstance(error, ClientError) else error
        assert found.code == code, (found, code)
    else:
        raise AssertionError(f"not refused with {code:02x}")


def ceremonies(authenticator, protocol):
    site = Site(authenticator, protocol)
    pin, ctap = site.client.client_pin, site.client.ctap2
    users = [{"id": bytes([it]), "name": f"user {it}", "displayName": "\u00dcser"} for it in range(3)]

    # without a PIN: a credential that the site names, an excluded one, and two that the authenticator finds
    refused(Status.NO_CREDENTIALS, site.sign_in)
    site.register(users[0])
    assert site.sign_in(site.registered) == [None]
    refused(Status.CREDENTIAL_EXCLUDED, site.register, users[1], credentials=site.registered)
    site.register(users[1], resident_key=True)
    assert site.sign_in() == [users[1]["id"]]
    site.register(users[2], resident_key=True)
    assert site.sign_in() == [users[2]["id"], users[1]["id"]]
    refused(Status.NOT_ALLOWED, ctap.get_next_assertion)

    # a PIN that is set, changed and mistaken, and what needs one
    refused(Status.PIN_NOT_SET, pin.get_pin_token, "1234", MAKE_CREDENTIAL, "example.org")
    pin.set_pin("12345")
    refused(Status.PIN_AUTH_INVALID, pin.set_pin, "12345")
    pin.change_pin("12345", "p\u00efn!")
    refused(Status.PUAT_REQUIRED, ctap.make_credential, bytes(32), {"id": "a"}, users[0], [{"type": "public-key", "alg": ES256}])
    site.pin, site.client.info = "12345", ctap.get_info()
    refused(Status.PIN_INVALID, site.sign_in)
    assert pin.get_pin_retries() == (7, False)
    site.pin = "p\u00efn!"
    site.register(users[0], resident_key=True)
    assert site.sign_in() == [it["id"] for it in (users[0], users[2], users[1])]
    assert site.sign_in(site.registered[:1]) == [None]
    assert pin.get_pin_retries() == (8, False)
    token = pin.get_pin_token(site.pin, GET_ASSERTION, "example.org")
    param = pin.protocol.authenticate(token, bytes(32))
    if authenticator.has_permissions:
        refused(Status.PIN_AUTH_INVALID, ctap.get_assertion, "example.com", bytes(32), pin_uv_param=param, pin_uv_protocol=protocol.VERSION)
    for status in (Status.PIN_INVALID, Status.PIN_INVALID, Status.PIN_AUTH_BLOCKED, Status.PIN_AUTH_BLOCKED):
        refused(status, pin.get_pin_token, "wrong", GET_ASSERTION, "example.org")
    assert pin.get_pin_retries() == (5, True)


def malformed(authenticator):
    """Requests that python-fido2 doesn't send: an unknown command, no map, a missing member, a text for bytes, keys out of order, a
    head that could be shorter, and what follows the message."""
    for status, requests in [
        (Status.INVALID_COMMAND, "0f"),
        (Status.CBOR_UNEXPECTED_TYPE, "0180 02a2016161026161"),
        (Status.MISSING_PARAMETER, "01a0 06a10202"),
        (Status.INVALID_CBOR, "06a202010101 06a1021801 06a1020100 0400"),
        (Status.INVALID_SUBCOMMAND, "06a10208"),
        (Status.INVALID_PARAMETER, "06a201030202 06a40101020503a00640 06a40101020503a2214022400640"),
    ]:
        for request in requests.split():
            assert authenticator.call(bytes.fromhex(request)) == bytes([status]), request


def foreign():
    """Responses as python-fido2 encodes them."""
    data, statement = bytes(37), {"x5c": [b"\1", b"\2"], "sig": bytes(70), "alg": ES256, "other": {"b": -1, "a": [False, True]}}
    come_back("mc-response", bytes(AttestationObject.create("packed", data, statement)))
    come_back("mc-response", bytes(AttestationObject.create("none", data, {})))
    credential, user = {"type": "public-key", "id": bytes(300)}, {"id": b"\1", "name": "a", "displayName": "b"}
    come_back("ga-response", bytes(AssertionResponse.create(credential, data, bytes(71), user, 2)))
    info = ["U2F_V2", "FIDO_2_0"], ["credProtect"], bytes(range(16)), {"rk": True, "up": False}, 1200, [1], 8, 128, ["usb"]
    come_back("info-23", bytes(Info.create(*info, [{"type": "public-key", "alg": -257}])))


if __name__ == "__main__":
    tried = [([2, 1], PinProtocolV2(), True), ([2, 1], PinProtocolV1(), True), ([1], PinProtocolV1(), False)]
    for versions, protocol, has_permissions in tried:
        device = Authenticator(versions, has_permissions)
        ceremonies(device, protocol)
        malformed(device)
    foreign()
    print(f"the virtual authenticator: {len(tried)} series of ceremonies, and {same} messages that came back the same")

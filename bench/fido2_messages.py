#!/usr/bin/env python3
"""bench/fido2_messages.py: prints what python-fido2 sends to make and to use a credential, and responses that its classes make, as
rows of crates/passkey_rows.

It needs Debian's python3-fido2 (0.9.1), installed, or unpacked by `dpkg -x` into a folder that PYTHONPATH names. A device that
records each request stands in the authenticator's place, and answers authenticatorGetInfo alone. Each line has the kind and the
bytes; the answer that is wanted is `0` and the same bytes, since python-fido2 encodes in CTAP2's canonical form.
"""

import struct

from fido2 import cbor
from fido2.ctap import CtapError
from fido2.ctap2 import AssertionResponse, AttestationObject, AttestedCredentialData, AuthenticatorData, Ctap2
from fido2.hid import CAPABILITY

KINDS = {1: "ctap-mc-request", 2: "ctap-ga-request"}
INFO = {1: ["FIDO_2_0", "FIDO_2_1"], 2: ["credProtect", "hmac-secret"], 3: bytes(16), 4: {"rk": True, "up": True}}


class Recorder:
    """A device that keeps the requests that it is sent."""

    capabilities = CAPABILITY.CBOR

    def __init__(self):
        self.requests = []

    def call(self, _command, data=b"", event=None, on_keepalive=None):
        if data[:1] == b"\x04":
            return b"\x00" + cbor.encode(INFO)
        self.requests.append(data)
        return struct.pack(">B", CtapError.ERR.OPERATION_DENIED)


def descriptor(length, **members):
    return {"id": bytes(range(length)), "type": "public-key", **members}


def send(call, **arguments):
    """Makes the call, which the device denies."""
    try:
        call(**arguments)
    except CtapError:
        pass


# The public key of RFC 9052, appendix C.7.1, as a credential's.
KEY = {
    1: 2,
    3: -7,
    -1: 1,
    -2: bytes.fromhex("65eda5a12577c2bae829437fe338701a10aaa375e1bb5b5de108de439c08551d"),
    -3: bytes.fromhex("1e52ed75701163f7f9e40ddf9f341b3dc9ba860af7e0ca7ca7e9eecd0084d19c"),
}


def made(fmt, statement, extensions=None, **members):
    """A response to authenticatorMakeCredential, with these members beside the first three."""
    credential = AttestedCredentialData.create(bytes(16), bytes(range(16)), KEY)
    flags = 0x45 if extensions is None else 0xC5
    data = AuthenticatorData.create(bytes(range(32)), flags, 7, credential, extensions)
    response = AttestationObject.create(fmt, data, statement)
    if not members:
        return response
    numbers = {"ep_att": 4, "large_blob_key": 5, "unsigned": 6}
    return cbor.encode({**cbor.decode(response), **{numbers[name]: value for name, value in members.items()}})


def used(credential, user=None, number=None, extensions=None, **members):
    """A response to authenticatorGetAssertion, with these members beside the first five."""
    data = AuthenticatorData.create(bytes(range(32)), 0x05 if extensions is None else 0x85, 8, b"", extensions)
    response = AssertionResponse.create(credential, data, b"\x30\x06\x02\x01\x01\x02\x01\x02", user, number)
    if not members:
        return response
    numbers = {"selected": 6, "large_blob_key": 7, "unsigned": 8}
    return cbor.encode({**cbor.decode(response), **{numbers[name]: value for name, value in members.items()}})


def print_responses():
    """Prints responses with and without what is optional."""
    signature = bytes(range(8))
    secret = bytes(range(32))
    for response in [
        made("none", {}),
        made("packed", {"alg": -7, "sig": signature}),
        made("packed", {"alg": -7, "sig": signature, "x5c": [b"certificate"]}, {"credProtect": 2, "hmac-secret": True}),
        made("fido-u2f", {"x5c": [b"certificate"], "sig": signature}),
        made("packed", {"alg": -7, "sig": signature}, ep_att=True),
        made("none", {}, {"credBlob": True}, large_blob_key=secret),
        made("none", {}, ep_att=False, large_blob_key=secret, unsigned={"prf": {"enabled": True}}),
    ]:
        print("ctap-mc-response", response.hex())
    for response in [
        used(descriptor(16)),
        used(None),
        used(descriptor(16), {"id": b"\x01\x02\x03"}),
        used(descriptor(64), {"id": b"\x01", "name": "ann@example.com", "displayName": "Ann"}, 2),
        used(descriptor(16), {"id": b"\x01", "name": "ann@example.com"}, 300),
        used(descriptor(16, transports=["usb", "smart-card"]), extensions={"credBlob": b"blob"}),
        used(descriptor(16), selected=True, large_blob_key=secret, unsigned={"largeBlob": {"written": True}}),
    ]:
        print("ctap-ga-response", response.hex())


def main():
    device = Recorder()
    ctap = Ctap2(device)
    digest = bytes(range(32))
    rp = {"id": "example.com", "name": "Example"}
    user = {"id": b"\x01\x02\x03", "name": "ann@example.com", "displayName": "Ann"}
    params = [{"type": "public-key", "alg": -7}, {"type": "public-key", "alg": -257}]
    make = {"client_data_hash": digest, "rp": rp, "user": user, "key_params": params}
    send(ctap.make_credential, **make)
    send(ctap.make_credential, **{**make, "rp": {"id": "example.com"}, "user": {"id": b"\x01"}})
    send(ctap.make_credential, **make, exclude_list=[descriptor(16), descriptor(32, transports=["usb", "smart-card"])])
    send(ctap.make_credential, **make, options={"rk": True})
    send(ctap.make_credential, **make, options={"uv": True}, extensions={"credProtect": 2, "hmac-secret": True})
    send(ctap.make_credential, **make, extensions={"credBlob": b"blob", "largeBlobKey": True, "minPinLength": True})
    send(ctap.make_credential, **make, pin_uv_param=bytes(16), pin_uv_protocol=1)
    get = {"rp_id": "example.com", "client_data_hash": digest}
    send(ctap.get_assertion, **get)
    send(ctap.get_assertion, **get, allow_list=[descriptor(16), descriptor(64, transports=["nfc", "cable"])])
    send(ctap.get_assertion, **get, options={"up": False})
    send(ctap.get_assertion, **get, extensions={"credBlob": True, "largeBlobKey": True})
    send(ctap.get_assertion, **get, options={"uv": True}, pin_uv_param=bytes(32), pin_uv_protocol=2)
    for request in device.requests:
        print(KINDS[request[0]], request[1:].hex())
    print_responses()


if __name__ == "__main__":
    main()

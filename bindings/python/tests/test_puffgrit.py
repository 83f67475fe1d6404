"""The package's calls, over examples of RFC 8949 and WebAuthn Level 3. Run by unittest or pytest."""

import os
import unittest
import uuid
from concurrent.futures import ThreadPoolExecutor
from pathlib import Path
from unittest import mock

import puffgrit
from puffgrit import _c, messages

ROOT = Path(__file__).resolve().parents[3]


def item(given):
    return puffgrit.item_at(bytes.fromhex(given))


class Puffgrit(unittest.TestCase):
    def test_version(self):
        self.assertEqual(puffgrit.version(), 3)

    def test_library(self):
        # the library as one of another version, a file that isn't there, and another library
        with mock.patch.dict(os.environ, PUFFGRIT_LIBRARY=puffgrit._library._name), mock.patch.object(_c, "VERSION", 4):
            self.assertRaisesRegex(ImportError, "has version 3 .* version 4 is needed", _c.load)
        for place in ["/nowhere/libpuffgrit.so.3", "libc.so.6"]:
            with mock.patch.dict(os.environ, PUFFGRIT_LIBRARY=place):
                self.assertRaisesRegex(ImportError, "name it in PUFFGRIT_LIBRARY", _c.load)

    def test_lengths(self):
        self.assertEqual(puffgrit.item_len(bytes.fromhex("9f1801ff00")), 4)
        self.assertEqual(puffgrit.item_len(b""), 0)
        self.assertTrue(puffgrit.is_canonical(bytes.fromhex("8101")))
        self.assertFalse(puffgrit.is_canonical(bytes.fromhex("9f1801ff")))
        self.assertIsNone(puffgrit.not_canonical(bytes.fromhex("8101")))
        self.assertEqual(puffgrit.not_canonical(bytes.fromhex("811801")), puffgrit.NotCanonical("ShortestHead", 1))
        self.assertEqual(puffgrit.not_canonical(bytes.fromhex("8181818180")), puffgrit.NotCanonical("Levels", 4))
        self.assertEqual(puffgrit.not_canonical(bytes.fromhex("a2616100616100")), puffgrit.NotCanonical("DistinctKeys", 4))
        self.assertEqual(puffgrit.not_canonical(b"\x00\x00", 0), puffgrit.NotCanonical("NothingAfter", 1))

    def test_items(self):
        # RFC 8949, appendix A: [1, [2, 3], [4, 5]] and {"a": 1, "b": [2, 3]}
        nested = puffgrit.item_at(bytes.fromhex("8301820203820405"))
        self.assertEqual([it.kind for it in nested], [puffgrit.UNSIGNED, puffgrit.ARRAY, puffgrit.ARRAY])
        self.assertEqual(puffgrit.member(bytes.fromhex("a26161016162820203"), "a").integer, 1)
        self.assertIsNone(puffgrit.member(bytes.fromhex("a26161016162820203"), "c"))
        self.assertEqual(puffgrit.item_at(bytes.fromhex("3903e7")).integer, -1000)
        self.assertIsNone(puffgrit.item_at(b"\x1c"))

    def test_algorithms(self):
        info = bytes.fromhex((ROOT / "bench/messages/info.hex").read_text())
        algorithms = puffgrit.member(info, 0x0A)
        self.assertEqual([it.get("alg").integer for it in algorithms], [-7, -8])

    def test_authenticator_data(self):
        key = bytes.fromhex("a10102")
        data = bytes(32) + b"\x41" + bytes([0, 0, 0, 9]) + bytes(range(16)) + b"\x00\x02" + b"id" + key + b"\xff"
        parts = puffgrit.auth_parts(data)
        self.assertEqual((parts.counter, parts.flags, parts.credential_id, parts.end), (9, 0x41, b"id", len(data) - 1))
        self.assertEqual(parts.public_key.get(1).integer, 2)
        self.assertIsNone(puffgrit.auth_parts(data[:-2]))

    def test_client_data(self):
        text = b'{"type":"webauthn.get","challenge":"-w","origin":"https://example.org","crossOrigin":true,"topOrigin":"https://a.example"}'
        said = text, "webauthn.get", b"\xfb", "https://example.org"
        self.assertTrue(puffgrit.is_client_data(*said, "https://a.example"))
        self.assertFalse(puffgrit.is_client_data(*said))
        self.assertFalse(puffgrit.is_client_data(*said[:2], b"\xfa", said[3], "https://a.example"))

    def test_rewriting(self):
        # RFC 8949, section 8, and a required member that is absent; the JSON of WebAuthn Level 3, section 5.1
        self.assertEqual(puffgrit.rewrite("cbor", bytes.fromhex("9f1801ff")), bytes.fromhex("8101"))
        self.assertEqual(
            puffgrit.rewrite("request", b'{"publicKey":{"challenge":"AQ=="}}'),
            b'{"publicKey":{"attestation":"none","challenge":"AQ","userVerification":"preferred"}}',
        )
        for kind, data, name, number in [("ga-request", b"\xa0", "Missing", 1), ("info", b"\x80", "NotAMap", None), ("creation", b"{", "BadJson", None)]:
            with self.assertRaises(puffgrit.Fault) as caught:
                puffgrit.rewrite(kind, data)
            self.assertEqual((caught.exception.name, caught.exception.member), (name, number))
        with self.assertRaises(ValueError):
            puffgrit.rewrite("key", b"")

    def test_strictness(self):
        # CTAP 2.2, section 8: heads that are longer than need be, five levels, and bytes after the item
        for given, asked, rule, offset, length in [
            ("811801", "canonical", "ShortestHead", 1, 2),
            ("8181818180", "four_levels", "Levels", 4, 1),
            ("0102ff", "all_bytes", "NothingAfter", 1, 2),
        ]:
            data = bytes.fromhex(given)
            others = {it: True for it in ("canonical", "four_levels", "all_bytes") if it != asked}
            self.assertIsNone(puffgrit.explain("cbor", data))
            self.assertIsNone(puffgrit.explain("cbor", data, **others))
            for call in [puffgrit.rewrite, puffgrit.decode, lambda *words, **more: puffgrit.decode(*words, exact=True, **more)]:
                call("cbor", data, **others)
                with self.assertRaises(puffgrit.Fault) as caught:
                    call("cbor", data, **{asked: True})
                fault = caught.exception
                self.assertEqual((fault.name, fault.rule, fault.member, fault.offset, fault.length), ("NotCanonical", rule, None, offset, length))
        # the first fault of the kind comes first, and of authenticator data only the end is asked
        self.assertEqual(puffgrit.explain("info", bytes.fromhex("a11801f5"), canonical=True).name, "Refused")
        self.assertIsNone(puffgrit.explain("auth", bytes(38), canonical=True, four_levels=True))
        self.assertEqual(puffgrit.explain("auth", bytes(38), all_bytes=True).explanation, "bytes follow the data item (offset 37)")

    def test_threads(self):
        # calls from eight threads at once, which hold no lock of Python's: RFC 8949, appendix A, and an array of one number each
        def rewritten(number):
            return puffgrit.rewrite("cbor", b"\x9f\x18" + bytes([number]) + b"\xff")

        wanted = [b"\x81" + (bytes([number]) if number < 24 else bytes([0x18, number])) for number in range(256)]
        with ThreadPoolExecutor(8) as pool:
            for _ in range(20):
                self.assertEqual(list(pool.map(rewritten, range(256))), wanted)

    def test_fronts(self):
        # what follows the data item, the data, and nothing that follows a JSON text
        self.assertEqual(puffgrit.rewrite_front("cbor", bytes.fromhex("9f1801ff00")), (bytes.fromhex("8101"), 4))
        self.assertEqual(puffgrit.rewrite_front("auth", bytes(37) + b"\xff"), (bytes(37), 37))
        options = b'{"publicKey":{"challenge":"AQ"}} '
        self.assertEqual(puffgrit.rewrite_front("request", options)[1], len(options))
        info = b"\xa2\x01\x81\x68FIDO_2_0\x03\x50" + bytes(16)
        self.assertEqual(puffgrit.decode_front("info", info + b"\xff"), (puffgrit.decode("info", info), len(info)))

    def test_decoding(self):
        info = bytes.fromhex((ROOT / "bench/messages/info.hex").read_text())
        decoded = puffgrit.decode("info", info)
        self.assertEqual([it["alg"] for it in decoded["algorithms"]], ["ES256", "EdDSA"])
        self.assertEqual(puffgrit.decode("request", b'{"publicKey":{"challenge":"AQ=="}}')["publicKey"]["challenge"], "AQ")
        # RFC 9053, section 7.1.1, and WebAuthn Level 3, section 6.1
        key = bytes.fromhex("a5010203262001215820") + bytes(32) + bytes.fromhex("225820") + bytes(32)
        self.assertEqual(puffgrit.decode("cose-key", key), {"kty": "EC2", "alg": "ES256", "crv": "P-256", "x": "A" * 43, "y": "A" * 43})
        self.assertEqual(puffgrit.decode("auth", bytes(37)), {"rpIdHash": "A" * 43, "flags": [], "signCount": 0})
        for kind in ["key", "att-none", "tpm-pub-area"]:
            with self.assertRaises(ValueError):
                puffgrit.decode(kind, b"\xa0")

    def test_explaining(self):
        # versions, and an AAGUID that is a number
        wrong = b"\xa2\x01\x81\x68FIDO_2_0\x03\x01"
        with self.assertRaises(puffgrit.Fault) as caught:
            puffgrit.decode("info", wrong)
        fault = caught.exception
        self.assertEqual((fault.name, fault.member, fault.offset, fault.length), ("Refused", 3, 13, 1))
        self.assertEqual(fault.explanation, "aaguid: a byte string of 16 bytes is wanted (offset 13, length 1)")
        cut = puffgrit.explain("info", wrong[:5])
        self.assertEqual((cut.name, cut.member, cut.offset, cut.length), ("DecodeFailed", None, 5, 0))
        self.assertIsNone(puffgrit.explain("info", wrong[:-1] + b"\x50" + bytes(16)))
        # WebAuthn Level 3, section 6.1: 37 bytes at least
        cut = puffgrit.explain("auth", bytes(36))
        self.assertEqual((cut.name, cut.offset, cut.length), ("DecodeFailed", 33, 3))
        self.assertTrue(cut.explanation.startswith("signCount: "))
        self.assertIsNone(puffgrit.explain("auth", bytes(38)))
        self.assertEqual(puffgrit.explain("cbor", b"\x81").offset, 1)
        # WebAuthn Level 3, sections 5.4 and 5.8.1
        text = b'{"publicKey":{"challenge":"AQ","timeout":60000.5}}'
        with self.assertRaises(puffgrit.Fault) as caught:
            puffgrit.rewrite("request", text)
        fault = caught.exception
        self.assertEqual((fault.name, fault.member, fault.offset, fault.length), ("Float", None, 0, len(text)))
        self.assertEqual(fault.explanation, "publicKey.timeout: an integer from 0 to 4294967295 is wanted")
        self.assertEqual(puffgrit.explain("client-data", b"[]").explanation, "an object is wanted")
        self.assertEqual(puffgrit.explain("client-data", "{\"ü\"".encode()).name, "BadJson")
        self.assertIsNone(puffgrit.explain("request", b'{"publicKey":{"challenge":"AQ"}}'))

    def test_encoding(self):
        # CTAP 2.2, sections 6.2.1, 6.4 and 6.5.5; RFC 8949, section 3 and appendix A; RFC 9052, section 7
        key = {1: 2, 3: -25, -1: 1, -2: b"\1", -3: b"\2"}
        for kind, value, made in [
            ("pin-request", {"rpId": "a", "permissions": 3, "subCommand": 9}, "a302090903" "0a6161"),
            ("pin-request", {"keyAgreement": key, 2: 5}, "a2020503a5010203381820012141012241" "02"),
            ("ctap-ga-request", {"rpId": "a", "clientDataHash": bytes(32), "options": {"up": False}}, f"a3016161025820{'00' * 32}05a1627570f4"),
            ("info", {"versions": ("FIDO_2_0",), "aaguid": uuid.UUID(int=1)}, f"a20181684649444f5f325f300350{'00' * 15}01"),
            ("cbor", [True, False, None, "ü", -(2**64), 2**64 - 1, 1.5], "87f5f4f662c3bc3bffffffffffffffff1bfffffffffffffffffb3ff8000000000000"),
            ("cbor", {"b": 1, "a": [], 24: {}, -1: b"", b"": ""}, "a51818a0204040606161806162" "01"),
            ("cbor", {"$bytes": "AQ"}, "a16624627974657362" "4151"),
            ("cbor", {"$cbor": {"#1": 1, 1: 2, "": 3, "$": 4}}, "a1652463626f72a4010260036124046223" "3101"),
            ("cbor", [puffgrit.item_at(bytes.fromhex("00c11a514b67b0"), 1)], "81c11a514b67b0"),
            ("cbor", {puffgrit.item_at(bytes.fromhex("8101")): 0}, "a1810100"),
        ]:
            self.assertEqual(puffgrit.encode(kind, value).hex(), made)
        self.assertRaisesRegex(ValueError, "no kind", puffgrit.encode, "key", {})
        for value in [{1}, bytearray(), {True: 1}, {None: 1}, {1.0: 1}, {(1,): 1}, [object]]:
            self.assertRaises(TypeError, puffgrit.encode, "cbor", value)
        for value in ["\ud800", {"\ud800": 1}]:
            self.assertRaises(UnicodeEncodeError, puffgrit.encode, "cbor", value)

    def test_refused_encoding(self):
        integer = f"an integer from {-(2**64)} to {2**64 - 1} is wanted"
        inside = "a"
        for _ in range(127):
            inside = [inside]
        self.assertEqual(puffgrit.encode("cbor", inside), b"\x81" * 127 + b"aa")
        inside = [[inside]]
        for kind, value, name, number, explanation in [
            ("ctap-mc-request", {"user": {"id": "AQ"}}, "Refused", 3, "user.id: a byte string is wanted"),
            ("pin-request", {"subCommand": 9, "rpId": b"a"}, "Refused", 10, "rpId: a text string is wanted"),
            ("ctap-ga-request", {"rpId": "a", "clientDataHash": bytes(31)}, "Refused", 2, "clientDataHash: a byte string of 32 bytes is wanted"),
            ("pin-request", {"subCommand": 1, 2: 1}, "Repeated", 2, "(key 1): member 2 is repeated"),
            ("cbor", {"a": [0, {"$ü": 2**64}]}, "NoItem", None, f"a[1].$6324c3bc: {integer}"),
            ("cbor", {"a": 1, puffgrit.item_at(b"\x61a"): 2}, "NoItem", None, "$6161: an earlier member has this key"),
            ("cbor", {"ü" * 3000: 2**64}, "NoItem", None, f"{'ü' * 3000}: {integer}"),
            ("cbor", inside, "BadJson", None, None),
        ]:
            with self.assertRaises(puffgrit.Fault) as caught:
                puffgrit.encode(kind, value)
            fault = caught.exception
            self.assertEqual((fault.name, fault.member, fault.explanation, fault.offset), (name, number, explanation, None))

    def test_exact_decoding(self):
        info = {"versions": ["FIDO_2_0"], "aaguid": uuid.UUID(int=1), "algorithms": [{"alg": -7, "type": "public-key"}], 99: b"\0"}
        given = f"a401816846494" f"44f5f325f300350{'00' * 15}010a81a263616c672664747970656a7075626c69632d6b65791863" "4100"
        self.assertEqual(puffgrit.decode_front("info-23", bytes.fromhex(given + "ff"), exact=True), (info, len(given) // 2))
        # RFC 8949, section 3 and appendix A: text in chunks, undefined, an integer below those of 64 bits, and keys of each kind
        given = "a5" "01" "7f61616162ff" "20" "f7" "4100" "3bffffffffffffffff" "60" "fb3ff8000000000000" "622361" "a162246101"
        value = {1: "ab", -1: None, b"\0": -(2**64), "": 1.5, "#a": {"$a": 1}}
        self.assertEqual(puffgrit.decode("cbor", bytes.fromhex(given), exact=True), value)
        # tags, floats of fewer bits, keys that aren't in order or that are there twice, keys that are none of Python's, and many levels
        deep = item("81" * 40 + "00")
        for _ in range(60):
            deep = [deep]
        for given, value in [
            ("c11a514b67b0", item("c11a514b67b0")),
            ("82f93e00fa3fc00000", [item("f93e00"), item("fa3fc00000")]),
            ("81a202010100", [item("a202010100")]),
            ("81a201000100", [item("a201000100")]),
            ("a380018101f4f402", {item("80"): 1, item("8101"): False, item("f4"): 2}),
            ("81" * 100 + "00", deep),
        ]:
            self.assertEqual(puffgrit.decode("cbor", bytes.fromhex(given), exact=True), value)
            self.assertEqual(puffgrit.encode("cbor", value).hex(), given)
        # an unknown member that is there twice, and a name where there is a number
        for given, made in [("a302011863011863" "02", "a10201"), ("a16a737562436f6d6d616e6401", "a10201")]:
            value = puffgrit.decode("pin-request", bytes.fromhex(given), exact=True)
            self.assertEqual((value, puffgrit.encode("pin-request", value).hex()), (item(given), made))
        with self.assertRaises(puffgrit.Fault) as caught:
            puffgrit.decode("pin-request", b"\xa0", exact=True)
        self.assertEqual(caught.exception.name, "Missing")
        self.assertRaisesRegex(ValueError, "no kind", puffgrit.decode, "key", b"", exact=True)

    def test_types(self):
        # the members of CTAP 2.2, sections 6.1 and 6.2, by their names
        members = {"rpId": "a", "clientDataHash": bytes(32), "allowList": [], "extensions": {}, "options": {}}
        members.update(pinUvAuthParam=b"", pinUvAuthProtocol=1, enterpriseAttestation=1, attestationFormatsPreference=["packed"])
        decoded = puffgrit.decode("ctap-ga-request", puffgrit.encode("ctap-ga-request", members), exact=True)
        self.assertEqual(decoded.keys(), messages.CtapGaRequest.__annotations__.keys())
        types = [messages.CtapMcRequest.__annotations__[it] for it in ("clientDataHash", "rp", "pubKeyCredParams", "pinUvAuthProtocol")]
        self.assertEqual(types, [bytes, messages.RpEntity, list[messages.CredentialParameters], int])

    def test_exact_parts(self):
        # authenticator data by their parts (WebAuthn Level 3, section 6.1), a key by its parameters (RFC 9053, section 7), others as bytes
        key = {"kty": 2, "alg": -7, "crv": 1, "x": b"\1", "y": b"\2"}
        attested = {"aaguid": uuid.UUID(int=1), "credentialId": b"\xaa", "credentialPublicKey": key}
        parts = {"rpIdHash": bytes(32), "flags": ["UP", "AT", "ED"], "signCount": 7, "attestedCredentialData": attested, "extensions": {"a": 1}}
        data = bytes(32) + bytes.fromhex("c100000007" f"{1:032x}" "0001aa" "a5010203262001214101224102" "a1616101")
        self.assertEqual(puffgrit.encode("auth", parts), data)
        self.assertEqual(puffgrit.decode_front("auth", data + b"\0", exact=True), (parts, len(data)))
        self.assertEqual(puffgrit.decode("cose-key", puffgrit.encode("cose-key", key), exact=True), key)
        # lengths in more bytes than they need
        other = bytes(32) + bytes.fromhex("8000000000" "b800")
        self.assertEqual(puffgrit.decode("auth", other, exact=True), other)
        self.assertEqual(puffgrit.encode("auth", other), other[:37] + b"\xa0")
        with self.assertRaises(puffgrit.Fault) as raised:
            puffgrit.encode("auth", {**parts, "flags": ["UP", "EA"]})
        wanted = ("NoItem", "flags[1]: one of UP, UV, BE, BS, AT and ED is wanted")
        self.assertEqual((raised.exception.name, raised.exception.explanation), wanted)

    def test_exact_rows(self):
        # each input of crates/passkey_rows that is accepted comes back as its encoding
        inputs, answers = [(ROOT / "crates/passkey_rows" / it).read_text(encoding="utf-8").split("\n") for it in ("stdin", "stdout")]
        tried = set()
        for row, answer in zip(inputs, answers):
            kind, _, given = row.partition(" ")
            # of a statement a fault is an output, too
            is_record = kind in puffgrit.RECORDS
            if kind in puffgrit.EXACT and answer.startswith("0 ") and (is_record or set(answer[2:]) <= set("0123456789abcdef")):
                data = given.encode() if is_record else bytes.fromhex(given)
                made = puffgrit.encode(kind, puffgrit.decode(kind, data, exact=True))
                self.assertEqual(made.decode() if is_record else made.hex(), answer[2:], row)
                tried.add(kind)
        self.assertEqual(tried | {"cose-key"}, set(puffgrit.EXACT))

    def test_arguments(self):
        with self.assertRaises(TypeError):
            puffgrit.item_len(bytearray(b"\x00"))
        keyed = bytes.fromhex("a10105")
        for key in [2**63, -(2**63) - 1, 2**64 + 1]:
            self.assertRaises(OverflowError, puffgrit.member, keyed, key)
        for key in [1.0, None, b"a"]:
            self.assertRaises(TypeError, puffgrit.member, keyed, key)
        for offset in [-1, 2**64, -(2**64)]:
            self.assertRaises(OverflowError, puffgrit.item_at, keyed, offset)
            self.assertRaises(OverflowError, puffgrit.member, keyed, 1, offset)
            self.assertRaises(OverflowError, puffgrit.member, keyed, "a", offset)
        for offset in ["0", 0.0, None]:
            self.assertRaises(TypeError, puffgrit.item_at, keyed, offset)
        self.assertIsNone(puffgrit.item_at(keyed, 2**64 - 1))


if __name__ == "__main__":
    unittest.main()

"""hostile.py PROGRAM prints the heads and nodes that hostile messages cost, as `passkey_bench count-..` counts
them, beside what is proved: at most 16 heads for each byte, or one for each byte and one more if no item is there."""
import subprocess
import sys

ZEROS = b"\x00" * 16


def head(major, n):
    for width, info in ((1, 24), (2, 25), (4, 26), (8, 27)):
        if n < 24:
            return bytes([32 * major + n])
        if n < 1 << (8 * width):
            return bytes([32 * major + info]) + n.to_bytes(width, "big")
    raise ValueError(n)


def text(s):
    return head(3, len(s)) + s.encode()


def chunked(major, s):
    """The string in chunks of one byte."""
    return bytes([32 * major + 31]) + b"".join(head(major, 1) + bytes([b]) for b in s) + b"\xff"


def data(s):
    return head(2, len(s)) + s


def array(items):
    return head(4, len(items)) + b"".join(items)


def pairs(members):
    return head(5, len(members)) + b"".join(key + value for key, value in members)


def nested(levels):
    return b"\x81" * (levels - 1) + b"\x80" if levels else b"\x00"


def descriptor(**members):
    given = {"type": text("public-key"), "id": data(b"\x07"), **members}
    return pairs([(text(name), value) for name, value in given.items()])


def request(allow, *more):
    """An authenticatorGetAssertion request with this allow list."""
    return pairs([(b"\x01", text("a")), (b"\x02", b"\x40"), (b"\x03", allow), *more])


def response(key, extensions=None):
    """An authenticatorMakeCredential response with this COSE key."""
    flags = 0x45 if extensions is None else 0xC5
    auth = b"\x00" * 32 + bytes([flags]) + b"\x00" * 4 + ZEROS + b"\x00\x01\x07" + key + (extensions or b"")
    return pairs([(b"\x01", text("none")), (b"\x02", data(auth)), (b"\x03", b"\xa0")])


def info(*more):
    return pairs([(b"\x01", b"\x80"), (b"\x03", data(ZEROS)), *more])


REFUSED = descriptor(transports=array([text("usb")]), x=b"\x00")[:1] + b"".join(
    [text("id"), data(b"\x07"), text("transports"), array([text("usb")]), text("type"), text("public-key"), b"\xf6", b"\x00"]
)

def inputs(n):
    """The messages: what each is, its kind and its bytes. The lists have n elements, or ten times n."""
    return [
        (f"{n:,} descriptors, each rejected at its last member", "ga-request", request(array([REFUSED] * n))),
        ("an allow list of 256 levels with the request's", "ga-request", request(nested(255))),
        ("an allow list of 257 levels with the request's", "ga-request", request(nested(256))),
        ("a descriptor of 256 levels with the request's", "ga-request", request(array([nested(254)]))),
        ("a descriptor of 257 levels", "ga-request", request(array([nested(255)]))),
        ("transports of 256 levels", "ga-request", request(array([descriptor(transports=nested(253))]))),
        ("transports of 257 levels", "ga-request", request(array([descriptor(transports=nested(254))]))),
        ("a transport of 256 levels", "ga-request", request(array([descriptor(transports=array([nested(252)]))]))),
        ("a transport of 257 levels", "ga-request", request(array([descriptor(transports=array([nested(253)]))]))),
        (f"{n:,} descriptors with names in chunks of one byte", "ga-request", request(array([
            pairs([(chunked(3, b"type"), text("public-key")), (chunked(2, b"id"), data(b"\x07")),
                   (chunked(3, b"transports"), array([chunked(3, b"usb")] * 3))])] * n))),
        (f"a text of {n:,} chunks under an unknown key", "info", info((b"\x18\x99", chunked(3, b"a" * n)))),
        (f"{10 * n:,} unknown members", "info", info(*[(text(f"x{m}"), b"\x00") for m in range(10 * n)])),
        (f"{10 * n:,} transports that aren't known", "info", info((b"\x09", array([text("smart-card")] * (10 * n))))),
        (f"{10 * n:,} transports that are numbers", "info", info((b"\x09", array([b"\x00"] * (10 * n))))),
        (f"{10 * n:,} transports of no chunks", "info", info((b"\x09", array([b"\x7f\xff"] * (10 * n))))),
        (f"3 descriptors with {10 * n:,} transports of an empty chunk, each rejected at its last member", "ga-request", request(array([
            pairs([(text("transports"), array([b"\x7f\x60\xff"] * (10 * n))), (text("id"), data(b"\x07")), (b"\xf6", b"\x00")])] * 3))),
        (f"a COSE key of {10 * n:,} labels", "mc-response", response(pairs([(b"\x01", b"\x02"), *[(head(0, m), b"\x00") for m in range(100, 100 + 10 * n)]]))),
        (f"a COSE key without a type, of {10 * n:,} labels", "mc-response", response(pairs([(head(0, m), b"\x00") for m in range(100, 100 + 10 * n)]))),
        (f"extensions of {10 * n:,} members", "mc-response", response(pairs([(b"\x01", b"\x02")]), pairs([(text(f"x{m}"), b"\x00") for m in range(10 * n)]))),
    ]


def main():
    print("| input | message | bytes | decoded | heads | heads a byte | nodes |")
    print("|---|---|---:|---|---:|---:|---:|")
    for what, kind, message in inputs(1000):
        ran = subprocess.run([sys.argv[1], f"count-{kind}", "1"], input=message, capture_output=True, check=True)
        decoded, heads, nodes = ran.stdout.decode().split()
        size = len(message)
        if int(heads) > 16 * size:
            sys.exit(f"{what}: {heads} heads over {size} bytes")
        print(f"| {what} | `{kind}` | {size:,} | {'yes' if decoded == 'true' else 'no'} | {int(heads):,} | {int(heads) / size:.2f} | {int(nodes):,} |")


if __name__ == "__main__":
    main()

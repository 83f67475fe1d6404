"""ratios.py [PROGRAM]: whether what a call takes grows with its input, and not faster.

Inputs of sixteen shapes, each of 6 to 46 KB and four times as large, go through calls of passkey_bench, and valgrind counts the
instructions of a round. The table has the ratio of the larger input's to the smaller one's; the status is 1 if one is above its
limit: 4.6, or 5.2 where labels are looked up in an ordered set. A call that goes over all that lies ahead for each item has a
ratio of 16. Build the program first, by tools/build passkey_bench, or give another one. It takes about half a minute."""
import concurrent.futures
import sys
import tempfile
from pathlib import Path

from hostile import array, chunked, data, descriptor, head, info, pairs, request, response, text
from inputs import NESTED
from measure import instructions_a_round, run

PROGRAM = Path(__file__).resolve().parent.parent / "crates" / "passkey_bench" / "out" / "passkey_bench"
LINEAR, ORDERED = 4.6, 5.2


def names(n):
    return [text(f"a name of some length, and its number {it:06}") for it in range(n)]


# What it is, the calls, the number of parts of the smaller input, the input of so many parts, and the limit. Where much is kept,
# the smaller input is larger, since malloc costs more once more is freed than it keeps at hand.
SHAPES = [
    ("an array of numbers", ["skip", "from_slice"], 8000, lambda n: array([b"\x07"] * n), LINEAR),
    ("an array of indefinite length", ["skip", "from_slice"], 8000, lambda n: b"\x9f" + b"\x07" * n + b"\xff", LINEAR),
    ("arrays of 255 levels", ["skip", "rewrite"], 128, lambda n: array([NESTED] * n), LINEAR),
    ("byte strings", ["from_slice"], 500, lambda n: array([data(bytes(15))] * n), LINEAR),
    ("a byte string in chunks", ["skip", "from_slice"], 4000, lambda n: chunked(2, bytes(n)), LINEAR),
    ("a text in chunks", ["skip", "rewrite"], 4000, lambda n: chunked(3, b"a" * n), LINEAR),
    ("texts that aren't ASCII", ["skip", "rewrite"], 500, lambda n: array([head(3, 11) + "öffentlich".encode()] * n), LINEAR),
    ("a map with long names", ["skip", "rewrite"], 200, lambda n: pairs([(it, b"\xf6") for it in names(n)]), LINEAR),
    ("unknown members", ["decode-info"], 2000, lambda n: info(*[(text(f"x{it:05}"), b"\x00") for it in range(n)]), LINEAR),
    ("unknown members in chunks", ["decode-info"], 500, lambda n: info(*[(chunked(3, b"unknown"), b"\x00")] * n), LINEAR),
    ("an unknown member of many items", ["decode-info"], 8000, lambda n: info((b"\x18\x99", array([b"\x00"] * n))), LINEAR),
    ("rejected descriptors", ["decode-ga-request"], 400, lambda n: request(array([descriptor(id=b"\x00")] * n)), LINEAR),
    ("rejected numbers in a list", ["decode-ga-request"], 8000, lambda n: request(array([b"\x07"] * n)), LINEAR),
    ("descriptors", ["rewrite-ga-request"], 1200,
     lambda n: request(array([descriptor(transports=array([text("usb")]))] * n)), LINEAR),
    ("transports that aren't known", ["decode-info"], 800, lambda n: info((b"\x09", array([text("smart-card")] * n))), LINEAR),
    ("labels of a key", ["decode-mc-response"], 2000,
     lambda n: response(pairs([(b"\x01", b"\x02"), *[(head(0, it), b"\x00") for it in range(300, 300 + n)]])), ORDERED),
]  # fmt: skip


def counted(program, work, call, name, item):
    file = Path(work) / f"{name}, {call}, {len(item)}"
    file.write_bytes(item)
    if run(program, call, 1, file)[1] != len(item):
        sys.exit(f"{file.name}: the call did not find the whole input")
    return instructions_a_round(program, call, file, 1, 2)


def measure(program, work, shape, call):
    """The row of a shape and a call, and whether its ratio is above the limit."""
    name, _, parts, made, limit = shape
    small, large = (made(it) for it in (parts, 4 * parts))
    few, many = (counted(program, work, call, name, it) for it in (small, large))
    # what grows is compared: the parts beyond none
    base = counted(program, work, call, name, made(0))
    ratio = (many - base) / max(1, few - base)
    row = f"| {name} | `{call}` | {len(small):,} | {few:,} | {len(large):,} | {many:,} | {ratio:.2f} |"
    return row, ratio > limit


def main():
    program = sys.argv[1] if len(sys.argv) > 1 else PROGRAM
    print("| input | call | bytes | instructions | bytes | instructions | ratio |\n|---|---|---:|---:|---:|---:|---:|")
    wrong = 0
    with tempfile.TemporaryDirectory() as work, concurrent.futures.ThreadPoolExecutor() as pool:
        todo = [(shape, call) for shape in SHAPES for call in shape[1]]
        for row, is_above in pool.map(lambda it: measure(program, work, *it), todo):
            print(row + (" too much" if is_above else ""), flush=True)
            wrong += is_above
    print(f"\nbench/ratios.py: {len(todo)} ratios, {wrong} above the limit")
    sys.exit(1 if wrong else 0)


if __name__ == "__main__":
    main()

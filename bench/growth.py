"""growth.py PROGRAM: how the cost of a data item grows with its size, from 1 kB to 16 MiB, in instructions a byte and in memory.

The items are arrays of the maps of inputs.credential. The memory is the most that a run of one round had, which holds the input
and what the call makes."""
import os
import subprocess
import sys
import tempfile
from pathlib import Path

from inputs import array, credential
from measure import instructions_a_round

SIZES = [("1 KiB", 1 << 10), ("16 KiB", 1 << 14), ("256 KiB", 1 << 18), ("1 MiB", 1 << 20), ("4 MiB", 1 << 22), ("16 MiB", 1 << 24)]
CALLS = ("skip", "from_slice", "rewrite")
LEN = 45


def memory(program, call, file):
    with open(file, "rb") as stdin:
        started = subprocess.Popen([program, call, "1"], stdin=stdin, stdout=subprocess.DEVNULL)
    _, status, used = os.wait4(started.pid, 0)
    started.returncode = os.waitstatus_to_exitcode(status)
    return used.ru_maxrss / 1024


def main():
    program = sys.argv[1]
    print("| size | bytes | instructions a byte: `item_len` | `from_slice` | and `to_vec` | MiB at most: `item_len` | `from_slice` | and `to_vec` |")
    print("|---|---:|---:|---:|---:|---:|---:|---:|")
    with tempfile.TemporaryDirectory() as work:
        for name, size in SIZES:
            item = array([credential(it % 65536) for it in range(size // LEN)])
            file = Path(work) / "item"
            file.write_bytes(item)
            counts = [f"{instructions_a_round(program, call, file, 0, 1) / len(item):.1f}" for call in CALLS]
            most = [f"{memory(program, call, file):.1f}" for call in CALLS]
            print(f"| {name} | {len(item):,} | {' | '.join(counts + most)} |", flush=True)


if __name__ == "__main__":
    main()

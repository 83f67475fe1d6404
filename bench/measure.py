"""measure.py PROGRAM FOLDER TIMES times the program and FOLDER/baseline over the inputs in FOLDER.

The time is the processor's, user and system together, so that waiting for a busy processor doesn't count. That
of one round is the difference between a run of many rounds and a run of few, so that the start of the
process and the reading of the input don't count. The runs alternate between both programs.

Where valgrind is found, cachegrind counts the instructions of a round in the same way."""
import os
import re
import shutil
import statistics
import subprocess
import sys

from inputs import inputs

FEW = 2
# an input of fewer bytes takes so little that many rounds can be counted
SMALL = 1 << 16
# what one run takes, about, in seconds
LONG = 0.6


def run(program, call, rounds, file):
    """The processor's seconds that one run takes, and the sum that it prints."""
    with open(file, "rb") as stdin:
        started = subprocess.Popen([program, call, str(rounds)], stdin=stdin, stdout=subprocess.PIPE)
    printed = started.stdout.read()
    _, status, used = os.wait4(started.pid, 0)
    started.returncode = os.waitstatus_to_exitcode(status)
    if started.returncode != 0:
        sys.exit(f"{program} {call} {file}: status {started.returncode}")
    return used.ru_utime + used.ru_stime, int(printed)


def seconds_a_round(program, call, many, file, size):
    few_took, few_sum = run(program, call, FEW, file)
    many_took, many_sum = run(program, call, many, file)
    if (few_sum, many_sum) != (FEW * size, many * size):
        sys.exit(f"{program} {call} {file}: a round did not find the whole input")
    return (many_took - few_took) / (many - FEW)


def rounds_for(program, call, file, size):
    a_round = max(seconds_a_round(program, call, FEW + 5, file, size), 1e-5)
    return FEW + max(5, int(LONG / a_round))


def measure(programs, call, file, size, times):
    """For each program the seconds of a round, one for each of so many turns."""
    rounds = [rounds_for(it, call, file, size) for it in programs]
    turns = [
        [seconds_a_round(it, call, many, file, size) for it, many in zip(programs, rounds)] for _ in range(times)
    ]
    return list(zip(*turns))


def instructions(program, call, rounds, file):
    """What one run executes outside the kernel, as cachegrind counts it."""
    words = ["valgrind", "--tool=cachegrind", "--cache-sim=no", "--cachegrind-out-file=/dev/null"]
    with open(file, "rb") as stdin:
        ran = subprocess.run([*words, program, call, str(rounds)], stdin=stdin, capture_output=True, text=True, check=True)
    return int(re.search(r"I\s+refs:\s+([\d,]+)", ran.stderr)[1].replace(",", ""))


def instructions_a_round(program, call, file, few=None, many=None):
    """Of a run of many rounds less those of a run of few: so starting the process and reading the input don't count, nor the first
    rounds, in which malloc hasn't been asked for these sizes before. Of a large input a few rounds are enough."""
    if many is None:
        few, many = (10, 60) if os.stat(file).st_size < SMALL else (2, 4)
    counts = [instructions(program, call, rounds, file) for rounds in (few, many)]
    return (counts[1] - counts[0]) // (many - few)


def instructions_a_byte(program, call, file, size):
    if not shutil.which("valgrind"):
        return "?"
    counts = [instructions(program, call, it, file) for it in (1, 2)]
    return f"{(counts[1] - counts[0]) / size:.1f}"


def row(name, call, size, measured, counted):
    speeds = [[size / 1e6 / it for it in each] for each in measured]
    ours, baseline = (statistics.median(it) for it in speeds)
    ranges = [f"{min(it):.1f} to {max(it):.1f}" for it in speeds]
    figures = [f"{ours:.1f}", ranges[0], f"{baseline:.1f}", ranges[1], f"{ours / baseline:.2f}", *counted]
    return f"| {name} | {call} | {' | '.join(figures)} |"


def main():
    program, folder, times = sys.argv[1], sys.argv[2], int(sys.argv[3])
    programs = (program, f"{folder}/baseline")
    print("| input | call | MB/s | range | baseline MB/s | range | ratio | instructions a byte | baseline |")
    print("|---|---|---|---|---|---|---|---|---|")
    for name in inputs():
        file = f"{folder}/{name}"
        with open(file, "rb") as it:
            size = len(it.read())
        for call in ("skip", "from_slice"):
            measured = measure(programs, call, file, size, times)
            counted = [instructions_a_byte(it, call, file, size) for it in programs]
            print(row(name, call, size, measured, counted), flush=True)


if __name__ == "__main__":
    main()

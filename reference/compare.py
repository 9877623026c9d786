#!/usr/bin/env python3
"""Holds two programs against the reference: compare.py PROGRAM_EDF PROGRAM_FP COUNT SEED

Makes COUNT pairs of files, runs each program on each pair, with the two paths as arguments, and compares the bytes
that it writes and its exit status with what the reference says. The files of a difference are kept.
"""

import os
import random
import subprocess
import sys
import tempfile
from collections import Counter

from generate import any_pair
from selfcheck import self_check
from size import report

MOST_SHOWN = 5
TIME_LIMIT = 600


def write_pair(folder, pair):
    """Writes the two files, and answers their paths; a file that is None is not written."""
    paths = []
    for name, data in zip(("processor.csv", "tasks.csv"), pair):
        path = os.path.join(folder, name)
        if os.path.exists(path):
            os.remove(path)
        if data is not None:
            with open(path, "wb") as file:
                file.write(data)
        paths.append(path)
    return paths


def run(program, paths):
    try:
        done = subprocess.run([program, *paths], stdout=subprocess.PIPE, stderr=subprocess.DEVNULL, timeout=TIME_LIMIT)
    except subprocess.TimeoutExpired:
        return b"", "over the time limit"
    return done.stdout, done.returncode


def first_difference(wanted, got):
    for number, (left, right) in enumerate(zip(wanted.split(b"\n"), got.split(b"\n"))):
        if left != right:
            return f"line {number}: wanted {left!r}, got {right!r}"
    return f"wanted {len(wanted)} bytes, got {len(got)}"


def count_lines(counts, policy, output, status):
    """Counts the faults, the answers and the kinds of drives in an output."""
    lines = output.decode().split("\r\n")[:-1]
    if status == 1:
        counts[f"fault {lines[0].split(',')[1]}"] += 1
        return
    for line in lines[1:]:
        fields = line.split(",")
        counts[f"{policy} answer {fields[1]}"] += 1
        if fields[1] == "0":
            counts[f"{policy} let in on a {'pair' if fields[8] != '1' else 'fixed mode'}"] += 1


def keep(number, policy, pair):
    folder = tempfile.mkdtemp(prefix=f"differs-{number}-{policy}-")
    write_pair(folder, pair)
    return folder


def main():
    if len(sys.argv) != 5:
        sys.exit("compare.py PROGRAM_EDF PROGRAM_FP COUNT SEED")
    programs = {"edf": sys.argv[1], "fp": sys.argv[2]}
    count, seed = int(sys.argv[3]), int(sys.argv[4])
    self_check(200, seed)
    rng = random.Random(seed)
    counts = Counter()
    differences = 0
    with tempfile.TemporaryDirectory() as folder:
        for number in range(count):
            pair = any_pair(rng)
            paths = write_pair(folder, pair)
            for policy, program in programs.items():
                wanted, status = report(policy, pair[0] or b"", pair[1] or b"")
                count_lines(counts, policy, wanted, status)
                got, code = run(program, paths)
                if (got, code) != (wanted, status):
                    differences += 1
                    if differences <= MOST_SHOWN:
                        print(f"pair {number}, {policy}: {first_difference(wanted, got)}; status {status} and {code}")
                        print(f"  files kept in {keep(number, policy, pair)}", flush=True)
    for name in sorted(counts):
        print(f"{counts[name]:7} {name}")
    print(f"{2 * count} runs on {count} pairs, {differences} differences")
    sys.exit(1 if differences else 0)


if __name__ == "__main__":
    main()

#!/usr/bin/env python3
"""Runs a program on traces and compares with the reference.

    compare.py PROGRAM TRACE..                  the program reads the trace from standard input
    compare.py PROGRAM --seeds FROM TO LINES    on generate.py's traces of these seeds (those that differ are kept as differs-SEED.trace)

PROGRAM may have options, in one word with spaces. Status 1 where any differs.
"""
import pathlib
import shlex
import subprocess
import sys

sys.path.insert(0, str(pathlib.Path(__file__).parent))
import generate
import reference


def differs(program, name, data):
    want, status = reference.answers(data)
    ran = subprocess.run(shlex.split(program), input=data, capture_output=True)
    got = ran.stdout.decode("ascii", "backslashreplace")
    if (got, ran.returncode) == (want, status):
        return False
    print(f"{name}: status {ran.returncode}, and {status} wanted")
    g, w = got.splitlines(), want.splitlines()
    at = next((i for i, pair in enumerate(zip(g, w)) if pair[0] != pair[1]), min(len(g), len(w)))
    print(f"  answer {at + 1}: {g[at] if at < len(g) else '(none)'}")
    print(f"  wanted:  {w[at] if at < len(w) else '(none)'}")
    print(f"  line {line_of(data, at)}")
    if ran.stderr:
        print("  stderr:", ran.stderr.decode(errors="replace")[:300])
    return True


def line_of(data, at):
    """The line of the trace that prints the answer at this place."""
    count = 0

    def write(_):
        nonlocal count
        count += 1

    replay = reference.Replay(write)
    for number, line in enumerate(data.split(b"\n"), 1):
        try:
            going = replay.line(line)
        except reference.Fault:
            return f"{number}: (fault)"
        if count > at or not going:
            return f"{number}: {line.decode('ascii', 'backslashreplace')[:150]}"
    return "(end)"


def main(words):
    if len(words) < 3:
        print(__doc__.strip(), file=sys.stderr)
        return 2
    program, bad, total = words[1], 0, 0
    if words[2] == "--seeds":
        first, last, lines = map(int, words[3:6])
        for seed in range(first, last + 1):
            data = generate.trace(seed, lines).encode()
            total += 1
            if differs(program, f"seed {seed}", data):
                bad += 1
                pathlib.Path(f"differs-{seed}.trace").write_bytes(data)
    else:
        for name in words[2:]:
            total += 1
            bad += differs(program, name, pathlib.Path(name).read_bytes())
    print(f"{total} traces, {bad} differ")
    return 1 if bad else 0


if __name__ == "__main__":
    sys.exit(main(sys.argv))

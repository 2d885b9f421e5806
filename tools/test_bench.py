#!/usr/bin/env python3
"""Run the program `bench` on the stored days (crates/vectors/data).

    python3 tools/test_bench.py [COMMAND]

It must print the stored lines, `agree` after each, and at the end `agree N` with their number; of a refused
file the one stored line. COMMAND is the program under test, crates/bench/out/bench where it is not given
(`rt run` in crates/bench builds it).
"""

import shlex
import shutil
import subprocess
import sys

sys.dont_write_bytecode = True

from engine import DATA, ROOT

PROGRAM = [str(ROOT / "crates" / "bench" / "out" / "bench")]


def wanted(lines):
    """What bench must print, from what replay must."""
    if lines and lines[0].startswith("refused"):
        return lines
    return [text for line in lines for text in (line, "agree")] + [f"agree {len(lines)}"]


def fault(path):
    """Where the output is another one, in words, or None."""
    done = subprocess.run(PROGRAM, input=path.read_bytes(), capture_output=True, check=False)
    got = done.stdout.decode("latin-1").splitlines()
    stored = wanted(path.with_suffix(".lines").read_text().splitlines())
    for number, (mine, theirs) in enumerate(zip(got, stored), 1):
        if mine != theirs:
            return f"line {number} is `{mine[:200]}` and not `{theirs[:200]}`"
    if len(got) != len(stored) or done.returncode != 0:
        return f"{len(got)} lines for {len(stored)}, status {done.returncode}, {done.stderr[:200]}"
    return None


def main():
    PROGRAM[:] = shlex.split(sys.argv[1]) if len(sys.argv) > 1 else PROGRAM
    if not shutil.which(PROGRAM[0]):
        sys.exit(f"{PROGRAM[0]} is not built (`rt run` in crates/bench builds it)")
    days = sorted(DATA.glob("*.day"))
    for path in days:
        found = fault(path)
        if found:
            sys.exit(f"{path.name}: {found}")
    print(f"{len(days)} days: engine and dispatcher agree after each line")


if __name__ == "__main__":
    main()

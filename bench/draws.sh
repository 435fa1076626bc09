#!/usr/bin/env bash
# Measures counts of the lines of 16 MB in which `abcd` occurs, by one, two and four workers that draw chunks of lines,
# once the text is read and its line ends are found: the least microseconds of nine by `bench draws`, for lines of
# random hexadecimal digits of 7, 16 and 100 bytes with their ends, and how many times as fast several workers are. Then
# four calls at once by one worker each beside one alone, which is the most that four workers can gain here. The calls
# are taken in turn, eleven of each or as many as the argument says; it prints the median of each ratio. It builds the
# program first, says the load before and after, and needs python3. Run it as `bash bench/draws.sh`, from any folder, on
# a machine with four idle processors.
set -euo pipefail
crate=$(cd "$(dirname "${BASH_SOURCE[0]}")/.." && pwd)/crates/bench
(cd "$crate" && rt run > /dev/null)

folder=$(mktemp -d)
trap 'rm -rf "$folder"' EXIT
cd "$folder"

uptime
python3 - "$crate/out/bench" "${1:-11}" <<'PYTHON'
import random, statistics, subprocess, sys

PROGRAM, TURNS, SIZE = sys.argv[1], int(sys.argv[2]), 16_000_000
dice = random.Random(7)


def started(text):
    return subprocess.Popen([PROGRAM, "draws", "abcd", text], stdout=subprocess.PIPE, text=True)


def times(child):
    return dict(map(int, line.split()) for line in child.communicate()[0].splitlines())


for width in (7, 16, 100):
    count, own = SIZE // width, width - 1
    digits = f"{dice.getrandbits(4 * count * own):0{count * own}x}"
    text = f"text{width}.txt"
    with open(text, "w") as file:
        file.writelines(digits[k * own:(k + 1) * own] + "\n" for k in range(count))
    turns = []
    for _ in range(TURNS):
        alone = times(started(text))
        at_once = [times(child) for child in [started(text) for _ in range(4)]]
        turns.append((alone[1], alone[1] / alone[2], alone[1] / alone[4], 4 * alone[1] / max(found[1] for found in at_once)))
    one, two, four, calls = map(statistics.median, zip(*turns))
    print(f"lines of {width} bytes: one worker {one:.0f} us, two {two:.2f} times as fast, four {four:.2f}; four calls at "
          f"once {calls:.2f} times one")
PYTHON
uptime

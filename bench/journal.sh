#!/usr/bin/env bash
# Measures the reading and the writing of a journal's text, by `bench journals`, on a journal of nearly 67,108,864
# bytes: the seconds of reading beside those of `wc -w` on the same file, the bytes of memory an entry besides the
# file's own, and the megabytes that are written in a second into a file. The best of seven. It builds the program
# first, and needs python3 and GNU time. Run it as `bash bench/journal.sh`, from any folder.
set -euo pipefail
crate=$(cd "$(dirname "${BASH_SOURCE[0]}")/.." && pwd)/crates/bench
(cd "$crate" && rt run > /dev/null)
program=$crate/out/bench

folder=$(mktemp -d)
trap 'rm -rf "$folder"' EXIT
cd "$folder"

entries=$(python3 - <<'PYTHON'
import random
draw = random.Random(1)
lines = ["flow journal 2\n"]
size, place = len(lines[0]), 0
def some(most):
    return ",".join(str(draw.randrange(most)) for _ in range(draw.choice([1, 1, 2])))
while True:
    both = f"start {draw.randrange(100000)} strong {some(max(place, 1))}\nend {place} {some(200000)} plain\n"
    if size + len(both) > 67108864:
        break
    lines.append(both)
    size, place = size + len(both), place + 2
open("journal.txt", "w").write("".join(lines))
print(place)
PYTHON
)

# The least seconds of a command, and the least microseconds that it tells.
best() {
    python3 - "$@" <<'PYTHON'
import subprocess, sys, time
seconds = micros = float("inf")
for _ in range(7):
    with open("printed.txt", "wb") as printed:
        start = time.perf_counter()
        done = subprocess.run(sys.argv[1:], stdout=printed, stderr=subprocess.PIPE, check=True)
        seconds = min(seconds, time.perf_counter() - start)
    told = done.stderr.split()
    micros = min(micros, int(told[0]) if told else 0)
print(seconds, micros)
PYTHON
}

# The peak of memory, in kilobytes.
peak() {
    /usr/bin/time -f %M "$program" journals "$1" journal.txt 2>&1 >/dev/null | tail -n 1
}

read -r words _ <<<"$(best wc -w journal.txt)"
read -r whole micros <<<"$(best "$program" journals read journal.txt)"
read -r _ written <<<"$(best "$program" journals print journal.txt)"
cmp journal.txt printed.txt
awk -v words="$words" -v whole="$whole" -v micros="$micros" -v written="$written" -v entries="$entries" \
    -v none="$(peak none)" -v all="$(peak read)" -v size="$(wc -c <journal.txt)" 'BEGIN {
    printf "%d entries in %d bytes\n", entries, size
    printf "wc -w: %.2f s; the program that reads the journal: %.2f s, ratio %.2f; the reading alone: %.2f s, ratio %.2f\n", words, whole, whole / words, micros / 1e6, micros / 1e6 / words
    printf "%.0f bytes an entry besides the file\n", (all - none) * 1024 / entries
    printf "written at %.0f MB/s\n", size / written
}'

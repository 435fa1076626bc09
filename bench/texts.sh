#!/usr/bin/env bash
# Measures the operations on texts, each alone: `bench texts` reads a text of 16 MB once and applies the operation eight
# times. Beside it stand GNU sort, an awk program that matches lines, `grep -F`, and the copy of as many bytes as the
# operation gives into memory that wasn't used before. The best of three runs counts; a tool's time is that of its whole
# run. Where there is a `rustc`, the same work stands beside it in an unverified Rust program (bench/peers/texts.rs),
# which keeps copies of all values and a journal, or shares texts and frees them: the ratios to both end the line. It
# builds the programs first. Run it as `bash bench/texts.sh`, from any folder, on a machine with an idle processor.
set -euo pipefail
bench=$(cd "$(dirname "${BASH_SOURCE[0]}")" && pwd)
crate=$bench/../crates/bench
(cd "$crate" && rt run > /dev/null)
program=$crate/out/bench

folder=$(mktemp -d)
trap 'rm -rf "$folder"' EXIT
cd "$folder"
export LC_ALL=C
if command -v rustc > /dev/null; then rustc -O -o peer "$bench/peers/texts.rs"; fi

# A text of 16 MB, of lines with so many random letters and digits. Where they are long the first eight are a key.
random_lines() {
    python3 - "$1" <<'PYTHON'
import random, sys
width = int(sys.argv[1])
letters = b"abcdefghijklmnopqrstuvwxyz0123456789"
table = bytes(letters[byte % 36] for byte in range(256))
bytes_ = random.Random(1).randbytes(16 * 1024 * 1024 // (width + 1) * width).translate(table)
for at in range(0, len(bytes_), width):
    line = bytes_[at : at + width]
    sys.stdout.buffer.write((line[:8] + b" " + line[9:] if width > 9 else line) + b"\n")
PYTHON
}
random_lines 99 > long.txt
random_lines 6 > short.txt

# A text of as many short lines, of which so many differ.
few_lines() {
    python3 - short.txt "$1" <<'PYTHON'
import random, sys
lines = open(sys.argv[1], "rb").readlines()
sys.stdout.buffer.write(b"".join(random.Random(2).choices(lines[:int(sys.argv[2])], k=len(lines))))
PYTHON
}
few_lines 100 > few.txt
few_lines 1000 > some.txt
few_lines 100000 > many.txt

# The first half of each, which is matched with itself, and the half twice, which is tallied: so no value is too long.
for text in long short; do
    head -n $(($(wc -l < $text.txt) / 2)) $text.txt > $text.half.txt
    cat $text.half.txt $text.half.txt > $text.twice.txt
done

# For each line of the second reading, the first line of the first one with the same key, which ends before a space.
cat > match.awk <<'AWK'
{
    at = index($0, " ")
    key = at ? substr($0, 1, at - 1) : $0
    behind = at ? substr($0, at) : ""
}
NR == FNR { if (!(key in first)) first[key] = behind; next }
key in first { print $0 first[key] }
AWK

# The least microseconds, how many bytes come of it, and the most memory in use, of the program.
measure() {
    python3 - "$program" texts "$@" <<'PYTHON'
import resource, subprocess, sys
runs = [subprocess.run(sys.argv[1:], capture_output=True, check=True).stdout.split() for _ in range(3)]
micros, size = min(runs, key=lambda run: int(run[0]))
print(int(micros), int(size), resource.getrusage(resource.RUSAGE_CHILDREN).ru_maxrss // 1024)
PYTHON
}

# The least microseconds of the peer, or 0 where there is none.
peer() {
    [[ -x ./peer ]] || { echo 0; return; }
    for _ in 1 2 3; do ./peer "$@"; done | sort -n | awk 'NR == 1 { print $1 }'
}

# The least microseconds of a command of the shell, whose output goes to a file: `grep` stops at the first line that
# it finds where nobody reads the output.
time_of() {
    python3 - "$1" <<'PYTHON'
import subprocess, sys, time
best = float("inf")
for _ in range(3):
    with open("printed.txt", "wb") as printed:
        start = time.perf_counter()
        subprocess.run(sys.argv[1], shell=True, stdout=printed)
        best = min(best, time.perf_counter() - start)
print(round(best * 1e6))
PYTHON
}

# One line: the operation, its time and memory, what it stands beside and their ratio, and the ratios to the peers.
tell() {
    awk -v text="$1" -v name="$2" -v micros="$3" -v size="$4" -v memory="$5" -v beside="$6" -v other="$7" \
        -v keeps="$8" -v shares="$9" 'BEGIN {
        printf "%-5s %-8s %9.1f ms %9d bytes %4d MB", text, name, micros / 1000, size, memory
        if (other + 0 > 0) printf "   %s %.1f ms, ratio %.2f", beside, other / 1000, micros / other
        if (shares + 0 > 0) printf "   Rust %.2f and %.2f", micros / keeps, micros / shares
        printf "\n"
    }'
}

for text in long short few some many; do
    half=$(($(wc -l < $text.txt) / 2))
    operations=("head $half" "tail $half" "skip $half" "keep abc" "without abc" uniq count sort tally match)
    case $text in few | some | many) operations=(sort tally) ;; esac
    for operation in "${operations[@]}"; do
        read -r name operand <<< "$operation"
        case $name in
            tally) [[ -f $text.twice.txt ]] && file=$text.twice.txt || file=$text.txt ;;
            match) file=$text.half.txt ;;
            *) file=$text.txt ;;
        esac
        read -r micros size memory < <(measure "$name" $file "$operand")
        case $name in
            keep) beside="grep -F" other=$(time_of "grep -F '$operand' $file") ;;
            sort) beside="GNU sort" other=$(time_of "sort --parallel=1 -S 1G $file") ;;
            tally) beside="sort | uniq -c" other=$(time_of "sort --parallel=1 -S 1G $file | uniq -c") ;;
            match) beside="awk" other=$(time_of "awk -f match.awk $file $file") ;;
            *) beside="a copy" && read -r other _ _ < <(measure copy $file "$size") ;;
        esac
        tell "$text" "$name" "$micros" "$size" "$memory" "$beside" "$other" \
            "$(peer keeps "$name" $file "$operand")" "$(peer shares "$name" $file "$operand")"
    done
done

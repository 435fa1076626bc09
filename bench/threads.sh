#!/usr/bin/env bash
# Measures the calls of the crates that threads share, in nanoseconds: five calls of `bench threads`, of which the least
# figure of each line counts. It builds the program first. Run it as `bash bench/threads.sh`, from any folder, on a
# machine with four idle processors.
set -euo pipefail
cd "$(dirname "${BASH_SOURCE[0]}")/../crates/bench"
rt run > /dev/null
for _ in 1 2 3 4 5; do
    ./out/bench threads
done

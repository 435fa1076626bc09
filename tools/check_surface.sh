#!/usr/bin/env bash
# What other programs say of the manual page, the completion, the schema and the pictures. One that isn't there is named and
# left out. Ends with status 1 if one finds a fault.
set -euo pipefail
cd "$(dirname "${BASH_SOURCE[0]}")/.."

faults=0

# Whether a program is there; says so if it isn't.
has() {
    command -v "$1" >/dev/null || { echo "surface: $1 isn't here, so $2 isn't tried"; return 1; }
}

if has mandoc 'the manual page'; then
    said=$(mandoc -Tlint man/flow.1 || true)
    [[ -z $said ]] || { echo "$said" >&2; faults=1; }
fi
if has shellcheck 'the completion'; then
    shellcheck share/flow.bash tools/make_pictures.sh tools/check_surface.sh || faults=1
fi
if has dot 'what flow-dot writes'; then
    for graph in examples/*/graph.json; do
        # A graph that the program refuses has no picture.
        if text=$(tools/flow-dot "$graph" 2>/dev/null); then
            dot -Tsvg <<<"$text" >/dev/null || { echo "surface: dot refuses the picture of $graph" >&2; faults=1; }
        fi
    done
fi
python3 -B tools/schema_cases.py || faults=1
exit "$faults"

#!/usr/bin/env bash
# Makes the pictures of the documents from examples: a graph by tools/flow-dot and Graphviz, and a run by tools/flow-trace
# from the journal that the example has. Where Graphviz isn't there it says so and makes the second alone. Where
# rsvg-convert is there, it tries whether both can be drawn.
set -euo pipefail
cd "$(dirname "${BASH_SOURCE[0]}")/.."

graph=docs/log-triage.svg
run=docs/errors-by-service-run.svg

# Each picture is made beside the one that there is, which stays if that fails.
made=$(mktemp)
trap 'rm -f "$made"' EXIT

if command -v dot >/dev/null; then
    tools/flow-dot examples/log-triage/graph.json | dot -Tsvg >"$made"
    cat "$made" >"$graph"
else
    echo "pictures: Graphviz isn't here, so $graph stays as it is"
fi

example=examples/errors-by-service
tools/flow-trace "$example/graph.json" "$example/journal.txt" --title "A run of $example by four workers" >"$made"
cat "$made" >"$run"

if command -v rsvg-convert >/dev/null; then
    for picture in "$graph" "$run"; do
        rsvg-convert "$picture" >/dev/null || { echo "pictures: $picture can't be drawn" >&2; exit 1; }
    done
fi

#!/usr/bin/env bash
# Holds README.md, docs/, the manual page and the completion against the sources. Prints nothing where they agree; else
# a line for each difference, and ends with status 1. A check that finds nothing to look at is a difference too.
set -euo pipefail
cd "$(dirname "${BASH_SOURCE[0]}")/.."

differences=$(mktemp)
trap 'rm -f "$differences"' EXIT

faults=0
fault() {
    echo "docs: $1" >&2
    faults=$((faults + 1))
}

# Whether a document has this text, as it stands.
has() {
    grep -qF -- "$2" "$1"
}

# The lines of standard input go into `found`, what there is to check. There has to be something.
find_each() {
    mapfile -t found
    ((${#found[@]} > 0)) || fault "there is nothing to check: $1"
}

documents=(README.md docs/LIBRARY.md docs/THEOREM.md docs/PROVED.md docs/ANSWERS.md docs/ARCHITECTURE.md docs/DEFINITIONS.md docs/FORMATS.md docs/HANDBOOK.md docs/DECISIONS.md docs/TESTING.md)
for document in "${documents[@]}"; do
    if [[ ! -f $document ]]; then
        fault "$document isn't there"
        exit 1
    fi
done

# What follows a document's name and a space, for each match of a pattern in a document.
matches() {
    grep -oE "$1" "${documents[@]}" /dev/null | sed 's/:/ /' | sort -u
}

# Each crate of crates.txt is there, and the first line of its root says what it is for. Each folder in crates/ is one.
crates=$(sed -E 's/#.*//; s/[ :].*//; /^$/d' crates.txt)
find_each "crates in crates.txt" < <(printf '%s' "$crates")
for crate in "${found[@]}"; do
    root=crates/$crate/src/lib.rt
    [[ -f $root ]] || root=crates/$crate/src/main.rt
    if [[ ! -f $root ]]; then
        fault "crates.txt names $crate, which has no root file in crates/$crate/src"
    elif ! head -n 1 "$root" | grep -qE '^//! .'; then
        fault "$root doesn't begin with a line that says what the crate is for"
    fi
done
find_each "folders in crates/" < <(ls crates)
for crate in "${found[@]}"; do
    grep -qx -- "$crate" <<<"$crates" || fault "crates/$crate isn't in crates.txt"
done

# The crates in the picture of docs/ARCHITECTURE.md are in crates.txt, and those of crates.txt are in the picture.
find_each "the picture of crates in docs/ARCHITECTURE.md" < <(sed -n '/^## The crates/,/^## /p' docs/ARCHITECTURE.md | grep -E '^    ' | sed 's/ -- .*//' | grep -owE '[a-z_]+')
for crate in "${found[@]}"; do
    grep -qx -- "$crate" <<<"$crates" || fault "docs/ARCHITECTURE.md pictures $crate, which crates.txt hasn't"
done
pictured=$(printf '%s\n' "${found[@]}")
for crate in $crates; do
    grep -qx -- "$crate" <<<"$pictured" || fault "docs/ARCHITECTURE.md doesn't picture $crate"
done

# Each name in code letters, of a crate, a function, a type or a definition, is a word of the sources.
source_words=$(find crates tools bench examples crates.txt Makefile HANDLES -name out -prune -o -type f -print0 | xargs -0 grep -ohE '[A-Za-z_]+' | LC_ALL=C sort -u)
find_each "names in code letters" < <(matches '`([A-Za-z_]+::)*[A-Za-z_]+`' | tr -d '`')
for match in "${found[@]}"; do
    name=${match##*[ :]}
    printf '%s %s\n' "$name" "${match%% *}"
done | LC_ALL=C sort | LC_ALL=C join -v 1 - <(printf '%s\n' "$source_words") >"$differences"
while read -r name document; do
    fault "$document names $name, a word that no source has"
done <"$differences"

# Each file of definitions that public clauses cite says what it defines, and each that a document names is there.
python3 -B tools/list_definitions.py --check || fault "a file of definitions doesn't say what it defines"
for document in docs/DEFINITIONS.md docs/THEOREM.md; do
    find_each "files that $document names" < <(grep -ohE '`[a-z_]+/specs/[A-Za-z/]+\.antt`' "$document" | tr -d '`' | sort -u)
    for file in "${found[@]}"; do
        [[ -f crates/$file ]] || fault "$document names $file, which isn't there"
    done
done

# Each method that docs/PROVED.md names is there.
find_each "methods in docs/PROVED.md" < <(grep -oE '`[A-Z][A-Za-z]*::[a-z_]+`' docs/PROVED.md | tr -d '`' | sort -u)
for method in "${found[@]}"; do
    grep -rqE "fn ${method#*::}\b" crates/*/src --include='*.rt' || fault "docs/PROVED.md names $method, which isn't there"
done

# The theorem's page has the length of each file that it names.
find_each "lengths of files in docs/THEOREM.md" < <(sed -nE 's/.*`([a-z_]+\/specs\/[A-Za-z\/]+\.antt)` \| ([0-9]+) \|$/\1 \2/p' docs/THEOREM.md)
for row in "${found[@]}"; do
    [[ ! -f crates/${row% *} || $(wc -l <"crates/${row% *}") == "${row#* }" ]] || fault "docs/THEOREM.md says ${row#* } lines of ${row% *}"
done

# It names the files of the definitions that the clauses of flow_main rest on, and no others.
python3 -B tools/list_theorem.py --check || fault "docs/THEOREM.md names other definitions than the clauses of flow_main cite"

# Each definition that public clauses cite has a claim, or the tool has the reason why it has none.
python3 -B tools/list_claims.py --check || fault "tools/list_claims.py finds definitions without a claim, or reasons that aren't needed"

# Each answer of a public call has its cause: a clause of the call, or a test that is there.
python3 -B tools/list_answers.py --check || fault "docs/ANSWERS.md has other answers, clauses or tests than there are"

# Each case that a row of its limits names in quotes is one of the program's, or of the files of test_graphs.
find_each "cases at limits in docs/TESTING.md" < <(sed -n '/^## Limits/,/^## /p' docs/TESTING.md | grep -oE '"[^"]+"' | tr -d '"' | sort -u)
for case in "${found[@]}"; do
    grep -qF -- "$case" tools/check_program.sh crates/test_graphs/src/file_cases.rt || fault "docs/TESTING.md names a case \"$case\", which isn't there"
done

# The code in docs/LIBRARY.md is that of crates that the gate proves and runs. The graph files and scripts in docs/HANDBOOK.md
# are those of examples.
python3 -B tools/quoted_code.py docs/LIBRARY.md library_tour async_tasks desk_book grain_tasks run_desk desk_trials test_grains || fault "docs/LIBRARY.md quotes other code than there is"
python3 -B tools/quoted_code.py docs/HANDBOOK.md examples/ || fault "docs/HANDBOOK.md quotes other files than those of examples"

# Each file of the repository that a document links to or names in code letters is there.
find_each "links" < <(matches '\]\([^)#: ]+' | sed 's/ ](/ /')
for match in "${found[@]}"; do
    document=${match%% *} link=${match#* }
    [[ -e $(dirname "$document")/$link ]] || fault "$document links to $link, which isn't there"
done
# So is each heading to which a link leads, behind '#' in small letters with '-' between its words.
headings_of() {
    sed -nE 's/^#+ +//p' "$1" | tr -d '`' | tr 'A-Z ' 'a-z-' | tr -cd 'a-z0-9_\n-'
}
find_each "links to headings" < <(matches '\]\([^)#: ]*#[^) ]+' | sed 's/ ](/ /')
for match in "${found[@]}"; do
    document=${match%% *} link=${match#* }
    target=$document
    [[ -z ${link%%#*} ]] || target=$(dirname "$document")/${link%%#*}
    [[ -f $target ]] || continue
    headings_of "$target" | grep -qx -- "${link#*#}" || fault "$document links to $link, a heading that isn't there"
done
find_each "paths in code letters" < <(matches '`(crates|docs|tools|examples|bench|\.ci)/[A-Za-z0-9_./-]+`' | tr -d '`')
for match in "${found[@]}"; do
    [[ -e ${match#* } ]] || fault "${match%% *} names ${match#* }, which isn't there"
done

# docs/FORMATS.md is where limits stand: README.md and the manual page have no other number of thousands.
find_each "numbers of thousands" < <(grep -oE '[0-9]{1,3}(,[0-9]{3})+' README.md man/flow.1 | sed 's/:/ /' | sort -u)
for match in "${found[@]}"; do
    has docs/FORMATS.md "${match#* }" || fault "${match% *} has a limit of ${match#* }, which docs/FORMATS.md hasn't"
done

# It is where commands, options, operations and fields stand, as the program's definitions have them. The manual page and the
# completion are made from it.
python3 -B tools/manual.py --check || fault "the command line isn't the same everywhere; see tools/manual.py --help"

# It is where exit codes stand, with the numbers of the definition. README.md has no other number.
codes=$(sed -nE 's/^code_of .* = ([0-9]+)$/\1/p' crates/call_status/specs/Codes.antt | sort -nu || true)
find_each "exit codes in crates/call_status/specs/Codes.antt" < <(printf '%s' "$codes")
listed=$(sed -n '/^## Exit codes/,/^They are tried/p' docs/FORMATS.md | sed -nE 's/^\| [A-Z][A-Za-z]* \| ([0-9]+) \|.*/\1/p' | sort -nu)
[[ $listed == "$codes" ]] || fault "docs/FORMATS.md has other exit codes than crates/call_status/specs/Codes.antt"
find_each "exit codes in README.md" < <(sed -n '/^## Exit codes/,/^## [^E]/p' README.md | sed -nE 's/^    ([0-9, ]+) .*/\1/p' | grep -oE '[0-9]+' | sort -nu)
for code in "${found[@]}"; do
    grep -qx -- "$code" <<<"$codes" || fault "README.md tells of the exit code $code, which there isn't"
done

# Each command of the Makefile that README.md tells is a target.
find_each "commands of the Makefile in README.md" < <(grep -oE '(`|^    )make [a-z]+' README.md | sed -E 's/.*make //' | sort -u)
for target in "${found[@]}"; do
    grep -qE "^$target:" Makefile || fault "README.md tells 'make $target', which isn't a target"
done

# Each example has a graph and what the program is to print, and README.md or docs/HANDBOOK.md tells of it. What the gate
# runs is one.
find_each "examples" < <(ls examples)
for example in "${found[@]}"; do
    for file in graph.json expected.txt; do
        [[ -f examples/$example/$file ]] || fault "examples/$example has no $file"
    done
    grep -qF -- "\`examples/$example\`" README.md docs/HANDBOOK.md || fault "neither README.md nor docs/HANDBOOK.md names examples/$example"
done
for pair in graph.json:data/graph.json a.log:data/a.log b.log:data/b.log c.log:data/c.log expected.txt:stdout; do
    cmp -s "examples/log-join/${pair%:*}" "crates/flow/${pair#*:}" || fault "crates/flow/${pair#*:} isn't the example's ${pair%:*}"
done

# No document names a path of one machine.
if grep -nE '(^|[^A-Za-z0-9_.])/(opt|work|home|root|tmp|usr)/' "${documents[@]}" >&2; then
    fault "a document names a path of one machine"
fi

((faults == 0))

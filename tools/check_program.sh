#!/usr/bin/env bash
# Runs the built program on each of the examples, also by 1, 4 and 16 workers and in version 2 of its graph file, on
# graphs with semaphores and pipelines, also random ones, for rounds and profiles, for lines with a word, at each limit
# and one past it, on command lines and files that it refuses, on texts of which one can't be read, on outputs that fail
# and without memory, and compares its exit code, standard output and standard error; and counts the threads of runs by
# several workers. Prints a line for each difference, and ends with status 1 where there is one. Its one argument is the
# program; without it that of the last build is run.
set -euo pipefail
top=$(realpath "$(dirname "${BASH_SOURCE[0]}")/..")
program=$(realpath "${1:-$top/crates/flow/out/flow}")
cd "$top"

seen=$(mktemp -d)
trap 'chmod -R u+rwX "$seen" || true; rm -rf "$seen"' EXIT

cases=0
faults=0
fault() {
    echo "program: $1" >&2
    faults=$((faults + 1))
}

# Compares what was seen of a call with the code, output and notes that it is to have.
compare() {
    local what=$1 code=$2 out=$3 notes=$4
    cases=$((cases + 1))
    [[ $(cat "$seen/code") == "$code" ]] || fault "$what ends with code $(cat "$seen/code"), not $code"
    cmp -s "$seen/out" "$out" || fault "$what puts other bytes on its output than are wanted"
    cmp -s "$seen/notes" "$notes" || fault "$what notes: $(cat "$seen/notes")"
}

# Calls the program with these words, with so many kilobytes of memory, and behind this command if there is one.
memory=unlimited
behind=()
call() {
    local code=0
    (
        ulimit -v "$memory"
        exec "${behind[@]}" "$program" "$@" >"$seen/out" 2>"$seen/notes"
    ) || code=$?
    echo "$code" >"$seen/code"
}

# The text of a file, or nothing where it isn't there.
copy_or_empty() {
    if [[ -f $1 ]]; then cat "$1"; fi >"$2"
}

# An example's graph file, if it isn't refused, as version 2 of it: a run of that prints what is wanted, its check what the
# check of the example prints, and its upgrade is the same file.
upgraded_prints_the_same() {
    local folder=$1 code=$2
    if [[ $code == 3 ]]; then
        (cd "$folder" && call upgrade graph.json)
        compare "the upgrade of $folder" 3 /dev/null "$seen/wanted_notes"
        return
    fi
    (cd "$folder" && call upgrade graph.json)
    cp "$seen/out" "$seen/upgraded.json"
    compare "the upgrade of $folder" 0 "$seen/upgraded.json" /dev/null
    grep -q '"version":2}$' "$seen/upgraded.json" || fault "the upgrade of $folder isn't of version 2"
    call upgrade "$seen/upgraded.json"
    compare "the second upgrade of $folder" 0 "$seen/upgraded.json" /dev/null
    (cd "$folder" && call run "$seen/upgraded.json" "${options[@]}")
    compare "the upgraded $folder" "$code" "$seen/wanted_out" "$seen/wanted_notes"
    if [[ -f $folder/findings.txt ]]; then
        call check "$seen/upgraded.json"
        compare "the check of the upgraded $folder" 0 "$folder/findings.txt" /dev/null
    fi
}

# A job as a script of the shell or of make, beside the example's graph: it prints the values of the report. It runs in a copy
# of the folder, since it may write files.
scripts_print_the_same() {
    local folder=$1 script=$2
    rm -rf "$seen/same"
    cp -r "$folder" "$seen/same"
    grep -vE '^(==|--) ' "$folder/expected.txt" >"$seen/wanted_out" || true
    cases=$((cases + 1))
    (cd "$seen/same" && if [[ $script == same.mk ]]; then make -s -j 2 -f same.mk; else bash same.sh; fi) >"$seen/out" 2>"$seen/notes" || true
    cmp -s "$seen/out" "$seen/wanted_out" || fault "$folder/$script prints other values than the graph"
}

# Each example, called from its folder, with the options that options.txt has, a word a line. A file that isn't there
# stands for no bytes, for code 0 or for no options. Its profile and its check are compared where it has a file of them, and
# a journal that it has is judged, and a script that does the same job prints the same values.
for folder in examples/*/; do
    copy_or_empty "$folder/expected.txt" "$seen/wanted_out"
    copy_or_empty "$folder/expected.err" "$seen/wanted_notes"
    code=0
    if [[ -f $folder/expected.code ]]; then code=$(cat "$folder/expected.code"); fi
    options=()
    if [[ -f $folder/options.txt ]]; then mapfile -t options <"$folder/options.txt"; fi
    (cd "$folder" && call run graph.json "${options[@]}")
    compare "$folder" "$code" "$seen/wanted_out" "$seen/wanted_notes"
    for workers in 1 4 16; do
        (cd "$folder" && call run graph.json --workers "$workers" "${options[@]}")
        compare "$folder with $workers workers" "$code" "$seen/wanted_out" "$seen/wanted_notes"
    done
    if [[ -f $folder/profile.txt ]]; then
        for workers in 1 4 16; do
            (cd "$folder" && call profile graph.json --workers "$workers" "${options[@]}")
            compare "the profile of $folder with $workers workers" "$code" "$folder/profile.txt" "$seen/wanted_notes"
        done
    fi
    if [[ -f $folder/findings.txt ]]; then
        (cd "$folder" && call check graph.json)
        compare "the check of $folder" 0 "$folder/findings.txt" /dev/null
    fi
    if [[ -f $folder/journal.txt ]]; then
        echo complete >"$seen/judged_out"
        (cd "$folder" && call judge graph.json journal.txt)
        compare "the judgement of $folder" 0 "$seen/judged_out" /dev/null
    fi
    upgraded_prints_the_same "$folder" "$code"
    for script in same.sh same.mk; do
        if [[ -f $folder/$script ]]; then scripts_print_the_same "$folder" "$script"; fi
    done
done

# A call that is to put nothing on its output, and this line on its notes.
refused() {
    local code=$1 line=$2
    shift 2
    call "$@"
    echo "$line" >"$seen/wanted_notes"
    compare "'flow $*'" "$code" /dev/null "$seen/wanted_notes"
}

count=examples/count-lines/graph.json
refused 2 'flow: bad words'
refused 2 'flow: bad words' run
refused 2 'flow: bad words' run "$count" "$count"
refused 2 'flow: bad words' run -x
refused 2 'flow: bad words' run $'\xff'
refused 2 'flow: bad words' walk "$count"
refused 2 'flow: bad words' run "$count" --limit
refused 2 'flow: bad words' run "$count" --limit 0
refused 2 'flow: bad words' run "$count" --limit 1x
refused 2 'flow: bad words' run "$count" --limit 1 --limit 1
refused 2 'flow: bad words' run "$count" --workers
refused 2 'flow: bad words' run "$count" --workers 0
refused 2 'flow: bad words' run "$count" --workers 17
refused 2 'flow: bad words' run "$count" --workers +4
refused 2 'flow: bad words' run "$count" --workers 00000004
refused 2 'flow: bad words' run "$count" --workers 4 --workers 4
refused 2 'flow: bad words' run "$count" --times 1001
refused 2 'flow: bad words' run "$count" --times 2 --until x
refused 2 'flow: bad words' profile
refused 2 'flow: bad words' profile "$count" --journal
refused 2 'flow: bad words' profile "$count" --times 1 --until x
refused 2 'flow: bad words' check "$count" --workers 4
refused 2 'flow: bad words' run "$count" --help
refused 2 'flow: bad words' check
refused 2 'flow: bad words' check "$count" "$count"
refused 2 'flow: bad words' check "$count" --limit 3
refused 2 'flow: bad words' upgrade
refused 2 'flow: bad words' upgrade "$count" "$count"
refused 2 'flow: bad words' upgrade "$count" --workers 4
refused 2 'flow: bad words' generate
refused 2 'flow: bad words' generate 0
refused 2 'flow: bad words' generate 901
refused 2 'flow: bad words' generate 1 2
refused 2 'flow: bad words' generate 1 --workers 17
refused 2 'flow: bad words' generate 1 --limit 5
refused 2 'flow: bad words' count
refused 2 'flow: bad words' count ERROR
refused 2 'flow: bad words' count ERROR "$count" --grain 0
refused 2 'flow: bad words' count ERROR "$count" --grain 1000001
refused 2 'flow: bad words' count ERROR "$count" --grain 1 --grain 1
refused 2 'flow: bad words' count ERROR "$count" --workers 17
refused 5 'flow: no text nowhere.log' count ERROR nowhere.log
refused 6 'flow: read fault on examples' count ERROR examples
refused 5 'flow: no text nowhere.json' run nowhere.json
refused 5 'flow: no text t.txt' run "$count"
refused 5 'flow: no text t.txt' profile "$count"
refused 6 'flow: read fault on examples' run examples
refused 3 'flow: bad graph: not JSON' run examples/count-lines/t.txt

# The lines in which a word occurs, by several workers, in chunks of several sizes, beside those that grep counts.
for word in ERROR upload '' nowhere; do
    echo "lines $(grep -cF -- "$word" examples/log-triage/server.log)" >"$seen/wanted_out"
    for workers in 1 4 16; do
        for grain in 1 3 1000 1000000; do
            call count "$word" examples/log-triage/server.log --workers "$workers" --grain "$grain"
            compare "the lines with '$word' by $workers workers in chunks of $grain" 0 "$seen/wanted_out" /dev/null
        done
    done
done

# Each command takes the options that docs/FORMATS.md lists for it, with each value of their ranges, and no other arguments
# and values: what it doesn't take has code 2, and what it takes another one.
mkdir "$seen/calls"
cp examples/empty-graph/graph.json "$seen/calls/FILE"
echo 'flow journal 2' >"$seen/calls/JOURNAL"
while read -r verdict words; do
    read -ra arguments <<<"${words//LAYERS/1}"
    (cd "$seen/calls" && call "${arguments[@]}")
    code=$(cat "$seen/code")
    cases=$((cases + 1))
    [[ ($verdict == takes && $code != 2) || ($verdict == refuses && $code == 2) ]] || fault "'flow $words' has code $code, and docs/FORMATS.md $verdict it"
done < <(python3 -B tools/manual.py --calls)

# A number of rounds, also none, and rounds until a word occurs.
cd examples/count-lines
printf '## round %d\n== b\n2\n' 1 2 >"$seen/wanted_out"
call run graph.json --times 2
compare 'two rounds' 0 "$seen/wanted_out" /dev/null
call run graph.json --times 0
compare 'no round' 0 /dev/null /dev/null
printf '## round %d\n== b\n2\n' {1..1000} >"$seen/wanted_out"
for workers in 1 4; do
    call run graph.json --until 3 --workers "$workers"
    compare "as many rounds as there may be until a word occurs, by $workers workers" 0 "$seen/wanted_out" /dev/null
    call run graph.json --times 1000 --workers "$workers"
    compare "as many rounds as there may be by $workers workers" 0 "$seen/wanted_out" /dev/null
done

# The profile of no round and of as many as there may be, and of a run that is cut short.
table() {
    printf '%-20s%9s%9s%9s%9s\n' task starts ends faults drops "$@"
}
spans() {
    printf '%-20s%9s\n' spans "$1"
}
{ table a 0 0 0 0 b 0 0 0 0 && spans 0; } >"$seen/wanted_out"
call profile graph.json --times 0
compare 'the profile of no round' 0 "$seen/wanted_out" /dev/null
{ table a 1000 1000 0 0 b 1000 1000 0 0 && spans 2000; } >"$seen/wanted_out"
call profile graph.json --until 3
compare 'the profile of as many rounds as there may be' 0 "$seen/wanted_out" /dev/null
{ table a 1 1 0 0 b 0 0 0 1 && spans 1 && echo '!! limit 1'; } >"$seen/wanted_out"
echo 'flow: limit 1' >"$seen/wanted_notes"
call profile graph.json --times 2 --limit 1
compare 'the profile of a run that meets its limit' 8 "$seen/wanted_out" "$seen/wanted_notes"
cd "$top"

# The journal of a run in place of its report, and what the judge says of it and of journals that are made from it. The
# judge reads no text that the graph names.
mkdir "$seen/journals"
cd "$seen/journals"
cp "$top/$count" graph.json
printf 'flow journal 2\nstart 0 source -\nend 0 0 plain\nstart 1 strong 1\nend 2 - plain\n' >whole.txt
cp "$top/examples/count-lines/t.txt" .
call run graph.json --journal
compare 'a run with --journal' 0 whole.txt /dev/null
call run --journal --limit 1 graph.json
printf 'flow journal 2\nstart 0 source -\nend 0 0 plain\ndrop 1 strong limit\n' >cut.txt
echo 'flow: limit 1' >"$seen/wanted_notes"
compare 'a run with --journal that meets its limit' 8 cut.txt "$seen/wanted_notes"
rm t.txt
# The code of the judge, its line and its note.
judges() {
    local journal=$1 code=$2 out=$3 notes=$4
    shift 4
    printf -- "$out" >"$seen/wanted_out"
    printf -- "$notes" >"$seen/wanted_notes"
    call judge graph.json "$journal" "$@"
    compare "the judgement of $journal" "$code" "$seen/wanted_out" "$seen/wanted_notes"
}
for version in 1 2; do
    sed "1s/.*/flow journal $version/" <whole.txt >journal.txt
    judges journal.txt 0 'complete\n' ''
    judges journal.txt 0 'complete\n' '' --limit 2
    judges journal.txt 11 'breaks at 2: over limit\n' 'flow: not legal at 2\n' --limit 1
    head -n 4 journal.txt >without_end.txt
    judges without_end.txt 0 'legal\n' ''
    head -n 1 journal.txt >empty.txt
    judges empty.txt 0 'legal\n' ''
    awk 'NR == 3 { held = $0; next } { print } NR == 4 { print held }' journal.txt >exchanged.txt
    judges exchanged.txt 11 'breaks at 1: not released\n' 'flow: not legal at 1\n'
    head -c -1 journal.txt >without_last_byte.txt
    judges without_last_byte.txt 12 '' 'flow: bad journal line 5\n'
    sed '3s/end 0/end 00/' journal.txt >leading_zero.txt
    judges leading_zero.txt 12 '' 'flow: bad journal line 3\n'
    sed 's/$/\r/' journal.txt >returns.txt
    judges returns.txt 12 '' 'flow: bad journal line 1\n'
done
judges cut.txt 0 'complete\n' '' --limit 1
judges cut.txt 0 'legal\n' ''
printf 'flow journal 1\ndrop 0 source stuck:0\n' >stuck.txt
judges stuck.txt 12 '' 'flow: bad journal line 2\n'
sed -i '1s/1/2/' stuck.txt
judges stuck.txt 11 'breaks at 0: no such number\n' 'flow: not legal at 0\n'
: >nothing.txt
judges nothing.txt 12 '' 'flow: bad journal line 1\n'
truncate -s 67108864 long.txt
judges long.txt 12 '' 'flow: bad journal line 1\n'
truncate -s 67108865 long.txt
refused 5 'flow: text too long long.txt' judge graph.json long.txt
rm long.txt
refused 5 'flow: no text nowhere.txt' judge graph.json nowhere.txt
refused 5 'flow: no text nowhere.json' judge nowhere.json nowhere.txt
mkdir folder
refused 6 'flow: read fault on folder' judge graph.json folder
refused 3 'flow: bad graph: not JSON' judge whole.txt whole.txt
echo '{"tasks":[{"name":"a","op":"pass","to":["a"]}]}' >circle.json
refused 4 'flow: no source' judge circle.json nowhere.txt
refused 2 'flow: bad words' judge graph.json
refused 2 'flow: bad words' judge graph.json whole.txt whole.txt
refused 2 'flow: bad words' judge graph.json whole.txt --journal
refused 2 'flow: bad words' judge graph.json whole.txt --limit 1000001
refused 2 'flow: bad words' run graph.json --journal=yes
refused 2 'flow: bad words' run graph.json --journal --journal
cd "$top"

# The check of a graph: its findings, with code 0 also where there are some. It reads no text that the graph names.
mkdir "$seen/checks"
cd "$seen/checks"
checks() {
    local what=$1 tasks=$2 out=$3
    echo "{\"tasks\":[$tasks]}" >graph.json
    printf -- "$out" >"$seen/wanted_out"
    call check graph.json
    compare "the check of $what" 0 "$seen/wanted_out" /dev/null
}
task() {
    local name=$1 op=$2 fields=${3:-}
    echo "{\"name\":\"$name\",\"op\":\"$op\"${fields:+,$fields}}"
}
read_to() {
    task "$1" read "\"text\":\"t.txt\",\"to\":[$2]"
}
checks 'no task' '' 'findings 0\n'
checks 'a row' "$(read_to a '"b"'),$(task b count)" 'findings 0\n'
checks 'a circle' "$(task a pass '"to":["b"]'),$(task b pass '"to":["a"]')" \
    'no source\nstrong cycle a\nstrong cycle b\nnever reached a\nnever reached b\nfindings 5\n'
refused 4 'flow: no source' run graph.json
checks 'a circle beside a source' "$(task c pass '"to":["c","d"]'),$(task d pass),$(read_to a '')" \
    'strong cycle c\nnever reached c\nnever reached d\nfindings 3\n'
checks 'a loop that skips' \
    "$(read_to init '"body"'),$(task body skip '"n":1,"to":["c"]'),$(task c ifmore '"n":2,"to":["body","done"]'),$(task 'done' pass)" \
    'mixed body\nfindings 1\n'
checks 'a loop that comes back' \
    "$(read_to a '"c"'),$(task c ifmore '"n":2,"to":["body","done"]'),$(task body skip '"n":1,"to":["back"]'),$(task back back '"to":["c"]'),$(task 'done' pass)" \
    'mixed c\nfindings 1\n'
checks 'two conditions that meet' \
    "$(task x ifhas '"word":"x","to":["z","z"]'),$(task y back '"to":["z"]'),$(task z pass)" 'many conditions z\nfindings 1\n'
refused 3 'flow: bad graph: not JSON' check "$top/examples/count-lines/t.txt"
refused 3 'flow: bad graph: bad field op in task 0' check "$top/examples/unknown-operation/graph.json"
refused 5 'flow: no text nowhere.json' check nowhere.json
mkdir folder
refused 6 'flow: read fault on folder' check folder
cd "$top"

# The graph file of version 2 for the plan of a file, in one piece and without a line feed at its end. It reads no text that
# the graph names, and needs no source.
mkdir "$seen/upgrades"
cd "$seen/upgrades"
upgrades() {
    local what=$1 file=$2 out=$3
    echo "$file" >graph.json
    printf '%s' "$out" >"$seen/wanted_out"
    call upgrade graph.json
    compare "the upgrade of $what" 0 "$seen/wanted_out" /dev/null
}
upgraded() {
    echo "{\"modules\":[],\"semaphores\":[$1],\"tasks\":[$2],\"version\":2}"
}
counting="$(upgraded '' '{"acquire":[],"name":"a","op":"read","release":[],"text":"t.txt","to":["b"]},{"acquire":[],"name":"b","op":"count","release":[],"to":[]}')"
upgrades 'a row' "$(cat "$top/$count")" "$counting"
upgrades 'an upgraded row' "$counting" "$counting"
upgrades 'no task' '{"tasks":[]}' "$(upgraded '' '')"
upgrades 'a circle' '{"version":1,"tasks":[{"name":"a","op":"pass","to":["a"]}]}' \
    "$(upgraded '' '{"acquire":[],"name":"a","op":"pass","release":[],"to":["a"]}')"
upgrades 'a task that holds units' '{"tasks":[{"name":"a","op":"input","holds":["u","s"]}],"semaphores":[{"name":"s","max":1},{"max":1000000,"name":"u"}]}' \
    "$(upgraded '{"max":1,"name":"s"},{"max":1000000,"name":"u"}' '{"acquire":["s","u"],"name":"a","op":"input","release":["s","u"],"to":[]}')"
upgrades 'a pipeline without n and defer' \
    '{"tasks":[{"name":"p","op":"pipe","lines":2,"pipes":[{"serial":true,"op":"keep","word":"x"},{"op":"number","serial":false}]}]}' \
    "$(upgraded '' '{"acquire":[],"defer":[],"lines":2,"n":1,"name":"p","op":"pipe","pipes":[{"op":"keep","serial":true,"word":"x"},{"op":"number","serial":false}],"release":[],"to":[]}')"
upgrades 'a pipeline with tokens that wait' \
    '{"tasks":[{"name":"p","op":"pipe","defer":[{"token":4,"to":[9,2,9]},{"to":[4],"token":1}],"pipes":[{"serial":true,"op":"stamp"}],"n":1000000000,"lines":64}]}' \
    "$(upgraded '' '{"acquire":[],"defer":[{"to":[9,2,9],"token":4},{"to":[4],"token":1}],"lines":64,"n":1000000000,"name":"p","op":"pipe","pipes":[{"op":"stamp","serial":true}],"release":[],"to":[]}')"
refused 3 'flow: bad graph: not JSON' upgrade "$top/examples/count-lines/t.txt"
refused 3 'flow: bad graph: bad field op in task 0' upgrade "$top/examples/unknown-operation/graph.json"
echo '{"tasks":[],"version":3}' >graph.json
refused 3 'flow: bad graph: bad field version in file' upgrade graph.json
refused 5 'flow: no text nowhere.json' upgrade nowhere.json
mkdir folder
refused 6 'flow: read fault on folder' upgrade folder
# Generated graphs by 1, 4 and 16 workers: what the smallest and the greatest one print, which a program over another
# runtime prints too (bench/peers).
for workers in 1 4 16; do
    printf 'tasks 17\nstarts 395\ninner starts 601\nsum lines 200\ndone lines 10\npipe lines 200\n' >"$seen/wanted_out"
    call generate 1 --workers "$workers"
    compare "a generated graph of one layer by $workers" 0 "$seen/wanted_out" /dev/null
    call generate 900 --workers "$workers"
    printf 'tasks 9007\nstarts 9385\ninner starts 601\nsum lines 9\ndone lines 10\npipe lines 200\n' >"$seen/wanted_out"
    compare "a generated graph of 900 layers by $workers" 0 "$seen/wanted_out" /dev/null
done
# As many semaphores as there may be, and one more.
semaphores() {
    seq "$1" | sed 's/.*/{"name":"s&","max":1}/' | paste -sd ,
}
echo "{\"tasks\":[],\"semaphores\":[$(semaphores 256)]}" >graph.json
printf 'findings 0\n' >"$seen/wanted_out"
call check graph.json
compare 'the check of a graph with 256 semaphores' 0 "$seen/wanted_out" /dev/null
echo "{\"tasks\":[],\"semaphores\":[$(semaphores 257)]}" >graph.json
refused 3 'flow: bad graph: too many semaphores' check graph.json
refused 3 'flow: bad graph: too many semaphores' upgrade graph.json
cd "$top"

# Graphs whose tasks take and give back units, as lists of tasks in files of both versions, over the text t.txt and with
# semaphores `s` and `u` of 1 and 2 units: by 1, 4 and 16 workers, and each journal judged.
mkdir "$seen/units"
cd "$seen/units"
printf 'x\n' >t.txt
uses_units() {
    local what=$1 version=$2 tasks=$3 code=$4 out=$5 notes=$6 limit=${7:-100000} workers
    echo "{\"version\":$version,\"tasks\":[$tasks],\"semaphores\":[{\"name\":\"s\",\"max\":1},{\"name\":\"u\",\"max\":2}]}" >graph.json
    for workers in 1 4 16; do
        printf -- "$out" >"$seen/wanted_out"
        printf -- "$notes" >"$seen/wanted_notes"
        call run graph.json --workers "$workers" --limit "$limit"
        compare "$what by $workers workers" "$code" "$seen/wanted_out" "$seen/wanted_notes"
        call run graph.json --workers "$workers" --limit "$limit" --journal
        cp "$seen/out" journal.txt
        compare "the journal of $what by $workers workers" "$code" journal.txt "$seen/wanted_notes"
        echo complete >"$seen/wanted_out"
        call judge graph.json journal.txt --limit "$limit"
        compare "the judgement of $what by $workers workers" 0 "$seen/wanted_out" /dev/null
    done
}
holders="$(read_to r '"k1","k2","k3","k4"'),$(task k1 pass '"holds":["s"]'),$(task k2 pass '"holds":["s"]'),$(task k3 pass '"holds":["s"]'),$(task k4 pass '"holds":["s"]')"
four='== k1\nx\n== k2\nx\n== k3\nx\n== k4\nx\n'
uses_units 'four holders of one unit' 1 "$holders" 0 "$four" ''
uses_units 'four holders of one unit in version 2' 2 "${holders//'"holds":["s"]'/'"acquire":["s"],"release":["s"]'}" 0 "$four" ''
reads_and_takes="$(task a read '"text":"t.txt","to":["b"],"acquire":["s"]')"
uses_units 'a unit that the next task gives back' 2 "$reads_and_takes,$(task b pass '"release":["s"]')" 0 '== b\nx\n' ''
uses_units 'a unit that never comes back' 2 "$reads_and_takes,$(task b pass '"acquire":["s"]')" \
    10 '-- b\n!! stuck b\n' 'flow: stuck b\n'
uses_units 'a unit that comes back twice' 2 "$(read_to a '"b"'),$(task b pass '"release":["s"]')" \
    9 '-- b\n!! fault b: over 0\n' 'flow: fault b: over 0\n'
uses_units 'a unit of the second semaphore that comes back twice' 2 "$reads_and_takes,$(task b pass '"release":["u","s"]')" \
    9 '-- b\n!! fault b: over 1\n' 'flow: fault b: over 1\n'
uses_units 'units in another order' 2 \
    "$(task a read '"text":"t.txt","acquire":["s","u"],"release":["s","u"]'),$(task b read '"text":"t.txt","acquire":["u","s"],"release":["u","s"]')" \
    0 '== a\nx\n== b\nx\n' ''
uses_units 'a fault while a task waits' 2 \
    "$(task h read '"text":"t.txt","to":["p","f"],"acquire":["s"]'),$(task p pass '"acquire":["s"]'),$(task f pass '"release":["u"]')" \
    9 '-- p\n-- f\n!! fault f: over 1\n' 'flow: fault f: over 1\n'
uses_units 'a limit while tasks wait' 1 \
    "$(read_to r '"k1","k2","k3"'),$(task k1 pass '"to":["z"],"holds":["s"]'),$(task k2 pass '"to":["z"],"holds":["s"]'),$(task k3 pass '"to":["z"],"holds":["s"]'),$(task z count)" \
    8 '-- z\n!! limit 2\n' 'flow: limit 2\n' 2
# Many tasks behind one: three take the units that there are, and the others wait for them in vain; or all hold one of them
# in turn.
wanted() {
    local field=$1 k
    for k in $(seq 500); do task "k$k" pass "\"$field\":[\"s\"]"; done | paste -sd ,
}
names=$(seq 500 | sed 's/.*/"k&"/' | paste -sd ,)
for workers in 1 4 16; do
    echo "{\"version\":2,\"tasks\":[$(read_to r "$names"),$(wanted acquire)],\"semaphores\":[{\"name\":\"s\",\"max\":3}]}" >graph.json
    call run graph.json --workers "$workers" --journal
    cp "$seen/out" journal.txt
    cases=$((cases + 1))
    [[ $(cat "$seen/code") == 10 && $(grep -c '^drop .* strong stuck:0$' journal.txt) == 497 && $(grep -c '^end ' journal.txt) == 4 ]] ||
        fault "of 500 tasks that want three units not three get them by $workers workers"
    echo complete >"$seen/wanted_out"
    call judge graph.json journal.txt
    compare "the judgement of 500 tasks that want three units by $workers workers" 0 "$seen/wanted_out" /dev/null
    echo "{\"tasks\":[$(read_to r "$names"),$(wanted holds)],\"semaphores\":[{\"name\":\"s\",\"max\":3}]}" >graph.json
    seq 500 | sed 's/.*/== k&\nx/' >"$seen/wanted_out"
    call run graph.json --workers "$workers"
    compare "500 tasks that hold one of three units by $workers workers" 0 "$seen/wanted_out" /dev/null
done
# That a run got stuck is told though its report can't be written.
echo '{"version":2,"tasks":['"$reads_and_takes,$(task b pass '"acquire":["s"]')"'],"semaphores":[{"name":"s","max":1}]}' >graph.json
code=0
"$program" run graph.json >/dev/full 2>"$seen/notes" || code=$?
: >"$seen/out"
echo "$code" >"$seen/code"
echo 'flow: stuck b' >"$seen/wanted_notes"
compare 'a run that gets stuck on a full device' 10 /dev/null "$seen/wanted_notes"
# In a journal the holder of the one unit faults, and another task starts with it: no version of the journal may say that.
echo "{\"tasks\":[$(task a input '"holds":["s"]'),$(task b input '"holds":["s"]')],\"semaphores\":[{\"name\":\"s\",\"max\":1}]}" >graph.json
for version in 1 2; do
    printf "flow journal $version\nstart 0 source -\nfault 0 long:9\nstart 1 source -\n" >journal.txt
    judges journal.txt 11 'breaks at 2: over units 0\n' 'flow: not legal at 2\n'
done
cd "$top"

# Small graphs over the text t.txt, as lists of tasks: the code and what is printed, with `\n` for a line end.
mkdir "$seen/graphs"
cd "$seen/graphs"
prints() {
    local what=$1 text=$2 tasks=$3 code=$4 out=$5 notes=$6
    shift 6
    printf "$text" >t.txt
    echo "{\"tasks\":[$tasks]}" >graph.json
    printf -- "$out" >"$seen/wanted_out"
    printf -- "$notes" >"$seen/wanted_notes"
    call run graph.json "$@"
    compare "$what" "$code" "$seen/wanted_out" "$seen/wanted_notes"
}
five='1\n2\n3\n4\n5\n'
prints 'two lines of work that meet' 'x\ny\n' \
    "$(read_to a '"b","c"'),$(task b keep '"word":"x","to":["d"]'),$(task c without '"word":"x","to":["d"]'),$(task d pass)" \
    0 '== d\nx\ny\n' ''
prints 'two edges between two tasks' 'x\n' "$(read_to a '"b","b"'),$(task b pass)" 0 '== b\nx\nx\n' ''
prints 'a loop that skips' "$five" \
    "$(read_to init '"body"'),$(task body skip '"n":1,"to":["c"]'),$(task c ifmore '"n":2,"to":["body","done"]'),$(task 'done' pass)" \
    0 '== done\n4\n5\n' ''
back="$(read_to a '"c"'),$(task c ifmore '"n":2,"to":["body","done"]'),$(task body skip '"n":1,"to":["back"]'),$(task back back '"to":["c"]'),$(task 'done' pass)"
prints 'a loop that comes back' "$five" "$back" 0 '== done\n4\n5\n' ''
prints 'a loop that is left at once' 'x\n' "$back" 0 '== done\nx\n' ''
prints 'a choice out of range' 'x\n' "$(read_to a '"c"'),$(task c ifmore '"n":2,"to":["b"]'),$(task b pass)" 0 '-- b\n' ''
prints 'tokens that are kept' "$five" \
    "$(read_to s '"p"'),$(task p skip '"n":1,"to":["c","t"]'),$(task c ifmore '"n":2,"to":["p"]'),$(read_to q '"t"'),$(task t head '"n":0')" \
    0 '== t\n' ''
prints 'a route' 'a\nb\n' \
    "$(read_to r '"o"'),$(task o route '"words":["a","b","a","z"],"to":["x","y","z","w"]'),$(task x pass),$(task y pass),$(task z pass),$(task w pass)" \
    0 '== x\na\nb\n== y\na\nb\n== z\na\nb\n-- w\n' ''
prints 'a word that occurs' "$five" "$(read_to r '"c"'),$(task c ifhas '"word":"3","to":["y","n"]'),$(task y count),$(task n pass)" \
    0 '== y\n5\n-- n\n' ''
prints 'a loop that meets its limit' 'x\ny\nz\n' "$(read_to a '"c"'),$(task c ifmore '"n":2,"to":["c","d"]'),$(task d pass)" \
    8 '-- d\n!! limit 10\n' 'flow: limit 10\n' --limit 10
prints 'neighbours that differ' 'a\na\nb\na\n' "$(read_to a '"b"'),$(task b uniq)" 0 '== b\na\nb\na\n' ''
prints 'lines in order' 'b\n\na\n' "$(read_to a '"b"'),$(task b sort)" 0 '== b\n\na\nb\n' ''
prints 'the last lines' '1\n2\n3\n' "$(read_to a '"b"'),$(task b tail '"n":2')" 0 '== b\n2\n3\n' ''
(yes x || true) | head -n 4718592 >t.txt
echo "{\"tasks\":[$(read_to a '"b","b"'),$(task b pass)]}" >graph.json
printf -- '-- b\n!! fault b: long 18874368\n' >"$seen/wanted_out"
echo 'flow: fault b: long 18874368' >"$seen/wanted_notes"
call run graph.json
compare 'a value that would be too long' 9 "$seen/wanted_out" "$seen/wanted_notes"

# A task that doesn't wait for the one that faults: it has ended before, or it is dropped. Each is a whole run.
printf '1\n2\n3\n4\n5\n' >five.txt
echo "{\"tasks\":[$(read_to a '"b","b"'),$(task b pass),$(task c read '"text":"five.txt","to":["d"]'),$(task d count)]}" >graph.json
for workers in 1 4 16; do
    call run graph.json --workers "$workers"
    if grep -qx -- '-- d' "$seen/out"; then sink='-- d'; else sink='== d\n5'; fi
    printf -- "-- b\n$sink\n!! fault b: long 18874368\n" >"$seen/wanted_out"
    compare "a fault beside a sink by $workers workers" 9 "$seen/wanted_out" "$seen/wanted_notes"
    call run graph.json --workers "$workers" --journal
    cp "$seen/out" journal.txt
    echo complete >"$seen/wanted_out"
    call judge graph.json journal.txt
    compare "the judgement of a fault beside a sink by $workers workers" 0 "$seen/wanted_out" /dev/null
done

# As many parts as there may be, and one more; faults, limits and waiting tasks inside modules; modules that run themselves.
spread="$(read_to a '"b"'),$(task b spread '"n":1,"each":{"op":"count"}')"
(yes x || true) | head -n 65536 >t.txt
echo "{\"tasks\":[$spread]}" >graph.json
{ echo '== b'; (yes 1 || true) | head -n 65536; } >"$seen/wanted_out"
for workers in 1 4; do
    call run graph.json --workers "$workers"
    compare "a spread of 65536 parts by $workers workers" 0 "$seen/wanted_out" /dev/null
done
echo x >>t.txt
printf -- '-- b\n!! fault b: wide 65537\n' >"$seen/wanted_out"
echo 'flow: fault b: wide 65537' >"$seen/wanted_notes"
for workers in 1 4; do
    call run graph.json --workers "$workers"
    compare "a spread of 65537 parts by $workers workers" 9 "$seen/wanted_out" "$seen/wanted_notes"
done
inner='"modules":[{"name":"m","tasks":[{"name":"i","op":"input","to":["s"],"acquire":["u"]},{"name":"s","op":"spread","n":1,"each":{"op":"count"},"acquire":["u"]}],"semaphores":[{"name":"u","max":1}]}]'
for workers in 1 4 16; do
    echo "{\"version\":2,\"tasks\":[$(read_to a '"m"'),$(task m module '"module":"m"')],${inner//\"max\":1/\"max\":2}}" >graph.json
    printf -- '-- m\n!! fault m/s: wide 65537\n' >"$seen/wanted_out"
    echo 'flow: fault m/s: wide 65537' >"$seen/wanted_notes"
    call run graph.json --workers "$workers"
    compare "a fault inside a module by $workers workers" 9 "$seen/wanted_out" "$seen/wanted_notes"
    echo "{\"version\":2,\"tasks\":[$(task m module '"module":"m"')],$inner}" >graph.json
    printf -- '-- m\n!! stuck m/s\n' >"$seen/wanted_out"
    echo 'flow: stuck m/s' >"$seen/wanted_notes"
    call run graph.json --workers "$workers"
    compare "a task that waits inside a module by $workers workers" 10 "$seen/wanted_out" "$seen/wanted_notes"
    printf -- '-- m\n!! limit 1 in m\n' >"$seen/wanted_out"
    echo 'flow: limit 1 in m' >"$seen/wanted_notes"
    echo "{\"version\":2,\"tasks\":[$(task m module '"module":"m"')],${inner//\"max\":1/\"max\":2}}" >graph.json
    call run graph.json --limit 1 --workers "$workers"
    compare "the limit of a module by $workers workers" 8 "$seen/wanted_out" "$seen/wanted_notes"
done
echo '{"tasks":[],"modules":[{"name":"k","tasks":[]},{"name":"m","tasks":[{"name":"a","op":"module","module":"m"}]}]}' >graph.json
refused 3 'flow: bad graph: module cycle at m' run graph.json
refused 3 'flow: bad graph: module cycle at m' check graph.json
echo '{"tasks":[{"name":"a","op":"input"}],"modules":[{"name":"m","tasks":[{"name":"a","op":"pass","to":["a"]}]}]}' >graph.json
refused 4 'flow: no source in module 0' run graph.json
cd "$top"

# Pipelines over the text t.txt: the fields of the task `p`, the code and what is printed, by 1, 4 and 16 workers.
mkdir "$seen/pipes"
cd "$seen/pipes"
serial() {
    echo "{\"serial\":true,\"op\":\"$1\"}"
}
parallel() {
    echo "{\"serial\":false,\"op\":\"$1\"}"
}
pipeline_of() {
    echo "{\"tasks\":[$(read_to r '"p"'),$(task p pipe "$1")]}" >graph.json
}
# The same with t.txt and what is wanted as they stand.
runs_pipeline() {
    local what=$1 fields=$2 code=$3 workers
    shift 3
    pipeline_of "$fields"
    for workers in 1 4 16; do
        call run graph.json --workers "$workers" "$@"
        compare "$what by $workers workers" "$code" "$seen/wanted_out" "$seen/wanted_notes"
    done
}
pipes() {
    local what=$1 text=$2 fields=$3 code=$4 out=$5 notes=$6
    shift 6
    printf "$text" >t.txt
    printf -- "$out" >"$seen/wanted_out"
    printf -- "$notes" >"$seen/wanted_notes"
    runs_pipeline "$what" "$fields" "$code" "$@"
}
three="\"lines\":3,\"pipes\":[$(serial pass),$(parallel number),$(serial stamp)]"
two="\"lines\":2,\"pipes\":[$(serial pass),$(serial number),$(serial stamp)]"
seven='p\nq\nr\ns\nt\nu\nv\n'
numbered='== p\n0 0 p\n1 1 q\n2 2 r\n3 3 s\n4 4 t\n5 5 u\n6 6 v\n'
pipes 'a pipeline' "$seven" "$three" 0 "$numbered" ''
pipes 'a pipeline of more starts than the limit' "$seven" "$three" 0 "$numbered" '' --limit 2
pipes 'a pipeline of no text' '' "$three" 0 '== p\n' ''
pipes 'a pipeline of one line and one pipe' "$seven" "\"lines\":1,\"pipes\":[$(serial stamp)]" 0 '== p\n0 p\n1 q\n2 r\n3 s\n4 t\n5 u\n6 v\n' ''
pipes 'a pipeline of more lines than tokens' 'x\n' "\"lines\":8,\"pipes\":[$(serial number),$(parallel pass)]" 0 '== p\n0 x\n' ''
pipes 'parts of three lines' "$seven" "\"lines\":2,\"n\":3,\"pipes\":[$(serial count),$(parallel number)]" 0 '== p\n0 3\n1 3\n2 1\n' ''
pipes 'tokens that wait' 'a\nb\nc\nd\ne\n' "$two,\"defer\":[{\"token\":1,\"to\":[3]},{\"token\":2,\"to\":[1]}]" \
    0 '== p\n0 0 a\n1 3 d\n2 1 b\n3 2 c\n4 4 e\n' ''
pipes 'a token that is freed before a smaller one' 'a\nb\nc\nd\n' "$two,\"defer\":[{\"token\":0,\"to\":[1]},{\"token\":1,\"to\":[3]},{\"token\":2,\"to\":[3]}]" \
    0 '== p\n0 3 d\n1 1 b\n2 2 c\n3 0 a\n' ''
pipes 'two tokens that are freed at once' 'a\nb\nc\n' "$two,\"defer\":[{\"token\":1,\"to\":[2]},{\"token\":0,\"to\":[2]}]" \
    0 '== p\n0 2 c\n1 0 a\n2 1 b\n' ''
pipes 'a token that waits for one before it' 'a\nb\n' "$two,\"defer\":[{\"token\":1,\"to\":[0,0]},{\"token\":65535,\"to\":[1000000]}]" \
    0 '== p\n0 0 a\n1 1 b\n' ''
pipes 'a token that waits for one that never comes' 'a\nb\nc\nd\ne\n' "$two,\"defer\":[{\"token\":1,\"to\":[3]},{\"token\":2,\"to\":[1]},{\"token\":4,\"to\":[9]}]" \
    9 '-- p\n!! fault p/0.0: unmet 4\n' 'flow: fault p/0.0: unmet 4\n'
pipes 'two tokens that wait for each other' 'a\nb\nc\nd\ne\n' "$two,\"defer\":[{\"token\":2,\"to\":[1]},{\"token\":1,\"to\":[2]}]" \
    9 '-- p\n!! fault p/1.0: unmet 1\n' 'flow: fault p/1.0: unmet 1\n'
pipes 'a token that waits for itself' 'a\nb\nc\nd\ne\nf\n' "$three,\"defer\":[{\"token\":0,\"to\":[0]}]" \
    9 '-- p\n!! fault p/2.0: unmet 0\n' 'flow: fault p/2.0: unmet 0\n'
pipes 'as many lines and pipes as there may be' 'a\nb\nc\n' \
    "\"lines\":64,\"pipes\":[$(serial number)$(for _ in {1..15}; do printf ',%s,%s' "$(parallel pass)" "$(serial pass)"; done),$(parallel number)]" \
    0 '== p\n0 0 a\n1 1 b\n2 2 c\n' ''
# A pipeline in a module, with its path.
echo "{\"tasks\":[$(task m module '"module":"k"')],\"modules\":[{\"name\":\"k\",\"tasks\":[$(read_to r '"p"'),$(task p pipe "$two,\"defer\":[{\"token\":1,\"to\":[1]}]")]}]}" >graph.json
printf 'a\nb\n' >t.txt
printf -- '-- m\n!! fault m/p/1.0: unmet 1\n' >"$seen/wanted_out"
echo 'flow: fault m/p/1.0: unmet 1' >"$seen/wanted_notes"
for workers in 1 4 16; do
    call run graph.json --workers "$workers"
    compare "a token that waits for itself in a module by $workers workers" 9 "$seen/wanted_out" "$seen/wanted_notes"
done
# As many rows as there may be, each with as many targets: token k waits for the eight behind it.
rows_of() {
    local k
    for ((k = 0; k < $1; k++)); do echo "{\"token\":$k,\"to\":[$(seq -s , $((k + 1)) $((k + 8)))]}"; done | paste -sd ,
}
(yes x || true) | head -n 300 >t.txt
{ echo '== p'; (seq 256 263 && seq 255 -1 0 && seq 264 299) | sed 's/$/ x/'; } >"$seen/wanted_out"
: >"$seen/wanted_notes"
runs_pipeline 'as many tokens that wait as there may be' "\"lines\":4,\"pipes\":[$(serial number)],\"defer\":[$(rows_of 256)]" 0
# As many parts as there may be, and one more.
(yes x || true) | head -n 65536 >t.txt
{ echo '== p'; seq 0 65535 | sed 's/$/ x/'; } >"$seen/wanted_out"
runs_pipeline 'a pipeline of 65536 parts' "\"lines\":4,\"pipes\":[$(serial stamp)]" 0
{ echo '== p'; (seq 1 65535 && echo 0) | sed 's/$/ x/'; } >"$seen/wanted_out"
runs_pipeline 'a pipeline whose last token frees the first' "\"lines\":64,\"pipes\":[$(serial number)],\"defer\":[{\"token\":0,\"to\":[65535]}]" 0
echo x >>t.txt
printf -- '-- p\n!! fault p: wide 65537\n' >"$seen/wanted_out"
echo 'flow: fault p: wide 65537' >"$seen/wanted_notes"
runs_pipeline 'a pipeline of 65537 parts' "\"lines\":4,\"pipes\":[$(serial stamp)]" 9
printf '== p\n32769\n32768\n' >"$seen/wanted_out"
: >"$seen/wanted_notes"
runs_pipeline 'a pipeline of two large parts' "\"lines\":4,\"n\":32769,\"pipes\":[$(serial count)]" 0
# What a cell makes of a token, and what all make together, that would be one and three bytes too long.
{ head -c 16777214 /dev/zero | tr '\0' x; echo; } >t.txt
printf -- '-- p\n!! fault p/0.0: long 16777217\n' >"$seen/wanted_out"
echo 'flow: fault p/0.0: long 16777217' >"$seen/wanted_notes"
runs_pipeline 'a token that becomes too long' "\"lines\":2,\"pipes\":[$(serial number),$(serial pass)]" 9
{ head -c 8388607 /dev/zero | tr '\0' x; echo; head -c 8388606 /dev/zero | tr '\0' x; echo; } >t.txt
printf -- '-- p\n!! fault p: long 16777219\n' >"$seen/wanted_out"
echo 'flow: fault p: long 16777219' >"$seen/wanted_notes"
runs_pipeline 'tokens that are too long together' "\"lines\":2,\"pipes\":[$(serial number),$(serial pass)]" 9
# What is refused: the reason, and the fields of task 1.
refuses_pipeline() {
    pipeline_of "$2"
    refused 3 "flow: bad graph: $1" run graph.json
    refused 3 "flow: bad graph: $1" check graph.json
}
pass="\"pipes\":[$(serial pass)]"
refuses_pipeline 'bad pipe in task 1: no lines' "\"lines\":0,\"pipes\":[]"
refuses_pipeline 'bad pipe in task 1: no pipes' '"lines":65,"pipes":[]'
refuses_pipeline 'bad pipe in task 1: first pipe is parallel' "\"lines\":65,\"pipes\":[$(parallel pass),$(serial pass)]"
refuses_pipeline 'bad pipe in task 1: too many lines' "\"lines\":4294967295,\"pipes\":[$(for _ in {1..32}; do printf '%s,' "$(serial pass)"; done)$(serial pass)]"
refuses_pipeline 'bad pipe in task 1: too many lines' "\"lines\":65,$pass"
refuses_pipeline 'bad pipe in task 1: too many pipes' "\"lines\":64,\"pipes\":[$(for _ in {1..32}; do printf '%s,' "$(serial pass)"; done)$(serial pass)]"
refuses_pipeline 'bad field lines in task 1' "\"lines\":4294967296,$pass"
refuses_pipeline 'bad field lines in task 1' "$pass,\"n\":0"
refuses_pipeline 'bad field n in task 1' "\"lines\":1,\"n\":0,\"pipes\":0"
refuses_pipeline 'bad field pipes in task 1' '"lines":1,"defer":0'
refuses_pipeline 'bad field pipes in task 1' "\"lines\":1,\"pipes\":[$(serial pass),$(parallel stamp)]"
refuses_pipeline 'bad field pipes in task 1' "\"lines\":1,\"pipes\":[$(serial match)]"
refuses_pipeline 'bad field pipes in task 1' '"lines":1,"pipes":[{"op":"pass"}]'
refuses_pipeline 'bad field pipes in task 1' '"lines":1,"pipes":[{"serial":1,"op":"pass"}]'
refuses_pipeline 'bad field pipes in task 1' '"lines":1,"pipes":[{"serial":true,"op":"number","n":1}]'
refuses_pipeline 'bad field defer in task 1' "\"lines\":1,$pass,\"defer\":[{\"token\":65536,\"to\":[0]}]"
refuses_pipeline 'bad field defer in task 1' "\"lines\":1,$pass,\"defer\":[{\"token\":0,\"to\":[1000001]}]"
refuses_pipeline 'bad field defer in task 1' "\"lines\":1,$pass,\"defer\":[{\"token\":0,\"to\":[]}]"
refuses_pipeline 'bad field defer in task 1' "\"lines\":1,$pass,\"defer\":[{\"token\":0,\"to\":[1,2,3,4,5,6,7,8,9]}]"
refuses_pipeline 'bad field defer in task 1' "\"lines\":1,$pass,\"defer\":[{\"token\":0,\"to\":[1]},{\"token\":0,\"to\":[2]}]"
refuses_pipeline 'bad field defer in task 1' "\"lines\":1,$pass,\"defer\":[$(rows_of 257)]"
refuses_pipeline 'bad field each in task 1' "\"lines\":1,$pass,\"each\":$(serial pass)"
refuses_pipeline 'no such name in to of task 1' "\"lines\":0,\"pipes\":[],\"to\":[\"q\"]"
echo "{\"tasks\":[],\"modules\":[{\"name\":\"k\",\"tasks\":[$(task p pipe '"lines":1,"pipes":[]')]},{\"name\":\"m\",\"tasks\":[$(task p pipe '"lines":0,"pipes":[]')]}]}" >graph.json
refused 3 'flow: bad graph: bad pipe in module 0 task 0: no pipes' run graph.json
echo "{\"tasks\":[],\"modules\":[{\"name\":\"k\",\"tasks\":[$(task p pipe '"lines":1,"pipes":[]'),$(task m module '"module":"k"')]}]}" >graph.json
refused 3 'flow: bad graph: module cycle at k' run graph.json
cd "$top"

# Files and texts past their limits, and texts that can't be read.
mkdir "$seen/texts" "$seen/texts/folder"
cd "$seen/texts"
head -c 4194305 /dev/zero | tr '\0' '[' >brackets.json
head -c 16777216 /dev/zero >long.txt
reading() {
    echo '{"tasks":[{"name":"a","op":"read","text":"'"$1"'"}]}' >graph.json
}
refused 5 'flow: text too long brackets.json' run brackets.json
refused 5 'flow: text too long brackets.json' check brackets.json
refused 5 'flow: text too long brackets.json' upgrade brackets.json
truncate -s 4194304 brackets.json
refused 3 'flow: bad graph: not JSON' run brackets.json
refused 3 'flow: bad graph: not JSON' check brackets.json
reading long.txt
refused 5 'flow: text too long long.txt' run graph.json
reading folder
refused 6 'flow: read fault on folder' run graph.json
reading nowhere.txt
refused 5 'flow: no text nowhere.txt' run graph.json

# A run of as many starts as its limit, one of a start more, and one that goes round until the greatest limit.
cp "$top/examples/count-lines/t.txt" .
for workers in 1 4; do
    printf '== b\n2\n' >"$seen/wanted_out"
    call run "$top/$count" --limit 2 --workers "$workers"
    compare "a run of as many starts as its limit by $workers workers" 0 "$seen/wanted_out" /dev/null
    printf -- '-- b\n!! limit 1\n' >"$seen/wanted_out"
    echo 'flow: limit 1' >"$seen/wanted_notes"
    call run "$top/$count" --limit 1 --workers "$workers"
    compare "a run that meets its limit by $workers workers" 8 "$seen/wanted_out" "$seen/wanted_notes"
done
call run --limit=1 "$top/$count"
compare 'a run that meets its limit' 8 "$seen/wanted_out" "$seen/wanted_notes"
echo '{"tasks":[{"name":"a","op":"input","to":["c"]},{"name":"c","op":"ifmore","n":0,"to":["d","c"]},{"name":"d","op":"pass"}]}' >"$seen/loop.json"
printf -- '-- d\n!! limit 1000000\n' >"$seen/wanted_out"
echo 'flow: limit 1000000' >"$seen/wanted_notes"
for workers in 1 4; do
    call run "$seen/loop.json" --limit 1000000 --workers "$workers"
    compare "a run that meets the greatest limit by $workers workers" 8 "$seen/wanted_out" "$seen/wanted_notes"
done

# A text for which there is no memory.
truncate -s 16777215 long.txt
reading long.txt
memory=16384
refused 13 'flow: no memory' run graph.json
memory=unlimited
cd "$top"

# Files at their limits: what a run prints of them by 1 and by 4 workers, and that a check takes them.
mkdir "$seen/limits"
cd "$seen/limits"
printf 'x\n' >t.txt
prints_at_limit() {
    local what=$1 workers
    for workers in 1 4; do
        call run graph.json --workers "$workers"
        compare "$what by $workers workers" 0 "$seen/wanted_out" /dev/null
    done
    call check graph.json
    cases=$((cases + 1))
    [[ $(cat "$seen/code") == 0 ]] || fault "the check of $what ends with code $(cat "$seen/code")"
}
# One past a limit each command that reads a graph file refuses it.
refuses_past_limit() {
    refused "$1" "flow: $2" run graph.json
    refused "$1" "flow: $2" profile graph.json
    refused "$1" "flow: $2" check graph.json
    refused "$1" "flow: $2" upgrade graph.json
    refused "$1" "flow: $2" judge graph.json nowhere.txt
}
# So many pieces with commas between them, with a number from 0000 on in place of each `&`.
pieces() {
    seq -f '%04g' 0 $(($1 - 1)) | sed "s|.*|$2|" | paste -sd ,
}
file_of() {
    echo "{\"tasks\":[$1],\"modules\":[${2:-}]}" >graph.json
}
file_of "$(pieces 10000 '{"name":"t&","op":"input"}')"
seq -f '== t%04g' 0 9999 >"$seen/wanted_out"
prints_at_limit 'a graph of 10000 tasks'
file_of "$(pieces 10001 '{"name":"t&","op":"input"}')"
refuses_past_limit 3 'bad graph: too many tasks'
file_of "$(read_to a "$(pieces 100000 '"b"')"),$(task b pass)"
{ echo '== b'; (yes x || true) | head -n 100000; } >"$seen/wanted_out"
prints_at_limit 'a graph of 100000 edges'
file_of "$(read_to a "$(pieces 100001 '"b"')"),$(task b pass)"
refuses_past_limit 3 'bad graph: too many edges'
seq -f '%04g' 0 1024 | split -a 4 -d -l 1 - n
file_of "$(pieces 1024 '{"name":"t&","op":"read","text":"n&"}')"
seq -f '%04g' 0 1023 | sed 's/.*/== t&\n&/' >"$seen/wanted_out"
prints_at_limit 'a graph of 1024 texts'
file_of "$(pieces 1025 '{"name":"t&","op":"read","text":"n&"}')"
refuses_past_limit 3 'bad graph: too many texts'
module_of='{"name":"m&","tasks":[{"name":"i","op":"input"}]}'
file_of "$(pieces 64 '{"name":"t&","op":"module","module":"m&"}')" "$(pieces 64 "$module_of")"
seq -f '== t%04g' 0 63 >"$seen/wanted_out"
prints_at_limit 'a file of 64 modules'
file_of "$(pieces 64 '{"name":"t&","op":"module","module":"m&"}')" "$(pieces 65 "$module_of")"
refuses_past_limit 3 'bad graph: too many modules'
# Modules of which each runs the next one, up to a last one.
chain_of() {
    local last=$(($1 - 1)) k
    for ((k = 0; k < last; k++)); do
        echo "{\"name\":\"m$k\",\"tasks\":[$(task i input '"to":["t"]'),$(task t module "\"module\":\"m$((k + 1))\"")]}"
    done | paste -sd ,
    echo ",{\"name\":\"m$last\",\"tasks\":[$(task i input)]}"
}
file_of "$(read_to a '"m"'),$(task m module '"module":"m0"')" "$(chain_of 8)"
printf '== m\nx\n' >"$seen/wanted_out"
prints_at_limit 'modules that nest 8 deep'
file_of "$(read_to a '"m"'),$(task m module '"module":"m0"')" "$(chain_of 9)"
refuses_past_limit 3 'bad graph: too many depth'
# A graph file of as many bytes as are read, and of one more.
printf '%-4194304s' "{\"tasks\":[$(read_to a '"b"'),$(task b pass)]}" >graph.json
printf '== b\nx\n' >"$seen/wanted_out"
prints_at_limit 'a graph file of 4194304 bytes'
printf ' ' >>graph.json
refuses_past_limit 5 'text too long graph.json'
# A text of as many bytes as are read has a line without an end: with that it is a value of as many bytes as there may be.
# With another line it is one byte too long.
head -c 16777215 /dev/zero | tr '\0' x >t.txt
file_of "$(read_to a '"b"'),$(task b pass '"to":["c"]'),$(task c count)"
printf '== c\n1\n' >"$seen/wanted_out"
prints_at_limit 'a text of 16777215 bytes'
counts_lines="{\"name\":\"m\",\"tasks\":[$(task i input '"to":["c"]'),$(task c count)]}"
file_of "$(read_to a '"b"'),$(task b module '"module":"m"')" "$counts_lines"
printf '== b\n1\n' >"$seen/wanted_out"
prints_at_limit 'a text of 16777216 bytes for a module'
printf '\n' >end.txt
both="$(read_to a '"b"'),$(task e read '"text":"end.txt","to":["b"]')"
printf -- '-- b\n!! fault b: long 16777217\n' >"$seen/wanted_out"
echo 'flow: fault b: long 16777217' >"$seen/wanted_notes"
for workers in 1 4; do
    file_of "$both,$(task b pass)"
    call run graph.json --workers "$workers"
    compare "a value of 16777217 bytes by $workers workers" 9 "$seen/wanted_out" "$seen/wanted_notes"
    file_of "$both,$(task b module '"module":"m"')" "$counts_lines"
    call run graph.json --workers "$workers"
    compare "a text of 16777217 bytes for a module by $workers workers" 9 "$seen/wanted_out" "$seen/wanted_notes"
    echo 'lines 1' >"$seen/wanted_count"
    call count x t.txt --workers "$workers"
    compare "the lines of a text of 16777215 bytes by $workers workers" 0 "$seen/wanted_count" /dev/null
done
printf x >>t.txt
refused 5 'flow: text too long t.txt' run graph.json
refused 5 'flow: text too long t.txt' profile graph.json
refused 5 'flow: text too long t.txt' count x t.txt
cd "$top"

# Two and three texts of which one can't be read, at each place, by 1 and by 4 workers: the call stops at the first of them,
# in the order of the file. A pipe NAME.pipe gets the bytes of NAME.txt, and standard input those of other.txt. What hangs
# is ended, with a code of its own, as what opens the pipe to which nobody writes.
mkdir "$seen/inputs" "$seen/inputs/folder" "$seen/inputs/locked"
cd "$seen/inputs"
printf 'x\ny\n' >good.txt
printf 'z\n' >other.txt
truncate -s 16777216 long.txt
mkfifo good.pipe long.pipe nobody
echo x | tee locked.txt >locked/inside.txt
chmod 000 locked.txt locked
behind=(timeout 20)

# A user for whom modes count: this one, or where that is root another one. He has the program where he may read it.
built=$program
chmod 755 "$seen"
install -m 755 "$program" "$seen/flow"
other_user=()
if ((EUID == 0)); then other_user=(setpriv --reuid=65534 --regid=65534 --clear-groups); fi
other_user_calls() {
    local code=0
    "${other_user[@]}" "$seen/flow" >"$seen/out" 2>&1 || code=$?
    ((code == 2))
}

# A graph whose tasks read these texts.
reads() {
    local tasks=() text
    for text in "$@"; do tasks+=("$(task "t${#tasks[@]}" read "\"text\":\"$text\"")"); done
    (IFS=, && echo "{\"tasks\":[${tasks[*]}]}") >graph.json
}

# Calls the program with these words on that graph, while each of these pipes is written to.
call_beside() {
    local pipes=$1 writers=() pipe writer
    shift
    for pipe in $pipes; do
        timeout 20 tee "$pipe" <"${pipe%.pipe}.txt" >/dev/null 2>&1 &
        writers+=("$!")
    done
    call "$@" <other.txt
    for writer in "${writers[@]}"; do
        kill "$writer" 2>/dev/null || true
        wait "$writer" || true
    done
}

# The pipes among these texts, each once.
pipes_of() {
    tr ' ' '\n' <<<"$*" | grep '\.pipe$' | sort -u || true
}

stops_at() {
    local code=$1 line=$2 workers
    shift 2
    reads "$@"
    echo "flow: $line" >"$seen/wanted_notes"
    for workers in 1 4; do
        call_beside "$(pipes_of "$@")" run graph.json --workers "$workers"
        compare "a run by $workers workers over $*" "$code" /dev/null "$seen/wanted_notes"
    done
}

prints_texts() {
    local text number=0 workers
    reads "$@"
    for text in "$@"; do
        echo "== t$number"
        case $text in
            *.pipe) cat "${text%.pipe}.txt" ;;
            /dev/stdin) cat other.txt ;;
            *) cat "$text" ;;
        esac
        number=$((number + 1))
    done >"$seen/wanted_out"
    for workers in 1 4; do
        call_beside "$(pipes_of "$@")" run graph.json --workers "$workers"
        compare "a run by $workers workers over $*" 0 "$seen/wanted_out" /dev/null
    done
}

# The code, the line but for the name, and the name; `@` stands for it among the texts.
bad_texts=(
    '5|no text|nowhere.txt'
    '6|read fault on|folder'
    '6|read fault on|good.txt/below'
    '5|text too long|long.txt'
    '5|text too long|long.pipe'
    '6|read fault on|locked.txt'
    '6|read fault on|locked/inside.txt'
)
bad_places=(
    '@ good.txt'
    'good.txt @'
    '@ good.txt other.txt'
    'good.txt @ other.txt'
    'good.txt other.txt @'
    '@ @ good.txt'
    'good.txt @ @'
    'good.pipe @'
    '@ nobody'
    '/dev/stdin @'
)
for bad in "${bad_texts[@]}"; do
    IFS='|' read -r code line text <<<"$bad"
    if [[ $text == locked* ]]; then
        if ! other_user_calls; then
            echo "program: no other user can be had here, so $text isn't tried"
            continue
        fi
        behind=(timeout 20 "${other_user[@]}")
        program=$seen/flow
    fi
    for place in "${bad_places[@]}"; do
        read -ra texts <<<"${place//@/$text}"
        stops_at "$code" "$line $text" "${texts[@]}"
    done
done
behind=(timeout 20)
program=$built
stops_at 5 'no text nowhere.txt' nowhere.txt folder long.txt
stops_at 6 'read fault on folder' folder long.txt nowhere.txt
stops_at 5 'text too long long.txt' good.txt long.txt folder
good_places=(
    'good.txt good.txt'
    'good.txt other.txt good.txt'
    'good.txt ./good.txt'
    'good.pipe good.txt'
    'good.txt good.pipe'
    'good.txt good.pipe other.txt'
    'good.pipe good.pipe'
    '/dev/stdin good.txt'
    'good.txt /dev/stdin other.txt'
    '/dev/stdin /dev/stdin'
    'good.pipe /dev/stdin'
)
for place in "${good_places[@]}"; do
    read -ra texts <<<"$place"
    prints_texts "${texts[@]}"
done

# The graph file and the journal from standard input, and names that aren't UTF-8, which a JSON string can't have.
reads good.txt
printf '== t0\nx\ny\n' >"$seen/wanted_out"
call run /dev/stdin <graph.json
compare 'a run of the graph on standard input' 0 "$seen/wanted_out" /dev/null
call run graph.json --journal
cp "$seen/out" journal.txt
echo complete >"$seen/wanted_out"
call judge graph.json /dev/stdin <journal.txt
compare 'the judgement of the journal on standard input' 0 "$seen/wanted_out" /dev/null
for workers in 1 4; do
    refused 2 'flow: bad words' run $'\xff' --workers "$workers"
done
refused 2 'flow: bad words' judge graph.json $'\xff'
refused 2 'flow: bad words' check $'\xff'
refused 2 'flow: bad words' upgrade $'\xff'
reads $'\xff' good.txt
refused 3 'flow: bad graph: not JSON' run graph.json
reads 'good.txt' '\ud800'
refused 3 'flow: bad graph: not JSON' run graph.json
behind=()
cd "$top"

# A call of these words whose output took no more than these first bytes of what it is to print.
words=(run graph.json)
report=/dev/null
cut_short() {
    local what=$1 size=$2
    head -c "$size" "$report" >"$seen/wanted_out"
    echo 'flow: write fault' >"$seen/wanted_notes"
    compare "'flow ${words[*]}' with $what" 7 "$seen/wanted_out" "$seen/wanted_notes"
}

# Calls the program with this output, of at most so many kilobytes.
put_on() {
    local code=0
    (
        trap '' XFSZ
        ulimit -f "${2:-unlimited}"
        exec "$program" "${words[@]}" >"$1" 2>"$seen/notes"
    ) || code=$?
    echo "$code" >"$seen/code"
}

# The same with a pipe whose reader takes so many bytes and then goes.
pipe_of() {
    (
        if (($1 == 0)); then sleep 0.3; fi
        code=0
        "$program" "${words[@]}" 2>"$seen/notes" || code=$?
        echo "$code" >"$seen/code"
    ) | head -c "$1" >"$seen/out"
}

# The same with a closed output.
put_nowhere() {
    local code=0
    "$program" "${words[@]}" >&- 2>"$seen/notes" || code=$?
    : >"$seen/out"
    echo "$code" >"$seen/code"
}

# An output that fails at the first write, which is the only one of what is short.
fails_at_first_write() {
    put_on /dev/full
    : >"$seen/out"
    cut_short 'a device that is full' 0
    put_nowhere
    cut_short 'an output that is closed' 0
    pipe_of 0
    cut_short 'a pipe whose reader has gone' 0
}
fits_into_one_write() {
    report=$1
    shift
    words=("$@")
    fails_at_first_write
}
cd "$top/examples/count-lines"
echo complete >"$seen/verdict"
echo 'lines 1' >"$seen/count"
fits_into_one_write expected.txt run graph.json
fits_into_one_write profile.txt profile graph.json
cd "$seen/journals"
fits_into_one_write "$seen/verdict" judge graph.json whole.txt
cd "$top/examples/ticket-review"
fits_into_one_write findings.txt check graph.json
cd "$seen/calls"
printf '%s' "$(upgraded '' '')" >"$seen/small.json"
fits_into_one_write "$seen/small.json" upgrade FILE
printf 'tasks 17\nstarts 395\ninner starts 601\nsum lines 200\ndone lines 10\npipe lines 200\n' >"$seen/summary"
fits_into_one_write "$seen/summary" generate 1
fits_into_one_write "$seen/count" count tasks FILE

# What is told besides stands though the output fails: that a journal breaks a rule, or a run was cut short.
cd "$seen/journals"
told_on_full_device() {
    local code=$1 notes=$2
    shift 2
    words=("$@")
    put_on /dev/full
    : >"$seen/out"
    echo "$notes" >"$seen/wanted_notes"
    compare "'flow $*' on a full device" "$code" /dev/null "$seen/wanted_notes"
}
cp "$top/examples/count-lines/t.txt" .
told_on_full_device 11 'flow: not legal at 1' judge graph.json exchanged.txt
told_on_full_device 8 'flow: limit 1' run graph.json --limit 1
told_on_full_device 8 'flow: limit 1' run graph.json --limit 1 --journal
told_on_full_device 8 'flow: limit 1' profile graph.json --limit 1

# Outputs of more than 200 KiB, in several writes of 64 KiB; that of an upgrade is one piece.
takes_several_writes() {
    words=("$@")
    report=$seen/whole
    put_on "$report"
    local size
    size=$(stat -c %s "$report")
    cases=$((cases + 1))
    [[ $(cat "$seen/code") == 0 ]] && ((size > 200 * 1024)) || fault "'flow $*' ends with code $(cat "$seen/code") and prints $size bytes"
    fails_at_first_write
    put_on "$seen/out" 100
    cut_short 'a file that is full in a middle write' $((100 * 1024))
    put_on "$seen/out" $(((size - 1) / 1024))
    cut_short 'a file that is full in the last write' $(((size - 1) / 1024 * 1024))
    pipe_of 100000
    cut_short 'a pipe whose reader goes in a middle write' 100000
}
mkdir "$seen/report"
cd "$seen/report"
file_of "$(pieces 8000 '{"name":"t&","op":"input"}')"
takes_several_writes run graph.json --journal --workers 1
takes_several_writes run graph.json --times 4
takes_several_writes profile graph.json
takes_several_writes upgrade graph.json
file_of "$(pieces 8000 '{"name":"t&","op":"pass","to":["t&"]}')"
takes_several_writes check graph.json

# A report of 200 KiB, in four writes: 20 KiB, 80 KiB, a line, and 100 KiB.
for size in 20 80 100; do
    head -c $((size * 1024)) /dev/zero | tr '\0' x | fold -w 63 >"$size.txt"
    echo >>"$size.txt"
done
cat >graph.json <<'GRAPH'
{"tasks":[
{"name":"a","op":"read","text":"20.txt"},
{"name":"b","op":"read","text":"80.txt"},
{"name":"c","op":"read","text":"100.txt"}]}
GRAPH
{
    echo '== a' && cat 20.txt && echo '== b' && cat 80.txt && echo '== c' && cat 100.txt
} >"$seen/report/whole.txt"
takes_several_writes run graph.json
cmp -s "$report" whole.txt || fault 'a report of 200 KiB has other bytes than are wanted'
put_on "$seen/out" 150
cut_short 'a file that is full in the last write' $((150 * 1024))
pipe_of 25000
cut_short 'a pipe whose reader goes in the second write' 25000
pipe_of 110000
cut_short 'a pipe whose reader goes in the last write' 110000
cd "$top"

# The threads of a run by so many workers that goes round until its limit: the most that are seen while it runs.
threads_of() {
    local most=0 now pid
    "$program" run "$seen/loop.json" --limit 1000000 "${@}" >/dev/null 2>&1 &
    pid=$!
    for _ in {1..20000}; do
        now=$(awk '/^State:.*Z/ { exit } /^Threads:/ { print $2 }' "/proc/$pid/status" 2>/dev/null) || break
        [[ -n $now ]] || break
        if ((now > most)); then most=$now; fi
    done
    wait "$pid" || true
    echo "$most"
}
for workers in 1 2 16; do
    cases=$((cases + 1))
    threads=$(threads_of --workers "$workers")
    ((threads == workers)) || fault "a run by $workers workers has $threads threads"
done
cases=$((cases + 1))
threads=$(threads_of)
((threads == 4)) || fault "a run where no number of workers is said has $threads threads"

# Random files with pipelines, by 1, 4 and 16 workers, against a slow evaluation.
cases=$((cases + 1))
python3 -B "$top/tools/pipe_graphs.py" "$program" --count 300 --seed 20261201 >"$seen/out" || fault "$(cat "$seen/out")"

echo "program: $cases calls, $faults with a difference"
((faults == 0))

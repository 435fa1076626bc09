#!/usr/bin/env bash
# Measures the built program by several workers, on texts of 8 MB with lines of random digits, of 7 and of 100 bytes
# with their ends: eight reads (of 7 bytes alone), eight sorts, and eight reads with keep, sort and count each, by one
# worker and by four; a read and 9,999 counts of it by one and by four; a chain of 10,000 tasks by one and by sixteen.
# Beside the eight sorts, four programs that do two of them each by one worker, started at once: what the machine gives
# to threads that share nothing. The kinds of calls are taken in turn, fifteen of each or as many as the first argument
# says; a second argument runs only the rows whose names contain it. Of times and of the processor time of all threads
# it prints the median and the least, of speeds the median of the turns and the ratio of the least times, and how much
# of the time for which its processors had work the host of a virtual machine kept them. Where that is more than two in
# a hundred in a call, its turn is left out of a second line, of the quiet turns. With a third argument, `steady`, each
# processor has a loop of the idle class beside the calls, which runs where nothing else does: a processor that shares a
# core or the power with others is faster while these are idle, and with the loops its speed is the same in all calls.
# It needs python3, says the load before and after, and is run as `bash bench/crews.sh`, from any folder, on a machine
# with four idle processors.
set -euo pipefail
flow=$(cd "$(dirname "${BASH_SOURCE[0]}")/.." && pwd)/crates/flow/out/flow
[ -x "$flow" ] || { echo "build the program first: make" >&2; exit 1; }

folder=$(mktemp -d)
trap 'rm -rf "$folder"' EXIT
cd "$folder"

uptime
python3 - "$flow" "${1:-15}" "${2:-}" "${3:-}" <<'PYTHON'
import json, multiprocessing, os, random, statistics, subprocess, sys, time

FLOW = sys.argv[1]
CALLS = int(sys.argv[2])
PICKED = sys.argv[3]
STEADY = sys.argv[4] == "steady"
dice = random.Random(7)


def write_text(name, width, size):
    """So many bytes of lines of random hexadecimal digits, of this width with their ends."""
    count = size // width
    own = width - 1
    digits = f"{dice.getrandbits(4 * count * own):0{count * own}x}"
    open(name, "w").write("".join(digits[k * own:(k + 1) * own] + "\n" for k in range(count)))


def write_graph(name, tasks):
    json.dump({"tasks": tasks}, open(name, "w"))


def write_graphs(width):
    """Eight sorts, two of them each in four graphs, and eight reads with keep, sort and count each, of texts of 8 MB with
    lines of this width."""
    sorts = []
    work = []
    for k in range(8):
        text = f"text{width}-{k}.txt"
        write_text(text, width, 8_000_000)
        sorts += [{"name": f"r{k}", "op": "read", "text": text, "to": [f"s{k}"]},
                  {"name": f"s{k}", "op": "sort", "to": [f"n{k}"]}, {"name": f"n{k}", "op": "count"}]
        work += [{"name": f"r{k}", "op": "read", "text": text, "to": [f"k{k}", f"s{k}", f"c{k}"]},
                 {"name": f"k{k}", "op": "keep", "word": "abcd", "to": [f"kn{k}"]}, {"name": f"kn{k}", "op": "count"},
                 {"name": f"s{k}", "op": "sort", "to": [f"sn{k}"]}, {"name": f"sn{k}", "op": "count"},
                 {"name": f"c{k}", "op": "count"}]
    write_graph(f"sorts{width}.json", sorts)
    write_graph(f"work{width}.json", work)
    for part in range(4):
        write_graph(f"sorts{width}-{part}.json", sorts[part * 6:part * 6 + 6])


write_graphs(7)
write_graphs(100)
reads = []
for k in range(8):
    reads += [{"name": f"r{k}", "op": "read", "text": f"text7-{k}.txt", "to": [f"h{k}"]}, {"name": f"h{k}", "op": "head", "n": 1}]
write_graph("reads.json", reads)
open("small.txt", "w").write("x\ny\n")
write_graph("fan.json", [{"name": "t", "op": "read", "text": "small.txt", "to": [f"c{k}" for k in range(9_999)]}]
            + [{"name": f"c{k}", "op": "count"} for k in range(9_999)])
chain = [{"name": "t0", "op": "read", "text": "small.txt"}] + [{"name": f"t{k}", "op": "keep", "word": "x"} for k in range(1, 10_000)]
for k in range(9_999):
    chain[k]["to"] = [f"t{k + 1}"]
write_graph("chain.json", chain)


def processor_ticks():
    """How long the processors had work, and for how much of it the host kept them for others."""
    user, nice, system, _, _, irq, softirq, stolen = [int(field) for field in open("/proc/stat").readline().split()[1:9]]
    return user + nice + system + irq + softirq + stolen, stolen


def turn_idly():
    """A loop that runs while its processor has nothing else to do."""
    os.sched_setscheduler(0, os.SCHED_IDLE, os.sched_param(0))
    while True:
        pass


class Call:
    """Programs that are started at once, one for each graph."""

    def __init__(self, graphs, workers):
        before = processor_ticks()
        start = time.perf_counter()
        programs = [subprocess.Popen([FLOW, "run", f"{graph}.json", "--workers", str(workers)], stdout=subprocess.DEVNULL)
                    for graph in graphs]
        self.processor = 0
        for program in programs:
            _, status, usage = os.wait4(program.pid, 0)
            if status:
                sys.exit(f"{program.args} ended with code {os.waitstatus_to_exitcode(status)}")
            self.processor += usage.ru_utime + usage.ru_stime
        self.seconds = time.perf_counter() - start
        after = processor_ticks()
        self.worked, self.stolen = after[0] - before[0], after[1] - before[1]


def milliseconds(seconds):
    return f"{statistics.median(seconds) * 1000:.1f} ms (least {min(seconds) * 1000:.1f})"


def is_quiet(turn):
    """Whether the host kept the processors for no more than two in a hundred of any call's time, or for a tick."""
    return all(call.stolen <= max(1, call.worked // 50) for call in turn)


def print_kinds(names, turns):
    """A line for each kind of call: its times, and how they compare with those of the first kind in the same turns."""
    ones = [turn[0] for turn in turns]
    for place, name in enumerate(names):
        calls = [turn[place] for turn in turns]
        seconds = [call.seconds for call in calls]
        speed = statistics.median(one.seconds / call.seconds for one, call in zip(ones, calls))
        least = min(one.seconds for one in ones) / min(seconds)
        ratio = statistics.median(call.processor / one.processor for one, call in zip(ones, calls))
        kept = sum(call.stolen for call in calls) * 100 / max(1, sum(call.worked for call in calls))
        print(f"  {name}: {milliseconds(seconds)}, speed {speed:.2f} (of the least {least:.2f}); "
              f"processor {milliseconds([call.processor for call in calls])}, {ratio:.2f} times; kept by the host {kept:.1f} in a hundred",
              flush=True)


def measure(what, graph, workers, programs):
    """A row: calls by one worker and by so many, and so many programs at once where there are graphs of parts."""
    kinds = [("1 worker", [graph], 1), (f"{workers} workers", [graph], workers)]
    if programs:
        kinds.append((f"{programs} programs at once", [f"{graph}-{part}" for part in range(programs)], 1))
    names = [name for name, _, _ in kinds]
    turns = [[Call(graphs, count) for _, graphs, count in kinds] for _ in range(CALLS)]
    print(f"{what}, {CALLS} turns")
    print_kinds(names, turns)
    quiet = [turn for turn in turns if is_quiet(turn)]
    if quiet and len(quiet) < CALLS:
        print(f" the {len(quiet)} quiet ones of them")
        print_kinds(names, quiet)


ROWS = [("eight reads alone", "reads", 4, 0), ("eight sorts of lines of 7 bytes", "sorts7", 4, 4),
        ("eight reads with three tasks each, lines of 7 bytes", "work7", 4, 0),
        ("eight sorts of lines of 100 bytes", "sorts100", 4, 4),
        ("eight reads with three tasks each, lines of 100 bytes", "work100", 4, 0),
        ("a read and 9,999 counts", "fan", 4, 0), ("a chain of 10,000 tasks", "chain", 16, 0)]
picked = [row for row in ROWS if PICKED in row[0]]
if not picked:
    sys.exit(f"no row has a name that contains {PICKED}")
if STEADY:
    for _ in range(os.cpu_count()):
        multiprocessing.get_context("fork").Process(target=turn_idly, daemon=True).start()
    print("each processor has a loop of the idle class")
for row in picked:
    measure(*row)
PYTHON
uptime

#!/usr/bin/env python3
"""Lists, for each definition of a crate's specs/, the claims that compute it on small examples.

A claim is a lemma of a crate's proofs/Worked*.antt or proofs/*Examples.antt, or a clause of an empty function of
claims or of a file examples.rt. It belongs to each definition that its statement names. A definition that no
statement names is computed by the claims of the definitions that cite it, or by none. Prints a table of definitions
and claims; after a crate's name, that crate's. With --check it prints each definition that no claim computes and that
UNCLAIMED doesn't give a reason for, and each reason that isn't needed.
"""
import re
import sys

from spec_files import CRATES, definitions_in, imported, name_of, words

CLAIM = re.compile(r"^\s*(?:pub )?([a-z_][a-z0-9_-]*) : (.*)$")
CLAUSE = re.compile(r"ensures ([a-z_0-9]+) \{((?:[^{}]|\{[^{}]*\})*)\}")
# Crates whose definitions are the claims' own nets and journals, or serve tests alone: of what these say only their
# tests compute examples.
EXAMPLES = ("async_trials", "claims", "desk_trials", "library_claims", "library_tour", "test_grains", "test_jobs")
# The definitions without a claim, by the reason.
UNCLAIMED = {
    "what a law says of every run, where no run can fail it; the law's proof ties it": (
        "flow_run/specs/Plainly.antt: IsReportedPlainly",
        "run_laws/specs/JudgeLaw.antt: IsJudgedComplete JudgesKept",
        "run_laws/specs/PlainLaws.antt: IsPlainRun RunsPlainly",
        "report_laws/specs/PlainReport.antt: HasSameReport ReportsPlainly",
    ),
    "what a law says of every fold, where no fold can fail it; the law's proof ties it": (
        "grain_tasks/specs/Chunks.antt: JoinsChunks",
        "grain_tasks/specs/ChunkWork.antt: RunsAreFine",
    ),
    "cited only by the law that text jobs are plain": (
        "run_laws/specs/PlainJobs.antt: IsGraphJob IsInside IsPlainly",
    ),
    "a proof itself: a law that the trait Job asks of text jobs, or Fold of folds, or one that it stands on": (
        "line_folds/specs/WordFolds.antt: word_fold_lawful",
        "line_maps/specs/LineMaps.antt: mapping_lawful",
        "text_tasks/specs/JobLaws.antt: text_answers_fit text_faults_own text_gather_faults_own"
        " graph_in_plan graph_of_work op_count",
    ),
    "over a value with private fields, which only running code makes": ("text_ops/specs/Joining.antt: IsJoined",),
}


def definitions():
    """Each definition that public clauses may cite: its file, its name and its text."""
    found = {}
    for path in sorted(CRATES.glob("*/specs/*.antt")):
        if path.name[0].islower() or path.name == "Lib.antt" or path.parts[-3] in EXAMPLES:
            continue
        found[name_of(path)] = definitions_in(path)
    return found


def claims():
    """The name of each claim, and the definitions that its statement names, with their files."""
    found = []
    files = sorted([*CRATES.glob("*/proofs/Worked*.antt"), *CRATES.glob("*/proofs/*Examples.antt")])
    for path in files:
        lines = path.read_text().split("\n")
        home = imported(path.read_text())
        for i, line in enumerate(lines):
            match = CLAIM.match(line)
            if match is None or line.lstrip().startswith(("abbrev", "--")) or (i > 0 and lines[i - 1].lstrip().startswith("abbrev mutual")):
                continue
            statement = match.group(2)
            j = i + 1
            while j < len(lines) and lines[j].startswith(" " * (len(line) - len(line.lstrip()) + 4)) and lines[j].strip():
                statement += " " + lines[j].strip()
                j += 1
            found.append((match.group(1), {home[word] for word in words(statement) if word in home}))
    for path in sorted([*CRATES.glob("claims/src/*.rt"), *CRATES.glob("*/src/examples.rt")]):
        home = imported(path.read_text())
        for name, statement in CLAUSE.findall(path.read_text()):
            found.append((name, {home[word] for word in words(statement) if word in home}))
    return found


def cited(file, text, home, texts):
    """The definitions that a definition of a file cites."""
    keys = {(file, word) if (file, word) in texts else home.get(word) for word in words(text)}
    return {key for key in keys if key in texts}


def collected():
    """The claims that name each definition, the definitions that each cites, and those that some claim computes."""
    stated = claims()
    texts = {(file, name): text for file, names in definitions().items() for name, text in names.items()}
    homes = {file: imported((CRATES / file).read_text()) for file, _ in texts}
    cites = {key: cited(key[0], text, homes[key[0]], texts) - {key} for key, text in texts.items()}
    own = {key: list(dict.fromkeys(claim for claim, used in stated if key in used)) for key in texts}
    # What a claim computes goes through all that its definitions cite.
    shown = set()
    waiting = [key for key in texts if own[key]]
    while waiting:
        key = waiting.pop()
        if key not in shown:
            shown.add(key)
            waiting.extend(cites[key])
    return own, cites, shown


def table(crates):
    """A row for each file of these crates, or of all if none is named."""
    own, cites, shown = collected()
    rows = {}
    for key in own:
        file, name = key
        if crates and file.split("/")[0] not in crates:
            continue
        citing = [other for other in own if key in cites[other] and other in shown]
        by = [other for _, other in citing if (file, other) in citing] or list(dict.fromkeys(other for _, other in citing))
        said = ", ".join(own[key]) if own[key] else "those of " + ", ".join(f"`{other}`" for other in by) if by else "none"
        rows.setdefault(file, []).append(f"`{name}`: {said}")
    lines = [f"| `{file}` | " + "; ".join(cells) + " |" for file, cells in rows.items()]
    return "\n".join(["| File | Definitions and their claims |", "|---|---|", *lines])


def differences():
    """A line for each definition without a claim and without a reason, and for each reason that isn't needed."""
    own, _, shown = collected()
    excused = {(file, name) for rows in UNCLAIMED.values() for row in rows for file, names in [row.split(": ")] for name in names.split()}
    for file, name in sorted(set(own) - shown - excused):
        yield f"crates/{file}: no claim computes {name}, and tools/list_claims.py has no reason for it"
    for file, name in sorted(excused - (set(own) - shown)):
        yield f"tools/list_claims.py: {name} of {file} needs no reason: it has a claim, or isn't there"
    if not shown:
        yield "no claims were found"


def main():
    if "--check" in sys.argv[1:]:
        found = list(differences())
        for line in found:
            print(line, file=sys.stderr)
        sys.exit(1 if found else 0)
    print(table(sys.argv[1:]))


main()

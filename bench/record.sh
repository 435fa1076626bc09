#!/usr/bin/env bash
# Runs a script of this folder and puts what it prints into RESULTS.md, in the section of its name, with the day and the
# machine: `bash bench/record.sh NAME [WORD ..]`, where NAME.sh is the script and the words are passed on to it.
set -euo pipefail
here=$(cd "$(dirname "${BASH_SOURCE[0]}")" && pwd)
name=${1:?"which script? bash bench/record.sh NAME"}
shift
printed=$(bash "$here/$name.sh" "$@" | tee /dev/stderr)
python3 - "$here/RESULTS.md" "$name" "$printed" "$*" <<'PYTHON'
import datetime, os, pathlib, re, sys

path, name, printed, words = pathlib.Path(sys.argv[1]), *sys.argv[2:]
model = re.search(r"model name\s*:\s*(.*)", pathlib.Path("/proc/cpuinfo").read_text())
head = f"{datetime.date.today()}; {os.cpu_count()} processors, {model[1] if model else 'unknown'}; `{f'{name}.sh {words}'.strip()}`"
body = "".join(f"    {line}".rstrip() + "\n" for line in printed.splitlines())
section = f"## {name}\n\n{head}.\n\n{body}"
text = path.read_text()
old = re.search(rf"^## {re.escape(name)}\n.*?(?=^## |\Z)", text, re.M | re.S)
text = text[:old.start()] + section + "\n" + text[old.end():] if old else f"{text.rstrip()}\n\n{section}"
path.write_text(text.rstrip() + "\n")
PYTHON

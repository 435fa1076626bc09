# The README's commands. They need the kit's command `rt` on the path.
SHELL := bash
PREFIX ?= $(HOME)/.local
# Not every shell puts the home folder where ~ stands behind a =.
override PREFIX := $(patsubst ~/%,$(HOME)/%,$(PREFIX))
.SHELLFLAGS := -euo pipefail -c
.PHONY: all program install uninstall demo examples test docs pictures fuzz soak gate-times

# Proves every crate, the lowest first, and builds the program.
all:
	rt all check
	@$(MAKE) --no-print-directory program

# The program, its manual page, the completion for bash, the schema of graph files and the tools that are written in
# Python, all below PREFIX. DESTDIR goes before it, for packages. `make uninstall` with the same PREFIX takes all of it
# away.
ROOT = $(DESTDIR)$(PREFIX)
TOOLS = flow-dot flow-trace flow-lint
install: program
	install -D -m 755 -t "$(ROOT)/bin" crates/flow/out/flow
	install -D -m 644 -t "$(ROOT)/share/man/man1" man/flow.1
	install -D -m 644 share/flow.bash "$(ROOT)/share/bash-completion/completions/flow"
	install -D -m 644 -t "$(ROOT)/share/flow" share/flow-graph.schema.json
	install -D -m 755 -t "$(ROOT)/share/flow" $(TOOLS:%=tools/%)
	install -D -m 644 -t "$(ROOT)/share/flow/flow_tools" tools/flow_tools/*.py
	for tool in $(TOOLS); do ln -sf "../share/flow/$$tool" "$(ROOT)/bin/$$tool"; done

uninstall:
	rm -f "$(ROOT)/bin/flow" $(TOOLS:%="$(ROOT)/bin/%")
	rm -f "$(ROOT)/share/man/man1/flow.1" "$(ROOT)/share/bash-completion/completions/flow"
	rm -rf "$(ROOT)/share/flow"

# The executable crates/flow/out/flow, over the libraries below it, of which as many are proved side by side as there
# are processors. Only `rt run` links it, so it runs on a graph without a task.
program:
	@python3 -B tools/build_libraries.py flow
	cd crates/flow && rt run -- run ../../examples/empty-graph/graph.json

# The program on one of the examples. Names of files are looked up from the folder that it is called in.
demo: program
	cd examples/log-join && ../../crates/flow/out/flow run graph.json

# The program on each of the examples, on words and files that it refuses and on outputs that fail: its exit code
# and what it puts on both streams.
examples: program
	@bash tools/check_program.sh

# The gate: every proof, must-fail edit and test that hasn't passed on this machine as it stands, whose last line is
# 'N passed, M failed'; then the documents against the sources, the tools in Python on cases with answers, and the
# program that it built on the examples.
test:
	rt ci
	@bash tools/check_docs.sh
	@python3 -B tools/test_tools.py
	@bash tools/check_program.sh

# What each step of the gate takes, into docs/TESTING.md. What an earlier run on this machine has passed isn't measured.
gate-times:
	python3 -B tools/gate_times.py rt ci
	python3 -B tools/gate_times.py --table --write docs/TESTING.md

# The pictures in docs/, of examples, by `dot` of Graphviz; without it that of the run alone.
pictures:
	@bash tools/make_pictures.sh

# Random graphs, journals and failing allocations on the built program, five minutes of each of eight tools, and what
# other programs say of the schema, the manual page and the completion; no part of the gate. `make fuzz SEED=N` makes
# the cases of an earlier call again.
fuzz: program
	@bash tools/fuzz.sh $(SEED)

# Random graphs on the built program while it is stopped, continued and held to one processor, fifteen minutes of each of
# four tools; no part of the gate. `make soak SEED=N` makes the cases of an earlier call again.
soak: program
	@bash tools/soak.sh $(SEED)

# Whether the documents, the manual page and the completion say what there is. It says nothing where they do.
docs:
	@bash tools/check_docs.sh

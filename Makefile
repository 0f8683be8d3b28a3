# A newcomer's two commands are `make run` and `make test`.

# Lists what can be made.
help:
	@echo 'make run            proves, builds and runs the first example; leaves bin/bmx'
	@echo 'make test           the gate: proofs, must-fail edits, tests, programs, runs, claims'
	@echo 'make try SCRIPT=F   runs a script before any proof, in about a minute'
	@echo 'make examples       runs each example and compares what it prints'
	@echo 'make runs           runs the program by a table of words, streams and want of memory'
	@echo 'make claims         counts what one has to believe of each claim'
	@echo 'make bench          times scripts and cleanings, counts for keys and marks; YARDSTICK=F compares with plain Rust'
	@echo 'make check          proves every crate over what earlier checks kept'

# Proves and builds the program, runs the first example, and leaves the program as bin/bmx.
run: build
	./bin/bmx run < examples/first.bmx

# Proves and builds the program, and leaves it as bin/bmx.
build:
	cd crates/bmx_cli && rt run -- run < ../../examples/first.bmx > /dev/null
	mkdir -p bin
	cp crates/bmx_cli/out/bmx_cli bin/bmx

# The gate: every proof, each must-fail edit, each test and program, the table of runs, and the claims.
test:
	./.ci/run

# Runs a script before any proof, in about a minute: make try SCRIPT=examples/first.bmx
try:
	@test -f "$(SCRIPT)" || { echo 'make try: SCRIPT="$(SCRIPT)" is no file; try SCRIPT=examples/first.bmx' >&2; exit 2; }
	cd crates/bmx_cli && rt try -- run < $(abspath $(SCRIPT))

# Runs each example NAME.bmx, and compares what it prints with NAME.out and its exit code with that in NAME.code, 0 where
# there is none.
examples: build
	python3 tools/runs.py --examples bin/bmx

# Runs the program by a table: words, closed and full streams, want of memory.
runs: build
	python3 tools/runs.py bin/bmx

# Counts what a reader has to believe of each claim of docs/PROVED.md.
claims:
	python3 tools/claims.py

# Times scripts of 2,000 and 20,000 lines at 1, 2 and 8 nodes, and prints ratios and memory. With YARDSTICK=F, a folder
# with a plain program of the same language and its measure.py, counts the instructions of both besides, by kind of
# script. Times cleanings of ten records beside 100 to 100,000 others too, and nodes of 20 and of 20,000 objects, and
# counts instructions for each key on lists and each name marked.
bench: build
	python3 bench/lines.py bin/bmx
	python3 bench/cleaning.py
	python3 bench/nodes.py
	python3 bench/parts.py
ifdef YARDSTICK
	python3 $(YARDSTICK)/measure.py bin/bmx $(YARDSTICK)/target/release/yardstick --stage 4 --line-writes --sizes 20000 --no-time
endif

# Proves every crate over what earlier checks kept.
check:
	rt all check

.PHONY: help run build test try examples runs claims bench check

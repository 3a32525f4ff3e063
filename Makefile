# The folder with manta's crates/. Where it is not there, `make test` leaves the oracle out.
MANTA_SRC ?= $(wildcard ../shared/docs/src)
export MANTA_SRC

.PHONY: run test vectors seconds oracle compare changes definitions bench
# Runs a list of calls: its answers, and its account at the end. The first time, the program is proved and built.
LIST ?= lists/first.calls
run:
	@./waluntig calls "$(LIST)"

# Proves every crate from nothing, tries every must-fail edit, runs every program, and then the rest (tools/test says what).
test:
	@tools/test

# Makes again what is made from other files (tools/vectors says which). If a part fails, all stays as it was.
vectors:
	@rm -rf target/vectors; tools/vectors target/vectors
	@cd target/vectors && find . -type f | while read -r f; do cmp -s "$$f" "../../$$f" || cp "$$f" "../../$$f"; done

# Makes the tables of seconds again from the log of the last `make test`: the one from which it is told how long a proof takes, and
# the one in docs/BENCHMARKS.md.
seconds:
	@tools/seconds crates.txt target/ci.log > tools/seconds.new && mv tools/seconds.new tools/seconds.txt
	@tools/gate_table crates.txt target/ci.log > target/gate_table
	@sed -i -e '/^<!-- gate -->$$/,/^<!-- end -->$$/{/^<!--/!d}' -e '/^<!-- gate -->$$/r target/gate_table' docs/BENCHMARKS.md

# Builds the Rust under its scripted clock and socket, and runs the cases and the lists of calls through it.
oracle:
	@oracle/run check .

# Puts the lists of calls, and random ones of at least CALLS calls, to the program `calls` and to the Rust, and compares. What
# the random ones are made from is the day, or SEED, for a run to be repeated.
CALLS ?= 1000000
SEED ?= $(shell date +%Y%m%d)
compare:
	@tools/prove calls
	@echo "make compare CALLS=$(CALLS) SEED=$(SEED)"
	@oracle/run compare target/bin/calls . $(SEED) $(CALLS)

# Changes the Rust here and there, and asks of each change that the lists of calls show it.
changes:
	@python3 -B oracle/try_changes.py

# Changes the session's definitions here and there, with the code that follows, and asks of each change that a theorem, a worked
# case or a list shows it. With CHANGE it tries those alone that have these words in their first line.
CHANGE ?=
definitions:
	@python3 -B tools/try_definitions.py "$(CHANGE)"

# Measures a datagram's parser and a session's cycles against the Rust's own.
bench:
	@bench/run

# make test              everything that is proved, compared and run: the gate, docs/GATE.md
# make quick             while one works: proves the crates that differ from HEAD and those above them, and compares what they reach
# make quick BASE=REV    the same from another revision
# make run               builds the program `decode` and decodes every sheet in samples/
# make run SHEET=FILE    decodes a sheet of one's own
# make example           builds the C example of examples/ and runs it: learns from log lines, labels another
# make text              builds the C program of examples/ that reads a training text, and reads those in samples/
# make text FILE=FILE    reads a training text of one's own
# make bench             times beside the Rust: decoding, scoring, counting, training; reading training texts
# make compare ROUNDS=N  the comparison with the Rust, with N times as many random cases as in make test
# make list              writes anew, from the oracle, the answers that the gate replays, and the samples
# make archive           the static library for C and Rust, in build/
# make fmt               lays out the Rattle and antt files

root := $(dir $(lastword $(MAKEFILE_LIST)))

.PHONY: test quick run example text bench compare list archive fmt

test:
	@$(root)scripts/test

quick: export BASE ?= HEAD
quick:
	@$(root)scripts/quick

# SHEET is looked for where make was called from, also under make -C
run: export FROM = $(PWD)
run:
	@$(root)scripts/run

example:
	@$(root)scripts/example

# FILE is looked for where make was called from, also under make -C
text: export FROM = $(PWD)
text:
	@$(root)scripts/read-text

bench:
	@$(root)scripts/bench

compare: export ROUNDS ?= 1
compare:
	@$(root)scripts/compare

list:
	@$(root)scripts/list $(root)

archive:
	@$(root)scripts/archive

fmt:
	@cd $(root) && for crate in crates/*/; do (cd "$$crate" && rt fmt) || exit 1; done

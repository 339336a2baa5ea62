.PHONY: test check edits demo fuzz golden bench model

# How many random logs `make fuzz` compares, and as many damaged ones, and the first seed.
COUNT ?= 10000
SEED ?= 1

# How often `make bench` measures each log, and how many of the generator's full logs it measures, where it is to be other than bench/ says.
ROUNDS ?=
LOGS ?=

# The crates whose further must-fail edits `make edits` tries: all that have some, unless some are named.
CRATES ?=

# The verdict: every crate is proved, the must-fail edits are tried, every program is run and compared, whole listings are compared with the
# independent model's, and the static library is called, and searched for divisions where none may be.
test:
	tools/test

# While one works: only what has changed, the lowest crates first.
check:
	rt all check

# The further wrong programs, of crates/NAME/more-must-fail: make edits, or make edits CRATES='orders timers'
edits:
	tools/edits $(CRATES)

# A plant's morning: demo/morning.txt says what happens, and rtmslog prints what the executive answers.
demo: model
	tools/program rtmslog
	mkdir -p target
	tests/target/release/logtext log < demo/morning.txt > target/morning.log
	@echo '--- demo/morning.txt'
	@cat demo/morning.txt
	@echo '--- rtmslog'
	@crates/rtmslog/out/rtmslog < target/morning.log

# The executive against the independent model, on as many logs as one likes: make fuzz COUNT=100000 SEED=1
fuzz:
	tools/compare $(SEED) $(COUNT)

# The golden listings, written anew by the model. Read every one that changes.
golden: model
	tests/target/release/golden tests/golden
	cp tests/golden/batch.stdin crates/batch/stdin
	cp tests/golden/batch.stdout crates/batch/stdout

# How long listings take, the model's and ours in one run.
bench:
	tools/library
	cd bench && RTMS_LIBRARY_DIR=$(CURDIR)/crates/exports/out cargo run --offline --release --quiet --features in-process -- $(ROUNDS:%=--rounds %) $(LOGS:%=--logs %)

# The model, and the tools around it.
model:
	cd tests && cargo build --offline --release --quiet

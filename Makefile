# make run: plays the bundled example, within a minute. make prove: proves every crate. make test: every test; it installs what
# is missing (Debian packages).
.PHONY: run prove test peers proved bench tools blocks setup clean

LIB := $(CURDIR)/target/staticlib
CARGO := cargo --quiet
PEER := --release --offline --manifest-path tests/Cargo.toml
BLOCKS := --release --offline --manifest-path tools/blocks/Cargo.toml
PROVED := KERNEL_LIB_DIR=$(LIB) $(CARGO) run $(PEER) --features dumps,moves,loops,bodies --bin

run:
	@sh tools/run

prove:
	@tools/prove

test: peers proved

# What needs no proof.
peers: setup
	$(CARGO) test $(PEER)
	$(CARGO) test $(BLOCKS)

# What runs the proved kernel.
proved: setup tools
	tools/lib exports dump_exports read_exports
	KERNEL_LIB_DIR=$(LIB) $(CARGO) test $(BLOCKS) --features library
	sh tests/archives.sh
	sh tests/run.sh
	sh tests/examples.sh
	$(PROVED) compare models 200000 1
	$(PROVED) compare sessions 100000 1
	$(PROVED) compare schedules 10000 1
	$(PROVED) compare moves 20000 1
	$(PROVED) compare limits
	$(PROVED) compare dumps 20000 1
	$(PROVED) compare loops 20000 1
	$(PROVED) compare bodies 20000 1
	$(PROVED) compare texts 20000 1
	$(PROVED) viewer 50 1
	KERNEL_LIB_DIR=$(LIB) sh tests/ghdl/run.sh 200 1
	$(CARGO) run $(PEER) --bin edge target/bin/playbench
	$(CARGO) run $(PEER) --bin edge dump target/bin/dumpbench
	$(CARGO) run $(PEER) --bin edge loop target/bin/loopbench
	$(CARGO) run $(PEER) --bin edge text target/bin/textbench

bench: setup
	tools/lib exports loop_exports read_exports
	bench/run
	KERNEL_LIB_DIR=$(LIB) $(CARGO) run $(PEER) --features proved,loops --bin judgebench
	KERNEL_LIB_DIR=$(LIB) $(CARGO) run $(PEER) --features bodies --bin readbench

# With the proved libraries, for blocks move and blocks loops.
tools: prove
	tools/lib move_exports loop_exports
	KERNEL_LIB_DIR=$(LIB) $(CARGO) build $(BLOCKS) --features library

# Without them: no proof, and all but these two.
blocks:
	$(CARGO) build $(BLOCKS)

setup:
	@sh tools/setup

clean:
	rm -rf target tests/target tools/blocks/target

# make run      proves and builds the bench program, and runs it on a fault beyond the bank and then one inside it.
# make test     the gate: rt ci, which proves each crate, tries the must-fail edits and runs each program; what the documents cite, that each edit still applies,
#               the second program's own checks, the files that it makes against those stored, the C calls and the bench program against it, and a wrong
#               program across crates (tests/gate). What is below is not part of it.
# make edits NAME ..
#               every must-fail edit of these crates, or of all: those of the gate and those beside it (more-edits/).
# make wrong    lists all must-fail edits, a line each.
# make mutants  wrong programs drawn by chance from the source, which must be refused as well: N for each crate, by SEED.
# make fuzz     a million blocks through the C calls against the second program, built with the address and undefined-behaviour sanitizers.
# make speed    the measuring call against the second program's, at 2, 3 and 4 ends: the ratio of times in one run, and instructions (valgrind); the
#               turns of a root at light load and at faults; and the instructions of a set with the overcurrent elements off and on.
CC = gcc
CXX = g++
CFLAGS = -std=c11 -O2 -Wall -Wextra -Werror
CXXFLAGS = -std=c++11 -O2 -Wall -Wextra -Werror
HOST = crates/host/out/libhost.a
BENCH = crates/bench/out/bench
CALLS = crates/calls/out/calls
SOURCES = crates.txt $(shell find crates -name out -prune -o \( -name '*.rt' -o -name '*.antt' \) -print)
SECOND = second/relay.c second/relay.h second/draw.c second/draw.h
N = 4
SEED = 1

# After `make edits` come names of crates, and some of these are targets below: so then nothing else is read.
ifeq (edits,$(firstword $(MAKECMDGOALS)))
NAMES = $(filter-out edits,$(MAKECMDGOALS))
.PHONY: $(MAKECMDGOALS)
edits:
	tests/edits $(NAMES)
$(NAMES): edits ; @:
else
.PHONY: run test references applies promises second stored proved host planner bench calls slope-limit wrong mutants fuzz speed clean

run: $(BENCH)
	$(BENCH) < examples/faults.blocks

test:
	tests/gate

build/numbers: second/numbers.c second/root.c second/root.h
	@mkdir -p build
	$(CC) $(CFLAGS) -o $@ $< second/root.c

build/selftest build/banks build/faults build/vectors build/bench: build/%: second/%.c $(SECOND)
	@mkdir -p build
	$(CC) $(CFLAGS) -o $@ $< second/relay.c second/draw.c -lm

build/calls: second/calls.c second/parts.c second/parts.h $(SECOND)
	@mkdir -p build
	$(CC) $(CFLAGS) -o $@ $< second/parts.c second/relay.c second/draw.c -lm

build/blocks build/fuzz build/edges build/stream: build/%: second/%.c $(SECOND) include/tdp.h $(HOST)
	@mkdir -p build
	$(CC) $(CFLAGS) -Iinclude -o $@ $< second/relay.c second/draw.c $(HOST) -lm

build/host build/planner: build/%: examples/%.c include/tdp.h $(HOST)
	@mkdir -p build
	$(CC) $(CFLAGS) -Iinclude -o $@ $< $(HOST)

# The example in each way that a host may be built: as C++, static, position independent, and in a shared object, which a program without code of its
# own runs.
HOSTS = build/host build/host-cpp build/host-static build/host-pie build/host-shared

build/host-cpp: examples/host.c include/tdp.h $(HOST)
	@mkdir -p build
	$(CXX) $(CXXFLAGS) -Iinclude -o $@ -x c++ $< -x none $(HOST)

build/host-static: examples/host.c include/tdp.h $(HOST)
	@mkdir -p build
	$(CC) $(CFLAGS) -Iinclude -static -o $@ $< $(HOST)

build/host-pie: examples/host.c include/tdp.h $(HOST)
	@mkdir -p build
	$(CC) $(CFLAGS) -Iinclude -fPIE -pie -o $@ $< $(HOST)

build/host.so: examples/host.c include/tdp.h $(HOST)
	@mkdir -p build
	$(CC) $(CFLAGS) -Iinclude -fPIC -shared -Wl,-z,defs -Wl,-z,text -o $@ $< $(HOST)

build/host-shared: build/host.so
	$(CC) -o $@ $< -Wl,-rpath,'$$ORIGIN'

# `rt lib` and `rt run` prove what they build, over what earlier checks kept in out/. rt ci leaves the programs too, but not the library. Without `--cpu` the
# library would ask for a processor with SSE4.2, and its header promises SSE2.
$(HOST): $(SOURCES)
	cd crates/host && rt lib --cpu x86-64
	@touch $@

$(BENCH) $(CALLS): crates/%: $(SOURCES)
	cd $(dir $(@D)) && rt run < /dev/null > /dev/null
	@touch $@

# The second program meets the numbers of documents 01 and 02, and lists of calls give the same answers turned, and struck of their page calls. Healthy
# banks without and with neutral current keep the limits of D and start nothing, the largest D is told, and banks by wrong rules go past the limits. Faults
# fed from one end start exactly where D is above P and trip after M sets, and wrong rules are told from that.
second: build/selftest build/banks build/faults
	build/selftest
	build/banks
	build/faults

# What the programs of crates/ are run on, and what they must print, is what the second program makes.
stored: build/numbers build/vectors build/bench
	build/numbers input | cmp - crates/numbers/stdin
	build/numbers expect | cmp - crates/numbers/stdout
	build/vectors input | cmp - crates/vectors/stdin
	build/vectors expect | cmp - crates/vectors/stdout
	build/bench one input | cmp - crates/bench/stdin
	build/bench one expect | cmp - crates/bench/stdout
	build/bench two input | cmp - examples/faults.blocks
	build/bench two expect | cmp - examples/faults.out

# What README, docs/ and the comments of specs/ and src/ cite is there: sections, cards, links, and the files and names in backquotes.
references:
	tests/references

# The must-fail edits: those that rt ci tries, and those beside the gate.
EDITS = $(wildcard crates/*/must-fail/*.edit crates/*/more-edits/*.edit)

# Every edit still applies.
applies:
	@awk -f tests/applies.awk $(EDITS)

# What an edit says that it breaks is promised.
promises:
	@awk -f tests/promises.awk mode=src $(wildcard crates/*/src/*.rt) mode=specs $(wildcard crates/*/specs/*.antt) mode=edits $(EDITS)

# What is run on the proved code.
proved: host planner bench calls

# The C calls: the example, in each way of building it; what the library asks of a host; 100,000 setting blocks and 10,000 measuring calls against the second
# program, the calls with negated samples too; blocks at the edge of what may be read; and streams of sets followed as the header says.
host: $(HOSTS) build/blocks build/fuzz build/edges build/stream
	@for h in $(HOSTS); do echo "$$h > build/host.out && cmp build/host.out examples/host.out"; $$h > build/host.out && \
		cmp build/host.out examples/host.out || exit 1; done
	test -z "$$(nm -u $(HOST) | grep ' U ' | grep -vE ' (memcpy|memmove|memset)$$')"
	build/blocks
	build/fuzz 10000
	build/edges
	build/stream

# What README tells a planner to paste, and what it says that this prints.
planner: build/planner $(BENCH)
	tests/planner

# The bench program on the example, also where it comes in pieces of seven bytes, nothing, a block of zeros, half a setting block, a setting alone, and
# a last block that is one byte short; then on each case of the second program: every refusal that it can meet, blocks of no sets and full ones, and
# 250 streams drawn by chance.
bench: $(BENCH) build/bench
	$(BENCH) < examples/faults.blocks | cmp - examples/faults.out
	dd bs=7 status=none if=examples/faults.blocks | $(BENCH) | cmp - examples/faults.out
	test "$$($(BENCH) < /dev/null)" = "refused 1"
	test "$$(head -c 512 /dev/zero | $(BENCH))" = "refused 3"
	test "$$(head -c 256 examples/faults.blocks | $(BENCH))" = "refused 1"
	test "$$(head -c 512 examples/faults.blocks | $(BENCH))" = "set state D1 D2 D3 trip"
	test "$$(head -c 1535 examples/faults.blocks | $(BENCH) | tail -n 1)" = "refused 1"
	build/bench drawn
	@echo "build/bench CASE input | $(BENCH) | cmp - build/bench.out, for each case"
	@for c in $$(build/bench cases); do build/bench $$c expect > build/bench.out && build/bench $$c input | $(BENCH) | cmp - build/bench.out || \
		{ echo "bench: case $$c"; exit 1; }; done

# Records of calls against the second program: each answer to a sample, a reset, a read or a write of the register page, with counters, latches, flags and
# refusals; in some, parts of the record are changed between calls, within their rules and past them, so that refusal 12 is met; some come once more with
# every sample negated. Setting blocks with up to six faults, every pair of neighbours in block order among them, and such values to start and writer: each
# refusal with its offset; slopes that fall, are level and rise, alone and with every other fault, in blocks, in values and in the record.
calls: $(CALLS) build/calls
	build/calls expect > build/calls.out
	build/calls input | $(CALLS) | cmp - build/calls.out

# A wrong program across two crates: a limit of 250 percent for the second slope in the rules of a setting, which the promise of a fault fed from one end must refuse.
slope-limit:
	tests/slope-limit

# A line for each wrong program or statement.
wrong:
	@tests/wrong

mutants:
	tests/mutants $(N) $(SEED)

build/fuzz-checked: second/fuzz.c $(SECOND) include/tdp.h $(HOST)
	@mkdir -p build
	$(CC) -std=c11 -O1 -g -fsanitize=address,undefined -Iinclude -o $@ $< second/relay.c second/draw.c $(HOST) -lm

build/speed: second/speed.c second/root.c second/root.h $(SECOND) include/tdp.h $(HOST)
	@mkdir -p build
	$(CC) -std=c11 -O3 -Wall -Wextra -Werror -Iinclude -o $@ $< second/root.c second/relay.c second/draw.c $(HOST) -lm

# Two blocks to a call.
fuzz: build/fuzz-checked
	build/fuzz-checked 500000

speed: build/speed $(BENCH)
	build/speed
	tests/instructions

clean:
	rm -rf build crates/*/out
endif

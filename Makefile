# What stands around the proved crates: the C examples, the tests, the benchmarks, the installation. All that is made
# lies under target/ (and reference/target/), but for what rt keeps in crates/*/out/. The libraries' archives are x86-64 code on every machine;
# where the machine is another, C is cross-compiled against them and run by an emulator.
# A line that begins with `#:` is what `make help` says of the target below it.
# make test runs its parts side by side and notes what each takes; tests/timed.sh is bash, with a clock.
ifdef TIMES
SHELL := tests/timed.sh
.SHELLFLAGS = of:$@ -euo pipefail -c
else
SHELL := /bin/bash
.SHELLFLAGS := -euo pipefail -c
endif
.DELETE_ON_ERROR:
export PYTHONDONTWRITEBYTECODE := 1
.PHONY: help run test quick clean fmt kit pages header examples tables texts aims stores programs reference installs cited narrow bench served stack installable install uninstall
.PHONY: unsound reports moves takes cuts recipes daemon peers differential plain rows noticed soak mutants stats definitions-check cases
.PHONY: voicemail documents parsed promises spreadsheet long ends

MACHINE := $(shell uname -m)
ifeq ($(MACHINE),x86_64)
X86_CC := gcc
X86_CXX := g++
RUN :=
else
X86_CC := x86_64-linux-gnu-gcc -static
# gcc compiles C++ too, and unlike g++ asks for no static libm, of which Debian's script for the linker names a wrong folder.
X86_CXX := $(X86_CC)
RUN := qemu-x86_64
endif
# Asked for only where a recipe needs it: `make clean` works without rt.
KIT = $(shell dirname "$$(rt doc)")

STRICT := -O2 -Wall -Wextra -pedantic -Werror -Iinclude
ARCHIVE := target/staticlib/libndushavire.a
SH_ARCHIVE := target/staticlib/libndushavire_sh.a
ARCHIVES := $(SH_ARCHIVE) $(ARCHIVE)
HEADER := include/ndushavire.h
SH_HEADER := include/ndushavire_sh.h
BINARY := reference/target/release/reference
# What an archive or a program is made from; of crates/*/out/ nothing, where rt writes.
PROVED := crates.txt $(shell find crates -mindepth 2 -name out -prune -o \( -name '*.rt' -o -name '*.antt' -o -type d \) -print)
# Over the archive, which is x86-64 code, and nothing of theirs is static: these are installed on x86-64 alone. The other two are plain C.
OVER_ARCHIVE := target/bin/answer target/bin/tablecheck target/c99/check target/c99/list target/c99/move target/c99/report target/c99/take
PROGRAMS := target/c/maketable target/c/showtable $(if $(filter x86_64,$(MACHINE)),$(OVER_ARCHIVE))
REFERENCE := $(shell find reference -path reference/target -prune -o -name '*.rs' -print -o -name 'Cargo.*' -print)

#: help               this list
help:
	@sed -n 's/^#: //p' $(firstword $(MAKEFILE_LIST))

# The sample, and four answers of the program answer over it in a form to read: to a header alone, to the question where bob is, to an
# assignment of erin's line, and to a challenge of her card; and what a voicemail box is told of bob. A program of the kit runs with the
# kit's own loader and C library, on either machine.
PROGRAM = $(RUN) $(KIT)/toolchain/lib/ld-linux-x86-64.so.2 --library-path $(KIT)/toolchain/lib
SHOWN := examples/no-avps $(addprefix tests/captured/,icscf-20-lir scscf-12-sar mar-33)
#: run                the sample table and vectors, checked, and five answers from them in a form to read
run: target/c/maketable target/c99/check target/c99/userdata target/bin/answer $(BINARY)
	@mkdir -p target/run
	target/c/maketable table examples/households.txt >target/run/table
	target/c/maketable profile examples/households.txt >target/run/profile
	target/c/maketable vectors examples/vectors.txt >target/run/vectors
	$(RUN) target/c99/check target/run/table target/run/profile target/run/vectors
	@for request in $(SHOWN); do \
	    printf '\n%s\n' "$$request.hex: $$(sed -n 's/^# asked: //p' $$request.hex)"; \
	    printf %b "$$(sed '/^#/d; s/ //g; s/../\\x&/g' $$request.hex | tr -d '\n')" | \
	        (cd target/run && $(PROGRAM) ../bin/answer) | $(BINARY) show | sed -E 's/  [0-9a-f]{8}( [0-9a-f]{2,8})*$$//'; \
	done
	@printf '\n%s\n' "examples/voicemail.hex: $$(sed -n 's/^# asked: //p' examples/voicemail.hex)"
	@$(RUN) target/c99/userdata target/run/table target/run/profile examples/voicemail.hex | tail -n 1

# What rt ci or an earlier run made of these sources is taken as it lies there.
target/bin/%: $(PROVED)
	[ -f crates/$*/out/$* ] && [ -z "$$(find $(PROVED) -maxdepth 0 -newer crates/$*/out/$* -print -quit)" ] || \
	    { cd crates/$* && rt run -- --version; }
	mkdir -p $(@D)
	cp crates/$*/out/$* $@

# The parts of make test, the longest first. What they need is made before, once, and what needs the archive waits for it alone.
PARTS := stores differential daemon reference tables narrow texts examples installs recipes cited programs noticed takes pages kit fmt header aims unsound reports moves \
    documents voicemail promises ends
MADE := $(ARCHIVES) $(BINARY)
# A script of the tests in a room of its name.
in_room = RUN='$(RUN)' tests/$(1).sh target/test/$(1)
JOBS := $(shell nproc)
#: test               every test from fmt to noticed below, as many at a time as there are processors (JOBS=N): 3 to 5 minutes on two once all is proved
test:
	@mkdir -p target/test
	@rm -f target/test/times
	@TIMES=target/test/times $(MAKE) --no-print-directory --jobs=$(JOBS) --output-sync=target $(MADE) $(PARTS) || \
	    { echo "make test: failed: $$(sed -n 's/ failed$$//p' target/test/times | sort -u | tr '\n' ' ')" >&2; exit 1; }

#: quick              what a change since main, or BASE=COMMIT, can have touched: its crates, their edits, the tests of its files; minutes, and not the verdict
quick:
	@BASE='$(BASE)' tests/quick.py $(PARTS)

#: fmt                whether crates/ is in the kit's layout
fmt:
	tests/fmt.sh target/test/fmt

#: kit                whether .ci/run refuses another kit than the one that is pinned in KIT-ID
kit:
	tests/kit.sh target/test/kit

#: ends               whether whatever a test starts ends with it, also when it fails or is told to end; whether make long keeps its time and tells what it covered
ends:
	tests/ends.sh target/test/ends
	tests/long.sh target/test/long.sh

#: pages              the worked table of docs/TABLE.md; what the pages say of commands and versions, quote of the sources and name in them; whether a stale one is noticed
pages: target/c/maketable target/c/showtable
	tests/worked-table.sh target/test/worked-table target/c/maketable target/c/showtable
	tests/pages.sh
	tests/pages.py
	tests/within.sh target/test/pages tests/stale-pages.py target/test/pages

#: header             the C headers by themselves, in C and in C++; the version that library, headers, programs, pkg-config and README say
header: target/c/header target/c++/header target/c99/version
	for header in target/c/header target/c++/header; do $$header; done
	tests/version.sh $(RUN) target/c99/version

#: promises           whether the Sh server's crates use of the first library only what it promises, and the plain engine's nothing with a trick; which symbols the archives have
promises: $(ARCHIVES)
	tests/promises.py
	tests/plain.py
	$(call in_room,symbols) $(ARCHIVE) $(SH_ARCHIVE) $(X86_CC)

#: examples           the C examples: worked answers, refusals, AVPs at fault, requests that real software sent, a voicemail box, the month's numbers, moves, take-overs, lists
examples: $(foreach mode,c99 cxx,$(addprefix target/$(mode)/,check decide userdata list move report take)) target/c99/cut-take target/c/fault target/c++/fault target/c/maketable target/c/showtable $(BINARY)
	for fault in target/c/fault target/c++/fault; do $$fault; done
	$(call in_room,decide) target/c/maketable target/c99/decide target/cxx/decide
	$(call in_room,captured) target/c/maketable $(BINARY) target/c99/decide target/cxx/decide
	$(call in_room,userdata) target/c/maketable target/c99/userdata target/cxx/userdata
	$(call in_room,report) target/c/maketable target/c99/report target/cxx/report
	$(call in_room,move) target/c/maketable target/c/showtable target/c99/check target/c99/move target/cxx/move
	RUN='$(RUN)' tests/take.sh target/c/maketable target/c99/check target/c99/cut-take target/c99/take target/cxx/take
	$(call in_room,list) target/c/maketable target/c99/check target/c99/list target/cxx/list

#: tables             tables and vector files made from text, and damaged ones
tables: target/c99/check target/cxx/check target/c/maketable target/c/showtable
	$(call in_room,tables) target/c/maketable target/c/showtable target/c99/check target/cxx/check
	$(call in_room,vectors) target/c/maketable target/c/showtable target/c99/check target/cxx/check

COUNT_texts := 2000
#: texts              from a table or a vector file to text and back, over 2,000 random ones of each; 15 seconds. COUNT_texts=N for more
texts: target/c/maketable target/c/showtable target/c/texts
	tests/texts.sh target/test/texts target/c/maketable target/c/showtable target/c/texts $(SEED) $(COUNT_texts)

#: aims               whether make bench marks a missed aim
aims: target/c/aims
	tests/aims.sh target/test/aims target/c/aims

#: stores             store.h by itself, the daemon that ndushavire(3) shows and that of the examples, on a disk that fails
stores: target/c/store target/c++/store target/c/maketable $(ARCHIVES)
	for store in target/c/store target/c++/store; do tests/within.sh target/test/store $$store target/test/store; done
	$(call in_room,daemon) target/c/maketable '$(ARCHIVES)' $(X86_CC)

#: programs           arguments of the programs answer and tablecheck
programs: target/bin/answer target/bin/tablecheck target/c/maketable
	tests/programs.sh target/test/programs target/c/maketable target/bin $(PROGRAM)

#: unsound            vector files bad in one place: the check names the block, every decision is refused by 6
unsound: target/c99/unsound
	$(RUN) $<

#: voicemail          the Sh entry by itself: each refusal and rule with the bytes of its answer, every order of the AVPs; table and profile file are only read
voicemail: target/c99/voicemail
	$(RUN) $<

COUNT_documents := 2000
DOCUMENTS = tests/documents.py $(SEED)
#: documents          2,000 answers of the Sh entry, whose documents an XML parser reads as they were meant; SEED=N runs a seed again
documents: target/c99/driver
	$(DOCUMENTS) $(COUNT_documents) $(DRIVER)

COUNT_months := 5000
#: reports            the report beside as many decisions, over 5,000 random files of requests; SEED=N runs a seed again
reports: target/c99/month target/c/maketable
	$(call in_room,reports) target/c/maketable $< $(SEED) $(COUNT_months)

COUNT_moved := 10000
#: moves              the moves between editions beside a model in C, and requests over either edition, over 10,000 random tables; SEED=N runs a seed again
moves: target/c99/moves
	$(RUN) $< $(SEED) $(COUNT_moved)

COUNT_taken := 10000
CUT = RUN='$(RUN)' tests/cuts.sh
#: takes              take-overs beside a model in C, over 10,000 random areas; 30,000 sets of blocks written; SIGKILL at every block of 64 records; 10 seconds
takes: target/c99/takes target/c99/cuts target/c99/take target/c99/cut-take
	$(RUN) $< $(SEED) $(COUNT_taken)
	$(CUT) '' target/c99/cuts target/c99/take target/c99/cut-take $(SEED) 50 20

#: daemon             the daemon of the examples with a client of its own: cut frames, garbage, slow peers, new tables, kills; 1 to 3 minutes
daemon: target/c/remember target/c/maketable $(ARCHIVES)
	$< $(SEED) 20000
	$(call in_room,served) target/c/maketable '$(ARCHIVES)' $(X86_CC)

#: reference          the independent program's own tests
reference:
	cd reference && cargo test --offline --quiet

#: installs           an installation into a folder of its own, and an example built from there as a new user would
installs: $(ARCHIVES) $(PROGRAMS)
	$(call in_room,installs) $(X86_CC)

# ---- the libraries beside the independent program, on new cases each time; SEED=N on the command line runs a seed again
ifndef SEED
SEED := $(shell od -An -N4 -tu4 /dev/urandom | tr -d ' ')
endif
DRIVER = $(RUN) target/c99/driver
KINDS := tables vectors calls plain voicemail reports rows moves takes lists demand3 demand3-voicemail neighbours neighbours-voicemail runs
COUNT_tables := 200000
COUNT_vectors := 100000
COUNT_calls := 100000
COUNT_plain := 20000
COUNT_voicemail := 100000
COUNT_reports := 20000
COUNT_rows := 20000
COUNT_moves := 50000
COUNT_takes := 50000
COUNT_lists := 50000
COUNT_demand3 := 20000
COUNT_demand3-voicemail := 20000
COUNT_neighbours := 100000
COUNT_neighbours-voicemail := 50000
COUNT_runs := 2000

#: cited              whether what README and manual pages of an installation cite is installed, and its trial works
cited: $(ARCHIVES) $(PROGRAMS)
	$(call in_room,cited) $(X86_CC)

#: recipes            every command and script that a page prints, on the one layout, in the order in which an operator meets them
recipes: $(ARCHIVES) $(PROGRAMS) $(OVER_ARCHIVE) target/c99/decide target/c99/userdata
	$(call in_room,recipes) '$(PROGRAM)' $(X86_CC)

#: differential       the libraries beside the independent program on 900,000 new cases, of which 20,000 go to both engines, and 2,000 runs of calls; SEED=N runs a seed again
differential: target/c99/driver $(BINARY)
	@for of in $(foreach kind,$(KINDS),$(kind):$(COUNT_$(kind))); do \
	    echo "differential run: seed $(SEED), $${of#*:} $${of%:*}"; \
	    $(BINARY) compare --kind $${of%:*} --seed $(SEED) --count $${of#*:} -- $(DRIVER); \
	done

COUNT_narrow := 10000
#: narrow             requests that real software sent, 10,000 calls, and 1,000 calls of both engines, of Sh, reports, rows, checks, moves, take-overs and lists on a thread whose stack is 16 KiB; half a minute
narrow: target/narrow/decide target/narrow/driver target/c/maketable $(BINARY)
	RUN='$(RUN)' tests/captured.sh target/test/narrow target/c/maketable $(BINARY) target/narrow/decide
	tests/narrow.sh $(BINARY) $(SEED) $(COUNT_narrow) $(RUN) target/narrow/driver

COUNT_breaches := 500
#: noticed            whether such a comparison would fail; for each hypothesis of the neighbour's line, 500 pairs that break it
noticed: target/c99/overstep target/c99/driver $(BINARY)
	tests/noticed.sh $(BINARY) $(RUN) target/c99/overstep
	@echo "breaches: seed $(SEED), $(COUNT_breaches) pairs of each"
	$(BINARY) compare --kind breaches --seed $(SEED) --count $(COUNT_breaches) -- $(DRIVER)

COUNT_engines := 1000000
#: plain              the plain engine beside the quick one and the independent program, word, table, vectors and buffer, on 1,000,000 calls; COUNT_engines=N
plain: target/c99/driver $(BINARY)
	@echo "plain: seed $(SEED), $(COUNT_engines) calls of either engine"
	$(BINARY) compare --kind plain --seed $(SEED) --count $(COUNT_engines) -- $(DRIVER)

COUNT_compared := 1000000
#: rows               the row beside the independent program, word, words, answers, table and vectors, on 1,000,000 rows; COUNT_compared=N
rows: target/c99/driver $(BINARY)
	@echo "rows: seed $(SEED), $(COUNT_compared) rows"
	$(BINARY) compare --kind rows --seed $(SEED) --count $(COUNT_compared) -- $(DRIVER)

COUNT_cuts := 1000
#: cuts               the whole of that, two minutes: 1,000,000 sets of blocks, 1,000 kills within a table of 4,096, and some of it with files on disk
cuts: target/c99/takes target/c99/cuts target/c99/take target/c99/cut-take
	@echo "cuts: seed $(SEED)"
	$(RUN) $< $(SEED) $$((500 * $(COUNT_cuts)))
	$(CUT) '' target/c99/cuts target/c99/take target/c99/cut-take $(SEED) $$((2 * $(COUNT_cuts))) $(COUNT_cuts)
	$(CUT) target/test/cuts target/c99/cuts target/c99/take target/c99/cut-take $(SEED) $$(($(COUNT_cuts) / 10)) $$(($(COUNT_cuts) / 50))

COUNT_parsed := 100000
#: parsed             100,000 answers of the Sh entry, whose documents an XML parser reads as they were meant, half a minute
parsed: target/c99/driver
	$(DOCUMENTS) $(COUNT_parsed) $(DRIVER)

#: spreadsheet        what Python's csv and LibreOffice, which it installs from Debian as root, make of a list, beside docs/LIST.md; a minute
spreadsheet: target/c99/list target/c/maketable
	tests/spreadsheet.sh target/test/spreadsheet target/c/maketable $(RUN) target/c99/list

# 5,000,000 tables, and as many vector files, calls and calls of Sh. Each round has the next seed: with SEED=N ROUNDS=M a run that was stopped goes on.
ROUNDS := 50
COUNT_round := 100000
#: soak               5,000,000 tables, and as many vector files, calls and calls of Sh, compared, 15 minutes; SEED=N ROUNDS=M goes on where it was stopped
soak: target/c99/driver $(BINARY)
	@for ((round = 0; round < $(ROUNDS); round++)); do \
	    echo "soak: SEED=$$(($(SEED) + round)) ROUNDS=$$(($(ROUNDS) - round))"; \
	    for kind in tables vectors calls voicemail; do \
	        $(BINARY) compare --kind $$kind --seed $$(($(SEED) + round)) --count $(COUNT_round) -- $(DRIVER); \
	    done; \
	done

#: peers              the daemon of the examples with Kamailio, freeDiameter, Erlang's diameter and tshark, which it installs from Debian as root; one to two minutes
peers: target/c99/daemon target/c/maketable
	tests/peers.sh target/test/peers target/c/maketable $(RUN) target/c99/daemon

# After how many cases each deliberate fault of the independent program shows; what the cases are made of.
COUNT_mutants := 100000
#: mutants            whether 1,410 deliberate faults would be noticed, and after how many cases
mutants: $(BINARY)
	@echo "mutants: seed $(SEED)"
	$(BINARY) mutants --seed $(SEED) --count $(COUNT_mutants)

#: stats              what the compared cases are made of
stats: $(BINARY)
	@echo "stats: seed $(SEED)"
	@for of in $(foreach kind,$(filter-out plain demand3% runs,$(KINDS)),$(kind):$(COUNT_$(kind))); do \
	    $(BINARY) stats --kind $${of%:*} --seed $(SEED) --count $${of#*:}; \
	done

# The definitions beside the independent program: antt computes each case, which takes seconds; 24 make a quick trial.
COUNT_DEFINITIONS := 300
#: definitions-check  300 calls computed from the definitions and compared, a quarter of an hour; COUNT_DEFINITIONS=24 is a trial
definitions-check: $(BINARY)
	tests/within.sh target/test/definitions tests/definitions.py $(BINARY) $(SEED) $(COUNT_DEFINITIONS)

SECONDS := 900
#: long               mutants, stats, definitions-check, cuts, parsed, plain, rows and soak, each in its share of SECONDS=N (900) once all is made, what each covered, and its seeds
long: target/c99/driver target/c99/takes target/c99/cuts target/c99/take target/c99/cut-take $(BINARY)
	@tests/within.sh target/test/long tests/long.py $(SECONDS) $(SEED)

# Writes crates/cases/stdin and stdout anew: what the gate's program `cases` runs, and what the independent program says
# of it.
#: cases              chooses anew the cases that the gate runs, three minutes
cases: $(BINARY)
	tests/cases.py $(BINARY) crates/cases

# A static library is a thin crate over the library of its name; the archive has the name that callers in C know.
$(ARCHIVES): target/staticlib/lib%.a: $(PROVED)
	packaging/archive.sh $*_c
	mkdir -p $(@D)
	cp crates/$*_c/out/lib$*_c.a $@

$(BINARY): $(REFERENCE)
	cd reference && cargo build --offline --release --quiet
	touch $@

# ---- C programs. The folder says how one is compiled: in c and c++ as this machine's code, in c99 and cxx as x86-64 code, linked with those of the
# archives that it is made from; FLAGS are what one has of its own. Where both folders have a source of its name, it is the example. What it is made from
# besides that stands below.
define IN_C
mkdir -p $(@D)
$(CC) -std=c99 $(STRICT) -o $@ $< $(filter %.o,$^)
endef
define IN_C++
mkdir -p $(@D)
$(CXX) $(STRICT) -o $@ -x c++ $<
endef
define IN_C99
mkdir -p $(@D)
$(X86_CC) -std=c99 $(STRICT) $(FLAGS) -o $@ $(filter %.c,$^) $(filter $^,$(ARCHIVES))
endef
FLAGS :=
EXAMPLES := $(addprefix examples/,load.h fault.h hex.h peers.h stated.h store.h newfile.h area.h) $(HEADER) $(ARCHIVE)

target/c/%: examples/%.c examples/load.h $(HEADER)
	$(IN_C)

target/c/%: tests/%.c
	$(IN_C)

target/c++/%: tests/%.c
	$(IN_C++)

target/c99/%: examples/%.c $(EXAMPLES)
	$(IN_C99)

target/c99/%: tests/%.c $(HEADER) $(ARCHIVE)
	$(IN_C99)

target/cxx/%: examples/%.c $(EXAMPLES)
	mkdir -p $(@D)
	$(X86_CXX) $(STRICT) -o $@ -x c++ $< -x none $(filter $^,$(ARCHIVES))

# A program as a function under its own name.
target/c/%.o: examples/%.c examples/load.h
	mkdir -p $(@D)
	$(CC) -std=c99 $(STRICT) -Dmain=$* -c -o $@ $<

target/c/header target/c++/header: $(HEADER) $(SH_HEADER)
target/c/aims: bench/aims.h
target/c/texts: tests/random-tables.h examples/load.h target/c/maketable.o target/c/showtable.o
target/c/fault target/c++/fault: examples/fault.h
target/c/remember: $(addprefix examples/,remember.h base.h fault.h) $(HEADER)
target/c/store target/c++/store: examples/store.h examples/load.h
# Whoever asks over Sh, or is asked, is linked with both archives.
BOTH := $(addprefix target/c99/,daemon userdata driver overstep voicemail stack) $(addprefix target/cxx/,daemon userdata) $(addprefix target/narrow/,driver decide)
$(BOTH): $(SH_HEADER) $(SH_ARCHIVE)
DAEMON := $(addprefix examples/,daemon.c files.c log.c row.c taking.c area.h base.h fault.h files.h log.h peers.h remember.h row.h stated.h store.h taking.h)
target/c99/daemon: $(DAEMON)
target/c99/unsound target/c99/voicemail target/c99/month: bench/requests.h
target/c99/month: examples/load.h
target/c99/moves target/c99/takes target/c99/cuts: tests/random-tables.h bench/requests.h
target/c99/takes target/c99/cuts: tests/areas.h

wraps = $(foreach entry,$(1),-Wl,--wrap=ndushavire_$(entry))
target/c99/overstep: tests/driver.c
target/c99/overstep: FLAGS = $(call wraps,check check_vectors plain sh_decide row export import)

target/c99/cut-take: examples/take.c tests/cut.h $(addprefix examples/,area.h load.h store.h) $(HEADER) $(ARCHIVE)
	$(IN_C99)
target/c99/cut-take: FLAGS = -include tests/cut.h

target/narrow/driver: tests/driver.c
target/narrow/decide: examples/decide.c $(EXAMPLES)
target/narrow/driver target/narrow/decide: tests/narrow.c $(HEADER) $(ARCHIVE)
	$(IN_C99)
# Bound at the start, as pkg-config has it: else a first call pays for the dynamic linker on its own small stack.
target/narrow/driver target/narrow/decide: FLAGS = -pthread -Wl,-z,now $(call wraps,check check_vectors decide plain report row forward back take export import sh_decide)

# One program for both bindings: which it is says the environment that it is run in.
target/c99/stack: bench/stack.c bench/requests.h bench/samples.h bench/vectors.h examples/load.h $(HEADER) $(ARCHIVE)
	$(IN_C99)
target/c99/stack: FLAGS = -Wl,-z,lazy

# ---- the benchmarks: of the archives, so on x86-64 alone
ifeq ($(MACHINE),x86_64)
TUNE_native := -march=native
TIMED := $(ARCHIVES)
else
TUNE_native := -mcpu=native
TIMED := target/native/libndushavire_sh.a target/native/libndushavire.a
endif
CHECKED := 1-short 16-short 300-short 4096-short 4096-ims 4096-long
SECOND := 4096-short-2 4096-long-2 4096-short-2-1 4096-short-2-2 4096-short-2-4 4096-long-2-4 4096-alike-2-4 4096-alike-2-1
DECIDED := 1-short 16-short 300-short 4096-short 1-tiny 16-tiny 300-tiny 4096-tiny
REPORTED := 16-short 300-short 4096-short
PLAINLY := 16-short 300-short 4096-short 4096-short-2-4
TAKEN := 16-short-2 300-short-2 4096-short-2 4096-long-2 4096-short-2-4
LISTED := 4096-short-2 4096-long-2 4096-short-2-4 4096-long-2-4 4096-alike-2-4
TIMERS := $(addprefix target/bench/,check vectors decide report row moves takes list plain)
# A program's arguments: each table, its profile file and how its names are. A table is named by its records, its names, for edition 2 by 2 and,
# if it has sets, by how many records are in each.
samples = $(foreach size,$(1),target/bench/$(size).table target/bench/$(size).profile $(word 2,$(subst -, ,$(size))))

#: bench              times beside the aims, and what the plain engine takes beside the quick one, two minutes once their parts are made; a missed aim is marked
bench: $(TIMERS) $(patsubst %,target/bench/%.table,$(sort $(CHECKED) $(SECOND) $(TAKEN) $(LISTED) $(DECIDED)))
	@{ $(CC) --version | head -n 1; \
	   target/bench/check $(call samples,$(CHECKED) $(SECOND)); \
	   target/bench/moves $(call samples,$(CHECKED)); \
	   target/bench/takes $(call samples,$(TAKEN)); \
	   target/bench/list $(call samples,$(LISTED)); \
	   target/bench/vectors $(call samples,$(CHECKED)); \
	   target/bench/decide $(call samples,$(DECIDED)); \
	   target/bench/plain $(call samples,$(PLAINLY)); \
	   target/bench/report $(call samples,$(REPORTED)); \
	   target/bench/row $(call samples,$(REPORTED)); } | tee target/bench/figures
	@bench/summary.sh target/bench/figures

SERVED := 300-short 4096-short
#: served             durable SARs and UARs a second over loopback, 64 outstanding: a daemon with a store for each beside one with rows, half a minute; on the disk of target/
served: $(addprefix target/bench/,served daemon-1 daemon-64) $(SERVED:%=target/bench/%.table)
	bench/served.sh target/bench/room $(addprefix target/bench/,served daemon-1 daemon-64) 3 $(SERVED) | tee target/bench/rates
	@bench/summary.sh target/bench/rates

target/bench/daemon-%: $(DAEMON) $(HEADER) $(SH_HEADER) $(TIMED)
	mkdir -p $(@D)
	$(CC) -std=c99 $(STRICT) -DROW_MOST=$* -o $@ $(filter %.c %.a,$^)

target/bench/served: bench/served.c bench/requests.h examples/load.h $(HEADER)
	mkdir -p $(@D)
	$(CC) -std=c99 $(STRICT) -o $@ $<

STACKED := 16-short 4096-short 4096-long 4096-tiny 4096-short-2-4 4096-long-2-4
#: stack              how much stack a call takes, beside the aim; and how much where what it calls is bound lazily
stack: target/c99/stack $(STACKED:%=target/bench/%.table)
	LD_BIND_NOW=1 $(RUN) target/c99/stack $(call samples,$(STACKED))
ifeq ($(MACHINE),x86_64)
	LD_BIND_NOT=1 target/c99/stack $(call samples,$(STACKED))
else
	@echo 'Bound lazily: not measured, since programs are linked statically here.'
endif

target/native/lib%.a:
	@echo 'The libraries are not timed here: the kit makes x86-64 code, and this machine is $(MACHINE).' >&2
	@exit 1

# The least that a check of a file can do, for any x86-64 or Arm and for this machine's own processor.
TUNE_plain :=
SUMS := target/bench/sum-plain.o target/bench/sum-native.o
$(SUMS): target/bench/sum-%.o: bench/sum.c
	mkdir -p $(@D)
	$(CC) -O3 $(TUNE_$*) -DSUM=sum_$* -c -o $@ $<

TIMER := bench/aims.h bench/requests.h bench/samples.h bench/timing.h bench/vectors.h examples/load.h $(HEADER) $(SH_HEADER) $(TIMED) target/bench/libreference_c.a
target/bench/check target/bench/vectors: $(SUMS)
target/bench/report target/bench/row: bench/months.h
$(TIMERS): target/bench/%: bench/%.c $(TIMER)
	$(CC) -std=c99 $(STRICT) -o $@ $< $(filter %.o,$^) $(TIMED) target/bench/libreference_c.a -lpthread -ldl -lm

target/bench/libreference_c.a: bench/reference.rs $(BINARY)
	mkdir -p $(@D)
	rustc --edition 2021 -C opt-level=3 -C panic=abort --crate-type staticlib --crate-name reference_c \
	    --extern reference=reference/target/release/libreference.rlib -L dependency=reference/target/release/deps -o $@ $<

target/bench/%.table: bench/households.sh target/c/maketable
	mkdir -p $(@D)
	bench/households.sh $(subst -, ,$*) >target/bench/$*.txt
	target/c/maketable profile target/bench/$*.txt >target/bench/$*.profile
	target/c/maketable table target/bench/$*.txt >$@

# ---- the installation: what goes where, and how it is taken away again, is packaging/install.sh's
PREFIX ?= /usr/local
export PREFIX DESTDIR BINDIR LIBDIR INCLUDEDIR MANDIR DOCDIR
#: installable        whether make install could, without doing it
installable:
	packaging/install.sh try

#: install            archives, headers, programs, manual pages, examples under PREFIX (/usr/local), below DESTDIR if that is set
install: installable $(ARCHIVES) $(PROGRAMS)
	packaging/install.sh install $(ARCHIVES) $(PROGRAMS)

#: uninstall          takes all that away again
uninstall:
	packaging/install.sh uninstall

#: clean              removes target/ and reference/target/; what rt keeps of proofs stays in crates/*/out/
clean:
	rm -rf target reference/target

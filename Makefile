# About how long each takes, from nothing, on an idle machine with four processors. What a check proves is kept for the next.
#
# help       1 s       prints these lines
# run        1 min     runs the worked rows, and proves nothing; V=1 shows their texts
# test       5 min     runs all tests and programs, with every check at run time, tries what must not compile, and proves nothing
# prove      1 h       proves all, and runs tests and programs as they were proved; JOBS=4 works on four crates at a time, in 10 GB
# gate       1 h       proves all from nothing, runs tests and programs, and tries edits, which must be refused; a merge asks for it
# check      1 h       proves all but tests; after an edit it takes seconds or minutes
# vectors    12 min    proves and runs the worked rows, and keeps the program as crates/vectors/out/vectors
# refused    1 min     tries programs that must not compile, and some that must
# wrong      30 min    tries all wrong bodies, each of which must be refused by the goal that it names; CRATE=event_word tries its own
# quoted     1 s       compares what pages quote, and the API pages, with the sources
# api        1 s       writes the API pages
# docs       10 s      writes the reference for a browser: out/docs/index.html has all types and calls, with a search
# explore    1 min     shows a run of a world: RUN='mutex 2: 0:2 1:5', or its input; PROVED=1 proves the program first
# fuzz       10 min    compares events and records with a queue on random calls, for SECONDS=60, from SEED=7
# soak       10 min    has 8 threads call an event and a recorded event, and counts, for SECONDS=60, from SEED=7
# starved    10 min    runs the programs with too few addresses, and looks at what they print
# fmt        1 min     formats the files
# bench      30 min    measures events, locks and channels, beside Rust crates with ORACLE=FOLDER (scripts/bench)
# diff       10 min    compares the queue with the Rust crate's answers in ORACLE=FOLDER (crates/replies)
.PHONY: help run test tests gate prove vectors check refused wrong quoted api docs explore fuzz soak starved fmt bench diff

# So that a target fails where the first command of a pipe does.
SHELL := bash
.SHELLFLAGS := -o pipefail -c

# What a target that runs the toolchain begins with: it ends with status 2 where that is not there.
needs_rt = $(if $(shell command -v rt),,$(error $@ needs the toolchain's command 'rt', which is not on the path))

help:
	@sed '/^\.PHONY/,$$d; s/^# \{0,1\}//' $(firstword $(MAKEFILE_LIST))

run:
	$(needs_rt)@echo "Compiling the worked rows, without proof. Each is a list of calls with the answers that they must give."
	@(cd crates/vectors && rt try < /dev/null) | scripts/rows $(V)
	@echo "Nothing was proved: the rows ran with every check at run time. 'make prove' proves all."

# A folder is called tests.
test tests:
	$(needs_rt)@scripts/test

gate:
	$(needs_rt)@rt ci

prove:
	$(needs_rt)@echo "Proving all crates and their tests, the first time for about an hour; what is proved is kept for the next."
	@rt all test $(if $(JOBS),--jobs $(JOBS))

check:
	$(needs_rt)@rt all check

vectors:
	$(needs_rt)@cd crates/vectors && rt run

refused:
	$(needs_rt)@scripts/refused

wrong:
	$(needs_rt)@scripts/wrong $(CRATE)

quoted:
	@scripts/pages

api:
	@scripts/pages write

# A folder is called docs.
docs:
	@scripts/docs

explore:
	$(needs_rt)@echo "$(if $(PROVED),Proving,Compiling) the program first, if no earlier run has kept it." >&2
	@cd crates/explore && $(if $(RUN),echo '$(RUN)' |) rt $(if $(PROVED),run,try --seconds 3600)

fuzz: kind = lists
soak: kind = threads

# The first run proves and keeps the program, and does nothing.
fuzz soak:
	$(needs_rt)@echo "Proving the program first, if no earlier run has kept it." >&2
	@cd crates/soak && rt run -- $(kind) seed 0 times 0 < /dev/null >&2
	@crates/soak/out/soak $(kind) seed "$(or $(SEED),$(shell date +%s))" seconds "$(or $(SECONDS),60)"

starved:
	$(needs_rt)@scripts/starved

fmt:
	$(needs_rt)@for crate in crates/*/; do (cd "$$crate" && rt fmt) || exit 1; done

bench:
	$(needs_rt)@ORACLE="$(ORACLE)" scripts/bench

diff:
	$(needs_rt)@ORACLE="$(ORACLE)" scripts/diff

# Runs and tests fixfiles. `make` alone lists the commands.

# A script's path is passed in the environment alone, so that it may have any characters.
SCRIPT ?= examples/open_read_close.script
PREFIX ?= /usr/local
export SCRIPT TEXT N ASK PREFIX DESTDIR
VARIABLES := SCRIPT TEXT N ASK CRATE CRATES PREFIX DESTDIR

ifeq ($(wildcard scripts/need),)
$(error Call make in the folder of this Makefile: make -C '$(patsubst %/,%,$(dir $(abspath $(lastword $(MAKEFILE_LIST)))))')
endif
given := $(foreach it,$(.VARIABLES),$(if $(filter command,$(origin $(it))),$(it)))
ifneq ($(filter-out $(VARIABLES),$(given)),)
$(error There is no variable $(filter-out $(VARIABLES),$(given)). There are $(VARIABLES), as in: make run SCRIPT=path)
endif
# A path is not a goal: make would find it up to date, and say nothing.
paths := $(strip $(foreach it,$(MAKECMDGOALS),$(if $(findstring /,$(it))$(filter %.script %.text,$(it)),$(it))))
ifneq ($(paths),)
$(error A path is given by a variable. Type: make $(firstword $(filter-out $(paths),$(MAKECMDGOALS)) run) SCRIPT=$(firstword $(paths)))
endif

.DEFAULT_GOAL := help
.PHONY: help help-all run try check litmus pictures texts kernel conform prove test examples limits compare workers
.PHONY: dist install uninstall meetings allocation-failures steps mistakes checks break
.PHONY: libraries bindings must-spend allocations wrong-bodies layout style bench bench-rust gate clean
.NOTPARALLEL:

help:
	@echo 'Use:'
	@echo '  make run SCRIPT=path          proves and builds fixfiles, then runs a script (default: examples/open_read_close.script)'
	@echo '  make try SCRIPT=path          runs a script in two or three minutes without proving anything; with ASK=--all asks fixcheck about it'
	@echo '  make kernel SCRIPT=path       runs a script on the io_uring of this machine; needs no toolchain'
	@echo '  make check SCRIPT=a.script    says whether the rules allow a.text for the script, or TEXT=path'
	@echo '  make conform                  says in KTAP which rules of docs/inside/MODEL.md the kernel of this machine follows; N=number random scripts'
	@echo '  make litmus SCRIPT=path       lists the texts that the rules allow, and how often the kernel and fixfiles print each'
	@echo 'Prove:'
	@echo '  make prove CRATE=name         proves one crate, and prints what is not proved'
	@echo 'Test:'
	@echo '  make test                     proves and tests everything'
	@echo 'Measure:'
	@echo '  make bench                    compares scripts with plain Rust, and times the judge of logs'
	@echo '  make help-all                 lists all commands'

help-all: help
	@echo 'Use, further:'
	@echo '  make dist                     makes archives and packages of programs and libraries in build, for users without the toolchain'
	@echo '  make libraries                proves and builds the libraries for C, Rust and Python'
	@echo '  make install                  copies programs, libraries, manual pages, completions and examples to PREFIX (/usr/local), below DESTDIR'
	@echo '  make uninstall                removes the installed files'
	@echo '  make pictures                 draws the histories of docs/inside/MODEL.md and the times of SPEED again'
	@echo '  make clean                    removes what was built; proofs are kept'
	@echo 'Prove, further:'
	@echo '  make gate                     proves and tests all crates from nothing'
	@echo '  make break                    applies the bug from README.md and expects the prover to reject it'
	@echo '  make wrong-bodies             applies the wrong bodies for which the gate has no time, and expects the prover to reject each'
	@echo '  make must-spend               checks that the compiler rejects a program that loses a file'
	@echo 'Test, further (each but style is part of make test):'
	@echo '  make layout                   checks the files of the repository'
	@echo '  make style                    prints avoided words and long sentences'
	@echo '  make examples                 runs every example and the samples of the pages on the built program'
	@echo '  make limits                   runs scripts at the limits of the language and the table, and measures their memory'
	@echo '  make compare                  compares the program with an independent model, on random scripts and the largest submissions'
	@echo '  make texts                    runs fixcheck on texts of examples and random scripts, right and wrong ones'
	@echo '  make workers                  counts threads and writes of the program on 1 to 16 workers, and compares its tables'
	@echo '  make meetings                 runs random scripts on threads that take turns of a few instructions, and judges the texts'
	@echo '  make allocation-failures      runs scripts and makes calls, failing each allocation in turn'
	@echo '  make allocations              counts allocations in the calls that must make none'
	@echo '  make bindings                 tests the libraries from C, Rust and Python'
	@echo '  make steps                    runs small programs on the lasting table, its steps in every order'
	@echo '  make mistakes                 makes the mistakes that a user may make, and expects an answer to each'
	@echo '  make checks                   tests the test scripts: each must catch a deliberately broken program'
	@echo 'Measure, further:'
	@echo '  make bench-rust               times the proved table against plain Rust, arc-swap and others, in one process'

run:
	@scripts/run-script

try:
	@scripts/try-script

check:
	@scripts/run-script check

litmus:
	@kernel/litmus --build

prove:
	@scripts/prove "$$CRATE"

test:
	@tests/all

# each runs the check of its name, as tests/all.txt has it, once what that needs is built
limits compare workers meetings allocation-failures allocations steps mistakes checks break must-spend layout:
	@tests/one --now $@

examples:
	@tests/one --now examples
	@scripts/run tests.check_page bin/fixfiles

texts:
	@tests/one --now verdicts
	@tests/one --now fixcheck bin/fixcheck bin/fixfiles 2000
	@tests/one --now outcomes

pictures:
	@tests/one --now pictures bin/fixcheck --draw

wrong-bodies:
	@scripts/run tests.check_wrong_bodies --prover
	@scripts/run tests.wrong_bodies $$CRATES

style:
	@scripts/run tests.check_style

bench:
	@scripts/build-program
	@bench/bench bin/fixfiles
	@scripts/build-libraries yachtjudge
	-@bench/measure-logs --targets

bench-rust:
	@scripts/build-libraries yachtbanyan yachtdirect
	@bench/bench-rust

libraries:
	@scripts/build-libraries

bindings:
	@scripts/build-libraries
	@tests/check-bindings
	@tests/check-servers

gate:
	@scripts/need toolchain
	@rt ci

clean:
	@rm -rf bin build lib

kernel:
	@kernel/play-on-kernel

conform:
	@scripts/need number python
	@scripts/build-program check_cli fixcheck
	@scripts/build-libraries yachtjudge || true
	@kernel/conform --scripts "$${N:-500}"

dist:
	@scripts/build-program fx_cli fixfiles check_cli fixcheck
	@scripts/build-libraries
	@scripts/dist bin/fixfiles bin/fixcheck
	@if command -v aarch64-linux-gnu-gcc > /dev/null; then scripts/dist --arm; fi

install:
	@scripts/build-program fx_cli fixfiles check_cli fixcheck
	@scripts/build-libraries
	@scripts/install

uninstall:
	@scripts/install uninstall

# `make help`, which is what a bare `make` does, lists the targets with what each costs.
.PHONY: help run try quick build install uninstall dist check test times shown fuzz bench clean

PREFIX ?= /usr/local
PROGRAM ?= build/ctxbound
MINUTES ?= 10
GUEST ?=
COMMAND ?= explain
SCHEDULE ?=
export GUEST COMMAND SCHEDULE

define HELP
  make run        finds a deadlock in an example and explains how it comes about; nothing is proved
                    a minute, 2 GB of memory
  make try GUEST=file [COMMAND=explain] [SCHEDULE=0,1,0]
                  the same with a guest of yours; with SCHEDULE it explains that one. COMMAND=replay prints
                  the trace of SCHEDULE, COMMAND=explore the report of a search and the trace
                    a minute, 2 GB
  make quick      all that needs no proof: the tests, the commands that the documents show,
                  the list of wrong bodies, the budget of lines; in a copy whose path has a space; and what
                  `make shown` tries, where build/ctxbound is of these sources
                    two to ten minutes, 3 to 8 processor minutes, up to 7 GB
  make check C=crate
                  proves one crate, over what earlier checks kept
                    at first 1 to 10 minutes and those of the crates below it, then seconds
                    to minutes; up to 4 GB, and up to 2 GB on disk
  make build [JOBS=4]
                  proves and builds the program, as many crates at once as JOBS says, and leaves it at
                  build/ctxbound. Without JOBS as many as there are processors, and 4 GB of free memory for each
                    three quarters of an hour or more at first, and 3 GB on disk
  make test       the gate: each proof, each wrong body, each test, the commands that the documents
                  show, and refused memory; proofs that it made on this machine before are kept
                    from nothing some 55 minutes on four processors; up to 12 GB, and up to 10 GB on disk
  make times      prints the seconds of each crate's last check beside those of tests/budget.txt
  make shown      runs the documents' commands by build/ctxbound, and all else that is tried of it by
                  scripts: a few minutes
  make fuzz [MINUTES=10]
                  compares build/ctxbound with an independent explorer, on programs made at random
  make bench      times walks and, where build/ctxbound is there, searches, four of them beside
                  Spin's, and explanations; it proves the benchmark first, so it takes some minutes after `make build`
  make install    copies build/ctxbound to $$(DESTDIR)$$(PREFIX)/bin, and the man page, the completions,
                  the syntax files and the examples to $$(DESTDIR)$$(PREFIX)/share
  make uninstall  removes all that
  make dist       makes an archive of all that in build
  make clean      removes what was built: build and crates/*/out
endef
export HELP

help:
	@echo "$$HELP"

# `rt try` runs a program without proofs, on a copy of the guest: `ctxbound_first`, which answers these words
# as `ctxbound` does and compiles sooner. Standard error, kept in build/log, has what the program
# writes there and then, from `checked: ` on, what `rt try` says of itself. The status is the
# program's own, which is 1 where a schedule is bad.
TRY = mkdir -p build && cd crates/ctxbound_first && rt try --data "$$name=$$guest" -- "$$@" 2> ../../build/log; \
	status=$$?; \
	grep -q '^run=ended ' ../../build/log || { cat ../../build/log >&2; exit 2; }; \
	sed '/^checked: /,$$d' ../../build/log; \
	test $$status -eq 0 || echo "[status $$status]"

COMPILING = echo "Compiling without proofs, which takes about a minute .."

NEEDS_PROGRAM = test -x "$(PROGRAM)" || \
	{ echo "$(PROGRAM) isn't there: run \`make build\` first" >&2; exit 2; }

VERSION = $(shell sed -n 's/^pub const VERSION: &str = "\(.*\)";/\1/p' crates/ctxbound_words/src/commands.rt)
NAMED = ctxbound-$(VERSION)
SHARE = $(DESTDIR)$(PREFIX)/share

# What is installed beside the program: the file in share/ here, and its place in share/ there.
SHARED = man/ctxbound.1=man/man1/ctxbound.1 \
	completions/ctxbound.bash=bash-completion/completions/ctxbound \
	completions/_ctxbound=zsh/site-functions/_ctxbound \
	completions/ctxbound.fish=fish/vendor_completions.d/ctxbound.fish \
	vim/syntax/guest.vim=vim/vimfiles/syntax/guest.vim \
	vim/ftdetect/guest.vim=vim/vimfiles/ftdetect/guest.vim \
	vim/ftplugin/guest.vim=vim/vimfiles/ftplugin/guest.vim \
	vim/indent/guest.vim=vim/vimfiles/indent/guest.vim \
	vim/compiler/guest.vim=vim/vimfiles/compiler/guest.vim \
	vscode/package.json=ctxbound/vscode/package.json \
	vscode/language-configuration.json=ctxbound/vscode/language-configuration.json \
	vscode/syntaxes/guest.tmLanguage.json=ctxbound/vscode/syntaxes/guest.tmLanguage.json \
	vscode/snippets/guest.json=ctxbound/vscode/snippets/guest.json \
	vscode/tasks.json=ctxbound/vscode/tasks.json \
	machines/search_by_parallel.sh=ctxbound/machines/search_by_parallel.sh \
	machines/search.sbatch=ctxbound/machines/search.sbatch \
	machines/Makefile=ctxbound/machines/Makefile

# The pages that the archive has beside the program.
PAGES = docs/LANGUAGE.md docs/FORMATS.md docs/GALLERY.md docs/COOKBOOK.md docs/SHRINKING.md docs/MACHINES.md docs/CI.md docs/GLOSSARY.md

run:
	@$(COMPILING)
	@name=examples/lock_order.guest; guest=$$PWD/$$name; set -- explain "$$name"; $(TRY)
	@echo "(Not proved yet: \`make build\` proves and builds the program.)"

# `explore` takes no schedule, and `replay` needs one. The copy has the guest's own name, where that
# is one that `rt try` takes.
try:
	@case "$$COMMAND$${SCHEDULE:+ SCHEDULE}" in \
		explain | 'explain SCHEDULE' | explore | 'replay SCHEDULE') test -n "$$GUEST";; *) false;; esac || \
		{ echo 'Usage: make try GUEST=file [COMMAND=explain] [SCHEDULE=0,1,0],' \
			'GUEST=file COMMAND=explore, or GUEST=file COMMAND=replay SCHEDULE=0,1,0' >&2; exit 2; }
	@test -r "$$GUEST" || { echo "$$GUEST can't be read" >&2; exit 2; }
	@$(COMPILING)
	@guest=$$(realpath -- "$$GUEST"); name=$$GUEST; \
	case "$$name" in /* | *..* | program* | std* | *[!A-Za-z0-9_./-]*) name=program.guest;; esac; \
	set -- "$$COMMAND" "$$name" $${SCHEDULE:+"$$SCHEDULE"}; \
	test "$$COMMAND" != explore || set -- "$$@" --trace; $(TRY)

# The crates with tests: they are run beside the commands that are shown, each by a build of its own.
TESTED = $(sort $(shell grep -rl --include=*.rt '^\#\[test\]' crates | cut -d/ -f2))

# In a copy: its path has a space, and so has that of temporary files, so what isn't quoted fails.
QUICK = quick-shown quick-tried $(TESTED:%=quick-%)

quick:
	python3 tests/edits.py
	python3 tests/budget.py
	@there=$$(mktemp -d) && trap 'rm -rf "$$there"' EXIT && mkdir "$$there/a copy" "$$there/for now" && \
	tar --exclude=./.git --exclude='./crates/*/out' -c . | tar -x -C "$$there/a copy" && \
	TMPDIR="$$there/for now" $(MAKE) --no-print-directory -C "$$there/a copy" -k -j4 -Otarget $(QUICK)

quick-shown:
	@python3 tests/docs.py --unproved

# What scripts try of the program, if it is there and of these sources.
quick-tried:
	@if test -x "$(PROGRAM)" && test -z "$$(find crates -name '*.rt' -newer "$(PROGRAM)")"; \
	then $(MAKE) --no-print-directory shown; \
	else echo "what scripts try of $(PROGRAM) is left out: it isn't there, or older than the sources"; fi

quick-%:
	@mkdir -p build
	@cd crates/$* && rt try --test > ../../build/quick-$* 2>&1 || { cat ../../build/quick-$*; exit 1; }
	@echo "$*: $$(grep '^test result: ' build/quick-$*)"

JOBS ?= $(shell awk -v most="$$(nproc)" '/^MemAvailable:/ { some = int($$2 / 4000000); \
	print some < 1 ? 1 : some < most ? some : most }' /proc/meminfo)

# In a crate's folder `rt all` checks that crate and those that it stands on.
build:
	@mkdir -p build
	@echo "Proving and building the program and what it is built from, $(JOBS) crates at once: three quarters of an hour"
	@echo "or more at first, under a minute after a small edit. To look at its progress: tail -f build/log"
	@cd crates/ctxbound && { rt all check --jobs $(JOBS) && rt run -- replay data/race.guest 0; } > ../../build/log 2>&1 \
		|| { cat ../../build/log; exit 1; }
	@cp crates/ctxbound/out/ctxbound build/ctxbound
	@echo "Proved: the program is build/ctxbound"

install:
	@$(NEEDS_PROGRAM)
	install -D -m 755 "$(PROGRAM)" "$(DESTDIR)$(PREFIX)/bin/ctxbound"
	@for pair in $(SHARED); do \
		install -D -m 644 "share/$${pair%%=*}" "$(SHARE)/$${pair#*=}" || exit 1; done
	@cd examples && for guest in $$(find . -name '*.guest'); do \
		install -D -m 644 "$$guest" "$(SHARE)/ctxbound/examples/$$guest" || exit 1; done
	@echo "Installed. If your shell doesn't find ctxbound: export PATH=\"$(PREFIX)/bin:\$$PATH\""

uninstall:
	@test -e "$(DESTDIR)$(PREFIX)/bin/ctxbound" || \
		{ echo "$(DESTDIR)$(PREFIX)/bin/ctxbound isn't there: nothing is installed at PREFIX=$(PREFIX)" >&2; exit 2; }
	rm -f "$(DESTDIR)$(PREFIX)/bin/ctxbound"
	@for pair in $(SHARED); do rm -f "$(SHARE)/$${pair#*=}"; done
	rm -rf "$(SHARE)/ctxbound"
	@test -z "$(DESTDIR)" || find "$(DESTDIR)" -mindepth 1 -depth -type d -empty -delete

dist:
	@$(NEEDS_PROGRAM)
	@mkdir -p build && rm -rf build/dist
	@$(MAKE) --no-print-directory install DESTDIR="$(CURDIR)/build/dist/$(NAMED)" PREFIX= > build/log
	@install -m 755 share/archive/install.sh "build/dist/$(NAMED)/install.sh"
	@install -m 644 share/archive/README.md CHANGELOG.md "build/dist/$(NAMED)"
	@install -D -m 644 -t "build/dist/$(NAMED)/share/doc/ctxbound" $(PAGES)
	@sed -i -e 's,](\.\./examples,](../../ctxbound/examples,g' \
		-e 's,\[FIGURES.md\](\.\./bench/FIGURES.md),FIGURES.md of the sources,' \
		build/dist/$(NAMED)/share/doc/ctxbound/*.md
	@tar -C build/dist --sort=name --owner=0 --group=0 --numeric-owner --mtime=@0 \
		-czf build/$(NAMED)-linux-x86_64.tar.gz $(NAMED)
	@rm -rf build/dist
	@echo "The archive is build/$(NAMED)-linux-x86_64.tar.gz"

check:
	@test -d "crates/$(C)/src" || { echo "Usage: make check C=crate, one of:" crates/*/ >&2; exit 2; }
	cd crates/$(C) && rt check

# The programs that `rt ci` proved and built stay in their crates' folders.
test:
	@python3 tests/gate.py

times:
	@python3 tests/budget.py --times

# Each script by itself, so that `make quick` tries some at once. What workers do is tried where the tool for it is there.
TOOLS = $(wildcard crates/tests_tools/out/tests_tools)
SHOWN = docs commands check explain simulator prefixes parts machines page symmetry around $(TOOLS:%=rounds)

shown: $(SHOWN:%=shown-%)
	"$(PROGRAM)" suite examples

BESIDE =
shown-commands: BESIDE = $(wildcard crates/ctxbound_first/out/ctxbound_first)
shown-rounds: BESIDE = $(TOOLS)
shown-%:
	@$(NEEDS_PROGRAM)
	python3 tests/$*.py "$(PROGRAM)" $(BESIDE)

# Small programs made at random, other ones each time.
fuzz:
	@$(NEEDS_PROGRAM)
	python3 tests/reference.py "$(PROGRAM)" --minutes $(MINUTES) --seed $(shell date +%s)

bench:
	@mkdir -p build
	@cd crates/tests_tools && rt run -- walk data/race.guest 1 > ../../build/log 2>&1 || { cat ../../build/log; exit 1; }
	@python3 bench/walk.py
	@test ! -x build/ctxbound || python3 bench/workers.py build/ctxbound
	@test ! -x build/ctxbound || python3 bench/parts.py build/ctxbound
	@test ! -x build/ctxbound || python3 bench/beside.py build/ctxbound
	@test ! -x build/ctxbound || python3 bench/spin.py build/ctxbound
	@test ! -x build/ctxbound || python3 bench/explanations.py build/ctxbound

clean:
	rm -rf build crates/*/out

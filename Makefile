# roombox: build, run, test and measure. RT is the command of the Rattle kit.
RT ?= rt
EXAMPLE := examples/first-request.ics-stream

# Where `make install` puts things: below PREFIX, and all of that below DESTDIR, which is the root of the system if it is empty.
PREFIX ?= /usr/local
DESTDIR ?=
PROGRAM ?= bin/roombox
VERSION := 0.1.0
BELOW = $(DESTDIR)$(PREFIX)
MAN_PAGE = $(BELOW)/share/man/man1/roombox.1
COMPLETION = $(BELOW)/share/bash-completion/completions/roombox
# README, what it leads to, and the examples, with the same folders between them
DOCUMENTS = $(BELOW)/share/doc/roombox
DOCUMENT_FILES := README.md CHANGELOG.md $(wildcard docs/*.* docs/pictures/*.* examples/*.* examples/*/*.*)

.PHONY: try run test attack bench fuzz man layout tables install uninstall deb clean

# Answers the first request in about 2 minutes. Nothing is proved this way.
try:
	@cd crates/roombox && $(RT) try < ../../$(EXAMPLE)
	@echo "(nothing was proved: 'make run' proves what it runs)"

# Proves and builds the program, leaves it as bin/roombox, and answers the first request.
run: bin/roombox
	bin/roombox < $(EXAMPLE)

bin/roombox: FORCE
	@mkdir -p bin out
	@RT=$(RT) python3 tools/prove.py roombox
	@cd crates/roombox && $(RT) run < ../../$(EXAMPLE) > ../../out/first-reply 2>> ../../out/build.log \
		|| { cat ../../out/build.log; exit 1; }
	@cp crates/roombox/out/roombox bin/roombox

FORCE:

# The whole gate: every proof from nothing, the edits that must fail, the tests and the programs.
test:
	$(RT) ci

# The tables of the documents that scripts make from the sources; with CHECK=--check they are only compared.
tables:
	@status=0; for script in crates contracts definitions vocabulary premises users; do \
		python3 docs/tables/$$script.py $(CHECK) || status=1; done; exit $$status

# Lays out each crate as the gate wants it: a file that isn't stops its crate and all above it.
layout:
	@for crate in crates/*/; do (cd $$crate && $(RT) fmt) || exit 1; done

# The planted edits that the gate doesn't try, in rounds: all, those of CRATE, or those of the crates that changed since a commit (SINCE). All take a
# night of two processors. out/attack.tsv has the verdict of each; with LEFT=1 what is refused there with the same sources isn't tried again.
attack:
	@RT=$(RT) python3 tools/attack.py $(CRATE) $(if $(SINCE),--since $(SINCE)) $(if $(LEFT),--left)

# The worked examples of texts, of which bench takes the jumps in the days of rules.
bin/text_examples: bin/roombox FORCE
	@cd crates/text_examples && $(RT) run -- seeks < /dev/null 2> ../../out/build.log || { cat ../../out/build.log; exit 1; }
	@cp crates/text_examples/out/text_examples bin/text_examples

# Those of events, of which bench takes the jumps to an instance. Without its tables the program itself ends at once.
bin/worked_examples: bin/roombox FORCE
	@rm -f crates/worked_examples/out/worked_examples
	@-cd crates/worked_examples && $(RT) run < /dev/null > /dev/null 2> ../../out/build.log
	@cp crates/worked_examples/out/worked_examples bin/worked_examples || { cat out/build.log; exit 1; }

# Those of commands and boxes, of which tests take the runs in memory.
bin/command_examples: bin/roombox FORCE
	@rm -f crates/command_examples/out/command_examples
	@-cd crates/command_examples && $(RT) run < /dev/null > /dev/null 2> ../../out/build.log
	@cp crates/command_examples/out/command_examples bin/command_examples || { cat out/build.log; exit 1; }

# Those of schedules, of which bench takes a long one. Without its tables the program itself ends at once.
bin/schedule_examples: bin/roombox FORCE
	@rm -f crates/schedule_examples/out/schedule_examples
	@-cd crates/schedule_examples && $(RT) run < /dev/null > /dev/null 2> ../../out/build.log
	@cp crates/schedule_examples/out/schedule_examples bin/schedule_examples || { cat out/build.log; exit 1; }

# One table: serving, reading, rules, checking, schedules and boxes, with sizes, times, peak memory and growth. It takes about half a minute, then as
# long as the disk takes for 20,000 answers or more, each synced twice, and then some minutes for hostile sizes; with LARGE=1 these are up to 1 GB.
bench: bin/roombox bin/text_examples bin/worked_examples bin/schedule_examples
	python3 bench/bench.py bin/roombox bin/text_examples bin/worked_examples bin/schedule_examples $(if $(LARGE),--large)

# Spoiled input for each command, or for COMMAND, for so many SECONDS. A crash, a hang or a status that the manual doesn't list is kept in out/fuzz.
fuzz: bin/roombox
	python3 tests/fuzz.py bin/roombox $(if $(SECONDS),--seconds $(SECONDS)) $(if $(COMMAND),--command $(COMMAND)) $(if $(SEED),--seed $(SEED))

# The man page and the bash completion, docs/roombox.1 and docs/roombox.bash, from the program's help; and the table of numbers in docs/REFERENCE.md.
man: bin/roombox
	python3 docs/tables/man_page.py bin/roombox docs
	python3 docs/tables/users.py

# The program that `make run` has built, its man page, its completion in bash, its documents and its examples. It builds nothing: so it can be run by root.
install:
	@test -x $(PROGRAM) || { echo "$(PROGRAM) isn't there: 'make run' proves and builds it" >&2; exit 1; }
	install -D -m 755 $(PROGRAM) "$(BELOW)/bin/roombox"
	install -D -m 644 docs/roombox.1 "$(MAN_PAGE)"
	install -D -m 644 docs/roombox.bash "$(COMPLETION)"
	@for file in $(DOCUMENT_FILES); do install -D -m 644 $$file "$(DOCUMENTS)/$$file" || exit 1; done

# Takes away what `make install` with the same PREFIX and DESTDIR has put there.
uninstall:
	rm -f "$(BELOW)/bin/roombox" "$(MAN_PAGE)" "$(COMPLETION)"
	rm -rf "$(DOCUMENTS)"

# The same as a package of Debian, in out/; dpkg-deb alone is needed for it.
deb:
	@rm -rf out/deb
	@$(MAKE) --no-print-directory --silent install DESTDIR=out/deb PREFIX=/usr
	@gzip -9n out/deb/usr/share/man/man1/roombox.1
	@mkdir out/deb/DEBIAN
	@{ echo "Package: roombox"; echo "Version: $(VERSION)"; echo "Architecture: $$(dpkg --print-architecture)"; \
		echo "Maintainer: the makers of roombox <roombox@localhost>"; echo "Depends: libc6"; echo "Suggests: python3"; \
		echo "Section: mail"; echo "Priority: optional"; echo "Installed-Size: $$(du -sk out/deb/usr | cut -f1)"; \
		echo "Description: answers meeting requests for rooms without double-booking"; \
		echo " It reads iCalendar objects and iTIP messages, single meetings and series,"; \
		echo " and keeps a calendar for each room, which a separate checker judges."; } > out/deb/DEBIAN/control
	dpkg-deb --root-owner-group --build out/deb out/roombox_$(VERSION)_$$(dpkg --print-architecture).deb

clean:
	rm -rf bin out crates/*/out

.PHONY: check check-servers check-browser check-long counts

# Every script of tests/ that needs the program alone, side by side: a line each, and 'N passed, M failed'. A script that lacks a tool says so, and has failed.
# ONLY names some of them; PYTHON is one that has the modules. With CHECKED=out/try/roombox nothing is proved: that is built in minutes.
PYTHON ?= python3
CHECKED ?= bin/roombox
check: $(CHECKED)
	@$(PYTHON) tests/check.py $(CHECKED) $(ONLY)

# Those that need a server of mails, calendars or logs, or mail programs; a browser; an hour, or the programs of the example crates.
check-servers: $(CHECKED)
	@$(PYTHON) tests/check.py $(CHECKED) --kind servers

check-browser: $(CHECKED)
	@$(PYTHON) tests/check.py $(CHECKED) --kind browser

check-long: $(CHECKED) bin/worked_examples bin/schedule_examples bin/command_examples
	@$(PYTHON) tests/check.py $(CHECKED) --kind long

# What the last runs of these counted, into docs/ASSURANCE.md.
counts:
	@$(PYTHON) tests/check.py --counts

# A program without proofs.
out/try/%: $(shell find crates -name '*.rt')
	@$(PYTHON) tests/tried.py $*
